"""The machine of docs/machine.md, a row of bits in a list. It is written from that page and shares nothing with the program."""


def parsed(text):
    """A program's text: the number of cells, the cells of the inputs and of the outputs, and the lines of the instructions."""
    lines = text.decode("latin1").split("\n")
    ports = {kind: [int(line.split(" ")[1]) for line in lines if line.startswith(kind + " ")] for kind in ("input", "output")}
    begin = next(k for k, line in enumerate(lines) if line.startswith("cycles "))
    cells = next(line for line in lines if line.startswith("cells "))
    return int(cells.removeprefix("cells ")), ports["input"], ports["output"], lines[begin + 1:lines.index("end")]


def step(row, instruction):
    """Executes one instruction: an `init` sets cells, a NOR can only clear its target, an RM3 takes a majority, a `false` clears a
    cell, and an `imp` leaves whether one cell implies another in that other one."""
    word, *operands = instruction.split(" ")
    if word == "init":
        for cell in operands:
            row[int(cell)] = 1
    elif word in ("not", "nor"):
        target, *read = map(int, operands)
        row[target] = int(row[target] and not any(row[cell] for cell in read))
    elif word == "rm3":
        p, q, z = [int(text[1:]) if text[0] == "#" else row[int(text[1:])] for text in operands]
        row[int(operands[2][1:])] = int(p + (1 - q) + z >= 2)
    elif word == "false":
        row[int(operands[0])] = 0
    elif word == "imp":
        p, q = map(int, operands)
        row[q] = int(not row[p] or row[q])
    else:
        raise ValueError(instruction)


def executed(text, vector, row):
    """The output bits of a program whose input cells hold the vector, and whose other cells hold what the row has."""
    cells, inputs, outputs, instructions = parsed(text)
    row = list(row[:cells])
    for cell, bit in zip(inputs, vector):
        row[cell] = int(bit)
    for instruction in instructions:
        step(row, instruction)
    return "".join(str(row[cell]) for cell in outputs)


def primed(text):
    """Whether the last instruction that wrote a NOR's target before it is an `init`, for each NOR."""
    last = {}
    for instruction in parsed(text)[3]:
        word, *operands = instruction.split(" ")
        if word in ("not", "nor") and last.get(operands[0]) != "init":
            return False
        for cell in operands if word == "init" else operands[:1]:
            last[cell] = word
    return True
