"""`prove`: compiled programs are equal to their netlists, and programs with one instruction changed are judged as the machine does."""
import machine
from program import ROOT, equal, gives, stops

EXAMPLES = ROOT / "examples"


def small_netlists():
    """The netlists of examples/, none of which has more than 20 inputs: the name and the bytes of each."""
    for path in sorted(EXAMPLES.iterdir()):
        if path.suffix in {".aag", ".aig", ".blif"}:
            yield path.name, path.read_bytes()


def compiled(pim, target, cells, netlist, level="0"):
    answer = pim("compile", "--target", target, "--cells", cells, "--level", level, stdin=netlist)
    equal("the note", answer.notes, b"")
    return answer.output


def test_compiled_programs_are_equal(pim, folder):
    """The programs of each example, for each machine and level, in few cells and in many and in both forms, are equal to it."""
    for name, netlist in small_netlists():
        note = pim("compile", "--target", "magic", "--cells", "0", stdin=netlist).notes.decode()
        kinds = [("magic", note.split()[-1]), ("magic", "1000"), ("plim", "1000")]
        for target, cells, level in [(*kind, level) for kind in kinds for level in "012"]:
            text = compiled(pim, target, cells, netlist, level)
            (folder / "program").write_bytes(text)
            wanted = f"equal {2 ** len(machine.parsed(text)[1])}\n".encode()
            gives(pim("prove", folder / "program", stdin=netlist), wanted)
            (folder / "program").write_bytes(pim("convert", "--form", "2", stdin=text).output)
            gives(pim("prove", folder / "program", stdin=netlist), wanted)


def first_unset(text):
    """The note on the first use of a cell that was never written, by docs/formats.md, or None."""
    _, inputs, outputs, body = machine.parsed(text)
    written = set(inputs)
    for number, line in enumerate(body):
        word, *operands = line.split(" ")
        if word == "init":
            written |= set(map(int, operands))
            continue
        if word == "rm3":
            cells = [int(text[1:]) for text in operands[:2] if text[0] == "@"]
            target = int(operands[2][1:])
            if set(operands[:2]) != {"#0", "#1"}:
                cells.append(target)
        else:
            target, *cells = map(int, operands)
            cells.append(target)
        for cell in cells:
            if cell not in written:
                return f"bad input: program instruction {number} uses unset cell {cell}"
        written.add(target)
    for number, cell in enumerate(outputs):
        if cell not in written:
            return f"bad input: program output {number} is unset"
    return None


def changes(line, cells):
    """The instruction with one word changed in each way that leaves it valid."""
    word, *operands = line.split(" ")
    if word == "init":
        for gone in operands if len(operands) > 1 else []:
            yield " ".join([word, *(cell for cell in operands if cell != gone)])
        return
    for place in range(len(operands)):
        values = [f"@{c}" for c in range(cells)] if word == "rm3" else [str(c) for c in range(cells)]
        for value in values + (["#0", "#1"] if word == "rm3" and place < 2 else []):
            changed = [*operands[:place], value, *operands[place + 1:]]
            target, others = (changed[2], changed[:2]) if word == "rm3" else (changed[0], changed[1:])
            if target not in others:
                yield " ".join([word, *changed])


def verdict(text, table):
    """Status and note, or output, of `prove` by the machine: `table` has the netlist's outputs of each vector, in order."""
    unset = first_unset(text)
    if unset:
        return 1, unset
    for vector, wanted in table:
        got = machine.executed(text, vector, [0] * 64)
        if got != wanted:
            output = next(k for k, (a, b) in enumerate(zip(got, wanted)) if a != b)
            return 8, f"unequal {vector} output {output}"
    return 0, f"equal {len(table)}\n"


def sweep(pim, folder, netlist, table, target, cells):
    """Every change of one instruction of a compiled program is judged as the machine judges it. Gives the statuses that came."""
    text = compiled(pim, target, cells, netlist).decode()
    width, *_, body = machine.parsed(text.encode())
    statuses = set()
    for number, line in enumerate(body):
        for changed in changes(line, width):
            lines = [*body[:number], changed, *body[number + 1:]]
            head = text[:text.index("cycles ")]
            program = (head + f"cycles {len(lines)}\n" + "".join(f"{each}\n" for each in lines) + "end\n").encode()
            (folder / "program").write_bytes(program)
            answer = pim("prove", folder / "program", stdin=netlist)
            status, said = verdict(program, table)
            statuses.add(status)
            if status:
                stops(answer, status, said)
            else:
                gives(answer, said.encode())
    return statuses


def test_a_changed_instruction(pim, folder):
    """Of the AND and of the full adder, on each machine, every program with one word of one instruction changed is equal, unequal or
    uses an unset cell exactly as the machine of docs/machine.md says."""
    conjunction = [(vector, str(int(vector == "11"))) for vector in ("00", "01", "10", "11")]
    sums = [(format(k, "03b"), format(k, "03b").count("1")) for k in range(8)]
    adder = [(vector, f"{total % 2}{total // 2}") for vector, total in sums]
    for name, table in ("and2.aag", conjunction), ("full_adder.aag", adder):
        netlist = (EXAMPLES / name).read_bytes()
        came = set()
        for target, cells in ("magic", "1000"), ("plim", "1000"):
            came |= sweep(pim, folder, netlist, table, target, cells)
        equal(f"the statuses that came for {name}", came, {0, 1, 8})
