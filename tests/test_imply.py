"""The IMPLY machine: programs of netlists and random ones, against the machine of machine.py and the other targets, and texts with one line changed."""
import random
import resource

import machine
from program import ROOT, equal, gives, stops

EXAMPLES = ["and2.aag", "full_adder.aag", "adder8.aag", "comparator8.blif", "gray3.blif", "alu8.aig", "bcd7.blif", "crc8.aig"]

# The AND of two inputs. Its NAND is in cell 2, and the NOT of that in cell 3.
AND = b"imply 1\ncells 4\ninput 0 i0\ninput 1 i1\noutput 3 o0\ncycles 5\nfalse 2\nimp 1 2\nimp 0 2\nfalse 3\nimp 2 3\nend\n"


def lines(texts):
    """The texts, a line for each."""
    return "".join(text + "\n" for text in texts).encode()


def least(pim, netlist):
    """How many cells the netlist needs, as the note says."""
    note = pim("imply", "--cells", "0", stdin=netlist).notes
    return int(note.decode().removeprefix("pim: too few cells: needed "))


def test_programs_give_what_those_of_the_other_targets_give(pim, folder):
    """The example netlists' programs give what their MAGIC programs give, and what the machine gives from random content."""
    chance = random.Random(25)
    for name in EXAMPLES:
        netlist = (ROOT / "examples" / name).read_bytes()
        (folder / "magic.pim").write_bytes(pim("compile", "--target", "magic", "--cells", "1000", stdin=netlist).output)
        cells = least(pim, netlist)
        answer = pim("imply", "--cells", str(cells), stdin=netlist)
        equal(f"the status on {name}", answer.status, 0)
        (folder / "program.imply").write_bytes(answer.output)
        size, inputs, _, _ = machine.parsed(answer.output)
        equal(f"the cells of {name}", size, cells)
        equal(f"the input cells of {name}", inputs, list(range(len(inputs))))
        vectors = ["".join(chance.choice("01") for _ in inputs) for _ in range(200)]
        wanted = pim("run", folder / "magic.pim", stdin=lines(vectors)).output
        for fill in ("zeros", "ones"):
            gives(pim("implyrun", folder / "program.imply", "--fill", fill, stdin=lines(vectors)), wanted)
        rows = [[chance.randrange(2) for _ in range(size)] for _ in vectors[:10]]
        results = [machine.executed(answer.output, vector, row) for vector, row in zip(vectors, rows)]
        equal(f"the results of {name}", lines(results), b"".join(wanted.splitlines(keepends=True)[:10]))


def test_one_cell_too_few(pim, folder):
    """A cell below what is needed is too few, and more cells change nothing."""
    for name in EXAMPLES:
        netlist = (ROOT / "examples" / name).read_bytes()
        cells = least(pim, netlist)
        stops(pim("imply", "--cells", str(cells - 1), stdin=netlist), 6, f"too few cells: needed {cells}")
        gives(pim("imply", "--cells", "1000", stdin=netlist), pim("imply", "--cells", str(cells), stdin=netlist).output)


def any_program(chance):
    """A random valid program: inputs and outputs in any cells, inputs that are written, cells that nothing wrote."""
    cells = chance.randint(2, 12)
    inputs = chance.sample(range(cells), chance.randint(0, 2))
    outputs = [chance.randrange(cells) for _ in range(chance.randint(0, 6))]
    body = []
    for _ in range(chance.randint(0, 30)):
        p, q = chance.sample(range(cells), 2)
        body.append(chance.choice([f"false {q}", f"imp {p} {q}", f"imp {p} {q}"]))
    ports = [f"input {cell} i" for cell in inputs] + [f"output {cell} o" for cell in outputs]
    return lines(["imply 1", f"cells {cells}", *ports, f"cycles {len(body)}", *body, "end"])


def test_random_programs(pim, folder):
    """A hundred random programs, with both fillings, give on all vectors what the machine gives."""
    chance = random.Random(26)
    for _ in range(100):
        text = any_program(chance)
        (folder / "program.imply").write_bytes(text)
        inputs = len(machine.parsed(text)[1])
        vectors = [format(k, f"0{inputs}b") if inputs else "" for k in range(2 ** inputs)]
        for bit, fill in enumerate(["zeros", "ones"]):
            results = [machine.executed(text, vector, [bit] * 12) for vector in vectors]
            gives(pim("implyrun", folder / "program.imply", "--fill", fill, stdin=lines(vectors)), lines(results))


def test_one_line_changed(pim, folder):
    """Each line of a program that is left out, written twice or spelled with one more blank is told."""
    path = folder / "changed.imply"
    text = AND.decode().splitlines()
    for at, line in enumerate(text):
        path.write_bytes(lines(text[:at] + [line.replace(" ", "  ", 1) if " " in line else line + " "] + text[at + 1:]))
        stops(pim("implyrun", path, stdin=b"11\n"), 1, f"bad input: imply line {at + 1}")
    path.write_bytes(lines(text[:6] + text[7:]))
    stops(pim("implyrun", path, stdin=b"11\n"), 1, "bad input: imply line 11")
    path.write_bytes(lines(text[:6] + text[6:7] + text[6:]))
    stops(pim("implyrun", path, stdin=b"11\n"), 1, "bad input: imply line 12")


def test_full_tiles_come_before_a_refused_vector(pim, folder):
    """Of 4,100 vectors and a wrong one 4,096 have results, however many cells the program has."""
    path = folder / "program.imply"
    for cells in (4, 70_000):
        path.write_bytes(AND.replace(b"cells 4", f"cells {cells}".encode()))
        answer = pim("implyrun", path, stdin=b"11\n10\n" * 2050 + b"1\n")
        equal("the status", answer.status, 1)
        equal("the note", answer.notes, b"pim: bad input: vector line 4101\n")
        equal("the output", answer.output, b"1\n0\n" * 2048)


def test_many_cells_in_little_memory(pim, folder):
    """A program of a million cells, inputs and outputs runs on vectors in passes, and takes no half a gigabyte."""
    path = folder / "wide.imply"
    wide = 1_048_576
    ports = [f"input {cell} i" for cell in range(wide)] + [f"output {cell} o" for cell in range(wide)]
    path.write_bytes(lines(["imply 1", f"cells {wide}", *ports, "cycles 1", f"imp 0 {wide - 1}", "end"]))
    vectors = ["1" + "0" * (wide - 1), "0" * wide, "01" * (wide // 2)]
    results = [vectors[0], "0" * (wide - 1) + "1", vectors[2]]

    def limited():
        resource.setrlimit(resource.RLIMIT_AS, (600 * 2 ** 20, 600 * 2 ** 20))

    gives(pim("implyrun", path, stdin=lines(vectors), preexec_fn=limited), lines(results))
