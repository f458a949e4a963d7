"""Both sides of the limits: what is just small enough is taken, and one more is refused."""
import inputs
from program import ROOT, equal, gives, stops

MOST = 1_048_576
MOST_BYTES = 67_108_864
AND = ROOT / "examples" / "and2.pim"


def compile_with(pim, netlist, cells=MOST):
    return pim("compile", "--target", "magic", "--cells", str(cells), stdin=netlist)


def ports_alone(inputs, outputs):
    """The program without instructions whose inputs stand in the first cells, and whose outputs are all the first cell."""
    lines = ["pim 1", "target magic", f"cells {len(inputs)}"]
    lines += [f"input {cell} {label}" for cell, label in enumerate(inputs)]
    lines += [f"output 0 {label}" for label in outputs]
    return "\n".join(lines + ["cycles 0", "end", ""]).encode()


def test_signals_of_blif(pim, folder):
    """1,048,576 inputs are 1,048,576 signals, and each takes a cell. One more is refused."""
    names = [f"x{k}" for k in range(MOST)]
    netlist = (".inputs " + " ".join(names[:-1]) + "\n.inputs " + names[-1] + "\n").encode()
    gives(compile_with(pim, netlist), ports_alone(names, []))
    stops(compile_with(pim, netlist + b".inputs y\n"), 7, "too large: signals")


def test_signals_of_covers_in_blif(pim, folder):
    """Covers without rows are signals too. None is an output, so the program is empty. One more is refused."""
    covers = "".join(f".names x{k}\n" for k in range(MOST)).encode()
    gives(compile_with(pim, covers, 0), ports_alone([], []))
    stops(compile_with(pim, covers + b".names y\n", 0), 7, "too large: signals")


def test_signals_of_aiger(pim, folder):
    """1,048,575 variables and the constant are 1,048,576 signals. One variable more is refused, before its line is read."""
    literals = "".join(f"{2 * k}\n" for k in range(1, MOST)).encode()
    netlist = b"aag 1048575 1048575 0 0 0\n" + literals
    gives(compile_with(pim, netlist), ports_alone([f"i{k}" for k in range(MOST - 1)], []))
    gives(compile_with(pim, b"aig 1048575 1048575 0 0 0\n"), ports_alone([f"i{k}" for k in range(MOST - 1)], []))
    stops(compile_with(pim, b"aag 1048576 1048576 0 0 0\n" + literals), 7, "too large: signals")
    stops(compile_with(pim, b"aig 1048576 1048576 0 0 0\n"), 7, "too large: signals")


def test_outputs_of_blif(pim, folder):
    """1,048,576 outputs may all be one signal. One more is refused."""
    netlist = b".inputs a\n.outputs" + b" a" * MOST + b"\n"
    gives(compile_with(pim, netlist, 1), ports_alone(["a"], ["a"] * MOST))
    stops(compile_with(pim, netlist + b".outputs a\n", 1), 7, "too large: outputs")


def test_outputs_of_aiger(pim, folder):
    """1,048,576 outputs may all be one literal. One more is refused, in both forms."""
    lines = b"2\n" * (MOST + 1)
    outputs = ports_alone(["i0"], [f"o{k}" for k in range(MOST)])
    gives(compile_with(pim, b"aag 1 1 0 1048576 0\n2\n" + lines[2:], 1), outputs)
    gives(compile_with(pim, b"aig 1 1 0 1048576 0\n" + lines[2:], 1), outputs)
    stops(compile_with(pim, b"aag 1 1 0 1048577 0\n2\n" + lines, 1), 7, "too large: outputs")
    stops(compile_with(pim, b"aig 1 1 0 1048577 0\n" + lines, 1), 7, "too large: outputs")


def test_the_bytes_of_a_name(pim, folder):
    """A name of 4,096 bytes is taken, in BLIF and as a symbol of AIGER. One byte more is refused."""
    name = "n" * 4_096
    program = ports_alone([name], [name])
    gives(compile_with(pim, f".inputs {name}\n.outputs {name}\n".encode(), 1), program)
    for before in ".inputs ", ".outputs ", ".inputs a\n.names a ", ".names f\n.names ":
        stops(compile_with(pim, f"{before}{name}n\n".encode(), 1), 7, "too large: name")
    symbols = f"aag 1 1 0 1 0\n2\n2\ni0 {name}\no0 {name}".encode()
    gives(compile_with(pim, symbols, 1), program)
    stops(compile_with(pim, symbols + b"n", 1), 7, "too large: name")


def test_the_bytes_of_a_netlist(pim, folder):
    """67,108,864 bytes are read and judged: a comment alone is no netlist. One more is too large."""
    stops(compile_with(pim, inputs.most_bytes()), 1, "bad input: blif line 1: syntax")
    stops(compile_with(pim, inputs.too_many_bytes()), 7, "too large: bytes")


def test_the_bytes_of_the_vectors(pim, folder):
    """Of lines of 101 bytes 664,444 fit into 67,108,864 bytes. The results of the 162 tiles of 4,096 that they fill are written."""
    path = folder / "wide.pim"
    path.write_bytes(ports_alone([f"i{k}" for k in range(100)], ["o"]))
    line = b"1" + b"0" * 99 + b"\n"
    answer = pim("run", path, stdin=line * 664_445)
    stops(answer, 7, "too large: bytes", b"1\n" * (162 * 4_096))
    gives(pim("run", path, stdin=line * 664_444), b"1\n" * 664_444)


def test_the_last_bytes_of_the_vectors(pim, folder):
    """Of lines of 65 bytes 1,032,444 end within the limit, and four bytes of the next are within it. At the limit these four are a
    line, a wrong one. With one byte more there are too many. The results of the 252 tiles that are full are written before."""
    path = folder / "wide.pim"
    path.write_bytes(ports_alone([f"i{k}" for k in range(64)], ["o"]))
    vectors = (b"1" * 64 + b"\n") * 1_032_445
    results = b"1\n" * (252 * 4_096)
    stops(pim("run", path, stdin=vectors[:MOST_BYTES]), 1, "bad input: vector line 1032445", results)
    stops(pim("run", path, stdin=vectors[:MOST_BYTES + 1]), 7, "too large: bytes", results)


def test_the_lines_of_vectors(pim, folder):
    """1,048,576 lines are executed. One more is refused, after the results of the 256 tiles before it."""
    path = folder / "wire.pim"
    path.write_bytes(ports_alone(["a"], ["a"]))
    gives(pim("run", path, stdin=b"1\n" * MOST), b"1\n" * MOST)
    stops(pim("run", path, stdin=b"1\n" * MOST + b"1\n"), 7, "too large: rows", b"1\n" * MOST)


def test_a_program_without_inputs(pim, folder):
    """The lines of a program without inputs are empty, and each has a result."""
    path = folder / "one.pim"
    path.write_bytes(b"pim 1\ntarget magic\ncells 1\noutput 0 f\ncycles 1\ninit 0\nend\n")
    gives(pim("run", path, stdin=b"\n" * 5_000), b"1\n" * 5_000)


def test_the_bytes_of_turns(pim, folder):
    """33,554,432 turns of two bytes are read and judged: the program has four instructions. One byte more is too large."""
    turns = b"0\n" * (MOST_BYTES // 2)
    stops(pim("share", AND, "--cells", "5", stdin=turns), 1, "bad input: turn line 5")
    stops(pim("share", AND, "--cells", "5", stdin=turns + b"0"), 7, "too large: bytes")


def test_the_bytes_of_assembly(pim, folder):
    """67,108,864 bytes are read and judged: a comment alone has no statement. One more is too large."""
    stops(pim("asm", stdin=b";" * MOST_BYTES), 1, "bad input: assembly line 2")
    stops(pim("asm", stdin=b";" * (MOST_BYTES + 1)), 7, "too large: bytes")


def test_the_bytes_of_a_debugger(pim, folder):
    """A vector and 1,032,444 blank lines of 65 bytes are a byte fewer than may be read. One such line more is too large."""
    lines = b"11\n" + (b" " * 64 + b"\n") * 1_032_444
    gives(pim("debug", AND, stdin=lines), b"")
    stops(pim("debug", AND, stdin=lines + b" " * 64 + b"\n"), 7, "too large: bytes")


def test_the_lines_of_a_debugger(pim, folder):
    """1,048,576 lines are taken, with that of the vector. One more is refused, after the replies before it."""
    lines = b"11\nstep\n" + b"\n" * (MOST - 2)
    gives(pim("debug", AND, stdin=lines), b"at 1\n")
    stops(pim("debug", AND, stdin=lines + b"\n"), 7, "too large: rows", b"at 1\n")


def test_the_length_of_a_debuggers_line(pim, folder):
    """A line has 64 bytes at most, or as many as the program has inputs."""
    gives(pim("debug", AND, stdin=b"11\n" + b"cell 0".ljust(64) + b"\n"), b"cell 0 1\n")
    stops(pim("debug", AND, stdin=b"11\n" + b"cell 0".ljust(65) + b"\n"), 1, "bad input: debug line 2: bad command")
    path = folder / "wide.pim"
    path.write_bytes(ports_alone([f"i{k}" for k in range(100)], ["o"]))
    vector = b"1" * 100 + b"\n"
    gives(pim("debug", path, stdin=vector + b"cell 0".ljust(100) + b"\n"), b"cell 0 1\n")
    stops(pim("debug", path, stdin=vector + b"cell 0".ljust(101) + b"\n"), 1, "bad input: debug line 2: bad command")


def test_the_inputs_of_a_comparison(pim, folder):
    """Twenty inputs are compared on all their 1,048,576 vectors. With one more there are too many."""
    path = folder / "wires.pim"
    for count in 20, 21:
        names = [f"i{k}" for k in range(count)]
        path.write_bytes(ports_alone(names, ["i0"]))
        answer = pim("prove", path, stdin=f".inputs {' '.join(names)}\n.outputs i0\n".encode())
        if count == 20:
            gives(answer, b"equal 1048576\n")
        else:
            stops(answer, 7, "too large: inputs")


def test_the_lines_of_vectors_for_imply(pim, folder):
    """1,048,576 lines are executed. One more is refused, after the results of the 256 tiles before it."""
    path = folder / "wire.imply"
    path.write_bytes(b"imply 1\ncells 1\ninput 0 a\noutput 0 a\ncycles 0\nend\n")
    gives(pim("implyrun", path, stdin=b"1\n" * MOST), b"1\n" * MOST)
    stops(pim("implyrun", path, stdin=b"1\n" * MOST + b"1\n"), 7, "too large: rows", b"1\n" * MOST)


def test_the_cells_of_texts(pim, folder):
    """1,048,576 cells are right in each text of a program. With one more a program is too large, and assembly wrong in that line."""
    path = folder / "it"

    def text(first, cells):
        return f"{first}\ncells {cells}\ncycles 0\nend\n".encode()

    path.write_bytes(text("imply 1", MOST))
    gives(pim("implyrun", path), b"")
    path.write_bytes(text("imply 1", MOST + 1))
    stops(pim("implyrun", path), 7, "too large: cells")
    program, larger = (text("pim 1\ntarget magic", cells) for cells in (MOST, MOST + 1))
    gives(pim("convert", "--form", "1", stdin=program), program)
    stops(pim("convert", "--form", "1", stdin=larger), 7, "too large: cells")
    gives(pim("asm", stdin=f"target magic\ncells {MOST}\n".encode()), program)
    stops(pim("asm", stdin=f"target magic\ncells {MOST + 1}\n".encode()), 1, "bad input: assembly line 2")
    path.write_bytes(program)
    gives(pim("share", path, "--cells", str(MOST)), program)
    path.write_bytes(larger)
    stops(pim("share", path, "--cells", str(MOST)), 7, "too large: cells")


def test_the_numbers_of_a_program(pim, folder):
    """4,294,967,295 is a number, here too many cells. One more is none."""
    path = folder / "it.pim"
    for cells, status, note in (4_294_967_295, 7, "too large: cells"), (4_294_967_296, 1, "bad input: program line 3"):
        path.write_text(f"pim 1\ntarget magic\ncells {cells}\ncycles 0\nend\n")
        stops(pim("list", path), status, note)


def test_the_bits_of_a_bench(pim, folder):
    """An adder has 1 to 64 bits."""
    for bits in "0", "65":
        stops(pim("bench", bits), 2, "usage")
    for bits, first in ("1", b"bench 1 inputs 3 outputs 2 rows 262144"), ("64", b"bench 64 inputs 129 outputs 65 rows 262144"):
        answer = pim("bench", bits)
        equal("the status", answer.status, 0)
        equal("the first line", answer.output.split(b"\n")[0], first)
