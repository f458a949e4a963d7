"""Little memory: whatever the limit is, a call gives all of its output or says that it is out of memory, and then no output."""
import resource

import inputs
from program import ROOT, equal, gives, stops

MB = 1_000_000
INITS = 200_000  # instructions of a long program


def under(limit):
    """What sets the limit of a call's memory, as `ulimit -v` does."""
    return lambda: resource.setrlimit(resource.RLIMIT_AS, (limit, limit))


def least(pim):
    """The least limit, in steps of a megabyte, under which the program starts at all: it finds that it has no words."""
    for limit in range(2 * MB, 100 * MB, MB):
        try:
            if pim(preexec_fn=under(limit)).status == 2:
                return limit
        except OSError:
            pass
    raise AssertionError("the program does not start in 100 MB")


def sweep(pim, words, stdin, output):
    """Calls under rising limits, and fails where an answer is neither the whole output nor out of memory. Both have to come."""
    seen = set()
    for limit in range(least(pim), 200 * MB, 2 * MB):
        answer = pim(*words, stdin=stdin, preexec_fn=under(limit))
        seen.add(answer.status)
        if answer.status == 5:
            stops(answer, 5, "no memory")
        else:
            gives(answer, output)
            break
    equal("the statuses", seen, {0, 5})


def test_compile_in_little_memory(pim, folder):
    """A netlist of 100,000 covers that hand an input on."""
    program = b"pim 1\ntarget magic\ncells 1\ninput 0 x0\noutput 0 x100000\ncycles 0\nend\n"
    sweep(pim, ["compile", "--target", "magic", "--cells", "1"], inputs.buffer_chain(), program)


def test_run_in_little_memory(pim, folder):
    """A program of 60,000 cells, whose rows take 30 MB."""
    path = folder / "wide.pim"
    path.write_bytes((ROOT / "examples" / "and2.pim").read_bytes().replace(b"cells 5\n", b"cells 60000\n"))
    sweep(pim, ["run", path], b"11\n10\n" * 5_000, b"1\n0\n" * 5_000)


def test_texts_in_little_memory(pim, folder):
    """A program of 200,000 times the same instruction: its listing, its explanation, its two forms, and assembly of it."""
    head, body = b"pim 1\ntarget magic\ncells 1\ncycles %d\n" % INITS, b"init 0\n" * INITS
    program = head + body + b"end\n"
    listing = b"target magic\ncells 1\n" + b"".join(b"init 0 ; %d\n" % k for k in range(INITS))
    lives = b"cell 0:" + b"".join(b" %d..-" % k for k in range(INITS)) + b"\ncells 1 cycles %d\n" % INITS
    # the target, one cell, no ports, and 200,000 in seven bits a byte
    binary = b"pim2\n" + bytes([0, 1, 0, 0, 0xc0, 0x9a, 0x0c]) + bytes([0, 1, 0]) * INITS
    path = folder / "long.pim"
    path.write_bytes(program)
    sweep(pim, ["list", path], b"", listing)
    sweep(pim, ["explain", path], b"", lives)
    sweep(pim, ["asm"], listing, program)
    sweep(pim, ["convert", "--form", "1"], binary, program)
    sweep(pim, ["convert", "--form", "2"], program, binary)


def test_prove_in_little_memory(pim, folder):
    """A program of as many cells as there may be, each with a word for the vectors."""
    path = folder / "wide.pim"
    path.write_bytes((ROOT / "examples" / "and2.pim").read_bytes().replace(b"cells 5\n", b"cells 1048576\n"))
    sweep(pim, ["prove", path], (ROOT / "examples" / "and2.aag").read_bytes(), b"equal 4\n")


def test_imply_in_little_memory(pim, folder):
    """A netlist of 100,000 covers that hand an input on, and a program of 60,000 cells."""
    text = b"imply 1\ncells 1\ninput 0 x0\noutput 0 x100000\ncycles 0\nend\n"
    sweep(pim, ["imply", "--cells", "1"], inputs.buffer_chain(), text)
    path = folder / "wide.imply"
    path.write_bytes(text.replace(b"cells 1\n", b"cells 60000\n"))
    sweep(pim, ["implyrun", path], b"1\n0\n" * 5_000, b"1\n0\n" * 5_000)


def test_share_in_little_memory(pim, folder):
    """A hundred thousand programs of one cell, which take their one turn one after another."""
    count = 100_000
    path = folder / "parts"
    path.write_bytes(b"pim 1\ntarget magic\ncells 1\ncycles 1\ninit 0\nend\n" * count)
    turns = b"".join(b"%d\n" % part for part in range(count))
    merged = b"pim 1\ntarget magic\ncells %d\ncycles %d\n" % (count, count) + b"".join(b"init %d\n" % part for part in range(count)) + b"end\n"
    sweep(pim, ["share", path, "--cells", str(count)], turns, merged)
