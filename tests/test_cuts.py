"""Files that were cut short: no proper front of a program file, for either machine, or of an AIGER file is taken for a whole one."""
from program import ROOT, stops

AND = (ROOT / "examples" / "and2.pim").read_bytes()
XOR = (ROOT / "tests" / "data" / "xor.imply").read_bytes()

# The AND of two inputs in binary AIGER: one output, the literal 6, and one gate, whose codes are 6 - 4 and 4 - 2.
BINARY_AND = b"aig 3 2 0 1 1\n6\n\x02\x02"


def test_a_cut_program_file_is_truncated(pim, folder):
    """Every proper front of a program file is told to be cut, wherever the cut is."""
    path = folder / "cut"
    for command, program, what in ("run", AND, "program"), ("implyrun", XOR, "imply"):
        for length in range(len(program)):
            path.write_bytes(program[:length])
            stops(pim(command, path, stdin=b"11\n"), 1, f"bad input: {what} truncated")


def test_a_cut_binary_netlist_is_refused(pim, folder):
    """A front of four bytes or more is a cut AIGER file. A shorter one has no tag of AIGER, and so no statement of BLIF."""
    for length in range(len(BINARY_AND)):
        note = "blif line 1: syntax" if length < 4 else f"aiger truncated at byte {length}"
        answer = pim("compile", "--target", "magic", "--cells", "5", stdin=BINARY_AND[:length])
        stops(answer, 1, f"bad input: {note}")
