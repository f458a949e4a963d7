"""AIGER files of each form: what is taken, and the place and kind of each fault."""
from program import compile_of, equal, has_ports, stops
from test_memory import MB, least, under

AND = b"aag 3 2 0 1 1\n2\n4\n6\n6 4 2\n"

# The header and the output of the AND of two inputs in binary AIGER; two codes have to follow.
BINARY = b"aig 3 2 0 1 1\n6\n"


def refuses(pim, faults):
    """Each netlist has its fault."""
    for netlist, fault in faults:
        stops(compile_of(pim, netlist), 1, f"bad input: {fault}")


def test_headers_of_aiger(pim, folder):
    """Blanks of any number, zeros before a number and up to four further zeros are taken; other shapes and latches are not."""
    for header in (b"aag 0 0 0 0 0\n", b"aag  0\t0 0 0 00 \r\n", b"aag 0 0 0 0 0 0 0 0 0\n", b"aag 9 0 0 0 0\n"):
        has_ports(pim, header, [], [])
    has_ports(pim, b"aig 2 2 0 0 0\n", [b"i0", b"i1"], [])
    refuses(pim, [
        (b"aag 0 0 0 0 0", "aiger truncated at byte 13"),
        (b"aag x", "aiger truncated at byte 5"),
        (b"aag x 0 0 0 0\n", "aiger header"),
        (b"aag 0 0 0 0\n", "aiger header"),
        (b"aag 0 0 0 0 0 0 0 0 0 0\n", "aiger header"),
        (b"aag 0 0 0 0 0 1\n", "aiger header"),
        (b"aag 0 0 1 0 0\n", "aiger latches"),
        (b"aag 4294967295 0 1 0 0\n", "aiger latches"),
        (b"aag 1 1 0 0 1\n", "aiger header"),
        (b"aag 4294967295 4294967295 0 0 1\n", "aiger header"),
        (b"aag 4294967296 0 0 0 0\n", "aiger header"),
        (b"aag 1048575 1048575 0 0 0\n", "aiger truncated at byte 26"),
        (b"aig 5 2 0 1 1\n", "aiger header"),
    ])
    stops(compile_of(pim, b"aag 4294967295 0 0 0 0\n"), 7, "too large: signals")
    stops(compile_of(pim, b"aag 1048575 0 0 1048577 0\n"), 7, "too large: outputs")


def test_lines_of_aiger(pim, folder):
    """Lines may end in a carriage return, and gates may stand in any order. A fault is told by the place of its line."""
    has_ports(pim, AND, [b"i0", b"i1"], [b"o0"])
    has_ports(pim, AND.replace(b"\n", b"\r\n"), [b"i0", b"i1"], [b"o0"])
    has_ports(pim, b"aag 3 1 0 1 2\n2\n6\n6 4 2\n4 2 2\n", [b"i0"], [b"o0"])
    has_ports(pim, b"aag 1 1 0 2 0\n2\n0\n3\n", [b"i0"], [b"o0", b"o1"])
    refuses(pim, [
        (b"aag 1 1 0 1 0\n2\n9\n", "aiger literal at byte 16"),
        (b"aag 1 1 0 1 0\n2\n4\n", "aiger literal at byte 16"),
        (b"aag 1 1 0 0 0\n3\n", "aiger literal at byte 14"),
        (b"aag 1 1 0 0 0\n0\n", "aiger literal at byte 14"),
        (b"aag 1 1 0 0 0\n4\n", "aiger literal at byte 14"),
        (b"aag 1 1 0 0 0\n\n", "aiger number at byte 14"),
        (b"aag 1 1 0 0 0\n2 2\n", "aiger number at byte 14"),
        (b"aag 1 1 0 0 0\n4294967296\n", "aiger number at byte 14"),
        (b"aag 1 1 0 0 0\nx", "aiger truncated at byte 15"),
        (b"aag 3 2 0 1 1\n2\n4\n6\n6 4\n", "aiger number at byte 20"),
        (b"aag 3 2 0 1 1\n2\n4\n6\n7 4 2\n", "aiger literal at byte 20"),
        (b"aag 3 2 0 1 1\n2\n4\n6\n6 8 2\n", "aiger literal at byte 20"),
        (b"aag 3 2 0 1 1\n2\n4\n6\n6 4 8\n", "aiger literal at byte 20"),
        (b"aag 3 2 0 1 1\n2\n4\n6\n6 4 2", "aiger truncated at byte 25"),
    ])


def test_faults_of_netlists_in_aiger(pim, folder):
    """A variable is called by its number, however few of the variables there are."""
    refuses(pim, [
        (b"aag 1 0 0 1 1\n2\n2 2 2\n", "cycle v1"),
        (b"aag 2 1 0 1 0\n2\n4\n", "undriven v2"),
        (b"aag 2 2 0 0 0\n2\n2\n", "driven twice v1"),
        (b"aag 1048575 1 0 1 1\n2\n2\n2097148 2 2097150\n", "undriven v1048575"),
        (b"aag 1048575 1 0 0 1\n2097150\n2097150 0 0\n", "driven twice v1048575"),
        (b"aag 1048575 0 0 0 2\n2097150 2097148 0\n2097148 2097151 1\n", "cycle v1048575 v1048574"),
    ])


def test_symbols_of_aiger(pim, folder):
    """The last symbol of a port counts, an empty line is passed over, and `c` ends the symbols."""
    for symbols in (b"i0 a\ni1 b\no0 f\nc\nfree text", b"i0 x\ni0 a\n\r\n\ni1 b\no0 f", b"o0 f\ni1 b\ni0 a\nc\n\x00\x7f i9"):
        has_ports(pim, AND + symbols, [b"a", b"b"], [b"f"])
    has_ports(pim, AND + b"c", [b"i0", b"i1"], [b"o0"])
    has_ports(pim, AND + b"i0 a\r\ni0 last one\no0 f\r", [b"last one", b"i1"], [b"f?"])
    refuses(pim, [(AND + symbols, f"aiger symbol at byte {place}") for symbols, place in (
        (b"i0\n", 26), (b"i0 \n", 26), (b"i0 a\ni2 b\n", 31), (b"o1 f\n", 26), (b"l0 f\n", 26), (b"i x\n", 26), (b" \n", 26), (b"\r", 26),
    )])


def test_codes_of_aiger(pim, folder):
    """A gate's two codes lead from its own literal down to those of its operands, by at most five bytes each."""
    for codes in (b"\x02\x02", b"\x06\x00", b"\x02\x04", b"\x82\x00\x02"):
        has_ports(pim, BINARY + codes, [b"i0", b"i1"], [b"o0"])
    refuses(pim, [(BINARY + codes, f"aiger {fault}") for codes, fault in (
        (b"\x00\x02\x00\x00\x00\x00", "delta at byte 16"),
        (b"\x07\x00", "delta at byte 16"),
        (b"\x02\x05", "delta at byte 17"),
        (b"\x80\x80\x80\x80\x80\x01", "delta at byte 16"),
        (b"\x80\x80\x80\x80\x80", "delta at byte 16"),
        (b"\x80\x80\x80\x80", "truncated at byte 20"),
        (b"\xff\xff\xff\xff\x1f", "delta at byte 16"),
        (b"\x02", "truncated at byte 17"),
    )])


def test_no_table_by_the_greatest_variable(pim, folder):
    """A file of thirty bytes that tells a million variables is read in the memory that any small file takes."""
    little = under(least(pim) + 2 * MB)
    call = ["compile", "--target", "magic", "--cells", "9"]
    for answer, note in (
        (pim(*call, stdin=b"aag 1048575 1 0 1 0\n2097150\n2097150\n", preexec_fn=little), None),
        (pim(*call, stdin=b"aag 1048575 1 0 1 1\n2\n2097150\n2097150 3 3\n", preexec_fn=little), None),
        (pim(*call, stdin=b"aag 1048575 0 0 1 0\n2097150\n", preexec_fn=little), "undriven v1048575"),
        (pim(*call, stdin=b"aag 1048575 1 0 0 1\n2097150\n2097150 0 0\n", preexec_fn=little), "driven twice v1048575"),
    ):
        if note is None:
            equal("the note", answer.notes, b"")
            equal("the status", answer.status, 0)
        else:
            stops(answer, 1, f"bad input: {note}")
