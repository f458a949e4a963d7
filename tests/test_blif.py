"""BLIF files: how statements are joined, and the line of each fault."""
from program import compile_of, has_ports, stops


def test_statements_of_blif(pim, folder):
    """A backslash joins lines, also before a comment. Empty lines and comments are no statements."""
    has_ports(pim, b"\n# a\n.inputs a \\ # b\nc\n#\n.outputs a\n.end", [b"a", b"c"], [b"a"])
    has_ports(pim, b".inputs a\\\n b\r\n.outputs b \t a\n", [b"a", b"b"], [b"b", b"a"])
    has_ports(pim, b".model m\n.inputs a\x07 a\x08\n.outputs a\x08\n.end\n", [b"a?", b"a?"], [b"a?"])


def test_faults_of_blif(pim, folder):
    """The first statement that is faulty from those before it is told by the number of its first line."""
    for netlist, fault in (
        (b"aig", "line 1: syntax"),
        (b".model q\n.latch x f\n", "line 2: unsupported .latch"),
        (b".names a f\n11 1\n", "line 2: row width"),
        (b".names f\n1\n0\n", "line 3: mixed phase"),
        (b".inputs a\n\n.inputs \\\nb a\n", "line 3: input twice"),
        (b".names a f\n1\n", "line 2: syntax"),
    ):
        stops(compile_of(pim, netlist), 1, f"bad input: blif {fault}")


def test_faults_of_netlists_in_blif(pim, folder):
    """A netlist that is not well-formed is told with the names of the signals."""
    for netlist, fault in (
        (b".outputs f\n.names u f\n1 1\n", "undriven u"),
        (b".inputs a\n.names a\n.outputs a\n", "driven twice a"),
        (b".names y x\n1 1\n.names x y\n1 1\n.names x z\n1 1\n.outputs z\n", "cycle x y"),
        (b".names x x\n1 1\n", "cycle x"),
    ):
        stops(compile_of(pim, netlist), 1, f"bad input: {fault}")
