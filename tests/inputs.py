"""Large inputs, each made by a rule that its first line says."""


def too_many_bytes():
    """A netlist's file of one byte more than 67,108,864: comments alone."""
    return b"#" * 67_108_865


def most_bytes():
    """A netlist's file of 67,108,864 bytes: one comment."""
    return b"#" * 67_108_864


def wide_cover(columns, rows):
    """A cover of so many columns, all the same input, and so many rows that ask for ones alone."""
    head = b".inputs a\n.outputs f\n.names" + b" a" * columns + b" f\n"
    return head + (b"1" * columns + b" 1\n") * rows


def cover_of_too_many_nodes():
    """1,025 rows of 1,025 ones: 1,025 times 1,024 AND nodes, and 1,024 more that join them, are over 1,048,576."""
    return wide_cover(1_025, 1_025)


def cover_of_just_few_enough_nodes():
    """1,024 rows of 1,024 ones: 1,024 times 1,023 AND nodes, and 1,023 more, are one less than 1,048,576."""
    return wide_cover(1_024, 1_024)


def and_chain():
    """100,000 AND gates: the first of the two inputs, each later one of the gate before it and the first input."""
    gates = ["6 4 2"] + [f"{lhs} {lhs - 2} 2" for lhs in range(8, 200_006, 2)]
    return "\n".join(["aag 100002 2 0 1 100000", "2", "4", "200004", *gates, ""]).encode()


def buffer_chain(first="x0"):
    """100,000 covers, each of which copies a signal to the next, the last of them first in the file."""
    covers = [f".names x{k - 1} x{k}\n1 1\n" for k in range(100_000, 1, -1)]
    return "".join([".inputs x0\n.outputs x100000\n", *covers, f".names {first} x1\n1 1\n"]).encode()


def buffer_ring():
    """The same, where the first cover copies the last signal."""
    return buffer_chain("x100000")


def buffer_ring_note():
    """The note of that: the cycle has all 100,000 signals, each of which reads the next."""
    return ("pim: bad input: cycle " + " ".join(f"x{k}" for k in range(100_000, 0, -1))).encode()
