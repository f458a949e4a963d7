#!/usr/bin/env python3
"""docs/levels.py BIN: makes the tables of docs/levels.md anew: the cells and the cycles of programs by target and level.

It compiles the netlists of examples/ and ten larger ones, which it makes. Each program of these ten is also executed on random
vectors, and its outputs are compared with plain arithmetic.
"""
import random
import re
import subprocess
import sys
import tempfile
from pathlib import Path

ROOT = Path(__file__).resolve().parent.parent
PAGE = ROOT / "docs" / "levels.md"
RULE = "|---" * 11 + "|\n"
MOST = 1_048_576
LEVELS = [("magic", 0), ("magic", 1), ("plim", 0), ("plim", 1), ("plim", 2)]
BOTH, EITHER, DIFFER = ["11"], ["1-", "-1"], ["10", "01"]
MAJORITY, ODD, CHOOSE = ["11-", "1-1", "-11"], ["100", "010", "001", "111"], ["01-", "1-1"]


class Netlist:
    """A netlist in BLIF that grows by one cover at a time."""

    def __init__(self, groups):
        """Inputs in groups, each a name and a number of bits, the lowest first."""
        self.groups = {name: [f"{name}{k}" for k in range(bits)] for name, bits in groups}
        self.inputs = [signal for group in self.groups.values() for signal in group]
        self.lines, self.outputs = [], []

    def cover(self, signals, rows):
        """The signal that is one where one of the rows matches."""
        name = f"n{len(self.lines)}"
        self.lines.append(f".names {' '.join([*signals, name])}\n" + "".join(f"{row} 1\n" for row in rows))
        return name

    def constant(self, bit):
        return self.cover([], [""] if bit else [])

    def put_out(self, signals):
        self.outputs += [self.cover([signal], ["1"]) for signal in signals]
        return self

    def text(self):
        ports = f".inputs {' '.join(self.inputs)}\n.outputs {' '.join(self.outputs)}\n"
        return (ports + "".join(self.lines) + ".end\n").encode()


def add(net, a, b, carry):
    """The sum of two numbers and a carry, bit by bit, and the last carry behind it."""
    total = []
    for x, y in zip(a, b):
        total.append(net.cover([x, y, carry], ODD))
        carry = net.cover([x, y, carry], MAJORITY)
    return total + [carry]


def ripple_adder(bits):
    net = Netlist([("a", bits), ("b", bits), ("c", 1)])
    net.put_out(add(net, net.groups["a"], net.groups["b"], "c0"))
    return net, lambda a, b, c: (a + b + c, bits + 1)


def prefix_adder(bits):
    """Each carry by a tree of pairs: whether a stretch makes a carry, and whether it hands one on."""
    net = Netlist([("a", bits), ("b", bits)])
    columns = list(zip(net.groups["a"], net.groups["b"]))
    halves = [net.cover(pair, DIFFER) for pair in columns]
    makes, hands, step = [net.cover(pair, BOTH) for pair in columns], halves, 1
    while step < bits:
        makes, hands = (
            [makes[k] if k < step else net.cover([makes[k], hands[k], makes[k - step]], ["1--", "-11"]) for k in range(bits)],
            [hands[k] if k < step else net.cover([hands[k], hands[k - step]], BOTH) for k in range(bits)],
        )
        step *= 2
    net.put_out(halves[:1] + [net.cover([halves[k], makes[k - 1]], DIFFER) for k in range(1, bits)] + makes[-1:])
    return net, lambda a, b: (a + b, bits + 1)


def multiplier(bits):
    net = Netlist([("a", bits), ("b", bits)])
    a, b = net.groups["a"], net.groups["b"]
    zero = net.constant(0)
    total, product = [net.cover([x, b[0]], BOTH) for x in a] + [zero], []
    for y in b[1:]:
        product.append(total[0])
        total = add(net, total[1:], [net.cover([x, y], BOTH) for x in a], zero)
    net.put_out(product + total)
    return net, lambda x, y: (x * y, 2 * bits)


def comparator(bits):
    net = Netlist([("a", bits), ("b", bits)])
    less, same = net.constant(0), net.constant(1)
    for x, y in zip(net.groups["a"], net.groups["b"]):
        less = net.cover([x, y, less], ["01-", "0-1", "-11"])
        same = net.cover([x, y, same], ["001", "111"])
    net.put_out([less, same])
    return net, lambda a, b: ((a < b) + 2 * (a == b), 2)


def decoder(bits):
    net = Netlist([("a", bits)])
    net.put_out([net.cover(net.groups["a"], [format(k, f"0{bits}b")[::-1]]) for k in range(2 ** bits)])
    return net, lambda a: (1 << a, 2 ** bits)


def barrel_shifter(bits, steps):
    net = Netlist([("a", bits), ("s", steps)])
    row = net.groups["a"]
    for k, by in enumerate(net.groups["s"]):
        row = [net.cover([by, row[j], row[(j - 2 ** k) % bits]], CHOOSE) for j in range(bits)]
    net.put_out(row)
    return net, lambda a, s: ((a << s | a >> (bits - s)) % 2 ** bits, bits)


def priority_encoder(bits, width):
    """The number of the highest input that is one, and whether there is one."""
    net = Netlist([("a", bits)])
    above, number = net.constant(0), [[] for _ in range(width)]
    for k in reversed(range(bits)):
        first = net.cover([net.groups["a"][k], above], ["10"])
        above = net.cover([net.groups["a"][k], above], EITHER)
        for place in range(width):
            number[place] += [first] * (k >> place & 1)
    net.put_out([net.cover(ones, ["-" * j + "1" + "-" * (len(ones) - j - 1) for j in range(len(ones))]) for ones in number] + [above])
    return net, lambda a: (max(a.bit_length() - 1, 0) + (a > 0) * 2 ** width, width + 1)


def voter(bits):
    """Whether more than half of the inputs are one: they are counted by adders of three bits of one weight."""
    net = Netlist([("a", bits)])
    columns, count = [net.groups["a"]], []
    while columns:
        column, carries = columns.pop(0), []
        while len(column) > 1:
            taken = (column + [net.constant(0)])[:3]
            column = column[3:] + [net.cover(taken, ODD)]
            carries.append(net.cover(taken, MAJORITY))
        count += column
        if carries:
            columns = [carries]
    net.put_out(count[-1:])
    return net, lambda a: (bin(a).count("1") > bits // 2, 1)


MADE = [
    ("ripple-carry adder, 32 bits", ripple_adder(32)),
    ("ripple-carry adder, 64 bits", ripple_adder(64)),
    ("prefix adder, 32 bits", prefix_adder(32)),
    ("multiplier, 8 bits", multiplier(8)),
    ("multiplier, 16 bits", multiplier(16)),
    ("comparator, 32 bits", comparator(32)),
    ("decoder, 6 bits", decoder(6)),
    ("barrel shifter, 32 bits", barrel_shifter(32, 5)),
    ("priority encoder, 32 inputs", priority_encoder(32, 5)),
    ("voter, 31 inputs", voter(31)),
]


def compiled(binary, netlist, target, level, cells):
    """The program in at most so many cells; or the number of cells that is needed."""
    command = [binary, "compile", "--target", target, "--cells", str(cells), "--level", str(level)]
    done = subprocess.run(command, input=netlist, capture_output=True)
    if done.returncode == 6:
        return int(done.stderr.split()[-1])
    if done.returncode != 0:
        sys.exit(f"{' '.join(command)}: {done.stderr.decode()}")
    return done.stdout


def size(program):
    """The cells and the cycles that a program names."""
    numbers = [re.search(rb"^%s (\d+)$" % word, program, re.MULTILINE)[1] for word in (b"cells", b"cycles")]
    return [f"{int(number):,}" for number in numbers]


def check(binary, name, net, function, program):
    """Executes a program on random vectors, and compares its outputs with what the function says."""
    draw, vectors, wanted = random.Random(name), [], []
    for _ in range(256):
        numbers = [draw.getrandbits(len(group)) for group in net.groups.values()]
        value, outputs = function(*numbers)
        vectors.append("".join(format(x, f"0{len(g)}b")[::-1] for x, g in zip(numbers, net.groups.values())))
        wanted.append(format(int(value), f"0{outputs}b")[::-1])
    with tempfile.NamedTemporaryFile(suffix=".pim") as file:
        file.write(program)
        file.flush()
        done = subprocess.run([binary, "run", file.name], input="\n".join(vectors + [""]).encode(), capture_output=True)
    if done.stdout.decode().split() != wanted:
        sys.exit(f"{name}: a program gives other outputs than arithmetic")


def row(binary, name, netlist, budget, judge):
    """A line of a table: for each target and level the cells and the cycles within the budget of the target."""
    fields = [name]
    for target, level in LEVELS:
        program = compiled(binary, netlist, target, level, budget(target))
        judge(program)
        fields += size(program)
    return "| " + " | ".join(fields) + " |\n"


def tables(binary):
    """The lines of both tables: with as many cells as there can be, and with as few as are needed at level 0."""
    wide, tight = "", ""
    files = sorted(path for path in (ROOT / "examples").iterdir() if path.suffix in (".aag", ".aig", ".blif"))
    netlists = [(f"`{path.name}`", path.read_bytes(), lambda program: None) for path in files]
    for name, (net, function) in MADE:
        netlists.append((name, net.text(), lambda program, made=(name, net, function): check(binary, *made, program)))
    for name, netlist, judge in netlists:
        needs = {target: compiled(binary, netlist, target, 0, 0) for target in ("magic", "plim")}
        wide += row(binary, name, netlist, lambda target: MOST, judge)
        tight += row(binary, name, netlist, needs.get, judge)
    return wide, tight


def main():
    """Puts the lines of each table in the place of those that follow its rule."""
    head, *rest = PAGE.read_text().split(RULE)
    made = tables(sys.argv[1])
    PAGE.write_text(head + "".join(RULE + rows + re.sub(r"\A(\|.*\n)*", "", text) for rows, text in zip(made, rest)))


if __name__ == "__main__":
    main()
