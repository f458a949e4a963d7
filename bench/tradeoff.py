#!/usr/bin/env python3
"""bench/tradeoff.py BIN: draws how many cycles programs take in how many cells, as docs/tradeoff.svg.

It compiles the 8-bit adder of examples/ and a 16-bit multiplier, which it makes, for budgets from the cells that each
needs up to one cell for each gate, and reads the cycles off the programs.
"""
import math
import re
import subprocess
import sys
from pathlib import Path

ROOT = Path(__file__).resolve().parent.parent
WIDTH, HEIGHT, LEFT, TOP, RIGHT, BOTTOM = 460, 330, 62, 40, 18, 48


class Graph:
    """An and-inverter graph that grows: literals are twice the variable, plus one for the complement."""

    def __init__(self, inputs):
        self.inputs, self.gates = inputs, []

    def both(self, a, b):
        """The literal of a AND b."""
        self.gates.append((a, b))
        return 2 * (self.inputs + len(self.gates))

    def either(self, a, b):
        return self.both(a ^ 1, b ^ 1) ^ 1

    def differ(self, a, b):
        return self.both(self.both(a, b) ^ 1, self.both(a ^ 1, b ^ 1) ^ 1)

    def text(self, outputs):
        """The graph in ASCII AIGER."""
        first = self.inputs + 1
        lines = [f"aag {self.inputs + len(self.gates)} {self.inputs} 0 {len(outputs)} {len(self.gates)}"]
        lines += [str(2 * k) for k in range(1, first)] + [str(literal) for literal in outputs]
        lines += [f"{2 * (first + k)} {a} {b}" for k, (a, b) in enumerate(self.gates)]
        return "\n".join(lines + [""]).encode()


def multiplier(bits):
    """The product of two numbers: each row of partial products is added to the sum of the rows before it."""
    graph = Graph(2 * bits)
    a = [2 * (1 + k) for k in range(bits)]
    b = [2 * (1 + bits + k) for k in range(bits)]
    total, product = [graph.both(x, b[0]) for x in a] + [0], []
    for k in range(1, bits):
        product.append(total[0])
        carry, row = 0, []
        for x, y in zip(total[1:], [graph.both(x, b[k]) for x in a]):
            half = graph.differ(x, y)
            row.append(graph.differ(half, carry))
            carry = graph.either(graph.both(x, y), graph.both(half, carry))
        total = row + [carry]
    return graph.text(product + total)


def compiled(binary, netlist, cells):
    """The cells and the cycles of the program in at most so many cells; or None and the cells that are needed."""
    command = [binary, "compile", "--target", "magic", "--cells", str(cells)]
    done = subprocess.run(command, input=netlist, capture_output=True)
    if done.returncode == 6:
        return None, int(done.stderr.split()[-1])
    program = done.stdout[:done.stdout.index(b"\ninit ")].decode() + "\n"
    return tuple(int(re.search(rf"^{word} (\d+)$", program, re.MULTILINE)[1]) for word in ("cells", "cycles"))


def curve(binary, netlist, points):
    """Pairs of cells and cycles, from the need up to one cell for each gate, at budgets that grow by equal factors."""
    least = compiled(binary, netlist, 0)[1]
    most = compiled(binary, netlist, 1_048_576)[0]
    budgets = {round(least * (most / least) ** (k / points)) for k in range(points + 1)} | set(range(least, least + 8))
    return sorted({compiled(binary, netlist, budget) for budget in budgets})


def ticks(low, high):
    """Round numbers from low to high, some five of them."""
    step = next(unit * 10 ** power for power in range(8) for unit in (1, 2, 5) if (high - low) / (unit * 10 ** power) <= 5)
    return range(-(-low // step) * step, high + 1, step)


def factors(low, high):
    """The numbers 1, 2 and 5 times a power of ten, from low to high."""
    return [value for power in range(8) for unit in (1, 2, 5) if low <= (value := unit * 10 ** power) <= high]


def panel(left, title, pairs):
    """One diagram: cells to the right, in steps of equal factors, and cycles upwards."""
    cells, cycles = [pair[0] for pair in pairs], [pair[1] for pair in pairs]
    x_range, y_range = (min(cells), max(cells)), (min(cycles), max(cycles))
    wide, high = WIDTH - LEFT - RIGHT, HEIGHT - TOP - BOTTOM

    def x(value):
        return left + LEFT + wide * math.log(value / x_range[0]) / math.log(x_range[1] / x_range[0])

    def y(value):
        return TOP + high - high * (value - y_range[0]) / (y_range[1] - y_range[0])

    base = TOP + high + 6
    parts = [f'<text x="{left + LEFT}" y="22" class="title">{title}</text>']
    for value in factors(*x_range):
        parts.append(f'<path class="grid" d="M{x(value):.1f} {TOP}V{base}"/><text x="{x(value):.1f}" y="{base + 15}" class="x">{value:,}</text>')
    for value in ticks(*y_range):
        parts.append(f'<path class="grid" d="M{left + LEFT - 6} {y(value):.1f}H{left + LEFT + wide}"/><text x="{left + LEFT - 10}" y="{y(value) + 4:.1f}" class="y">{value:,}</text>')
    parts.append(f'<text x="{left + LEFT + wide / 2}" y="{base + 34}" class="x">cells</text><text x="{left + LEFT - 10}" y="{TOP - 8}" class="y">cycles</text>')
    parts.append('<polyline points="' + " ".join(f"{x(a):.1f},{y(b):.1f}" for a, b in pairs) + '"/>')
    parts += [f'<circle cx="{x(a):.1f}" cy="{y(b):.1f}" r="2.4"/>' for a, b in pairs]
    first, last = pairs[0], pairs[-1]
    parts.append(f'<text x="{x(first[0]) + 8:.1f}" y="{y(first[1]) + 5:.1f}">{first[0]:,} cells, {first[1]:,} cycles</text>')
    parts.append(f'<text x="{x(last[0]):.1f}" y="{y(last[1]) - 22:.1f}" class="y">{last[0]:,} cells, {last[1]:,} cycles</text>')
    return "\n".join(parts)


STYLE = """text { font: 12px sans-serif; fill: #333 } .title { font-weight: bold } .x { text-anchor: middle } .y { text-anchor: end }
.grid { stroke: #ddd } polyline { fill: none; stroke: #1f6f8b; stroke-width: 1.5 } circle { fill: #1f6f8b }"""


def main():
    binary = str(Path(sys.argv[1]).resolve())
    adder = (ROOT / "examples" / "adder8.aag").read_bytes()
    drawn = [("8-bit adder", curve(binary, adder, 60)), ("16-bit multiplier", curve(binary, multiplier(16), 40))]
    for title, pairs in drawn:
        print(title, *[f"{a}:{b}" for a, b in pairs])
    panels = [panel(k * WIDTH, title, pairs) for k, (title, pairs) in enumerate(drawn)]
    size = f'viewBox="0 0 {2 * WIDTH} {HEIGHT}" width="{2 * WIDTH}" height="{HEIGHT}"'
    svg = [f'<svg xmlns="http://www.w3.org/2000/svg" {size}>', f"<style>{STYLE}</style>", '<rect width="100%" height="100%" fill="white"/>', *panels, "</svg>", ""]
    (ROOT / "docs" / "tradeoff.svg").write_text("\n".join(svg))


if __name__ == "__main__":
    main()
