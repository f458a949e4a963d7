#!/usr/bin/env python3
"""docs/lifetimes.py BIN: draws when each cell of a program is in use, as docs/lifetimes_*.svg, from what `explain` writes.

Each cell has a line, each of its lives a bar, and the cycles go across. It compiles the full adder and the 8-bit adder of
examples/, and merges the full adder with the AND of two inputs (docs/sharing.svg). docs/lifetimes.py BIN FILE draws the program of FILE instead, to standard output.
"""
import re
import subprocess
import sys
import tempfile
from pathlib import Path

ROOT = Path(__file__).resolve().parent.parent
LEFT, TOP, RIGHT, BOTTOM, ROW, WIDTH = 52, 52, 16, 34, 12, 920

# the file, the title, the netlist, and the cells of each panel: the fewest, or more
DRAWN = [
    ("full_adder", "Full adder", "full_adder.aag", [9, 15]),
    ("adder8", "8-bit adder", "adder8.aag", [30]),
]

STYLE = """text { font: 11px sans-serif; fill: #333 } .title { font: bold 12px sans-serif } .x { text-anchor: middle } .y { text-anchor: end }
.line { stroke: #e4e4e4 } .window { stroke: #333; stroke-dasharray: 4 3 } .in { fill: #7a8793 } .work { fill: #1f6f8b } .out { fill: #c8671b }
.unread { fill: none; stroke: #1f6f8b; stroke-width: 0.8 }"""


def lives_of(text):
    """What `explain` says: the lives of each cell, as pairs of words, the number of cells and the number of cycles."""
    lives = {}
    *lines, last = text.splitlines()
    for line in lines:
        cell, rest = re.fullmatch(r"cell (\d+):(.*)", line).groups()
        lives[int(cell)] = [tuple(life.split("..")) for life in rest.split()]
    cells, cycles = re.fullmatch(r"cells (\d+) cycles (\d+)", last).groups()
    return lives, int(cells), int(cycles)


def bar(start, end, cycles, x, y):
    """One life. What nothing reads is a small frame where it was written."""
    left = -0.5 if start == "in" else int(start) + 0.5
    if end == "-":
        return f'<rect class="unread" x="{x(left) - 1.6:.1f}" y="{y + 2.4:.1f}" width="3.2" height="{ROW - 4.8:.1f}"/>'
    right = cycles + 0.5 if end == "out" else int(end) + 0.5
    kind = "out" if end == "out" else "in" if start == "in" else "work"
    wide = max(x(right) - x(left) - 1, 1)
    return f'<rect class="{kind}" x="{x(left):.1f}" y="{y + 1.5:.1f}" width="{wide:.1f}" height="{ROW - 3}"/>'


def ticks(most):
    """Round numbers from 0 to the last cycle, some ten of them."""
    step = next(unit * 10 ** power for power in range(8) for unit in (1, 2, 5) if most / (unit * 10 ** power) <= 12)
    return range(0, most, step)


def panel(top, title, text, windows=()):
    """One program's diagram and its height. Before each of these cells a window begins."""
    lives, cells, cycles = lives_of(text)
    scale = (WIDTH - LEFT - RIGHT) / (cycles + 1)

    def x(cycle):
        return LEFT + scale * (cycle + 0.5)

    base = top + TOP + ROW * cells
    parts = [f'<text x="{LEFT}" y="{top + 18}" class="title">{title}: {cells} cells, {cycles} cycles</text>']
    parts.append(f'<text x="{LEFT - 8}" y="{top + TOP - 8}" class="y">cell</text>')
    parts += [f'<path class="window" d="M{LEFT - 40} {top + TOP + ROW * cell}H{WIDTH - RIGHT}"/>' for cell in windows]
    for cycle in ticks(cycles):
        parts.append(f'<path class="line" d="M{x(cycle + 0.5):.1f} {top + TOP - 4}V{base + 4}"/>')
        parts.append(f'<text x="{x(cycle + 0.5):.1f}" y="{top + TOP - 8}" class="x">{cycle}</text>')
    for cell in range(cells):
        y = top + TOP + ROW * cell
        parts.append(f'<path class="line" d="M{LEFT} {y + ROW / 2}H{WIDTH - RIGHT}"/><text x="{LEFT - 8}" y="{y + ROW - 2}" class="y">{cell}</text>')
        parts += [bar(start, end, cycles, x, y) for start, end in lives.get(cell, [])]
    return parts, base + BOTTOM - top


def key(top):
    """What the colours say."""
    parts, x = [], LEFT
    for kind, says in [("in", "an input's bit"), ("work", "a value that is read"), ("out", "an output's value"), ("unread", "written, and not read as it is")]:
        wide = 3.2 if kind == "unread" else 14
        parts.append(f'<rect class="{kind}" x="{x + 14 - wide:.1f}" y="{top - 8}" width="{wide}" height="8"/><text x="{x + 20}" y="{top}">{says}</text>')
        x += 40 + 6 * len(says)
    return parts


def picture(panels):
    """The whole file, of titles and explanations."""
    parts, top = [], 0
    for shown in panels:
        drawn, high = panel(top, *shown)
        parts, top = parts + drawn, top + high
    parts += key(top - 8)
    size = f'viewBox="0 0 {WIDTH} {top + 6}" width="{WIDTH}" height="{top + 6}"'
    svg = [f'<svg xmlns="http://www.w3.org/2000/svg" {size}>', f"<style>{STYLE}</style>", '<rect width="100%" height="100%" fill="white"/>', *parts, "</svg>", ""]
    return "\n".join(svg)


def explained(binary, path):
    return subprocess.run([binary, "explain", path], capture_output=True, check=True).stdout.decode()


def called(binary, *words, given):
    """What a call writes that is given these bytes."""
    return subprocess.run([binary, *words], input=given, capture_output=True, check=True).stdout


def compiled(binary, netlist, cells):
    """The program of a netlist of examples/."""
    given = (ROOT / "examples" / netlist).read_bytes()
    return called(binary, "compile", "--target", "magic", "--cells", str(cells), given=given)


def lives_written(binary, program):
    """What `explain` says of these bytes."""
    with tempfile.NamedTemporaryFile(suffix=".pim") as file:
        file.write(program)
        file.flush()
        return explained(binary, file.name)


def counted(program, word):
    """The number in the line of a program that begins with this word."""
    return int(re.search(rf"^{word} (\d+)$", program.decode(), re.MULTILINE)[1])


def shared(binary, parts):
    """Programs merged into one row, each in turn as long as it has instructions left."""
    left, turns = [counted(part, "cycles") for part in parts], []
    while any(left):
        for number, more in enumerate(left):
            if more:
                turns.append(number)
                left[number] -= 1
    with tempfile.NamedTemporaryFile(suffix=".pim") as file:
        file.write(b"".join(parts))
        file.flush()
        cells = sum(counted(part, "cells") for part in parts)
        return called(binary, "share", file.name, "--cells", str(cells), given="".join(f"{turn}\n" for turn in turns).encode())


def main():
    binary = str(Path(sys.argv[1]).resolve())
    if len(sys.argv) > 2:
        sys.stdout.write(picture([(Path(sys.argv[2]).name, explained(binary, sys.argv[2]))]))
        return
    for name, title, netlist, budgets in DRAWN:
        panels = [(title, lives_written(binary, compiled(binary, netlist, cells))) for cells in budgets]
        (ROOT / "docs" / f"lifetimes_{name}.svg").write_text(picture(panels))
    parts = [compiled(binary, "full_adder.aag", 9), compiled(binary, "and2.aag", 5)]
    panels = [("Full adder and AND in turns", lives_written(binary, shared(binary, parts)), [counted(parts[0], "cells")])]
    (ROOT / "docs" / "sharing.svg").write_text(picture(panels))


if __name__ == "__main__":
    main()
