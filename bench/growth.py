#!/usr/bin/env python3
"""bench/growth.py BIN: how the seconds grow with the gates, from 10,000 to 1,000,000, beside the yardstick in C++.

It draws docs/growth.svg, and prints the seconds of the processor, the least of REPETITIONS. It needs clang++. The netlists are those of
bench/inputs.py, cut to so many gates. The commands take turns.
"""
import math
import resource
import subprocess
import sys
from pathlib import Path

HERE = Path(__file__).resolve().parent
OUT = HERE / "out"
sys.path.insert(0, str(HERE))

import inputs

SIZES = [10_000, 30_000, 100_000, 300_000, 1_000_000]
REPETITIONS = 3
WIDTH, HEIGHT, LEFT, TOP, RIGHT, BOTTOM = 640, 420, 70, 40, 190, 50

# What is drawn: its name, its colour, and the words of the call; `schedule` is the yardstick.
CURVES = [
    ("compile, MAGIC", "#1f6f8b", ["compile", "--target", "magic", "--cells", "1048576"]),
    ("compile, MAGIC, level 2", "#7fb3c8", ["compile", "--target", "magic", "--cells", "1048576", "--level", "2"]),
    ("compile, PLiM", "#c8671b", ["compile", "--target", "plim", "--cells", "1048576"]),
    ("compile, PLiM, level 2", "#e3b58d", ["compile", "--target", "plim", "--cells", "1048576", "--level", "2"]),
    ("imply", "#7a5195", ["imply", "--cells", "1048576"]),
    ("yardstick of MAGIC in C++", "#555555", None),
]


def seconds(command, netlist):
    """The seconds of the processor that a call takes, in the program and in the system."""
    before = resource.getrusage(resource.RUSAGE_CHILDREN)
    with netlist.open("rb") as source:
        subprocess.run(command, stdin=source, stdout=subprocess.DEVNULL, check=True)
    after = resource.getrusage(resource.RUSAGE_CHILDREN)
    return after.ru_utime + after.ru_stime - before.ru_utime - before.ru_stime


def measured(binary):
    """The least seconds of each curve at each size."""
    OUT.mkdir(exist_ok=True)
    subprocess.run(["clang++", "-O3", "-std=c++17", "-o", OUT / "schedule", HERE / "schedule.cpp"], check=True)
    least = {name: {} for name, _, _ in CURVES}
    for size in SIZES:
        netlist = OUT / f"gates.{size}.aig"
        if not netlist.exists():
            inputs.write_aiger(netlist, size)
        for _ in range(REPETITIONS):
            for name, _, words in CURVES:
                command = [binary, *words] if words else [OUT / "schedule", "1048576"]
                taken = max(seconds(command, netlist), 0.001)
                least[name][size] = min(taken, least[name].get(size, taken))
    return least


STYLE = """text { font: 12px sans-serif; fill: #333 } .title { font-weight: bold } .x { text-anchor: middle } .y { text-anchor: end }
.grid { stroke: #ddd } polyline { fill: none; stroke-width: 1.8 }"""


def picture(least):
    """Gates to the right and seconds upwards, both in steps of equal factors."""
    low, high = 0.001, 10.0

    def x(size):
        return LEFT + (WIDTH - LEFT - RIGHT) * math.log(size / SIZES[0]) / math.log(SIZES[-1] / SIZES[0])

    def y(value):
        return HEIGHT - BOTTOM - (HEIGHT - TOP - BOTTOM) * math.log(value / low) / math.log(high / low)

    parts = [f'<text x="{LEFT}" y="22" class="title">Seconds of the processor by AND gates</text>']
    for size in SIZES:
        parts.append(f'<path class="grid" d="M{x(size):.1f} {TOP}V{HEIGHT - BOTTOM}"/><text x="{x(size):.1f}" y="{HEIGHT - BOTTOM + 18}" class="x">{size:,}</text>')
    for power in range(-3, 2):
        value = 10.0 ** power
        parts.append(f'<path class="grid" d="M{LEFT} {y(value):.1f}H{WIDTH - RIGHT}"/><text x="{LEFT - 8}" y="{y(value) + 4:.1f}" class="y">{value:g} s</text>')
    taken = []
    for name, colour, _ in sorted(CURVES, key=lambda curve: y(least[curve[0]][SIZES[-1]])):
        points = " ".join(f"{x(size):.1f},{y(least[name][size]):.1f}" for size in SIZES)
        place = max([y(least[name][SIZES[-1]]) + 4, *[before + 15 for before in taken[-1:]]])
        taken.append(place)
        parts.append(f'<polyline points="{points}" stroke="{colour}"/><text x="{WIDTH - RIGHT + 8}" y="{place:.1f}" style="fill: {colour}">{name}</text>')
    size = f'viewBox="0 0 {WIDTH} {HEIGHT}" width="{WIDTH}" height="{HEIGHT}"'
    svg = [f'<svg xmlns="http://www.w3.org/2000/svg" {size}>', f"<style>{STYLE}</style>", '<rect width="100%" height="100%" fill="white"/>', *parts, "</svg>", ""]
    return "\n".join(svg)


def main():
    least = measured(str(Path(sys.argv[1]).resolve()))
    print("| gates |" + "".join(f" {name} |" for name, _, _ in CURVES))
    print("|---|" + "---|" * len(CURVES))
    for size in SIZES:
        print(f"| {size:,} |" + "".join(f" {least[name][size]:.3f} |" for name, _, _ in CURVES))
    (HERE.parent / "docs" / "growth.svg").write_text(picture(least))


if __name__ == "__main__":
    main()
