"""What is written is, byte for byte, what `schedules.py` makes anew: for each target and level, with as few cells as possible and with many."""
import random
from concurrent.futures import ThreadPoolExecutor

import netlists
import schedules
from program import ROOT, gives, stops

EXAMPLES = ["and2.aag", "xor2.blif", "full_adder.aag", "gray3.blif", "compare4.blif", "bcd7.blif", "adder8.aag", "crc8.aig", "parity16.aag"]


def any_netlist(chance):
    """A random netlist, in BLIF: covers of any phase and shape over inputs and earlier covers, and outputs of any of these."""
    signals = [f"i{k}" for k in range(chance.randint(0, 4))]
    lines = [f".inputs {' '.join(signals)}"]
    for number in range(chance.randint(1, 9)):
        columns = [chance.choice(signals) for _ in range(chance.randint(0, 4))] if signals else []
        phase = chance.choice("01")
        lines.append(f".names {' '.join([*columns, f's{number}'])}")
        for _ in range(chance.randint(0, 3)):
            lines.append(" ".join(["".join(chance.choice("01--") for _ in columns), phase]).strip())
        signals.append(f"s{number}")
    outputs = [chance.choice(signals) for _ in range(chance.randint(0, 4))] + signals[-1:]
    return "\n".join([*lines, f".outputs {' '.join(outputs)}", ""]).encode()


def compiles(pim, data, target, level):
    """The netlist's programs in the fewest cells, in as many as the note names and in two more, and in many; and one cell below the least."""
    netlist = netlists.read(data)
    graph = schedules.flat(netlist)
    needed = schedules.need(graph, target)
    least = min(cells for cells, _ in schedules.candidates(graph, target, level))
    for cells in {least, needed, needed + 2, schedules.MAX_CELLS}:
        answer = pim("compile", "--target", target, "--cells", str(cells), "--level", str(level), stdin=data)
        gives(answer, schedules.compiled(netlist, target, level, cells))
    if least > 0:
        answer = pim("compile", "--target", target, "--cells", str(least - 1), "--level", str(level), stdin=data)
        stops(answer, 6, f"too few cells: needed {needed}")


def all_compile(pim, jobs):
    """Each netlist, for its target and at its level, some at a time."""
    with ThreadPoolExecutor(8) as pool:
        for _ in pool.map(lambda job: compiles(pim, *job), jobs):
            pass


def test_the_examples(pim, folder):
    """The programs of examples, at each level and for both targets."""
    files = [(ROOT / "examples" / name).read_bytes() for name in EXAMPLES]
    all_compile(pim, [(data, target, level) for data in files for target in ("magic", "plim") for level in range(3)])


def test_random_netlists(pim, folder):
    """A hundred and eighty random netlists, each for one target at one level."""
    chance = random.Random(31)
    all_compile(pim, [(any_netlist(chance), ("magic", "plim")[number % 2], number // 2 % 3) for number in range(180)])


def test_imply_programs(pim, folder):
    """IMPLY programs of the examples and of a hundred random netlists, in the cells that are needed, and one cell too few."""
    chance = random.Random(32)
    for data in [(ROOT / "examples" / name).read_bytes() for name in EXAMPLES] + [any_netlist(chance) for _ in range(100)]:
        netlist = netlists.read(data)
        cells, outputs, instructions = schedules.imply(schedules.flat(netlist))
        gives(pim("imply", "--cells", str(cells), stdin=data), schedules.text(netlist, ["imply 1"], cells, outputs, instructions))
        if cells > 0:
            stops(pim("imply", "--cells", str(cells - 1), stdin=data), 6, f"too few cells: needed {cells}")
