#!/usr/bin/env python3
"""Writes the inputs of the benchmarks into a folder: inputs.py FOLDER. The same bytes at every call.

program.pim         10,000 MAGIC instructions for 1,024 cells, 32 inputs, 32 outputs
long.pim            the same instructions again and again, 100 MB of them
vectors.262144      that many lines of 32 characters 0 or 1
vectors.1000000
gates.aig           1,000,000 AND gates of 64 inputs, as binary AIGER
gates.blif          the same gates as BLIF
gates.100000.aig    the first 100,000 of them
vectors.64          1,000 lines of 64 characters
"""
import os
import random
import sys

CELLS = 1024
PORTS = 32
CYCLES = 10_000
AT_ONCE = 16
LONG = 100_000_000
GATES = 1_000_000
GATE_INPUTS = 64


def gate(rng, target, known):
    """One NOR of one to four known cells, mostly of two."""
    operands = rng.choices((1, 2, 3, 4), (2, 10, 2, 2))[0]
    cells = " ".join(str(c) for c in rng.sample(known, operands))
    return f"{'not' if operands == 1 else 'nor'} {target} {cells}"


def instructions(rng):
    """Instructions that are primed as a compiler's are: an init of some cells, then a NOR into each; and the cells last written."""
    lines = []
    known = list(range(PORTS))
    spare = list(range(PORTS, CELLS))
    while len(lines) < CYCLES:
        count = min(AT_ONCE, CYCLES - len(lines) - 1)
        if len(spare) < count:
            # The oldest cells but the inputs are used again.
            spare += known[PORTS : PORTS + 512]
            del known[PORTS : PORTS + 512]
        rng.shuffle(spare)
        targets, spare = sorted(spare[:count]), spare[count:]
        lines.append("init " + " ".join(str(c) for c in targets))
        for target in rng.sample(targets, count):
            lines.append(gate(rng, target, known))
            known.append(target)
    return lines, known[-PORTS:]


def write_program(path, size):
    """Writes the instructions as often as it takes for so many bytes."""
    lines, outputs = instructions(random.Random(1))
    body = "\n".join(lines) + "\n"
    times = -(-size // len(body))
    head = ["pim 1", "target magic", f"cells {CELLS}"]
    head += [f"input {k} i{k}" for k in range(PORTS)]
    head += [f"output {cell} o{k}" for k, cell in enumerate(outputs)]
    head += [f"cycles {times * len(lines)}"]
    with open(path, "w") as file:
        file.write("\n".join(head) + "\n")
        for _ in range(times):
            file.write(body)
        file.write("end\n")


def write_vectors(path, count, width=PORTS):
    rng = random.Random(2)
    with open(path, "w") as file:
        for _ in range(count):
            file.write(f"{rng.getrandbits(width):0{width}b}\n")


def gates(count):
    """For each gate the two literals that it reads, the greater one first: a near gate or input, and any earlier one."""
    rng = random.Random(3)
    for k in range(count):
        below = GATE_INPUTS + k
        near = below - rng.randrange(min(below, 4096))
        other = 1 + int(rng.random() * below)
        a, b = 2 * max(near, other), 2 * min(near, other)
        signs = rng.getrandbits(2)
        yield a + (signs & 1), b + (signs >> 1)


def code(number):
    """A number in base 128, low digits first, the high bit set on every byte but the last."""
    digits = bytearray()
    while number > 127:
        digits.append(number & 127 | 128)
        number >>= 7
    digits.append(number)
    return digits


def outputs(count):
    return range(GATE_INPUTS + count - 63, GATE_INPUTS + count + 1)


def write_aiger(path, count):
    with open(path, "wb") as file:
        file.write(f"aig {GATE_INPUTS + count} {GATE_INPUTS} 0 {len(outputs(count))} {count}\n".encode())
        for variable in outputs(count):
            file.write(f"{2 * variable}\n".encode())
        for k, (a, b) in enumerate(gates(count)):
            a, b = max(a, b), min(a, b)
            file.write(code(2 * (GATE_INPUTS + k + 1) - a) + code(a - b))


def write_blif(path):
    with open(path, "w") as file:
        file.write(".model gates\n.inputs " + " ".join(f"n{k + 1}" for k in range(GATE_INPUTS)) + "\n")
        file.write(".outputs " + " ".join(f"n{v}" for v in outputs(GATES)) + "\n")
        for k, (a, b) in enumerate(gates(GATES)):
            a, b = max(a, b), min(a, b)
            file.write(f".names n{a >> 1} n{b >> 1} n{GATE_INPUTS + k + 1}\n{1 - (a & 1)}{1 - (b & 1)} 1\n")
        file.write(".end\n")


def main():
    folder = sys.argv[1]
    os.makedirs(folder, exist_ok=True)
    files = {
        "program.pim": lambda path: write_program(path, 1),
        "long.pim": lambda path: write_program(path, LONG),
        "vectors.262144": lambda path: write_vectors(path, 262_144),
        "vectors.1000000": lambda path: write_vectors(path, 1_000_000),
        "vectors.64": lambda path: write_vectors(path, 1_000, GATE_INPUTS),
        "gates.aig": lambda path: write_aiger(path, GATES),
        "gates.100000.aig": lambda path: write_aiger(path, 100_000),
        "gates.blif": write_blif,
    }
    for name, write in files.items():
        path = os.path.join(folder, name)
        if not os.path.exists(path):
            write(path + ".part")
            os.rename(path + ".part", path)


if __name__ == "__main__":
    main()
