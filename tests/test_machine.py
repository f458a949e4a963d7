"""What programs do, against the machine of machine.py, which is written from docs/machine.md."""
import random

import machine
from program import ROOT, equal, gives

EXAMPLES = ["and2.aag", "full_adder.aag", "adder8.aag", "comparator8.blif", "gray3.blif"]


def instruction(chance, target, cells):
    """An instruction of the target that is valid in a row of so many cells."""
    if target == "plim":
        z, p, q = chance.sample(range(cells), 3)
        return f"rm3 {chance.choice([f'@{p}', '#0', '#1'])} {chance.choice([f'@{q}', '#0', '#1'])} @{z}"
    if chance.random() < 0.4:
        return "init " + " ".join(map(str, sorted(chance.sample(range(cells), chance.randint(1, cells)))))
    operands = chance.randint(1, 4)
    return " ".join(["not" if operands == 1 else "nor", *map(str, chance.sample(range(cells), operands + 1))])


def any_program(chance, target):
    """A random valid program: inputs and outputs in any cells, targets that are not primed, inputs that are written."""
    cells = chance.randint(5, 12)
    inputs = chance.sample(range(cells), chance.randint(0, 5))
    outputs = [chance.randrange(cells) for _ in range(chance.randint(0, 6))]
    body = [instruction(chance, target, cells) for _ in range(chance.randint(0, 30))]
    ports = [f"input {cell} i" for cell in inputs] + [f"output {cell} o" for cell in outputs]
    return "\n".join(["pim 1", f"target {target}", f"cells {cells}", *ports, f"cycles {len(body)}", *body, "end", ""]).encode()


def test_random_programs(pim, folder):
    """A hundred random programs, of both targets and with both fillings, give on all vectors what the machine gives."""
    chance = random.Random(1)
    for number in range(100):
        text = any_program(chance, ["magic", "plim"][number % 2])
        (folder / "program.pim").write_bytes(text)
        inputs = len(machine.parsed(text)[1])
        vectors = [format(k, f"0{inputs}b") if inputs else "" for k in range(2 ** inputs)]
        for bit, fill in enumerate(["zeros", "ones"]):
            results = [machine.executed(text, vector, [bit] * 12) for vector in vectors]
            answer = pim("run", folder / "program.pim", "--fill", fill, stdin="".join(v + "\n" for v in vectors).encode())
            gives(answer, "".join(result + "\n" for result in results).encode())


def budgets(pim, target, netlist):
    """Numbers of cells from the least that a netlist needs on: a dozen, and then as many as it may take."""
    note = pim("compile", "--target", target, "--cells", "0", stdin=netlist).notes
    least = int(note.decode().removeprefix("pim: too few cells: needed "))
    return [*range(least, least + 12), 1000]


def test_compiled_programs_from_any_content(pim, folder):
    """Compiled programs of each level, of few cells and of many, give the same outputs from rows with random content, and these are what
    `run` gives; they are primed, their inputs stand first, and they name no cell past their own."""
    chance = random.Random(2)
    for name in EXAMPLES:
        netlist = (ROOT / "examples" / name).read_bytes()
        inputs = len(machine.parsed(pim("compile", "--target", "magic", "--cells", "1000", stdin=netlist).output)[1])
        vectors = ["".join(chance.choice("01") for _ in range(inputs)) for _ in range(10)]
        results = set()
        for target, budget, level in [(target, budget, level) for target in ("magic", "plim") for budget in budgets(pim, target, netlist)
                                      for level in "012"]:
            text = pim("compile", "--target", target, "--cells", str(budget), "--level", level, stdin=netlist).output
            shape(name, text, budget)
            (folder / "program.pim").write_bytes(text)
            answer = pim("run", folder / "program.pim", stdin="".join(vector + "\n" for vector in vectors).encode())
            results.add(answer.output)
            for vector, result in zip(vectors, answer.output.decode().split("\n")):
                row = [chance.randint(0, 1) for _ in range(budget)]
                equal(f"{name} to {target} at level {level} in {budget} cells on {vector}", machine.executed(text, vector, row), result)
        equal(f"how many tables of results {name} has", len(results), 1)


def shape(name, text, budget):
    """Fails where a program is not primed, or its cells are not those that it says and may have."""
    cells, inputs, outputs, body = machine.parsed(text)
    named = [int(cell.lstrip("@")) for line in body for cell in line.split(" ")[1:] if not cell.startswith("#")]
    equal(f"whether {name} is primed", machine.primed(text), True)
    equal(f"whether {name} stays in its {cells} cells of {budget}", max(named + inputs + outputs) < cells <= budget, True)
    equal(f"the inputs of {name}", inputs, list(range(len(inputs))))
