"""The files of examples/ are what examples/README.md says they are, and their programs compute what it says."""
import re
import subprocess

from program import ROOT, equal, gives, stops

EXAMPLES = ROOT / "examples"
README = (EXAMPLES / "README.md").read_text()


def compiled(pim, name, cells, target="magic", level="0"):
    """The program of an example, in at most so many cells."""
    answer = pim("compile", "--target", target, "--cells", cells, "--level", level, stdin=(EXAMPLES / name).read_bytes())
    equal(f"the note on {name}", answer.notes, b"")
    equal(f"the status on {name}", answer.status, 0)
    return answer.output


def labels(program, kind):
    """The labels of the inputs, or of the outputs, in order."""
    return re.findall(rf"^{kind} \d+ (.*)$", program.decode(), re.MULTILINE)


def computes(pim, folder, name, outputs_of):
    """The example's programs, in as few cells as it needs and in many, give on every vector what the rule gives.

    The rule takes the inputs' bits by their labels, and gives the outputs' by theirs. A PLiM program is the same in many cells.
    """
    calls = [("magic", needed()[name], "zeros"), ("magic", needed()[name], "ones"), ("magic", "1000", "ones")]
    calls += [("plim", told(pim, name), "zeros"), ("plim", told(pim, name), "ones")]
    for target, cells, fill in calls:
        program = compiled(pim, name, cells, target)
        (folder / "program.pim").write_bytes(program)
        inputs, outputs = labels(program, "input"), labels(program, "output")
        vectors, results = [], []
        for number in range(2 ** len(inputs)):
            vector = format(number, f"0{len(inputs)}b")
            bits = outputs_of({label: int(bit) for label, bit in zip(inputs, vector)})
            vectors.append(vector + "\n")
            results.append("".join(str(int(bits[label])) for label in outputs) + "\n")
        answer = pim("run", folder / "program.pim", "--fill", fill, stdin="".join(vectors).encode())
        gives(answer, "".join(results).encode())


def needed():
    """The cells that each netlist of the page's table needs, by its file's name."""
    return dict(re.findall(r"^\| `(.*?)` \|.*\| (\d+) \|$", README, re.MULTILINE))


def told(pim, name):
    """The cells that the note names where a PLiM program of the example has none."""
    answer = pim("compile", "--target", "plim", "--cells", "0", stdin=(EXAMPLES / name).read_bytes())
    return answer.notes.decode().removeprefix("pim: too few cells: needed ").rstrip("\n")


def number(bits, name):
    """The number whose bit k is the input called by the name with k put in."""
    return sum(bits[name.format(k)] << k for k in range(8))


def test_the_and_of_two_inputs(pim, folder):
    """and2.aag is an AND, and2.pim is its program, and and2.vectors has all its vectors."""
    computes(pim, folder, "and2.aag", lambda bits: {"o0": bits["i0"] & bits["i1"]})
    equal("the program of and2.aag", compiled(pim, "and2.aag", "5"), (EXAMPLES / "and2.pim").read_bytes())
    vectors = (EXAMPLES / "and2.vectors").read_bytes()
    equal("and2.vectors", vectors, b"00\n01\n10\n11\n")
    gives(pim("run", EXAMPLES / "and2.pim", stdin=vectors), b"0\n0\n0\n1\n")


def test_the_full_adder(pim, folder):
    """full_adder.aag gives the two bits of a + b + cin."""
    def add(bits):
        total = bits["a"] + bits["b"] + bits["cin"]
        return {"s": total % 2, "cout": total // 2}
    computes(pim, folder, "full_adder.aag", add)


def test_the_adder_of_eight_bits(pim, folder):
    """adder8.aag gives the nine bits of a + b + cin, for all 131,072 vectors."""
    def add(bits):
        total = number(bits, "a{}") + number(bits, "b{}") + bits["cin"]
        return {f"s{k}": total >> k & 1 for k in range(8)} | {"cout": total >> 8}
    computes(pim, folder, "adder8.aag", add)


def test_the_comparator_of_eight_bits(pim, folder):
    """comparator8.blif tells whether a is below b, and whether they are equal, for all 65,536 vectors."""
    def compare(bits):
        a, b = number(bits, "a[{}]"), number(bits, "b[{}]")
        return {"lt": a < b, "eq": a == b}
    computes(pim, folder, "comparator8.blif", compare)


def test_the_gray_code(pim, folder):
    """gray3.blif gives the Gray code of a number of three bits, the constant one and the constant zero."""
    def gray(bits):
        n = bits["n[0]"] + 2 * bits["n[1]"] + 4 * bits["n[2]"]
        code = n ^ n >> 1
        return {f"g[{k}]": code >> k & 1 for k in range(3)} | {"valid": 1, "spare": 0}
    computes(pim, folder, "gray3.blif", gray)


def test_what_another_simulator_computed(pim, folder):
    """Each netlist with vectors and results beside it gives those results: Icarus Verilog computed them from its module.

    Its programs have as few cells as it needs, and a thousand, for each machine and level, and begin with zeros and with ones.
    """
    modules = sorted(path.stem for path in (EXAMPLES / "verilog").glob("*.v"))
    equal("the modules with results", modules, sorted(path.stem for path in EXAMPLES.glob("*.results")))
    for module in modules:
        netlist, = [name for name in netlists() if name.startswith(f"{module}.")]
        vectors = (EXAMPLES / f"{module}.vectors").read_bytes()
        results = (EXAMPLES / f"{module}.results").read_bytes()
        kinds = [("magic", needed()[netlist]), ("magic", "1000"), ("plim", "1000")]
        for target, cells, level in [(*kind, level) for kind in kinds for level in "012"]:
            (folder / "program.pim").write_bytes(compiled(pim, netlist, cells, target, level))
            for fill in "zeros", "ones":
                gives(pim("run", folder / "program.pim", "--fill", fill, stdin=vectors), results)


def test_the_cells_that_the_examples_need(pim, folder):
    """Each netlist of the table compiles in as many cells as the table says, and in one less it does not."""
    equal("the netlists of the table", set(needed()), netlists())
    for name, cells in needed().items():
        program = compiled(pim, name, cells)
        equal(f"the cells of {name}", re.search(rb"^cells (\d+)$", program, re.MULTILINE)[1].decode(), cells)
        answer = pim("compile", "--target", "magic", "--cells", str(int(cells) - 1), stdin=(EXAMPLES / name).read_bytes())
        stops(answer, 6, f"too few cells: needed {cells}")


def netlists():
    return {path.name for path in EXAMPLES.iterdir() if path.suffix in {".aag", ".aig", ".blif"}}


def test_the_commands_of_the_page(pim, folder):
    """Each command line of examples/README.md that calls the program ends with status 0."""
    commands = re.findall(r"^    crates/pim/out/pim (.*)$", README, re.MULTILINE)
    equal("whether the page has commands", bool(commands), True)
    for command in commands:
        done = subprocess.run(["bash", "-c", f'"$0" {command}', pim.path], cwd=ROOT, capture_output=True, timeout=60)
        equal(f"the status of {command}", done.returncode, 0)
        equal(f"the note of {command}", done.stderr, b"")
