#!/usr/bin/env python3
"""examples/verilog/make.py [--check]: makes the netlists, vectors and results of the modules beside it.

It needs yosys, berkeley-abc and iverilog (Debian's packages of these names). yosys and ABC write the netlists, and Icarus Verilog
computes the results from the modules themselves. With --check nothing is written: it tells which files differ.
"""
import random
import re
import subprocess
import sys
import tempfile
from dataclasses import dataclass
from pathlib import Path

HERE = Path(__file__).resolve().parent
MOST = 256  # vectors of a module; one of fewer gets all of its own

# What each netlist is written by: yosys first, then ABC where it has a second line. `{name}` is the module.
GATES = "read_verilog {name}.v; synth -flatten; abc -g AND; opt_clean -purge; write_blif {name}.blif"
ABC_COVERS = "read_blif {name}.blif; strash; dch; if -K 4; sop; write_blif {name}.blif"
ABC_AIGER = "read_blif {name}.blif; strash; dch; write_aiger -s {name}.aig"
AIGER = "read_verilog {name}.v; synth -flatten; aigmap; opt_clean -purge; write_aiger -symbols {name}.aig"
AIGER_TEXT = "read_verilog {name}.v; synth -flatten; aigmap; opt_clean -purge; write_aiger -ascii -symbols {name}.aag"
NETLISTS = {
    "alu8.aig": (GATES, ABC_AIGER),
    "bcd7.blif": (GATES, ABC_COVERS),
    "compare4.blif": (GATES,),
    "crc8.aig": (AIGER,),
    "parity16.aag": (AIGER_TEXT,),
}


@dataclass
class Module:
    """A module: its name, and its inputs and outputs bit by bit, the lowest bit of a vector first."""
    name: str
    inputs: list
    outputs: list


def module(name):
    """The module of a file, read from its head."""
    text = (HERE / f"{name}.v").read_text()
    head = re.search(rf"module {name}\((.*?)\);", text, re.DOTALL)[1]
    ports = {"input": [], "output": []}
    for kind, high, port in re.findall(r"(input|output)(?: reg)?(?: \[(\d+):0\])? (\w+)", head):
        ports[kind] += [f"{port}[{bit}]" for bit in range(int(high) + 1)] if high else [port]
    return Module(name, ports["input"], ports["output"])


def netlist(file, folder):
    """The bytes of a netlist, as the tools write it, without the date that ABC puts in."""
    name = file.split(".")[0]
    (folder / f"{name}.v").write_bytes((HERE / f"{name}.v").read_bytes())
    yosys, *abc = NETLISTS[file]
    subprocess.run(["yosys", "-q", "-p", yosys.format(name=name)], cwd=folder, check=True)
    for line in abc:
        subprocess.run(["berkeley-abc", "-q", line.format(name=name)], cwd=folder, check=True, stdout=subprocess.DEVNULL)
    return re.sub(rb" on \w{3} \w{3} +\d+ [\d:]+ \d{4}", b"", (folder / file).read_bytes())


def vectors(inputs):
    """All vectors of so many inputs in order, or MOST random ones from a fixed seed."""
    if 2**inputs <= MOST:
        return [format(number, f"0{inputs}b") for number in range(2**inputs)]
    chance = random.Random(inputs)
    return [format(chance.getrandbits(inputs), f"0{inputs}b") for _ in range(MOST)]


def bench(it):
    """A test bench that reads a vector from each line and writes a line of outputs, a character for each bit."""
    wires = sorted({re.sub(r"\[.*", "", bit) for bit in it.inputs + it.outputs})
    widths = {wire: sum(re.sub(r"\[.*", "", bit) == wire for bit in it.inputs + it.outputs) for wire in wires}
    inputs = {re.sub(r"\[.*", "", bit) for bit in it.inputs}
    declared = "\n".join(f"  {'reg' if wire in inputs else 'wire'} [{widths[wire] - 1}:0] {wire};" for wire in wires)
    ports = ", ".join(f".{wire}({wire})" for wire in wires)
    return f"""module bench;
{declared}
  reg [{len(it.inputs) - 1}:0] line;
  {it.name} unit({ports});
  initial
    while ($fscanf('h80000000, "%b", line) == 1) begin
      {{{", ".join(it.inputs)}}} = line;
      #1 $display("%b", {{{", ".join(it.outputs)}}});
    end
endmodule
"""


def results(it, lines, folder):
    """What Icarus Verilog gives for these vectors."""
    (folder / "bench.v").write_text(bench(it))
    subprocess.run(["iverilog", "-g2005", "-o", "bench", "bench.v", HERE / f"{it.name}.v"], cwd=folder, check=True)
    return subprocess.run(["vvp", "-n", "bench"], cwd=folder, check=True, capture_output=True, input=lines).stdout


def made():
    """Each file of examples/ that is made here, with its bytes."""
    for file in NETLISTS:
        with tempfile.TemporaryDirectory() as name:
            folder = Path(name)
            it = module(file.split(".")[0])
            lines = "".join(vector + "\n" for vector in vectors(len(it.inputs))).encode()
            yield file, netlist(file, folder)
            yield f"{it.name}.vectors", lines
            yield f"{it.name}.results", results(it, lines, folder)


def main():
    differ = 0
    for file, data in made():
        path = HERE.parent / file
        if "--check" not in sys.argv:
            path.write_bytes(data)
        elif not path.exists() or path.read_bytes() != data:
            print(f"{file} differs")
            differ = 1
    return differ


sys.exit(main())
