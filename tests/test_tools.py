"""What yosys and ABC write that is refused, and the cures of docs/guide.md, where these tools are installed."""
import shutil
import subprocess

from program import equal

DEAD = "module dead(input [3:0] a, output y); wire [3:0] t = a + 4'd1; wire unused = t[3]; assign y = ^t[2:0]; endmodule"
STORE = "module store(input clk, input d, output reg q); always @(posedge clk) q <= q ^ d; endmodule"
COUNT = """
module count(input clk, input rst, input en, output reg [1:0] n);
  always @(posedge clk) if (rst) n <= 0; else if (en) n <= n + 1;
endmodule
"""
HALVES = """
module half(input a, input b, output s, output c); assign s = a ^ b; assign c = a & b; endmodule
module halves(input a, input b, input d, output s, output c);
  wire s1, c1, c2; half h1(a, b, s1, c1); half h2(s1, d, s, c2); assign c = c1 | c2;
endmodule
"""
CLAIM = "module claim(input [1:0] a, output y); assign y = ^a; always @* assert (a != 3); endmodule"
LOOP = "module loop(input a, output y); wire t; assign t = ~(a & y); assign y = ~t ^ a; endmodule"
LIBRARY = "GATE inv1 1 O=!a; PIN * INV 1 999 1.0 0.0 1.0 0.0\nGATE nand2 2 O=!(a*b); PIN * INV 1 999 1.0 0.0 1.0 0.0\n"
GATES = ".model g\n.inputs a b\n.outputs f\n.gate nand2 a=a b=b O=g\n.gate inv1 a=g O=f\n.end\n"


class Tools:
    """yosys and ABC in a folder."""

    def __init__(self, pim, folder):
        self.pim, self.folder = pim, folder

    def yosys(self, module, steps, formal=""):
        """What yosys writes to the file x of a module after these steps."""
        (self.folder / "x.v").write_text(module)
        subprocess.run(["yosys", "-q", "-p", f"read_verilog {formal} x.v; {steps} x"], cwd=self.folder, check=True, capture_output=True)
        return (self.folder / "x").read_bytes()

    def abc(self, netlist, steps):
        """What ABC writes to the file y of a BLIF netlist after these steps."""
        (self.folder / "x.blif").write_bytes(netlist)
        subprocess.run(["berkeley-abc", "-q", f"{steps} y.blif"], cwd=self.folder, check=True, capture_output=True)
        return (self.folder / "y.blif").read_bytes()

    def refused(self, netlist, note):
        """The netlist is refused with a note that begins so."""
        answer = self.pim("compile", "--target", "magic", "--cells", "1000", stdin=netlist)
        equal("the status", answer.status, 1)
        equal("the note", answer.notes.decode()[:len("pim: bad input: " + note)], "pim: bad input: " + note)

    def compiled(self, netlist):
        """The netlist is compiled."""
        answer = self.pim("compile", "--target", "magic", "--cells", "1000", stdin=netlist)
        equal("the note", answer.notes, b"")
        equal("the status", answer.status, 0)


def tools(pim, folder):
    """The tools, if both are installed."""
    return Tools(pim, folder) if shutil.which("yosys") and shutil.which("berkeley-abc") else None


def test_nets_without_a_driver(pim, folder):
    """yosys names nets whose driver is gone; `opt_clean -purge` and `-noalias` are cures."""
    if it := tools(pim, folder):
        steps = "proc; opt; techmap; abc -g AND;"
        it.refused(it.yosys(DEAD, f"{steps} write_blif"), "undriven ")
        it.compiled(it.yosys(DEAD, f"{steps} opt_clean -purge; write_blif"))
        it.compiled(it.yosys(DEAD, f"{steps} write_blif -noalias"))


def test_submodules_and_gates(pim, folder):
    """Submodules are put in place by `synth -flatten` or by ABC, and gates of a library become covers."""
    if it := tools(pim, folder):
        netlist = it.yosys(HALVES, "synth; abc -g AND; opt_clean -purge; write_blif")
        it.refused(netlist, "blif line ")
        it.compiled(it.yosys(HALVES, "synth -flatten; abc -g AND; opt_clean -purge; write_blif"))
        it.compiled(it.abc(netlist, "read_blif x.blif; strash; write_blif"))
        it.refused(GATES.encode(), "blif line 4: unsupported .gate")
        (folder / "x.genlib").write_text(LIBRARY)
        it.compiled(it.abc(GATES.encode(), "read_library x.genlib; read_blif x.blif; strash; write_blif"))


def test_stored_bits(pim, folder):
    """Latches become inputs and outputs by `expose -evert-dff` or by ABC's `comb`."""
    if it := tools(pim, folder):
        netlist = it.yosys(STORE, "synth -flatten; abc -g AND; opt_clean -purge; write_blif")
        it.refused(netlist, "blif line ")
        it.compiled(it.yosys(STORE, "synth -flatten; expose -evert-dff; abc -g AND; opt_clean -purge; write_blif"))
        it.compiled(it.abc(netlist, "read_blif x.blif; strash; comb; write_blif"))
        it.refused(it.yosys(STORE, "synth -flatten; aigmap; write_aiger"), "aiger latches")
        it.compiled(it.yosys(STORE, "synth -flatten; expose -evert-dff; aigmap; opt_clean -purge; write_aiger -symbols"))


def test_claims_and_loops(pim, folder):
    """Assertions stand in the header of AIGER, until `chformal -remove`; a loop is a cycle."""
    if it := tools(pim, folder):
        it.refused(it.yosys(CLAIM, "prep -flatten; techmap; aigmap; write_aiger", "-formal"), "aiger header")
        it.compiled(it.yosys(CLAIM, "prep -flatten; chformal -remove; techmap; aigmap; opt_clean -purge; write_aiger", "-formal"))
        it.refused(it.yosys(LOOP, "synth -flatten; abc -g AND; opt_clean -purge; write_blif"), "cycle ")


def test_registers_with_reset_and_enable(pim, folder):
    """`dffunmap` takes resets and enables out of the registers, for BLIF and for AIGER; without it a register stays a cell. The program
    counts: from each state, with each reset and enable."""
    if it := tools(pim, folder):
        it.refused(it.yosys(COUNT, "synth -flatten; expose -evert-dff; abc -g AND; opt_clean -purge; write_blif"), "blif line ")
        for write in "abc -g AND; opt_clean -purge; write_blif", "aigmap; opt_clean -purge; write_aiger -symbols":
            netlist = it.yosys(COUNT, f"synth -flatten; dffunmap; expose -evert-dff; {write}")
            program = pim("compile", "--target", "plim", "--cells", "1000", "--level", "2", stdin=netlist).output
            (folder / "program").write_bytes(program)
            ports = [line.split(" ", 2) for line in program.decode().split("\n") if line.startswith(("input ", "output "))]
            inputs, outputs = ([label for kind, _, label in ports if kind == wanted] for wanted in ("input", "output"))
            for state in range(4):
                for rst, en in (0, 0), (0, 1), (1, 0), (1, 1):
                    bits = {"clk": 0, "rst": rst, "en": en, "n.q[0]": state % 2, "n.q[1]": state // 2}
                    vector = "".join(str(bits[label]) for label in inputs) + "\n"
                    answer = pim("run", folder / "program", stdin=vector.encode()).output.decode()
                    told = dict(zip(outputs, answer))
                    wanted = 0 if rst else (state + en) % 4
                    equal(f"what follows {bits}", int(told["n.d[0]"]) + 2 * int(told["n.d[1]"]), wanted)
