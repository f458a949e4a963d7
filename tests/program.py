"""Calls of the built program, and what they have to give."""
import subprocess
from dataclasses import dataclass
from pathlib import Path

ROOT = Path(__file__).resolve().parent.parent

# No call of a test takes a second on an idle machine, but the largest, which take a few. A call that hangs is ended.
PATIENCE = 120


@dataclass
class Answer:
    """How a call ended: its exit status, and what it wrote to standard output and to standard error."""
    status: int
    output: bytes
    notes: bytes


class Program:
    """The built program, to be called with words."""

    def __init__(self, path):
        self.path = str(Path(path).resolve(strict=True))

    def line(self, *words):
        """The command line of these words, each a text, some bytes or a path."""
        return [self.path, *words]

    def __call__(self, *words, stdin=b"", **how):
        """Calls the program with these bytes, or this opened file, as its standard input."""
        if isinstance(stdin, bytes):
            how["input"] = stdin
        else:
            how["stdin"] = stdin
        how.setdefault("stdout", subprocess.PIPE)
        how.setdefault("stderr", subprocess.PIPE)
        done = subprocess.run(self.line(*words), timeout=PATIENCE, **how)
        return Answer(done.returncode, done.stdout or b"", done.stderr or b"")


def shown(data):
    """Bytes as a message shows them."""
    return repr(data) if len(data) <= 300 else f"{data[:200]!r} .. {data[-60:]!r} ({len(data)} bytes)"


def equal(what, got, wanted):
    """Fails where the two are not equal."""
    if got != wanted:
        if isinstance(got, bytes) and isinstance(wanted, bytes):
            place = next((k for k, (a, b) in enumerate(zip(got, wanted)) if a != b), min(len(got), len(wanted)))
            raise AssertionError(f"{what} is {shown(got)}, wanted {shown(wanted)}; they differ from byte {place} on")
        raise AssertionError(f"{what} is {got!r}, wanted {wanted!r}")


def gives(answer, output):
    """A call that is done: status 0, this output, no note."""
    equal("the note", answer.notes, b"")
    equal("the status", answer.status, 0)
    equal("the output", answer.output, output)


def stops(answer, status, note, output=b""):
    """A call that was refused: this status, this one line as a note, and this output before."""
    equal("the note", answer.notes, f"pim: {note}\n".encode())
    equal("the status", answer.status, status)
    equal("the output", answer.output, output)


def compile_of(pim, netlist):
    """The call that compiles a small netlist."""
    return pim("compile", "--target", "magic", "--cells", "20", stdin=netlist)


def has_ports(pim, netlist, inputs, outputs):
    """A small netlist is compiled, and these are the labels of its inputs and outputs."""
    answer = compile_of(pim, netlist)
    equal("the note", answer.notes, b"")
    equal("the status", answer.status, 0)
    lines = [line.split(b" ", 2) for line in answer.output.split(b"\n")]
    equal("the inputs", [line[2] for line in lines if line[0] == b"input"], inputs)
    equal("the outputs", [line[2] for line in lines if line[0] == b"output"], outputs)
