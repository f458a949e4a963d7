"""The debugger: a dialogue, random commands against a plain model, and a long program."""
import random
import select
import subprocess

import machine
from program import PATIENCE, ROOT, equal, gives

AND_PROGRAM = ROOT / "examples" / "and2.pim"


class Dialogue:
    """A debugger at the other end of a pair of pipes."""

    def __init__(self, pim, program):
        self.child = subprocess.Popen(pim.line("debug", program), stdin=subprocess.PIPE, stdout=subprocess.PIPE, stderr=subprocess.PIPE)

    def say(self, line):
        """Writes a line."""
        self.child.stdin.write(line.encode() + b"\n")
        self.child.stdin.flush()

    def ask(self, line):
        """Writes a line and waits for its reply, with no further line behind it."""
        self.say(line)
        if not select.select([self.child.stdout], [], [], PATIENCE)[0]:
            self.child.kill()
            raise AssertionError(f"no reply to {line!r} before the next line")
        return self.child.stdout.readline().decode().removesuffix("\n")

    def end(self):
        """Closes the input. Gives the status, and what is left of the output and of the notes."""
        output, notes = self.child.communicate(timeout=PATIENCE)
        return self.child.returncode, output, notes


def test_a_dialogue(pim, folder):
    """Each reply comes before the next line is sent."""
    talk = Dialogue(pim, AND_PROGRAM)
    talk.say("11")
    talk.say("")
    for line, reply in [("break 2", "break 0 at 2"), ("run", "at 2"), ("cell 2", "cell 2 0"), ("step", "at 3"), ("step", "at 4"),
                        ("show", "1"), ("back 4", "at 0"), ("cell 4", "cell 4 0"), ("delete 0", "deleted 0"), ("run", "at 4")]:
        equal(f"the reply to {line!r}", talk.ask(line), reply)
    talk.say("quit")
    equal("the end", talk.end(), (0, b"", b""))


def test_lines_behind_quit(pim, folder):
    """What follows `quit` is not judged."""
    gives(pim("debug", AND_PROGRAM, stdin=b"01\nshow\nquit\nnonsense\n"), b"0\n")


def test_random_commands(pim, folder):
    """100,000 random commands on the program of an adder, against the rows of docs/machine.md and a table of breakpoints."""
    text = pim("compile", "--target", "magic", "--cells", "60", stdin=(ROOT / "examples" / "adder8.aag").read_bytes()).output
    (folder / "adder.pim").write_bytes(text)
    cells, inputs, outputs, instructions = machine.parsed(text)
    chance = random.Random(19)
    vector = [chance.randrange(2) for _ in inputs]
    rows = [[0] * cells]
    for cell, bit in zip(inputs, vector):
        rows[0][cell] = bit
    for instruction in instructions:
        rows.append(list(rows[-1]))
        machine.step(rows[-1], instruction)
    last = len(instructions)
    talk = Dialogue(pim, folder / "adder.pim")
    talk.say("".join(map(str, vector)))
    at, stops = 0, {}
    for _ in range(100_000):
        word = chance.choice(["step", "back", "goto", "run", "break", "delete", "cell", "show"])
        if word == "step" and at < last:
            steps = chance.randint(0, min(9, last - at))
            at += steps
            equal("a step", talk.ask(f"step {steps}"), f"at {at}")
        elif word == "back":
            steps = chance.randint(0, 12)
            at = max(0, at - steps)
            equal("a step back", talk.ask(f"back {steps}"), f"at {at}")
        elif word == "goto":
            at = chance.randint(0, last)
            equal("a place", talk.ask(f"goto {at}"), f"at {at}")
        elif word == "run":
            at = min((place for place in stops.values() if place > at), default=last)
            equal("a run", talk.ask("run"), f"at {at}")
        elif word == "break" and len(stops) < 12:
            place = chance.randint(0, last)
            reply = talk.ask(f"break {place}").split(" ")
            equal("a breakpoint", (reply[0], reply[2:]), ("break", ["at", str(place)]))
            assert int(reply[1]) not in stops, f"the number {reply[1]} was set"
            stops[int(reply[1])] = place
        elif word == "delete" and stops:
            number = chance.choice(sorted(stops))
            del stops[number]
            equal("a deletion", talk.ask(f"delete {number}"), f"deleted {number}")
        elif word == "cell":
            cell = chance.randrange(cells)
            equal("a cell", talk.ask(f"cell {cell}"), f"cell {cell} {rows[at][cell]}")
        elif word == "show":
            equal("the outputs", talk.ask("show"), "".join(str(rows[at][cell]) for cell in outputs))
    equal("the end", talk.end(), (0, b"", b""))


def test_a_million_instructions(pim, folder):
    """Far forward and back, again and again, on a program of 1,000,000 instructions."""
    (folder / "long.pim").write_text(
        "pim 1\ntarget magic\ncells 3\noutput 2 y\ncycles 1000000\n" + "init 0 1 2\nnot 2 1\n" * 500_000 + "end\n")
    commands = "\n" + "goto 999999\nshow\nback 999999\nshow\ngoto 1000000\nshow\nback 1000000\n" * 3
    gives(pim("debug", folder / "long.pim", stdin=commands.encode()), b"at 999999\n1\nat 0\n0\nat 1000000\n0\nat 0\n" * 3)
