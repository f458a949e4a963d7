"""Programs that share a row give what each gives alone, whatever the turns."""
import random

from program import ROOT, equal, gives


def compiled(pim, name, target, cells):
    """The program of a netlist of examples/, and its number of cells and of cycles, as its text says."""
    netlist = (ROOT / "examples" / name).read_bytes()
    answer = pim("compile", "--target", target, "--cells", str(cells), stdin=netlist)
    equal("the status", answer.status, 0)
    counts = dict(line.split(b" ") for line in answer.output.split(b"\n") if line.startswith((b"cells", b"cycles")))
    return answer.output, int(counts[b"cells"]), int(counts[b"cycles"])


def vectors(chance, inputs, lines):
    return ["".join(chance.choice("01") for _ in range(inputs)) for _ in range(lines)]


def text(lines):
    return "".join(line + "\n" for line in lines).encode()


def shared_gives(pim, folder, parts, inputs, chance):
    """The merged program of these parts, in random fair turns, gives on random vectors the parts' results side by side."""
    turns = [number for number, (_, _, cycles) in enumerate(parts) for _ in range(cycles)]
    chance.shuffle(turns)
    (folder / "parts").write_bytes(b"".join(program for program, _, _ in parts))
    merged = pim("share", folder / "parts", "--cells", str(sum(cells for _, cells, _ in parts)), stdin=text(map(str, turns)))
    equal("the status of share", merged.status, 0)
    (folder / "merged").write_bytes(merged.output)
    given = [vectors(chance, width, 200) for width in inputs]
    alone = []
    for (program, _, _), lines in zip(parts, given):
        (folder / "part").write_bytes(program)
        alone.append(pim("run", folder / "part", stdin=text(lines)).output.decode().split())
    wanted = text("".join(results) for results in zip(*alone))
    for fill in "zeros", "ones":
        gives(pim("run", folder / "merged", "--fill", fill, stdin=text("".join(row) for row in zip(*given))), wanted)


def test_two_magic_programs_in_one_row(pim, folder):
    """The 8-bit adder and the comparator, ten times in other random turns."""
    parts = [compiled(pim, "adder8.aag", "magic", 40), compiled(pim, "compare4.blif", "magic", 16)]
    chance = random.Random(1)
    for _ in range(10):
        shared_gives(pim, folder, parts, (17, 8), chance)


def test_three_plim_programs_in_one_row(pim, folder):
    """Three programs of majorities, one of them twice."""
    parts = [compiled(pim, name, "plim", 200) for name in ("full_adder.aag", "bcd7.blif", "full_adder.aag")]
    chance = random.Random(2)
    for _ in range(10):
        shared_gives(pim, folder, parts, (3, 4, 3), chance)


def test_every_unfair_list_of_turns(pim, folder):
    """Each list of turns with one turn left out, doubled or of a part that is not there is refused with its line or its part."""
    part = compiled(pim, "and2.aag", "magic", 5)[0]
    (folder / "parts").write_bytes(part * 2)
    turns = [0, 1, 1, 0, 0, 0, 1, 1]
    for place, turn in enumerate(turns):
        without = turns[:place] + turns[place + 1:]
        answer = pim("share", folder / "parts", "--cells", "10", stdin=text(map(str, without)))
        equal("the note", answer.notes, f"pim: bad input: turns missing part {turn}\n".encode())
        wrong = turns[:place] + [2] + turns[place + 1:]
        answer = pim("share", folder / "parts", "--cells", "10", stdin=text(map(str, wrong)))
        equal("the note", answer.notes, f"pim: bad input: turn line {place + 1}\n".encode())
        equal("the output", answer.output, b"")
    answer = pim("share", folder / "parts", "--cells", "10", stdin=text(map(str, [*turns, 0])))
    equal("the note", answer.notes, b"pim: bad input: turn line 9\n")


def test_a_large_share(pim, folder):
    """A hundred thousand instructions in turns: time goes by the bytes and the turns, and not by the parts times the turns."""
    part = compiled(pim, "adder8.aag", "magic", 40)
    parts = [part] * 600
    turns = [number for _ in range(part[2]) for number in range(600)]
    (folder / "parts").write_bytes(b"".join(program for program, _, _ in parts))
    answer = pim("share", folder / "parts", "--cells", str(600 * part[1]), stdin=text(map(str, turns)))
    equal("the note", answer.notes, b"")
    equal("the cycles", b"cycles %d\n" % len(turns) in answer.output, True)
