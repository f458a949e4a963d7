"""Every cut and every change of one byte of small files of each kind: what comes is what the rules say, read anew by other readers."""
from concurrent.futures import ThreadPoolExecutor

import machine
import netlists
import texts
from program import equal

XOR = b".model x\n.inputs a b\n.outputs f\n.names a b f\n10 1\n01 1\n.end\n"
OFF_SET = b"# c\n.inputs a \\\nb\n.outputs f a\n.names a b f\n1- 0\n"
AND = b"aag 3 2 0 1 1\n2\n4\n7\n6 4 2\ni0 x\no0 y\nc\n"
BINARY = b"aig 4 2 0 1 2\n9\n\x02\x02\x02\x05i0 x\n"
MAGIC = b"pim 1\ntarget magic\ncells 4\ninput 0 a\noutput 3 f\ncycles 3\ninit 2 3\nnot 2 0\nnor 3 0 2\nend\n"
PLIM = b"pim 1\ntarget plim\ncells 3\ninput 1 a\noutput 2 f\ncycles 2\nrm3 #0 #1 @2\nrm3 @1 #0 @2\nend\n"
IMPLY = b"imply 1\ncells 3\ninput 0 a\noutput 2 f\ncycles 3\nfalse 2\nimp 0 2\nfalse 1\nend\n"
ASSEMBLY = b'target magic ; x\ncells 4\nlet c 2\ninput 0 "a\\22"\noutput c "f"\ninit c 3\nnot 3 0\n\tnor c 3 0\n'
ONE = b"pim 1\ntarget magic\ncells 3\ninput 0 a\noutput 2 f\ncycles 2\ninit 2\nnot 2 0\nend\n"


def changes(data):
    """The file itself, every proper front of it, and the file with each byte replaced by each other value, or left out."""
    yield data
    for place in range(len(data)):
        yield data[:place]
        yield data[:place] + data[place + 1:]
        for value in range(256):
            if value != data[place]:
                yield data[:place] + bytes([value]) + data[place + 1:]


def all_changes(data, judged):
    with ThreadPoolExecutor(8) as threads:
        list(threads.map(lambda job: judged(*job), enumerate(changes(data))))


def refusal(answer, fault, data):
    equal(f"the note on {data!r}", answer.notes, b"pim: " + fault.note + b"\n")
    equal(f"the status on {data!r}", answer.status, fault.status)


def done(answer, data):
    equal(f"the note on {data!r}", answer.notes, b"")
    equal(f"the status on {data!r}", answer.status, 0)


def called_on(pim, folder, number, data, command, *words, **how):
    """What a command answers whose FILE has these bytes."""
    path = folder / str(number)
    path.write_bytes(data)
    answer = pim(command, path, *words, **how)
    path.unlink()
    return answer


def text_judged(pim, folder, command, kind, wrote):
    """A program's text is refused as the other reader says, or the command is done, and `wrote` judges what it wrote."""
    def judged(number, data):
        answer = called_on(pim, folder, number, data, command)
        try:
            texts.Text(kind, data).judge()
        except texts.Refused as fault:
            return refusal(answer, fault, data)
        done(answer, data)
        wrote(answer.output, data)
    return judged


def netlist_judged(pim, folder, target):
    """A netlist is refused as the other reader says, or its program has the netlist's labels and outputs on all vectors."""
    def judged(number, data):
        answer = pim("compile", "--target", target, "--cells", "1000", stdin=data)
        try:
            wanted = netlists.read(data)
        except netlists.Refused as fault:
            refusal(answer, fault, data)
            equal(f"the output on {data!r}", answer.output, b"")
            return
        done(answer, data)
        ports = [line.split(b" ", 2)[::2] for line in answer.output.split(b"\n") if line.startswith((b"input ", b"output "))]
        equal(f"the ports of {data!r}", ports, [[b"input", name] for _, name in wanted.inputs] + [[b"output", name] for *_, name in wanted.outputs])
        width = len(wanted.inputs)
        for vector in (format(k, f"0{width}b") if width else "" for k in range(2**width)):
            row = [number & 1] * 1000
            equal(f"the outputs of {data!r} on {vector}", machine.executed(answer.output, vector, row), wanted.results(vector))
    return judged


def test_changed_netlists(pim, folder):
    """Netlists in BLIF and in both forms of AIGER."""
    for data, target in (XOR, "magic"), (OFF_SET, "plim"), (AND, "plim"), (BINARY, "magic"):
        all_changes(data, netlist_judged(pim, folder, target))


def test_changed_programs(pim, folder):
    """Programs as text, of each target, for `list`; what is no fault is listed and assembled to the same bytes."""
    def wrote(listing, data):
        equal(f"what is assembled of the listing of {data!r}", pim("asm", stdin=listing).output, data)

    for data in MAGIC, PLIM:
        all_changes(data, text_judged(pim, folder, "list", b"pim", wrote))


def test_changed_imply_programs(pim, folder):
    """IMPLY programs, for `implyrun` without a vector."""
    def wrote(output, data):
        equal(f"what is written without a vector for {data!r}", output, b"")

    all_changes(IMPLY, text_judged(pim, folder, "implyrun", b"imply", wrote))


def test_changed_assembly(pim, folder):
    """Assembly, with a name, a comment and an escaped label."""
    def judged(number, data):
        answer = pim("asm", stdin=data)
        try:
            wanted = texts.Assembly(data).text()
        except texts.Refused as fault:
            fault.note = fault.note.replace(b"bad input: pim", b"bad input: program")
            return refusal(answer, fault, data)
        done(answer, data)
        equal(f"the program of {data!r}", answer.output, wanted)

    all_changes(ASSEMBLY, judged)


def test_changed_turns(pim, folder):
    """Turns for two programs of two instructions each."""
    (folder / "parts").write_bytes(ONE * 2)

    def judged(number, data):
        answer = pim("share", folder / "parts", "--cells", "6", stdin=data)
        try:
            texts.judge_turns(data, [2, 2])
        except texts.Refused as fault:
            return refusal(answer, fault, data)
        done(answer, data)

    all_changes(b"0\n1\n01\r\n0", judged)


def test_changed_parts(pim, folder):
    """A file of two programs: each change is a fault of the first piece that is no program, or the turns decide, by their cycles."""
    turns = b"0\n1\n0\n1\n"

    def judged(number, data):
        answer = called_on(pim, folder, number, data, "share", "--cells", "1048576", stdin=turns)
        try:
            for part, piece in enumerate(pieces(data)):
                judge_part(part, piece)
            texts.judge_turns(turns, [cycles_of(piece) for piece in pieces(data)])
        except texts.Refused as fault:
            return refusal(answer, fault, data)
        done(answer, data)
        equal(f"the cycles for {data!r}", cycles_of(answer.output), 4)

    all_changes(ONE * 2, judged)


def cycles_of(text):
    """How many cycles a program says that it has."""
    return next(int(line.split(b" ")[1]) for line in text.split(b"\n") if line.startswith(b"cycles "))


def pieces(data):
    """The pieces of a file of several programs: cut behind each line that is exactly `end`."""
    found, piece = [], b""
    for line in cut_at_newlines(data):
        piece += line
        if line == b"end\n":
            found.append(piece)
            piece = b""
    return found + ([piece] if piece or not found else [])


def cut_at_newlines(data):
    parts = data.split(b"\n")
    return [part + b"\n" for part in parts[:-1]] + ([parts[-1]] if parts[-1] else [])


def judge_part(part, piece):
    try:
        texts.Text(b"pim", piece).judge()
    except texts.Refused as fault:
        if fault.status == 1:
            fault.note = fault.note.replace(b"bad input: ", b"bad input: part %d " % part)
        raise


def test_changed_vectors(pim, folder):
    """Vectors for `run` and `implyrun`: the first line that is none is told, and nothing of its tile was written."""
    (folder / "it.pim").write_bytes(MAGIC)
    (folder / "it.imply").write_bytes(IMPLY)

    def judged(number, data):
        for command, name in ("run", "it.pim"), ("implyrun", "it.imply"):
            answer = pim(command, folder / name, stdin=data)
            try:
                texts.judge_vectors(data, 1)
            except texts.Refused as fault:
                refusal(answer, fault, data)
                equal(f"the output on {data!r}", answer.output, b"")
            else:
                done(answer, data)
                equal(f"the lines for {data!r}", answer.output.count(b"\n"), len(texts.lines_of(data)))

    all_changes(b"0\n1\r\n1", judged)
