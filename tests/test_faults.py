"""Every command with each of its streams failing: the output full or gone, the notes lost, the file or the input unreadable."""
import os
import subprocess

from program import PATIENCE, ROOT, equal, stops

AND = (ROOT / "examples" / "and2.aag").read_bytes()
PROGRAM = (ROOT / "examples" / "and2.pim").read_bytes()
IMPLY = b"imply 1\ncells 4\ninput 0 i0\ninput 1 i1\noutput 3 o0\ncycles 5\nfalse 2\nimp 1 2\nimp 0 2\nfalse 3\nimp 2 3\nend\n"
ASSEMBLY = b"target magic\ncells 1\noutput 0 \"f\"\ninit 0\n"
FILE = object()

# The words of each command that is done, the bytes of its file, and its input; None where it reads none.
DONE = [
    (["compile", "--target", "magic", "--cells", "5"], None, AND),
    (["compile", "--target", "plim", "--cells", "9", "--level", "2"], None, AND),
    (["run", FILE], PROGRAM, b"11\n"),
    (["list", FILE], PROGRAM, None),
    (["explain", FILE], PROGRAM, None),
    (["explain", FILE, "--tree"], PROGRAM, None),
    (["debug", FILE], PROGRAM, b"11\nstep\n"),
    (["prove", FILE], PROGRAM, AND),
    (["asm"], None, ASSEMBLY),
    (["convert", "--form", "2"], None, PROGRAM),
    (["share", FILE, "--cells", "5"], PROGRAM, b"0\n0\n0\n0\n"),
    (["imply", "--cells", "4"], None, AND),
    (["implyrun", FILE], IMPLY, b"11\n"),
    (["bench", "1"], None, None),
]

# The same with a fault of each command's bytes, and its note.
REFUSED = [
    (["compile", "--target", "magic", "--cells", "4"], None, AND, 6, "too few cells: needed 5"),
    (["run", FILE], PROGRAM, b"1\n", 1, "bad input: vector line 1"),
    (["list", FILE], PROGRAM[:-4], None, 1, "bad input: program truncated"),
    (["explain", FILE], PROGRAM[:-4], None, 1, "bad input: program truncated"),
    (["debug", FILE], PROGRAM, b"11\nnext\n", 1, "bad input: debug line 2: bad command"),
    (["prove", FILE], PROGRAM, b"aag 0 0 0 0 0\n", 1, "bad input: ports differ"),
    (["prove", FILE], PROGRAM, b"aag 2 2 0 1 0\n2\n4\n2\n", 8, "unequal 10 output 0"),
    (["asm"], None, b"cells 1\n", 1, "bad input: assembly line 1"),
    (["convert", "--form", "1"], None, b"pim 1\n", 1, "bad input: program truncated"),
    (["share", FILE, "--cells", "5"], PROGRAM, b"0\n", 1, "bad input: turns missing part 0"),
    (["imply", "--cells", "3"], None, AND, 6, "too few cells: needed 4"),
    (["implyrun", FILE], IMPLY, b"1\n", 1, "bad input: vector line 1"),
    (["bench", "65"], None, None, 2, "usage"),
]


def words_of(folder, words, file):
    """The words with the path of a file of these bytes."""
    if file is not None:
        (folder / "it").write_bytes(file)
    return [folder / "it" if word is FILE else word for word in words]


def test_the_output_is_full(pim, folder):
    """A device without room: status 4 for each command."""
    for words, file, given in DONE:
        with open("/dev/full", "wb") as full:
            stops(pim(*words_of(folder, words, file), stdin=given or b"", stdout=full), 4, "write fault")


def test_the_output_is_gone(pim, folder):
    """A pipe that nobody reads any more: status 4, and no signal ends the program."""
    for words, file, given in DONE:
        reader, writer = os.pipe()
        os.close(reader)
        try:
            stops(pim(*words_of(folder, words, file), stdin=given or b"", stdout=writer), 4, "write fault")
        finally:
            os.close(writer)


def test_the_output_is_closed(pim, folder):
    """No standard output at all, as after `>&-` in a shell."""
    for words, file, given in DONE:
        line = ["bash", "-c", 'exec "$@" >&-', "bash", *pim.line(*words_of(folder, words, file))]
        done = subprocess.run(line, input=given or b"", stderr=subprocess.PIPE, timeout=PATIENCE)
        equal(f"the status of {words[0]}", done.returncode, 4)
        equal(f"the note of {words[0]}", done.stderr, b"pim: write fault\n")


def test_the_notes_are_lost(pim, folder):
    """Where the note can't be written the status is the same."""
    for words, file, given, status, note in REFUSED:
        stops(pim(*words_of(folder, words, file), stdin=given or b""), status, note)
        with open("/dev/full", "wb") as full:
            answer = pim(*words_of(folder, words, file), stdin=given or b"", stderr=full)
        equal(f"the status of {words[0]} without notes", answer.status, status)


def test_the_input_is_a_folder(pim, folder):
    """A folder can be opened as standard input and not be read. A command that reads no input is done all the same."""
    for words, file, given in DONE:
        handle = os.open(folder, os.O_RDONLY)
        try:
            answer = pim(*words_of(folder, words, file), stdin=handle)
        finally:
            os.close(handle)
        if given is None:
            equal(f"the status of {words[0]}", answer.status, 0)
        else:
            stops(answer, 3, "read fault: input")


def test_the_file_is_a_folder(pim, folder):
    """A folder as FILE: the note says so, and the input is not touched."""
    for words, file, _ in DONE:
        if file is not None:
            stops(pim(*[folder if word is FILE else word for word in words], stdin=b"x\n"), 3, "read fault: program")


def test_a_word_too_many(pim, folder):
    """Each command with a word more, or one less, is no command."""
    for words, file, given in DONE:
        spelled = words_of(folder, words, file)
        stops(pim(*spelled, "more", stdin=given or b""), 2, "usage")
        if words[0] != "asm":
            stops(pim(*spelled[:-1] if words[-1] != "--tree" else spelled[:1], stdin=given or b""), 2, "usage")
