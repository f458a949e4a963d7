"""Words as the system hands them over: in other encodings, in other orders, and too many."""
from program import ROOT, equal, gives, stops

AND = (ROOT / "examples" / "and2.aag").read_bytes()
AND_PROGRAM = ROOT / "examples" / "and2.pim"
COMPILED = AND_PROGRAM.read_bytes()


def test_words_that_are_no_utf8(pim, folder):
    """A word that is no UTF-8, wherever it stands, makes the words unreadable: usage. The file of that name is not opened."""
    name = bytes(folder) + b"/\xff.pim"
    with open(name, "wb") as file:
        file.write(COMPILED)
    for words in (
        [b"\xff"],
        [b"compile", b"--target", b"magic", b"--cells", b"5", b"\xfe"],
        [b"compile", b"--target", b"mag\xc3", b"--cells", b"5"],
        [b"run", name],
    ):
        stops(pim(*words, stdin=AND), 2, "usage")


def test_options_in_other_orders_and_spellings(pim, folder):
    """Options may stand in any order, and as --name=value."""
    for words in (
        "compile --target magic --cells 5",
        "compile --cells 5 --target magic",
        "compile --target=magic --cells=5",
        "compile --target magic --cells 5 --level 0",
        "compile --level=0 --cells=5 --target=magic",
    ):
        gives(pim(*words.split(), stdin=AND), COMPILED)
    for words in "--fill zeros", "--fill ones", "--fill=ones":
        gives(pim("run", AND_PROGRAM, *words.split(), stdin=b"11\n"), b"1\n")


def test_words_that_are_refused(pim, folder):
    """An unknown command or option, a value out of range, a word too few or too many, an option twice, and an empty word."""
    for words in (
        ["link"], ["Compile"], [""], ["--help"], ["--version"], ["compile"], ["run"],
        ["compile", "--target", "magic"],
        ["compile", "--cells", "5"],
        ["compile", "--target", "cmos", "--cells", "5"],
        ["compile", "--target", "magic", "--cells"],
        ["compile", "--target", "magic", "--cells", "-1"],
        ["compile", "--target", "magic", "--cells", "five"],
        ["compile", "--target", "magic", "--cells", "5x"],
        ["compile", "--target", "magic", "--cells", "1048577"],
        ["compile", "--target", "magic", "--cells", "5", "--cells", "5"],
        ["compile", "--target", "magic", "--cells", "5", "--level", "3"],
        ["compile", "--target", "magic", "--cells", "5", "examples/and2.aag"],
        ["compile", "--target", "magic", "--cells", "5", "--fill", "ones"],
        ["compile", "--help"],
        ["run", str(AND_PROGRAM), "--fill"],
        ["run", str(AND_PROGRAM), "--fill", "twos"],
        ["run", str(AND_PROGRAM), "--cells", "5"],
        ["run", str(AND_PROGRAM), str(AND_PROGRAM)],
    ):
        answer = pim(*words, stdin=AND)
        equal(f"the answer to {words}", (answer.status, answer.notes, answer.output), (2, b"pim: usage\n", b""))


def test_words_of_the_other_commands_that_are_refused(pim, folder):
    """Each further command refuses a missing file, a word too many, a missing option, a value out of range, and a wish for help."""
    for line in (
        "", "run a --help", "run --fill ones a", "list", "list a b", "explain a --tree=true", "share a", "share --cells 5",
        "implyrun", "prove", "asm a", "convert", "convert --form 3", "imply", "imply --cells 1048577", "bench", "bench 0", "bench 65",
    ):
        answer = pim(*line.split(), stdin=AND)
        equal(f"the answer to {line!r}", (answer.status, answer.notes, answer.output), (2, b"pim: usage\n", b""))


def test_the_most_cells(pim, folder):
    """--cells takes numbers up to 1,048,576, and the program has no more cells than it needs."""
    gives(pim("compile", "--target", "magic", "--cells", "1048576", stdin=AND), COMPILED)
    stops(pim("compile", "--target", "magic", "--cells", "0", stdin=AND), 6, "too few cells: needed 5")


def test_many_words(pim, folder):
    """Ten thousand words, and one word of a hundred thousand bytes, are usage too."""
    stops(pim(*["compile"] * 10_000, stdin=AND), 2, "usage")
    stops(pim("compile", "x" * 100_000, stdin=AND), 2, "usage")
