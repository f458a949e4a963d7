"""The tables of docs/formats.md that give a file and its note."""
import re

from program import ROOT, equal, gives, stops

PAGE = (ROOT / "docs" / "formats.md").read_text()


def rows_below(heading):
    """The rows of the table that begins with this heading, each as its cells."""
    lines = PAGE[PAGE.index(heading):].split("\n")[2:]
    for line in lines[:next(k for k, line in enumerate(lines) if not line.startswith("|"))]:
        yield [cell.strip() for cell in line.strip("|").split(" | ")]


def test_the_notes_of_files(pim, folder):
    """Each file of the table of faulty BLIF files gets the note that stands beside it."""
    tried = 0
    for file, note in rows_below("| file | note |"):
        statements = re.findall(r"`([^`]*)`", file)
        if statements:
            answer = pim("compile", "--target", "magic", "--cells", "9", stdin="".join(s + "\n" for s in statements).encode())
            stops(answer, 1, "bad input: " + re.match(r"`([^`]*)`", note)[1])
            tried += 1
    equal("whether the table was found", tried > 10, True)


def test_the_examples_of_lines(pim, folder):
    """Each example of the rules of lines is read as what stands beside it: both give the same program, or the same fault."""
    tried = 0
    for _, example, same in rows_below("| rule | example | what is read |"):
        texts = [re.findall(r"`([^`]*)`", cell) for cell in (example, same)]
        if not texts[1] or "tab" in example:
            continue
        netlists = ["".join(line + "\n" for line in lines).encode() for lines in texts]
        if "at the end of the file" in example:
            netlists[0] = netlists[0].removesuffix(b"\n")
        answers = [pim("compile", "--target", "magic", "--cells", "9", stdin=netlist) for netlist in netlists]
        equal(f"the answer to {texts[0]}", answers[0], answers[1])
        tried += 1
    equal("whether the table was found", tried > 3, True)


def test_the_notes_of_imply_programs(pim, folder):
    """Each IMPLY program of the table gets the note that stands beside it, or runs."""
    tried = 0
    for program, note in rows_below("| program | note |"):
        (folder / "it.imply").write_text("".join(line + "\n" for line in re.findall(r"`([^`]*)`", program)))
        answer = pim("implyrun", folder / "it.imply", stdin=b"1\n")
        if note == "none":
            gives(answer, b"1\n")
        else:
            stops(answer, 1, "bad input: " + note.strip("`"))
        tried += 1
    equal("whether the table was found", tried, 7)
