"""Each call for memory refused in turn, where a C compiler is installed: an example of each command is done, or out of memory."""
import os
import shutil
import subprocess

from program import ROOT, equal, gives, stops

AND = (ROOT / "examples" / "and2.aag").read_bytes()
PROGRAM = (ROOT / "examples" / "and2.pim").read_bytes()
XOR = (ROOT / "tests" / "data" / "xor.blif").read_bytes()
XOR_PROGRAM = (ROOT / "tests" / "data" / "xor.pim").read_bytes()
IMPLY = (ROOT / "tests" / "data" / "xor.imply").read_bytes()
ASSEMBLY = b"target magic\ncells 3\nlet x 2\ninput 0 \"a\"\noutput 2 \"f\"\ninit x\nnot x 0\n"
SESSION = b"11\nbreak 2\nrun\nshow\nback\nbreak 1\ndelete 0\n"
TURNS = b"0\n1\n" * 4
FILE = object()

# The words of each command, the bytes of its file, and its input.
ROWS = [
    (["compile", "--target", "magic", "--cells", "5"], b"", AND),
    (["compile", "--target", "magic", "--cells", "8"], b"", XOR),
    (["compile", "--target", "plim", "--cells", "4", "--level", "2"], b"", XOR),
    (["run", FILE], PROGRAM, b"11\n01\n" * 2_049),
    (["list", FILE], PROGRAM, b""),
    (["explain", FILE], PROGRAM, b""),
    (["explain", FILE, "--tree"], PROGRAM, b""),
    (["debug", FILE], PROGRAM, SESSION),
    (["prove", FILE], XOR_PROGRAM, XOR),
    (["asm"], b"", ASSEMBLY),
    (["convert", "--form", "1"], b"", PROGRAM),
    (["convert", "--form", "2"], b"", PROGRAM),
    (["share", FILE, "--cells", "10"], PROGRAM * 2, TURNS),
    (["imply", "--cells", "5"], b"", XOR),
    (["implyrun", FILE], IMPLY, b"11\n01\n" * 2_049),
    (["bench", "1"], b"", b""),
]


def shim(folder):
    """A library that refuses one call for memory, or None where there is no C compiler or no library of this kind."""
    path = folder / "refuse.so"
    if shutil.which("cc") is None:
        return None
    done = subprocess.run(["cc", "-shared", "-fPIC", "-O1", "-o", path, ROOT / "tests" / "refuse.c"], capture_output=True)
    return path if done.returncode == 0 else None


def is_front(output, whole, is_session):
    """Nothing was written, or of a session the replies up to some line."""
    return output == b"" or is_session and whole.startswith(output) and output.endswith(b"\n")


def test_each_call_for_memory_is_refused(pim, folder):
    """Whichever call is refused, there is all of the output, or the note that it is out of memory and no output; of a session a front of it."""
    library = shim(folder)
    if library is None:
        return
    mark = folder / "mark"
    for words, file, given in ROWS:
        (folder / "it").write_bytes(file)
        line = [folder / "it" if word is FILE else word for word in words]
        whole = pim(*line, stdin=given)
        gives(whole, whole.output)
        number = wanting = 0
        mark.touch()
        while mark.exists():
            mark.unlink()
            number += 1
            environment = {**os.environ, "LD_PRELOAD": str(library), "REFUSED": str(number), "MARK": str(mark)}
            answer = pim(*line, stdin=given, env=environment)
            if answer.status == 0:
                gives(answer, whole.output)
                continue
            wanting += 1
            stops(answer, 5, "no memory", answer.output)
            equal(f"the output of {words[0]} is a front of it", is_front(answer.output, whole.output, words[0] == "debug"), True)
        equal(f"{words[0]} wants memory", wanting > 0, True)
