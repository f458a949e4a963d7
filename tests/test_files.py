"""The file that a program is read from: opened once, read to its end, and named by any word."""
import os
import threading

from program import ROOT, equal, gives, stops

AND = (ROOT / "examples" / "and2.pim").read_bytes()


def long_program(pairs):
    """A program of some thousand cells that hands its input on from cell to cell, through an even number of NOTs."""
    cells = 2 * pairs + 1
    head = f"pim 1\ntarget magic\ncells {cells}\ninput 0 a\noutput {cells - 1} f\ncycles {cells}\n"
    chain = "".join(f"not {k + 1} {k}\n" for k in range(cells - 1))
    return (head + "init " + " ".join(str(k) for k in range(1, cells)) + "\n" + chain + "end\n").encode()


def test_a_program_of_many_reads(pim, folder):
    """A program file of over 5 MB: it hands its input on through 300,000 NOTs, so the output is the input."""
    path = folder / "long.pim"
    path.write_bytes(long_program(150_000))
    equal("whether the file is as long as said", path.stat().st_size > 5_000_000, True)
    gives(pim("run", path, stdin=b"0\n1\n1\n0\n"), b"0\n1\n1\n0\n")


def test_a_program_from_a_named_pipe(pim, folder):
    """A named pipe gives the program in three pieces, and nothing that was read comes again."""
    path = folder / "pipe"
    os.mkfifo(path)
    program = long_program(20_000)

    def feed():
        with open(path, "wb", buffering=0) as pipe:
            for start in range(0, len(program), len(program) // 2):
                pipe.write(program[start:start + len(program) // 2])

    feeder = threading.Thread(target=feed, daemon=True)
    feeder.start()
    gives(pim("run", path, stdin=b"1\n0\n"), b"1\n0\n")
    feeder.join(timeout=10)


def test_an_empty_file(pim, folder):
    """A file without bytes is a program that was cut, and no fault of reading."""
    (folder / "empty.pim").write_bytes(b"")
    stops(pim("run", folder / "empty.pim", stdin=b"11\n"), 1, "bad input: program truncated")
    stops(pim("run", "/dev/null", stdin=b"11\n"), 1, "bad input: program truncated")


def test_two_files_are_told_apart(pim, folder):
    """The program is that of the file which is named, and not of another one."""
    (folder / "and.pim").write_bytes(AND)
    (folder / "not.pim").write_bytes(b"pim 1\ntarget magic\ncells 2\ninput 0 a\noutput 1 f\ncycles 2\ninit 1\nnot 1 0\nend\n")
    gives(pim("run", folder / "and.pim", stdin=b"11\n"), b"1\n")
    gives(pim("run", folder / "not.pim", stdin=b"1\n0\n"), b"0\n1\n")


def test_the_name_is_no_option(pim, folder):
    """The second word is the file whatever it begins with: `run --help` reads the file --help of the folder."""
    (folder / "--help").write_bytes(AND)
    (folder / "-").write_bytes(AND)
    gives(pim("run", "--help", stdin=b"11\n", cwd=folder), b"1\n")
    gives(pim("run", "-", "--fill", "ones", stdin=b"11\n", cwd=folder), b"1\n")
    stops(pim("run", "--fill", stdin=b"11\n", cwd=folder), 3, "read fault: program")


def test_names_with_blanks_and_other_letters(pim, folder):
    """A name may have blanks, newlines and letters of any script."""
    for name in "two words.pim", "ünïcode.pim", "回路.pim", "two\nlines.pim":
        (folder / name).write_bytes(AND)
        gives(pim("run", folder / name, stdin=b"11\n"), b"1\n")


def test_the_program_file_is_not_written(pim, folder):
    """A file that may only be read is enough, and it stays as it was."""
    path = folder / "and.pim"
    path.write_bytes(AND)
    path.chmod(0o444)
    gives(pim("run", path, stdin=b"11\n"), b"1\n")
    equal("the file", path.read_bytes(), AND)
