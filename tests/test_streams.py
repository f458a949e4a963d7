"""Standard input and output as pipes and terminals give and take them: in pieces, slowly, and not before it is wanted."""
import fcntl
import os
import pty
import subprocess
import threading
import time

import inputs
from program import PATIENCE, ROOT, equal, stops

AND = (ROOT / "examples" / "and2.aag").read_bytes()
AND_PROGRAM = ROOT / "examples" / "and2.pim"


def in_pieces(command, pieces, pause):
    """Calls with standard input in these pieces, one after another, with a pause before each. Gives status and output."""
    child = subprocess.Popen(command, stdin=subprocess.PIPE, stdout=subprocess.PIPE, stderr=subprocess.DEVNULL)

    def feed():
        for piece in pieces:
            time.sleep(pause)
            child.stdin.write(piece)
            child.stdin.flush()
        child.stdin.close()

    feeder = threading.Thread(target=feed)
    feeder.start()
    output = child.stdout.read()
    feeder.join()
    return child.wait(timeout=PATIENCE), output


def test_a_netlist_in_pieces(pim, folder):
    """A netlist that comes byte by byte is the same netlist."""
    command = pim.line("compile", "--target", "magic", "--cells", "5")
    pieces = [AND[k:k + 1] for k in range(len(AND))]
    equal("what comes of it", in_pieces(command, pieces, 0.002), (0, AND_PROGRAM.read_bytes()))


def test_vectors_in_pieces(pim, folder):
    """Vectors that come in pieces of other lengths than their lines are the same vectors."""
    vectors = b"00\n01\n10\r\n11\n" * 20 + b"11"
    pieces = [vectors[k:k + 7] for k in range(0, len(vectors), 7)]
    equal("what comes of it", in_pieces(pim.line("run", AND_PROGRAM), pieces, 0.002), (0, b"0\n0\n0\n1\n" * 20 + b"1\n"))


def test_output_to_a_slow_pipe(pim, folder):
    """A reader that takes little at a time, from a pipe that holds little, gets every line, in order."""
    ends = os.pipe()
    fcntl.fcntl(ends[1], fcntl.F_SETPIPE_SZ, 4096)
    child = subprocess.Popen(pim.line("run", AND_PROGRAM), stdin=subprocess.PIPE, stdout=ends[1])
    os.close(ends[1])
    feeder = threading.Thread(target=lambda: (child.stdin.write(b"00\n11\n" * 50_000), child.stdin.close()))
    feeder.start()
    taken = []
    while piece := os.read(ends[0], 1_000):
        taken.append(piece)
    os.close(ends[0])
    feeder.join()
    equal("the status", child.wait(timeout=PATIENCE), 0)
    equal("the output", b"".join(taken), b"0\n1\n" * 50_000)


def test_a_pipe_of_two_calls(pim, folder):
    """`compile | run /dev/stdin`: a program comes through a pipe, in more than one read. There are no vectors behind it."""
    shell = '"$0" compile --target magic --cells 1000 < "$1" | "$0" run /dev/stdin'
    example = ROOT / "examples" / "adder8.aag"
    done = subprocess.run(["bash", "-c", shell, pim.path, example], capture_output=True, timeout=60)
    equal("what comes of it", (done.returncode, done.stdout, done.stderr), (0, b"", b""))


def test_a_file_as_input_and_as_output(pim, folder):
    """Large files as standard input and output: all 100,001 lines come out, and the file's place stands at its end."""
    (folder / "vectors").write_bytes(b"11\n" * 100_000 + b"10\n")
    with open(folder / "vectors", "rb") as vectors, open(folder / "results", "wb") as results:
        answer = pim("run", AND_PROGRAM, stdin=vectors, stdout=results)
        equal("the place in the input", os.lseek(vectors.fileno(), 0, os.SEEK_CUR), 300_003)
    equal("the status", answer.status, 0)
    equal("the results", (folder / "results").read_bytes(), b"1\n" * 100_000 + b"0\n")


def test_output_that_is_appended(pim, folder):
    """Two calls that append to one file: the second stands behind the first."""
    with open(folder / "results", "ab") as results:
        for vectors in b"11\n", b"10\n":
            equal("the status", pim("run", AND_PROGRAM, stdin=vectors, stdout=results).status, 0)
    equal("the results", (folder / "results").read_bytes(), b"1\n0\n")


def test_a_refusal_before_the_input_reads_none_of_it(pim, folder):
    """Words that are wrong, and a program file that is wrong, are refused before a byte of standard input is read."""
    (folder / "wrong.pim").write_bytes(b"pim 2\n")
    (folder / "input").write_bytes(b"11\n")
    for words, status, note in (
        ([], 2, "usage"),
        (["link"], 2, "usage"),
        (["compile", "--target", "magic"], 2, "usage"),
        (["run"], 2, "usage"),
        (["run", folder / "absent.pim"], 3, "read fault: program"),
        (["run", folder / "wrong.pim"], 1, "bad input: program line 1"),
    ):
        with open(folder / "input", "rb") as source:
            stops(pim(*words, stdin=source), status, note)
            equal(f"the place in the input after {words}", os.lseek(source.fileno(), 0, os.SEEK_CUR), 0)


def test_a_terminal_is_not_read_before_usage(pim, folder):
    """Standard input is a terminal at which nobody types: wrong words are refused at once, and a typed line stays."""
    master, terminal = pty.openpty()
    try:
        for words in [], ["link"], ["compile", "--target", "magic"], ["run"]:
            stops(pim(*words, stdin=terminal), 2, "usage")
        os.write(master, b"typed\n")
        stops(pim("link", stdin=terminal), 2, "usage")
        equal("what the next reader gets", os.read(terminal, 100), b"typed\n")
    finally:
        os.close(master)
        os.close(terminal)


def test_a_terminal_as_input(pim, folder):
    """Vectors are typed at a terminal, which gives one line to a read, and control-D ends them."""
    master, terminal = pty.openpty()
    try:
        os.write(master, b"11\n10\n\x04")
        equal("the answer", pim("run", AND_PROGRAM, stdin=terminal).output, b"1\n0\n")
    finally:
        os.close(master)
        os.close(terminal)


def test_a_large_netlist_through_a_pipe(pim, folder):
    """A netlist of over 2 MB, which takes many reads of a pipe: a hundred thousand covers that hand an input on."""
    answer = pim("compile", "--target", "magic", "--cells", "1", stdin=inputs.buffer_chain())
    equal("the answer", (answer.status, answer.output), (
        0, b"pim 1\ntarget magic\ncells 1\ninput 0 x0\noutput 0 x100000\ncycles 0\nend\n"))
