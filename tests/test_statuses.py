"""Each exit status once, as a shell would meet it. The cases of cases/ have the faults one by one."""
import os
import resource
import subprocess

from program import ROOT, equal, gives, stops

AND = (ROOT / "examples" / "and2.aag").read_bytes()
AND_PROGRAM = ROOT / "examples" / "and2.pim"
COMPILE = ("compile", "--target", "magic", "--cells", "5")


def test_0_done(pim, folder):
    """A netlist is compiled: the output is a program, and there is no note."""
    gives(pim(*COMPILE, stdin=AND), AND_PROGRAM.read_bytes())


def test_1_bad_input(pim, folder):
    """A netlist with a fault: the note says which and where, and nothing is written."""
    stops(pim(*COMPILE, stdin=b".names a f\n1 2\n"), 1, "bad input: blif line 2: syntax")


def test_2_usage(pim, folder):
    """No words."""
    stops(pim(stdin=AND), 2, "usage")


def test_3_the_program_file_is_absent(pim, folder):
    """A file that is not there can't be opened. The vectors are not read."""
    stops(pim("run", folder / "absent.pim", stdin=b"11\n"), 3, "read fault: program")


def test_3_the_program_file_is_a_folder(pim, folder):
    """A folder can be opened and not read."""
    stops(pim("run", folder, stdin=b"11\n"), 3, "read fault: program")


def test_3_the_program_file_may_not_be_read(pim, folder):
    """A file without the right to read it. (For the user root there is no such file, and the program is run.)"""
    path = folder / "secret.pim"
    path.write_bytes(AND_PROGRAM.read_bytes())
    path.chmod(0)
    if os.access(path, os.R_OK):
        gives(pim("run", path, stdin=b"11\n"), b"1\n")
    else:
        stops(pim("run", path, stdin=b"11\n"), 3, "read fault: program")


def test_3_the_input_is_a_folder(pim, folder):
    """A folder as standard input, for each command that reads it."""
    for words in COMPILE, ("run", AND_PROGRAM):
        handle = os.open(folder, os.O_RDONLY)
        try:
            stops(pim(*words, stdin=handle), 3, "read fault: input")
        finally:
            os.close(handle)


def test_3_the_input_is_closed(pim, folder):
    """No standard input at all, as after `<&-` in a shell."""
    for words in COMPILE, ("run", AND_PROGRAM):
        done = subprocess.run(
            ["bash", "-c", '"$@" <&-', "bash", *pim.line(*words)], stdin=subprocess.DEVNULL, capture_output=True, timeout=60
        )
        equal("the status", done.returncode, 3)
        equal("the note", done.stderr, b"pim: read fault: input\n")
        equal("the output", done.stdout, b"")


def test_4_the_device_is_full(pim, folder):
    """Each write to /dev/full fails."""
    with open("/dev/full", "wb") as full:
        stops(pim(*COMPILE, stdin=AND, stdout=full), 4, "write fault")
        stops(pim("run", AND_PROGRAM, stdin=b"11\n", stdout=full), 4, "write fault")


def test_4_the_output_is_closed(pim, folder):
    """No standard output at all, as after `>&-` in a shell."""
    done = subprocess.run(["bash", "-c", '"$@" >&-', "bash", *pim.line(*COMPILE)], input=AND, capture_output=True, timeout=60)
    equal("the status", done.returncode, 4)
    equal("the note", done.stderr, b"pim: write fault\n")


def test_4_the_reader_leaves_early(pim, folder):
    """`pim run .. | head -n 1`: the first line comes, and the program ends with a status and not by a signal."""
    (folder / "vectors").write_bytes(b"11\n" * 1_000_000)
    shell = '"$1" run "$2" < vectors | head -n 1; echo "${PIPESTATUS[0]}"'
    done = subprocess.run(
        ["bash", "-c", shell, "bash", pim.path, AND_PROGRAM], cwd=folder, capture_output=True, timeout=60
    )
    equal("what is printed", done.stdout, b"1\n4\n")
    equal("the note", done.stderr, b"pim: write fault\n")


def test_5_memory(pim, folder):
    """Under `ulimit -v` a large netlist and a large program file are out of memory. Nothing is written."""
    large = b"#" * 50_000_000
    (folder / "large.pim").write_bytes(large)

    def little():
        resource.setrlimit(resource.RLIMIT_AS, (40_000_000, 40_000_000))

    stops(pim(*COMPILE, stdin=large, preexec_fn=little), 5, "no memory")
    stops(pim("run", folder / "large.pim", stdin=b"11\n", preexec_fn=little), 5, "no memory")
    gives(pim(*COMPILE, stdin=AND, preexec_fn=little), AND_PROGRAM.read_bytes())


def test_6_too_few_cells(pim, folder):
    """The AND of two inputs takes five cells: two for the inputs, two for their complements, one for the NOR of these."""
    stops(pim("compile", "--target", "magic", "--cells", "4", stdin=AND), 6, "too few cells: needed 5")


def test_7_too_large(pim, folder):
    """A program file of one cell more than 1,048,576."""
    path = folder / "wide.pim"
    path.write_bytes(AND_PROGRAM.read_bytes().replace(b"cells 5\n", b"cells 1048577\n"))
    stops(pim("run", path, stdin=b"11\n"), 7, "too large: cells")


def test_a_note_that_can_not_be_written(pim, folder):
    """The status is the same where the note can't be written, and where there is no standard error."""
    with open("/dev/full", "wb") as full:
        stops_quietly(pim("compile", "--target", "magic", "--cells", "4", stdin=AND, stderr=full))
    done = subprocess.run(
        ["bash", "-c", '"$@" 2>&-', "bash", *pim.line("compile", "--target", "magic", "--cells", "4")],
        input=AND, capture_output=True, timeout=60,
    )
    equal("the status", done.returncode, 6)
    equal("the output", done.stdout, b"")


def stops_quietly(answer):
    equal("the status", answer.status, 6)
    equal("the output", answer.output, b"")
