"""The binary form of programs: cut short, and with each byte replaced by each other value."""
from concurrent.futures import ThreadPoolExecutor

from binary import Fault, judge
from program import gives, stops

# Of each target a program with an input in cell 0, an output in cell 2 and two instructions.
PORTS = b"\x01\x00\x01a" + b"\x01\x02\x01f"
MAGIC = b"pim2\n\x00\x03" + PORTS + b"\x02" + b"\x00\x01\x02" + b"\x02\x02\x00\x01"
PLIM = b"pim2\n\x01\x03" + PORTS + b"\x02" + b"\x03\x00\x01\x02" + b"\x03\x02\x03\x02"


def test_a_binary_program_is_read_and_written(pim, folder):
    """A program of each target is written as it was read."""
    for program in (MAGIC, PLIM):
        gives(pim("convert", "--form", "2", stdin=program), program)


def test_a_cut_binary_program_is_truncated(pim, folder):
    """Every proper front of a binary program is told to be cut, wherever the cut is."""
    for program in (MAGIC, PLIM):
        for length in range(len(program)):
            stops(pim("convert", "--form", "1", stdin=program[:length]), 1, "bad input: program truncated")


def test_each_byte_is_judged(pim, folder):
    """With any one byte replaced a file is refused for the fault that the rules give, or is a program that is written as it was read."""
    changed = [program[:place] + bytes([value]) + program[place + 1:]
               for program in (MAGIC, PLIM) for place, own in enumerate(program) for value in range(256) if value != own]
    with ThreadPoolExecutor() as threads:
        list(threads.map(lambda data: judged_as_told(pim, data), changed))


def judged_as_told(pim, data):
    answer = pim("convert", "--form", "2", stdin=data)
    try:
        judge(data)
    except Fault as fault:
        stops(answer, fault.status, fault.note)
    else:
        gives(answer, data)
