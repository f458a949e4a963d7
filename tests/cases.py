"""Reads and runs the cases of cases/: words, what the program reads, and what it has to give. README.md has their form."""
import re
import shlex
from dataclasses import dataclass, field

import inputs
from program import ROOT, equal, shown

FOLDERS = {"data": ROOT / "tests" / "data", "example": ROOT / "examples"}
FIELD = re.compile(r"([a-z]+(?: [a-z]+)*):(?: (.*))?$")


@dataclass
class Case:
    """One case: the values of its lines, by their first words."""
    name: str
    waits: str | None = None
    values: dict = field(default_factory=dict)

    def value(self, key):
        return self.values.get(key)

    def run(self, pim, folder):
        """Makes the call and fails where it gives something else."""
        words = shlex.split(self.value("words"))
        file = self.value("file")
        if file is not None:
            path = folder / "program"
            path.write_bytes(made(pim, file))
            words = [str(path) if word == "FILE" else word for word in words]
        answer = pim(*words, stdin=made(pim, self.value("input") or ""))
        note = made(pim, self.value("note") or "")
        equal("the status", answer.status, int(self.value("status") or 0))
        if b"*" not in note or not like(note).fullmatch(answer.notes):
            equal("the note", answer.notes, note + b"\n" if note else b"")
        output = self.value("output") or ""
        if output != "any":
            equal("the output", answer.output, made(pim, output))
        for key, values in self.values.items():
            if key.startswith("output "):
                for value in values:
                    OUTPUT_TESTS[key](answer.output, value)


def like(line):
    """What a line of this form matches: each «*» stands for a number."""
    return re.compile(b"[0-9]+".join(re.escape(part) for part in line.split(b"*")) + b"\n")


def has(output, value):
    pattern = like(value.encode())
    if not any(pattern.fullmatch(line) for line in lines_of(output)):
        raise AssertionError(f"the output lacks the line {value!r}: {shown(output)}")


def ends(output, value):
    if not output.endswith(value.encode() + b"\n"):
        raise AssertionError(f"the output does not end in {value!r}: {shown(output)}")


def count(output, value):
    number, start = value.split(" lines ", 1) if " lines " in value else (value.removesuffix(" lines"), "")
    found = sum(line.startswith(start.encode()) for line in lines_of(output))
    equal(f"the number of lines {start}".strip(), found, int(number))


OUTPUT_TESTS = {"output has": has, "output ends": ends, "output counts": count}
PLAIN = {"words", "waits", "file", "input", "output", "note", "status"}


def lines_of(output):
    return output.splitlines(keepends=True)


def made(pim, value):
    """The bytes that a value stands for."""
    if isinstance(value, bytes):
        return value
    kind, _, rest = value.partition(" ")
    if kind in FOLDERS:
        return (FOLDERS[kind] / rest).read_bytes()
    if kind == "hex":
        return bytes.fromhex(rest)
    if kind == "lines":
        parts = [re.fullmatch(r"(\d+) of ?(.*)", part) for part in rest.split(", ")]
        return b"".join((part[2] + "\n").encode() * int(part[1]) for part in parts)
    if kind == "made":
        return getattr(inputs, rest)()
    if kind == "pim":
        words, _, source = rest.partition(" < ")
        return pim(*shlex.split(words), stdin=made(pim, source)).output
    return value.encode()


def read_all(folder):
    """The cases of all files of a folder, in order."""
    names = set()
    for path in sorted(folder.glob("*.cases")):
        for case in read(path):
            if case.name in names:
                raise ValueError(f"two cases are called {case.name}")
            names.add(case.name)
            yield case


def read(path):
    """The cases of one file."""
    found, waits = [], None
    lines = path.read_text().split("\n")
    at = 0
    while at < len(lines):
        line = lines[at]
        at += 1
        if not line.strip() or line.startswith("#"):
            continue
        match = FIELD.match(line)
        if not match:
            raise ValueError(f"{path}:{at}: no line of a case: {line}")
        key, value = match[1], match[2]
        if value is None:
            block = []
            while at < len(lines) and lines[at].startswith("    "):
                block.append(lines[at][4:] + "\n")
                at += 1
            value = "".join(block).encode() if block else ""
        if key == "case":
            found.append(Case(f"{path.name}: {value}", waits))
        elif not found:
            if key != "waits":
                raise ValueError(f"{path}:{at}: {key} before the first case")
            waits = value
        elif key in OUTPUT_TESTS:
            found[-1].values.setdefault(key, []).append(value)
        elif key == "waits":
            found[-1].waits = value
        elif key in PLAIN and key not in found[-1].values:
            found[-1].values[key] = value
        else:
            raise ValueError(f"{path}:{at}: {key} is unknown, or stands twice")
    return found
