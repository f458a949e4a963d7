"""Programs as text, IMPLY programs, assembly, turns and vectors, read anew by the rules of docs/formats.md: their first fault."""
import re

MOST_CELLS = 1_048_576
LABEL = rb"[\x20-\x7e\x80-\xff]{1,4096}"
PLAIN = rb"(?:0|[1-9][0-9]*)"
OPERAND = rb"(?:#[01]|@" + PLAIN + rb")"
INSTRUCTION = {
    b"pim": rb"init(?: " + PLAIN + rb")*|not(?: " + PLAIN + rb"){2}|nor(?: " + PLAIN + rb"){3,5}|rm3 " + OPERAND + rb" " + OPERAND + rb" @" + PLAIN,
    b"imply": rb"false " + PLAIN + rb"|imp " + PLAIN + rb" " + PLAIN,
}


class Refused(Exception):
    """Why a text is refused: the status and the note, without `pim: `."""

    def __init__(self, detail, status=1):
        super().__init__(detail)
        self.status = status
        self.note = b"bad input: " + detail if status == 1 else b"too large: " + detail


def fits(line, pattern):
    """Whether a line has this shape and all its plain numbers are below 2^32."""
    if not re.fullmatch(pattern, line, re.DOTALL):
        return False
    words = line.split(b" ")
    if words[0] in (b"input", b"output"):
        words = words[:2]
    return all(int(word.lstrip(b"@")) < 2**32 for word in words if re.fullmatch(rb"@?[0-9]+", word))


class Text:
    """The text of a program, of the machines of docs/machine.md (`pim`) or of the third one (`imply`)."""

    def __init__(self, kind, data):
        self.kind, self.data = kind, data
        self.note = b"program" if kind == b"pim" else kind
        self.lines = data.split(b"\n")
        self.rest = self.lines.pop()

    def expected(self):
        """What the next line may be, line by line: a pattern for each."""
        yield self.kind + rb" 1"
        if self.kind == b"pim":
            yield rb"target (?:magic|plim)"
        yield rb"cells " + PLAIN
        port, cycles = rb"(?:input|output) " + PLAIN + rb" " + LABEL, rb"cycles " + PLAIN
        outputs = False
        while not self.line.startswith(b"cycles"):
            if outputs:
                port = rb"output " + PLAIN + rb" " + LABEL
            yield port + rb"|" + cycles
            outputs = outputs or self.line.startswith(b"output")
        for _ in range(int(self.line.split(b" ")[1])):
            yield INSTRUCTION[self.kind]
        yield rb"end"

    def judge(self):
        """Fails with the first fault of the text."""
        self.line, ends = b"", False
        patterns = self.expected()
        for number, line in enumerate(self.lines, 1):
            pattern = next(patterns, None)
            if pattern is None or not fits(line, pattern):
                raise Refused(b"%s line %d" % (self.note, number))
            self.line = line
        ends = self.line == b"end" and next(patterns, None) is None
        if ends and self.rest:
            raise Refused(b"%s line %d" % (self.note, len(self.lines) + 1))
        if not ends:
            raise Refused(self.note + b" truncated")
        self.valid()

    def valid(self):
        cells = int(self.lines[2 if self.kind == b"pim" else 1].split(b" ")[1])
        if cells > MOST_CELLS:
            raise Refused(b"cells", 7)
        ports = [(line.split(b" ")[0], int(line.split(b" ")[1])) for line in self.lines if line.startswith((b"input ", b"output "))]
        begin = next(k for k, line in enumerate(self.lines) if line.startswith(b"cycles "))
        seen = set()
        for place, (kind, cell) in enumerate(ports):
            if cell >= cells or (kind == b"input" and cell in seen):
                raise Refused(b"%s port %d" % (self.note, place))
            seen |= {cell} if kind == b"input" else set()
        magic = self.lines[1] == b"target magic"
        for k, line in enumerate(self.lines[begin + 1:-1]):
            if what := fault_of(line.split(b" "), cells, magic):
                raise Refused(b"%s instruction %d %s" % (self.note, k, what))


def fault_of(words, cells, magic):
    """The first fault of an instruction in a row of so many cells."""
    word, numbers = words[0], [int(it.lstrip(b"@")) for it in words[1:] if not it.startswith(b"#")]
    if word in (b"false", b"imp"):
        same = word == b"imp" and numbers[0] == numbers[1]
        return b"cell range" if max(numbers) >= cells else b"same cell" if same else None
    if (word == b"rm3") == magic:
        return b"wrong target"
    if word == b"init" and (not numbers or any(a >= b for a, b in zip(numbers, numbers[1:]))):
        return b"init list"
    if max(numbers) >= cells:
        return b"cell range"
    target, read = (numbers[-1], numbers[:-1]) if word == b"rm3" else (numbers[0], numbers[1:])
    return b"reads its target" if word != b"init" and target in read else None


def small(word):
    """The value of a word of 1 to 10 digits, if it is below 2^32."""
    return int(word) if re.fullmatch(rb"[0-9]{1,10}", word) and int(word) < 2**32 else None


def lines_of(data):
    """The lines of a filter's input: without a carriage return before the newline; the last one may lack its newline."""
    lines = [line.removesuffix(b"\r") for line in data.split(b"\n")]
    last = data.rpartition(b"\n")[2]
    return lines[:-1] + ([last] if last else [])


class Assembly:
    """What the lines of an assembly text have said so far. Its program is written as the text of form 1."""

    def __init__(self, data):
        self.lines = data.split(b"\n")
        if self.lines[-1] == b"":
            self.lines.pop()
        self.names, self.target, self.cells = {}, None, None
        self.inputs, self.outputs, self.body = [], [], []

    def text(self):
        """The program's text, or the first fault."""
        for number, line in enumerate(self.lines, 1):
            self.unknown = False
            if (words := tokens(line)) and not self.statement(words):
                raise Refused(b"assembly line %d" % number)
            if self.unknown:
                raise Refused(b"assembly name in line %d" % number)
        if self.cells is None:
            raise Refused(b"assembly line %d" % (len(self.lines) + 1))
        head = [b"pim 1", b"target " + self.target, b"cells %d" % self.cells]
        ports = [b"input %d %s" % port for port in self.inputs] + [b"output %d %s" % port for port in self.outputs]
        data = b"".join(line + b"\n" for line in [*head, *ports, b"cycles %d" % len(self.body), *self.body, b"end"])
        Text(b"pim", data).valid()
        return data

    def cell(self, word):
        """The number that a word stands for, or None where it is none. A name that is not known is told later."""
        if re.fullmatch(rb"[A-Za-z_][A-Za-z0-9_]{0,63}", word):
            self.unknown = self.unknown or word not in self.names
            return self.names.get(word, 0)
        return small(word)

    def statement(self, words):
        """Takes a statement; whether it has a shape that may stand here."""
        word = words[0]
        if self.target is None:
            if len(words) == 2 and word == b"target" and words[1] in (b"magic", b"plim"):
                self.target = words[1]
                return True
            return False
        if self.cells is None:
            self.cells = small(words[1]) if len(words) == 2 and word == b"cells" else None
            return self.cells is not None and self.cells <= MOST_CELLS
        if word == b"let":
            return self.let(words)
        if word in (b"input", b"output"):
            return self.port(words)
        return self.instruction(words)

    def let(self, words):
        if len(words) != 3 or not re.fullmatch(rb"[A-Za-z_][A-Za-z0-9_]{0,63}", words[1]) or small(words[2]) is None:
            return False
        self.unknown = words[1] in self.names
        self.names[words[1]] = small(words[2])
        return True

    def port(self, words):
        if len(words) != 3 or (cell := self.cell(words[1])) is None or (name := unescaped(words[2])) is None:
            return False
        (self.inputs if words[0] == b"input" else self.outputs).append((cell, name))
        return True

    def instruction(self, words):
        counts = {b"init": range(0, len(words)), b"not": (2,), b"nor": (3, 4, 5), b"rm3": (3,)}
        if len(words) - 1 not in counts.get(words[0], ()):
            return False
        spelled = []
        for place, word in enumerate(words[1:]):
            if words[0] != b"rm3":
                bare, mark = word, b""
            elif place < 2 and word in (b"#0", b"#1"):
                spelled.append(word)
                continue
            elif not word.startswith(b"@"):
                return False
            else:
                bare, mark = word[1:], b"@"
            cell = self.cell(bare)
            if cell is None:
                return False
            spelled.append(mark + b"%d" % cell)
        self.body.append(b" ".join([words[0], *spelled]))
        return True


def tokens(line):
    """The words of a line of assembly: cut at blanks outside of quotes, up to a semicolon outside of quotes."""
    words, quoted, word = [], False, b""
    for byte in line:
        one = bytes([byte])
        if one == b'"':
            quoted = not quoted
        if not quoted and one == b";":
            break
        if not quoted and one in b" \t\r":
            words.append(word)
            word = b""
        else:
            word += one
    return [word for word in [*words, word] if word]


def unescaped(word):
    """The label of a quoted word, or None."""
    if not re.fullmatch(rb'"(?:[\x20\x21\x23-\x5b\x5d-\x7e]|\\[0-9a-f]{2})*"', word):
        return None
    name = re.sub(rb"\\([0-9a-f]{2})", lambda found: bytes([int(found[1], 16)]), word[1:-1])
    return name if re.fullmatch(LABEL, name, re.DOTALL) else None


def judge_turns(data, cycles):
    """Fails with the first fault of turns for parts of so many cycles: first the shape of all lines, then each turn, then who is left."""
    turns = []
    for number, line in enumerate(lines_of(data), 1):
        if small(line) is None:
            raise Refused(b"turn line %d" % number)
        turns.append(small(line))
    left = list(cycles)
    for number, turn in enumerate(turns, 1):
        if turn >= len(left) or not left[turn]:
            raise Refused(b"turn line %d" % number)
        left[turn] -= 1
    for part, more in enumerate(left):
        if more:
            raise Refused(b"turns missing part %d" % part)
    return turns


def judge_vectors(data, inputs):
    """Fails with the first line that is no vector of so many inputs."""
    for number, line in enumerate(lines_of(data), 1):
        if len(line) != inputs or not set(line) <= set(b"01"):
            raise Refused(b"vector line %d" % number)
