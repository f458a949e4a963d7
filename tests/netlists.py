"""Netlists in BLIF and AIGER, read anew by the rules of docs/formats.md: what they compute, or the note of their first fault."""
from dataclasses import dataclass, field

MOST_SIGNALS = MOST_OUTPUTS = 1_048_576
PASSED_OVER = set("""area delay wire_load_slope wire input_arrival default_input_arrival output_required default_output_required
input_drive default_input_drive output_load default_output_load max_input_load default_max_input_load""".split())


class Refused(Exception):
    """Why bytes are no netlist: the status and the note, without `pim: `."""

    def __init__(self, detail, status=1):
        super().__init__(detail)
        self.status = status
        self.note = b"bad input: " + detail if status == 1 else b"too large: " + detail


def label(name):
    return bytes(63 if byte < 32 or byte == 127 else byte for byte in name)


@dataclass
class Cover:
    """A signal that is `phase` where a row holds: a row has `0`, `1` or `-` for each column."""
    columns: list
    signal: object
    rows: list = field(default_factory=list)
    phase: int = 1

    def value(self, values):
        holds = any(all(want == "-" or values[column] == int(want) for column, want in zip(self.columns, row)) for row in self.rows)
        return self.phase if holds else 1 - self.phase


@dataclass
class Netlist:
    """Inputs and outputs with their labels, an output also with its sign, and a cover for each driven signal. `shown` is how notes name
    a signal."""
    inputs: list
    outputs: list
    covers: list
    shown: object

    def checked(self):
        """Itself, or its first fault: a second driver, then a signal without one, then a cycle."""
        driven = set()
        for signal in [signal for signal, _ in self.inputs] + [cover.signal for cover in self.covers]:
            if signal in driven:
                raise Refused(b"driven twice " + self.shown(signal))
            driven.add(signal)
        for signal in [column for cover in self.covers for column in cover.columns] + [signal for signal, _, _ in self.outputs]:
            if signal not in driven:
                raise Refused(b"undriven " + self.shown(signal))
        self.order = self.acyclic()
        return self

    def acyclic(self):
        """The covers, each behind those that it reads, or the fault of a cycle."""
        known, order, left = {signal for signal, _ in self.inputs}, [], list(self.covers)
        while ready := [cover for cover in left if all(column in known for column in cover.columns)]:
            order += ready
            known |= {cover.signal for cover in ready}
            left = [cover for cover in left if cover.signal not in known]
        if left:
            by_signal = {cover.signal: cover for cover in left}
            walk = [left[0].signal]
            while walk[-1] not in walk[:-1]:
                walk.append(next(column for column in by_signal[walk[-1]].columns if column in by_signal))
            raise Refused(b"cycle " + b" ".join(self.shown(signal) for signal in walk[walk.index(walk[-1]):-1]))
        return order

    def results(self, vector):
        """The output bits for a text of input bits."""
        values = {signal: int(bit) for (signal, _), bit in zip(self.inputs, vector)}
        for cover in self.order:
            values[cover.signal] = cover.value(values)
        return "".join(str(values[signal] ^ sign) for signal, sign, _ in self.outputs)


def read(data):
    """The netlist of these bytes."""
    return Aiger(data).read() if data[:4] in (b"aag ", b"aig ") else Blif().read(data)


def statements(data):
    """The statements of a BLIF file: the number of the first line, and the words."""
    pieces = data.split(b"\n")
    if pieces[-1] == b"":
        pieces.pop()
    place = 0
    while place < len(pieces):
        number, words = place + 1, []
        while place < len(pieces):
            text = pieces[place].split(b"#")[0].rstrip(b" \t\r")
            place += 1
            words += text.removesuffix(b"\\").translate(bytes.maketrans(b"\t\r", b"  ")).split(b" ")
            if not text.endswith(b"\\"):
                break
        if words := [word for word in words if word]:
            yield number, words


class Blif:
    """What the statements of a BLIF file have said so far."""

    def __init__(self):
        self.inputs, self.outputs, self.covers = [], [], []
        self.signals, self.open, self.ended, self.begun = set(), None, False, False

    def read(self, data):
        for number, words in statements(data):
            self.statement(number, words)
            self.begun = True
        if not self.begun:
            raise Refused(b"blif line 1: syntax")
        return Netlist([(name, label(name)) for name in self.inputs], [(name, 0, label(name)) for name in self.outputs],
                       self.covers, label).checked()

    def statement(self, number, words):
        def bad(what):
            return Refused(b"blif line %d: %s" % (number, what))

        first = words[0]
        if first == b".model":
            if self.begun:
                raise bad(b"unsupported .model")
        elif self.ended:
            raise bad(b"syntax")
        elif not first.startswith(b"."):
            if self.open is None:
                raise bad(b"syntax")
            self.row(words, bad)
        else:
            self.open = None
            self.directive(first[1:].decode("latin1"), words, bad)

    def directive(self, name, words, bad):
        if name == "names":
            if len(words) < 2:
                raise bad(b"syntax")
            for word in words[1:]:
                self.signal(word)
            self.open = Cover(words[1:-1], words[-1])
            self.covers.append(self.open)
        elif name in ("inputs", "outputs"):
            for word in words[1:]:
                self.signal(word)
                if name == "outputs":
                    self.outputs.append(word)
                    if len(self.outputs) > MOST_OUTPUTS:
                        raise Refused(b"outputs", 7)
                elif word in self.inputs:
                    raise bad(b"input twice")
                else:
                    self.inputs.append(word)
        elif name == "end":
            self.ended = True
        elif name not in PASSED_OVER:
            raise bad(b"unsupported " + label(words[0][:4096]))

    def signal(self, word):
        if len(word) > 4096:
            raise Refused(b"name", 7)
        self.signals.add(word)
        if len(self.signals) > MOST_SIGNALS:
            raise Refused(b"signals", 7)

    def row(self, words, bad):
        cover = self.open
        if len(words) != (2 if cover.columns else 1) or words[-1] not in (b"0", b"1"):
            raise bad(b"syntax")
        pattern = words[0].decode("latin1") if cover.columns else ""
        if len(pattern) != len(cover.columns):
            raise bad(b"row width")
        if not set(pattern) <= set("01-"):
            raise bad(b"syntax")
        if cover.rows and cover.phase != int(words[-1]):
            raise bad(b"mixed phase")
        cover.phase = int(words[-1])
        cover.rows.append(pattern)


def number(word):
    """The value of a word of 1 to 10 digits, if it is below 2^32."""
    if 1 <= len(word) <= 10 and all(48 <= byte <= 57 for byte in word) and int(word) < 2**32:
        return int(word)
    return None


class Aiger:
    """The bytes of an AIGER file and the place up to which they are read."""

    def __init__(self, data):
        self.data, self.place = data, 0

    def bad(self, what, place):
        return Refused(b"aiger %s at byte %d" % (what, place))

    def line(self):
        """The place and the words of the next line, which has to end in a newline."""
        start = self.place
        end = self.data.find(b"\n", start)
        if end < 0:
            raise self.bad(b"truncated", len(self.data))
        self.place = end + 1
        text = self.data[start:end].removesuffix(b"\r")
        return start, [word for word in text.translate(bytes.maketrans(b"\t\r", b"  ")).split(b" ") if word]

    def literals(self, count):
        """The place and the numbers of a line of so many."""
        start, words = self.line()
        numbers = [number(word) for word in words]
        if len(numbers) != count or None in numbers:
            raise self.bad(b"number", start)
        return start, numbers

    def header(self):
        _, words = self.line()
        numbers = [number(word) for word in words[1:]]
        if not 5 <= len(numbers) <= 9 or None in numbers or any(numbers[5:]):
            raise Refused(b"aiger header")
        most, inputs, latches, outputs, gates = numbers[:5]
        if latches:
            raise Refused(b"aiger latches")
        if most < inputs + gates or (self.binary and most != inputs + gates):
            raise Refused(b"aiger header")
        if most > MOST_SIGNALS - 1:
            raise Refused(b"signals", 7)
        if outputs > MOST_OUTPUTS:
            raise Refused(b"outputs", 7)
        return most, inputs, outputs, gates

    def read(self):
        self.binary = self.data.startswith(b"aig ")
        most, inputs, outputs, gates = self.header()
        self.greatest = 2 * most + 1
        signals = list(range(1, inputs + 1)) if self.binary else [self.input() for _ in range(inputs)]
        drawn = [self.output() for _ in range(outputs)]
        covers = [Cover([], 0)]
        for place in range(gates):
            covers.append(self.cover(*(self.binary_gate(2 * (inputs + place + 1)) if self.binary else self.gate())))
        names = {"i": [b"i%d" % k for k in range(inputs)], "o": [b"o%d" % k for k in range(outputs)]}
        self.symbols(names)
        return Netlist(list(zip(signals, names["i"])), [(literal // 2, literal % 2, name) for literal, name in zip(drawn, names["o"])],
                       covers, lambda signal: b"v%d" % signal).checked()

    def input(self):
        start, [literal] = self.literals(1)
        if literal % 2 or not 2 <= literal <= self.greatest:
            raise self.bad(b"literal", start)
        return literal // 2

    def output(self):
        start, [literal] = self.literals(1)
        if literal > self.greatest:
            raise self.bad(b"literal", start)
        return literal

    def gate(self):
        start, [lhs, first, second] = self.literals(3)
        if lhs % 2 or lhs < 2 or max(lhs, first, second) > self.greatest:
            raise self.bad(b"literal", start)
        return lhs, first, second

    def binary_gate(self, lhs):
        start, delta = self.code()
        if not 1 <= delta <= lhs:
            raise self.bad(b"delta", start)
        first = lhs - delta
        start, delta = self.code()
        if delta > first:
            raise self.bad(b"delta", start)
        return lhs, first, first - delta

    def code(self):
        """The place and the value of a code: seven bits a byte, low part first, the high bit set on all but the last."""
        start, value = self.place, 0
        for k in range(5):
            if start + k == len(self.data):
                raise self.bad(b"truncated", len(self.data))
            byte = self.data[start + k]
            value += byte % 128 << 7 * k
            if byte < 128:
                if value >= 2**32:
                    break
                self.place = start + k + 1
                return start, value
        raise self.bad(b"delta", start)

    def cover(self, lhs, first, second):
        return Cover([first // 2, second // 2], lhs // 2, [f"{1 - first % 2}{1 - second % 2}"])

    def symbols(self, names):
        while self.place < len(self.data):
            start, end = self.place, self.data.find(b"\n", self.place)
            text = self.data[start:] if end < 0 else self.data[start:end].removesuffix(b"\r")
            self.place = len(self.data) if end < 0 else end + 1
            if text.startswith(b"c"):
                return
            if text:
                self.symbol(text, names, start)

    def symbol(self, text, names, start):
        word, _, name = text.partition(b" ")
        position = number(word[1:])
        known = names.get(word[:1].decode("latin1"), [])
        if position is None or position >= len(known) or not name:
            raise self.bad(b"symbol", start)
        if len(name) > 4096:
            raise Refused(b"name", 7)
        known[position] = label(name)
