"""The binary form of a program, read anew by the rules of docs/formats.md and docs/machine.md."""

MOST_CELLS = 1_048_576


class Fault(Exception):
    """Why bytes are no program: the status and the note."""

    def __init__(self, status, note):
        super().__init__(note)
        self.status, self.note = status, note


def bad(detail):
    return Fault(1, f"bad input: program {detail}")


class Items:
    """The items of a file, from a place on."""

    def __init__(self, data, place):
        self.data, self.place = data, place

    def byte(self, allowed):
        if self.place == len(self.data):
            raise bad("truncated")
        byte = self.data[self.place]
        if byte not in allowed:
            raise bad(f"byte {self.place}")
        self.place += 1
        return byte

    def number(self, allowed=range(2**32)):
        value = 0
        for k in range(5):
            if self.place + k == len(self.data):
                raise bad("truncated")
            byte = self.data[self.place + k]
            value += byte % 128 << 7 * k
            if byte < 128:
                longer = k > 0 and byte == 0
                if longer or value not in allowed:
                    raise bad(f"byte {self.place + k}")
                self.place += k + 1
                return value
        raise bad(f"byte {self.place + 4}")

    def many(self, item):
        return [item() for _ in range(self.number())]

    def port(self):
        cell = self.number()
        for _ in range(self.number(range(1, 4097))):
            self.byte([byte for byte in range(32, 256) if byte != 127])
        return cell

    def instruction(self):
        """Its kind, the cells that it writes, and those that it reads."""
        kind = self.byte(range(6))
        if kind == 0:
            return "init", self.many(self.number), []
        if kind == 3:
            p, q, z = self.number(), self.number(), self.number()
            return "rm3", [z], [operand - 2 for operand in (p, q) if operand >= 2]
        target = self.number()
        return "nor", [target], [self.number() for _ in range({1: 1, 2: 2, 4: 3, 5: 4}[kind])]


def judge(data):
    """Fails with the first fault of a file, and ends where the file is a program."""
    if not data.startswith(b"pim2\n"):
        raise bad("line 1" if b"\n" in data else "truncated")
    items = Items(data, 5)
    magic = items.byte((0, 1)) == 0
    cells = items.number()
    inputs, outputs = items.many(items.port), items.many(items.port)
    instructions = items.many(items.instruction)
    if items.place < len(data):
        raise bad(f"byte {items.place}")
    if cells > MOST_CELLS:
        raise Fault(7, "too large: cells")
    for place, cell in enumerate(inputs + outputs):
        if cell >= cells or (place < len(inputs) and cell in inputs[:place]):
            raise bad(f"port {place}")
    for k, (kind, written, read) in enumerate(instructions):
        if (kind == "rm3") == magic:
            raise bad(f"instruction {k} wrong target")
        if kind == "init" and (not written or any(a >= b for a, b in zip(written, written[1:]))):
            raise bad(f"instruction {k} init list")
        if any(cell >= cells for cell in written + read):
            raise bad(f"instruction {k} cell range")
        if kind != "init" and written[0] in read:
            raise bad(f"instruction {k} reads its target")
