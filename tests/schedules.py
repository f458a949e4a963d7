"""What `compile` and `imply` write for a netlist, made anew in plain Python: the graphs, the order, the schedules and the choice.

Nothing is fast here: tables are searched, and each rule stands as it is said. A literal is twice a node's number and one more for the
complement. Node 0 is false, then come the inputs, then the nodes that read others."""
from dataclasses import dataclass, field

MAX_CELLS = 1_048_576


@dataclass
class Graph:
    """Nodes that read two or three literals each, and the literals of the outputs."""
    inputs: int
    nodes: list = field(default_factory=list)
    outputs: list = field(default_factory=list)

    def first(self):
        return 1 + self.inputs

    def reads(self, node):
        """The literals that a node reads; the constant and an input read none."""
        return self.nodes[node - self.first()] if node >= self.first() else ()

    def all(self):
        return range(self.first(), self.first() + len(self.nodes))

    def needed(self):
        """The nodes that outputs reach."""
        found, left = set(), [out // 2 for out in self.outputs]
        while left:
            node = left.pop()
            if node not in found:
                found.add(node)
                left += [literal // 2 for literal in self.reads(node)]
        return found


# ---- from a netlist to a graph

def flat(netlist):
    """An AND for each literal of a cover but one: the rows first, then their sum."""
    graph = Graph(len(netlist.inputs))
    literals = {signal: 2 * (1 + place) for place, (signal, _) in enumerate(netlist.inputs)}

    def chain(factors):
        if not factors:
            return 1
        so_far = factors[0]
        for factor in factors[1:]:
            graph.nodes.append((so_far, factor))
            so_far = 2 * (graph.inputs + len(graph.nodes))
        return so_far

    for cover in netlist.order:
        rows = [chain([literals[column] ^ (want == "0") for column, want in zip(cover.columns, row) if want != "-"]) for row in cover.rows]
        literals[cover.signal] = chain([row ^ 1 for row in rows]) ^ cover.phase
    graph.outputs = [literals[signal] ^ bool(sign) for signal, sign, _ in netlist.outputs]
    return graph


def moved(table, literal):
    return table[literal // 2] ^ literal & 1


def tidied(graph):
    """Constants folded, and nodes with the same two literals made one."""
    new, table = Graph(graph.inputs), list(range(0, 2 * graph.first(), 2))
    for x, y in graph.nodes:
        x, y = moved(table, x), moved(table, y)
        if 0 in (x, y) or x == y ^ 1:
            table.append(0)
        elif x == 1 or x == y:
            table.append(y)
        elif y == 1:
            table.append(x)
        else:
            table.append(shared(new, (x, y)))
    new.outputs = [moved(table, out) for out in graph.outputs]
    return new


def shared(graph, operands):
    """The plain literal of the node with these literals in any order, which is added if there is none."""
    for place, node in enumerate(graph.nodes):
        if sorted(node) == sorted(operands):
            return 2 * (graph.first() + place)
    graph.nodes.append(operands)
    return 2 * (graph.inputs + len(graph.nodes))


# ---- majorities

def majority(graph, x, y, z):
    """The literal of the majority of three: one of them, or that of a node."""
    for one, other, third in (x, y, z), (x, z, y), (y, z, x):
        if one == other:
            return one
    for one, other, third in (x, y, z), (x, z, y), (y, z, x):
        if one == other ^ 1:
            return third
    return shared(graph, (x, y, z))


def majorities(graph):
    """Each AND as a majority with false."""
    new, table = Graph(graph.inputs), list(range(0, 2 * graph.first(), 2))
    for x, y in graph.nodes:
        table.append(majority(new, moved(table, x), moved(table, y), 0))
    new.outputs = [moved(table, out) for out in graph.outputs]
    return new


def passed(graph, step):
    """The new graph that a step makes of each needed node."""
    new, table, needed = Graph(graph.inputs), list(range(0, 2 * graph.first(), 2)), graph.needed()
    for node in graph.all():
        table.append(step(new, table, graph.reads(node)) if node in needed else None)
    new.outputs = [moved(table, out) for out in graph.outputs]
    return new


def flip(new, table, operands):
    """Two complements or more, constants not counted, go over to the readers."""
    operands = [moved(table, literal) for literal in operands]
    if sum(literal & 1 for literal in operands if literal > 1) > 1:
        return majority(new, *(literal ^ 1 for literal in operands)) ^ 1
    return majority(new, *operands)


def singles(graph):
    """The nodes that are read once by needed nodes and by no output."""
    reads = [literal // 2 for node in graph.needed() for literal in graph.reads(node)] + 2 * [out // 2 for out in graph.outputs]
    return {node for node in graph.all() if reads.count(node) == 1}


def case(graph, single, operands):
    """The first pair of operands that can be distributed: the two that they share, the two that they don't, and the third."""
    for one, other in (0, 1), (0, 2), (1, 2):
        first, second = operands[one], operands[other]
        if first & 1 or second & 1 or first // 2 not in single or second // 2 not in single:
            continue
        these, those = graph.reads(first // 2), graph.reads(second // 2)
        common = [literal for literal in these if literal in those]
        if len(common) > 1:
            s, t = common[:2]
            [u], [v] = ([literal for literal in node if literal not in (s, t)] for node in (these, those))
            return s, t, u, v, operands[3 - one - other]
    return None


def rewritten(graph):
    """Flips and distributions, as long as there is something to distribute; then what is needed of that."""
    graph = passed(graph, flip)
    while True:
        single = singles(graph)
        if not any(case(graph, single, graph.reads(node)) for node in graph.needed() if node >= graph.first()):
            return passed(graph, lambda new, table, operands: majority(new, *(moved(table, literal) for literal in operands)))

        def spread(new, table, operands, graph=graph, single=single):
            found = case(graph, single, operands)
            if not found:
                return majority(new, *(moved(table, literal) for literal in operands))
            s, t, u, v, w = (moved(table, literal) for literal in found)
            return majority(new, s, t, majority(new, u, v, w))

        graph = passed(passed(graph, spread), flip)


# ---- the order of gates

def ordered(children, roots):
    """All gates that the roots reach, behind their children, and those of greater cell usage first."""
    usages, order = {}, []

    def usage(gate):
        if gate not in usages:
            below = sorted((usage(child) for child in children(gate)), reverse=True)
            usages[gate] = max([1, len(below) + 1, *(cells + place for place, cells in enumerate(below))])
        return usages[gate]

    def visit(gates):
        for gate in sorted(gates, key=lambda gate: -usage(gate)):
            if gate not in order:
                visit(children(gate))
                order.append(gate)

    visit(roots)
    return order


def peak(children, roots, order):
    """The most gates that are held at once."""
    most = 0
    for place, gate in enumerate(order):
        later = {child for reader in order[place:] for child in children(reader)}
        most = max(most, sum(held == gate or held in later or held in roots for held in order[:place + 1]))
    return most


def distinct(items):
    return list(dict.fromkeys(items))


def is_last(children, order, place, child):
    """Whether no gate behind this place reads the child."""
    return not any(child in children(reader) for reader in order[place + 1:])


def least_free(inputs, held):
    """The least work cell that holds nothing."""
    taken, cell = set(held), inputs
    while cell in taken:
        cell += 1
    return cell


# ---- PLiM

class Plim:
    """The gates of a graph for PLiM: a node's plain literal, a complemented one that is an output, a constant that is one."""

    def __init__(self, graph):
        self.graph = graph
        self.roots = distinct(out for out in graph.outputs if out < 2 or out & 1 or out // 2 >= graph.first())
        self.order = ordered(self.children, self.roots)
        self.peak = peak(self.children, self.roots, self.order)
        self.cells, self.instructions, self.width = {}, [], graph.inputs
        for place, gate in enumerate(self.order):
            self.place, self.over, self.temporary = place, None, None
            if gate < 2:
                self.emit(f"#{gate}", f"#{1 - gate}", self.take(gate))
            elif gate & 1:
                self.load(gate, self.take(gate))
            else:
                self.node(gate, graph.reads(gate // 2))
            for child in self.children(gate):
                if is_last(self.children, self.order, place, child) and child not in self.roots and child != self.over:
                    del self.cells[child]

    def children(self, gate):
        operands = [gate] if gate & 1 else self.graph.reads(gate // 2)
        return distinct(literal & ~1 for literal in operands if literal // 2 >= self.graph.first())

    def alone(self, literal):
        """Whether the literal is the plain one of a node that one gate reads, and that is no plain output."""
        return not literal & 1 and literal // 2 >= self.graph.first() and literal not in self.roots \
            and sum(literal in self.children(gate) for gate in self.order) == 1

    def take(self, gate):
        self.cells[gate] = least_free(self.graph.inputs, [*self.cells.values(), self.temporary])
        self.width = max(self.width, self.cells[gate] + 1)
        return self.cells[gate]

    def take_over(self, gate, child):
        self.over = child
        self.cells[gate] = self.cells.pop(child)
        return self.cells[gate]

    def cell(self, literal):
        return literal // 2 - 1 if literal // 2 <= self.graph.inputs else self.cells[literal & ~1]

    def operand(self, literal):
        return f"#{literal}" if literal < 2 else f"@{self.cell(literal)}"

    def emit(self, p, q, cell):
        self.instructions.append(f"rm3 {p} {q} @{cell}")

    def load(self, literal, cell):
        """Makes the cell the literal."""
        if literal > 1 and literal & 1:
            self.emit("#1", "#0", cell)
            self.emit("#0", f"@{self.cell(literal)}", cell)
        else:
            self.emit("#0", "#1", cell)
            self.emit(self.operand(literal), "#0", cell)

    def ports(self):
        """The cell of each output."""
        return [out // 2 - 1 if not out & 1 and 0 < out // 2 <= self.graph.inputs else self.cells[out] for out in self.graph.outputs]


class Base(Plim):
    """An AND takes over an operand's cell, or loads its first operand; the other one narrows it."""

    def node(self, gate, operands):
        x, y = operands
        for mine, other in (x, y), (y, x):
            if self.alone(mine):
                cell = self.cells[mine]
                if other > 1 and other & ~1 == mine:
                    operand = ("#0", "#1") if other & 1 else ("#1", "#1")
                else:
                    operand = self.narrowing(other)
                self.emit(*operand, self.take_over(gate, mine))
                assert self.cells[gate] == cell
                return
        cell = self.take(gate)
        self.load(x, cell)
        self.emit(*self.narrowing(y), cell)

    def narrowing(self, literal):
        return ("#0", f"@{self.cell(literal)}") if literal > 1 and literal & 1 else (self.operand(literal), "#1")


class Smart(Plim):
    """A majority takes its operands in the roles that cost least."""

    def node(self, gate, operands):
        e1, e2, e3 = operands
        roles = [(e1, e2, e3), (e1, e3, e2), (e2, e1, e3), (e2, e3, e1), (e3, e1, e2), (e3, e2, e1)]
        p, q, z = min(roles, key=self.cost)
        if p > 1 and p & 1:
            self.temporary = least_free(self.graph.inputs, self.cells.values())
            self.load(p, self.temporary)
            first = f"@{self.temporary}"
        else:
            first = self.operand(p)
        if q > 1 and not q & 1:
            assert self.temporary is None
            self.temporary = least_free(self.graph.inputs, self.cells.values())
            self.load(q ^ 1, self.temporary)
            second = f"@{self.temporary}"
        else:
            second = f"#{1 - q}" if q < 2 else f"@{self.cell(q)}"
        self.width = max(self.width, (self.temporary or 0) + 1)
        if z < 2:
            cell = self.take(gate)
            self.emit(f"#{z}", f"#{1 - z}", cell)
        elif self.alone(z):
            cell = self.take_over(gate, z)
        else:
            cell = self.take(gate)
            self.load(z, cell)
        self.emit(first, second, cell)

    def cost(self, roles):
        p, q, z = roles
        return 2 * (p > 1 and p & 1) + 2 * (q > 1 and not q & 1) + (1 if z < 2 else 0 if self.alone(z) else 2)


# ---- MAGIC

class Nors:
    """The network of NORs of a graph: a gate is a node and whether it is complemented."""

    def __init__(self, graph, width):
        self.graph, self.width = graph, width
        reads = [literal // 2 for node in graph.all() for literal in graph.reads(node)] + 2 * [out // 2 for out in graph.outputs]
        self.single = {node for node in graph.all() if reads.count(node) == 1}
        self.outs = [self.gate(out) for out in graph.outputs]
        self.roots = distinct(out for out in self.outs if not self.is_input(out))
        self.order = ordered(self.children, self.roots)
        self.peak = peak(self.children, self.roots, self.order)
        self.count = sum(gate != 1 for gate in self.order)

    def gate(self, literal):
        return literal

    def is_input(self, gate):
        return not gate & 1 and 0 < gate // 2 <= self.graph.inputs

    def operands(self, gate):
        """A plain gate of an AND is the NOR of the complements of its leaves; a complement is a NOT."""
        if gate == 1:
            return []
        if gate & 1 or gate == 0:
            return [gate ^ 1]
        return distinct(literal ^ 1 for literal in self.leaves(gate // 2))

    def leaves(self, node):
        found = list(self.graph.reads(node))
        while self.width == 4 and len(found) < 4:
            place = next((k for k, leaf in enumerate(found) if not leaf & 1 and leaf // 2 in self.single), None)
            if place is None:
                break
            found[place:place + 1] = self.graph.reads(found[place] // 2)
        return found

    def children(self, gate):
        return [operand for operand in self.operands(gate) if not self.is_input(operand)]

    def schedule(self, budget):
        """The instructions and cells in so many cells, which are set together when none is free."""
        inputs = self.graph.inputs
        work = min(budget - inputs, len(self.order))
        cells, primed, expired, instructions = {}, set(), set(range(inputs, inputs + work)), []

        def place_of(gate):
            return gate // 2 - 1 if self.is_input(gate) else cells[gate]

        for place, gate in enumerate(self.order):
            if not primed:
                instructions.append("init " + " ".join(map(str, sorted(expired))))
                primed, expired = expired, set()
            cells[gate] = min(primed)
            primed.remove(cells[gate])
            if gate != 1:
                sources = [place_of(operand) for operand in self.operands(gate)]
                instructions.append(" ".join(["not" if len(sources) == 1 else "nor", str(cells[gate]), *map(str, sources)]))
            for child in self.children(gate):
                if child not in self.roots and is_last(self.children, self.order, place, child):
                    (primed if child == 1 else expired).add(cells[child])
        return inputs + work, [place_of(out) for out in self.outs], instructions


# ---- IMPLY

def imply(graph):
    """The cells, the outputs' cells and the instructions of a graph on the IMPLY machine."""
    def is_input(gate):
        return not gate & 1 and 0 < gate // 2 <= graph.inputs

    def operands(gate):
        if gate == 0:
            return []
        if gate & 1 and gate // 2 >= graph.first():
            return distinct(graph.reads(gate // 2))
        return [gate ^ 1]

    def children(gate):
        return [operand for operand in operands(gate) if not is_input(operand)]

    def place_of(gate):
        return gate // 2 - 1 if is_input(gate) else cells[gate]

    roots = distinct(out for out in graph.outputs if not is_input(out))
    order, cells, instructions, width = ordered(children, roots), {}, [], graph.inputs
    held = {}
    for place, gate in enumerate(order):
        held[gate] = cells[gate] = least_free(graph.inputs, held.values())
        width = max(width, cells[gate] + 1)
        instructions.append(f"false {cells[gate]}")
        instructions += [f"imp {place_of(operand)} {cells[gate]}" for operand in operands(gate)]
        for child in children(gate):
            if child not in roots and is_last(children, order, place, child):
                del held[child]
    return width, [place_of(out) for out in graph.outputs], instructions


# ---- the programs

def text(netlist, head, cells, outputs, instructions):
    lines = [*head, f"cells {cells}"]
    lines += [f"input {cell} {label.decode('latin-1')}" for cell, (_, label) in enumerate(netlist.inputs)]
    lines += [f"output {cell} {label.decode('latin-1')}" for cell, (_, _, label) in zip(outputs, netlist.outputs)]
    return "\n".join([*lines, f"cycles {len(instructions)}", *instructions, "end", ""]).encode("latin-1")


def candidates(graph, target, level):
    """The cells that each candidate needs, and what makes its cells, outputs and instructions; in the order of the choice."""
    tidy = tidied(graph)
    if target == "magic":
        own = [Nors(graph, 4), Nors(graph, 2)]
        more = [network for network in (Nors(tidy, 4), Nors(tidy, 2)) if network.count <= own[1].count] if level else []
        return [(graph.inputs + network.peak, network.schedule) for network in more + own]
    base, graphs = Base(graph), []
    if level > 0:
        graphs.append(majorities(tidy))
    if level > 1:
        graphs.insert(0, rewritten(graphs[0]))
    found = [schedule for schedule in map(Smart, graphs) if len(schedule.instructions) <= len(base.instructions)] + [base]
    return [(one.width, lambda budget, one=one: (one.width, one.ports(), one.instructions)) for one in found]


def need(graph, target):
    """The cells that the note names."""
    return graph.inputs + (min(Nors(graph, 4).peak, Nors(graph, 2).peak) if target == "magic" else Base(graph).peak)


def compiled(netlist, target, level, budget):
    """The program's text, or None where there are too few cells."""
    programs = [make(budget) for cells, make in candidates(flat(netlist), target, level) if cells <= budget]
    if not programs:
        return None
    cells, outputs, instructions = min(programs, key=lambda program: len(program[2]))
    return text(netlist, ["pim 1", f"target {target}"], cells, outputs, instructions)
