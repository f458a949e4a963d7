"""Trees of gates: no order of any tree of up to seven gates needs fewer cells than `explain --tree` says."""
from concurrent.futures import ThreadPoolExecutor
from itertools import permutations, product

from program import equal

MOST = 7  # gates of a tree whose orders are all tried
OPERANDS = 4  # of a NOR, at most
ORDERS = 53_243  # of all these trees


def trees(gates):
    """All trees of so many gates, as the children of each gate. Children have lesser numbers, so the last gate is the root."""
    for readers in product(*(range(gate + 1, gates) for gate in range(gates - 1))):
        children = [[gate for gate, reader in enumerate(readers) if reader == parent] for parent in range(gates)]
        if all(len(below) <= OPERANDS for below in children):
            yield children


def numbered(shape):
    """The children of each gate of a shape, which is the tuple of its root's children; again children have lesser numbers."""
    found = []

    def visit(node):
        below = [visit(child) for child in node]
        found.append(below)
        return len(found) - 1

    visit(shape)
    return found


def orders(children, done=()):
    """All orders in which each gate stands behind its children."""
    if len(done) == len(children):
        yield done
    for gate in range(len(children)):
        if gate not in done and all(child in done for child in children[gate]):
            yield from orders(children, (*done, gate))


def peak(children, order):
    """The most gates that are held at once: those that stand here, or did and are still read, or are the root."""
    held, most = set(), 0
    for gate in order:
        held.add(gate)
        most = max(most, len(held))
        held -= set(children[gate])
    return most


def program(children, order):
    """A program of this tree in this order: gate g stands in cell g + 1, and cell 0 is the input."""
    lines = ["pim 1", "target magic", f"cells {len(children) + 1}", "input 0 a",
             f"output {len(children)} f", f"cycles {len(children) + 1}"]
    lines.append("init " + " ".join(str(gate + 1) for gate in range(len(children))))
    for gate in order:
        operands = [str(child + 1) for child in children[gate]] or ["0"]
        lines.append(" ".join(["not" if len(operands) == 1 else "nor", str(gate + 1), *operands]))
    return "\n".join([*lines, "end", ""])


def told(pim, path, children, order):
    """The numbers of the line that `explain --tree` writes: cell usage, peak, and peak of the program's own order."""
    path.write_text(program(children, order))
    answer = pim("explain", path, "--tree")
    equal("the note", answer.notes, b"")
    words = answer.output.split(b"\n")[-2].split(b" ")
    equal("the words", words[:4] + words[4::2], [b"tree", b"yes", b"gates", b"%d" % len(children), b"cu", b"peak", b"own"])
    return tuple(int(word) for word in words[5::2])


def test_all_orders_of_small_trees(pim, folder):
    """Of each tree the number that is told is the least of all its orders, and each order's own number is the plain count."""
    tried = [(children, order) for gates in range(1, MOST + 1) for children in trees(gates) for order in orders(children)]
    equal("how many orders", len(tried), ORDERS)

    def judged(job):
        place, (children, order) = job
        path = folder / str(place)
        usage, best, own = told(pim, path, children, order)
        path.unlink()
        equal(f"the numbers of {order} of {children}", (best, own), (usage, peak(children, order)))
        return str(children), usage, own

    least = {}
    with ThreadPoolExecutor(8) as pool:
        for tree, usage, own in pool.map(judged, enumerate(tried)):
            least[tree, usage] = min(least.get((tree, usage), own), own)
    for (tree, usage), own in least.items():
        equal(f"the least of all orders of {tree}", own, usage)


def by_subtrees(children, gate):
    """All orders of a subtree that finish the subtree of one child before that of the next."""
    for arrangement in permutations(children[gate]):
        for parts in product(*(list(by_subtrees(children, child)) for child in arrangement)):
            yield [one for part in parts for one in part] + [gate]


def test_trees_in_which_several_children_decide(pim, folder):
    """In trees of nine to eleven gates too, the number is the least of all orders that finish one subtree before the next."""
    pair, triple, one = ((), ()), ((), (), ()), ((),)
    for shape in [(pair, pair, pair), (triple, pair, pair), (pair, pair, one, ()), (triple, triple, (), ())]:
        children = numbered(shape)
        least = min(peak(children, order) for order in by_subtrees(children, len(children) - 1))
        usage, best, own = told(pim, folder / "it.pim", children, range(len(children)))
        equal(f"the numbers of {children}", (usage, best, own), (least, least, peak(children, range(len(children)))))


def test_no_tree(pim, folder):
    """A shared gate, a second root and a gate without a reader make a graph that is no tree."""
    shared = "init 1 2 3\nnot 1 0\nnot 2 1\nnor 3 1 2\n"
    two_roots = "init 1 2 3\nnot 1 0\nnot 2 0\nnot 3 0\n"
    unread = "init 1 2 3\nnot 1 0\nnot 2 0\nnot 3 1\n"
    for instructions, outputs, wanted in (shared, [3], b"tree no gates 3 peak 3 own 3"), (two_roots, [2, 3], b"tree no gates 3 peak 2 own 2"), \
            (unread, [3], b"tree no gates 3 peak 2 own 2"):
        ports = "".join(f"output {cell} f{cell}\n" for cell in outputs)
        text = f"pim 1\ntarget magic\ncells 4\ninput 0 a\n{ports}cycles 4\n{instructions}end\n"
        (folder / "it.pim").write_text(text)
        answer = pim("explain", folder / "it.pim", "--tree")
        equal("the note", answer.notes, b"")
        equal(f"the last line of {instructions!r}", answer.output.split(b"\n")[-2], wanted)
