#!/usr/bin/env python3
"""docs/definitions.py: writes docs/definitions.md anew from the definitions and their comments. With --check it only tells
whether the page is up to date.

The page begins with what the clause `done` of the call `pim` rests on: each definition that the clause names, each one that
these name, and so on down. It goes by the `use` lines and the words of each definition. An index of all others follows.
"""
import re
import sys
from dataclasses import dataclass, field
from pathlib import Path

ROOT = Path(__file__).resolve().parent.parent
PAGE = ROOT / "docs" / "definitions.md"
HEADLINE = ("pim_top", "src/top.rt", "done")

# The crates in the order of the data: what each one's definitions are about.
SECTIONS = {
    "pim_top": ("The call", "What it is to be done: words, the bytes that were read, and the bytes that were written."),
    "pim_words": ("Words", "What the words say. `clap` reads the options, by the description of each command that stands here."),
    "pim_io": ("Bytes", "Lines, words, numbers, labels and codes, as all formats have them."),
    "pim_blif": ("Netlists in BLIF", "From bytes to statements, from statements to the first fault or the netlist."),
    "pim_aiger": ("Netlists in AIGER", "From bytes to the first fault or the netlist, in both forms, from the front to the end."),
    "pim_net": ("The netlist and its values", "What a netlist is, what is wrong with one that is none, and what its outputs are."),
    "pim_compile": ("What a compiled program is", "It computes the netlist, and the budget is at least what is needed."),
    "pim_aig": ("The flat graph", "AND gates and inverters: what the limit of nodes counts, and what is lowered."),
    "pim_nor": ("The NOR network", "The gates whose number decides how many cells are needed."),
    "pim_graph": ("Orders", "In which order gates are placed, and how many cells are held at once."),
    "pim_simpler": ("The schedule", "Which gate stands in which cell, and when a cell is used again."),
    "pim_rm3": ("The PLiM schedules", "Which node stands in which cell, and which RM3 instructions give its value."),
    "pim_isa": ("Programs and the machine", "Instructions, what they do to a row of cells, and which programs are valid."),
    "pim_tidy": ("The tidied graph", "An and-inverter graph folded and shared."),
    "pim_mig": ("Majority graphs", "One node for each three literals, and what it computes."),
    "pim_rewrite": ("Rewriting", "The passes over a majority graph, and its normal form."),
    "pim_text": ("Texts of programs", "Lines of targets, numbers, ports and instructions, as all texts of programs have them."),
    "pim_file": ("The text of a program", "How a program is written, and which bytes are read as one."),
    "pim_asm": ("Assembly", "How a line is cut into words, and what each says."),
    "pim_life": ("Lifetimes", "From where to where a value lives, and the graph of a program's NORs."),
    "pim_debug": ("The debugger", "The states of a session, and what it answers."),
    "pim_prove": ("Comparisons", "Which programs don't depend on what cells held before, and where one differs from a netlist."),
    "pim_share": ("Shared rows", "Windows, turns, and what each part leaves in its own window."),
    "pim_imply": ("IMPLY", "The third machine, its programs and their text."),
    "pim_adder": ("The adder", "The netlist of the bench, and its rows."),
    "pim_bench": ("The bench", "What is compiled, executed and counted."),
    "pim_vectors": ("Vectors", "The lines of a source, and tiles of rows."),
    "pim_batch": ("Results", "The line of output that a row gives."),
    "pim_lanes": ("Lanes", "Kernels over words of 64 rows, and banks of columns."),
}

INTRODUCTION = """\
# Definitions

*This page is made from the sources by `docs/definitions.py`. Change those, and make it anew.*

A proof says that the code does what the definitions say. That the definitions say what is meant, a reader has to judge. So they
are kept apart from the code, each has a sentence of plain words, and the first part of this page has all that the headline of
README.md stands on, printed in full: {count} definitions in {lines} lines. They come in the order of the data, from the call
down to the formats, and within a crate from what is asked to what it is made of. What this part does not name, the headline does
not depend on.

How to read them:

| written | meaning |
|---|---|
| `name : A → B → C`, then `name a b = ..` | what is taken and given, then what it is, by cases. The first case that fits counts |
| `.. → Type 0` | a statement, which holds or doesn't; all others give values |
| `A × B`, `A ⊎ B`, `¬ A` | both hold; one holds; it doesn't hold |
| `(x : A) → B`, `(x : A) × B` | B for every x; there is an x with B |
| `record R .. where` | as a value, its parts; as a statement, all of these hold |
| `data D where` | a type by its variants, each with its fields |
| `≡`, `≢` | is equal, is not equal, as a statement; `==` as a truth value |
| `ℕ`, `Bool`, `List A`, `Option A`, `Result A E` | natural numbers, truth values, lists, an A or none, an A or a fault |
| `[]`, `x ∷ xs`, `++` | the empty list; x before the list xs; one list behind another |
| `λ x. ..` | the function that gives .. for x |
| `e.part`, `p.0`, `p.1` | a part of a record; the first and the second of a pair |
| `Nor t ins`, `instr.Nor t ins` | a variant of a type with its fields; with a word in front where two types have one of that name |
| `a - b`, `a / b` | for natural numbers: 0 if b is greater; rounded down |
| `⊥`, `Unit {{0}}` | what never holds; what always holds |

The words of the library that they use:

| word | meaning |
|---|---|
| `codes "text"` | the bytes of the text |
| `nat_lt a b`, `nat_le a b`, `bytes_eq a b` | a is below b, a is at most b, a and b are the same bytes, as truth values |
| `take n xs`, `drop n xs` | the first n items, and all but these |
| `slice_get xs i`, `slice_index_or xs i d`, `slice_index xs i` | item i, from 0, if it is there; else d; else 0 |
| `slice_set xs i x` | the list with x in place of item i |
| `map f xs`, `flat_map f xs` | f of each item; the lists that f gives, one behind another |
| `find p xs`, `position p xs` | the first item that passes p, if there is one; its place |
| `prefix_len p xs`, `suffix_len p xs`, `before_first p xs` | how many items pass p at the front, and at the end; what stands before the first that passes |
| `list_any p xs`, `list_all p xs` | an item passes p, each item does, as truth values |
| `All P xs`, `Contains xs x` | P holds of each item; x is one of the items |
| `sum_by f xs`, `count_by p xs` | the sum of f of the items; how many pass p |
| `replicate n x`, `range_with_len a n` | n times x; the n numbers from a on |
| `option_map f o`, `option_and_then f o` | f of what o has, where f gives a value, or maybe one |
| `option_or o other`, `unwrap_or o d`, `ok_or o e` | o if it has something, else the other option; else d; else the fault e |

Bytes are numbers below 256. A type of the code is seen as the record of its parts, or by its variants; those that the definitions
speak of stand at the head of each section. The words `pub`, `abbrev` and `unfoldable` of the files are left out.
"""

OTHERS = """\
## The other definitions

The first part has what the headline stands on. These are cited by other contracts, or by what later contracts will say. *Inner*
ones are cited by functions alone that no other crate can call.
"""

WORD = re.compile(r"[A-Za-z_][\w'-]*|[^\s\w(){}\[\].,:◌]+")
START = re.compile(r"(?:(?:pub|abbrev|unfoldable|opaque|record|data|theorem) )+(\S+)(?= |$)")
DATA = re.compile(r"(?:pub )?data ")
USE = re.compile(r"(?:pub )?use Rattle\.(pim_[\w.]+?)\.\{(.*)\}$")


@dataclass
class Definition:
    """One definition: its name, the comment above it, and its lines."""
    name: str
    comment: list
    lines: list = field(default_factory=list)

    def words(self):
        return list(dict.fromkeys(WORD.findall("\n".join(self.lines))))

    def variants(self):
        """The variants of a type that is defined by them."""
        return [match[1] for line in self.lines[1:] if DATA.match(self.lines[0]) and (match := re.match(r"  (\S+) :", line))]


@dataclass
class Spec:
    """One file of definitions: what its first lines say, what it brings in, and its definitions in order."""
    crate: str
    path: Path
    about: list = field(default_factory=list)
    uses: dict = field(default_factory=dict)
    definitions: dict = field(default_factory=dict)

    @property
    def key(self):
        return ".".join([self.crate, "specs", *self.path.with_suffix("").parts[1:]])

    @property
    def names(self):
        """The names that the file defines, each with its definition's: a variant's is that of its type."""
        variants = {name: found.name for found in self.definitions.values() for name in found.variants()}
        return variants | {name: name for name in self.definitions}

    @property
    def is_inner(self):
        return self.path.parts[1] == "inner"


def imported(text):
    """The names that `use` lines bring in, each with its module and its name there."""
    names = {}
    for line in text.split("\n"):
        match = USE.match(line.removeprefix("ghost ").rstrip(";"))
        for name in match[2].split(",") if match else []:
            name, _, other = name.strip().partition(" as ")
            names[(other or name).replace("◌", "").strip()] = (match[1], name.replace("◌", ""))
    return names


def read_spec(crate, path):
    """The definitions of a file, each with the comment that stands above it."""
    spec = Spec(crate, path.relative_to(ROOT / "crates" / crate))
    text = path.read_text()
    spec.uses = imported(text)
    comment, current = [], None
    for line in text.rstrip("\n").split("\n"):
        start = START.match(line)
        if line.startswith("--"):
            comment.append(line)
            current = None
        elif not line and (spec.definitions or spec.about):
            comment = []
        elif start:
            current = Definition(start[1].replace("◌", ""), comment, [line])
            spec.definitions[current.name] = current
            comment = []
        elif current and line.strip():
            current.lines.append(line)
        elif line.startswith(("use ", "pub use ", "mod ", "pub mod ")) and not spec.definitions:
            spec.about, comment = spec.about + comment, []
    return spec


def read_specs():
    specs = {}
    for crate in sorted(path.name for path in (ROOT / "crates").iterdir() if path.is_dir()):
        for path in sorted((ROOT / "crates" / crate / "specs").rglob("*.antt")):
            spec = read_spec(crate, path)
            if spec.definitions:
                specs[spec.key] = spec
    return specs


def sections(specs):
    """The sections above, and one for each other crate, which begins with what its first line says."""
    others = sorted({spec.crate for spec in specs.values()} - set(SECTIONS))
    lines = [(ROOT / "crates" / crate / "src" / "lib.rt").read_text().split("\n")[0] for crate in others]
    return SECTIONS | {crate: ("More", line.removeprefix("//! ")) for crate, line in zip(others, lines)}


def clause(text, name):
    """The text of a clause, between its braces."""
    begin = text.index("{", text.index(f"ensures {name} "))
    depth = 0
    for end in range(begin, len(text)):
        depth += {"{": 1, "}": -1}.get(text[end], 0)
        if depth == 0:
            return text[begin:end]


def resolve(specs, uses, word):
    """What a word stands for that `uses` has: a definition, as module and name, or a type of the code."""
    module, name = uses.get(word, (None, None))
    while module in specs:
        if name in specs[module].names:
            return module, specs[module].names[name]
        module, name = specs[module].uses.get(name, (None, None))
    return (module, name) if module else None


def reached(specs):
    """All that the headline rests on: definitions and types of the code, in the order in which they are met."""
    crate, file, name = HEADLINE
    text = (ROOT / "crates" / crate / file).read_text()
    met = {}

    def meet(found):
        if not found or found in met:
            return
        met[found] = True
        module, name = found
        if module in specs:
            spec = specs[module]
            own = {name: (module, name) for name in spec.names}
            for word in spec.definitions[name].words():
                meet(resolve(specs, own | spec.uses, word))

    for word in dict.fromkeys(WORD.findall(clause(text, name))):
        meet(resolve(specs, imported(text), word))
    return met


def declaration(module, name):
    """The declaration that a name of a module `CRATE.specs.declared.FILE.TYPE` stands for: its crate and its lines."""
    crate, _, _, *rest = module.split(".")
    source = ROOT / "crates" / crate / "src"
    depth = next(k for k in range(len(rest), 0, -1) if source.joinpath(*rest[:k]).with_suffix(".rt").exists())
    within = [part for part in rest[depth:] if part != "TheConstants"]
    wanted = within[0] if within else name
    lines = source.joinpath(*rest[:depth]).with_suffix(".rt").read_text().split("\n")
    begin = next(k for k, line in enumerate(lines) if re.match(rf"(pub(\([a-z]+\))? )?(struct|enum|const) {wanted}\b", line))
    head = max((k for k in range(begin) if not lines[k]), default=-1)
    end = begin if lines[begin].endswith((";", "}")) else lines.index("}", begin)
    kept = [line for line in lines[head + 1 : begin] if line.startswith("///")]
    return crate, kept + [line for line in lines[begin:end + 1] if not line.lstrip().startswith("#[")]


def without_marks(lines):
    """A comment as a sentence."""
    return " ".join(line.removeprefix("--").strip() for line in lines if not line.startswith("-- --"))


def aliases(specs, spec, definitions):
    """The names that these definitions use for a definition of another name."""
    used = {word for definition in definitions for word in definition.words()}
    for word in sorted(used & set(spec.uses)):
        module, name = spec.uses[word]
        if module in specs and name != word:
            yield f"`{word}` is `{name}` of {specs[module].crate}, {specs[module].path}."


def plain(line):
    """A line of a definition without the words that say only how the prover treats it, and who may name it."""
    return re.sub(r"^( *)(?:(?:pub|abbrev|unfoldable|opaque) )+", r"\1", line)


def printed(specs, spec, names):
    """A file's part of the first list: what it is about, and these of its definitions in full."""
    definitions = [definition for definition in spec.definitions.values() if definition.name in names]
    lines = [f"**{spec.path}**: {without_marks(spec.about)}", *aliases(specs, spec, definitions), "", "```"]
    for definition in definitions:
        comment = [line for line in definition.comment if not line.startswith("-- --")]
        lines += [*comment, *map(plain, definition.lines), ""]
    return [*lines[:-1], "```", ""]


def first_part(specs, met):
    """All that the headline rests on, by crates in the order of the data, and in a crate from the top down."""
    types = {}
    for module, name in met:
        if ".declared." in module:
            crate, lines = declaration(module, name)
            types.setdefault(crate, {})["\n".join(lines)] = True
    page = []
    for crate, (title, about) in sections(specs).items():
        files = list(dict.fromkeys(module for module, _ in met if module in specs and specs[module].crate == crate))
        if not files and crate not in types:
            continue
        page += [f"## {title} ({crate})", "", about, ""]
        if crate in types:
            page += ["```rust", *"\n\n".join(sorted(types[crate], key=lambda text: text.split("\n")[-1] == "}")).split("\n"), "```", ""]
        for module in files:
            page += printed(specs, specs[module], {name for other, name in met if other == module})
    return page


def other_part(specs, met):
    """The index of all other definitions."""
    page = []
    for crate, (title, _) in sections(specs).items():
        rows = []
        for spec in sorted(specs.values(), key=lambda spec: (spec.is_inner, spec.key)):
            for definition in spec.definitions.values():
                if spec.crate == crate and (spec.key, definition.name) not in met:
                    mark = "*inner*: " if spec.is_inner else ""
                    rows.append(f"| `{definition.name}` | {spec.path} | {mark}{without_marks(definition.comment)} |")
        if rows:
            page += [f"### {title} ({crate})", "", "| definition | file | what it is |", "|---|---|---|", *rows, ""]
    return page


def page():
    specs = read_specs()
    met = reached(specs)
    definitions = [specs[module].definitions[name] for module, name in met if module in specs]
    count, lines = len(definitions), sum(len(definition.lines) for definition in definitions)
    parts = [INTRODUCTION.format(count=count, lines=f"{lines:,}"), *first_part(specs, met), OTHERS, *other_part(specs, met)]
    return "\n".join(parts).rstrip("\n") + "\n"


def main():
    text = page()
    if "--check" in sys.argv[1:]:
        if PAGE.read_text() != text:
            sys.exit("docs/definitions.md is not up to date: run docs/definitions.py")
        return
    PAGE.write_text(text)


if __name__ == "__main__":
    main()
