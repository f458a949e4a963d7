#!/usr/bin/env python3
"""docs/promises.py: tells which calls and clauses the tables of docs/promises.md name that the code does not have, and writes
its table of wrong bodies anew. With --check it writes nothing and tells whether that table is up to date."""
import re
import sys
from pathlib import Path

ROOT = Path(__file__).resolve().parent.parent
PAGE = ROOT / "docs" / "promises.md"
FUNCTION = re.compile(r"\s*(?:pub(?:\([a-z]+\))? )?(?:const )?(?:unsafe )?fn (\w+)")
CLAUSE = re.compile(r"\s*ensures\*? (\w+) \*?\{")
NAME = re.compile(r"`([^`]+)`")
WRONG = "| crate | wrong bodies |\n|---|---|\n"


def clauses_of_functions():
    """The names of the clauses of all functions that have a name, whatever their types."""
    found = {}
    for path in sorted((ROOT / "crates").glob("*/src/**/*.rt")):
        clauses = set()
        for line in path.read_text().split("\n"):
            if function := FUNCTION.match(line):
                clauses = found.setdefault(function[1], set())
            elif clause := CLAUSE.match(line):
                clauses.add(clause[1])
    return found


def functions_in(cell):
    """The functions that a cell names, as in `Net::check` and `pim_graph::{usage, order}`."""
    for name in NAME.findall(cell):
        yield from re.findall(r"\w+", name.rsplit("::", 1)[-1])


def misfits(page):
    """What the tables of the page name that is not there."""
    functions, missing = clauses_of_functions(), []
    for line in page.split("\n"):
        cells = line.strip("|").split(" | ")
        if not line.startswith("| ") or cells[0].strip() in ("promise", "law", "crate"):
            continue
        if cells[0].strip().startswith("pim_"):
            continue
        calls = list(functions_in(cells[1])) if len(cells) == 3 else ["pim", "no_memory"]
        known = set().union(*(functions.get(call, set()) for call in calls))
        missing += [f"{call} is no function" for call in calls if call not in functions]
        missing += [f"{', '.join(calls)} has no clause {name}" for name in NAME.findall(cells[-1])
                    if name not in known and name[0].islower() and name not in ("net_of",)]
    return missing


def with_wrong_bodies(page):
    """The page with the names of the edits that each crate refuses."""
    begin = page.index(WRONG) + len(WRONG)
    rows = []
    for folder in sorted((ROOT / "crates").glob("*/must-fail")):
        names = [path.stem.replace("_", " ") for path in sorted(folder.glob("*.edit"))]
        if names:
            rows.append(f"| {folder.parent.name} | {'; '.join(names)} |\n")
    return page[:begin] + "".join(rows) + page[page.index("\n\n", begin) + 1:]


def main():
    page = PAGE.read_text()
    missing = misfits(page)
    if missing:
        sys.exit("docs/promises.md does not fit the code:\n" + "\n".join(missing))
    if "--check" not in sys.argv[1:]:
        PAGE.write_text(with_wrong_bodies(page))
    elif page != with_wrong_bodies(page):
        sys.exit("docs/promises.md has not the wrong bodies of today: run docs/promises.py")


if __name__ == "__main__":
    main()
