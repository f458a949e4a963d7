#!/usr/bin/env python3
"""tests/run.py BIN [WORD ..]: tries the built program on real files, pipes and terminals.

It runs each function `test_..` of the files `test_*.py` beside it, and each case of the files in cases/ (README.md says how
a case is written). With WORDs it runs only what has one of them in its name. It prints what fails and what waits for
something that is not built yet. The last line is 'N passed, M failed', and the exit status is 1 where something failed.
"""
import sys

sys.dont_write_bytecode = True

import importlib
import tempfile
import time
from pathlib import Path

import cases
from program import Program

HERE = Path(__file__).resolve().parent


def functions():
    """The name and the function of each test of the files beside this one."""
    for path in sorted(HERE.glob("test_*.py")):
        module = importlib.import_module(path.stem)
        for name, function in list(vars(module).items()):
            if name.startswith("test_"):
                yield f"{path.name}: {name}", function


def attempt(action):
    """What is wrong: nothing where the action came to its end."""
    try:
        action()
    except AssertionError as fault:
        return str(fault) or "an assertion failed"
    except Exception as fault:
        return f"{type(fault).__name__}: {fault}"
    return None


def main():
    pim = Program(sys.argv[1])
    words = sys.argv[2:]
    passed = failed = waiting = 0
    begun = time.monotonic()

    def report(name, fault, waits=None):
        nonlocal passed, failed, waiting
        if fault and waits:
            waiting += 1
        elif fault or waits:
            failed += 1
            print(f"FAILED {name}\n    {fault or f'it passes, so its line «waits: {waits}» has to go'}", flush=True)
        else:
            passed += 1

    for name, function in functions():
        if words and not any(word in name for word in words):
            continue
        with tempfile.TemporaryDirectory() as folder:
            report(name, attempt(lambda: function(pim, Path(folder))))
    for case in cases.read_all(HERE / "cases"):
        if words and not any(word in case.name for word in words):
            continue
        with tempfile.TemporaryDirectory() as folder:
            report(case.name, attempt(lambda: case.run(pim, Path(folder))), case.waits)
    print(f"{waiting} cases wait for what is not built yet; {time.monotonic() - begun:.0f} seconds")
    print(f"{passed} passed, {failed} failed")
    return 1 if failed or not passed else 0


if __name__ == "__main__":
    sys.exit(main())
