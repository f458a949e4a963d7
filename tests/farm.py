#!/usr/bin/env python3
"""tests/farm.py BIN [LINES]: ten million vectors on the workers of a dask cluster, one of which is ended on the way.

It compiles the comparator of examples/, runs LINES vectors in every way that examples/scale/README.md shows, compares the bytes, and
prints the seconds of each. It needs dask.distributed and GNU parallel (Debian: python3-distributed, parallel).
"""
import json
import shutil
import signal
import subprocess
import sys
import tempfile
import time
from pathlib import Path

sys.dont_write_bytecode = True

from program import ROOT, Program, equal

BLOCK = 1_000_000  # lines of one plain `run`
PATIENCE = 300
DASK_PYTHON = "/usr/bin/python3"  # Debian's, for which python3-distributed is installed
WAIT = "import sys; from distributed import Client; Client(sys.argv[1]).wait_for_workers(int(sys.argv[2]), timeout=60)"


def have_dask():
    """Whether a scheduler and workers can be started here."""
    return all(shutil.which(tool) for tool in ("dask-scheduler", "dask-worker"))


class Farm:
    """A scheduler on the loopback address and its workers, each a process of its own that nobody starts again."""

    def __init__(self, folder, workers):
        self.folder = folder
        self.scheduler = self.start("dask-scheduler", "--host", "127.0.0.1", "--port", "0", "--no-dashboard",
                                    "--scheduler-file", folder / "scheduler.json")
        self.address = self.told_address()
        self.workers = [self.start_worker(number) for number in range(workers)]

    def start(self, *words):
        return subprocess.Popen(words, cwd=self.folder, stdout=subprocess.DEVNULL, stderr=subprocess.DEVNULL)

    def start_worker(self, number):
        return self.start("dask-worker", self.address, "--no-nanny", "--no-dashboard", "--nthreads", "1", "--name", f"w{number}",
                          "--local-directory", self.folder / f"w{number}")

    def told_address(self):
        """The scheduler's address, once it has told it."""
        path = self.folder / "scheduler.json"
        for _ in range(600):
            if path.exists() and path.read_text().strip():
                return json.loads(path.read_text())["address"]
            time.sleep(0.1)
        raise AssertionError("the scheduler didn't begin within a minute")

    def wait_for_workers(self):
        """Returns when all workers have told the scheduler of themselves."""
        subprocess.run([DASK_PYTHON, "-c", WAIT, self.address, str(len(self.workers))], check=True, timeout=90)

    def kill_one(self):
        """Ends a worker as a broken machine would."""
        self.workers[0].send_signal(signal.SIGKILL)
        self.workers[0].wait()

    def __enter__(self):
        return self

    def __exit__(self, *_):
        for process in [*self.workers, self.scheduler]:
            process.kill()
            process.wait()


class Work:
    """A program and a file of vectors in a folder, and the results of plain `run`s of blocks, one after another."""

    def __init__(self, pim, folder, lines):
        self.pim, self.folder = pim, folder
        self.program, self.vectors = folder / "compare4.pim", folder / "vectors"
        netlist = (ROOT / "examples" / "compare4.blif").read_bytes()
        self.program.write_bytes(pim("compile", "--target", "magic", "--cells", "64", stdin=netlist).output)
        some = (ROOT / "examples" / "compare4.vectors").read_bytes() * 100  # 25,600 lines, in no round number of blocks
        with self.vectors.open("wb") as file:
            whole, rest = divmod(lines, 25_600)
            for _ in range(whole):
                file.write(some)
            file.write(some[:9 * rest])

    def plain(self):
        """One `run` after another, a million lines each."""
        results = []
        with self.vectors.open("rb") as file:
            while block := file.read(9 * BLOCK):
                results.append(self.pim("run", self.program, stdin=block).output)
        return b"".join(results)

    def parallel(self):
        command = ["parallel", "-k", "--pipe-part", "-a", self.vectors, "--block", "4M", self.pim.path, "run", self.program]
        return subprocess.run(command, stdout=subprocess.PIPE, check=True, timeout=PATIENCE).stdout

    def distributed(self, farm, ended):
        """By the script of examples/scale; with `ended` a worker is ended as soon as the first results are there."""
        results = self.folder / "results"
        results.unlink(missing_ok=True)
        script = ROOT / "examples" / "scale" / "distributed_run.py"
        words = [script, farm.address, self.pim.path, self.program, self.vectors, results]
        done = subprocess.Popen(words, stdout=subprocess.DEVNULL, stderr=subprocess.DEVNULL)
        while ended and done.poll() is None:
            if results.exists() and results.stat().st_size:
                farm.kill_one()
                break
            time.sleep(0.01)
        equal("the status of distributed_run.py", done.wait(PATIENCE), 0)
        return results.read_bytes()


def timed(name, action):
    begun = time.monotonic()
    result = action()
    print(f"{name:60} {time.monotonic() - begun:6.1f} s", flush=True)
    return result


def main(path, lines="10000000"):
    with tempfile.TemporaryDirectory() as name:
        folder = Path(name)
        work = Work(Program(path), folder, int(lines))
        wanted = timed("`pim run` of a million lines, one after another", work.plain)
        equal("what parallel gives", timed("GNU parallel, blocks of 4 MB", work.parallel), wanted)
        with Farm(folder, 5) as farm:
            farm.wait_for_workers()
            equal("what dask gives", timed("dask, five workers", lambda: work.distributed(farm, False)), wanted)
            equal("what dask gives", timed("dask, one of five workers ended", lambda: work.distributed(farm, True)), wanted)
            equal("whether the worker is gone", farm.workers[0].returncode, -signal.SIGKILL)
    print(f"{len(wanted)} bytes of results, the same in every way")


if __name__ == "__main__":
    main(*sys.argv[1:])
