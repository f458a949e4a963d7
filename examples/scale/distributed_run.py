#!/usr/bin/python3
"""distributed_run.py SCHEDULER PIM PROGRAM VECTORS RESULTS: `pim run` over the workers of a dask cluster.

The vectors are cut into blocks of whole lines. Each block is a task: a worker gives it to `pim run` and hands back the lines of
results, which are written in the order of the blocks. A task whose worker dies is run again by the scheduler on another one.
It needs dask.distributed (Debian: python3-distributed), and PIM and PROGRAM at the same paths on every worker.
"""
import subprocess
import sys
from collections import deque

from distributed import Client, progress

LINES = 100_000  # of a block; one `pim run` takes at most 1,048,576 lines and 64 MiB
AHEAD = 64  # blocks that are on their way at a time, so that neither side holds all of them


def run(pim, program, lines):
    """The results of a block; an exception with pim's own note where it refuses a line."""
    done = subprocess.run([pim, "run", program], input=lines, capture_output=True)
    if done.returncode:
        raise RuntimeError(f"status {done.returncode}: {done.stderr.decode(errors='replace').strip()}")
    return done.stdout


def blocks(file):
    """The file in pieces of so many lines."""
    while lines := b"".join(line for _, line in zip(range(LINES), file)):
        yield lines


def main(scheduler, pim, program, vectors, results):
    with Client(scheduler) as client, open(vectors, "rb") as source, open(results, "wb") as sink:
        waiting = deque()
        for lines in blocks(source):
            waiting.append(client.submit(run, pim, program, lines, pure=False, retries=3))
            if len(waiting) == AHEAD:
                sink.write(waiting.popleft().result())
        progress(list(waiting))
        while waiting:
            sink.write(waiting.popleft().result())


if __name__ == "__main__":
    main(*sys.argv[1:])
