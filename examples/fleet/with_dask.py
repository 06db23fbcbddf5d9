#!/usr/bin/env python3
"""The traces of many files, counted by the workers of a Dask cluster: with_dask.py ADDRESS FILE.. [-- WORD..]

ADDRESS is that of a scheduler, as tcp://127.0.0.1:8786. Each file is a task, `whatif fleet --part`, run on a worker, to which the
path has to mean the same file; the summaries are joined as a tree, each join a task too; and the answer is asked of the last one. The
words behind `--` are options of `whatif fleet` for the parts, as `--by service`. WHATIF names the program, `whatif` where it is not
set. Needed are Dask's distributed scheduler and its Python client (Debian: python3-distributed)."""
import os
import subprocess
import sys

from distributed import Client

PROGRAM = os.environ.get("WHATIF", "whatif")
# How many summaries one task joins.
AT_ONCE = 8


def run(program, words, text=None):
    done = subprocess.run([program, "fleet", *words], input=text, capture_output=True, check=False)
    if done.returncode != 0:
        raise RuntimeError((done.stdout + done.stderr).decode())
    return done.stdout, done.stderr.decode()


def part(program, words, path):
    """The summary of a file's traces; what was told of them goes to the worker's own standard error."""
    summary, told = run(program, ["--part", *words, path])
    sys.stderr.write(told)
    return summary


def joined(program, summaries):
    """The join of summaries, each on a line."""
    return run(program, ["--join", "--part", "-"], b"".join(summaries))[0]


def main(words):
    options = words[words.index("--") + 1 :] if "--" in words else []
    address, *files = words[: words.index("--")] if "--" in words else words
    with Client(address) as client:
        summaries = [client.submit(part, PROGRAM, options, path, pure=False) for path in files]
        while len(summaries) > 1:
            some = (summaries[at : at + AT_ONCE] for at in range(0, len(summaries), AT_ONCE))
            summaries = [client.submit(joined, PROGRAM, it, pure=False) for it in some]
        sys.stdout.buffer.write(run(PROGRAM, ["--join", "-"], summaries[0].result())[0])


main(sys.argv[1:])
