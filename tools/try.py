#!/usr/bin/env python3
"""Tries every tool over the built program: a line for each with how much was looked at, and the sum. The status is 1 if a tool does not do what it should.

    python3 tools/try.py --quick [PROGRAM]

PROGRAM is crates/ads/out/ads unless it is named. `--quick` is what the gate runs: fewer random inputs and damaged files, in at most three minutes.
A try that fails beside the others is made once more by itself. `--seed N` is the seed of random inputs (1). `--only NAME` tries one tool; it may stand
more than once. A tool's try is tools/tries/of_NAME.py.
"""
import concurrent.futures
import importlib
import inspect
import os
import re
import sys
import time

HERE = os.path.dirname(os.path.abspath(__file__))
sys.path.insert(0, HERE)
from lib.program import program_at  # noqa: E402
from lib.words import Ended, number, read_words, run  # noqa: E402
from tries.running import Size, Wrong, looks  # noqa: E402

NAMES = sorted(found[1] for found in (re.fullmatch(r"of_(\w+)\.py", name) for name in os.listdir(os.path.join(HERE, "tries"))) if found)


def tried(name, program, size):
    """What a try says, whether the tool does what it should, and how often it was looked at what it does."""
    started, before = time.monotonic(), looks()
    try:
        its = importlib.import_module(f"tries.of_{name}").tried
        said, right = its(*(program, size)[:len(inspect.signature(its).parameters)]), True
    except Wrong as wrong:
        said, right = f"WRONG: {wrong}", False
    except Exception as fault:  # a try that breaks off must not hide the others
        said, right = f"WRONG: the try broke off: {type(fault).__name__}: {fault}", False
    count = looks() - before
    return f"{name}: {said} ({count} looks, {time.monotonic() - started:.1f} s)", right and count > 0, count


def main(words):
    (path,), options = read_words(words, __doc__, ["[PROGRAM]"], {"seed": "1", "only": [], "quick": False})
    program = program_at(path)
    size = Size(options["quick"], number(options["seed"], "--seed", 0, 10 ** 9))
    odd = [name for name in options["only"] if name not in NAMES]
    if odd:
        raise Ended(f"--only is one of {', '.join(NAMES)}, and {odd[0]!r} is none")
    names = options["only"] or NAMES
    again, total = [], 0
    with concurrent.futures.ProcessPoolExecutor(min(len(names), os.cpu_count() or 1)) as pool:
        for name, it in [(name, pool.submit(tried, name, program, size)) for name in names]:
            said, right, count = it.result()
            print(said, flush=True)
            again, total = again + ([] if right else [name]), total + count
    wrong = 0
    for name in again:
        # (peers have to answer in seconds, which a busy machine keeps them from; a fault of the tool comes again)
        said, right, count = tried(name, program, size)
        print(f"once more, by itself: {said}", flush=True)
        wrong, total = wrong + (not right), total + count
    print(f"{total} looks at {len(names)} tools, {wrong} of them wrong")
    return 1 if wrong else 0


if __name__ == "__main__":
    run(main)
