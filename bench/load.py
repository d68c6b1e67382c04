#!/usr/bin/env python3
"""Time of `ads load N`, beside a plain Rust program that does the same work (bench/plain_load.rs).

    python3 bench/load.py [PROGRAM]      crates/ads/out/ads where it is absent; rustc builds the plain one

Both make a description and a script of N requests by four clients, read them back, play them and print the counts,
which must be the same lines. Times are processor times, the least of five runs, and the greatest memory. `load 100000`
is to take at most twice the time of the plain program; N of 25,000, 50,000 and 100,000 show whether the time is linear.
"""
import os
import subprocess
import sys
import tempfile

sys.dont_write_bytecode = True
sys.path.insert(1, f"{sys.path[0]}/../tries")
from timed import program_of  # noqa: E402
from under_test import ADS, ROOT  # noqa: E402


def run(words):
    """The line that a program prints, its processor time in seconds and its greatest memory in MB."""
    read, write = os.pipe()
    pid = os.fork()
    if pid == 0:
        os.dup2(write, 1)
        os.dup2(os.open(os.devnull, os.O_WRONLY), 2)
        os.execv(words[0], words)
    os.close(write)
    with os.fdopen(read) as out:
        text = out.read()
    _, status, used = os.wait4(pid, 0)
    if status != 0:
        sys.exit(f"{words} ended with {status}")
    return text, used.ru_utime + used.ru_stime, used.ru_maxrss / 1024


def least(words):
    runs = [run(words) for _ in range(5)]
    return runs[0][0], min(r[1] for r in runs), max(r[2] for r in runs)


def main(words):
    program = program_of(words, ADS)
    with tempfile.TemporaryDirectory() as folder:
        plain = os.path.join(folder, "plain_load")
        subprocess.run(["rustc", "-O", "-o", plain, str(ROOT / "bench/plain_load.rs")], check=True)
        print("N | ads, s | plain, s | ratio | ads, MB | plain, MB")
        for n in (25000, 50000, 100000):
            text, seconds, memory = least([program, "load", str(n)])
            other, plain_seconds, plain_memory = least([plain, str(n)])
            if text != other:
                sys.exit(f"load {n}: {text!r}, but the plain program counts {other!r}")
            print(f"{n} | {seconds:.3f} | {plain_seconds:.3f} | {seconds / plain_seconds:.2f} | {memory:.0f} | "
                  f"{plain_memory:.0f}")


if __name__ == "__main__":
    main(sys.argv[1:])
