#!/usr/bin/env python3
"""A million samples over the link in the same process into memory: what they cost of the processor.

    python3 bench/million.py PROGRAM [--rows 1000000]

PROGRAM is crates/cases_run/out/cases_run, which plays `record .. --local ..` over a keeper in memory and compares the
status, the lines and every row with what must come (the moments are those of ticks of 10 ms). What reading the wanted
rows costs is measured by a run of another command beside the same text, and taken away; what is left is the recording,
the text of its rows and their comparison. It is to be under 5 s. Status 1 where a run ended otherwise, or it costs
more.
"""
import argparse
import os
import pathlib
import subprocess
import sys
import tempfile

from timed import spent

HERE = pathlib.Path(__file__).resolve().parent
DATA = HERE.parent / "crates/cases_run/data"
# How often cases_run tries each run.
TIMES = 2


def seconds_of(program, folder, run):
    """Seconds of the processor for one run, which must go as wanted."""
    (folder / "one.runs").write_text(run)
    (folder / "runs.txt").write_text("one.runs\n")
    before = spent()
    done = subprocess.run([program, str(folder)], stdout=subprocess.PIPE, text=True)
    took = spent() - before
    if done.returncode or done.stdout != "runs as wanted 1, differing 0, unreadable 0\n" * TIMES:
        raise SystemExit(f"million.py: status {done.returncode}, {done.stdout[:400]!r}")
    return took / TIMES


def main():
    given = argparse.ArgumentParser()
    given.add_argument("program")
    given.add_argument("--rows", type=int, default=1_000_000)
    given = given.parse_args()
    program, count = os.path.abspath(given.program), given.rows
    with tempfile.TemporaryDirectory() as folder:
        folder, rows = pathlib.Path(folder), ""
        (folder / "plant.toml").write_bytes((DATA / "plant.toml").read_bytes())
        # No file is longer than 16 MiB.
        for part, first in enumerate(range(1, count + 1, 250_000)):
            last = min(count, first + 249_999)
            (folder / f"rows{part}").write_text("".join(f"{k} Main.count {100000 * k} x2a000000\n"
                                                        for k in range(first, last + 1)))
            rows += f"from rows{part}\n"
        plant = "file plant.toml\nfrom plant.toml\n"
        words = (f"words record Main.count --mode cycle --cycle 0 --count {count} --store s --local plant.toml --me "
                 f"192.168.0.9.1.1\n")
        record = (f"# {count} samples in the same process.\n{words}{plant}status 0\nout\n| Main.count count {count} "
                  f"last {100000 * count} 42\nrows\n{rows}")
        beside = (f"# The same text beside a command that does nothing with it.\nwords selftest it.script\nfile "
                  f"it.script\nfile rows\n{rows}status 0\nout\n| connections 0 requests 0 replies 0 samples 0 reloads "
                  f"0 0\n")
        text, whole = (min(seconds_of(program, folder, run) for _ in range(3)) for run in (beside, record))
    print(f"{count:,} samples into memory: {whole - text:.2f} s of the processor ({whole:.2f} with the reading of the "
          f"wanted rows)")
    return 1 if whole - text >= 5 * count / 1_000_000 else 0


if __name__ == "__main__":
    sys.exit(main())
