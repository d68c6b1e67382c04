#!/usr/bin/env python3
"""Random days of a plant: no acknowledged value of a persistent symbol is lost.

    python3 tries/days.py PROGRAM [--days N] [--seconds S] [--seed K] [--steps N] [--jobs N] [--short]
    python3 tries/days.py PROGRAM --seed K --day N [--order STEP,STEP ..]

PROGRAM is the built adsd. A day is a folder with a description, a store and adsd, which saves each second, and some
ten random steps: clients write; a save is waited for; tools/deploy.py changes the description or takes the change back,
or is killed; descriptions are changed by hand; adsd is killed or stopped; the disk is full; the store is removed,
moved, replaced or damaged; its folder is renamed; a second daemon comes.

Each value that is written has a number of its own. Behind each step the latest acknowledged value of each path must be
found: in what the server answers (that, or a later one), in the store, in a copy beside it that the log has named, or
in a file of values that deploy.py has named. Behind a kill that is the latest that a save was due for. Where a fault
keeps a save from being made, the log must say so at level 3: then the value counts as told. What is found nowhere is
lost: it is told with the seed, the day and its steps, and the status is 1.

No day begins behind S seconds. `--day N` makes this one day alone, and tells its steps; `--order` makes these steps in
their order. Moments are not repeated, so a day may come otherwise the second time. `--short` is what the gate tries, in
20 seconds. Folders are disks of their own (tmpfs) where root may mount; else a full disk is a limit of the process.

Not tried: a bit that flips within a value (the store has no checksum); a store that somebody removes or replaces while
nothing runs, or in the second before a kill. A value that a client writes in the very moment in which deploy.py sets
the one of before may be overwritten: those are counted by themselves.
"""
import argparse
import collections
import concurrent.futures
import ctypes
import os
import subprocess
import sys
import tempfile
import time
import traceback

HERE = os.path.dirname(os.path.abspath(__file__))
sys.dont_write_bytecode = True
sys.path.insert(1, f"{sys.path[0]}/../tools")
import days_faults  # noqa: E402, F401
from days_daemon import Broken  # noqa: E402
from days_day import Day  # noqa: E402
from days_steps import STEPS  # noqa: E402

NEW_NAMESPACE, SIZE = 0x20000, "40m"


def has_of(program, disk):
    """What a program has of what the steps need."""
    said = subprocess.run([program, "--help"], capture_output=True, text=True, timeout=30).stdout
    has = {word: True for word in ("--store-damaged", "--keep-description") if word in said}
    if "--store-damaged" in said:
        has["store_file"] = True
    return {**has, "disk": disk}


def own_disks():
    """Lets this process mount disks that nobody else sees and that go with it; whether it may."""
    try:
        if ctypes.CDLL(None).unshare(NEW_NAMESPACE):
            return False
        subprocess.run(["mount", "--make-rprivate", "/"], check=True, capture_output=True)
        with tempfile.TemporaryDirectory(prefix="days-") as folder:
            mount(folder)
            subprocess.run(["umount", folder], check=True, capture_output=True)
        return True
    except (OSError, subprocess.CalledProcessError):
        return False


def mount(folder):
    subprocess.run(["mount", "-t", "tmpfs", "-o", f"size={SIZE}", "none", folder], check=True, capture_output=True)


class Told:
    """What came of a day."""

    def __init__(self, number):
        self.number, self.steps, self.findings, self.kinds, self.count, self.copies, self.dumps, self.longest = (
            number,
            [],
            [],
            [],
            {},
            0,
            0,
            0.0,
        )


def lived(program, has, seed, number, steps, order):
    """A day in a folder of its own."""
    told = Told(number)
    with tempfile.TemporaryDirectory(prefix="days-") as folder:
        if has["disk"]:
            mount(folder)
        try:
            live(told, program, has, f"{seed}-{number}", folder, steps, order)
        finally:
            if has["disk"]:
                subprocess.run(["umount", "-l", folder], check=False, capture_output=True)
    return told


def live(told, program, has, seed, folder, steps, order):
    day = None
    try:
        day = Day(program, has, seed, folder)
        told.steps = day.told
        rows = {name: it for name, it in STEPS.items() if it[2] is None or it[2] in has}
        names = order or day.chance.choices(list(rows), [it[1] for it in rows.values()], k=steps)
        for name in names:
            told.kinds.append(name)
            day.told.append(f"({name} ..)")
            day.told[-1] = f"{name}: {STEPS[name][0](day)}"
            day.look()
            if day.findings:
                break
        day.stop()
    except Broken as broken:
        day and day.found(str(broken))
        told.findings += [] if day else [str(broken)]
    except Exception as fault:
        told.findings.append("".join(traceback.format_exception(type(fault), fault, fault.__traceback__))[-1500:])
    finally:
        if day:
            if day.daemon and day.daemon.process.poll() is None:
                day.daemon.kill()
            told.findings = day.findings + told.findings
            told.count, told.copies, told.dumps, told.longest = (
                day.written.count,
                len(day.beside.copies),
                len(day.beside.dumps),
                day.longest,
            )


DISK = [None]


def begin():
    """A process that makes days."""
    DISK[0] = own_disks()


def one(program, seed, number, steps, order):
    return lived(program, has_of(program, DISK[0]), seed, number, steps, order)


def tell(told, seed, whole):
    if whole or told.findings:
        print(f"day {told.number} of seed {seed}:", file=sys.stderr)
        for line in told.steps:
            print(f"  {line}", file=sys.stderr)
        for line in told.findings:
            print(f"  WRONG: {line}", file=sys.stderr, flush=True)


class Sum:
    """What came of many days."""

    def __init__(self):
        self.values, self.kinds, self.wrong, self.days, self.copies, self.dumps, self.longest = (
            collections.Counter(),
            collections.Counter(),
            0,
            0,
            0,
            0,
            0.0,
        )

    def add(self, told):
        self.values.update(told.count)
        self.kinds.update(told.kinds)
        self.days, self.wrong, self.longest = (
            self.days + 1,
            self.wrong + bool(told.findings),
            max(self.longest, told.longest),
        )
        self.copies, self.dumps = self.copies + told.copies, self.dumps + told.dumps

    def said(self, seconds):
        it, steps = self.values, ", ".join(f"{number} {name}" for name, number in sorted(self.kinds.items()))
        return (
            f"{self.days} days in {seconds:.0f} s, {sum(self.kinds.values())} steps ({steps}); "
            f"{it['written']} values written, {it['overtaken']} of them in the moment in which deploy.py set the one "
            f"of before; the longest wait for a save {self.longest:.1f} s; values looked for and found in the server "
            f"{it['server']}, in {self.copies} copies {it['copy']}, in {self.dumps} files of deploy.py {it['dump']}, "
            f"in the store {it['store']}; told {it['told']}, lost {it['lost']}; {self.wrong} days with a fault"
        )


def days(given, program, numbers):
    """Makes the days beside each other; what came of them."""
    came = Sum()
    until, order = time.monotonic() + given.seconds, given.order.split(",") if given.order else None
    with concurrent.futures.ProcessPoolExecutor(given.jobs, initializer=begin) as pool:
        waiting, left = set(), iter(numbers)
        while True:
            while len(waiting) < given.jobs and time.monotonic() < until:
                number = next(left, None)
                if number is None:
                    break
                waiting.add(pool.submit(one, program, given.seed, number, given.steps, order))
            if not waiting:
                break
            done, waiting = concurrent.futures.wait(waiting, return_when=concurrent.futures.FIRST_COMPLETED)
            for it in done:
                told = it.result()
                tell(told, given.seed, given.day is not None)
                came.add(told)
    return came


def main():
    given = argparse.ArgumentParser()
    given.add_argument("program")
    given.add_argument("--days", type=int, default=1000)
    given.add_argument("--seconds", type=float, default=86400)
    given.add_argument("--seed", default="1")
    given.add_argument("--steps", type=int, default=10)
    given.add_argument("--jobs", type=int, default=8)
    given.add_argument("--day", type=int)
    given.add_argument("--order", default="")
    given.add_argument("--short", action="store_true")
    given = given.parse_args()
    program, odd = os.path.abspath(given.program), [
        name for name in given.order.split(",") if name and name not in STEPS
    ]
    if os.path.isdir(program) or not os.access(program, os.X_OK):
        sys.exit(f"days.py: {given.program} is no program: name the adsd that was built")
    if odd:
        sys.exit(f"days.py: --order has steps of {', '.join(STEPS)}, and {odd[0]!r} is none")
    if given.short:
        given.days, given.seconds, given.jobs, given.steps = 16, 8, 8, 6
    os.nice(5)
    began = time.monotonic()
    numbers = [given.day] if given.day is not None else range(1, given.days + 1)
    came = days(given, program, numbers)
    print(came.said(time.monotonic() - began))
    return 1 if came.wrong else 0


if __name__ == "__main__":
    sys.exit(main())
