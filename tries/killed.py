#!/usr/bin/env python3
"""Kills `ads keep` with SIGKILL at many moments, starts it again over what it left, and compares what the file stands
for with the bodies that the run may leave.

    python3 tries/killed.py PROGRAM [--times 1000] [--ticks 40] [--seed 1]

PROGRAM is the built `ads`. Each run writes a persistent symbol before each tick, so each tick saves; again and again it
is stopped, and a reader looks at the file. What stands is to be a body of the run by the model (model/store.py) or what
stood before, never one that is older than what was seen standing, and a run that ends prints what the model says. The
last run of each ten is let through. Killing a process leaves what it wrote to the system: what a loss of power leaves
is proved of the model of a disk, and not tried here.
"""
import argparse
import os
import random
import signal
import subprocess
import sys
import tempfile
import time

HERE = os.path.dirname(os.path.abspath(__file__))
sys.dont_write_bytecode = True
sys.path[1:1] = [f"{sys.path[0]}/../{room}" for room in ("model", "tools")]
import hostile  # noqa: E402
import store  # noqa: E402
from under_test import Differs  # noqa: E402

PLANT = os.path.join(hostile.DATA, "plant.toml")


def script_of(r, ticks):
    """Events that change the persistent symbol before each tick, and in between something else."""
    events = [("open", 1)]
    for k in range(ticks):
        events.append(("bytes", 1, hostile.write(k, 0x4040, 72, r.randbytes(8))))
        events += [("bytes", 1, hostile.state(k))] if r.random() < 0.3 else []
        events.append(("tick", k))
    return events


def read(path):
    """The bytes of the file; none where it is not there."""
    try:
        with open(path, "rb") as it:
            return it.read()
    except FileNotFoundError:
        return b""


def is_stopped(process):
    """Waits until it is stopped; False where it has ended."""
    while True:
        try:
            with open(f"/proc/{process.pid}/stat", errors="replace") as it:
                state = it.read().rpartition(")")[2].split()[0]
        except OSError:
            return False
        if state in "TZX":
            return state == "T"
        time.sleep(0.0001)


def try_once(program, folder, r, ticks, let_through):
    """One run; how it ended, and how many of its bodies had come to stand."""
    path, events = os.path.join(folder, "store"), script_of(r, ticks)
    with open(os.path.join(folder, "it.script"), "w") as it:
        it.write("".join(line[2:] + "\n" for event in events for line in hostile.lines_of(event, "")))
    before = read(path)
    status, text, bodies = store.kept(hostile.PLANT, hostile.SIGNALS, events, store.Disk(before))
    stood = store.standing_of(before)
    places = {body: k for k, body in enumerate(bodies)}
    process = subprocess.Popen([program, "keep", "plant.toml", "it.script", "store"], cwd=folder,
                               stdout=subprocess.PIPE, stderr=subprocess.DEVNULL)
    ends, seen = time.monotonic() + r.random() * try_once.lasts, 0
    while process.poll() is None and (let_through or time.monotonic() < ends):
        # It is stopped meanwhile: a file of a MiB that is read while it is written shows one slot before a save and the
        # other behind it.
        process.send_signal(signal.SIGSTOP)
        if is_stopped(process):
            seen = newest(read(path), stood, places, seen)
        process.send_signal(signal.SIGCONT)
        time.sleep(r.random() * 0.002)
    killed = process.poll() is None
    if killed:
        process.send_signal(signal.SIGKILL)
    out = process.communicate()[0].decode()
    seen = newest(read(path), stood, places, seen)
    if not killed and (process.returncode, out) != (status, text):
        raise Differs(f"status {process.returncode}, wanted {status}, and {out[-200:]!r}, wanted {text[-200:]!r}")
    if not killed and store.standing_of(read(path))[2] != bodies[-1]:
        raise Differs("the run ended, and its last body does not stand")
    return killed, seen


try_once.lasts = 0.2


def newest(given, stood, places, seen):
    """Which body of the run stands: none that is older than what was seen."""
    now = store.standing_of(given)
    if now is None:
        if stood or seen:
            raise Differs("nothing stands, where something stood")
        return 0
    if now[2] not in places:
        raise Differs(f"a body stands that is none of the run's: {now[2].hex()}")
    place = places[now[2]]
    if place < seen:
        raise Differs(f"body {place} stands, where {seen} stood")
    return place


def main():
    given = argparse.ArgumentParser()
    given.add_argument("program")
    given.add_argument("--times", type=int, default=1000)
    given.add_argument("--ticks", type=int, default=40)
    given.add_argument("--seed", type=int, default=1)
    given = given.parse_args()
    r, program = random.Random(given.seed), os.path.abspath(given.program)
    killed, places = 0, set()
    with tempfile.TemporaryDirectory() as folder:
        os.symlink(PLANT, os.path.join(folder, "plant.toml"))
        started = time.monotonic()
        try_once(program, folder, r, given.ticks, True)
        try_once.lasts = time.monotonic() - started
        for k in range(given.times):
            try:
                was, seen = try_once(program, folder, r, given.ticks, k % 10 == 9)
            except Differs as why:
                print(f"run {k}: {why}")
                return 1
            killed += was
            places.add(seen)
    print(f"{given.times} runs, {killed} killed, {len(places)} places at which a run stood still; each file stood for "
          f"a body of its run, and none came again")
    return 0


if __name__ == "__main__":
    sys.exit(main())
