#!/usr/bin/env python3
"""What `ads keep` costs: a tick after which nothing changed, with 10,000 persistent symbols, and a tick after which a
value is saved.

    python3 bench/keep_ticks.py PROGRAM [--ticks 1000]

PROGRAM is crates/ads/out/ads. A tick without a change is to cost at most 1 ms of the processor: the least of three runs
of so many ticks, less that of a run without ticks. A tick with a save is told for the disk of the working folder and
for memory (/dev/shm), with the processor's part of it: on a disk its syncs are to be all that it waits for.
"""
import argparse
import os
import pathlib
import subprocess
import sys
import tempfile
import time

sys.dont_write_bytecode = True
sys.path[1:1] = [f"{sys.path[0]}/../{room}" for room in ("model", "tools", "tries")]
import hostile  # noqa: E402
from timed import spent  # noqa: E402

SYMBOLS = 10_000


def described():
    head = ('schema = 1\nnet = "5.1.2.3.1.1"\n[[route]]\nnet = "192.168.0.9.1.1"\nrights = "control"\n[[port]]\nport = '
            '851\nname = "Kept"\nmajor = 3\nminor = 1\nbuild = 1\n')
    head += f"inputs = 0\noutputs = 0\nmemory = 0\ndata = {4 * SYMBOLS}\n"
    return head + "".join(f'[[port.symbol]]\nname = "Main.v{k}"\ntype = "UDINT"\narea = "data"\noffset = '
                          f'{4 * k}\npersistent = true\n' for k in range(SYMBOLS))


def script(ticks, changes):
    events = [("open", 1)]
    for k in range(ticks):
        events += [("bytes", 1, hostile.write(k + 1, 0x4040, 4 * (k % SYMBOLS),
                                              (k + 1).to_bytes(4, "little")))] if changes else []
        events.append(("tick", 100000 * (k + 1)))
    return "".join(line[2:] + "\n" for event in events for line in hostile.lines_of(event, ""))


def cost(program, folder, store, ticks, changes):
    """Seconds by the clock and of the processor."""
    (folder / "it.script").write_text(script(ticks, changes))
    if store.exists():
        store.unlink()
    before, began = spent(), time.monotonic()
    done = subprocess.run([program, "keep", "plant.toml", "it.script", str(store)], cwd=folder, stdout=subprocess.PIPE,
                          text=True)
    lasted, after = time.monotonic() - began, spent()
    if done.returncode:
        raise SystemExit(f"keep_ticks.py: status {done.returncode}, {done.stdout[-80:]!r}")
    return lasted, after - before


def main():
    given = argparse.ArgumentParser()
    given.add_argument("program")
    given.add_argument("--ticks", type=int, default=1000)
    given = given.parse_args()
    program = os.path.abspath(given.program)
    with tempfile.TemporaryDirectory(dir=".") as disk, tempfile.TemporaryDirectory(dir="/dev/shm") as memory:
        folder, store = pathlib.Path(disk).resolve(), pathlib.Path(memory) / "store"
        (folder / "plant.toml").write_text(described())
        def least(ticks): return min(cost(program, folder, store, ticks, False)[1] for _ in range(3))
        print(f"a tick without a change, {SYMBOLS:,} persistent symbols: "
              f"{1e3 * (least(given.ticks) - least(0)) / given.ticks:.3f} ms of the processor")
        for what, place in (("/dev/shm", store), ("the disk", folder / "store")):
            lasted, processor = cost(program, folder, place, given.ticks, True)
            print(f"a tick with a save, {place.stat().st_size:,} bytes of file, on {what}: "
                  f"{1e3 * lasted / given.ticks:.3f} ms, {1e3 * processor / given.ticks:.3f} ms of the processor")


if __name__ == "__main__":
    main()
