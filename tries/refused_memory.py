#!/usr/bin/env python3
"""Refused memory: each call for memory of a run fails in turn, alone and with all behind it, and the run must end as it
does with memory, or with status 10; and then what it printed is a beginning of what it prints with memory, and behind
it a beginning of `ads: memory`. The file of a run that keeps values must stand for what stood, or for what the run
saves; that of a run that records must have the rows that stood and a first part of those of the whole run, with their
totals, as Python's sqlite3 reads them.

    python3 tries/refused_memory.py [--program PATH] [--most N] [--run WORD]
    python3 tries/refused_memory.py --adsd PATH [--most N] [--run WORD]
        runs of the daemon, of tries/refused_daemon.py

Build the program first: in crates/ads, `rt run -- selftest ../../examples/state.script`. The runs are those below; of
one with more than N calls for memory (2,000 unless told) every k-th fails. It prints a table, and ends with 1 where
anything else came.
"""
import argparse
import os
import shutil
import socket
import sqlite3
import subprocess
import sys
import tempfile
import threading

sys.dont_write_bytecode = True
sys.path[1:1] = [f"{sys.path[0]}/../{room}" for room in ("model", "tools")]
import hostile  # noqa: E402
import protocol  # noqa: E402
import recorded  # noqa: E402
import store  # noqa: E402
from hostile import add, ask, head, read, state, sum_of, write  # noqa: E402
from under_test import ADS, ROOT, Differs, preload  # noqa: E402

LINE = b"ads: memory\n"
NAME = b"Main.count"
RECORD = ["record", "Main.wave", "Main.count", "--mode", "change", "--cycle", "0", "--count", "4", "--store"]
LOCAL = ["--local", "plant.toml", "--me", "192.168.0.9.1.1"]
WATCH = ["watch", "Main.wave", "--mode", "change", "--cycle", "0", "--count", "3"]
RUNS = {
    "a panel, a rig, and a plant that is described anew": ["replay", "plant.toml", "plant.script"],
    "the state over the built-in description": ["selftest", "state.script"],
    "a notification over ticks and writes": ("plant", [
        ("open", 1), ("bytes", 1, add(1, 0x4040, 0, 4)), ("tick", 1000), ("bytes", 1, write(2, 0x4040, 0, b"\5\0\0\0")),
        ("tick", 2000), ("tick", 3000)]),
    "sums of each kind": ("plant", [
        ("open", 1), ("bytes", 1, sum_of(1, 0xF080, 3, 26,
                                         head(0x4040, 0, 4) + head(0x4040, 200, 2) + head(0x4025, 0, 8))),
        ("bytes", 1, sum_of(2, 0xF081, 2, 8, head(0x4040, 0, 1) + head(0x4040, 60, 1), b"\1\2")),
        ("bytes", 1, sum_of(3, 0xF082, 2, 24, head(0xF003, 0, 4, 10) * 2, NAME * 2))]),
    "a reload under handles and notifications": ("plant", [
        ("open", 1), ("bytes", 1, ask(1, 0xF003, 0, 4, NAME)), ("bytes", 1, add(2, 0x4040, 0, 4)),
        ("bytes", 1, add(3, 0x4040, 72, 8)), ("tick", 1000),
        ("reload", hostile.PLANT2), ("tick", 2000), ("bytes", 1, read(4, 0xF005, 1, 4))]),
    "two connections, and offers that are cut": ("plant", [
        ("open", 1), ("open", 2), ("room", 1, 10), ("bytes", 1, state(1) + state(2)), ("bytes", 2, state(3)),
        ("fail", 2), ("bytes", 2, state(4)), ("room", 1, 1000)]),
    "the report of a description": ["check", "plant.toml"],
    "a description under schema 2": ["migrate", "plant.toml"],
    "a load of 20 requests": ["load", "20"],
    "a relay between a panel and a rig": ["relay", "plant.toml", "relay.script"],
    "values that are kept, where nothing stood": ["keep", "plant.toml", "keep.script", "none.store"],
    "values that are kept, and come back": ["keep", "plant.toml", "change.script", "some.store"],
    "samples that are recorded into a new file": [*RECORD, "none.db", *LOCAL],
    "samples that are recorded on top of others": [*RECORD, "some.db", *LOCAL],
    "samples that are recorded over a socket": ["record", "Main.wave", *RECORD[3:], "none.db", "--to", "PEER",
                                                "--netid", "5.1.2.3.1.1", "--me", "192.168.0.9.1.1"],
    **{f"a client in the same process: {said}": [*words, "--local", "plant.toml", "--me", "192.168.0.9.1.1"] for said,
       words in {
        "name and version": ["info"], "the states": ["state"], "other states": ["control", "6", "0"],
        "a value": ["get", "Main.title"], "a value that is set": ["set", "Main.count", "7"], "a list": ["list"],
        "the leaves of an array": ["show", "Main.axis"],
        "three samples": WATCH, "a refusal": ["get", "Main.nope"],
        "a text that is no value": ["set", "Main.count", "x"]}.items()},
    **{f"a client over a socket: {said}": [*words, "--to", "PEER", "--netid", "5.1.2.3.1.1", "--me", "192.168.0.9.1.1"]
       for said, words in {
        "the states": ["state"], "a value": ["get", "Main.title"], "a value that is set": ["set", "Main.count", "7"],
        "a list": ["list"], "the leaves of an array": ["show", "Main.axis"],
        "three samples": WATCH, "a refusal": ["get", "Main.nope"]}.items()},
    "a description that is refused": ["check", "overlap.toml"],
    "words that are no command": ["replay"],
}


class Peer(threading.Thread):
    """A server by the model, on a port of its own: a device anew for each connection, which ticks where something is
    watched and nothing is asked for a while."""

    def __init__(self):
        super().__init__(daemon=True)
        self.listener = socket.create_server(("127.0.0.1", 0))
        self.where = f"127.0.0.1:{self.listener.getsockname()[1]}"

    def run(self):
        while True:
            with self.listener.accept()[0] as conn:
                conn.settimeout(0.002)
                try:
                    self.talk(conn)
                except OSError:
                    pass

    @staticmethod
    def talk(conn):
        server = protocol.Server(hostile.PLANT, hostile.SIGNALS)
        protocol.turn(server, ("open", 1), [])
        while True:
            lines = []
            try:
                given = conn.recv(65536)
                if not given:
                    return
                protocol.turn(server, ("bytes", 1, given), lines)
            except TimeoutError:
                if server.conns[1].watches:
                    protocol.turn(server, ("tick", server.moment + 100000), lines)
            conn.sendall(b"".join(bytes.fromhex(line.split()[2]) for line in lines if line.startswith("out ")))


def written(folder):
    """The files of the runs, and the words of each."""
    for name in ("plant.toml", "plant.script", "state.script", "overlap.toml", "relay.script", "keep.script"):
        with open(ROOT / "examples" / name, "rb") as one, open(os.path.join(folder, name), "wb") as it:
            it.write(one.read())
    for name in ("plant.toml", "plant2.toml"):
        with open(os.path.join(hostile.DATA, name), "rb") as one, open(os.path.join(folder, "of_data_" + name),
                                                                       "wb") as it:
            it.write(one.read())
    with open(os.path.join(folder, "change.script"), "w") as it:
        it.write("".join(line[2:] + "\n" for event in CHANGES for line in hostile.lines_of(event, "")))
    words = {}
    for number, (said, run) in enumerate(RUNS.items()):
        if isinstance(run, tuple):
            with open(os.path.join(hostile.DATA, "plant2.toml")) as one:
                second = one.read()
            lines = []
            for event in run[1]:
                lines += ["reload", *second.splitlines(), "."] if event[0] == "reload" else [
                    line[2:] for line in hostile.lines_of(event, "")]
            with open(os.path.join(folder, f"{number}.script"), "w") as it:
                it.write("\n".join(lines) + "\n")
            run = ["replay", "of_data_plant.toml", f"{number}.script"]
        words[said] = run
    return words


def saved(*values):
    """Events that write these bytes to the persistent symbol, each before a tick."""
    return [("open", 1)] + [event for k, value in enumerate(values)
                            for event in (("bytes", 1, write(k, 0x4040, 72, value)), ("tick", k))]


STOOD = store.Disk()
store.kept(hostile.PLANT, hostile.SIGNALS, saved(b"\x41"), STOOD)
STORES = {"none.store": b"", "some.store": bytes(STOOD.file)}
CHANGES = saved(b"\x42", b"\x43")
BODIES = {
    "none.store": store.kept(hostile.PLANT, hostile.SIGNALS, saved(b"Hi" + bytes(6)), store.Disk())[2],
    "some.store": store.kept(hostile.PLANT, hostile.SIGNALS, CHANGES, store.Disk(STORES["some.store"]))[2],
}


def rows_in(folder, name):
    """The rows of a file of samples, which is whole; none where it is not there, or has no table."""
    path = os.path.join(folder, name)
    if not os.path.exists(path):
        return []
    try:
        return recorded.whole(path)
    except sqlite3.OperationalError as fault:
        if "no such table" not in str(fault):
            raise
        return []


def records_well(folder, words, before, all_rows):
    """Whether the file of a recording has the rows that stood, and a first part of the others."""
    if words[0] != "record":
        return True
    try:
        rows = rows_in(folder, words[words.index("--store") + 1])
    except (Differs, sqlite3.Error):
        return False
    return len(rows) >= before and rows == all_rows[:len(rows)]


def stands_well(folder, words):
    """Whether the file of a run that keeps values stands for what stood, or for what the run saves."""
    if words[0] != "keep":
        return True
    try:
        with open(os.path.join(folder, words[3]), "rb") as it:
            standing = store.standing_of(it.read())
    except FileNotFoundError:
        standing = None
    return (standing and standing[2]) in BODIES[words[3]]


def ran(program, words, folder, shim, nth, on):
    """The status, what was printed, and how many calls for memory there were."""
    tell = os.path.join(folder, "calls")
    for name, file in STORES.items():
        with open(os.path.join(folder, name), "wb") as it:
            it.write(file)
    for name in ("none.db", "some.db"):
        for end in ("", "-wal", "-shm"):
            if os.path.exists(os.path.join(folder, name + end)):
                os.remove(os.path.join(folder, name + end))
            if os.path.exists(os.path.join(folder, "kept_" + name + end)):
                shutil.copy(os.path.join(folder, "kept_" + name + end), os.path.join(folder, name + end))
    with open(tell, "wb") as it:
        it.write(bytes(8))
    given = {"LD_PRELOAD": shim, "FAIL_NTH": str(nth), "FAIL_TELL": tell, **({"FAIL_ON": "1"} if on else {})}
    it = subprocess.run([program, *words], cwd=folder, env=given, stdout=subprocess.PIPE, stderr=subprocess.DEVNULL,
                        timeout=60)
    with open(tell, "rb") as one:
        return it.returncode, it.stdout, int.from_bytes(one.read(8), "little")


def fits(status, out, usual):
    """Whether a run that lacked memory ended as it may."""
    if (status, out) == usual:
        return True
    if status != 10:
        return False
    return any(out == usual[1][:cut] + LINE[:end] for cut in range(len(usual[1]) + 1) for end in (len(out) - cut,
               ) if 0 <= end <= len(LINE))


def main():
    it = argparse.ArgumentParser(description=__doc__, formatter_class=argparse.RawDescriptionHelpFormatter)
    it.add_argument("--program", default=ADS)
    it.add_argument("--most", type=int, default=2000)
    it.add_argument("--run", default="", help="only the runs whose name has this word")
    it.add_argument("--adsd")
    given = it.parse_args()
    program, wrong = os.path.abspath(given.program), 0
    print("| run | calls for memory | failed in turn | as usual | status 10 | wrong |\n|---|---|---|---|---|---|",
          flush=True)
    if given.adsd:
        import refused_daemon  # noqa: PLC0415
        with tempfile.TemporaryDirectory() as folder:
            shims = [preload(folder, "tries/fail_nth.c"), preload(folder, "tries/set_clocks.c")]
            return 1 if refused_daemon.main(os.path.abspath(given.adsd), shims, given.most, given.run) else 0
    peer = Peer()
    peer.start()
    with tempfile.TemporaryDirectory() as folder:
        shim = preload(folder, "tries/fail_nth.c")
        subprocess.run([program, *RECORD, "kept_some.db", "--local",
                        os.path.join(hostile.DATA, "..", "..", "..", "examples", "plant.toml"), *LOCAL[2:]], cwd=folder,
                       stdout=subprocess.DEVNULL, check=True)
        stood = len(rows_in(folder, "kept_some.db"))
        for said, words in written(folder).items():
            if given.run not in said:
                continue
            words = [peer.where if word == "PEER" else word for word in words]
            status, out, calls = ran(program, words, folder, shim, 0, False)
            rows = rows_in(folder, words[words.index("--store") + 1]) if words[0] == "record" else []
            before = stood if "some.db" in words else 0
            counts, bad, tried = {True: 0, False: 0}, 0, 0
            for nth in range(1, calls + 1, -(-calls // given.most) or 1):
                for on in (False, True):
                    one, printed, _ = ran(program, words, folder, shim, nth, on)
                    tried += 1
                    counts[one == 10] += 1
                    if not fits(one, printed, (status, out)) or not stands_well(folder, words) or not records_well(
                        folder, words, before, rows):
                        bad += 1
                        print(f"  {' '.join(words)}, call {nth}{' and all behind it' if on else ''}: status {one}, "
                              f"{len(printed)} bytes", file=sys.stderr)
            wrong += bad
            print(f"| {said} | {calls} | {tried} | {counts[False]} | {counts[True]} | {bad} |", flush=True)
    return 1 if wrong else 0


if __name__ == "__main__":
    sys.exit(main())
