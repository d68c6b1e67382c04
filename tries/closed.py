#!/usr/bin/env python3
"""What `ads` and `adsd` do where something is closed: standard input, output or error when they start, and the port
that is needed.

    python3 tries/closed.py [PROGRAM] [--scene WORD]

PROGRAM is crates/ads/out/ads; `adsd` is tried where it was built beside it. Each command is run with each choice of the
descriptors 0, 1 and 2 closed, as the gate does (tools/tries/closed.py says what must come). Then it is started at ports
that can't be had, and must name each on standard error in one line. A line a scene, `ok` or what differed; status 1
where one did.
"""
import argparse
import os
import pathlib
import shutil
import socket
import sys
import tempfile

ROOT = pathlib.Path(__file__).resolve().parent.parent
sys.dont_write_bytecode = True
sys.path.insert(1, f"{sys.path[0]}/../tools")
from tries.closed import CLOSED, PLANT, SCENES, WATCH, Heard, Runs, over_the_daemon, run, short  # noqa: E402
from tries.of_program import daemon_of  # noqa: E402
from tries.running import Wrong, free_port  # noqa: E402
from under_test import ADS  # noqa: E402


def ports(program, folder):
    """Each port that can't be had is named, and all else stays as it is."""
    here = free_port()
    taken, full = socket.create_server(("127.0.0.1", 0)), socket.create_server(("127.0.0.1", 0), backlog=0)
    waiting = [socket.socket() for _ in range(4)]
    for it in waiting:
        it.setblocking(False)
        it.connect_ex(full.getsockname())
    doors = [(f"127.0.0.1:{taken.getsockname()[1]}", "address in use"), (f"192.0.2.1:{here}", "address not available"),
             ("256.0.0.1:48898", "no IP address and port")]
    doors += [("localhost:" + str(taken.getsockname()[1]), "address in use")]
    peers = [(f"127.0.0.1:{here}", "connection refused"), (f"127.0.0.1:{full.getsockname()[1]}", "timed out"),
             ("1.2.3.999:48898", "no IP address and port")]
    for place, why in doors:
        for command in ("serve", "relay"):
            yield from named(run(program, [command, PLANT, "--listen", place, "--events", "3"], folder=folder), command,
                             place, why)
    for place, why in peers:
        for words in (["state"], ["record", "Main.count", *WATCH, "--store",
                                  "s.db"]) if why != "timed out" else (["get", "Main.count"],):
            to = ["--to", place, "--netid", "5.1.2.3.1.1", "--me", "192.168.0.9.1.1"]
            yield from named(run(program, [*words, *to], folder=folder), words[0], place, why)
    if os.getuid() == 0 and int(pathlib.Path("/proc/sys/net/ipv4/ip_unprivileged_port_start").read_text()) > 1:
        # The program where another user reaches it.
        shutil.copy(program, folder / "ads")
        folder.chmod(0o755)
        shutil.copy(PLANT, folder / "plant.toml")
        it = run("./ads", ["serve", "plant.toml", "--listen", "127.0.0.1:1", "--events", "3"], folder=folder,
                 user=65534)
        yield from named(it, "serve", "127.0.0.1:1", "permission denied")
    it = run(program, ["state", "--to", f"127.0.0.1:{here}", "--netid", "5.1.2.3.1.1", "--me", "192.168.0.9.1.1"],
             closed=(2,), folder=folder)
    yield "state with standard error closed", it[:2] == (6, b"ads: link fault\n") or f"{it}"
    for it in (taken, full, *waiting):
        it.close()


def named(it, command, place, why):
    status, out, err = it
    if err == b"" and out == b"ads: usage\n" and why.startswith("no IP"):
        # The command line refuses it before.
        return
    right = status == 6 and out == b"ads: link fault\n" and err == f"ads: {place}: {why}\n".encode()
    yield f"{command} {place}: {why}", right or f"status {status}, {short(out)}, {short(err)}"


def main():
    words = argparse.ArgumentParser(description=__doc__.splitlines()[0])
    words.add_argument("program", nargs="?", default=ADS)
    words.add_argument("--scene", default="", help="only scenes whose names have this word")
    told = words.parse_args()
    program, wrong = os.path.abspath(told.program), 0
    with tempfile.TemporaryDirectory() as name:
        runs = Runs(program, name)
        runs.heard, daemon = Heard(program, name), daemon_of(program)
        tried = [(f"{scene.__name__} {closed}", lambda scene=scene, closed=closed: scene(runs, closed))
                 for scene in SCENES for closed in CLOSED]
        try:
            for what, call in tried + ([("over_the_daemon", lambda: over_the_daemon(daemon, runs))] if daemon else []):
                if told.scene in what:
                    try:
                        call()
                        print(f"ok {what}", flush=True)
                    except Wrong as it:
                        wrong += 1
                        print(f"DIFFERS {what}: {it}", flush=True)
            for what, right in ports(program, pathlib.Path(name)) if told.scene in "ports" else ():
                wrong += right is not True
                print(f"ok {what}" if right is True else f"DIFFERS {what}: {right}", flush=True)
        finally:
            runs.heard.stop()
    sys.exit(1 if wrong else 0)


main()
