"""Random lives of `adsd` over one store, with new descriptions, for model/random_runs.py (--adsd).

In a life random clients send one event behind another, in one of the profiles, and new descriptions, some of which are
refused, take the place of the one that is served. Each reply must be that of the model (model/protocol.py), and the log
must tell of each description what the model says of it. A life ends by a signal, with the model's summary. Then the
store's file must stand for the values that the model has (model/store.py), and the next life begins with them, often
over another description.
"""
import functools
import os
import pathlib
import random
import re
import signal
import subprocess
import time

import random_runs
import store
import wide_runs
from adsd import BLOCKED
from under_test import daemon_words, free_port

TOLD = re.compile(r" reload (accepted: version \d+|refused: rule \d+|refused: it is no TOML)")
SUMMARY = re.compile(r"connections (\d+) requests (\d+) replies (\d+) samples (\d+) reloads (\d+) (\d+)\nsaved \d+\n")


def events_of(r, d, profile):
    """The events of a life that begins over this description; those that go by the clock, and texts that are there
    already, are left out."""
    last = random_runs.toml_of(d)
    for event in random_runs.script(r, d, notes=False):
        if event[0] == "reload":
            event = wide_runs.wider_event(r, event)
            if event[2] == last or wide_runs.is_of_signals(event):
                continue
            last = event[2]
            yield event
        elif event[0] in ("open", "bytes", "close"):
            yield from wide_runs.with_router(r, wide_runs.wider_event(r, event) if profile == "wide" or r.random() < 0.5
                                             else event)


def put(folder, text):
    random_runs.write(folder, "plant.new", text)
    os.replace(os.path.join(folder, "plant.new"), os.path.join(folder, "plant.toml"))


def described(folder, text, line):
    """Puts a new description in the place of the one that is served, and waits until the log tells of it; what differs
    from the model's line, or None."""
    log = pathlib.Path(folder, "log")
    before, until = len(TOLD.findall(log.read_text())), time.monotonic() + 20
    put(folder, text)
    while len(told := TOLD.findall(log.read_text())) == before:
        if time.monotonic() > until:
            return f"nothing is told of a description of which the model says {line!r}"
        time.sleep(0.005)
    word, number = line.split()[1:]
    wanted = (f"accepted: version {number}" if word == "ok" else f"refused: rule {number}" if number != "0"
              else "refused: it is no TOML")
    return None if told[before:] == [
        wanted] else f"{told[before:]} is told of a description, where {wanted!r} was wanted"


def ended(process, machine, way):
    """Ends a life; what differs of its summary. A request that has no answer may be left unread, and a connection that
    has none may not be taken in any more."""
    process.send_signal(way)
    out = process.communicate(timeout=60)[0].decode()
    found = SUMMARY.fullmatch(out)
    told = [int(it) for it in found.groups()] if found else []
    wanted = [machine.opened, machine.requests, machine.replies, machine.samples, machine.accepted, machine.refused]
    if process.returncode != 0 or not found or told[0] > wanted[0] or told[1] > wanted[1] or told[2:] != wanted[2:]:
        return f"it ended with {process.returncode} and {out!r}, where {machine.summary()!r} was wanted"
    return None


def lived(words, folder, machine, events, way):
    """A life of the daemon against the model; what differs, or None."""
    how = {"cwd": folder, "stdout": subprocess.PIPE, "preexec_fn": lambda: signal.pthread_sigmask(
        signal.SIG_SETMASK, BLOCKED)}
    with open(os.path.join(folder, "log"), "wb") as log, subprocess.Popen(words, stderr=log, **how) as it:
        try:
            if it.stdout.readline() != b"listening\n":
                return "it does not listen"
            port = int(words[words.index("--listen") + 1].split(":")[1])
            return random_runs.talked(events, machine, port,
                                      functools.partial(described, folder)) or ended(it, machine, way)
        finally:
            it.kill()


def one_daemon(program, seed, folder, has):
    """Lives of the daemon over one store; what differs, or None."""
    r, kept, body = random.Random(seed), pathlib.Path(folder, "kept"), None
    for path in pathlib.Path(folder).glob("kept*"):
        path.unlink()
    d, profile, others = wide_runs.without_signals(random_runs.description(r)), r.choice(("wide", "strict")), r.choice(
        has.others)
    random_runs.write(folder, "words", f"{profile} {others}\n")
    for life in range(1, r.choice((2, 3, 4))):
        put(folder, random_runs.toml_of(d))
        machine = wide_runs.machine_of(store.with_stored(d, body) if body else d, profile, others, has)
        events = list(events_of(r, d, profile))
        words = [it if it != "none" else "plain" for it in daemon_words("plant.toml", profile, others)]
        words = [program, *words, "--listen", f"127.0.0.1:{free_port()}", "--store", "kept", "--save-each", "1"]
        said = lived(words, folder, machine, events, r.choice((signal.SIGTERM, signal.SIGINT)))
        if said:
            return f"life {life}, {profile}, other_routes {others}: {said}"
        standing, wanted = store.standing_of(kept.read_bytes()), store.body_of(machine)
        if standing is None or standing[2] != wanted:
            return (f"behind life {life}, {profile}: the store stands for {standing and standing[2].hex()}, and not "
                    f"for {wanted.hex()}")
        accepted = [event[1] for event in events if event[0] == "reload" and isinstance(event[1], dict)]
        body, d = standing[2], accepted[-1] if accepted else d
        if r.random() < 0.6:
            d = wide_runs.without_signals(random_runs.changed(r, d))
    return None
