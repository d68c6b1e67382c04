#!/usr/bin/env python3
"""Tries `adsd` as a plant has it: real sockets, real signals, a log that nobody reads, systemd's socket, a status file.

    python3 tries/daemon.py PROGRAM [--kills N] [NAME ..]
        PROGRAM is the built adsd; without a NAME all tries are made
    python3 tries/daemon.py PROGRAM --kills 1000 keeps_over_kills
        kills it a thousand times over one store, in half an hour; 12 times where it is not said

Each try has a name and says what it saw; the last line counts them, and the status is 1 if one failed. Nothing is
stubbed: the program runs in a folder of its own, and what it is to answer is worked out from the layouts of
docs/FORMATS.md.
"""
import contextlib
import os
import pathlib
import re
import select
import shutil
import signal
import socket
import struct
import subprocess
import sys
import tempfile
import threading
import time

sys.dont_write_bytecode = True
sys.path[1:1] = [f"{sys.path[0]}/../{room}" for room in ("model", "tools")]
import daemon_disk  # noqa: E402, F401  (these register their tries)
import daemon_ends  # noqa: E402, F401
import daemon_files  # noqa: E402, F401
import daemon_store  # noqa: E402, F401
import store_file  # noqa: E402, F401
from adsd import COUNTS, SUMMARY, TRIES, Daemon, in_order, reading, reply, tried, waits_for  # noqa: E402
from ams import request, u32  # noqa: E402
from under_test import PLANT, Differs, expect  # noqa: E402

@tried
def stop_at_start(program):
    """The signal waits before the program listens."""
    with contextlib.ExitStack() as stack:
        it = Daemon(stack, program, listens=False)
        out, _, status, took = it.stopped(signal.SIGTERM)
        expect(status == 0 and out.startswith("listening\n"), f"it ended with {status} and printed {out!r}")
        return f"{took * 1000:.0f} ms"


@tried
def stop_idle(program):
    """SIGTERM, SIGINT, both, and each twice."""
    took = []
    for signals in ((signal.SIGTERM,), (signal.SIGINT,), (signal.SIGTERM, signal.SIGINT),
                    (signal.SIGTERM, signal.SIGTERM)):
        with contextlib.ExitStack() as stack:
            it = Daemon(stack, program)
            it.asks()
            out, err, status, seconds = it.stopped(*signals)
            in_order(out, status)
            expect("stopping: SIG" in err, f"the log says {err!r}")
            took.append(f"{seconds * 1000:.0f}")
    return ", ".join(took) + " ms"


@tried
def stop_under_load(program, connections=32, in_flight=16):
    """Each connection keeps so many requests in flight. All replies that the summary counts reach their clients."""
    with contextlib.ExitStack() as stack:
        it = Daemon(stack, program)
        counts = [0] * connections
        threads = [threading.Thread(target=keep_asking, args=(it, counts, k, in_flight), daemon=True)
                   for k in range(connections)]
        for thread in threads:
            thread.start()
        time.sleep(2)
        out, err, status, took = it.stopped(signal.SIGTERM)
        for thread in threads:
            thread.join(20)
        expect(not any(thread.is_alive() for thread in threads), "a client still waits")
        replies = int(SUMMARY.fullmatch(in_order(out, status) + "\n")[2])
        expect(0 < sum(counts) == replies, f"the server counts {replies} replies, and the clients {sum(counts)}")
        return f"{replies} replies, all of them came; {took * 1000:.0f} ms"


def keep_asking(daemon, counts, k, in_flight):
    with contextlib.suppress(OSError), daemon.link() as it:
        it.sendall(b"".join(reading(number) for number in range(in_flight)))
        number = in_flight
        while True:
            got = reply(it)
            if got is None:
                return
            counts[k] += 1
            with contextlib.suppress(OSError):
                it.sendall(reading(number))
            number += 1


@tried
def stop_while_a_peer_does_not_read(program):
    with contextlib.ExitStack() as stack:
        it = Daemon(stack, program)
        silent = stack.enter_context(it.link())
        silent.settimeout(2)
        with contextlib.suppress(OSError):
            for number in range(100000):
                silent.sendall(reading(number))
        it.asks()
        out, _, status, took = it.stopped(signal.SIGTERM)
        in_order(out, status)
        return f"{took * 1000:.0f} ms"


@tried
def without_the_mask(program):
    """The signal ends it at once, and the log had said so."""
    with contextlib.ExitStack() as stack:
        it = Daemon(stack, program, blocked=False)
        it.asks()
        out, err, status, _ = it.stopped(signal.SIGTERM)
        expect(status == -signal.SIGTERM and out == "", f"it ended with {status} and printed {out!r}")
        expect("stop: SIGTERM is not blocked, it ends the process at once" in err, f"the log says {err!r}")
        return "it died of the signal, and the log had said so"


@tried
def stop_file(program):
    with contextlib.ExitStack() as stack:
        it = Daemon(stack, program, ["--stop-file", "stop"], blocked=False)
        pathlib.Path(it.folder, "stop").touch()
        out, err, status, took = it.stopped()
        in_order(out, status)
        expect("stopping: the stop file is there" in err, f"the log says {err!r}")
        return f"{took * 1000:.0f} ms"


LOG_LINES = (
    "<6>listening at 127.0.0.1:", "<6>opened 1 from 127.0.0.1:", "<6>speaks 1 as 192.168.0.9.1.1, port 32905",
    "<6>closed 1 from 127.0.0.1:",
    '<4>no route for 2: to let it in, add three lines to the description: [[route]] and net = "10.0.0.7.1.1" and '
    'rights = "read"; '
    'to let every NetId in, add other_routes = "read" to the configuration',
    "<5>shut 2 from 127.0.0.1:", "<6>speaks 3 no ADS", "<5>shut 3 from 127.0.0.1:",
    "<4>reload refused: rule 12 item 1: a symbol lies within its area", "<6>reload accepted: version 2",
    "<4>reload refused: it is no TOML document", "<6>stopping: SIGTERM",
)


@tried
def log_lines(program):
    """Who came, as whom, a NetId without a route, what is no ADS, a reload of each kind, the stop."""
    with contextlib.ExitStack() as stack:
        it = Daemon(stack, program, ["--log", "journal"])
        it.asks()
        for first in (reading(1, bytes([10, 0, 0, 7, 1, 1])), b"GET / HTTP/1.1\r\n\r\n"):
            with it.link() as link:
                link.sendall(first)
                link.settimeout(5)
                expect(reply(link) is None, "a stranger was answered")
        plant = pathlib.Path(it.folder, "plant.toml")
        good = plant.read_text()
        for text in (good.replace("offset = 8", "offset = 2"), good + "\n# changed\n", "no TOML ["):
            pathlib.Path(it.folder, "new").write_text(text)
            os.replace(os.path.join(it.folder, "new"), plant)
            time.sleep(2.5)
        out, err, status, _ = it.stopped(signal.SIGTERM)
        in_order(out, status)
        for line in LOG_LINES:
            expect(any(it.startswith(line) for it in err.splitlines()), f"no line {line!r} in {err!r}")
        return f"{len(err.splitlines())} lines"


# What can stand at the name of a description that is served, so that no reading of it succeeds.
UNREADABLE = {
    "nothing": lambda path: None,
    "a folder": lambda path: path.mkdir(),
    "17 MiB": lambda path: path.write_bytes(bytes(17 << 20)),
    "a link to itself": lambda path: path.symlink_to("plant.toml"),
}


@tried
def description_that_cannot_be_read(program):
    """While the daemon runs its description is gone, or no reading of it succeeds: told once, and once when it is over;
    what is served stays."""
    cannot, can = "<4>description: cannot be read (", "<5>description: can be read again"
    with contextlib.ExitStack() as stack:
        folder = stack.enter_context(tempfile.TemporaryDirectory())
        plant, aside, other, log = (pathlib.Path(folder, name) for name in ("plant.toml", "aside", "other", "log"))
        it = Daemon(stack, program, ["--log", "journal", "--status", "status.prom"],
                    stderr=stack.enter_context(log.open("wb")), folder=folder)
        for count, (name, put) in enumerate(UNREADABLE.items(), 1):
            put(other)
            plant.rename(aside)
            if os.path.lexists(other):
                other.rename(plant)
            waits_for(log, cannot, count)
            time.sleep(3)
            it.asks()
            if os.path.lexists(plant):
                plant.rename(pathlib.Path(folder, name))
            aside.rename(plant)
            waits_for(log, can, count)
        out, _, status, _ = it.stopped(signal.SIGTERM)
        in_order(out, status)
        told = [log.read_text().count(line) for line in (cannot, can)]
        expect(told == 2 * [len(UNREADABLE)] and "reload" not in log.read_text(), f"the log says {log.read_text()!r}")
        faults = re.search(r"^adsd_description_read_faults_total (\d+)$",
                           pathlib.Path(folder, "status.prom").read_text(), re.M)
        expect(faults and int(faults[1]) >= 3 * len(UNREADABLE), f"the status file counts {faults and faults[1]}")
        return f"{', '.join(UNREADABLE)}: each told once, with {faults[1]} readings that failed"


@tried
def machines_without_a_route(program):
    """`other_routes`: who has no route reads; a write of it is refused with 0x704, or done; the log says what it
    means."""
    stranger, said = bytes([10, 0, 0, 7, 1, 1]), []
    for right, code in (("read", 0x704), ("write", 0)):
        with contextlib.ExitStack() as stack:
            it = Daemon(stack, program, ["--log", "journal", "--other-routes", right])
            with it.link() as link:
                link.settimeout(5)
                link.sendall(reading(1, stranger) + request(3, 2, u32(0x4040, 0, 4, 7), stranger))
                expect(reply(link) == (1, struct.pack("<III", 0, 4, 42)), "a read of a stranger was not answered")
                expect(reply(link) == (2, struct.pack("<I", code)), "a write of a stranger was answered otherwise")
            out, err, status, _ = it.stopped(signal.SIGTERM)
            in_order(out, status)
            expect(any(line.startswith(f"<5>other_routes {right}: each machine") for line in err.splitlines()),
                   f"the log says {err!r}")
            expect("no route for" not in err, f"the log says {err!r}")
            said.append(right)
    return " and ".join(said)


def busy(daemon, seconds=3):
    """Round trips for so long, each on a connection of its own, which makes three lines; the longest in ms."""
    ends, longest, count = time.monotonic() + seconds, 0.0, 0
    while time.monotonic() < ends:
        longest, count = max(longest, daemon.asks(count)), count + 1
    return longest * 1000, count


@tried
def nobody_reads_the_log(program):
    """A full pipe, a pipe whose reader is gone, a full unix stream, a full disk: clients are served as ever, and it
    stops in order."""
    seen = []
    for name in ("full pipe", "no reader", "full stream", "full disk"):
        with contextlib.ExitStack() as stack:
            held, given = held_error(stack, name)
            it = Daemon(stack, program, stderr=given)
            if name == "no reader":
                os.close(held)
            longest, count = busy(it)
            expect(longest < 2000, f"with {name} a round trip took {longest:.0f} ms")
            out, _, status, took = it.stopped(signal.SIGTERM)
            in_order(out, status)
            seen.append(f"{name} {count} trips, longest {longest:.0f} ms, stop {took * 1000:.0f} ms")
    return "; ".join(seen)


def held_error(stack, name):
    """A standard error of that kind, and the end of it that is held."""
    if name == "full disk":
        given = stack.enter_context(open("/dev/full", "wb"))
        return None, given
    if name == "full stream":
        ours, theirs = socket.socketpair()
        stack.enter_context(ours)
        stack.enter_context(theirs)
        theirs.setblocking(False)
        with contextlib.suppress(BlockingIOError):
            while True:
                theirs.send(bytes(4096))
        theirs.setblocking(True)
        return ours, theirs
    read, write = os.pipe()
    stack.callback(os.close, write)
    if name == "full pipe":
        stack.callback(os.close, read)
        os.set_blocking(write, False)
        with contextlib.suppress(BlockingIOError):
            while True:
                os.write(write, bytes(4096))
        os.set_blocking(write, True)
    return read, write


@tried
def notify(program):
    """READY behind `listening`, WATCHDOG each second, STOPPING: by a path and by an abstract name."""
    seen = []
    for name in ("path", "abstract"):
        with contextlib.ExitStack() as stack:
            folder = stack.enter_context(tempfile.TemporaryDirectory())
            told = stack.enter_context(socket.socket(socket.AF_UNIX, socket.SOCK_DGRAM))
            address = os.path.join(folder, "notify") if name == "path" else f"\0adsd-try-{os.getpid()}"
            told.bind(address)
            told.settimeout(5)
            it = Daemon(stack, program, env={**os.environ, "NOTIFY_SOCKET": address.replace("\0", "@")})
            first = told.recv(4096)
            expect(first.startswith(b"READY=1"), f"the first datagram is {first!r}")
            began = time.monotonic()
            beats = [told.recv(4096) for _ in range(3)]
            expect(beats == [b"WATCHDOG=1"] * 3, f"then came {beats!r}")
            seconds = time.monotonic() - began
            expect(1.5 < seconds < 5, f"three beats took {seconds:.1f} s")
            out, _, status, _ = it.stopped(signal.SIGTERM)
            in_order(out, status)
            last = told.recv(4096)
            while last == b"WATCHDOG=1":
                last = told.recv(4096)
            expect(last.startswith(b"STOPPING=1"), f"the last datagram is {last!r}")
            seen.append(f"{name}: three beats in {seconds:.1f} s")
    return "; ".join(seen)


@tried
def no_watchdog_while_it_hangs(program):
    with contextlib.ExitStack() as stack:
        folder = stack.enter_context(tempfile.TemporaryDirectory())
        told = stack.enter_context(socket.socket(socket.AF_UNIX, socket.SOCK_DGRAM))
        told.bind(os.path.join(folder, "notify"))
        it = Daemon(stack, program, env={**os.environ, "NOTIFY_SOCKET": os.path.join(folder, "notify")})
        told.settimeout(5)
        told.recv(4096)
        it.process.send_signal(signal.SIGSTOP)
        time.sleep(0.2)
        told.setblocking(False)
        with contextlib.suppress(BlockingIOError):
            while True:
                told.recv(4096)
        ready, _, _ = select.select([told], [], [], 3)
        it.process.send_signal(signal.SIGCONT)
        expect(not ready, "a stopped process told that it is alive")
        return "nothing came for 3 s"


@tried
def status_file(program, seconds=25):
    """Read again and again while it is replaced: never a part of it."""
    with contextlib.ExitStack() as stack:
        it = Daemon(stack, program, ["--status", "status.prom"])
        path, texts, reads = os.path.join(it.folder, "status.prom"), set(), 0
        ends = time.monotonic() + seconds
        while time.monotonic() < ends:
            with contextlib.suppress(FileNotFoundError), open(path) as file:
                text = file.read()
                reads += 1
                texts.add(text)
                lines = text.splitlines()
                expect(text.endswith("\n") and lines[-1].startswith("adsd_log_lines_lost_total "),
                       f"a part of it was read: {text!r}")
                expect(all(re.fullmatch(r"# TYPE \w+ (counter|gauge)|\w+(\{outcome=\"\w+\"\})? \d+(\.\d+)?", line)
                           for line in lines), f"no text of Prometheus: {text!r}")
            time.sleep(0.002)
        expect(len(texts) > 1, "it was never replaced")
        in_order(*it.stopped(signal.SIGTERM)[::2][:2])
        return f"{reads} readings of {len(texts)} texts, each of them whole"


WRONG = [
    ([], 1, "adsd: name a configuration or a description"),
    (["a", "b"], 1, "adsd: one file only, but b is a second one"),
    (["plant.toml", "--lisen", "x"], 1, "adsd: --lisen is no option"),
    (["plant.toml", "--save-each"], 1, "adsd: a value is missing: save_each takes a number of seconds from 1 to 86400"),
    (["plant.toml", "--save-each", "10"], 1, "adsd: save_each needs store"),
    (["plant.toml", "--store", "kept", "--save-each", "0"], 1,
     "adsd: save_each takes a number of seconds from 1 to 86400"),
    (["plant.toml", "--store", "kept", "--save-each", "86401"], 1,
     "adsd: save_each takes a number of seconds from 1 to 86400"),
    (["plant.toml", "--listen", "nowhere"], 1, "adsd: listen takes an address"),
    (["plant.toml", "--listen", "127.0.0.1:0"], 1, "adsd: listen takes an address"),
    (["plant.toml", *["--listen", "127.0.0.1:48898"] * 17], 1, "adsd: listen is given more than 16 times"),
    (["plant.toml", "--allow", "10.0.0.0/33"], 1, "adsd: allow takes a net"),
    (["plant.toml", "--allow", "::ffff:10.0.0.1"], 1, "adsd: allow takes a net"),
    (["plant.toml", "--log", "loud"], 1, "adsd: log takes journal, plain or none"),
    (["plant.toml", "--log", "none", "--log", "plain"], 1, "adsd: log is set twice"),
    (["missing.toml"], 4, "adsd: missing.toml cannot be read"),
    (["plant.toml", "--profile=loud"], 1, "adsd: profile takes wide or strict"),
    (["check", "plant.toml"], 1, "adsd: this is no configuration"),
    (["check", "unknown.toml"], 1, "adsd: the configuration has no key lisen"),
    (["check", "kind.toml"], 1, "adsd: save_each takes a number of seconds from 1 to 86400"),
    (["check", "signal.toml"], 1, "adsd: [[signal]] 1, counted from 0, takes ramp"),
    (["numbers.toml"], 1, "adsd: [[signal]] 0: line 2 of its file is no number"),
    (["recording.toml"], 4, "adsd: [[signal]] 0: "),
]


@tried
def wrong_words(program):
    """One sentence on standard error, nothing on standard output, and the status."""
    with contextlib.ExitStack() as stack:
        folder = stack.enter_context(tempfile.TemporaryDirectory())
        shutil.copy(PLANT, os.path.join(folder, "plant.toml"))
        pathlib.Path(folder, "unknown.toml").write_text('description = "plant.toml"\nlisen = "x"\n')
        pathlib.Path(folder, "signal.toml").write_text('description = "plant.toml"\n[[signal]]\nvalues = '
                                                       '[1]\n[[signal]]\nramps = 3\n')
        more = '[[signal]]\nvalues = [1]\n' * 2      # a plant without its signals is refused before they are read
        pathlib.Path(folder, "numbers.toml").write_text(f'description = "plant.toml"\n[[signal]]\nfile = '
                                                        f'"numbers.txt"\n{more}')
        pathlib.Path(folder, "numbers.txt").write_text("1\n2x\n")
        pathlib.Path(folder, "recording.toml").write_text(f'description = "plant.toml"\n[[signal]]\nrecording = '
                                                          f'"none.db"\nname = "Main.count"\n{more}')
        pathlib.Path(folder, "kind.toml").write_text('description = "plant.toml"\nsave_each = "10"\n')
        for words, status, sentence in WRONG:
            it = subprocess.run([program, *words], cwd=folder, capture_output=True, timeout=20)
            said = it.stderr.decode()
            expect(it.returncode == status and it.stdout == b"" and said.startswith(sentence) and said.count("\n") == 1
                   and said.endswith("\n"),
                   f"{words} ended with {it.returncode}, {it.stdout!r} and {said!r}")
        return f"{len(WRONG)} cases"


def words_of(words):
    """The program and the names of the tries, out of the words; the count of --kills is set."""
    if "--kills" in words[:-1]:
        at = words.index("--kills")
        COUNTS["kills"] = int(words[at + 1])
        words = words[:at] + words[at + 2:]
    return words[:1], words[1:]


def main():
    programs, given = words_of(sys.argv[1:])
    if not programs or programs[0].startswith("-") or not os.access(programs[0], os.X_OK) or set(given) - TRIES.keys():
        sys.exit(__doc__ + "\nThe tries: " + ", ".join(TRIES))
    program, failed = os.path.abspath(programs[0]), 0
    names = given or TRIES
    for name in names:
        try:
            print(f"{name}: {TRIES[name](program)}", flush=True)
        except (Differs, OSError, subprocess.TimeoutExpired) as fault:
            failed += 1
            print(f"{name}: FAILED, {fault}", flush=True)
    print(f"{len(names) - failed} passed, {failed} failed")
    return 1 if failed else 0


if __name__ == "__main__":
    sys.exit(main())
