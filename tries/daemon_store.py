"""Tries of `adsd` with a store, several addresses, an allow list, the wide profile and signals: tries/daemon.py makes
them with the others."""
import contextlib
import itertools
import os
import pathlib
import random
import re
import resource
import signal
import socket
import struct
import sys
import tempfile
import time

import killed
import store
from adsd import COUNTS, Daemon, reading, reply, tried, until
from ams import area, request, u32
from under_test import expect, free_port

TITLE = 72                        # the place of Main.title in examples/plant.toml, a STRING(7) that is persistent
KEPT = re.compile(r"connections \d+ requests \d+ replies \d+ samples \d+ reloads \d+ \d+\nsaved (\d+)\n")


def title_of(number):
    return b"%07d\0" % number


def write_title(link, number, text):
    """Writes Main.title and waits for the answer."""
    link.sendall(request(3, number, area(0x4040, TITLE, 8) + text))
    expect(reply(link) == (number, bytes(4)), "a write was not answered with 0")


def read_title(daemon):
    with daemon.link() as it:
        it.sendall(request(2, 1, area(0x4040, TITLE, 8)))
        got = reply(it)
        expect(got is not None and got[1][:8] == u32(0, 8), f"a read was answered with {got!r}")
        return got[1][8:]


def kept_in_order(out, status):
    expect(status == 0, f"it ended with {status}")
    told = KEPT.fullmatch(out)
    expect(told is not None, f"behind listening it printed {out!r}")
    return int(told[1])


def in_folder(stack, program, folder, words, **kinds):
    """A daemon over a folder that stays."""
    return Daemon(stack, program, words, folder=folder, **kinds)


@tried
def keeps_over_a_restart(program):
    """What was written is served again behind a stop in order, and a second stop without a change saves nothing."""
    with contextlib.ExitStack() as stack:
        folder = stack.enter_context(tempfile.TemporaryDirectory())
        words = ["--store", "kept", "--save-each", "1"]
        first = in_folder(stack, program, folder, words)
        expect(read_title(first) == b"Mix\0\0\0\0\0", "it did not begin with the initial value")
        with first.link() as link:
            write_title(link, 1, title_of(1))
        out, _, status, took = first.stopped(signal.SIGTERM)
        saved = kept_in_order(out, status)
        expect(saved >= 1, "nothing was saved")
        second = in_folder(stack, program, folder, words)
        expect(read_title(second) == title_of(1), "the value was lost")
        out, _, status, _ = second.stopped(signal.SIGTERM)
        expect(kept_in_order(out, status) == 0, "a value that did not change was saved")
        return f"{saved} saves, then 0; the stop took {took * 1000:.0f} ms"


@tried
def keeps_over_kills(program):
    """Killed at a random moment, again and again: the value that comes back was written, and at most a second and a
    save before the last one."""
    chance, ages, writes, times = random.Random(7), [], 0, COUNTS["kills"]
    with contextlib.ExitStack() as stack:
        folder = stack.enter_context(tempfile.TemporaryDirectory())
        number, written, killed = 0, {0: 0.0}, 0.0
        for count in range(times):
            if count % 100 == 99:
                print(f"keeps_over_kills: {count + 1} of {times}", file=sys.stderr, flush=True)
            it = in_folder(stack, program, folder, ["--store", "kept", "--save-each", "1", "--log", "none"])
            back = read_title(it)
            came = 0 if back == b"Mix\0\0\0\0\0" else int(back[:7])
            expect(came in written, f"{back!r} is neither what stood before nor what was written")
            if came != number:
                ages.append(killed - written[came + 1])
                expect(ages[-1] < 5.0, f"what came back is {ages[-1]:.1f} s old")
            number, written = came, {came: time.monotonic()}
            ends = time.monotonic() + chance.uniform(0.05, 2.5)
            with it.link() as link:
                while time.monotonic() < ends:
                    number += 1
                    write_title(link, number, title_of(number))
                    written[number] = time.monotonic()
                    time.sleep(chance.uniform(0, 0.02))
            writes += len(written) - 1
            it.process.kill()
            killed = time.monotonic()
            it.end()
        return (f"{times} kills, {writes} writes; the oldest write that was lost was {max(ages, default=0):.2f} s "
                f"before the kill")


@tried
def goes_on_where_the_disk_is_full(program):
    """A store that can't grow: it is told once, clients are served as before, and it is saved once there is room."""
    with contextlib.ExitStack() as stack:
        folder = stack.enter_context(tempfile.TemporaryDirectory())
        it = in_folder(stack, program, folder, ["--store", "kept", "--save-each", "1"], full=True)
        with it.link() as link:
            write_title(link, 1, title_of(1))
            time.sleep(2.5)
            write_title(link, 2, title_of(2))
        expect(it.asks() < 2, "it did not serve while the disk was full")
        resource.prlimit(it.process.pid, resource.RLIMIT_FSIZE, (resource.RLIM_INFINITY, resource.RLIM_INFINITY))
        time.sleep(2.5)
        out, err, status, _ = it.stopped(signal.SIGTERM)
        saved = kept_in_order(out, status)
        expect("store fault" in err, f"no line tells it: {err!r}")
        expect(saved >= 1 and re.search(r"saved 1, \d+ bytes", err) is not None, f"it was not saved: {err!r}")
        again = in_folder(stack, program, folder, ["--store", "kept"])
        expect(read_title(again) == title_of(2), "the value was lost")
        return f"{err.count('store fault')} lines of a fault, {saved} saves"


@tried
def one_daemon_a_store(program):
    """A second daemon over the same store ends before it listens."""
    with contextlib.ExitStack() as stack:
        folder = stack.enter_context(tempfile.TemporaryDirectory())
        in_folder(stack, program, folder, ["--store", "kept"])
        second = in_folder(stack, program, folder, ["--store", "kept"], listens=False)
        out, err, status, _ = second.stopped()
        expect(status != 0 and out == "" and "kept: another daemon keeps its values there" in err,
               f"it ended with {status}, {out!r} and {err!r}")
        return f"status {status}"


@tried
def a_value_that_fits_nothing(program):
    """It is told by its name, and the file is copied before a save leaves it out."""
    with contextlib.ExitStack() as stack:
        folder = stack.enter_context(tempfile.TemporaryDirectory())
        words = ["--store", "kept", "--save-each", "1"]
        first = in_folder(stack, program, folder, words)
        with first.link() as link:
            write_title(link, 1, title_of(1))
        kept_in_order(*first.stopped(signal.SIGTERM)[::2][:2])
        before = pathlib.Path(folder, "kept").read_bytes()
        second = in_folder(stack, program, folder, words, change=('type = "STRING(7)"',
                                                                  'type = "ARRAY [1..8] OF BYTE"'))
        _, err, status, _ = second.stopped(signal.SIGTERM)
        expect(status == 0 and "no persistent symbol fits the entry Main.title" in err, f"the log says {err!r}")
        copies = [store.standing_of(it.read_bytes()) for it in pathlib.Path(folder).glob("kept.before-*")]
        expect(copies == [store.standing_of(before)], "there is not one copy of what stood there")
        return "told and copied"


@tried
def a_value_that_came_later(program):
    """A symbol that is persistent by one new description and gone by the next: what was saved of it is in the copy."""
    with contextlib.ExitStack() as stack:
        folder = stack.enter_context(tempfile.TemporaryDirectory())
        kept, other = pathlib.Path(folder, "kept"), ('name = "Main.title"', 'name = "Main.label"')
        it = in_folder(stack, program, folder, ["--store", "kept", "--save-each", "1"],
                       change=("persistent = true", "persistent = false"))
        plant = pathlib.Path(folder, "plant.toml")
        text = plant.read_text().replace("persistent = false", "persistent = true")
        plant.write_text(text)
        with it.link() as link:
            until(lambda: b"Main.title" in killed.read(kept), "the new symbol is not saved", lambda: save(link))
        before = killed.read(kept)
        plant.write_text(text.replace(*other))
        with it.link() as link:
            until(lambda: b"Main.label" in killed.read(kept), "the renamed symbol is not saved", lambda: save(link))
        _, err, status, _ = it.stopped(signal.SIGTERM)
        expect(status == 0 and "no persistent symbol fits the entry Main.title" in err, f"the log says {err!r}")
        copies = [it.read_bytes() for it in pathlib.Path(folder).glob("kept.before-*")]
        expect(b"Main.title" in before and len(copies) == 1 and b"Main.title" in copies[0],
               "there is not one copy with what stood there")
        return "told and copied"


NUMBERS = itertools.count(1)


def save(link):
    """Writes another value, so that the next look saves."""
    number = next(NUMBERS)
    write_title(link, number, title_of(number))


@tried
def several_addresses(program):
    """IPv4 and IPv6 at once, and [::] that takes both."""
    seen = []
    with contextlib.ExitStack() as stack:
        port = free_port()
        it = Daemon(stack, program, ["--listen", f"[::1]:{port}"])
        it.asks()
        with socket.create_connection(("::1", port), timeout=5) as link:
            link.sendall(reading(2))
            expect(reply(link)[1][8:] == u32(42), "nothing came over IPv6")
        _, err, status, _ = it.stopped(signal.SIGTERM)
        expect(status == 0 and f"[::1]:{port}" in err, f"the log says {err!r}")
        seen.append("two doors")
    with contextlib.ExitStack() as stack:
        port = free_port()
        it = Daemon(stack, program, listen=[f"[::]:{port}"], port=port)
        it.asks()
        with socket.create_connection(("::1", port), timeout=5) as link:
            link.sendall(reading(2))
            expect(reply(link)[1][8:] == u32(42), "nothing came over IPv6")
        it.stopped(signal.SIGTERM)
        seen.append("[::] takes both")
    return ", ".join(seen)


@tried
def allow_list(program, refused=100):
    """Peers that the list leaves out are closed at once, take no number and are told; the others are served beside
    them."""
    with contextlib.ExitStack() as stack:
        it = Daemon(stack, program, ["--allow", "127.0.0.2", "--status", "status.prom"], listens=True)
        good = stack.enter_context(socket.create_connection(("127.0.0.1", it.port), timeout=10,
                                                            source_address=("127.0.0.2", 0)))
        for number in range(refused):
            with it.link() as link, contextlib.suppress(ConnectionError):
                link.sendall(reading(number))
                expect(reply(link) is None, "a peer that is not allowed was answered")
        good.sendall(reading(7))
        expect(reply(good)[0] == 7, "the one that is allowed was not served")
        time.sleep(1.5)
        out, err, status, _ = it.stopped(signal.SIGTERM)
        expect(out.startswith("connections 1 ") and status == 0, f"it counts {out!r}")
        expect("not allowed 127.0.0.1:" in err, f"no line tells it: {err[-500:]!r}")
        told = pathlib.Path(it.folder, "status.prom").read_text()
        expect(f"adsd_refused_peers_total {refused}\n" in told, f"the status file says {told!r}")
        return f"{refused} were turned away, one was served"


@tried
def given_socket(program):
    """A socket that systemd opened is served, and no other one is opened."""
    with contextlib.ExitStack() as stack:
        given = stack.enter_context(socket.socket())
        given.bind(("127.0.0.1", 0))
        given.listen(64)
        port = given.getsockname()[1]

        def hand_over():
            os.dup2(given.fileno(), 3)

        it = Daemon(stack, "/bin/sh", port=port, words=["-c", f'LISTEN_PID=$$ LISTEN_FDS=1 exec {program} plant.toml'],
                    bare=True,
                    before=hand_over, pass_fds=(3,))
        it.asks()
        out, _, status, _ = it.stopped(signal.SIGTERM)
        expect(status == 0 and out.startswith("connections 1 "), f"it ended with {status} and {out!r}")
        return f"port {port}"


@tried
def wide_profile(program):
    """A read of 1,024 bytes by a handle gives a STRING of 8; the strict profile refuses it."""
    seen = []
    for words, wanted in (([], u32(0, 8) + b"Mix\0\0\0\0\0"), (["--profile", "strict"], u32(0x705, 0))):
        with contextlib.ExitStack() as stack:
            it = Daemon(stack, program, words)
            with it.link() as link:
                link.sendall(request(9, 1, u32(0xF003, 0, 4, 10) + b"Main.title"))
                handle = reply(link)[1][8:]
                link.sendall(request(2, 2, u32(0xF005) + handle + u32(1024)))
                got = reply(link)[1]
                expect(got[:len(wanted)] == wanted, f"{words}: a read of 1,024 bytes was answered with {got!r}")
            it.stopped(signal.SIGTERM)
            seen.append(" ".join(words) or "wide")
    return ", ".join(seen)


@tried
def signals_as_data(program):
    """A symbol follows the values of the configuration, one a tick."""
    with contextlib.ExitStack() as stack:
        folder = stack.enter_context(tempfile.TemporaryDirectory())
        port = free_port()
        pathlib.Path(folder, "numbers.txt").write_text("7\n8\n9\n")
        pathlib.Path(folder, "it.toml").write_text(
            f'description = "plant.toml"\nlisten = ["127.0.0.1:{port}"]\n'
            '[[signal]]\nramp = 5\nperiod = 10\n[[signal]]\nsquare = [3, 4, 2]\n[[signal]]\nfile = "numbers.txt"\n')
        it = Daemon(stack, program, folder=folder, port=port, words=["it.toml"], bare=True)
        seen = set()
        ends = time.monotonic() + 2
        with it.link() as link:
            while time.monotonic() < ends:
                link.sendall(request(2, 1, area(0x4040, 64, 2)))
                seen.add(struct.unpack("<H", reply(link)[1][8:])[0])
        expect(seen - {0} == {7, 8, 9}, f"it gave {sorted(seen)}")     # 0 is its first value, before the first tick
        it.stopped(signal.SIGTERM)
        return f"{sorted(seen)}"
