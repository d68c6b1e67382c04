#!/usr/bin/env python3
"""How many instructions `ads serve` or `adsd` takes for a request, by valgrind's callgrind: a figure that other work on
the machine does not change.

    python3 bench/instructions.py PROGRAM [--top N] [--still] [-- WORD ..]
        a table (Markdown); with --top, the N functions that cost most of a request of each kind

With --still the server's clocks stand still (still_clock.c), so that no tick comes: figures that a busy machine does
not raise either, and that repeat to 1 in 1,000. PROGRAM is `ads` or `adsd`, which is known by its name; the words go to
it, as in `bench/instructions.py crates/adsd/out/adsd -- --profile strict`.

The plant and the requests are those of bench/serve.py. Eight connections each send 32 requests of a kind at once and
wait for all replies; that is a round. Each kind is run for 4 rounds and for 20, and the difference of both counts, over
the requests of 16 rounds, is what a request costs: the start, the handles and most ticks fall out. The kind "sample" is
other: each connection has 512 notifications of a symbol that changes at each tick, and a sample is counted, of a run of
8 ticks and one of 40. Its clocks go, so that ticks come. Copies of the C library and its malloc are in the count. Every
reply's length and result are looked at; bytes are compared by serve.py.
"""
import argparse
import contextlib
import os
import pathlib
import random
import re
import signal
import subprocess
import sys
import tempfile

sys.dont_write_bytecode = True
sys.path[1:1] = [f"{sys.path[0]}/../{room}" for room in ("model", "tools", "tries")]
import serve  # noqa: E402
from ams import size_of_first, u32, watched  # noqa: E402
from random_runs import toml_of  # noqa: E402
from under_test import FOREVER, Program, daemon_words, next_frame, preload  # noqa: E402

CONNECTIONS, DEPTH, ROUNDS = 8, 32, (4, 20)
KINDS = {"state": "s", "read of 4 bytes": "r", "by handle": "h", "write by group": "w", "write by handle": "W",
         "sum of 100 reads": "S",
         "mixture": "rswhrhsWrhrwshrSWhrs", "sample": ""}
SAMPLE = "sample"


def frames(k, asked, first_id):
    """One text of frames of connection k, a frame a request."""
    return b"".join(serve.request_of(k, command, number, payload) for number,
                    (command, payload) in enumerate(asked, first_id))


def replies(conn, count):
    """Takes so many frames off a connection; ends the run where one tells an error."""
    for _ in range(count):
        see_right(next_frame(conn))


def see_right(frame):
    if not frame or any(frame[30:34]) or any(frame[38:42]):
        sys.exit(f"a reply with an error: {frame.hex()}")


def words_of(program, more):
    """How the server is started."""
    is_daemon = os.path.basename(program).startswith("adsd")
    words = daemon_words("plant.toml") if is_daemon else ["serve", "plant.toml", "--events", FOREVER]
    return [program, *words, *more]


@contextlib.contextmanager
def counting(program, log, more, env=None):
    """The server under callgrind, whose counts go to a file once the server has ended, and connections to it."""
    words = ["--tool=callgrind", f"--callgrind-out-file={log}", *words_of(program, more)]
    with Program("valgrind", words, stderr=subprocess.DEVNULL, env=env) as server, contextlib.ExitStack() as stack:
        yield server.process, [stack.enter_context(server.open(None)) for _ in range(CONNECTIONS)]
        server.process.wait()


def counted(program, kinds, rounds, more, env=None):
    """The file of callgrind for so many rounds."""
    log = f"callgrind.{rounds}"
    with counting(program, log, more, env) as (server, conns):
        for k, conn in enumerate(conns):
            names = [f"v{serve.OWN * k + i}".encode() for i in range(serve.OWN)]
            conn.sendall(frames(k, [(9, u32(0xF003, 0, 4, len(name)) + name) for name in names], 1))
            replies(conn, len(names))
        for number in range(rounds):
            for k, conn in enumerate(conns):
                r = random.Random(f"{k} {number}")
                asked = [serve.request(kinds[i % len(kinds)], serve.OWN * k, r)
                         for i in range(DEPTH * number, DEPTH * (number + 1))]
                conn.sendall(frames(k, asked, 1000 + DEPTH * number))
            for conn in conns:
                replies(conn, DEPTH)
        server.send_signal(signal.SIGTERM)
    return log


def taken_samples(conn, most):
    """Takes frames off a connection until so many samples came, or it ends; how many came."""
    text, came = b"", 0
    while came < most:
        more = conn.recv(1 << 20)
        if not more:
            break
        text += more
        while end := size_of_first(text):
            if text[22:24] == bytes([8, 0]):
                came += int.from_bytes(text[54:58], "little")
            else:
                see_right(text[:end])
            text = text[end:]
    return came


def counted_samples(program, ticks, more):
    """The file of callgrind for about so many ticks, and how many samples were sent."""
    log = f"callgrind.samples.{ticks}"
    with counting(program, log, more) as (server, conns):
        for k, conn in enumerate(conns):
            conn.sendall(frames(k, [(6, watched(0x4040, serve.RAMP, 2, 4))] * serve.NOTES, 1))
        came = 0
        for most in (serve.NOTES, serve.NOTES * ticks):
            came += sum(taken_samples(conn, most) for conn in conns)
        server.send_signal(signal.SIGTERM)
        came += sum(taken_samples(conn, 2 ** 64) for conn in conns)
    return log, came


def print_samples(program, top, more):
    """What a sample costs, and the functions that cost most of it."""
    (few, first), (many, second) = (counted_samples(program, ticks, more) for ticks in (8, 40))
    print(f"| {SAMPLE} | {(total(many) - total(few)) / (second - first):,.0f} |", flush=True)
    print_top(few, many, second - first, top)


def print_top(few, many, asked, top):
    """The functions that cost most."""
    if top:
        before, after = by_function(few), by_function(many)
        cost = {name: (after[name] - before.get(name, 0)) / asked for name in after}
        for function in sorted(cost, key=cost.get, reverse=True)[:top]:
            print(f"    {cost[function]:8.0f}  {function[:140]}")


def total(log):
    return int(re.search(r"^(?:summary|totals): (\d+)", pathlib.Path(log).read_text(), re.M)[1])


def by_function(log):
    said = subprocess.run(["callgrind_annotate", "--threshold=100", log], capture_output=True, text=True,
                          check=True).stdout
    return {name: int(count.replace(",", "")) for count,
            name in re.findall(r"^\s*([\d,]+) \([^)]*\)\s+\S*?:(.*?)(?: \[.*)?$", said, re.M)}


def print_table(program, kinds, top, more, still=False):
    """The table of these kinds of request, a dictionary as KINDS, and the functions that cost most of each."""
    asked = CONNECTIONS * DEPTH * (ROUNDS[1] - ROUNDS[0])
    print("| kind | instructions a request |\n|---|---|")
    with tempfile.TemporaryDirectory() as room, contextlib.chdir(room):
        pathlib.Path("plant.toml").write_text(toml_of(serve.plant(0, serve.SYMBOLS)))
        env = {**os.environ, "LD_PRELOAD": preload(room, "bench/still_clock.c")} if still else None
        for name, letters in kinds.items():
            if name == SAMPLE:
                print_samples(program, top, more)
                continue
            few, many = (counted(program, letters, rounds, more, env) for rounds in ROUNDS)
            print(f"| {name} | {(total(many) - total(few)) / asked:,.0f} |", flush=True)
            print_top(few, many, asked, top)


def main():
    it = argparse.ArgumentParser(description=__doc__, formatter_class=argparse.RawDescriptionHelpFormatter)
    it.add_argument("program", type=os.path.abspath)
    it.add_argument("--top", type=int, default=0)
    it.add_argument("--still", action="store_true")
    it.add_argument("words", nargs="*")
    given = it.parse_args()
    print_table(given.program, KINDS, given.top, given.words, given.still)


if __name__ == "__main__":
    main()
