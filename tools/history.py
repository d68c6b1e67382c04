#!/usr/bin/env python3
"""A history of a plant: records the values of any number of names without end, and exports, draws and takes in what was recorded.

    python3 tools/history.py record Main.count 'GVL.*' --to 127.0.0.1:48898 --netid 5.1.2.3.1.1 --me 192.168.0.9.1.1 --sqlite plant.db

records each value of these names, parts (`Main.axis[2].pos`) and patterns (`'GVL.*'`) into an SQLite file, or with `--postgres URL` into a database. It goes
on until it is ended (Ctrl-C, kill), comes again after the server or the database was gone, and marks each stretch of which nothing is known as a gap.
`--netid` is the NetId of the server (the address of HOST with .1.1 behind it), `--port` its AMS port (851), `--me` the own one, a route of the server.
`--mode change` (as it stands) records a value where it differs from the last one, `--mode cycle` in each cycle; `--cycle C` is the cycle in 100 ns (1000000,
a tenth of a second). `--keep-days N` takes away what is older. `--seconds N` ends it by itself. `--hold N` is how many samples wait in memory while the
database is away (1000000).

    python3 tools/history.py export NAME.. --sqlite FILE [--format csv|influx] [--from T] [--to T] [--gaps] [--out FILE]
    python3 tools/history.py plot NAME.. --sqlite FILE [--from T] [--to T] [--out FILE.svg]
    python3 tools/history.py import FILE.. --sqlite FILE --netid NETID [--port N] [--description FILE]

T is a moment, 2026-11-29T15:00:00 or 2026-11-29, in UTC. `import` takes files of `ads record`; the description says the types of its names.

PostgreSQL needs Debian's package python3-psycopg or python3-psycopg2, which serve /usr/bin/python3.

The status is 0, or 1 wrong words, 2 no such symbol in the history, 4 a file can't be read or written, 16 the database can't be opened, or takes no history.
Where `record` ends before it has a sample, its status is that of what hindered it: 6 not reached, 8 refused, 9 no ADS, 11 no answer in time.
"""
import os
import sys
import threading

sys.path.insert(0, os.path.dirname(os.path.abspath(__file__)))
from lib.flow_session import MODES  # noqa: E402
from lib.flow_words import link_of, many_words, say, watch_stop  # noqa: E402
from lib.history_out import exported, imported, plotted  # noqa: E402
from lib.history_record import Recorder  # noqa: E402
from lib.history_store import BROKEN, Away  # noqa: E402
from lib.history_writer import Writer  # noqa: E402
from lib.words import Ended, number, read_words, run  # noqa: E402

STORES = {"sqlite": "", "postgres": ""}
LAST_WORDS = 10


def store_of(options):
    if bool(options["sqlite"]) == bool(options["postgres"]):
        raise Ended("one of --sqlite FILE and --postgres URL is wanted; --help says what that is")
    if options["sqlite"]:
        from lib.history_sqlite import SqliteStore
        return SqliteStore(options["sqlite"])
    from lib.history_postgres import PostgresStore
    return PostgresStore(options["postgres"])


def record(words):
    names, options = many_words(words, __doc__, {
        **STORES, "to": None, "me": None, "netid": "", "port": "851", "mode": "change", "cycle": "1000000", "seconds": "", "keep-days": "", "hold": "1000000"})
    link, port, cycle = link_of(options), number(options["port"], "--port", 1, 65535), number(options["cycle"], "--cycle", 0, 2 ** 32 - 1)
    if options["mode"] not in MODES:
        raise Ended(f"--mode is change or cycle, and {options['mode']!r} is neither")
    seconds = number(options["seconds"], "--seconds", 1, 10 ** 9) if options["seconds"] else None
    days = number(options["keep-days"], "--keep-days", 1, 36500) if options["keep-days"] else None
    most = number(options["hold"], "--hold", 1000, 10 ** 9)
    stopped = threading.Event()
    writer = Writer(store_of(options), say, stopped)
    watch_stop(stopped)
    try:
        recorder = Recorder(link, port, names, options["mode"], cycle, writer, say)
    except Away as away:
        raise Ended(f"{writer.store.where}: {away}", BROKEN) from None
    writer.start()
    recorder.run(seconds, stopped, most, days)
    writer.stop(LAST_WORDS)
    print(f"recorded {writer.written} samples")
    return recorder.fault.status if recorder.fault and not writer.written else 0


def main(words):
    span = {**STORES, "from": "", "to": "", "out": ""}
    kinds = {"record": record, "export": lambda rest: exported(*many_words(rest, __doc__, {**span, "format": "csv", "gaps": False}), store_of),
             "plot": lambda rest: plotted(*many_words(rest, __doc__, span), store_of),
             "import": lambda rest: imported(*many_words(rest, __doc__, {**STORES, "netid": None, "port": "851", "description": ""}), store_of)}
    if "--help" in words or "-h" in words or not words:
        read_words(words or ["--help"], __doc__, [], {})
    if words[0] not in kinds:
        raise Ended(f"{words[0]!r} is none of {', '.join(kinds)}; --help says what they do")
    return kinds[words[0]](words[1:])


if __name__ == "__main__":
    run(main)
