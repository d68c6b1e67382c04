#!/usr/bin/env python3
"""Moves the values of a server as a controller would, by functions in a Python file of yours.

    python3 tools/logic.py check examples/filling_logic.py --plant plant.toml
    python3 tools/logic.py run examples/filling_logic.py --to 127.0.0.1 --me 192.168.0.9.1.1 --plant plant.toml

    logic.py check FILE --plant DESCRIPTION   finds wrong names and values without a server
    logic.py run FILE                         runs the functions until Ctrl-C or kill

The file has `from logic import every, when, after, plant`: functions that run each so many seconds, when a value
changes, or some time later; plant["NAME"] reads and writes a value. docs/LOGIC.md says all of it.

`--report SECONDS` tells each so often how late the cycles were. `check --port N` is the AMS port of the names (851).

The server: --to HOST[:PORT] --me NETID [--netid NETID] [--port 851] [--plant DESCRIPTION], which tells the names of
enumerations; or `--at NAME`, a table [[server]] of a file (--servers FILE, else ~/.config/ads/servers.toml) with `name`
and these keys.

The status is 0, or 1 wrong words, or `check` found something; 2 FILE is no Python or has nothing to run, or the
description is refused; 3 a function ended by a fault; 4 a file can't be read. At the start: 6 not reached, 8 refused by
the server, 9 no ADS or no route, 11 no answer in time.
"""
import os
import sys

sys.path.insert(0, os.path.dirname(os.path.abspath(__file__)))
from lib.logic_functions import after, every, plant, seconds_of, when  # noqa: E402
from lib.words import Ended, number, read_words, run  # noqa: E402

__all__ = ["after", "every", "plant", "seconds_of", "when"]
SERVER = {"to": "", "netid": "", "me": "", "port": "", "plant": "", "at": "", "servers": ""}


def check_words(words):
    from lib.logic_check import findings
    (file,), options = read_words(words, __doc__, ["FILE"], {"plant": None, "port": "851"})
    found, count = findings(file, options["plant"], number(options["port"], "--port", 1, 65535))
    for line in found:
        print(line)
    print(f"{file}: " + (f"{len(found)} fault{'s' if len(found) > 1 else ''}" if found else f"ok, {count} names"))
    return 1 if found else 0


def run_words(words):
    from lib.logic_file import loaded
    from lib.logic_run import Running
    from lib.servers import chosen, server_of
    (file,), options = read_words(words, __doc__, ["FILE"], {**SERVER, "report": ""})
    report = number(options["report"], "--report", 1, 86400) if options["report"] else 0
    options = chosen({name: options[name] for name in SERVER})
    server = server_of(options)
    return Running(file, loaded(file), server, options["plant"], report).run()


KINDS = {"run": run_words, "check": check_words}


def main(words):
    if not words or "--help" in words or "-h" in words:
        read_words(["--help"], __doc__, [], {})
    if words[0] not in KINDS:
        raise Ended(f"{words[0]!r} is neither {' nor '.join(KINDS)}; --help says what they do")
    return KINDS[words[0]](words[1:])


if __name__ == "__main__":
    run(main)
