#!/usr/bin/env python3
"""The values of a plant for people: read, set, watched, saved as recipes and compared, by name or pattern,
structures and arrays as JSON.

    python3 tools/values.py get 'Main.*' --to 127.0.0.1 --netid 5.1.2.3.1.1 --me 192.168.0.9.1.1

    values.py get NAME..                  the values; `--json` as one JSON object
    values.py set NAME=VALUE ..           sets them: -5, 1.5, true, Running (of an enumeration), T#1m30s, Water, [1, 2, 3], {"volume": 500.0}
    values.py watch NAME..                a line at each change, until Ctrl-C; `--seconds N` ends it
    values.py dump NAME.. [--out FILE]    a recipe as JSON, or as CSV with `--csv`
    values.py restore FILE [--plan]       sets what differs from a recipe; --plan only says what that is
    values.py diff FILE FILE              what differs between two recipes

A pattern has * and ?. An object sets the members that it names, a list the first elements of an array, both in
arrays of structures too; null leaves an element alone. All else stays as it is. Everything is checked before
anything is written, and is written in sums, so a server of ours takes it between two ticks where it fits one frame
of 500 parts. `restore --plan` refuses what the writing would refuse; which routes alone may write a symbol it knows
from --plant.

A file that deploy.py saved before a change has all persistent values; `restore` sets those that the change loses,
and with `--all` all of them. A recipe has the AMS port that it is of, which counts where no --port is given.

The server: --to HOST[:PORT] --netid NETID --me NETID [--port 851] [--plant FILE], a description, or a configuration
of adsd, that tells the names of enumerations; or `--at NAME`, a table [[server]] of a file (--servers FILE, else
~/.config/ads/servers.toml) with `name` and these keys. A file with one server needs no --at.

The status is 0, or 1 wrong words, 3 recipes differ, 4 a file can't be read or written, 6 not reached, 8 refused by
the server, 9 no ADS, 11 no answer in time, 13 no value of the type.
"""
import json
import os
import sys
import time

sys.path.insert(0, os.path.dirname(os.path.abspath(__file__)))
from lib.codes import code_text  # noqa: E402
from lib.files import read_bytes, write_text  # noqa: E402
from lib.recipes import Recipe, differences, read_recipe  # noqa: E402
from lib.servers import server_of  # noqa: E402
from lib.value_json import Raw, json_of, text_of  # noqa: E402
from lib.value_link import Values  # noqa: E402
from lib.value_parts import joined  # noqa: E402
from lib.words import Ended, number, read_words, run  # noqa: E402

SERVER = {"to": "", "netid": "", "me": "", "port": "", "plant": "", "at": "", "servers": ""}


def get(values, words, options):
    found = values.values(words)
    if options["json"]:
        print(json.dumps(found, ensure_ascii=False, indent=2))
    else:
        for name, value in found.items():
            print(f"{name} = {text_of(value)}")
    return 0


def set_(values, words, _):
    given = {}
    for word in words:
        name, equals, value = word.partition("=")
        if not equals:
            raise Ended(f"{word!r} is not NAME=VALUE")
        given[name] = Raw(value)
    return told(values.put(given))


def refused(codes):
    """Says of each path that is refused why; the status."""
    for path, code in codes:
        if code:
            print(f"{path}: refused, {code_text(code)}", file=sys.stderr)
    return 8 if any(code for _, code in codes) else 0


def told(codes):
    status, count = refused(codes), sum(1 for _, code in codes if code)
    print(f"{len(codes) - count} values set" + (f", {count} refused" if count else ""))
    return status


class Printer:
    """What a watching session tells, printed as lines."""

    frames = False

    def __init__(self, values):
        self.values = values

    def begin(self, knowns):
        for known in knowns:
            known.shape = self.values.own_shape(known) or known.shape
        return knowns

    def take(self, moment, pairs):
        date = time.strftime("%Y-%m-%dT%H:%M:%S", time.gmtime(moment // 10**9)) + f".{moment // 10 ** 6 % 1000:03d}Z"
        for item, data in pairs:
            value = text_of(json_of(item.own.shape, data)) if item.own.shape else "16#" + data.hex()
            print(f"{date} {item.own.name} = {value}", flush=True)

    @staticmethod
    def ended(item, why):
        print(f"{item.own.name}: {why}", file=sys.stderr, flush=True)

    @staticmethod
    def missing(words):
        for word in words:
            right = word.meant()
            print(
                f"{word}: the server has no such symbol" + (f"; {right}" if right else ""), file=sys.stderr, flush=True
            )

    @staticmethod
    def refused(known, why):
        print(f"{known.name}: {why}", file=sys.stderr, flush=True)


def watch(values, words, options):
    from lib.flow_session import Session

    seconds = number(options["seconds"], "--seconds", 1, 10**9) if options["seconds"] else None
    values.found(words)
    session = Session(
        values.link, values.port, words, "change", number(options["cycle"], "--cycle", 0, 2**32 - 1), Printer(values)
    ).open()
    until = None if seconds is None else time.monotonic() + seconds
    while until is None or time.monotonic() < until:
        session.step(0.2)
    session.close()
    return 0


def dump(values, words, options):
    recipe = Recipe(values.stream.net, values.port, values.values(words))
    text = recipe.csv() if options["csv"] else recipe.json()
    if options["out"]:
        write_text(options["out"], text)
    else:
        sys.stdout.write(text)
    return 0


def recipe_of(words, options):
    """The recipe of `restore`, and the AMS port that it is of."""
    if len(words) != 1:
        raise Ended("restore wants one FILE; --help says what that is")
    recipe = read_recipe(read_bytes(words[0]), words[0])
    options["port"] = options["port"] or str(recipe.port or "")
    if recipe.restored is None or options["all"]:
        return recipe.values
    what = (
        f"{len(recipe.restored)} of its values: these alone are restored"
        if recipe.restored
        else "none of its values: nothing is restored"
    )
    print(f"{words[0]} was saved before a change, which loses {what}; --all restores all")
    return recipe.restored


def restore(values, wanted, options):
    found = values.differing(wanted)
    if not found:
        print("nothing differs")
        return 0
    parts = [(known, joined(known.name, known.shape, [new for new, _ in pairs])) for known, pairs in found]
    if not options["plan"]:
        return told(values.put_parts([part for _, own in parts for part in own]))
    for _, pairs in found:
        for new, old in pairs:
            print(f"{new.path}: {old.said()} becomes {new.said()}")
    codes = values.refusals([known for known, _ in found])
    return refused([(part.path, code) for (_, own), code in zip(parts, codes) for part in own])


def diff(words):
    given, _ = read_words(words, __doc__, ["FILE", "FILE"], {})
    one, other = [read_recipe(read_bytes(name), name) for name in given]
    lines = differences(one.values, other.values)
    for line in lines:
        print(line)
    return 3 if lines else 0


KINDS = {
    "get": (get, {"json": False}),
    "set": (set_, {}),
    "watch": (watch, {"seconds": "", "cycle": "1000000"}),
    "dump": (dump, {"csv": False, "out": ""}),
    "restore": (restore, {"plan": False, "all": False}),
}


def main(words):
    if not words or "--help" in words or "-h" in words:
        read_words(["--help"], __doc__, [], {})
    if words[0] == "diff":
        return diff(words[1:])
    if words[0] not in KINDS:
        raise Ended(f"{words[0]!r} is none of {', '.join([*KINDS, 'diff'])}; --help says what they do")
    work, own = KINDS[words[0]]
    given, options = read_words(words[1:], __doc__, ["NAME", *["[NAME]"] * len(words)], {**SERVER, **own})
    given = [it for it in given if it is not None]
    if work is restore:
        given = recipe_of(given, options)
    link, port, plant = server_of(options)
    values = Values(link, port, plant)
    try:
        return work(values, given, options)
    finally:
        values.close()


if __name__ == "__main__":
    run(main)
