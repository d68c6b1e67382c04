#!/usr/bin/env python3
"""A description of a server that runs: a controller, or a server of our own.

    python3 tools/describe.py --to HOST[:PORT] --netid NETID --me NETID > plant.toml

asks for its facts, symbols and types and writes a description that `ads check` accepts. `--me` is the own NetId, which must be a route of the server; `--port`
is the AMS port (851), and may stand more than once. With `--initial` each symbol begins with its present value. `--route NETID=RIGHTS`, which may stand more than
once, is a route of the description; without one `--me` may do everything. `--seconds` is how long an answer may take (5). `--out FILE` writes a file.

What a description can't hold (pointers, references, 16-bit texts, symbols outside the four areas, ..) is left out, with a comment line that says so; where a
member of a structure is left out, bytes stand in its place. No server tells its routes, writers and signals, and ours tells no values of its enumerations.

The status is 0, or 1 wrong words, 2 nothing that a description holds, 4 the file can't be written, 6 not reached, 8 refused, 9 no ADS, 11 no answer in time.
"""
import os
import sys

sys.path.insert(0, os.path.dirname(os.path.abspath(__file__)))
from lib import groups  # noqa: E402
from lib.codes import code_text  # noqa: E402
from lib.describing import Describing, description_text  # noqa: E402
from lib.entries import BadEntry, read_symbols, read_types  # noqa: E402
from lib.frames import INFO  # noqa: E402
from lib.link import GREATEST, Link, Refused, net_of  # noqa: E402
from lib.payloads import Request  # noqa: E402
from lib.rules_nets import RIGHTS  # noqa: E402
from lib.verdict import verdict_on  # noqa: E402
from lib.words import Ended, number, read_words, run  # noqa: E402

MOST_PARTS, MOST_BYTES = 500, 1000000


def facts_of(link, port):
    data = link.ask(port, Request(INFO))
    name = "".join(chr(byte) if 0x20 <= byte <= 0x7E else "?" for byte in data[4:20].split(b"\0")[0])
    return data[0], data[1], int.from_bytes(data[2:4], "little"), name


def upload(link, port, what, group, count, size, read):
    """The entries of an upload, whose number and bytes the server told before."""
    if size > GREATEST - 1024:
        raise Ended(f"{link.to} says that its {what} have {size} bytes; more than {GREATEST - 1024} are not asked for", 9)
    try:
        found = read(link.read(port, group, 0, size, size)) if size else []
    except BadEntry as fault:
        raise Ended(f"{link.to} sends no {what} of port {port}: {fault}", 9) from None
    if len(found) != count:
        raise Ended(f"{link.to} says that port {port} has {count} {what}, and sends {len(found)}", 9)
    return found


def counts_of(link, port):
    """The number and the bytes of the symbols, and of the types; none of types where the server does not tell them."""
    try:
        data = link.read(port, groups.TYPE_COUNTS, 0, 24, 24)
    except Refused:
        data = link.read(port, groups.COUNTS, 0, 8, 8) + bytes(8)
    return [int.from_bytes(data[at:at + 4], "little") for at in (0, 4, 8, 12)]


def size_of(link, port, group):
    try:
        return int.from_bytes(link.read(port, group, 0, 4, 4), "little")
    except Refused:
        return None


def take_values(link, port):
    """Gives each symbol its present bytes, asked for in sums."""
    left = list(port.symbols)
    while left:
        some, size = [], 0
        while left and len(some) < MOST_PARTS and (not some or size + left[0].entry.size <= MOST_BYTES):
            size += left[0].entry.size
            some.append(left.pop(0))
        for symbol, data in zip(some, link.read_all(port.number, [(it.entry.group, it.at, it.entry.size) for it in some])):
            named = symbol.shape.named()
            values = [named.number_bytes(value) for _, value in named.values] if named and named.base else [bytes(symbol.entry.size)]
            if named and named.base and data not in values:
                port.remarks.append(f"{symbol.name}: its present value is none of its enumeration, so it begins with the first of these")
            elif data is None:
                port.remarks.append(f"{symbol.name}: its present value can't be read, so it begins with zeros")
            elif data != values[0]:
                symbol.initial = data


def describe(link, numbers, initial):
    found = Describing()
    for port in numbers:
        try:
            facts = facts_of(link, port)
            symbols, symbol_bytes, types, type_bytes = counts_of(link, port)
            listed = upload(link, port, "symbols", groups.SYMBOLS, symbols, symbol_bytes, read_symbols)
            named = upload(link, port, "types", groups.TYPES, types, type_bytes, read_types)
            sizes = {area: size_of(link, port, group) for area, group in groups.SIZES.items()}
            described = found.port(port, facts, sizes, listed, named)
            if initial:
                take_values(link, described)
        except Refused as refused:
            raise Ended(f"{link.to} refuses port {port}: {code_text(refused.code)}", 8) from None
    return found


def routes_of(given, me):
    routes = [route.partition("=")[::2] for route in given] or [(me, "control")]
    for net, rights in routes:
        if net_of(net, "the NetId of --route") and rights not in RIGHTS:
            raise Ended(f"--route is NETID=RIGHTS with the rights read, write or control, and {rights!r} is none of them")
    return routes


def main(words):
    _, options = read_words(words, __doc__, [], {"to": None, "netid": None, "me": None, "port": [], "route": [], "initial": False, "seconds": "5", "out": ""})
    net, me = net_of(options["netid"], "--netid"), net_of(options["me"], "--me")
    ports = [number(port, "--port", 1, 65535) for port in options["port"]] or [851]
    routes, seconds = routes_of(options["route"], me), number(options["seconds"], "--seconds", 1, 3600)
    link = Link(options["to"], net, me, seconds)
    text = description_text(describe(link, ports, options["initial"]), net, routes)
    verdict = verdict_on(text.encode())
    if verdict.status:
        why = f": {verdict.broken[0].who}: {verdict.broken[0].why}" if verdict.broken else ""
        raise Ended(f"{link.to} can't be described: {verdict.lines[0][5:]}{why}", 2)
    if not options["out"]:
        print(text, end="")
        return 0
    try:
        with open(options["out"], "w", encoding="utf-8", newline="\n") as file:
            file.write(text)
    except OSError as fault:
        raise Ended(f"{options['out']}: {fault.strerror}", 4) from None
    return 0


if __name__ == "__main__":
    run(main)
