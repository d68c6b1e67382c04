#!/usr/bin/env python3
"""Writes a description as people write one, imports one from TwinCAT, and changes one under a running server: for whoever puts a plant into operation.

    python3 tools/plant.py build LINE [--before PLANT] [--config FILE | --signals N] [--out FILE]
    python3 tools/plant.py import FILE [--net NETID] [--route NETID=RIGHTS] [--port N] [--offsets] [--x64] [--out FILE]

    python3 tools/plant.py build examples/line.toml --out plant.toml

`build` writes the description of a line. A line is a description in which the offsets and the sizes of the areas may be left out, and so may `schema` (2),
`area` ("data"), `major`, `minor`, `build` (1, 0, 0) and the numbers of an enumeration. Values stand as they are: -5, 1.5, true, "Kühl 1", "Running",
[1, 2, 3], { name = "Water", volume = 500.0 }, "T#1m30s", or hexadecimal as in a description. Members of structures may have an `initial`, too. A name
may have ranges: Valve{1..24} stands for 24 symbols. With --before PLANT each symbol that a running server keeps (of the same port, name and type) keeps its
place, and new ones stand behind all that was there. Every description is a line, and builds to itself. A symbol may have one of the three signals of `ads`;
for `adsd`, --config names its configuration, whose signals count, or --signals says how many there are.

A symbol or a member may say what a page shows beside its value: `unit`, `min`, `max`, `low`, `high`, `bits`, `alarm`, and a symbol its `group`. With --out
these stand beside the description, in PLANT.page.toml, where tools/page.py finds them; docs/PLANT.md has the table of them.

`import` writes a line from a TMC file of TwinCAT 3, a TPY file of TwinCAT 2, or a PLCopen XML export: its symbols, structures, enumerations, arrays, initial
values and persistent marks. What can't be carried over is noted in a comment at its place. The readers are written from the published forms of these files and
from knowledge of them, and tried on files that were written after these; no TwinCAT was at hand. `--net` is the NetId where the file has none; `--route`,
which may stand more than once, says who may connect; `--port` is the AMS port where the file has none (851); `--offsets` keeps the places of the controller. `--x64` takes
the layout of a controller of 64 bits, where the file has one beside that of 32.

`--out FILE` writes a file beside and renames it, so that no half of it is ever read; without it the text is printed. Each fault is a line on standard error:
the file and its line, the symbol, the key, what is wrong and what would be right. Then nothing is written. docs/PLANT.md has the whole way.

The status is 0, or 1 wrong words, 2 faults in the line or the file, 4 a file can't be read or written.
"""
import os
import sys

sys.path.insert(0, os.path.dirname(os.path.abspath(__file__)))
from lib.building import build  # noqa: E402
from lib.files import read_bytes, write_text  # noqa: E402
from lib.import_model import NoImport  # noqa: E402
from lib.importing import imported  # noqa: E402
from lib.link import net_of  # noqa: E402
from lib.page_words import WRITTEN, beside, empty_text  # noqa: E402
from lib.rules_nets import RIGHTS  # noqa: E402
from lib.signals import MOST, THREE, signals_of  # noqa: E402
from lib.verdict import verdict_on  # noqa: E402
from lib.words import Ended, number, read_words, run  # noqa: E402
from lib.xml_tree import MOST_BYTES, XmlFault  # noqa: E402


ADD_ROUTE = 'add for each client [[route]] with net = "192.168.0.9.1.1" (its own NetId) and rights = "control", or "read"'


def told(name, built):
    """Says the faults, a line each, and ends."""
    count = f"{built.count} faults" if built.count != 1 else "1 fault"
    more = f", of which {len(built.faults)} are listed" if built.count > len(built.faults) else ""
    raise Ended("\n".join([*(f"{name}:{fault}" for fault in built.faults), f"{name}: {count}{more}; nothing was written"]), 2)


def before_of(name):
    if not name:
        return None
    verdict = verdict_on(read_bytes(name), MOST)
    if verdict.status:
        raise Ended(f"{name} is refused: {verdict.lines[0]}; --before is the description that the server has; tools/why.py {name} says why", 2)
    return verdict


def beyond(document):
    """Whether a symbol has a signal that `ads` has not."""
    return any(symbol["signal"] is not None and symbol["signal"] >= THREE for port in document["port"] for symbol in port["symbol"])


def written(text, out, said):
    if not out:
        print(text, end="")
        return 0
    write_text(out, text)
    for line in said:
        print(line)
    return 0


def named(symbols):
    names = [symbol["name"] for symbol in symbols]
    return f"{len(names)}" + (f" ({', '.join(names[:5])}{', ..' if len(names) > 5 else ''})" if names else "")


def build_line(name, options):
    built = build(read_bytes(name), os.path.basename(name), before_of(options["before"]), signals_of(options))
    if built.faults:
        told(name, built)
    said = [f"{options['out']}: {line}" for line in built.verdict.lines]
    if built.before:
        it = built.before
        said.append(f"kept in their places: {len(it.kept)}; moved with their values: {named(it.moved)}; new: {named(it.fresh)}; gone: {named(it.gone)}")
    if beyond(built.verdict.document):
        said.append(f"it has signals of adsd: `adsd check {options['config'] or 'CONFIG'}` checks it; `ads` has three, and refuses it by rule 14")
    if options["out"] and os.path.exists(options["out"]) and os.path.samefile(options["out"], name):
        raise Ended(f"--out {options['out']} is the source itself; name another file", 1)
    if not built.verdict.document["route"]:
        said.append(nobody(options["out"]))
    written(built.text, options["out"], said)
    if options["out"]:
        write_page(built.page, beside(options["out"]), os.path.basename(name))
    return 0


def write_page(text, name, line):
    """The words of a page beside the description; where a line says none, none stay of an earlier one."""
    if text or (os.path.exists(name) and read_bytes(name, 200).startswith(WRITTEN.encode())):
        write_text(name, text or empty_text(line))


def import_file(name, options):
    net = net_of(options["net"], "--net") if options["net"] else None
    routes = [route.partition("=")[::2] for route in options["route"]]
    for own, rights in routes:
        if net_of(own, "the NetId of --route") and rights not in RIGHTS:
            raise Ended(f"--route is NETID=RIGHTS with the rights read, write or control, and {rights!r} is none of them")
    port = number(options["port"], "--port", 1, 65535) if options["port"] else None
    try:
        text, said = imported(read_bytes(name, MOST_BYTES + 1), os.path.basename(name), net, routes, port, options["offsets"],
                              options["x64"])
    except (XmlFault, NoImport) as fault:
        raise Ended(f"{name}:{fault.line}: {fault.why}", 2) from None
    return written(text, options["out"], [f"{options['out']}: {said}", *([] if routes else [nobody(options["out"])])])


def nobody(name):
    return f"{name}: nobody can connect, as it has no route; {ADD_ROUTE}"


def main(words):
    (what, name), options = read_words(words, __doc__, ["build or import", "FILE"], {
        "before": "", "out": "", "net": "", "route": [], "port": "", "offsets": False, "x64": False, "config": "", "signals": ""})
    if what == "build":
        wrong = [f"--{key}" for key in ("net", "route", "port", "offsets", "x64") if options[key]]
        if wrong:
            raise Ended(f"{wrong[0]} is an option of import; --help says more")
        return build_line(name, options)
    if what != "import":
        raise Ended(f"{what!r} is neither build nor import; --help says more")
    wrong = [f"--{key}" for key in ("before", "config", "signals") if options[key]]
    if wrong:
        raise Ended(f"{wrong[0]} is an option of build; --help says more")
    return import_file(name, options)


if __name__ == "__main__":
    run(main)
