#!/usr/bin/env python3
"""Puts a description into its place under a running server, and sees that the server takes it and that no persistent
value is lost.

    python3 tools/deploy.py DESCRIPTION PLACE --plan
    python3 tools/deploy.py DESCRIPTION PLACE --to HOST[:PORT] --netid NETID --me NETID
    python3 tools/deploy.py PLACE --rollback --to HOST[:PORT] --netid NETID --me NETID

`--plan` only says what the new description changes: what becomes of each persistent value (kept, moved, converted or
left out), which symbols keep their handles and notifications, which routes, rights, ports and writers are lost, and
why. It needs no server; with --to, --netid and --me it looks at the server's values, with `--store FILE` at those of
a store.

Without `--plan` it checks the description and says the same. Where something is lost it wants `--yes`. It saves all
persistent values in PLACE.values-MOMENT-PORT.json, which only its owner may read and nothing overwrites. It moves
the description into PLACE in one step, waits until the server's symbol version has risen, and sets the values again
that the server would lose: members by their names, elements by their indexes, where they fit their type. What a
client wrote since stays. If it is cut off, the same command finishes it; so does `values.py restore` with that file.

The description that stood there is kept as PLACE.before, and `--rollback` brings it back, with its values: those of
before the deploy, but what was written since keeps its newest value.

What a page shows beside the values, DESCRIPTION.page.toml as tools/plant.py writes it, goes with the description to
PLACE.page.toml, and back with `--rollback`. Where DESCRIPTION has no such file, that of PLACE stays.

PLACE is the file that the server was started with: a description, or the configuration of adsd that names it.
`--netid` is the NetId that the server has now, `--me` the own one, a route of the server now and in the new
description; `--port` is the AMS port (851). `--wait` is how many seconds the version may take to rise (10),
`--seconds` how long an answer may take (5). `--program P` has `P check` look at the description, too. The new
description may have the three signals of `ads`; those of adsd are counted in its configuration (`--config FILE`, or
in place of PLACE), or said by `--signals N`.

A refused description never reaches PLACE; nor does one after which the server could not be asked any more, nor any
while the server does not answer.

The status is 0: it is taken, or PLACE has these very bytes already, or nothing is lost by the plan; or 1 wrong
words, 2 refused, 3 something would be lost and there is no --yes, 4 a file can't be read or written, 6 not reached,
7 the version did not rise, 8 refused by the server, or a value could not be set again, 9 no ADS, 11 no answer in
time.
"""
import os
import sys
import time

sys.path.insert(0, os.path.dirname(os.path.abspath(__file__)))
from lib.changed_server import Latest, Server  # noqa: E402
from lib.changes import MOST_NAMED, Changes  # noqa: E402
from lib.fates import Fates  # noqa: E402
from lib.files import read_bytes  # noqa: E402
from lib.page_words import beside, read_page_words  # noqa: E402
from lib.plant import Plant  # noqa: E402
from lib.program import program_at, run as run_program  # noqa: E402
from lib.saved import Persistent, Restoring, digest_of, earlier, keep, mark_of, read_kept, saved_in  # noqa: E402
from lib.signals import MOST, config_in, signals_of  # noqa: E402
from lib.source_meant import source_said  # noqa: E402
from lib.standing import Note, forget, noted, put, swap, swapped  # noqa: E402
from lib.stores import standing as standing_in  # noqa: E402
from lib.verdict import verdict_on  # noqa: E402
from lib.words import Ended, number, read_words, run  # noqa: E402


def checked(name, given, options):
    """The verdict on a description that is accepted."""
    verdict, program = verdict_on(given, options["counted"]), options["program"]
    if verdict.status:
        from_where = f" ({options['counted'].said})" if verdict.rule == 14 else ""
        right = source_said(verdict, given, name) or "tools/why.py says why"
        raise Ended(
            f"{name} is refused, and nothing was moved: {verdict.lines[0]}{from_where}; {right}", verdict.status
        )
    if program:
        said, status = run_program(program_at(program), "check", os.path.abspath(name))
        if status:
            raise Ended(f"{name} is refused by {program}, and nothing was moved: {said.strip()}", status)
    return verdict


def accepted(place):
    """The verdict on the description that stands in a place; None where none stands there."""
    verdict = verdict_on(read_bytes(place), MOST) if os.path.exists(place) else None
    return verdict if verdict and verdict.status == 0 else None


def can_be_asked(document, me, port):
    """Sees that the server will answer once it has the new description."""
    if me not in [route["net"] for route in document["route"]]:
        raise Ended(
            f"the new description has no route {me}, so the server could not be asked any more; nothing was moved", 2
        )
    if port not in [it["port"] for it in document["port"]]:
        raise Ended(
            f"the new description has no port {port}, so the server could not be asked there any more; "
            "nothing was moved: --port names another",
            2,
        )


# What the new description changes.


def earlier_of(place, before, after):
    """The files of the deploy that is taken back: what stands in PLACE came over a description of these symbols."""
    return earlier(place, mark_of(after, b""), mark_of(before, b"")) if before else {}


def planned(place, verdict, options):
    """What a description in PLACE changes, without a server: of the values only the types are known, or what a store
    has.
    """
    before, entries = accepted(place), None
    if options["store"]:
        found = standing_in(read_bytes(options["store"]))
        entries = found[1] if found else []
    fates = Fates(saved_in(before, entries), before, verdict, options["me"] or None, earlier_of(place, before, verdict))
    changes = Changes(before, verdict, fates.listed)
    if entries:
        changes.of_store(entries)
    elif entries is not None:
        changes.say(f"store: nothing is stored in {options['store']}")
    return changes, fates


def asked(server, place, verdict):
    """The same with the values that the server has now; and its persistent symbols."""
    before = accepted(place)
    ports = [port["port"] for it in (before, verdict) if it for port in it.document["port"]]
    persistent = [Persistent(server.values(port, before)) for port in dict.fromkeys(ports)]
    saved = [it for one in persistent for it in one.read()]
    fates = Fates(saved, before, verdict, server.me, earlier_of(place, before, verdict))
    return Changes(before, verdict, fates.listed), fates, persistent


def lost_by(changes, options):
    """What asks for --yes: whatever is taken away, but on the way back only values."""
    return changes.gone if options["rollback"] else changes.lost


def tell(changes, fates, place, options):
    if (
        options["rollback"]
        and not fates.earlier
        and any(fate.kind in ("converted", "left out") for fate in fates.listed)
    ):
        print("no file has the values from before the deploy, so what it left out begins anew")
    if fates.earlier and any(fate.parts for fate in fates.listed):
        files = " and ".join(kept.name for kept in fates.earlier.values())
        print(f"these symbols stood there before: what was not written since comes back from {files}")
    if not changes.before:
        print(
            f"no description stands at {place}, so nothing else is compared"
            if changes.fates
            else f"no description stands at {place}, so nothing is compared"
        )
    for line in changes.told():
        print(line)


class Page:
    """What a page shows, as it goes with a description; nothing where that of PLACE stays."""

    def __init__(self, name, place, verdict, is_back):
        self.own, self.place = beside(place) + ".before" if is_back else beside(name), beside(place)
        self.bytes = read_bytes(self.own) if os.path.exists(self.own) else None
        self.old = read_bytes(self.place) if os.path.exists(self.place) else None
        if self.bytes is not None and not is_back:
            read_page_words(self.own, Plant(verdict))

    def is_new(self):
        return self.bytes is not None and self.bytes != self.old

    def tell(self, is_done):
        if self.is_new():
            print(f"{self.own} {'stands' if is_done else 'goes with it, and will stand'} at {self.place}")
        elif self.bytes is None and self.old is not None:
            print(f"{self.place} stays as it is: there is no {self.own}")


def plan(name, place, given, options):
    """Says what a change comes to, and makes none."""
    verdict = checked(name, given, options)
    if noted(place):
        print(f"an earlier change of {place} is not finished: the next run without --plan finishes it")
    if options["to"] and options["netid"] and options["me"]:
        server = Server(options)
        server.version()
        changes, fates, _ = asked(server, place, verdict)
    else:
        changes, fates = planned(place, verdict, options)
    tell(changes, fates, place, options)
    Page(name, place, verdict, options["rollback"]).tell(False)
    if fates.restored():
        print(
            f"before the change all persistent values go to {place}.values-MOMENT-PORT.json; "
            "if it is cut off, the same command finishes it, or values.py restore FILE"
        )
    return 3 if lost_by(changes, options) and not options["yes"] else 0


# The values behind the change.


def by_hand(kepts, server, me):
    tool, words = (
        os.path.join(os.path.dirname(sys.argv[0]), "values.py"),
        f"--to {server.to} --netid {server.link.net} --me {me}",
    )
    return " and ".join(f"`python3 {tool} restore {it.name} {words}`" for it in kepts)


def named(paths):
    return ", ".join(paths[:MOST_NAMED]) + (f" and {len(paths) - MOST_NAMED} more" if len(paths) > MOST_NAMED else "")


def set_again(server, kepts, verdict):
    """Sets the values that a change lost; an Ended where some are refused, or where the server is gone."""
    done = [Restoring(kept, verdict) for kept in kepts]
    try:
        for it in done:
            values = server.values(it.kept.port, verdict)
            it.run(values)
            values.close()
    except Ended as end:
        raise Ended(
            f"{end.why}; the description is in its place, but not all values are set again: "
            f"the same command does that, or {by_hand(kepts, server, server.me)}",
            end.status,
        ) from None
    for it in done:
        if it.set:
            print(f"set again: {named(it.set)} of port {it.kept.port}")
        if it.newer:
            newer = named([f"{part.path} = {part.said()}" for part in it.newer])
            print(f"written since the change, so left as it is: {newer} of port {it.kept.port}")
    return [(path, why) for it in done for path, why in it.refused]


def finished(server, place, verdict, kepts):
    """Sets the values again, and forgets that there was a change; an Ended where some are refused."""
    refused = set_again(server, kepts, verdict)
    forget(place)
    if refused:
        said = "; ".join(f"{path}: {why}" for path, why in refused[:MOST_NAMED]) + (
            f"; and {len(refused) - MOST_NAMED} more" if len(refused) > MOST_NAMED else ""
        )
        raise Ended(
            f"the description is taken, but not all values are set again: {said}; "
            f"by hand: {by_hand(kepts, server, 'NETID')}",
            8,
        )


def finish(note, server, place):
    """Finishes a change that was cut off; gives its kind where it was made."""
    now, verdict = digest_of(read_bytes(place) if os.path.exists(place) else b""), accepted(place)
    if now == note.old:
        forget(place)
        print(f"an earlier change of {place} was cut off before it was made: nothing was lost by it")
        return None
    swapped(place)
    try:
        kepts = [kept for kept in map(read_kept, note.files) if kept.restored]
    except Ended as end:
        raise Ended(
            f"{end.why}; an earlier change of {place} is not finished: "
            f"remove {place}.unfinished to go on without its values",
            end.status,
        ) from None
    if kepts and now != note.new and mark_of(verdict, b"") != kepts[0].marks["to"]:
        forget(place)
        print(
            f"{place} is another description than that of a change that was cut off: "
            f"its values are in {', '.join(note.files)}"
        )
        return None
    if not kepts:
        forget(place)
        return note.kind
    server.version(verdict.document["net"])
    until = time.monotonic() + server.wait
    while not server.serves(kepts, verdict) and time.monotonic() < until:
        time.sleep(0.1)
    if not server.serves(kepts, verdict):
        forget(place)
        print(
            f"the server has not the types of {place}, so its values were not set; they are in {', '.join(note.files)}"
        )
        return note.kind
    print(f"the {note.kind} that was cut off is finished")
    finished(server, place, verdict, kepts)
    return note.kind


# The change.


def deploy(name, place, given, server, options):
    """Puts an accepted description into its place under the server."""
    verdict = checked(name, given, options)
    can_be_asked(verdict.document, server.me, server.port)
    old = server.version()
    now = read_bytes(place) if os.path.exists(place) else None
    page = Page(name, place, verdict, options["rollback"])
    if now == given:
        print(f"{place} has these very bytes already; the server has version {old}")
        if page.is_new() and not options["rollback"]:
            put(page.bytes, page.place)
            page.tell(True)
        return 0
    changes, fates, persistent = asked(server, place, verdict)
    tell(changes, fates, place, options)
    lost = lost_by(changes, options)
    if lost and not options["yes"]:
        what = "a value" if options["rollback"] else "something"
        raise Ended(f"{len(lost)} of these lines take {what} away, and nothing was moved: --yes takes it away", 3)
    files, latest = saved_before(place, now, given, fates, server), Latest(
        persistent, {fate.key() for fate in fates.listed if fate.kind == "converted"}
    )
    Note("rollback" if options["rollback"] else "deploy", digest_of(now or b""), digest_of(given), old, files).write(
        place
    )
    swap(given, place, now if now is not None and changes.before else None, page.bytes)
    kepts = [kept for kept in map(read_kept, files) if kept.restored]
    version = server.risen(verdict.document["net"], old, latest, lambda: server.serves(kepts, verdict))
    if version is None:
        raise Ended(
            f"{name} stands at {place}, but after {server.wait} s the server has version {old} still: "
            "was it started with this file, and may it read it?",
            7,
        )
    print(f"{name} stands at {place}, and the server has taken it: version {old} became {version}")
    page.tell(True)
    finished(server, place, verdict, newest(kepts, latest, fates))
    return 0


def saved_before(place, now, given, fates, server):
    """Writes the files of all values, and tells them."""
    saved = [fate.saved for fate in fates.listed if fate.kind != "back"]
    files = keep(
        place,
        server.link.net,
        saved,
        fates.restored(),
        {"from": mark_of(fates.before, now or b""), "to": mark_of(fates.after, given), "me": server.me},
    )
    if files:
        print(f"all persistent values are in {' and '.join(files)}")
    return files


def newest(kepts, latest, fates):
    """What is to be set again, as clients have left it."""
    saved = [fate.saved for fate in fates.listed if fate.kind != "back"]
    fresh = latest.over(saved)
    if fresh == saved:
        return kepts
    restored = Fates(fresh, fates.before, fates.after, fates.me, fates.earlier).restored()
    return [kept._replace(restored=restored.get(kept.port, {})) for kept in kepts]


# The words.


def configured(place, options):
    """The description that a configuration of adsd names in place of PLACE, with its store and its signals."""
    options["counted"] = signals_of(options)
    if os.path.isdir(place):
        raise Ended(f"{place} is a folder; PLACE is the file that the server reads", 4)
    config = config_in(read_bytes(place), place) if os.path.exists(place) else None
    if config is None:
        return place
    if not (options["config"] or options["signals"]):
        options["counted"] = config.signals
    options["store"] = options["store"] or (config.store if config.store and os.path.exists(config.store) else "")
    return os.path.realpath(config.description)


def words_in(words):
    """DESCRIPTION and PLACE, and the options. A rollback's description is what stood in PLACE before."""
    (first, second), options = read_words(
        words,
        __doc__,
        ["DESCRIPTION", "[PLACE]"],
        {
            "to": "",
            "netid": "",
            "me": "",
            "port": "851",
            "wait": "10",
            "seconds": "5",
            "program": "",
            "store": "",
            "config": "",
            "signals": "",
            "plan": False,
            "yes": False,
            "rollback": False,
        },
    )
    if options["rollback"] == bool(second):
        raise Ended(
            "--rollback goes with PLACE alone; --help says what is wanted"
            if second
            else "PLACE is wanted behind DESCRIPTION; --help says what that is"
        )
    place = configured(os.path.realpath(second or first), options)
    for name in ("wait", "seconds"):
        options[name] = number(options[name], f"--{name}", 1, 3600)
    return (place + ".before" if options["rollback"] else first), place, options


def given_at(name, place, options):
    if options["rollback"] and not os.path.exists(name):
        raise Ended(f"{name} is not there: no description was deployed over another at {place}", 4)
    return read_bytes(name)


def main(words):
    name, place, options = words_in(words)
    missing = [f"--{it}" for it in ("to", "netid", "me") if not options[it]]
    if options["plan"]:
        return plan(name, place, given_at(name, place, options), options)
    if missing:
        raise Ended(
            f"{' and '.join(missing)} {'is' if len(missing) == 1 else 'are'} wanted, or --plan; "
            "--help says what that is"
        )
    note = noted(place)
    if note is None:
        checked(name, given_at(name, place, options), options)
    server = Server(options)
    if note and finish(note, server, place) == "rollback" and options["rollback"]:
        return 0
    return deploy(name, place, given_at(name, place, options), server, options)


if __name__ == "__main__":
    run(main)
