"""deploy.py: a description that the server takes, and all that stays out of its place."""
import os
import shutil
import tempfile

from lib.program import run as run_program
from tries.deploy_pages import pages
from tries.fake_server import Fake, told
from tries.fit_values import fits
from tries.kept_values import kept_values
from tries.running import EXAMPLES, ME, NET, PLANT, Served, refused, see, tool


def text_of(name):
    with open(name, encoding="utf-8") as file:
        return file.read()


def changed(folder, name, *pairs):
    """plant.toml with other texts, as a file."""
    text = text_of(PLANT)
    for old, new in pairs:
        see(old in text, f"plant.toml has no {old!r}")
        text = text.replace(old, new, 1)
    path = os.path.join(folder, name)
    with open(path, "w", encoding="utf-8") as file:
        file.write(text)
    return path


def kept(place, before, status, part, *words):
    """Sees that deploy.py ends with this status, and that the place is as it was, with nothing beside it."""
    beside = set(os.listdir(os.path.dirname(place)))
    refused(status, part, "deploy.py", *words)
    see(
        text_of(place) == before and set(os.listdir(os.path.dirname(place))) == beside,
        f"deploy.py {words}: the place was touched",
    )


def taken(server, folder, place):
    moved = changed(folder, "moved.toml", ("offset = 0", "offset = 100"))
    os.chmod(place, 0o640)
    out, err, status = tool("deploy.py", moved, place, *server.words(), "--program", server.program)
    see(status == 0 and "version 1 became 2" in out, f"deploy.py: {out}{err}")
    see(
        text_of(place) == text_of(moved) and os.stat(place).st_mode & 0o777 == 0o640,
        "the place has not the new description, or other rights",
    )
    said, _ = run_program(server.program, "list", *server.words())
    see("Main.count 0x4040 100 4" in said, f"the server has not the new description: {said}")
    out, _, status = tool("deploy.py", moved, place, *server.words())
    see(status == 0 and "these very bytes already" in out, f"deploy.py of the same bytes: {out}")
    other_net = changed(folder, "net.toml", ('net = "5.1.2.3.1.1"', 'net = "6.6.6.6.1.1"'))
    kept(
        place,
        text_of(place),
        3,
        "1 of these lines take something away, and nothing was moved",
        other_net,
        place,
        *server.words(),
    )
    out, err, status = tool("deploy.py", other_net, place, *server.words(), "--yes")
    see(status == 0 and "version 2 became 3" in out, f"deploy.py of another NetId: {out}{err}")
    see(text_of(place + ".before") == text_of(moved), "the description before is not kept beside the new one")
    out, err, status = tool("deploy.py", place, "--rollback", *server.words(net="6.6.6.6.1.1"))
    see(
        status == 0 and "version 3 became 4" in out and text_of(place) == text_of(moved),
        f"deploy.py --rollback: {out}{err}",
    )
    out, err, status = tool("deploy.py", PLANT, place, *server.words())
    see(
        status == 0
        and "moved: Main.count of port 851: from data byte 100 to data byte 0" in out
        and "version 4 became 5" in out,
        f"deploy.py back: {out}{err}",
    )


def stays_out(server, folder, place):
    """What is refused does not come into the place."""
    before, other = text_of(place), changed(folder, "other.toml", ("offset = 0", "offset = 104"))
    own, beyond = ("offset = 0", "offset = 104"), ('net = "192.168.0.10.1.1"', 'net = "1.1.1.1.1.1"')
    foreign, on = changed(folder, "foreign.toml", own, beyond), server.words()
    no_route = changed(folder, "no_route.toml", (f'net = "{ME}"', 'net = "1.1.1.1.1.1"'))
    no_port = changed(folder, "no_port.toml", ("port = 851", "port = 852"))
    for status, part, name, words in (
        (2, "rule 12 item 1", os.path.join(EXAMPLES, "overlap.toml"), on),
        (2, "has no route", no_route, on),
        (2, "has no port 851", no_port, on),
        (4, "No such file", "/nowhere.toml", on),
        (9, "is 1.1.1.1.1.1 one of its routes?", foreign, server.words(me="1.1.1.1.1.1")),
        (8, "0x7 target machine not found", other, server.words(net="1.1.1.1.1.1")),
        (6, "can't be reached", other, ("--to", "127.0.0.1:1", "--netid", NET, "--me", ME)),
    ):
        kept(place, before, status, part, name, place, *words)
    with Fake(lambda frame: b"") as it:
        kept(
            place,
            before,
            11,
            "did not answer",
            other,
            place,
            "--to",
            it.to,
            "--netid",
            NET,
            "--me",
            ME,
            "--seconds",
            "1",
        )
    with Fake(told({0xF008: b"\1\2"})) as it:
        kept(place, before, 9, "where 1 were asked for", other, place, "--to", it.to, "--netid", NET, "--me", ME)
    for there, part in (("/nowhere/plant.toml", "can't be written"), (folder, "is a folder")):
        refused(4, part, "deploy.py", other, there, *on)
    aside = os.path.join(folder, "aside.toml")
    refused(7, "was it started with this file", "deploy.py", other, aside, *on, "--wait", "2")
    see(text_of(aside) == text_of(other), "the description stands where it was to stand")


# A change of plant.toml, what the plan says of it, and whether something is lost.
PLANNED = [
    (
        [("offset = 0", "offset = 100")],
        [
            "6 symbols keep value, handles and notifications, 1 of them at another place",
            "moved: Main.count of port 851: from data byte 0 to data byte 100; handles and notifications go on, clients by index offset reach other bytes",
        ],
        False,
    ),
    (
        [('type = "UINT"', 'type = "DINT"')],
        [
            "5 symbols keep value, handles and notifications",
            "value lost: Main.wave of port 851: its type was UINT and is DINT, so it begins anew; its handles are refused with 0x711, its notifications end",
        ],
        True,
    ),
    (
        [('type = "STRING(5)"', 'type = "STRING(6)"')],
        [
            "value lost: Main.axis of port 851: member label of Axis was STRING(5) and is STRING(6), so it begins anew; "
            "its handles are refused with 0x711, its notifications end"
        ],
        True,
    ),
    (
        [('name = "pos"', 'name = "POS"')],
        ["6 symbols keep value, handles and notifications", "nothing else changes for a client"],
        False,
    ),
    (
        [('name = "Flags.bits"', 'name = "Flags.other"')],
        [
            "gone: Flags.bits of port 851: its value is lost, its handles are refused with 0x711, its notifications end",
            "new: Flags.other of port 851",
        ],
        True,
    ),
    ([('rights = "control"', 'rights = "read"')], [f"rights taken away: {ME} had control and has read"], True),
    ([('rights = "read"', 'rights = "write"')], ["rights given: 192.168.0.10.1.1 had read and has write"], False),
    (
        [('net = "192.168.0.10.1.1"', 'net = "192.168.0.11.1.1"')],
        [
            "route taken away: 192.168.0.10.1.1 is turned away at its next request; "
            "until then it goes on receiving notifications",
            "rights given: 192.168.0.11.1.1 may read",
        ],
        True,
    ),
    (
        [("port = 851", "port = 852")],
        [
            "port gone: 851: requests to it are answered 0x6 target port not found; its 6 symbols, their handles and notifications end",
            "new port: 852 with 6 symbols",
        ],
        True,
    ),
    (
        [("persistent = true\n", "")],
        ["saved no more: Main.title of port 851: it is persistent no more, so its value is saved no more"],
        True,
    ),
    (
        [("signal = 2", "read_only = true")],
        ["read-only now: Main.wave of port 851: no client may write it any more"],
        True,
    ),
    (
        [("schema = 1", "schema = 2"), ("signal = 2", f'writers = ["{ME}"]')],
        [f"writers taken away: Main.wave of port 851: written by every route that may write, and now by {ME} alone"],
        True,
    ),
]


def planned(program, folder):
    """What --plan says; it moves nothing, and needs no server."""
    for number, (pairs, lines, is_loss) in enumerate(PLANNED):
        out, err, status = tool("deploy.py", changed(folder, f"planned{number}.toml", *pairs), PLANT, "--plan")
        see(
            status == (3 if is_loss else 0) and all(line in out.splitlines() for line in lines),
            f"the plan of {pairs}: status {status}: {out}{err}",
        )
    script, store = os.path.join(folder, "keep.script"), os.path.join(folder, "store")
    shutil.copy(os.path.join(EXAMPLES, "keep.script"), script)
    see(run_program(program, "keep", PLANT, script, store)[1] == 0, "no store was written")
    out, _, status = tool(
        "deploy.py", changed(folder, "same.toml", ("offset = 0", "offset = 104")), PLANT, "--plan", "--store", store
    )
    see(
        status == 0 and "store: 1 of 1 values fit the new description as they stand in it" in out.splitlines(),
        f"a plan with a store: {out}",
    )
    for most, lines, wanted in (
        (6, ["persistent values: 0 kept, 1 converted"], 0),
        (1, ["value left out: Main.title of port 851: the text has 2 letters, and STRING(1) holds 1; it has Hi"], 3),
    ):
        other = changed(
            folder,
            f"text{most}.toml",
            ('type = "STRING(7)"', f'type = "STRING({most})"'),
            ('initial = "4d69780000000000"', ""),
        )
        out, _, status = tool("deploy.py", other, PLANT, "--plan", "--store", store)
        see(
            status == wanted and all(line in out.splitlines() for line in lines),
            f"a plan of a stored value in STRING({most}): {out}",
        )
    refused(4, "No such file", "deploy.py", PLANT, PLANT, "--plan", "--store", os.path.join(folder, "nothing"))


def signals(folder, place):
    """A signal that adsd has: known by its configuration, in place of PLACE or beside it, or by a number."""
    four = changed(folder, "four.toml", ("signal = 2", "signal = 3"))
    config = os.path.join(folder, "adsd.toml")
    with open(config, "w", encoding="utf-8") as file:
        file.write(f'description = "{place}"\n' + "[[signal]]\nramp = 1\nperiod = 9\n" * 4)
    refused(2, "rule 14 item 3 (`ads` has 3, numbered from 0 (for `adsd` name its", "deploy.py", four, place, "--plan")
    refused(
        2, "rule 14 item 3 (--signals says 2, numbered from 0)", "deploy.py", four, place, "--plan", "--signals", "2"
    )
    for words in ((config,), (place, "--config", config), (place, "--signals", "4")):
        out, err, status = tool("deploy.py", four, *words, "--plan")
        see(status == 0 and "6 symbols keep value" in out, f"deploy.py {words}: {out}{err}")


def tried(program, size):
    refused(1, "DESCRIPTION is wanted", "deploy.py")
    refused(1, "--to and --netid and --me are wanted", "deploy.py", "a", "b")
    refused(1, "--rollback goes with PLACE alone", "deploy.py", "a", "b", "--rollback")
    refused(1, "--wait is a number", "deploy.py", "a", "b", "--to", "x", "--netid", NET, "--me", ME, "--wait", "no")
    with tempfile.TemporaryDirectory() as folder:
        place = os.path.join(folder, "plant.toml")
        shutil.copy(PLANT, place)
        planned(program, folder)
        refused(
            4,
            "no description was deployed over another",
            "deploy.py",
            place,
            "--rollback",
            "--to",
            "127.0.0.1:1",
            "--netid",
            NET,
            "--me",
            ME,
        )
        with Served(program, place) as server:
            taken(server, folder, place)
            stays_out(server, folder, place)
            signals(folder, place)
        taken_over, count = fits(), kept_values(program, folder, size) + pages(program, folder, size)
    return (
        f"five descriptions taken, among them another NetId and a rollback; ten kept out of the place; {len(PLANNED) + 2} plans; "
        f"{taken_over} changes of a type; a plant with recipes through its changes and {count} that were cut off"
    )
