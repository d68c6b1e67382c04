"""Tries of the file of a store under `adsd`: its name, its lock, its copies, its damage. tries/daemon.py makes them
with the others."""
import contextlib
import os
import pathlib
import re
import shutil
import signal
import socket
import struct
import subprocess
import tempfile
import time

import store
from adsd import reply, tried, until
from ams import request, u32
from daemon_store import in_folder, read_title, save, title_of, write_title
from under_test import PLANT, expect, free_port

WORDS = ["--store", "kept", "--save-each", "1"]
MOMENT = re.compile(r"kept\.before-\d{8}T\d{6}(?:-[1-9]\d*)?")
RENAMED = ('name = "Main.title"', 'name = "Main.label"')


class Scene:
    """A folder, and the daemons over the store in it."""

    def __init__(self, stack, program):
        self.stack, self.program = stack, program
        self.folder = pathlib.Path(stack.enter_context(tempfile.TemporaryDirectory()))
        self.kept = self.folder / "kept"

    def daemon(self, words=WORDS, **more):
        return in_folder(self.stack, self.program, str(self.folder), words, **more)

    def copies(self, name="kept.before-"):
        """The names of the copies, in their order, of those of one second by their numbers."""
        names = [it.name for it in self.folder.iterdir() if it.name.startswith(name)]
        return sorted(names, key=lambda it: (it.split("-")[1], int((it.split("-") + ["1"])[2])))

    def ends(self, it, status=0):
        """Ends a daemon; what its log says."""
        out, err, came, _ = it.stopped(signal.SIGTERM)
        expect(came == status, f"it ended with {came}, not {status}: {out!r}, {err[-800:]!r}")
        return err

    def refused(self, *words, status=14):
        """A start that ends before it listens; what it says."""
        it = self.daemon([*words, "--save-each", "1"], listens=False)
        try:
            out, err, came, _ = it.stopped()
        except subprocess.TimeoutExpired:
            expect(False, f"{words}: it does not end")
        expect(came == status and "listening" not in out + err, f"{words}: status {came}, {out!r}, {err!r}")
        return err


def scene(function):
    """A try over a scene."""
    def of(program):
        with contextlib.ExitStack() as stack:
            return function(Scene(stack, program))
    of.__name__, of.__doc__ = function.__name__, function.__doc__
    return tried(of)


def value_in(path):
    """The bytes of the persistent symbol in a store's file; None where nothing stands."""
    standing = store.standing_of(path.read_bytes())
    entries = store.entries_of(standing[2]) if standing else []
    return entries[0][3] if entries else None


def title_saved(it, kept, number):
    """Writes a title and waits till it stands in the file."""
    with it.link() as link:
        write_title(link, number, title_of(number))
    until(lambda: kept.exists() and value_in(kept) == title_of(number), f"{number} is not saved at {kept.name}")


# The name.


def away(kept, how):
    if how == "removed":
        kept.unlink()
    elif how == "moved":
        kept.rename(kept.with_name("elsewhere"))
    elif how == "replaced":
        shutil.copy(kept.with_name("older"), kept.with_name("newer"))
        kept.with_name("newer").rename(kept)
    elif how == "a folder moved and made anew":
        kept.parent.rename(kept.parent.with_name("other"))
        kept.parent.mkdir()


@scene
def the_name_leads_elsewhere(it):
    """The file is removed, moved, replaced or its folder moved: the next save stands under its name, and a start serves
    it."""
    seen = []
    for number, how in enumerate(("removed", "moved", "replaced", "a folder moved and made anew"), 1):
        place = it.folder / f"in{number}"
        place.mkdir()
        words, kept = ["--store", f"in{number}/kept", "--save-each", "1"], place / "kept"
        one = it.daemon(words)
        title_saved(one, kept, 10)
        shutil.copy(kept, place / "older")
        title_saved(one, kept, 11)
        away(kept, how)
        title_saved(one, kept, 12)
        err = it.ends(one)
        expect("was moved, replaced or removed; written anew at" in err, f"{how}: the log says {err!r}")
        copies = [path for path in place.iterdir() if MOMENT.fullmatch(path.name)]
        expect([value_in(path) for path in copies] == ([title_of(10)] if how == "replaced" else []),
               f"{how}: the copies are {copies}")
        again = it.daemon(words)
        expect(read_title(again) == title_of(12), f"{how}: the value was lost")
        it.ends(again)
        shutil.rmtree(place)
        shutil.rmtree(place.with_name("other"), ignore_errors=True)
        seen.append(how)
    return ", ".join(seen)


@scene
def removed_and_nothing_changes(it):
    """The file is removed, and no value changes any more: it is there again within a look, and behind the end."""
    one = it.daemon()
    title_saved(one, it.kept, 1)
    it.kept.unlink()
    until(it.kept.exists, "it is not written anew")
    it.kept.unlink()
    it.ends(one)
    expect(value_in(it.kept) == title_of(1), "it is not there behind the end")
    return "twice"


@scene
def a_folder_that_is_gone(it):
    """The folder of the store is gone: it is told, serving goes on, and the save stands once the folder is there
    again."""
    place = it.folder / "in"
    place.mkdir()
    words, kept = ["--store", "in/kept", "--save-each", "1", "--status", "status.prom"], place / "kept"
    one = it.daemon(words)
    title_saved(one, kept, 1)
    shutil.rmtree(place)
    with one.link() as link:
        write_title(link, 2, title_of(2))
    time.sleep(2.5)
    expect(one.asks() < 2, "it does not serve")
    place.mkdir()
    until(lambda: kept.exists() and value_in(kept) == title_of(2), "it is not saved once the folder is there again")
    time.sleep(1.5)
    err = it.ends(one)
    expect("store held: in/kept was moved, replaced or removed, and can't be written anew" in err
           and "saves go on" in err, f"the log says {err!r}")
    two = it.daemon(words)
    shutil.rmtree(place)
    err = it.ends(two, status=14)
    expect("store held" in err, f"the log says {err!r}")
    return "told, and saved again; status 14 where it stays away"


@scene
def links(it):
    """A link is followed: the copies stand at its target. A second daemon by a link or another name of the file is
    refused."""
    place = it.folder / "there"
    place.mkdir()
    it.kept.symlink_to("there/real")
    one = it.daemon()
    title_saved(one, place / "real", 1)
    os.link(place / "real", it.folder / "hard")
    (it.folder / "soft").symlink_to("there/real")
    for name in ("kept", "hard", "soft", "there/real", "there/../hard"):
        expect("another daemon keeps its values there" in it.refused("--store", name),
               f"{name} is not refused for the lock")
    err = it.ends(one)
    expect(f"store opened: kept, a link to {(place / 'real').resolve()}, 0 entries" in err, f"the log says {err!r}")
    two = it.daemon(change=RENAMED)
    err = it.ends(two)
    names = sorted(path.name for path in place.iterdir())
    expect(it.kept.is_symlink() and len(names) == 2 and names[1].startswith("real.before-"), f"there is {names}")
    expect(not (it.folder / "kept.lock").exists(), "a lock's file was made")
    return "five names refused, the copy is at the target"


@scene
def two_daemons_behind_a_removal(it):
    """The file is removed, and a second daemon makes it anew: the first one can't save, and says why; nothing is
    overwritten."""
    one = it.daemon()
    title_saved(one, it.kept, 1)
    it.kept.unlink()
    with contextlib.suppress(FileNotFoundError):
        two = it.daemon(["--store", "kept", "--save-each", "60"])
        with one.link() as link:
            write_title(link, 2, title_of(2))
        time.sleep(2.5)
        err = it.ends(one, status=14)
        expect("another daemon keeps its values there" in err, f"the first one says {err!r}")
        it.ends(two)
        expect(value_in(it.kept) == b"Mix\0\0\0\0\0", "the second one's values are lost")
    return "status 14 of the first, the second one's values stand"


# What is opened.


@scene
def no_regular_files(it):
    """A pipe, a folder, a device, a socket: a sentence and status 14 at once, and nothing is made."""
    os.mkfifo(it.folder / "pipe")
    (it.folder / "folder").mkdir()
    with socket.socket(socket.AF_UNIX) as door:
        door.bind(str(it.folder / "socket"))
    (it.folder / "to itself").symlink_to("to itself")
    (it.folder / "to the pipe").symlink_to("pipe")
    rows = {"pipe": "a pipe", "to the pipe": "a pipe", "folder": "a folder", "/dev/full": "a device",
            "/dev/null": "a device", "socket": "a socket"}
    before = sorted(os.listdir(it.folder))
    for name, word in rows.items():
        err = it.refused("--store", name)
        expect(f"adsd: {name}: it is {word}: name a regular file, or one that is not there yet\n" in err,
               f"{name}: {err!r}")
    for name in ("to itself", "none/kept", "plant.toml/kept", "n" * 300):
        err = it.refused("--store", name)
        expect(f"adsd: {name}: " in err and err.count("\n") == 1, f"{name[:20]}: {err!r}")
    expect(set(os.listdir(it.folder)) - {"plant.toml"} == set(before), f"there is {os.listdir(it.folder)}")
    (it.folder / "dangling").symlink_to("target")
    one = it.daemon(["--store", "dangling"])
    it.ends(one)
    expect(value_in(it.folder / "target") is not None, "a link to a file that is not there yet is not followed")
    return f"{len(rows) + 4} names"


@scene
def the_order_at_the_start(it):
    """A description that is refused or missing ends with 2 or 4, and nothing is made; also beside a store that can't be
    opened."""
    for change, status in ((("schema = 2", "schema = 9"), 2), (None, 4)):
        for name in ("kept", "none/kept", "/dev/null"):
            folder = it.folder / f"{status}{name.replace('/', '')}"
            folder.mkdir()
            words = [it.program, "plant.toml", "--store", name, "--listen", f"127.0.0.1:{free_port()}"]
            if change:
                text = pathlib.Path(PLANT).read_text()
                (folder / "plant.toml").write_text(re.sub(r"(?m)^schema = \d+$", "schema = 9", text))
            done = subprocess.run(words, cwd=folder, capture_output=True, text=True, timeout=20)
            left = sorted(os.listdir(folder))
            expect(done.returncode == status and left == (["plant.toml"] if change else []),
                   f"{status}, {name}: {done}, {left}")
            expect("store opened" not in done.stderr, f"the log says {done.stderr!r}")
    return "six starts"


# Damage.


def damages(file):
    """Files that are damaged, of one with both slots, by what is damaged."""
    second = store.SECOND
    yield "its first slot is marked as valid and can't be read", {9: file[9] ^ 0x40}
    yield "its first slot is marked as valid and can't be read", {11: 0xFF}
    yield "its second slot is marked as valid and can't be read", {second + 9: file[second + 9] ^ 1}
    yield "its first slot begins with a byte that is neither 0 nor 1", {0: 0x81}
    yield "its second slot begins with a byte that is neither 0 nor 1", {second: 2}
    said = "slot is marked as valid and can't be read"
    yield f"its first {said}, and its second {said}", {9: file[9] ^ 0x40, second + 9: file[second + 9] ^ 0x40}


@scene
def damaged_stores(it):
    """Damage of each kind ends a start with 14 and a sentence, and the file stays; with `begin` it is copied whole, and
    the rest is served."""
    one = it.daemon()
    for number in (1, 2):
        title_saved(one, it.kept, number)
    it.ends(one)
    good, tried_ = it.kept.read_bytes(), 0
    rows = [(what, bytes(changes.get(at, byte) for at, byte in enumerate(good))) for what, changes in damages(good)]
    rows += [("its first slot begins with a byte that is neither 0 nor 1", b"a letter\n"),
             ("its first slot is marked as valid and can't be read", b"\1"),
             ("its first slot is marked as valid and can't be read", good[:30])]
    for what, file in rows:
        it.kept.write_bytes(file)
        err = it.refused("--store", "kept")
        expect(f"adsd: kept: the store is damaged, {what}: " in err and err.count("\n") == 1, f"{what}: {err!r}")
        err = it.refused("--store", "kept", "--log", "journal")
        expect(err.startswith("<3>adsd: kept: the store is damaged"), f"{what}: {err!r}")
        expect(it.kept.read_bytes() == file and not it.copies("kept.damaged-"),
               f"{what}: it is another file, or was copied")
        tried_ += 1
    for file in (b"", bytes(5), bytes(store.SECOND + 20)):
        it.kept.write_bytes(file)
        two = it.daemon()
        it.ends(two)
        tried_ += 1
    return f"{tried_} files"


@scene
def begins_with_a_damaged_store(it):
    """With the word for it the file is copied whole, what can be read is served, and the next start finds nothing
    damaged."""
    one = it.daemon()
    for number in (1, 2, 3):
        title_saved(one, it.kept, number)
    it.ends(one)
    good = it.kept.read_bytes()
    later = 0 if store.standing_of(good)[0] is False else store.SECOND
    for places, wanted in (((later,), title_of(2)), ((0, store.SECOND), b"Mix\0\0\0\0\0")):
        file = bytearray(good)
        for place in places:
            file[place + 10] ^= 0x80
        it.kept.write_bytes(file)
        one = it.daemon([*WORDS, "--store-damaged", "begin"])
        expect(read_title(one) == wanted, f"{places}: it begins with {read_title(one)!r}")
        err = it.ends(one)
        copies = it.copies("kept.damaged-")
        expect("store: damaged, " in err and copies and (it.folder / copies[-1]).read_bytes() == bytes(file),
               f"{places}: {err!r}, {copies}")
        it.ends(it.daemon())
        for name in copies:
            (it.folder / name).unlink()
    return "one slot, and both"


# Copies.


@scene
def each_change_is_copied(it):
    """A symbol is renamed at each start: one copy for each, none overwritten, each with what stood before; then none
    without a change."""
    names = ["Main.title", *(f"Main.n{k}" for k in range(4))]
    for number, name in enumerate(names):
        one = it.daemon(change=('name = "Main.title"', f'name = "{name}"'))
        with one.link() as link:
            save(link)
        err = it.ends(one)
        if number:
            expect(f"no persistent symbol fits the entry {names[number - 1]}" in err, f"the log says {err!r}")
            expect(re.search(rf"store: copied to \S*kept\.before-\S+, 1 entries\n.*store: the save leaves out "
                             rf"{names[number - 1]}\n", err), f"the log says {err!r}")
        expect(len(it.copies()) == number, f"there are {it.copies()}")
    stood = [store.entries_of(store.standing_of((it.folder / name).read_bytes())[2])[0][1].decode()
             for name in it.copies()]
    expect(stood == names[:-1] and all(MOMENT.fullmatch(name) for name in it.copies()), f"the copies have {stood}")
    expect({(it.folder / name).stat().st_mode & 0o777 for name in it.copies()} == {it.kept.stat().st_mode & 0o777},
           "a copy has other rights")
    return f"{len(stood)} copies"


@scene
def the_last_twenty(it):
    """Twenty-five changes leave the last twenty copies; folders, links and files of other names stay."""
    plant, strange = it.folder / "plant.toml", ["kept.before", "kept.before-2026", "kept.before-20200101T000000-1",
                                                "kept.before-20200101T000000x", "kept.before-2020010AT000000"]
    (it.folder / "kept.before-20200101T000000").mkdir()
    (it.folder / "kept.before-20200101T000001").symlink_to("plant.toml")
    for name in strange:
        (it.folder / name).write_text("strange")
    (it.folder / "kept.before-20200101T000002").write_text("an old copy")
    one = it.daemon()
    text, seen = plant.read_text(), set()
    for number in range(1, 26):
        with one.link() as link:
            write_title(link, number, title_of(number))
        (it.folder / "next").write_text(text.replace('name = "Main.title"', f'name = "Main.n{number}"'))
        (it.folder / "next").rename(plant)
        until(lambda: len(seen | set(it.copies())) > len(seen | set())
              and any(name not in seen for name in it.copies() if number_of(it, name) == number),
              f"change {number} made no copy")
        seen |= set(it.copies())
    it.ends(one)
    numbers = sorted(number_of(it, name) for name in it.copies() if number_of(it, name))
    expect(numbers == list(range(6, 26)), f"the copies are of {numbers}")
    expect(not (it.folder / "kept.before-20200101T000002").exists(), "an old copy stays")
    expect((it.folder / "kept.before-20200101T000000").is_dir()
           and (it.folder / "kept.before-20200101T000001").is_symlink()
           and all((it.folder / name).exists() for name in strange), f"there is {sorted(os.listdir(it.folder))}")
    return f"{len(numbers)} copies"


def number_of(it, name):
    """The number in the title of a copy; 0 of what is none."""
    path = it.folder / name
    if not MOMENT.fullmatch(name) or not path.is_file() or path.is_symlink():
        return 0
    value = value_in(path)
    return int(value[:7]) if value and value[:7].isdigit() else 0


@scene
def newer_than_the_last_save(it):
    """A value that is newer than the last save goes by a new description: it stands in a copy at once, also where a
    stop comes right behind."""
    seen = 0
    for way in ("it is awaited", "SIGTERM right behind"):
        plant = it.folder / "plant.toml"
        one = it.daemon(["--store", "kept", "--save-each", "3600"])
        with one.link() as link:
            write_title(link, 1, title_of(77))
            plant.write_text(plant.read_text().replace(*RENAMED))
            if way == "it is awaited":
                until(lambda: bool(it.copies()), "no copy is made at the new description")
            else:
                until(lambda: handle_is_gone(link), "the new description is not taken")
        err = it.ends(one)
        found = [name for name in it.copies() if value_in(it.folder / name) == title_of(77)]
        expect(found and "no persistent symbol fits the entry Main.title" in err,
               f"{way}: the copies are {it.copies()}, and the log says {err!r}")
        expect(len(it.copies()) == 1, f"{way}: one change, and the copies are {it.copies()}")
        for name in (*it.copies(), "kept"):
            (it.folder / name).unlink()
        seen += 1
    return f"{seen} ways"


def handle_is_gone(link):
    """Whether no handle of Main.title is given any more."""
    link.sendall(request(9, 9, u32(0xF003, 0, 4, 10) + b"Main.title"))
    return struct.unpack("<I", reply(link)[1][:4])[0] == 0x710


@scene
def no_room_for_a_copy(it):
    """On a full disk nothing is left out: it is told, counted and served on; once there is room the copy is made and
    saves go on."""
    place = it.folder / "small"
    place.mkdir()
    if subprocess.run(["mount", "-t", "tmpfs", "-o", "size=256k", "tmpfs", str(place)],
                      stderr=subprocess.DEVNULL).returncode:
        return "not tried: no file system may be mounted here"
    it.stack.callback(subprocess.run, ["umount", "-l", str(place)])
    kept, plant = place / "kept", it.folder / "plant.toml"
    words = ["--store", "small/kept", "--save-each", "1", "--status", "status.prom"]
    one = it.daemon(words)
    for number in (1, 2):
        title_saved(one, kept, number)
    with open(place / "rest", "wb", buffering=0) as rest, contextlib.suppress(OSError):
        while True:
            rest.write(bytes(4096))
    with one.link() as link:
        write_title(link, 3, title_of(3))
        plant.write_text(plant.read_text().replace(*RENAMED))
        until(lambda: handle_is_gone(link), "the new description is not taken")
    until(lambda: "adsd_store_held 1\n" in (it.folder / "status.prom").read_text(), "the status file does not tell it",
          seconds=30)
    expect(value_in(kept) in (title_of(2), title_of(3)) and not copies_in(place),
           f"{value_in(kept)!r}, {os.listdir(place)}")
    expect(one.asks() < 2, "it does not serve")
    (place / "rest").unlink()
    until(lambda: copies_in(place), "no copy is made once there is room")
    until(lambda: b"Main.label" in kept.read_bytes(), "it is not saved once there is room")
    err = it.ends(one)
    expect(err.count("store held: no copy can be made beside") == 1 and "saves go on" in err, f"the log says {err!r}")
    expect([value_in(path) for path in copies_in(place)] == [title_of(3)],
           f"the copies have {[value_in(path) for path in copies_in(place)]}")
    expect("adsd_store_held 0\n" in (it.folder / "status.prom").read_text(), "the status file tells it still")
    return "held, then copied and saved"


def copies_in(place):
    return [path for path in place.iterdir() if MOMENT.fullmatch(path.name)]
