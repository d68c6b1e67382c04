"""The faults of a day of tries/days.py: of the store's file, its folder, its disk. Each gives in words what it did."""
import contextlib
import os
import pathlib
import resource
import time

from days_day import SLOW
from days_plant import changed
from days_steps import step
from lib.stores import SECOND, slot_of, standing

# Faults of the file.


def behind_a_fault(day):
    """Behind a fault a save is due, or it is stopped."""
    how = f"writes {day.write(3)} values, " if day.chance.random() < 0.6 else ""
    if day.chance.random() < 0.3:
        day.again()
        day.look(alive=False)
        return how + "SIGTERM, start"
    how += f"waits: {day.wait()}"
    day.look()
    if day.chance.random() < 0.3:
        day.again(True)
        day.look(alive=False)
        how += ", kill -9, start"
    return how


@step(3, "store_file")
def away(day):
    """The store is removed, moved, replaced by an older copy or by a link."""
    real = pathlib.Path(os.path.realpath(day.kept))
    how = day.chance.choice(
        ("removed", "moved", "replaced by an older one", "replaced by a text", "a link in its place")
    )
    path = day.chance.choice((day.kept, real))
    if not real.exists():
        return "the store is not there"
    if how == "removed":
        path.unlink()
    elif how == "moved":
        path.rename(day.folder / f"aside{len(day.told)}")
    else:
        other = day.folder / f"other{len(day.told)}"
        what = {"replaced by a text": b"a letter\n", "replaced by an older one": day.older or b""}.get(
            how, day.chance.choice((day.older, b"", None))
        )
        if what is not None:
            other.write_bytes(what)
        if how == "a link in its place":
            path.unlink()
            path.symlink_to(other)
        else:
            os.replace(other, path)
    return f"the store is {how}, {behind_a_fault(day)}"


@step(2, "store_file")
def folder_away(day):
    """The folder of the store is renamed, and back."""
    away_, how = day.folder / "store.away", ""
    day.kept.parent.rename(away_)
    if day.chance.random() < 0.7:
        how += f"writes {day.write(3)} values, waits: {day.wait()}, "
    end = day.chance.choice(("goes on", "goes on", "kill", "stop"))
    if end == "kill":
        day.daemon.kill()
    elif end == "stop":
        day.stop()
    away_.rename(day.kept.parent)
    if end == "goes on":
        day.wait()
        day.look()
    else:
        day.start()
        day.look(alive=False)
    return f"the store's folder is renamed, {how}{end}, and back"


@step(1, "store_file")
def folder_anew(day):
    """The folder of the store is renamed with all in it, and made anew."""
    folder = pathlib.Path(os.path.realpath(day.kept)).parent
    if folder == day.folder:
        return "the store lies in the plant's own folder"
    other = day.folder / f"other folder {len(day.told)}"
    folder.rename(other)
    folder.mkdir()
    day.beside.moved(str(folder), str(other))
    return f"the store's folder is another one, {behind_a_fault(day)}"


@step(3)
def full(day):
    """The disk is full for a while: of the day's folder, which is a disk of its own, or by the limit of the process."""
    filler = day.folder / "filler"
    is_limit = not day.has["disk"] or day.chance.random() < 0.3
    if is_limit:
        least = day.chance.choice((0, 40, 4096, SECOND + 40))
        resource.prlimit(day.daemon.process.pid, resource.RLIMIT_FSIZE, (least, resource.RLIM_INFINITY))
    else:
        least = day.chance.choice((0, 0, 4096, 1 << 20))
        fill(filler, least)
    how = f"writes {day.write(3)} values, waits: {day.wait()}"
    day.look()
    if day.chance.random() < 0.6:
        variant, count = day.take(changed(day.chance, day.variant)), day.accepted()
        how += f", {by_hand(day, variant, count)}"
        day.look()
    end = day.chance.choice(("goes on", "goes on", "kill", "stop"))
    if end != "goes on":
        day.daemon.kill() if end == "kill" else day.stop()
        is_limit or filler.unlink()
        day.start()
        day.look(alive=False)
        return f"the disk is full ({least} bytes are left), {how}, {end}, room, start"
    if is_limit:
        resource.prlimit(
            day.daemon.process.pid, resource.RLIMIT_FSIZE, (resource.RLIM_INFINITY, resource.RLIM_INFINITY)
        )
    else:
        filler.unlink()
    return f"the disk is full ({least} bytes are left), {how}, room, waits: {day.wait()}"


def by_hand(day, variant, count):
    """A description that is put into its place while the disk is full, where it can be."""
    try:
        day.put(variant.text)
    except OSError:
        return "no room for a description"
    day.variant = variant
    taken = day.is_taken(count)
    return f"a description by hand ({variant.named()}): {taken}, waits: {day.wait()}"


def fill(path, least):
    """Fills the disk, but for so many bytes."""
    with open(path, "wb", buffering=0) as file:
        for size in (1 << 20, 1 << 16, 1 << 12):
            with contextlib.suppress(OSError):
                while file.write(bytes(size)) == size:
                    pass
        file.truncate(max(0, file.tell() - least))


# Damage, and a second daemon.


def is_damaged(data):
    return any(
        data[at : at + 1] not in (b"", b"\0", b"\1") or data[at : at + 1] == b"\1" and slot_of(data, at) is None
        for at in (0, SECOND)
    )


def damage(chance, data):
    """The bytes with a bit flipped, or cut, in a way that can be seen: the format has no checksum of values."""
    for _ in range(200):
        it = bytearray(data)
        at = chance.choice((0, SECOND)) + chance.randrange(14 + 20 * chance.randrange(2))
        if chance.random() < 0.4:
            del it[max(1, min(at, len(data) - 1)) :]
        elif at < len(it):
            it[at] ^= 1 << chance.randrange(8)
        if is_damaged(bytes(it)):
            return bytes(it)
    return None


@step(2, "--store-damaged")
def damaged(day):
    """A flipped bit or a cut between two runs: the start is refused, and then begun with."""
    is_killed = day.chance.random() < 0.3
    day.daemon.kill() if is_killed else day.stop()
    data = damage(day.chance, day.kept.read_bytes()) if day.kept.exists() else None
    if data is None:
        day.start()
        day.look(alive=False)
        return "nothing to damage"
    day.kept.write_bytes(data)
    day.refused((14,), "the store is damaged")
    if day.kept.read_bytes() != data:
        day.found("a start that is refused changes a damaged store")
    rest, before = standing(data), set(day.beside.copies)
    day.start("--store-damaged", "begin")
    until, copies = time.monotonic() + SLOW, []
    while not copies and time.monotonic() < until:
        time.sleep(0.02)
        copies = [path for path in tuple(day.beside.copies) if ".damaged-" in path and path not in before]
    if len(copies) != 1 or pathlib.Path(copies[0]).read_bytes() != data:
        day.found(f"the damaged store is not in one copy that the log names: {copies}, {day.daemon.log()}")
    wanted = day.book.of_store(rest[1]) if rest else {}
    server = day.daemon.numbers()
    odd = [
        path
        for path in set(server) | {path for path in wanted if path in server}
        if server.get(path) != wanted.get(path)
    ]
    if odd:
        day.found(f"behind damage it does not serve what stands: {odd[:4]}")
    day.written.forgive(day.places())
    return f"{'kill -9' if is_killed else 'SIGTERM'}, the store is damaged, begin"


@step(1, "store_file")
def second(day):
    """A second daemon over the same store, by its name or a link."""
    real, name = os.path.realpath(day.kept), day.chance.choice(("its name", "a symbolic link", "a hard link"))
    link = day.folder / f"link{len(day.told)}"
    words = day.words
    if name != "its name" and os.path.exists(real):
        os.symlink(real, link) if name == "a symbolic link" else os.link(real, link)
        day.words = ["--store", link.name]
    try:
        day.refused((14,), "another daemon keeps its values there")
    finally:
        day.words = words
        link.unlink(missing_ok=True)
    return f"a second daemon by {name}"
