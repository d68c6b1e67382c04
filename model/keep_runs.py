"""Runs of `keep` in the form that model/hostile.py writes: what is saved behind which tick, what a stop of the machine
or a failing call of the disk leaves, and files that no store wrote; what must come is from the model of the store
(model/store.py). keep.runs has the plain cases, hostile_keep_*.runs the others."""
import copy

import hostile
import store

PLANT, SIGNALS = hostile.PLANT, hostile.SIGNALS
HELLO = bytes.fromhex("4869000000000000")


def file_text(file):
    """A file in hexadecimal, with so many zeros as zN."""
    parts, at = [], 0
    while at < len(file):
        end = at
        while end < len(file) and not file[end]:
            end += 1
        if end - at >= 16:
            parts.append(f"z{end - at}")
            at = end
            continue
        end = file.find(bytes(16), at)
        end = len(file) if end < 0 else end
        parts.append(bytes(file[at:end]).hex())
        at = end
    return " ".join(parts)


def put(number, given, at=72):
    return "bytes", 1, hostile.write(number, 0x4040, at, given)


def changed(*numbers):
    """One connection that writes each of these bytes, with a tick behind each write."""
    return [("open", 1)] + [event for k, n in enumerate(numbers, 1) for event in (put(k, bytes([n])), ("tick", k))]


def keep(said, events, file=b"", *, fails=(), stop=None, lines=(), **other):
    """A run of `keep` over a script: `change` are lines that change the text of the plant, and d the description that
    it then is."""
    disk, change = store.Disk(file, fails, stop), other.get("change", ())
    status, out, _ = store.kept(other.get("d") or PLANT, SIGNALS, events, disk)
    head = [f"# {line}" for line in said.splitlines()] + ["words keep plant.toml it.script store", "file plant.toml",
                                                          "from plant.toml", *change, "file it.script"]
    script = [line for event in events for line in hostile.lines_of(event, "plant2.toml")]
    handed = [f"disk {file_text(file)}"] if file else []
    handed += [f"fail-disk {it}" for it in fails] + ([f"stop {stop[0]} {stop[1].hex()}".rstrip()] if stop else [])
    left = [] if bytes(disk.file) == bytes(file) else [f"left {file_text(disk.file)}".rstrip()]
    return "\n".join([*head, *script, *handed, *lines, f"status {status}", "out",
                      *(f"| {line}" for line in out.splitlines()), *left]) + "\n"


def left_by(events, file=b"", **other):
    """The file that a run leaves."""
    disk = store.Disk(file, **other)
    store.kept(PLANT, SIGNALS, events, disk)
    return bytes(disk.file)


def slot(body, number=1, gate=1):
    return bytes([gate]) + store.u64(number) + store.u32(len(body)) + body


def both(first, second):
    return first + bytes(store.SECOND - len(first)) + second


def plant_with(edit):
    d = copy.deepcopy(PLANT)
    edit(next(it for it in d["port"][0]["symbol"] if it.get("persistent")))
    return d


GREETED = [("open", 1), put(1, HELLO), ("tick", 1)]
BODY = store.body_of(store.protocol.Server(PLANT, SIGNALS))
ENTRY = store.entries_of(BODY)[0]


def held(given):
    return store.body_text([(*ENTRY[:3], given)])


def cases():
    read = [("open", 1), ("bytes", 1, hostile.read(1, 0x4040, 72, 8))]
    yield keep("A write and a tick: the value is saved.", GREETED)
    yield keep("Another run reads it back, and saves nothing.", read, left_by(GREETED))
    yield keep("The same, with a tick: the body is that which stands.", [*read, ("tick", 1)], left_by(GREETED))
    yield keep("Three writes with a tick behind each: three saves, the third over the first.",
               changed(0x41, 0x42, 0x43))
    yield keep("A write behind the last tick is saved at the end.", [*changed(0x41), put(9, b"\x42")])
    yield keep("No tick at all: saved once, at the end.", [("open", 1), put(1, HELLO)])
    yield keep("No event at all: the first body is saved, since nothing stands.", [])
    yield keep("Two ticks and nothing between them: one save.", [*changed(0x41), ("tick", 2), ("tick", 3)])
    yield keep("A change that is taken back before the tick: no save for it.",
               [*changed(0x41), put(2, b"\x42"), put(3, b"\x41"), ("tick", 2)])
    yield keep("A write outside of persistent symbols is not saved.",
               [*changed(0x41), put(2, b"\x42\x43", 124), ("tick", 2)])
    yield keep("A reload behind a tick: the bytes of the symbol stay, and with them the body.",
               [*changed(0x41), ("reload", hostile.PLANT2), ("tick", 2)])
    yield keep("A reload that is refused changes nothing.", [*changed(0x41), ("reload", 2), ("tick", 2)])
    yield keep("Events of every other kind save nothing.",
               [("open", 1), ("open", 2), put(1, b"\x41"), ("close", 2), ("room", 1, 0), ("tick", 1)])
    gone = plant_with(lambda it: it.pop("persistent"))
    yield keep("No symbol is persistent: the body has no entry, and is saved once.", changed(0x41, 0x42),
               change=["change persistent = true => persistent = false"], d=gone)
    yield keep("The same over its own file: nothing is saved.", changed(0x41), slot(store.body_text([])),
               change=["change persistent = true => persistent = false"], d=gone)
    yield keep("A store of a symbol that is persistent no more: its initial bytes count, and the empty body is saved "
               "behind the other.", read, left_by(GREETED), change=["change persistent = true => persistent = false"],
               d=gone)


def files():
    """Files that no run over this plant left."""
    read = [("open", 1), ("bytes", 1, hostile.read(1, 0x4040, 72, 8)), ("tick", 1)]
    port, name, shape, was = ENTRY
    told = {
        "another form": (port, name, shape + b" ", HELLO[:len(was)]),
        "a form that begins alike": (port, name, shape[:-1], HELLO), "another port": (port + 1, name, shape, HELLO),
        "another name": (port, name + b"x", shape, HELLO), "a byte less": (port, name, shape, bytes(len(was) - 1)),
        "a byte more": (port, name, shape, bytes(len(was)) + b"\1"),
        "no name": (port, b"", shape, HELLO), "no bytes": (port, name, shape, b""),
    }
    for said, entry in told.items():
        yield keep(f"A stored entry of {said}: the symbol has its initial bytes, and the body is saved.", read,
                   slot(store.body_text([entry])))
    size = len(was)
    value = (HELLO * size)[:size]
    for said, other in {"in capitals": name.upper(), "in small letters": name.lower()}.items():
        yield keep(f"A stored name {said}: its bytes count; the body with the declared name differs, unless it is that "
                   f"name.", read, slot(store.body_text([(port, other, shape, value)])))
    yield keep("Two entries of one symbol: the first counts.", read,
               slot(store.body_text([(*ENTRY[:3], value), (*ENTRY[:3], bytes(size))])))
    yield keep("The second entry fits and the first does not.", read,
               slot(store.body_text([(port, name, b"x", bytes(size)), (*ENTRY[:3], value)])))
    good = slot(held(value), 7)
    for said, file in {"An empty slot 0 before a slot 1 that counts": both(bytes(13), good),
                       "Two slots that count: the second has the greater number": both(slot(BODY, 6), good),
                       "Two slots that count: the first has the greater number": both(good, slot(BODY, 6)),
                       "Two slots of one number: the first counts": both(slot(held(bytes(size)), 7), good),
                       "A gate that is 2": b"\2" + good[1:], "A gate that is 0": b"\0" + good[1:],
                       "A slot without its last byte": good[:-1], "A slot with a byte behind it": good + b"\xff",
                       "A body of no entries that says one": slot(store.u32(1)),
                       "A body of one entry that says two": slot(b"\2" + held(value)[1:]),
                       "A body with a byte behind its entries": slot(held(value) + b"\0"),
                       "A body without its first byte": slot(held(value)[1:]),
                       "A slot that says that its body has 1,048,577 bytes": b"\1"
                       + store.u64(1) + store.u32(store.LONGEST + 1) + BODY,
                       "A slot that says that its body has 4,294,967,295 bytes": b"\1"
                       + store.u64(1) + b"\xff\xff\xff\xff" + BODY, "Rubbish": bytes(range(256)) * 3,
                       "A file of one byte 1": b"\1", "A file of 12 bytes": good[:12],
                       "A damaged slot 0 before a slot 1 that counts": both(slot(BODY, 9)[
        :-1] + b"\xff", good)}.items():
        yield keep(f"{said}.", read, file)
    for number, said in ((store.LAST, "the last there is"), (store.LAST - 1, "the last but one")):
        yield keep(f"The standing number is {said}, and the body does not change.", [("open", 1), ("tick", 1)],
                   slot(BODY, number))
        yield keep(f"The standing number is {said}, and the body changes once, then again.", changed(0x41, 0x42),
                   slot(BODY, number))
    yield keep("A shorter body leaves the end of the longer one behind it.", changed(0x41),
               both(slot(store.body_text([ENTRY, (1, b"x" * 99, b"y" * 99, b"z" * 999)]), 3), slot(BODY, 4)))


def stops():
    """A stop of the machine in each call of the run with three saves, with tails of no byte, one byte, and all; and
    each failing call."""
    events = changed(0x41, 0x42, 0x43)
    disk = store.Disk()
    store.kept(PLANT, SIGNALS, events, disk)
    for number in range(1, disk.calls + 2):
        for tail in (b"", b"\1", b"\7", b"\1" * 8, b"\xff" * 200):
            said = ("nothing of what it was to write" if not tail
                    else f"bytes {tail[:8].hex()}{'..' if len(tail) > 8 else ''} at its place, where it is a write")
            yield keep(f"The machine stops in call {number} of the disk, with {said}.", events, stop=(number, tail))
        yield keep(f"Call {number} of the disk fails.", events, fails=(number,))
    yield keep("Calls beyond those of the run would fail.", events, fails=(disk.calls + 1, disk.calls + 9))


def again():
    """The store is opened again behind a stop, and stopped again: never an older body than the last that was
    acknowledged, and never one that was lost."""
    first = left_by(changed(0x41))
    calls = store.Disk(first)
    store.kept(PLANT, SIGNALS, changed(0x42), calls)
    for number in range(5, calls.calls + 1):
        for tail in (b"", b"\1", b"\7"):
            torn = left_by(changed(0x42), first, stop=(number, tail))
            yield keep(f"Behind a stop in call {number} of the second save, with {tail.hex() or 'nothing'} at its "
                       f"place: the next run saves what it has.", changed(0x43), torn)
            if tail:
                for later in range(5, 12):
                    yield keep(f"The same, and the next run stops in its call {later}, with 07 at its place.",
                               changed(0x43), torn, stop=(later, b"\7"))


def ends():
    """Files, scripts and output that fail: what stands on the disk stays, or what was saved."""
    words, plant, script = "keep plant.toml it.script store", ["file plant.toml", "from plant.toml"], [
        "file it.script", *(line for event in GREETED for line in hostile.lines_of(event, ""))]
    file = left_by(GREETED)
    disk = [f"disk {file_text(file)}"]
    for number in (1, 2):
        yield hostile.run(f"Reading {number} fails: the disk is not called.", words,
                          [*plant, *script, *disk, f"fail-read {number}", "fail-disk 1"], 4, "ads: read fault\n")
    yield hostile.run("The script is not there.", words, [*plant, *disk, "fail-disk 1"], 4, "ads: read fault\n")
    yield hostile.run("The description breaks a rule.", words,
                      [*plant, "change schema = 1 => schema = 3", *script, *disk, "fail-disk 1"], 2,
                      "ads: description rule 3 item 0\n")
    yield hostile.run("The script is off the grammar.", words,
                      [*plant, "file it.script", "| open 1", "| tick x", *disk, "fail-disk 1"], 3,
                      "ads: script line 2\n")
    yield hostile.run("The description is too long.", words,
                      ["file plant.toml", "repeat 1048577 0123456789abcdef", *script, *disk, "fail-disk 1"], 12,
                      "ads: file too long\n")
    status, text, _ = store.kept(PLANT, SIGNALS, GREETED, store.Disk())
    assert status == 0
    left = [f"left {file_text(left_by(GREETED))}"]
    for some in (0, 20, len(text) - 1):
        yield hostile.run(f"The output fails behind {some} bytes: what was saved stands.", words,
                          [*plant, *script, "fail-put 1", f"leave {some}", *left], 5, text[:some])
    yield hostile.run("Pieces of output beyond the first would fail.", words, [*plant, *script, "fail-put 2", *left], 0,
                      text)
    yield hostile.run("The store can't be opened, and the output can't be written either.", words,
                      [*plant, *script, "fail-disk 1", "fail-put 1"], 5, "")
    for text in ("keep plant.toml it.script", "keep plant.toml it.script store more",
                 "keep plant.toml it.script store --events 9", "keep --store store plant.toml it.script"):
        yield hostile.run("No words of a command.", text, [*disk, "fail-disk 1"], 1, "ads: usage\n")


SUBJECTS = {"keep": cases, "hostile_keep_files": files, "hostile_keep_stops": stops, "hostile_keep_again": again,
            "hostile_keep_ends": ends}
