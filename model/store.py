"""The store of persistent symbols as a plain model, written from its format alone: what a file stands for, what a save
writes, what a stop leaves, and what `ads keep` prints and leaves of a file. model/keep_runs.py writes runs by it, and
tries/killed.py looks by it at what a killed program left. It shares nothing with the program or its definitions."""
import struct

import protocol
from ams import u16, u32

SECOND, LONGEST, LAST = 1048592, 1048576, 2 ** 64 - 1


def u64(n):
    return struct.pack("<Q", n)


# Bodies.


def form(types, kind):
    """The canonical text of a type in lower case, with the layout of each structure and the base of each enumeration
    that it names."""
    if kind[0] == "array":
        return f"array [{','.join(f'{low}..{low + count - 1}' for low, count in kind[1])}] of {form(types, kind[2])}"
    if kind[0] != "named":
        return types.text(kind).lower()
    it = types.named[kind[1].lower()]
    if "base" in it:
        return f"{it['name'].lower()}({it['base'].lower()})"
    return it["name"].lower() + "{" + "".join(f"{name.lower()}:{form(types, own)};" for name, own, _,
                                              _ in it["members"]) + "}"


def persistent(server):
    """(port, name, form, bytes) of each persistent symbol, in the order of ports and symbols."""
    for number, port in server.ports.items():
        for it in port.symbols.values():
            if it.get("persistent"):
                yield number, it["name"].encode(), form(port.types,
                                                        it["kind"]).encode(), bytes(port.areas[it["area"]][it["at"]:it[
                    "at"] + it["size"]])


def body_text(entries):
    return u32(len(entries)) + b"".join(u16(port) + u16(len(name)) + name + u64(len(form)) + form
                                        + u32(len(held)) + held for port, name, form, held in entries)


def body_of(server):
    return body_text(list(persistent(server)))


def entries_of(body):
    """The entries of a body text; None where the bytes are none."""
    try:
        (count,), at, found = struct.unpack_from("<I", body), 4, []

        def piece(some):
            nonlocal at
            if at + some > len(body):
                raise struct.error
            at += some
            return body[at - some:at]

        for _ in range(count):
            port, size = struct.unpack("<HH", piece(4))
            name = piece(size)
            form = piece(struct.unpack("<Q", piece(8))[0])
            found.append((port, name, form, piece(struct.unpack("<I", piece(4))[0])))
    except struct.error:
        return None
    return found if at == len(body) else None


# Files.


def slot_of(file, place):
    """(sequence, body) of a slot that counts."""
    head = file[place:place + 13]
    if len(head) < 13 or head[0] != 1:
        return None
    sequence, size = struct.unpack("<QI", head[1:])
    body = bytes(file[place + 13:place + 13 + size])
    return (sequence, body) if size <= LONGEST and len(body) == size and entries_of(body) is not None else None


def standing_of(file):
    """(whether it is the second slot, sequence, body) of what a file stands for; None where that is nothing."""
    first, second = slot_of(file, 0), slot_of(file, SECOND)
    if first and (not second or second[0] <= first[0]):
        return (False, *first)
    return (True, *second) if second else None


class Failed(Exception):
    pass


class Disk:
    """A file in memory of which the calls with these numbers fail; in the call of a stop, (number, tail), and in every
    later one the machine has stopped."""

    def __init__(self, file=b"", fails=(), stop=None):
        self.file, self.fails, self.stop, self.calls = bytearray(file), set(fails), stop, 0

    def call(self, write=None):
        self.calls += 1
        if self.stop and self.calls >= self.stop[0]:
            if self.calls == self.stop[0] and write:
                at, given = write
                self.put(at, self.stop[1][:len(given)])
            raise Failed
        if self.calls in self.fails:
            raise Failed

    def put(self, at, given):
        if given:
            self.file += bytes(max(0, at - len(self.file)))
            self.file[at:at + len(given)] = given

    def write(self, at, given):
        self.call((at, given))
        self.put(at, given)


class Limit(Exception):
    pass


class Store:
    """A store over a disk, which its file is read of as it opens: opened, synced, and each slot read once."""

    def __init__(self, disk):
        self.disk = disk
        for _ in range(4):
            disk.call()
        self.standing = standing_of(disk.file)

    def body(self):
        return self.standing and self.standing[2]

    def save(self, body):
        disk, before = self.disk, self.standing
        if len(body) > LONGEST or before and before[1] == LAST:
            raise Limit
        second, number = (not before[0], before[1] + 1) if before else (False, 1)
        place = SECOND if second else 0
        disk.call()
        gate = disk.file[place:place + 1]
        if gate in (b"", b"\1"):
            disk.write(place, b"\0")
            disk.call()
        disk.write(place + 1, u64(number) + u32(len(body)) + body)
        disk.call()
        disk.write(place, b"\1")
        disk.call()
        self.standing = second, number, body


# Runs.


def with_stored(d, body):
    """A description with the stored bytes as initial ones of each persistent symbol whose port, name, form and size are
    in the body."""
    server = protocol.Server(d, [])
    stored = {}
    for port, name, shape, held in entries_of(body) or []:
        stored.setdefault((port, name.lower(), shape, len(held)), held)
    ports = []
    for port in d["port"]:
        symbols = []
        for symbol in port.get("symbol", []):
            it = server.ports[port["port"]].symbols[symbol["name"].lower()]
            key = port["port"], symbol["name"].lower().encode(), form(server.types, it["kind"]).encode(), it["size"]
            held = stored.get(key) if symbol.get("persistent") else None
            symbols.append(symbol if held is None else dict(symbol, initial=held.hex()))
        ports.append(dict(port, symbol=symbols))
    return dict(d, port=ports)


def kept(d, signals, events, disk):
    """The status and the text of `keep`, and the bodies that the run had: what stood, then the body behind each tick,
    and that at the end."""
    bodies = []
    try:
        store = Store(disk)
        bodies.append(store.body())
        server, lines, saved = protocol.Server(with_stored(d, store.body()) if store.body() else d, signals), [], 0
        for event in [*events, None]:
            if event:
                protocol.turn(server, event, lines)
            if not event or event[0] == "tick":
                bodies.append(body_of(server))
                if bodies[-1] != store.body():
                    store.save(bodies[-1])
                    saved += 1
    except Failed:
        return 14, "ads: store fault\n", bodies
    except Limit:
        return 15, "ads: store limit\n", bodies
    return 0, "".join(line + "\n" for line in [*lines, server.summary(), f"saved {saved}"]), bodies
