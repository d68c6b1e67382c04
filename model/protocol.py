"""The server and the relay as plain models, written from the protocol alone: what a device answers to a script of `ads
replay`, and what `ads relay` passes on, byte for byte.

It shares nothing with the program or its definitions, and is written for reading, not for speed. `python3
model/random_runs.py` compares the two over random descriptions and scripts. A description is a dict with the keys of
its text; a script is a list of events (see `turn`).
"""
import math
import re
import struct

from ams import framed, in_frame, net_of, u16, u32

PLAIN = {
    "BOOL": (1, 33), "SINT": (1, 16), "USINT": (1, 17), "BYTE": (1, 17), "INT": (2, 2), "UINT": (2, 18),
    "WORD": (2, 18), "DINT": (4, 3), "UDINT": (4, 19),
    "DWORD": (4, 19), "TIME": (4, 19), "LINT": (8, 20), "ULINT": (8, 21), "LWORD": (8, 21), "REAL": (4, 4),
    "LREAL": (8, 5),
}
AREAS = ("inputs", "outputs", "memory", "data")
BYTES_OF = {0xF020: "inputs", 0xF030: "outputs", 0x4020: "memory", 0x4040: "data"}
BITS_OF = {0xF021: "inputs", 0xF031: "outputs", 0x4021: "memory"}
SIZE_OF = {0xF025: "inputs", 0xF035: "outputs", 0x4025: "memory", 0x4045: "data"}
GROUP_OF = {area: group for group, area in BYTES_OF.items()}
SUMS = (0xF080, 0xF081, 0xF082)
# The further sums of the wide server: reads that tell their lengths, and additions and deletions of notifications.
TOLD_SUMS, NOTE_SUMS = (0xF083, 0xF084), (0xF085, 0xF086)
MORE_SUMS = TOLD_SUMS + NOTE_SUMS
RIGHTS = {"read": 1, "write": 2, "control": 3}
LIVE, WATCHES, QUEUED, RECORDS, MOST = 4096, 512, 4194304, 4096, 2000000
# The greatest number of elements, and of bytes, of an array.
LIMIT = 1048576
# The least and the greatest index of a dimension.
ENDS = r"(?:0|-?[1-9][0-9]*)\.\.(?:0|-?[1-9][0-9]*)"


# Packets to a local router: it is asked for an AMS port, which stands behind (0: any), and for its NetId.
ASKS_PORT, ASKS_NET = b"\0\x10\2\0\0\0", b"\2\x10\0\0\0\0"


class Refused(Exception):
    def __init__(self, code):
        super().__init__(hex(code))
        self.code = code


# Types: ("plain", word), ("text", n), ("named", name), ("array", [(low, count)..], element).


def type_of(text):
    words = text.upper()
    found = re.fullmatch(r"ARRAY \[(.*)\] OF (.*)", words)
    if found:
        ends = [bound.split("..") for bound in found[1].split(",")]
        return "array", [(int(low), int(high) - int(low) + 1) for low, high in ends], type_of(text[found.start(2):])
    if words in PLAIN:
        return "plain", words
    if words == "STRING":
        return "text", 80
    found = re.fullmatch(r"STRING\((\d+)\)", words)
    return ("text", int(found[1])) if found else ("named", text)


class Types:
    """The named types of a description: structures with the places of their members, and enumerations. To the `wide`
    server's clients the id of an array is its element's."""

    def __init__(self, listed, wide=False):
        self.listed, self.named, self.wide = listed, {}, wide
        for entry in listed:
            self.named[entry["name"].lower()] = self.built(entry)

    def built(self, entry):
        if "base" in entry:
            return {"name": entry["name"], "base": entry["base"].upper(), "values": entry["value"]}
        at, align, members = 0, 1, []
        for member in entry["member"]:
            kind = type_of(member["type"])
            own = min(self.align(kind), 8)
            at = -(-at // own) * own
            members.append((member["name"], kind, at, member.get("comment", "")))
            at, align = at + self.size(kind), max(align, self.align(kind))
        return {"name": entry["name"], "members": members, "size": -(-at // align) * align, "align": align}

    def size(self, kind):
        if kind[0] == "plain":
            return PLAIN[kind[1]][0]
        if kind[0] == "text":
            return kind[1] + 1
        if kind[0] == "array":
            count = 1
            for _, some in kind[1]:
                count *= some
            return count * self.size(kind[2])
        it = self.named[kind[1].lower()]
        return PLAIN[it["base"]][0] if "base" in it else it["size"]

    def align(self, kind):
        if kind[0] == "plain":
            return PLAIN[kind[1]][0]
        if kind[0] == "text":
            return 1
        if kind[0] == "array":
            return self.align(kind[2])
        it = self.named[kind[1].lower()]
        return PLAIN[it["base"]][0] if "base" in it else it["align"]

    def text(self, kind):
        if kind[0] == "plain":
            return kind[1]
        if kind[0] == "text":
            return f"STRING({kind[1]})"
        if kind[0] == "array":
            return f"ARRAY [{','.join(f'{low}..{low + count - 1}' for low, count in kind[1])}] OF {self.text(kind[2])}"
        return self.named[kind[1].lower()]["name"]

    def number(self, kind):
        """The type id."""
        if kind[0] == "plain":
            return PLAIN[kind[1]][1]
        if kind[0] == "text":
            return 30
        it = self.named[kind[1].lower()] if kind[0] == "named" else {}
        return PLAIN[it["base"]][1] if "base" in it else 65

    def told(self, kind):
        """The type id that the entry of a symbol tells."""
        return self.number(kind[2] if self.wide and kind[0] == "array" else kind)

    def of_text(self, given):
        """The type that a text writes, in any case of letters; 0x710 where there is none, or an array is too large."""
        try:
            text = given.decode("ascii")
        except UnicodeDecodeError:
            raise Refused(0x710) from None
        array = re.fullmatch(rf"ARRAY \[({ENDS}(?:,{ENDS}){{0,2}})\] OF (.*)", text, re.IGNORECASE | re.DOTALL)
        if not array:
            return self.element(text)
        ends = [tuple(int(word) for word in bound.split("..")) for bound in array[1].split(",")]
        if any(low > high or low < -2 ** 31 or high >= 2 ** 31 for low, high in ends):
            raise Refused(0x710)
        kind = "array", [(low, high - low + 1) for low, high in ends], self.element(array[2])
        if math.prod(count for _, count in kind[1]) > LIMIT or self.size(kind) > LIMIT:
            raise Refused(0x710)
        return kind

    def element(self, text):
        if text.upper() in PLAIN:
            return "plain", text.upper()
        if text.upper() == "STRING":
            return "text", 80
        found = re.fullmatch(r"STRING\((0|[1-9][0-9]*)\)", text, re.IGNORECASE)
        if found and int(found[1]) <= 65534:
            return "text", int(found[1])
        if text.lower() not in self.named:
            raise Refused(0x710)
        return "named", text

    def entry_of(self, kind):
        """The entry of any type: of a named one that of the upload."""
        if kind[0] == "named":
            return self.entry(self.named[kind[1].lower()])
        if kind[0] == "array":
            return type_entry(self.size(kind), 0, self.number(kind[2]), 1, (self.text(kind), self.text(kind[2]), ""),
                              kind[1])
        return type_entry(self.size(kind), 0, self.number(kind), 1, (self.text(kind), "", ""))

    def step(self, kind, step):
        """The place of a part within its whole, its type, and its declared name and comment where it is a member."""
        if isinstance(step, str):
            members = self.named[kind[1].lower()].get("members", []) if kind[0] == "named" else []
            return next(((at, own, name, comment) for name, own, at,
                         comment in members if name.lower() == step.lower()), None)
        if kind[0] != "array" or len(kind[1]) != len(step):
            return None
        at = 0
        for (low, count), index in zip(kind[1], step):
            if not low <= index < low + count:
                return None
            at = at * count + index - low
        return at * self.size(kind[2]), kind[2], None, ""

    def same(self, kind, others, other):
        """Whether a type is another's: the same text, and the same layout of all that it names."""
        if self.text(kind) != others.text(other):
            return False
        while kind[0] == "array":
            kind, other = kind[2], other[2]
        if kind[0] != "named":
            return True
        one, two = self.named[kind[1].lower()], others.named[other[1].lower()]
        if "base" in one or "base" in two:
            return one.get("base") == two.get("base")
        pairs = list(zip(one["members"], two["members"]))
        return len(one["members"]) == len(two["members"]) and all(
            a[0].lower() == b[0].lower() and a[2] == b[2] and self.same(a[1], others, b[1]) for a, b in pairs)

    def upload(self):
        return b"".join(self.entry(self.named[entry["name"].lower()]) for entry in self.listed)

    def entry(self, it):
        if "base" in it:
            size, number = PLAIN[it["base"]]
            return type_entry(size, 0, number, 1, (it["name"], it["base"], ""))
        subs = [type_entry(self.size(kind), at, self.number(kind), 2, (name, self.text(kind), comment),
                           kind[1] if kind[0] == "array" else [])
                for name, kind, at, comment in it["members"]]
        return type_entry(it["size"], 0, 65, 1, (it["name"], "", ""), subs=subs)


def type_entry(size, at, number, flags, texts, dims=(), subs=()):
    """The entry of a type or a member: its texts are the name, the type and the comment."""
    texts = [text.encode() for text in texts]
    head = u32(1) + u32(0) + u32(0) + u32(size) + u32(at) + u32(number) + u32(flags) + b"".join(
        u16(len(text)) for text in texts) + u16(len(dims)) + u16(len(subs))
    rest = b"".join(text + b"\0" for text in texts) + b"".join(struct.pack("<iI", low, count) for low,
                                                               count in dims) + b"".join(subs)
    return u32(4 + len(head) + len(rest)) + head + rest


class Port:
    def __init__(self, types, d, version):
        self.types, self.number, self.d, self.version = types, d["port"], d, version
        self.state = (5, 0)
        self.areas = {area: bytearray(d.get(area, 0)) for area in AREAS}
        self.symbols = {}
        for symbol in d.get("symbol", []):
            kind = type_of(symbol["type"])
            it = dict(symbol, kind=kind, size=types.size(kind), area=symbol["area"], at=symbol["offset"])
            self.symbols[symbol["name"].lower()] = it
            self.put(it["area"], it["at"], self.initial(it))

    def initial(self, it):
        if "initial" in it:
            return bytes.fromhex(it["initial"])
        named = self.types.named[it["kind"][1].lower()] if it["kind"][0] == "named" else {}
        number = named["values"][0]["number"] if "base" in named else 0
        return (number % 2 ** (8 * it["size"])).to_bytes(it["size"], "little")

    def put(self, area, at, given):
        self.areas[area][at:at + len(given)] = given

    def facts(self):
        d = self.d
        return bytes([d["major"], d["minor"]]) + u16(d["build"]) + d["name"].encode().ljust(16, b"\0")

    def covering(self, area, at, count):
        """The symbols that have one of these bytes."""
        return [it for it in self.symbols.values() if it["area"] == area and it["at"] < at + count
                and at < it["at"] + it["size"]]

    def guard(self, area, at, count, source):
        for it in self.covering(area, at, count):
            writers = [net_of(text) for text in it.get("writers", [])]
            if it.get("read_only") or (writers and source not in writers):
                raise Refused(0x704)

    def find(self, name):
        """A name's symbol, place within it, type, declared path and comment; 0x710 where there is none."""
        text = name[:-1] if name[-1:] == b"\0" else name
        try:
            path = text.decode("ascii")
        except UnicodeDecodeError:
            raise Refused(0x710) from None
        steps = steps_of(path)
        if steps is None:
            raise Refused(0x710)
        for count in range(1, len(steps) + 1):
            if not isinstance(steps[count - 1], str):
                break
            it = self.symbols.get(".".join(steps[:count]).lower())
            if it:
                return self.part(it, steps[count:])
        raise Refused(0x710)

    def part(self, it, steps):
        at, kind, path, comment = 0, it["kind"], it["name"], it.get("comment", "")
        for step in steps:
            found = self.types.step(kind, step)
            if found is None:
                raise Refused(0x710)
            at, kind, comment = at + found[0], found[1], found[3]
            path += "." + found[2] if isinstance(step, str) else f"[{','.join(map(str, step))}]"
        return it, at, kind, path, comment

    def entry(self, it, at, kind, path, comment):
        texts = [text.encode() for text in (path, self.types.text(kind), comment)]
        flags = (1 if it.get("persistent") else 0) + (0x20 if it.get("read_only") else 0)
        head = u32(GROUP_OF[it["area"]]) + u32(it["at"] + at) + u32(self.types.size(kind)) + u32(self.types.told(
            kind)) + u32(flags)
        rest = b"".join(u16(len(text)) for text in texts) + b"".join(text + b"\0" for text in texts)
        return u32(4 + len(head) + len(rest)) + head + rest

    def upload(self):
        return b"".join(self.entry(*self.part(it, [])) for it in self.symbols.values())


def steps_of(path):
    """The steps of a path: names as texts, indexes as tuples; None off the grammar."""
    if len(path) > 1024:
        return None
    found, at = [], 0
    name, index = re.compile(r"[A-Za-z_][A-Za-z0-9_]*"), re.compile(r"\[(-?\d+)(?:,(-?\d+))?(?:,(-?\d+))?\]")
    while at < len(path) or not found:
        if path[at:at + 1] == "[" and found:
            it = index.match(path, at)
            if not it:
                return None
            words = [word for word in it.groups() if word is not None]
            if any(str(int(word)) != word or not -2 ** 31 <= int(word) < 2 ** 31 for word in words):
                return None
            found.append(tuple(map(int, words)))
        else:
            if found:
                if path[at] != ".":
                    return None
                at += 1
            it = name.match(path, at)
            if not it:
                return None
            found.append(it[0])
        at = it.end()
    return found


class Connection:
    def __init__(self):
        self.stream, self.handles, self.granted, self.watches, self.added = b"", {}, 0, {}, 0
        self.queue, self.queued, self.closing, self.blocked, self.room, self.fails = [], 0, False, False, None, False
        # (behind a local router: whether its first frame has begun)
        self.passed = False


def queued(conn, frame):
    """Whether a frame waits for a connection now. One that is closing is given nothing more, and one whose queue has no
    room becomes closing."""
    if conn.closing:
        return False
    if conn.queued + len(frame) > QUEUED:
        conn.closing = True
        return False
    conn.queue.append(frame)
    conn.queued += len(frame)
    return True


def packets(conn):
    """The AMS packets that came whole on a connection, each taken off its stream as it is asked for, while the
    connection is not closing; it becomes closing where no frame follows."""
    while not conn.closing:
        head = conn.stream[:6]
        if len(head) < 6:
            return
        length = struct.unpack("<I", head[2:])[0]
        if head[:2] != b"\0\0" or not 32 <= length <= 2097152:
            conn.closing = True
            return
        if len(conn.stream) < 6 + length:
            return
        ams, conn.stream = conn.stream[6:6 + length], conn.stream[6 + length:]
        yield ams


class Server:
    """A device with its clients. `signals` are the waves of the signals; `wide` is the profile: the strict server takes
    requests as they are written, the wide one for what TwinCAT's clients mean by them, and has `more` sums. `others` is
    the right of each NetId that no route names: none where it is None."""

    def __init__(self, d, signals, wide=False, others=None, more=MORE_SUMS):
        self.wide, self.others, self.sums = wide, RIGHTS.get(others), SUMS + tuple(more if wide else ())
        self.waves, self.places = signals, [0] * len(signals)
        self.moment, self.accepted, self.refused = 0, 0, 0
        self.opened, self.requests, self.replies, self.samples = 0, 0, 0, 0
        self.conns = {}
        self.describe(d, 1)

    def describe(self, d, version):
        self.d, self.net, self.types, self.version = d, net_of(d["net"]), Types(d.get("type", []), self.wide), version
        self.routes = {net_of(route["net"]): RIGHTS[route["rights"]] for route in d.get("route", [])}
        self.ports = {port["port"]: Port(self.types, port, version) for port in d["port"]}

    def rights_of(self, net):
        """What a NetId may do; None where it is let in by nothing."""
        return self.routes.get(net, self.others)

    # Frames.

    def produce(self, conn, frame, replies=0, samples=0):
        """Queues a frame, which counts for so much if it has room."""
        if queued(conn, frame):
            self.replies += replies
            self.samples += samples

    def take(self, conn):
        for ams in packets(conn):
            self.requests += 1
            self.frame(conn, ams)

    def frame(self, conn, ams):
        target, source = ams[:8], ams[8:16]
        command, flags, length, _, number = struct.unpack("<HHIII", ams[16:32])
        payload = ams[32:]

        def answer(error, reply):
            self.produce(conn, framed(source, target, command, 5, error, number, reply), replies=1)

        if length != len(payload):
            return answer(0xE, b"")
        if flags & 1:
            return None
        if flags != 4:
            return answer(0xB, b"")
        if self.rights_of(source[:6]) is None:
            conn.closing = True
            return None
        if target[:6] != self.net:
            return answer(7, b"")
        port = self.ports.get(struct.unpack("<H", target[6:])[0])
        if port is None:
            return answer(6, b"")
        if command == 8:
            return None
        if not 1 <= command <= 9:
            return answer(8, b"")
        try:
            reply = u32(0) + self.request(conn, port, source, command, payload)
        except Refused as refused:
            reply = u32(refused.code) + bytes({1: 20, 2: 4, 4: 4, 6: 4, 9: 4}.get(command, 0))
        return answer(0, reply)

    # Requests.

    def request(self, conn, port, source, command, payload):
        fixed = {1: 0, 2: 12, 4: 0, 6: 40, 7: 4}
        head = {3: 12, 5: 8, 9: 16}.get(command, 0)
        if command in fixed and len(payload) != fixed[command]:
            raise Refused(0x705)
        if head and (len(payload) < head or struct.unpack("<I", payload[head - 4:head])[0] != len(payload) - head):
            raise Refused(0x705)
        words = struct.unpack(f"<{len(payload[:head or 24]) // 4}I",
                              payload[:(head or 24) // 4 * 4]) if command not in (1, 4, 5) else ()
        if command == 1:
            return port.facts()
        if command == 2:
            given = self.read(conn, port, *words)
            return u32(len(given)) + given
        if command == 3:
            self.write(conn, port, source, words[0], words[1], payload[12:])
            return b""
        if command == 4:
            return u16(port.state[0]) + u16(port.state[1])
        if command == 5:
            ads, device = struct.unpack("<HH", payload[:4])
            if self.rights_of(source[:6]) < 3:
                raise Refused(0x704)
            if ads not in (5, 6):
                raise Refused(0x706)
            port.state = ads, device
            return b""
        if command == 6:
            return u32(self.add(conn, port, source, words))
        if command == 7:
            return self.delete(conn, port, words[0])
        given = self.read_write(conn, port, source, words, payload[16:])
        return u32(len(given)) + given

    def handle(self, conn, port, number):
        it = conn.handles.get(number)
        if it is None or it["port"] != port.number:
            raise Refused(0x710)
        if it["outdated"]:
            raise Refused(0x711)
        symbol = port.symbols[it["symbol"]]
        return symbol["area"], symbol["at"] + it["at"], it["size"]

    @staticmethod
    def span(port, area, offset, count):
        size = len(port.areas[area])
        if offset > size:
            raise Refused(0x703)
        if offset + count > size or count > MOST:
            raise Refused(0x705)

    def own(self, port):
        """A port's own bytes: ADS state, device state, and the version."""
        return u16(port.state[0]) + u16(port.state[1]) + bytes([self.version])

    @staticmethod
    def states(offset, count):
        if offset > 4:
            raise Refused(0x703)
        if offset + count > 4:
            raise Refused(0x705)

    @staticmethod
    def bit(port, area, offset, count):
        if offset // 8 >= len(port.areas[area]):
            raise Refused(0x703)
        if count != 1:
            raise Refused(0x705)

    def read(self, conn, port, group, offset, count):
        if group in BYTES_OF:
            self.span(port, BYTES_OF[group], offset, count)
            return bytes(port.areas[BYTES_OF[group]][offset:offset + count])
        if group in BITS_OF:
            self.bit(port, BITS_OF[group], offset, count)
            return bytes([port.areas[BITS_OF[group]][offset // 8] >> offset % 8 & 1])
        if group == 0xF005:
            area, at, size = self.handle(conn, port, offset)
            count = self.at_most(count, size)
            return bytes(port.areas[area][at:at + count])
        if group == 0xF100 and self.wide:
            self.states(offset, count)
            return self.own(port)[offset:offset + count]
        fixed = {
            **{it: lambda area=area: u32(len(port.areas[area])) for it, area in SIZE_OF.items()},
            0xF008: lambda: bytes([self.version]), 0xF00B: port.upload,
            0xF00C: lambda: u32(len(port.symbols)) + u32(len(port.upload())),
            0xF00E: self.types.upload,
            0xF00F: lambda: u32(len(port.symbols)) + u32(len(port.upload())) + u32(len(self.types.listed)) + u32(len(
                self.types.upload())) + bytes(8),
        }
        if group not in fixed:
            raise Refused(0x702)
        given = fixed[group]()
        if count < len(given) or (group == 0xF00E and len(given) > MOST):
            raise Refused(0x705)
        return given

    def write(self, conn, port, source, group, offset, given):
        if group == 0xF006:
            if len(given) != 4:
                raise Refused(0x705)
            number = struct.unpack("<I", given)[0]
            it = conn.handles.get(number)
            if it is None or it["port"] != port.number:
                raise Refused(0x710)
            del conn.handles[number]
            return
        if group not in BYTES_OF and group not in BITS_OF and group != 0xF005:
            raise Refused(0x702)
        if self.rights_of(source[:6]) < 2:
            raise Refused(0x704)
        if group in BITS_OF:
            area = BITS_OF[group]
            self.bit(port, area, offset, len(given))
            port.guard(area, offset // 8, 1, source[:6])
            mask = 1 << offset % 8
            port.areas[area][offset // 8] = port.areas[area][offset // 8] & ~mask | (mask if given[0] else 0)
            return
        if group == 0xF005:
            area, at, size = self.handle(conn, port, offset)
            if len(given) > size:
                raise Refused(0x705)
        else:
            area, at = BYTES_OF[group], offset
            self.span(port, area, offset, len(given))
        if given:
            port.guard(area, at, len(given), source[:6])
        port.put(area, at, given)

    def read_write(self, conn, port, source, words, given):
        if words[0] in self.sums:
            return self.sum(conn, port, source, words, given)
        return self.ask(conn, port, words[0], words[2], given)

    def ask(self, conn, port, group, most, given):
        if group == 0xF011 and self.wide:
            entry = self.types.entry_of(self.types.of_text(given.split(b"\0")[0]))
            if most < len(entry):
                raise Refused(0x705)
            return entry
        if group not in (0xF003, 0xF004, 0xF007, 0xF009):
            raise Refused(0x702)
        if (group == 0xF003 and most < 4) or (group == 0xF007 and most < 12):
            raise Refused(0x705)
        it, at, kind, path, comment = port.find(self.name(given))
        size = port.types.size(kind)
        start = it["at"] + at
        if group == 0xF003:
            if sum(not one["outdated"] for one in conn.handles.values()) >= LIVE:
                raise Refused(0x700)
            conn.granted += 1
            conn.handles[conn.granted] = {"port": port.number, "symbol": it["name"].lower(), "at": at, "size": size,
                                          "outdated": False}
            return u32(conn.granted)
        if group == 0xF004:
            return bytes(port.areas[it["area"]][start:start + self.at_most(most, size)])
        if group == 0xF007:
            return u32(GROUP_OF[it["area"]]) + u32(start) + u32(size)
        entry = port.entry(it, at, kind, path, comment)
        if most < len(entry):
            raise Refused(0x705)
        return entry

    def at_most(self, count, size):
        """How many bytes are read of a value where so many are asked."""
        if count > size and not self.wide:
            raise Refused(0x705)
        return min(count, size)

    def name(self, given):
        """The name that the data of a request is."""
        if not self.wide:
            return given
        given = given.split(b"\0")[0]
        return given[1:] if given.startswith(b".") else given

    def sum(self, conn, port, source, words, given):
        group, count, most = words[:3]
        if count > 500:
            raise Refused(0x706)
        width = head_width(group, count, len(given))
        if len(given) < width * count:
            raise Refused(0x705)
        heads = [struct.unpack(f"<{width // 4}I", given[width * k:width * (k + 1)]) for k in range(count)]
        written = [head[-1] if group in (0xF081, 0xF082) else 0 for head in heads]
        if len(given) != width * count + sum(written):
            raise Refused(0x705)
        asked = [head[2] if group in (0xF080, 0xF082, *TOLD_SUMS) else 0 for head in heads]
        greatest = (4 if group in (0xF080, 0xF081, 0xF086) else 8) * count + sum(asked)
        if most < greatest or greatest > MOST:
            raise Refused(0x705)
        at, results, data = width * count, b"", b""
        for head, own, room in zip(heads, written, asked):
            code, got = 0, b""
            try:
                got = self.part(conn, port, source, group, head, given[at:at + own])
            except Refused as refused:
                code = refused.code
            at += own
            results += u32(code) + (u32(len(got)) if group in (0xF082, *TOLD_SUMS) else got.ljust(4, b"\0")
                                    if group == 0xF085 else b"")
            data += got.ljust(room, b"\0") if group in (0xF080, 0xF083) else got if group in (0xF082, 0xF084) else b""
        return results + data

    def part(self, conn, port, source, group, head, given):
        """What a part of a sum of this group gives."""
        if group in (0xF080, *TOLD_SUMS):
            return self.read(conn, port, *head)
        if group == 0xF081:
            self.write(conn, port, source, head[0], head[1], given)
            return b""
        if group == 0xF085:
            return u32(self.add(conn, port, source, head[:6]))
        if group == 0xF086:
            return self.delete(conn, port, head[0])
        return self.ask(conn, port, head[0], head[2], given)

    def add(self, conn, port, source, words):
        group, offset, count, mode, _, cycle = words
        mode = {5: 3, 6: 4}.get(mode, mode) if self.wide else mode
        if mode not in (3, 4):
            raise Refused(0x713)
        if count > 2048:
            raise Refused(0x717)
        own = self.wide and group in (0xF008, 0xF100)
        if group not in BYTES_OF and group not in BITS_OF and group != 0xF005 and not own:
            raise Refused(0x702)
        bit = None
        if own and group == 0xF008:
            area, at = None, 4
            if count != 1:
                raise Refused(0x705)
        elif own:
            area, at = None, offset
            self.states(offset, count)
        elif group == 0xF005:
            area, at, size = self.handle(conn, port, offset)
            if count > size:
                raise Refused(0x705)
        elif group in BITS_OF:
            area, at, bit = BITS_OF[group], offset // 8, offset % 8
            self.bit(port, area, offset, count)
        else:
            area, at = BYTES_OF[group], offset
            self.span(port, area, offset, count)
        if count == 0:
            raise Refused(0x705)
        if len(conn.watches) >= WATCHES:
            raise Refused(0x716)
        conn.added += 1
        conn.watches[conn.added] = {
            "port": port.number, "to": source, "area": area, "at": at, "size": count, "bit": bit, "mode": mode,
            "cycle": cycle, "last": None, "sent": None}
        return conn.added

    @staticmethod
    def delete(conn, port, number):
        watch = conn.watches.get(number)
        if watch is None or watch["port"] != port.number:
            raise Refused(0x714)
        del conn.watches[number]
        return b""

    # Ticks and reloads.

    def notes(self, conn, samples, net):
        """Frames of samples (handle, watch, bytes): one for each port and address, in the order of the least handle."""
        groups = {}
        for number, watch, given in samples:
            groups.setdefault((watch["port"], watch["to"]), []).append((number, given))
        for (port, to), found in groups.items():
            stamp = struct.pack("<Q", self.moment) + u32(len(found)) + b"".join(u32(number) + u32(len(
                given)) + given for number, given in found)
            payload = u32(4 + len(stamp)) + u32(1) + stamp
            self.produce(conn, framed(to, net + u16(port), 8, 4, 0, 0, payload), samples=len(found))

    def tick(self, time):
        self.moment = max(self.moment, time)
        for number, wave in enumerate(self.waves):
            value = wave[self.places[number]]
            self.places[number] = (self.places[number] + 1) % len(wave)
            for port in self.ports.values():
                for it in port.symbols.values():
                    if it.get("signal") == number:
                        port.put(it["area"], it["at"], (value % 2 ** (8 * it["size"])).to_bytes(it["size"], "little"))
        for conn in self.conns.values():
            if not conn.closing:
                self.notes(conn, list(self.due(conn)), self.net)

    def due(self, conn):
        for number, watch in sorted(conn.watches.items()):
            if watch["last"] is not None and self.moment - watch["last"] < max(watch["cycle"], 1):
                continue
            port = self.ports[watch["port"]]
            held = self.own(port) if watch["area"] is None else port.areas[watch["area"]]
            given = bytes(held[watch["at"]:watch["at"] + watch["size"]])
            if watch["bit"] is not None:
                given = bytes([given[0] >> watch["bit"] & 1])
            if watch["last"] is None or watch["mode"] == 3 or given != watch["sent"]:
                watch["sent"] = given
                yield number, watch, given
            watch["last"] = self.moment

    def reload(self, d):
        """An accepted description, as a dict."""
        old, net = self.ports, self.net
        old_types = self.types
        self.accepted += 1
        self.describe(d, (self.version + 1) % 256)
        kept = set()
        for number, port in self.ports.items():
            before = old.get(number)
            if before is None:
                continue
            port.state = before.state
            for name, it in port.symbols.items():
                was = before.symbols.get(name)
                if was and old_types.same(was["kind"], self.types, it["kind"]):
                    kept.add((number, name))
                    port.put(it["area"], it["at"], before.areas[was["area"]][was["at"]:was["at"] + was["size"]])
        for conn in self.conns.values():
            if conn.closing:
                continue
            for it in conn.handles.values():
                it["outdated"] = it["outdated"] or (it["port"], it["symbol"]) not in kept
            ended = []
            for number, watch in sorted(conn.watches.items()):
                if watch["area"] is None:
                    if watch["port"] not in self.ports:
                        ended.append((number, watch, b""))
                        del conn.watches[number]
                    continue
                covering = old[watch["port"]].covering(watch["area"], watch["at"], watch["size"])
                was = covering[0] if len(covering) == 1 else None
                whole = was and was["at"] <= watch["at"] and watch["at"] + watch["size"] <= was["at"] + was["size"]
                if whole and (watch["port"], was["name"].lower()) in kept:
                    now = self.ports[watch["port"]].symbols[was["name"].lower()]
                    watch["area"], watch["at"] = now["area"], now["at"] + watch["at"] - was["at"]
                else:
                    ended.append((number, watch, b""))
                    del conn.watches[number]
            self.notes(conn, ended, net)


    def reloaded(self, it):
        """The line of a reload: of an accepted description, or of the number of the rule that one breaks."""
        if isinstance(it, int):
            self.refused += 1
            return [f"reload refused {it}"]
        self.reload(it)
        return [f"reload ok {self.version}"]

    def summary(self):
        return (f"connections {self.opened} requests {self.requests} replies {self.replies} samples {self.samples} "
                f"reloads {self.accepted} {self.refused}")


def head_width(group, count, length):
    """How many bytes the head of each part of a sum has; of an addition with the 16 bytes behind it that say nothing,
    or without them."""
    if group == 0xF085:
        return 24 if length == 24 * count else 40
    return {0xF082: 16, 0xF086: 4}.get(group, 12)


class Routed(Server):
    """The wide server behind a local AMS router: what a connection asks of that router before its first frame is
    answered, and all else is the server's."""

    def __init__(self, *given, **named):
        super().__init__(*given, **named)
        self.router = self.net

    def take(self, conn):
        if not conn.passed:
            answer, conn.stream, conn.passed = router_answer(self.router, conn.stream)
            if answer:
                queued(conn, answer)
        if conn.passed:
            super().take(conn)


def router_answer(net, text):
    """What a local router of this NetId answers to the first bytes of a connection, what is left of them, and whether
    that is the server's: it waits where it begins a packet to the router."""
    answer = b""
    while True:
        if text[:6] == ASKS_PORT and len(text) >= 8:
            port = struct.unpack("<H", text[6:8])[0] or 32768
            answer, text = answer + b"\0\x10" + u32(8) + net + u16(port), text[8:]
        elif text[:6] == ASKS_NET:
            answer, text = answer + b"\2\x10" + u32(6) + net, text[6:]
        else:
            return answer, text, not ASKS_NET.startswith(text) and not ASKS_PORT.startswith(text[:6])


class Relay:
    """A router between connections, each of which owns the NetId of the frames that it sends. Of a description it uses
    the routes alone."""

    def __init__(self, d):
        self.routes = {net_of(route["net"]) for route in d.get("route", [])}
        self.opened, self.frames, self.passed, self.unknown = 0, 0, 0, 0
        # (asked: the asker, the asked, and what a response to the request says of itself; the oldest first)
        self.conns, self.owned, self.asked = {}, {}, []

    def heard(self):
        """The connections that are there and not closing."""
        return {conn for conn in self.conns.values() if not conn.closing}

    def owner(self, net):
        return next((conn for conn in self.heard() if self.owned.get(conn) == net), None)

    def take(self, conn):
        for ams in packets(conn):
            self.frames += 1
            self.frame(conn, ams)

    def frame(self, conn, ams):
        target, source = ams[:8], ams[8:16]
        command, flags, length, _, number = struct.unpack("<HHIII", ams[16:32])
        whole, own = in_frame(ams), self.owned.get(conn)
        if length != len(ams) - 32 or source[:6] not in self.routes or (own != source[:6] if own else self.owner(source[
            :6])):
            conn.closing = True
            return
        self.owned[conn] = source[:6]
        if flags & 1:
            self.response(conn, (target, source, command, number), whole)
            return
        to = self.owner(target[:6])
        if to and queued(to, whole):
            self.passed += 1
            if command != 8:
                self.remember(conn, to, (source, target, command, number))
            return
        self.unknown += 1
        if command != 8:
            queued(conn, framed(source, target, command, 5, 7, number, b""))

    def response(self, conn, said, whole):
        """A response: to the asker of the oldest request that it answers, which is spent; else nobody is told."""
        for at, (asker, asked, wanted) in enumerate(self.asked):
            if asked is conn and wanted == said and asker in self.heard():
                del self.asked[at]
                self.passed += queued(asker, whole)
                return

    def remember(self, asker, asked, wanted):
        """A request is remembered, among the last 4,096 of its asker. Those of connections that are gone or closing are
        forgotten."""
        self.asked.append((asker, asked, wanted))
        if len(self.asked) > RECORDS:
            # (no sooner can there be too many of one)
            heard = self.heard()
            self.asked = [it for it in self.asked if it[0] in heard and it[1] in heard]
            own = [it for it in self.asked if it[0] is asker]
            if len(own) > RECORDS:
                self.asked.remove(own[0])

    def tick(self, time):
        """Nothing."""

    def reloaded(self, it):
        """Another description changes nothing, and no line tells of it."""
        return []

    def summary(self):
        return f"connections {self.opened} frames {self.frames} passed {self.passed} unknown {self.unknown}"


def play(d, signals, events, wide=False, others=None, more=MORE_SUMS):
    """What `replay` prints of these events, with its summary; with `wide`, what it would print of the wide server with
    `more` sums."""
    return played(Server(d, signals, wide, others, more), events)


def relayed(d, events):
    """What `relay` prints of them."""
    return played(Relay(d), events)


def played(machine, events):
    lines = []
    for event in events:
        turn(machine, event, lines)
    return "".join(line + "\n" for line in [*lines, machine.summary()])


def turn(machine, event, lines):
    """One event of a server or a relay, and the offers behind it: ("open", C), ("bytes", C, given), ("close", C),
    ("tick", T), ("reload", description or number of a broken rule), ("room", C, N), ("fail", C)."""
    kind, conn = event[0], machine.conns.get(event[1]) if event[0] not in ("tick", "reload") else None
    if kind == "open":
        machine.conns[event[1]] = Connection()
        machine.opened += 1
    elif kind == "bytes" and conn and not conn.closing:
        conn.stream += event[2]
        machine.take(conn)
    elif kind == "close" and conn:
        del machine.conns[event[1]]
    elif kind == "tick":
        machine.tick(event[1])
    elif kind == "reload":
        lines += machine.reloaded(event[1])
    elif kind == "room" and conn:
        conn.room, conn.blocked = event[2], False
    elif kind == "fail" and conn:
        conn.fails = True
    if kind != "fail":
        for number in list(machine.conns):
            serve(machine, number, lines)


def serve(machine, number, lines):
    """The offers of one connection behind an event."""
    conn = machine.conns[number]
    while conn.queue and not conn.blocked:
        if conn.fails:
            lines.append(f"lost {number}")
            del machine.conns[number]
            return
        frame = conn.queue[0]
        took = len(frame) if conn.room is None else min(len(frame), conn.room)
        if conn.room is not None:
            conn.room -= took
        conn.queued -= took
        if took:
            lines.append(f"out {number} {frame[:took].hex()}")
        if took < len(frame):
            conn.queue[0], conn.blocked = frame[took:], True
        else:
            conn.queue.pop(0)
    if conn.closing:
        lines.append(f"shut {number}")
        del machine.conns[number]
