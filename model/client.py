"""A client as a plain model, written from the protocol alone: what a client command sends over a link and prints, and
how it ends, by what comes over the link.

It shares nothing with the program or its definitions. `python3 model/hostile.py` writes runs by it, and `python3
model/random_runs.py` compares the program with it over peers that do as they like. What comes is a list of ("bytes",
moment, given), ("quiet", moment), or the same so many times, as ("quiet", moment, 1000000), and ("closed", moment);
moments count 100 ns.
"""
import re
import struct

import protocol
from ams import OWN_PORT, framed, net_of, u16, u32

OUTSTANDING_FOR, MOST_QUIET, BUFFER = 50000000, 1000000, 65536
ENTRY, BIGGEST, DEEPEST = 65536, 1048576, 16
TEXTS = {
    0x6: "target port not found", 0x7: "target machine not found", 0x8: "unknown command id",
    0xB: "unknown AMS command", 0xE: "invalid AMS length",
    0x700: "general device error", 0x701: "service not supported", 0x702: "invalid index group",
    0x703: "invalid index offset", 0x704: "reading or writing not permitted",
    0x705: "parameter size not correct", 0x706: "invalid parameter value", 0x710: "symbol not found",
    0x711: "symbol version invalid",
    0x713: "transmission mode not supported", 0x714: "notification handle invalid",
    0x716: "no more notification handles", 0x717: "size for watch too big",
    0x744: "invoke id in use", 0x745: "timeout elapsed", 0x754: "invalid response",
}
SIGNED, UNSIGNED = {(16, 1), (2, 2), (3, 4), (20, 8)}, {(17, 1), (18, 2), (19, 4), (21, 8)}
# The length of a reply's text by its command; of reads that of its data is added.
REPLIES = {1: 24, 2: 8, 3: 4, 4: 8, 5: 4, 6: 8, 7: 4, 9: 8}


class Over(Exception):
    """A call is over with this status and last line."""

    def __init__(self, status, line=""):
        super().__init__(status)
        self.status, self.line = status, line


def bad_peer():
    return Over(9, "ads: bad peer\n")


def refused(code):
    return Over(8, f"ads: refused 0x{code:X}{' ' + TEXTS[code] if code in TEXTS else ''}\n")


def number(given, at, width=4):
    return int.from_bytes(given[at:at + width], "little")


def decimal(text):
    """The number that a text of decimal digits is, written without superfluous zeros; None for any other text, and
    beyond 64 bits."""
    return int(text) if re.fullmatch(r"-?[0-9]{1,20}", text) and str(int(text)) == text else None


# Values.


def escaped(given):
    return "".join(chr(c) if 0x20 <= c <= 0x7E else f"\\x{c:02x}" for c in given)


def name_text(given):
    return escaped(given.split(b"\0")[0])


def value_text(kind, given):
    if (kind, len(given)) in SIGNED:
        return str(int.from_bytes(given, "little", signed=True))
    if (kind, len(given)) in UNSIGNED:
        return str(int.from_bytes(given, "little"))
    if kind == 33 and len(given) == 1:
        return "TRUE" if given[0] else "FALSE"
    if kind == 30 and given:
        return "'" + "".join(chr(c) if 0x20 <= c <= 0x7E and chr(c) not in "'$" else f"${c:02X}"
                             for c in given.split(b"\0")[0]) + "'"
    return "16#" + given.hex()


def value_of(kind, size, text):
    """The bytes that a text is read as, or None."""
    if (kind, size) in SIGNED | UNSIGNED:
        try:
            return decimal(text).to_bytes(size, "little", signed=(kind, size) in SIGNED)
        except (AttributeError, OverflowError):
            return None
    if kind == 33 and size == 1:
        return {"FALSE": b"\0", "TRUE": b"\1"}.get(text)
    if kind == 30 and size:
        found = re.fullmatch(r"'((?:[ -#%-&(-~]|\$[0-9A-F]{2})*)'", text)
        if not found:
            return None
        given = re.sub(r"\$(..)", lambda it: chr(int(it[1], 16)), found[1]).encode("latin-1")
        own = value_text(30, given + b"\0") == text and b"\0" not in given
        return given.ljust(size, b"\0") if own and len(given) < size else None
    found = re.fullmatch(r"16#((?:[0-9a-fA-F]{2})*)", text)
    return bytes.fromhex(found[1]) if found and len(found[1]) == 2 * size else None


# Entries.


def entry_in(given):
    """The first entry of a symbol, and what stands behind it; None off its text."""
    if len(given) < 30:
        return None
    whole, lengths, at, texts = number(given, 0), [number(given, k, 2) for k in (24, 26, 28)], 30, []
    if whole < 33 + sum(lengths) or whole > len(given):
        return None
    for length in lengths:
        texts.append(given[at:at + length])
        if given[at + length] != 0:
            return None
        at += length + 1
    names = ("group", "offset", "size", "kind", "flags")
    it = dict(zip(names, struct.unpack("<5I", given[4:24])), name=texts[0], type=texts[1])
    return it, given[whole:]


def entries_in(given, count):
    """So many entries and nothing behind them, each of a size that is taken; or None."""
    found = []
    while len(found) < count:
        first = entry_in(given)
        if first is None or first[0]["size"] > BIGGEST:
            return None
        found.append(first[0])
        given = first[1]
    return None if given else found


def fields_in(given):
    """The fields of a type's entry and how many sub entries it has, what stands behind its dimensions, and what behind
    it; None off its text."""
    if len(given) < 42:
        return None
    whole, lengths, dims, subs, at, texts = number(given, 0), [number(given, k, 2) for k in (32, 34, 36)], number(
        given, 38, 2), number(given, 40, 2), 42, []
    if whole < 45 + sum(lengths) + 8 * dims or whole > len(given):
        return None
    for length in lengths:
        texts.append(given[at:at + length])
        if given[at + length] != 0:
            return None
        at += length + 1
    it = {"size": number(given, 16), "offset": number(given, 20), "kind": number(given, 24), "name": texts[0],
          "type": texts[1]}
    return it, subs, given[at + 8 * dims:whole], given[whole:]


def types_in(given, count):
    """So many entries of types and nothing behind them; or None."""
    found = []
    while len(found) < count:
        first = fields_in(given)
        if first is None:
            return None
        it, subs, inner, given = first
        it["subs"] = []
        for _ in range(subs):
            sub = fields_in(inner)
            if sub is None or sub[1]:
                return None
            it["subs"].append(sub[0])
            inner = sub[3]
        found.append(it)
    return None if given else found


def type_of(text):
    """A type's text: its bounds, and ("plain", word), ("text", n) or ("named", name); None off the grammar."""
    try:
        words = text.decode("ascii")
    except UnicodeDecodeError:
        return None
    found = re.fullmatch(r"(?i:ARRAY) \[([^\]]*)\] (?i:OF) (.*)", words, re.S)
    bounds = []
    if found:
        words = found[2]
        for bound in found[1].split(","):
            ends = [decimal(it) for it in bound.split("..")]
            if len(ends) != 2 or None in ends or not -2 ** 31 <= ends[0] <= ends[1] < 2 ** 31:
                return None
            bounds.append(tuple(ends))
        if len(bounds) > 3:
            return None
    if words.upper() in protocol.PLAIN:
        return bounds, ("plain", words.upper())
    if words.upper() == "STRING":
        return bounds, ("text", 80)
    found = re.fullmatch(r"(?i:STRING)\(([0-9]+)\)", words)
    if found:
        most = decimal(found[1])
        return None if most is None or most > 65534 else (bounds, ("text", most))
    if re.fullmatch(r"[A-Za-z_][A-Za-z0-9_]*", words) and words.upper() not in ("ARRAY", "OF"):
        return bounds, ("named", text[len(text) - len(words):].lower())
    return None


class Upload:
    """The types of a peer, as far as a symbol's value meets them."""

    def __init__(self, listed):
        self.named = {}
        for it in listed:
            self.named.setdefault(it["name"].lower(), it)

    def own_size(self, own):
        if own[0] == "plain":
            return protocol.PLAIN[own[1]][0]
        if own[0] == "text":
            return own[1] + 1
        return self.named[own[1]]["size"] if own[1] in self.named else 0

    def size(self, kind):
        count = 1
        for low, high in kind[0]:
            count *= high - low + 1
        return count * self.own_size(kind[1])

    def is_sound(self, own, depth):
        """Whether an element's leaves can be taken, when structures may be nested so deep."""
        if own[0] != "named":
            return True
        it = self.named.get(own[1])
        if it is None or it["size"] == 0:
            return False
        if it["subs"] and depth == 0:
            return False
        end = 0
        for sub in it["subs"]:
            kind = type_of(sub["type"])
            if kind is None or sub["size"] != self.size(kind) or sub["offset"] < end or sub["offset"] + sub[
                "size"] > it["size"]:
                return False
            if not self.is_sound(kind[1], depth - 1):
                return False
            end = sub["offset"] + sub["size"]
        return True

    def leaves(self, path, at, kind):
        """Each leaf: its path, place, type id and size."""
        bounds, own = kind
        paths = [path]
        for k, (low, high) in enumerate(bounds):
            paths = [one + (b"[" if k == 0 else b",") + str(index).encode() for one in paths
                     for index in range(low, high + 1)]
        for one in paths:
            yield from self.own_leaves(one + (b"]" if bounds else b""), at, own)
            at += self.own_size(own)

    def own_leaves(self, path, at, own):
        it = self.named.get(own[1]) if own[0] == "named" else None
        if own[0] == "plain":
            yield path, at, protocol.PLAIN[own[1]][1], protocol.PLAIN[own[1]][0]
        elif own[0] == "text":
            yield path, at, 30, own[1] + 1
        elif not it["subs"]:
            yield path, at, it["kind"], it["size"]
        else:
            for sub in it["subs"]:
                yield from self.leaves(path + b"." + sub["name"], at + sub["offset"], type_of(sub["type"]))


# Calls: each yields ("send", command, payload), ("print", text) and ("hear",), and is given a reply behind its result,
# or a sample.


def sent(command, payload):
    error, payload = yield "send", command, payload
    if error:
        raise refused(error)
    if number(payload, 0):
        raise refused(number(payload, 0))
    return payload[4:]


def asked(group, most, given):
    reply = yield from sent(9, u32(group) + u32(0) + u32(most) + u32(len(given)) + given)
    return reply[4:]


def read(group, some):
    reply = yield from sent(2, u32(group) + u32(0) + u32(some))
    return reply[4:]


def entry_of(name):
    found = entries_in((yield from asked(0xF009, ENTRY, name)), 1)
    if found is None:
        raise bad_peer()
    # (an array is one value of bytes, whatever type id is told of it)
    return found[0] | {"kind": 65} if found[0]["type"][:7].upper() == b"ARRAY [" else found[0]


def whole(given, size):
    if len(given) != size:
        raise bad_peer()
    return given


def info():
    it = yield from sent(1, b"")
    yield "print", f"name {name_text(it[4:20])} version {it[0]}.{it[1]}.{number(it, 2, 2)}\n"


def state():
    it = yield from sent(4, b"")
    yield "print", f"ads {number(it, 0, 2)} device {number(it, 2, 2)}\n"


def control(ads, device):
    yield from sent(5, u16(ads) + u16(device) + u32(0))
    yield "print", "ok\n"


def get(name):
    it = yield from entry_of(name)
    given = whole((yield from asked(0xF004, it["size"], name)), it["size"])
    yield "print", value_text(it["kind"], given) + "\n"


def put(name, text):
    it = yield from entry_of(name)
    value = value_of(it["kind"], it["size"], text)
    if value is None:
        raise Over(13, "ads: bad value\n")
    handle = whole((yield from asked(0xF003, 4, name)), 4)
    yield from sent(3, u32(0xF005) + handle + u32(len(value)) + value)
    yield from sent(3, u32(0xF006) + u32(0) + u32(4) + handle)
    yield "print", "ok\n"


def listed():
    sizes = whole((yield from read(0xF00C, 8)), 8)
    found = entries_in((yield from read(0xF00B, number(sizes, 4))), number(sizes, 0))
    if found is None:
        raise bad_peer()
    for it in found:
        yield ("print", f"{name_text(it['name'])} 0x{it['group']:X} {it['offset']} {it['size']} 0x{it['flags']:X} "
               f"{name_text(it['type'])}\n")


def watch(name, mode, cycle, count):
    it = yield from entry_of(name)
    handle = yield from sent(6, u32(it["group"]) + u32(it["offset"]) + u32(it["size"]) + u32(mode) + u32(0) + u32(
        cycle) + bytes(16))
    while count:
        own, moment, given = yield ("hear",)
        if u32(own) != handle:
            continue
        if not given:
            yield "print", "ended\n"
            return
        yield "print", f"{moment} {value_text(it['kind'], given)}\n"
        count -= 1
    yield from sent(7, handle)


class Recording:
    """What a recording has: the entries of its names, its notifications by their handles in the order of the answers
    that gave them, those that ended, and its rows."""

    def __init__(self, names, mode, cycle, count, first=1):
        self.names, self.mode, self.cycle, self.count, self.first = names, mode, cycle, count, first
        self.entries, self.handles, self.ended, self.rows = [], {}, set(), []

    def has_enough(self):
        return len(self.rows) >= self.count

    def sample(self, handle, moment, given):
        """The row of a sample that is kept, else None."""
        handle = u32(handle)
        if handle not in self.handles:
            return None
        if not given:
            self.ended.add(handle)
            return None
        if self.has_enough():
            return None
        self.rows.append((self.first + len(self.rows), self.handles[handle], moment, given))
        return self.rows[-1]

    def call(self):
        for name in self.names:
            it = yield from entry_of(name)
            self.entries.append(it)
            handle = yield from sent(6, u32(it["group"]) + u32(it["offset"]) + u32(it["size"]) + u32(self.mode) + u32(
                0) + u32(self.cycle) + bytes(16))
            self.handles.setdefault(handle, it["name"])
        while not self.has_enough() and not self.ended.issuperset(self.handles):
            yield ("hear",)
        for handle in self.handles if self.has_enough() else ():
            if handle not in self.ended:
                yield from sent(7, handle)


def show(name):
    it = yield from entry_of(name)
    sizes = whole((yield from read(0xF00F, 24)), 24)
    found = types_in((yield from read(0xF00E, number(sizes, 12))), number(sizes, 8))
    if found is None:
        raise bad_peer()
    upload, kind = Upload(found), type_of(it["type"])
    if kind is None or upload.size(kind) != it["size"] or not upload.is_sound(kind[1], DEEPEST):
        raise bad_peer()
    given = whole((yield from asked(0xF004, it["size"], name)), it["size"])
    for path, at, own, size in upload.leaves(it["name"], 0, kind):
        yield "print", f"{escaped(path)} {value_text(own, given[at:at + size])}\n"


def call_of(words):
    """The call of a client command's own words."""
    name = str(words[1]).encode() if len(words) > 1 else b""
    calls = {"info": info, "state": state, "list": listed, "get": lambda: get(name), "show": lambda: show(name)}
    if words[0] in calls:
        return calls[words[0]]()
    if words[0] == "control":
        return control(int(words[1]), int(words[2]))
    if words[0] == "set":
        return put(name, words[2])
    mode, cycle, count = words[2:]
    return watch(name, {"cycle": 3, "change": 4}[mode], cycle, count)


def recording_of(words):
    """That of `record`, whose own words are the names, the mode, the cycle, the count and the store."""
    names, mode, cycle, count, _ = words[1:]
    return Recording([str(name).encode() for name in names], {"cycle": 3, "change": 4}[mode], cycle, count)


# A client.


class Client:
    """What a client hears of what came. `parts` are what it does, in order: ("sent", frame), ("put", text), ("kept",
    row)."""

    def __init__(self, words, me, peer, port):
        self.me, self.peer = net_of(me) + u16(OWN_PORT), net_of(peer) + u16(port)
        self.recording = recording_of(words) if words[0] == "record" else None
        self.call, self.parts, self.stream, self.samples = self.recording.call() if self.recording else call_of(
            words), [], b"", []
        self.moment, self.id, self.waits, self.late, self.over, self.wants = 0, 0, None, None, None, None

    def begin(self, moment):
        self.moment = moment
        self.go(None)

    def go(self, given):
        """Gives the call what it waits for, and does what it says until it waits again."""
        while self.over is None:
            try:
                it = self.call.send(given)
            except Over as end:
                self.over = end
                return
            except StopIteration:
                self.over = Over(0)
                return
            self.wants, given = it[0], None
            if it[0] == "print":
                self.parts.append(("put", it[1]))
                continue
            if it[0] == "send":
                self.id += 1
                self.waits = (self.id, it[1], self.moment)
                self.parts.append(("sent", framed(self.peer, self.me, it[1], 4, 0, self.id, it[2])))
            return

    def take(self, kind, moment, given=b""):
        """An answer of the link."""
        self.moment = max(self.moment, moment)
        if self.waits and self.late is None and self.moment - self.waits[2] >= OUTSTANDING_FOR:
            self.late = f"ads: timed out {self.waits[2]} {self.moment}\n"
        self.stream += given
        while self.over is None and self.next():
            pass
        if kind == "closed" and self.over is None:
            self.over = bad_peer()

    def next(self):
        """Hears the next thing there is, if there is one."""
        if self.late:
            self.over = Over(11, self.late)
        elif self.samples:
            sample = self.samples.pop(0)
            row = self.recording.sample(*sample) if self.recording else None
            if row:
                self.parts.append(("kept", row))
            if self.wants == "hear":
                self.go(sample)
        elif len(self.stream) < 6:
            return False
        elif self.stream[:2] != b"\0\0" or not 32 <= number(self.stream, 2) <= 2097152:
            self.over = bad_peer()
        elif len(self.stream) < 6 + number(self.stream, 2):
            return False
        else:
            end = 6 + number(self.stream, 2)
            ams, self.stream = self.stream[6:end], self.stream[end:]
            self.packet(ams)
        return True

    def packet(self, ams):
        command, flags, length, error, own = struct.unpack("<HHIII", ams[16:32])
        payload = ams[32:]
        if length != len(payload):
            self.over = bad_peer()
        elif flags & 1:
            if self.waits and self.waits[:2] == (own, command) and ams[8:16] == self.peer and ams[:8] == self.me:
                if error == 0 and not is_reply(command, payload):
                    self.over = bad_peer()
                    return
                self.waits = None
                self.go((error, payload))
        elif command == 8:
            self.samples = notes_in(payload)
            if self.samples is None:
                self.over = bad_peer()


def is_reply(command, payload):
    size = REPLIES[command]
    return len(payload) == size + (number(payload, 4) if command in (2, 9) and len(payload) >= 8 else 0)


def notes_in(payload):
    """The samples of a notification, as handle, moment and bytes; None off its text."""
    if len(payload) < 8 or number(payload, 0) not in (len(payload) - 4, len(payload)):
        return None
    at, found = 8, []
    for _ in range(number(payload, 4)):
        if len(payload) < at + 12:
            return None
        moment, count = number(payload, at, 8), number(payload, at + 8)
        at += 12
        for _ in range(count):
            size = number(payload, at + 4)
            if len(payload) < at + 8 + size:
                return None
            found.append((number(payload, at), moment, payload[at + 8:at + 8 + size]))
            at += 8 + size
    return found if at == len(payload) else None


# A whole run over a link in memory.


def pieces_of(comes):
    """What a link in memory gives, one answer each: bytes as far as the client's buffer takes them, and behind all else
    the end."""
    last = 0
    for it in comes:
        last = max(last, it[1])
        if it[0] == "bytes" and it[2]:
            for at in range(0, len(it[2]), BUFFER):
                yield "bytes", last, it[2][at:at + BUFFER]
        elif it[0] == "closed":
            yield "closed", last
        else:
            for _ in range(it[2] if it[0] == "quiet" and len(it) > 2 else 1):
                yield "quiet", last
    while True:
        yield "closed", last


class Keeper:
    """A table in memory; the call of this number fails, counted from 1."""

    def __init__(self, fail=0):
        self.rows, self.calls, self.fail = [], 0, fail

    def fails(self):
        self.calls += 1
        return self.calls == self.fail

    def put(self, row):
        if self.fails():
            return False
        self.rows.append(row)
        return True

    def total(self, name):
        """How many rows have the name, and the last of them."""
        own = [row for row in self.rows if row[1] == name]
        return len(own), own[-1] if own else None


def total_lines(keeper, entries):
    """The lines behind a recording; None where the keeper failed."""
    text = ""
    for it in entries:
        if keeper.fails():
            return None
        count, last = keeper.total(it["name"])
        text += f"{escaped(it['name'])} count {count}" + (f" last {last[2]} {value_text(it['kind'], last[3])}" if last
                                                          else "") + "\n"
    return text


def run(words, comes, *, me, peer, to="", keeper=None, **fails):
    """The status, what is printed, and what is done over the link, where this call of the link or this piece of the
    output fails, counted from 1."""
    fail, fail_put, leave = (fails.get(name, 0) for name in ("fail", "fail_put", "leave"))
    client, talk, out, calls, puts, quiet, at = Client(words, me, peer, 851), [], "", 1, 0, 0, 0
    if client.recording and keeper.fails():
        return ended(16, "ads: keeper fault\n", talk, out, puts, fail_put, leave)
    if fail == 1:
        return ended(6, "ads: link fault\n", [f"refused {to}"], out, puts, fail_put, leave)
    talk.append(f"to {to}")
    answers = pieces_of(comes)
    client.begin(comes[0][1] if comes else 0)
    while True:
        for part in client.parts[at:]:
            at += 1
            if part[0] == "kept":
                if not keeper.put(part[1]):
                    return ended(16, "ads: keeper fault\n", talk, out, puts, fail_put, leave)
            elif part[0] == "put":
                puts += 1
                if puts == fail_put:
                    return 5, out + part[1][:leave], talk
                out += part[1]
            else:
                calls += 1
                if calls == fail:
                    return ended(6, "ads: link fault\n", talk, out, puts, fail_put, leave)
                talk.append(f"sent {part[1].hex()}")
        if client.over and client.recording and client.over.status == 0:
            text = total_lines(keeper, client.recording.entries)
            return ended(0, text, talk, out, puts, fail_put, leave) if text is not None else ended(
                16, "ads: keeper fault\n", talk, out, puts, fail_put, leave)
        if client.over:
            return ended(client.over.status, client.over.line, talk, out, puts, fail_put, leave)
        if quiet == MOST_QUIET:
            return ended(7, "ads: budget\n", talk, out, puts, fail_put, leave)
        calls += 1
        if calls == fail:
            return ended(6, "ads: link fault\n", talk, out, puts, fail_put, leave)
        answer = next(answers)
        quiet = quiet + 1 if answer[0] == "quiet" else 0
        client.take(*answer)


def ended(status, line, talk, out, puts, fail_put, leave):
    """The end with its last line, whose writing may fail."""
    if line and puts + 1 == fail_put:
        return 5, out + line[:leave], talk
    return status, out + line, talk
