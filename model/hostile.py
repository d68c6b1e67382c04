#!/usr/bin/env python3
"""Writes the hostile runs of the program `cases_run`: what no well-behaved client sends, with what the model of the
protocol (model/protocol.py) says must come; what no well-behaved server says to a client (model/hostile_peers.py), with
what the model of a client (model/client.py) says; and runs over the two descriptions that docs/FORMATS.md shows.

    python3 model/hostile.py
        writes hostile_*.runs, peer_*.runs, shown.runs and shown_*.toml of crates/cases_run/data, and says how many runs
        each has
    python3 model/hostile.py --wide
        writes wide_*.runs and hostile_*.runs of crates/cases_wide/data: what the wide server answers otherwise
        (model/wide_rows.py), and those of the hostile runs that are plays of scripts, on it. With --told also
        hostile_told.runs: sums that tell lengths
    python3 model/hostile.py --adsd PATH
        writes nothing: plays those of the hostile runs that need no clock over sockets, on the daemon at PATH, in both
        profiles (model/hostile_sockets.py); a line a profile, status 1 where anything differs

What must come is computed from the protocol alone, never from what the program prints. The counts in
crates/cases_run/stdout are all runs of that program.
"""
import itertools
import os
import re
import sys
import tomllib

HERE = os.path.dirname(os.path.abspath(__file__))
sys.dont_write_bytecode = True
sys.path[1:1] = [f"{sys.path[0]}/../{room}" for room in ("tools", "tries")]
import protocol  # noqa: E402
from ams import OWN_PORT, PORT, any_frame, net_of, u16, u32  # noqa: E402

# The wide server is played by cases_wide, without signals.
WIDE = "--wide" in sys.argv[1:]
# Over sockets runs are events, and not texts.
OVER = sys.argv[sys.argv.index("--adsd") + 1] if "--adsd" in sys.argv[1:-1] else None
DATA = os.path.join(HERE, "..", "crates", "cases_wide" if WIDE else "cases_run", "data")
SIGNALS = [] if WIDE else [list(range(1000)), [0] * 10 + [1] * 10, [3, 1, 4, 1, 5, 9, 2, 6]]
NET, ME, OTHER = "5.1.2.3.1.1", "192.168.0.9.1.1", "192.168.0.10.1.1"


def described(name):
    with open(os.path.join(DATA, name), "rb") as it:
        return tomllib.load(it)


PLANT, PLANT2 = described("plant.toml"), described("plant2.toml")


def frame(command, number, payload, *, source=ME, net=NET, port=PORT, **said):
    """A request of the plant's server, or one that says something else of itself."""
    ends = net_of(net) + u16(port), net_of(source) + u16(OWN_PORT)
    return any_frame(*ends, payload, **{"command": command, "number": number, **said})


def read(number, group, at, some, **other):
    return frame(2, number, u32(group) + u32(at) + u32(some), **other)


def write(number, group, at, given, **other):
    return frame(3, number, u32(group) + u32(at) + u32(len(given)) + given, **other)


def ask(number, group, at, most, given):
    return frame(9, number, u32(group) + u32(at) + u32(most) + u32(len(given)) + given)


def add(number, group, at, some, mode=4, cycle=0):
    return frame(6, number, u32(group) + u32(at) + u32(some) + u32(mode) + u32(0) + u32(cycle) + bytes(16))


def state(number):
    return frame(4, number, b"")


# Runs as text.


def lines_of(event, plants):
    if event[0] == "bytes":
        return [f"| bytes {event[1]} {event[2].hex()}"]
    if event[0] == "reload":
        return ["| reload", *(["| schema = 2"] if event[1] == 2 else [f"from {plants}"]), "| ."]
    return ["| " + " ".join(map(str, event))]


def replay(said, events, plants="plant2.toml"):
    """A run of `replay` over the plant: a comment and events."""
    if OVER:
        return said, events
    script = [line for event in events for line in lines_of(event, plants)]
    came = protocol.play(PLANT, SIGNALS, events, WIDE)
    if WIDE:
        return played_wide(said, script, came)
    head = [f"# {line}" for line in said.splitlines()] + ["words replay plant.toml it.script", "file plant.toml",
                                                          "from plant.toml", "file it.script"]
    return "\n".join(head + script + ["status 0", "out"] + [f"| {line}" for line in came.splitlines()]) + "\n"


def played_wide(said, script, came, others=None):
    """The same for cases_wide, which prints no summary; with `others`, the right of machines without a route."""
    out = [f"| {line}" for line in came.splitlines()[:-1]]
    right = [f"others {others}"] if others else []
    return "\n".join([*(f"# {line}" for line in said.splitlines()), *right, "script", *script, "out", *out]) + "\n"


def asked(said, *frames):
    """One connection that sends these frames, each in a piece of its own, and then asks for the state."""
    return replay(said, [("open", 1)] + [("bytes", 1, it) for it in frames] + [("bytes", 1, state(99))])


# Frames.

DEFECTS = {
    "length": ("the data length is one too great", {"length": 1}),
    "response": ("it is a response", {"flags": 5}),
    "flags": ("its flags are no request's", {"flags": 6}),
    "route": ("its source has no route", {"source": "9.9.9.9.1.1"}),
    "net": ("it is for another machine", {"net": "5.1.2.3.1.2"}),
    "port": ("it is for a port that is not there", {"port": 852}),
    "note": ("its command is 8", {"command": 8}),
    "command": ("its command is 10", {"command": 10}),
    "payload": ("it has a byte too many", {"payload": b"\0"}),
}


def broken_frame(names):
    given = {"command": 4, "payload": b""}
    for name in names:
        given.update(DEFECTS[name][1])
    if "response" in names and "flags" in names:
        given["flags"] = 7
    if "length" in names:
        given["length"] = len(given["payload"]) + 1
    command, payload = given.pop("command"), given.pop("payload")
    return frame(command, 7, payload, **given)


def frames():
    for name, (said, _) in DEFECTS.items():
        yield asked(f"A request of the state, but {said}; then one as it should be.", broken_frame([name]))
    for one, two in itertools.combinations(DEFECTS, 2):
        if (one, two) != ("note", "command"):
            yield asked(f"Two faults: {DEFECTS[one][0]}, and {DEFECTS[two][0]}.", broken_frame([one, two]))
    for flags in (0, 1, 2, 3, 0x44, 0x104, 0x8004, 0xFFFE, 0xFFFF):
        yield asked(f"Flags {flags:#06x} in place of 0x0004.", frame(4, 7, b"", flags=flags))
    for command in (0, 8, 10, 255, 256, 65535):
        yield asked(f"Command {command}.", frame(command, 7, b""))


# Lengths.


def lengths():
    good = {
        1: b"", 2: u32(0x4040) + u32(0) + u32(4), 3: u32(0x4040) + u32(124) + u32(2) + b"\x11\x22", 4: b"",
        5: u16(6) + u16(0) + u32(1) + b"\x33",
        6: u32(0x4040) + u32(0) + u32(4) + u32(4) + u32(0) + u32(0) + bytes(16), 7: u32(1),
        9: u32(0xF003) + u32(0) + u32(4) + u32(10) + b"Main.count",
    }
    at = {3: 8, 5: 4, 9: 12}
    for command, payload in good.items():
        yield asked(f"Command {command} as it should be.", frame(command, 7, payload))
        yield asked(f"Command {command} with a byte too many.", frame(command, 7, payload + b"\0"))
        if payload:
            yield asked(f"Command {command} with a byte too few.", frame(command, 7, payload[:-1]))
            yield asked(f"Command {command} with its first byte alone.", frame(command, 7, payload[:1]))
        for lie in (1, -1):
            yield asked(f"Command {command}: the data length is {lie:+} of what it is.",
                        frame(command, 7, payload, length=(len(payload) + lie) % 2 ** 32))
            if command in at:
                k = at[command]
                own = (int.from_bytes(payload[k:k + 4], "little") + lie) % 2 ** 32
                yield asked(f"Command {command}: the length before its data is {lie:+} of what it is.",
                            frame(command, 7, payload[:k] + u32(own) + payload[k + 4:]))
        for lie in (1, -1):
            yield asked(f"Command {command}: the frame's length is {lie:+} of what it is, so the next frame begins "
                        f"elsewhere.",
                        frame(command, 7, payload, whole=32 + len(payload) + lie))
    for command, k in at.items():
        yield asked(f"Command {command}: the length before its data is 4,294,967,295.",
                    frame(command, 7, good[command][:k] + u32(2 ** 32 - 1) + good[command][k + 4:]))
    for head in (0, 1, 31, 2097153, 2 ** 32 - 1):
        yield asked(f"A frame that says that it has {head} bytes.", frame(4, 7, b"", whole=head))
    for reserved in (1, 0x100, 0xFFFF):
        yield asked(f"Reserved bytes {reserved:#06x}.", frame(4, 7, b"", reserved=reserved))


# Sums.


def sum_of(number, group, count, most, heads, data=b""):
    return ask(number, group, count, most, heads + data)


def head(*numbers):
    return b"".join(map(u32, numbers))


LYING = ((0xF080, [[0x4040, 0, 4], [0x4040, 60, 2]], b"", 14),
         (0xF081, [[0x4040, 124, 2], [0x4040, 126, 1]], b"\1\2\3", 8),
         (0xF082, [[0xF003, 0, 4, 10], [0xF004, 0, 4, 10]], b"Main.count" * 2, 24))
LYING_TOLD = tuple((group, [[0x4040, 0, 4], [0x4040, 60, 2]], b"", 22) for group in protocol.TOLD_SUMS)


def lying_sums(kinds=LYING):
    """Sums of two parts in which one number lies by one."""
    for group, heads, data, most in kinds:
        for lie in (1, -1):
            yield asked(f"A sum {group:#06x} of two parts that says that it has {2 + lie}.",
                        sum_of(7, group, 2 + lie, most, head(*heads[0], *heads[1]), data))
            yield asked(f"A sum {group:#06x} of two parts with room for {lie:+} of what they may give.",
                        sum_of(7, group, 2, most + lie, head(*heads[0], *heads[1]), data))
            yield asked(f"A sum {group:#06x} of two parts with {'a byte too many' if lie > 0 else 'a byte too few'}.",
                        sum_of(7, group, 2, most, (head(*heads[0], *heads[1]) + data
                                                   + b"\0")[:None if lie > 0 else -2]))
            for part in (0, 1):
                for field in range(1, len(heads[0])):
                    lying = [list(it) for it in heads]
                    lying[part][field] = (lying[part][field] + lie) % 2 ** 32
                    yield asked(f"A sum {group:#06x} of two parts: number {field + 1} of part {part + 1} is {lie:+} of "
                                f"what it should be.",
                                sum_of(7, group, 2, most, head(*lying[0], *lying[1]), data), read(8, 0x4040, 120, 8))


def sums():
    four = head(0x4040, 0, 4)
    for group in protocol.SUMS:
        yield asked(f"A sum {group:#06x} of no part.", sum_of(7, group, 0, 0, b""))
        yield asked(f"A sum {group:#06x} of no part, with a byte too many.", sum_of(7, group, 0, 0, b"\0"))
        yield asked(f"A sum {group:#06x} of no part that leaves room for a thousand bytes.",
                    sum_of(7, group, 0, 1000, b""))
        for count in (1, 2, 500, 501, 2 ** 31, 2 ** 32 - 1):
            yield asked(f"A sum {group:#06x} that says that it has {count} parts and has none.",
                        sum_of(7, group, count, 4, b""))
    for count in (1, 2, 500):
        for lie in (0, 1, -1):
            yield asked(f"{count} reads of four bytes, with room for {lie:+} of what they give.",
                        sum_of(7, 0xF080, count, 8 * count + lie, four * count))
        yield asked(f"{count} reads, and a byte too many behind them.",
                    sum_of(7, 0xF080, count, 8 * count, four * count, b"\0"))
        yield asked(f"{count} reads, the last of them without its last byte.",
                    sum_of(7, 0xF080, count, 8 * count, (four * count)[:-1]))
    yield asked("501 reads.", sum_of(7, 0xF080, 501, 8 * 501, four * 501))
    yield asked("Two reads whose lengths add up to more than 32 bits hold.",
                sum_of(7, 0xF080, 2, 24, head(0x4040, 0, 2 ** 32 - 1) * 2))
    yield asked("Two reads that together pass 2,000,000 bytes.",
                sum_of(7, 0xF080, 2, 2 ** 32 - 1, head(0x4040, 0, 1000000) * 2))
    yield asked("A read of 1,999,996 bytes: the greatest reply of a sum, of zeros, since the area is smaller.",
                sum_of(7, 0xF080, 1, 2000000, head(0x4040, 0, 100), b"")[:-12] + head(0x4040, 0, 100))
    for group in (0x4025, 0xF008, 0xF00C, 0xF00F, 0xF00B, 0xF00E, 0xF005, 0xF006, 0xF080, 0x9999, 0x4021):
        for some in (0, 1, 4, 400):
            yield asked(f"A sum's read of group {group:#06x} with {some} bytes, and one that is right behind it.",
                        sum_of(7, 0xF080, 2, 12 + some, head(group, 0, some) + four))
    for at, given in ((124, b"\1\2\3\4"), (125, b"\1\2\3\4"), (128, b""), (128, b"\1"), (60, b"\1"), (60, b""),
                      (56, b"\1\2\3\4\5"), (2 ** 32 - 1, b"\1")):
        yield asked(f"A sum of two writes, the first of {len(given)} bytes at {at}, and a read of what stands there "
                    f"then.",
                    sum_of(7, 0xF081, 2, 8, head(0x4040, at, len(given)) + head(0x4040, 0, 1), given + b"\7"),
                    read(8, 0x4040, 0, 128))
    yield asked("A sum of writes that says less data than it has.",
                sum_of(7, 0xF081, 1, 4, head(0x4040, 0, 1), b"\1\2"))
    yield asked("A sum of writes that says more data than it has.",
                sum_of(7, 0xF081, 1, 4, head(0x4040, 0, 3), b"\1\2"))
    yield asked("A sum of writes with room for one byte less than its results.",
                sum_of(7, 0xF081, 1, 3, head(0x4040, 0, 1), b"\1"))
    yield asked("A sum that releases a handle twice.", ask(6, 0xF003, 0, 4, b"Main.count"),
                sum_of(7, 0xF081, 2, 8, head(0xF006, 0, 4) * 2, u32(1) * 2))
    name = b"Main.count"
    for some in (3, 4, 5):
        yield asked(f"A sum of two handles by name, each with room for {some} bytes.",
                    sum_of(7, 0xF082, 2, 2 * (8 + some), head(0xF003, 0, some, len(name)) * 2, name * 2))
    yield asked("A sum by name of a handle, of a symbol that is not there, and of a value.",
                sum_of(7, 0xF082, 3, 36, head(0xF003, 0, 4, 10) + head(0xF003, 0, 4, 1) + head(0xF004, 0, 4, 10),
                       name + b"x" + name))
    for group in protocol.SUMS:
        yield asked(f"A sum {group:#06x} as a part of a sum by name.", sum_of(7, 0xF082, 1, 8, head(group, 0, 0, 0)))
    yield from lying_sums()
    yield asked("A sum by name with room for one byte less than its parts may give.",
                sum_of(7, 0xF082, 1, 11, head(0xF003, 0, 4, 10), name))
    yield asked("A sum by name that says less data than it has.", sum_of(7, 0xF082, 1, 12, head(0xF003, 0, 4, 9), name))


def told_sums():
    """Sums of reads that tell lengths, which the wide server has."""
    four, gone = head(0x4040, 0, 4), head(0x9999, 0, 4)
    by_name = ask(1, 0xF003, 0, 4, b"Main.title")
    for group in protocol.TOLD_SUMS:
        yield asked(f"A sum {group:#06x} of no part, with room, and with a byte too many.",
                    *[sum_of(7, group, 0, most, b"", data) for most, data in ((0, b""), (1000, b""), (0, b"\0"))])
        for count in (1, 2, 500, 501, 2 ** 31, 2 ** 32 - 1):
            yield asked(f"A sum {group:#06x} that says that it has {count} parts and has none.",
                        sum_of(7, group, count, 4, b""))
        for count in (1, 2, 500):
            for lie in (0, 1, -1):
                yield asked(f"A sum {group:#06x} of {count} reads of four bytes, with room for {lie:+} of what they "
                            f"give.", sum_of(7, group, count, 12 * count + lie, four * count))
        yield asked(f"A sum {group:#06x} of 501 reads.", sum_of(7, group, 501, 12 * 501, four * 501))
        yield asked(f"A sum {group:#06x}: parts that are refused beside one that is not.",
                    sum_of(7, group, 4, 100, gone + head(0x4040, 200, 4) + four + head(0xF005, 9, 4)))
        yield asked(f"A sum {group:#06x}: a read by handle of a greater buffer, and one behind it.", by_name,
                    sum_of(7, group, 2, 1100, head(0xF005, 1, 1024) + four))
        yield asked(f"A sum {group:#06x}: a read by handle of fewer bytes, and of none.", by_name,
                    sum_of(7, group, 2, 100, head(0xF005, 1, 2) + head(0xF005, 1, 0)))
        yield asked(f"A sum {group:#06x} whose lengths add up to more than 32 bits hold.",
                    sum_of(7, group, 2, 24, head(0x4040, 0, 2 ** 32 - 1) * 2))
        yield asked(f"A sum {group:#06x} that passes 2,000,000 bytes.", by_name,
                    sum_of(7, group, 2, 2 ** 32 - 1, head(0xF005, 1, 1000000) * 2))
        if OVER:
            # (as text it is a file of four million digits)
            yield asked(f"A sum {group:#06x} of the greatest reply.", by_name,
                        sum_of(7, group, 1, 2000000, head(0xF005, 1, 1999992)))
        for own in (0x4025, 0xF008, 0xF00C, 0xF00F, 0xF00B, 0xF00E, 0xF006, 0xF080, 0xF083, 0x9999, 0x4021):
            yield asked(f"A sum {group:#06x} of group {own:#06x}, with little room for it and with more.",
                        *[sum_of(7, group, 2, 20 + some, head(own, 0, some) + four) for some in (0, 1, 4, 400)])
        for outer in (0xF080, *protocol.TOLD_SUMS):
            yield asked(f"A sum {group:#06x} as a part of a sum {outer:#06x}.",
                        sum_of(7, outer, 1, 100, head(group, 0, 8)))
        yield asked(f"A sum {group:#06x} as a part of a sum by name, with data and without.",
                    sum_of(7, 0xF082, 2, 100, head(group, 1, 16, 12) + head(group, 0, 0, 0), four))
        yield asked(f"A sum {group:#06x} as a plain read, and as a write.", read(7, group, 0, 8),
                    write(8, group, 0, b"\0"))
    yield from lying_sums(LYING_TOLD)


# Edges.


def edges():
    port = PLANT["port"][0]
    for group, area in sorted(protocol.BYTES_OF.items()):
        size = port[area]
        for at in (0, size - 1, size, size + 1, 2 ** 32 - 1):
            yield asked(f"Bytes of {area} from {at} on: none, one, two, and more than 32 bits hold.",
                        *[read(some % 90, group, at, some) for some in (0, 1, 2, 2 ** 32 - 1)])
            yield asked(f"Writes to {area} from {at} on: none, one, two bytes, and all {size} read back.",
                        *[write(1 + len(given), group, at, given) for given in (b"", b"\x5a", b"\x5a\xa5")],
                        read(9, group, 0, size))
    for group, area in sorted(protocol.BITS_OF.items()):
        bits = 8 * port[area]
        for at in (0, 7, 8, bits - 1, bits, bits + 7, 2 ** 32 - 1):
            yield asked(f"Bit {at} of {area}: read, set by 2, read, cleared, read; no bit and two bits.",
                        read(1, group, at, 1), write(2, group, at, b"\2"), read(3, group, at, 1),
                        write(4, group, at, b"\0"), read(5, group, at, 1),
                        read(6, group, at, 0), read(7, group, at, 2), write(8, group, at, b""),
                        write(9, group, at, b"\1\1"))
    for name in (b"", b"\0", b".", b"Main", b"Main.", b"Main.count.", b"Main.count\0\0", b"Main.axis[0]",
                 b"Main.axis[4]", b"Main.axis[1,1]", b"Main.axis[]",
                 b"Main.axis[01]", b"Main.axis[-0]", b"Main.axis[+1]", b"Main.axis[1].pos.x", b"Main.axis[2147483648]",
                 b"Main.axis[99999999999999999999]", b"Main..count",
                 b"Main.co unt", b"\xffMain", b"M" * 1024, b"M" * 1025, b"Main.axis[1][1]", b"Main.count[1]",
                 b"MAIN.AXIS[3].LABEL\0"):
        shown = name if len(name) < 60 else name[:9] + b".."
        yield asked(f"The name {shown!r} by each group: a handle, a value of no byte, where it is, and its entry.",
                    ask(1, 0xF003, 0, 4, name), ask(2, 0xF004, 0, 0, name), ask(3, 0xF007, 0, 12, name),
                    ask(4, 0xF009, 0, 400, name))


# Limits.


def limits():
    for number in (0, 1, 2, 2 ** 32 - 1):
        yield asked(f"Handle {number}, which nobody was given: read, written, released, watched; and a notification of "
                    f"that number deleted.",
                    read(1, 0xF005, number, 1), write(2, 0xF005, number, b"\1"), write(3, 0xF006, 0, u32(number)),
                    add(4, 0xF005, number, 1), frame(7, 5, u32(number)))
    for some in (0, 1, 2047, 2048, 2049, 2 ** 32 - 1):
        yield asked(f"A notification of {some} bytes.", add(1, 0x4040, 0, some))
    for mode in (0, 1, 2, 3, 4, 5, 2 ** 32 - 1):
        yield replay(f"A notification of mode {mode}, of a group that is not there and of one that is; two ticks.",
                     [("open", 1), ("bytes", 1, add(1, 0x9999, 0, 4, mode)), ("bytes", 1, add(2, 0x4040, 0, 4, mode)),
                      ("tick", 1), ("tick", 2)])
    for cycle in (0, 1, 2, 2 ** 32 - 1):
        yield replay(f"A notification at each tick with cycle {cycle}: ticks that stand still, go back, and come to "
                     f"the end of the clock.",
                     [("open", 1), ("bytes", 1, add(1, 0x4040, 0, 1, 3, cycle)),
                      *[("tick", it) for it in (0, 0, 1, 2, 1, 2 ** 32, 2 ** 64 - 2, 2 ** 64 - 1, 2 ** 64 - 1, 5)]])


# Reloads and offers.


def reloads():
    whole = ask(1, 0xF003, 0, 4, b"Main.count")
    for cut in range(len(whole) + 1):
        yield replay(f"A reload behind {cut} of the {len(whole)} bytes of a request for a handle; then a read by it.",
                     [("open", 1)] + ([("bytes", 1, whole[:cut])] if cut
                                      else []) + [("reload", PLANT2)] + ([("bytes", 1, whole[cut:])] if cut < len(
            whole) else []) + [("bytes", 1, read(2, 0xF005, 1, 4))])
    for at, some in ((0, 4), (0, 8), (4, 4), (8, 48), (8, 16), (60, 2), (72, 8), (72, 4), (64, 2), (100, 4)):
        yield replay(f"A notification of {some} bytes of data from {at} on, and a handle of Main.title, over a reload "
                     f"that moves Main.count and gives Main.title another type.",
                     [("open", 1), ("bytes", 1, add(1, 0x4040, at, some)),
                      ("bytes", 1, ask(2, 0xF003, 0, 4, b"Main.title")), ("tick", 5), ("reload", PLANT2),
                      ("bytes", 1, write(3, 0x4040, 100, b"\1\2\3\4")), ("tick", 6),
                      ("bytes", 1, read(4, 0xF005, 1, 4)), ("bytes", 1, frame(7, 5, u32(1)))])


    both = write(1, 0x4040, 0, b"\7\7\7\7") + read(2, 0x4040, 100, 4) + add(3, 0x4040, 72, 8)
    for cut in range(0, len(both) + 1, 3):
        yield replay(f"A refused and then an accepted reload behind {cut} of the {len(both)} bytes of a write, a read "
                     f"and an addition; then a tick.", [("open", 1)] + ([("bytes", 1, both[:cut])] if cut else []) + [(
            "reload", 2), ("reload", PLANT2)] + ([("bytes", 1, both[cut:])] if cut < len(both)
                                                 else []) + [("tick", 5), ("bytes", 1, read(4, 0x4040, 100, 4))])


def offers():
    reply, note = 46, 70
    for room in range(note + 1):
        yield replay(f"A notification of {note} bytes for which there is room for {room}, the next one behind it, and "
                     f"then room for all.",
                     [("open", 1), ("bytes", 1, add(1, 0x4040, 0, 4, 3)), ("room", 1, room), ("tick", 1), ("tick", 2),
                      ("room", 1, 2 ** 64 - 1)])
    for room in range(reply + 1):
        yield replay(f"A reply of {reply} bytes for which there is room for {room}, and then for all.",
                     [("open", 1), ("room", 1, room), ("bytes", 1, state(1)), ("bytes", 1, state(2)),
                      ("room", 1, 2 ** 64 - 1)])
    for room in (0, 10, 46):
        yield replay(f"An offer that fails, with room for {room}: that connection is lost, and another is given its "
                     f"reply.",
                     [("open", 1), ("open", 2), ("room", 1, room), ("fail", 1), ("bytes", 1, state(1)),
                      ("bytes", 2, state(2)), ("bytes", 1, state(3))])
        yield replay(f"A broken frame behind a reply for which there is room for {room}: it is shut with what it has "
                     f"taken.",
                     [("open", 1), ("room", 1, room), ("bytes", 1, state(1) + b"\1" + bytes(5)), ("bytes", 1, state(2)),
                      ("room", 1, 100)])


# Failing calls.


EVENTS = {"open": "opened", "bytes": "piece", "close": "closed", "tick": "tick", "writable": "writable"}


def served(machine, fails, cuts, events, limit=1000):
    """What `serve` or `relay` prints and what happens on its wire, where the n-th call of the wire fails, the n-th
    offer takes at most so many bytes, and so many events are taken."""
    log, calls, cut = [], 0, list(cuts)

    def call():
        nonlocal calls
        calls += 1
        return calls != fails

    if not call():
        return 6, "ads: link fault\n", log
    for event in events[:limit]:
        if not call():
            return 6, "listening\nads: link fault\n", log
        log.append(f"{EVENTS[event[0]]} {event[1]}")
        conn = machine.conns.get(event[1])
        if event[0] == "open":
            machine.conns[event[1]], machine.opened = protocol.Connection(), machine.opened + 1
        elif event[0] == "tick":
            machine.tick(event[1])
        elif event[0] == "close":
            machine.conns.pop(event[1], None)
        elif event[0] == "writable":
            if conn:
                conn.blocked = False
        elif conn and not conn.closing:
            conn.stream += event[2]
            machine.take(conn)
        for number in list(machine.conns):
            conn = machine.conns[number]
            while conn.queue and not conn.blocked:
                given = conn.queue[0]
                if not call():
                    log.append(f"lost {number}")
                    del machine.conns[number]
                    break
                took = min(len(given), cut.pop(0)) if cut else len(given)
                conn.queued -= took
                log.append(f"took {number} of {len(given)} x{given[:took].hex()}")
                conn.queue[0], conn.blocked = given[took:], took < len(given)
                if not conn.blocked:
                    conn.queue.pop(0)
            if number in machine.conns and machine.conns[number].closing:
                log.append(f"shut {number}")
                calls += 1
                del machine.conns[number]
    counts = f"listening\n{machine.summary()}\n"
    if len(events) >= limit:
        return 7, counts + "ads: budget\n", log
    if not call():
        return 6, "listening\nads: link fault\n", log
    return 0, counts, log


def serve(said, fails, cuts, events, puts=None):
    return on_a_wire(said, "serve plant.toml", protocol.Server(PLANT, SIGNALS), events, (fails, cuts, puts))


def on_a_wire(said, words, machine, events, faults=(0, (), None), limit=1000):
    """A run of `serve` or `relay` over a wire; the faults: the call that fails, what offers take, the piece of the
    output that can't be written."""
    fails, cuts, puts = faults
    status, out, log = served(machine, fails, cuts, events, limit)
    plant = words.split()[1]
    lines = [f"# {line}" for line in said.splitlines()] + [f"words {words} --listen 127.0.0.1:48898 --events {limit}",
                                                           f"file {plant}", f"from {plant}"]
    lines += [f"fail-wire {fails}"] if fails else []
    lines += [f"cut {it}" for it in cuts]
    for event in events:
        lines.append(EVENTS[event[0]] + " " + " ".join(it if isinstance(it, str) else it.hex() if isinstance(it, bytes)
                                                       else str(it) for it in event[1:]))
    if puts:
        pieces = [line + "\n" for line in out.splitlines()]
        out, status = "".join(pieces[:puts - 1]), 5
        lines += [f"fail-put {puts}"]
        log = [] if puts == 1 else log
    lines += [f"status {status}", "out"] + [f"| {line}" for line in out.splitlines()]
    return "\n".join(lines + (["log"] + [f"| {line}" for line in log] if log else [])) + "\n"


def faults():
    talk = [("open", 1), ("open", 2), ("bytes", 1, state(1)), ("bytes", 2, state(2) + read(3, 0x4040, 0, 4)),
            ("tick", 5), ("bytes", 1, state(4)), ("close", 2), ("bytes", 1, state(5))]
    for number in range(1, 16):
        yield serve(f"Call {number} of the wire fails: a start or an event ends the run, an offer loses its connection "
                    f"alone.", number, [], talk)
    for cut in range(0, 47, 5):
        yield serve(f"The first offer takes {cut} bytes: that connection waits, and the other is served.", 0, [cut],
                    talk)
    for cut in range(47):
        yield serve(f"Of a reply of 46 bytes the first offer takes {cut}, the second at most three, and the third what "
                    f"is left.", 0, [cut, 3],
                    [("open", 1), ("bytes", 1, state(1)), ("writable", 1), ("writable", 1), ("writable", 1)])
    for number in (1, 2):
        yield serve(f"Piece {number} of the output can't be written.", 0, [], talk, number)


# Each command, each of whose calls of the files and of the output fails.


def calls():
    script, count = [("open", 1), ("bytes", 1, state(1) + read(2, 0x4040, 0, 4)),
                     ("tick",
                      5)], "port 851 name Plc30 App image 192 symbols 6 upload 300\nok ports 1 symbols 6 types 1\n"
    it = ["file it.script", *(line for event in script for line in lines_of(event, ""))]
    plant = ["file plant.toml", "from plant.toml"]
    summary = "connections 0 requests 0 replies 0 samples 0 reloads 0 0\n"
    commands = {"check plant.toml": (plant, 1, count), "replay plant.toml it.script": (plant + it, 2, protocol.play(
        PLANT, SIGNALS, script)), "selftest it.script": (it[:1], 1, summary), "migrate plant.toml": (plant, 1, None),
                "load 3": ([], 0, None), "serve plant.toml --listen 127.0.0.1:48898 --events 9": (plant, 1, None),}
    for words, (files, readings, text) in commands.items():
        for number in range(1, readings + 1):
            yield run(f"Reading {number} fails.", words, [*files, f"fail-read {number}"], 4, "ads: read fault\n")
            yield run(f"Reading {number} fails, which can't be told.", words,
                      [*files, f"fail-read {number}", "fail-put 1"], 5, "")
        if readings:
            yield run("No file is there.", words, [], 4, "ads: read fault\n")
        yield run("Not a byte of the output can be written.", words, [*files, "fail-put 1"], 5, "")
        if text:
            yield run("Readings beyond those of the command fail, and pieces of output beyond the first.", words,
                      [*files, f"fail-read {readings + 1}", "fail-put 2"], 0, text)
            for leave in (1, len(text) - 1, len(text), len(text) + 1):
                yield run(f"The output fails behind {leave} of its {len(text)} bytes.", words,
                          [*files, "fail-put 1", f"leave {leave}"], 5, text[:leave])
        if plant[0] in files:
            for said, change, line in (("breaks a rule", "change offset = 8 => offset = 2",
                                        "ads: description rule 12 item 1\n"),
                                       ("is no TOML", "change schema = 1 => schema = = 1",
                                        "ads: description syntax\n")):
                yield run(f"The description {said}.", words, [*plant, change, *it], 2, line)
                yield run(f"The description {said}, which can't be told.", words,
                          [*plant, change, *it, "fail-put 1", "leave 5"], 5, line[:5])
            yield run("The description is too long.", words,
                      ["file plant.toml", "repeat 1048577 0123456789abcdef", *it], 12, "ads: file too long\n")
        if "it.script" in words:
            yield run("The third line of the script is off the grammar.", words,
                      [*(plant if "plant" in words else []), "file it.script", "| open 1", "| tick 1", "| tick x"], 3,
                      "ads: script line 3\n")
            yield run("The script is too long.", words, [*(plant if "plant" in words else []), "file it.script",
                                                         "repeat 1048577 0123456789abcdef"], 12, "ads: file too long\n")


def run(said, words, lines, status, out):
    return "\n".join([f"# `{words}`: {said}", f"words {words}", *lines, f"status {status}", "out",
                      *[f"{'|' if line.endswith(chr(10)) else '+'} {line.rstrip(chr(10))}"
                        for line in out.splitlines(True)]]) + "\n"


# The descriptions that the documents show.


def shown():
    with open(os.path.join(HERE, "..", "docs", "FORMATS.md")) as it:
        texts = re.findall(r"```toml\n(.*?)```", it.read(), re.S)
    for schema, text in enumerate(texts, 1):
        with open(os.path.join(DATA, f"shown_{schema}.toml"), "w") as it:
            it.write(text)
        d = tomllib.loads(text)
        port = protocol.Server(d, SIGNALS).ports[851]
        counts = (f"port 851 name {d['port'][0]['name']} image {sum(map(len, port.areas.values()))} symbols "
                  f"{len(port.symbols)} upload {len(port.upload())}")
        yield (f"# The example of schema {schema} in docs/FORMATS.md is accepted.\nwords check plant.toml\nfile "
               f"plant.toml\nfrom shown_{schema}.toml\nstatus 0\nout\n"
               f"| {counts}\n| ok ports 1 symbols {len(port.symbols)} types {len(d['type'])}\n")
        events = [("open", 1), ("bytes", 1, read(1, 0x4040, 0, 8)), ("bytes", 1, write(2, 0x4040, 4, b"\1\2\3\4")),
                  ("bytes", 1, write(3, 0x4040, 4, b"\5", source=OTHER)),
                  ("bytes", 1, read(4, 0x4040, 0, 8)), ("bytes", 1, ask(5, 0xF009, 0, 200, b"main.mode"))]
        script = "\n".join(line for event in events for line in lines_of(event, ""))
        came = "\n".join(f"| {line}" for line in protocol.play(d, SIGNALS, events).splitlines())
        yield (f"# The same, asked: the first bytes; a write of the second symbol by one machine and by another, which "
               f"has a route under schema 2 alone and there is\n"
               f"# the writer; what stands there then; the entry of Main.mode.\n"
               f"words replay plant.toml it.script\nfile plant.toml\nfrom shown_{schema}.toml\nfile "
               f"it.script\n{script}\nstatus 0\nout\n{came}\n")


def written(name, runs):
    made = list(runs())
    with open(os.path.join(DATA, f"{name}.runs"), "w") as it:
        it.write("----\n".join(made))
    print(f"{name}.runs: {len(made)} runs")


# What every server is asked by scripts alone.
SCRIPTS = {"frames": frames, "lengths": lengths, "sums": sums, "edges": edges, "limits": limits, "reloads": reloads,
           "offers": offers}


def main_wide():
    import wide_rows  # noqa: PLC0415 (it uses this file)

    scripts = {**SCRIPTS, **({"told": told_sums} if "--told" in sys.argv[1:] else {})}
    for name, runs in {**wide_rows.SUBJECTS, **{f"hostile_{name}": runs for name, runs in scripts.items()}}.items():
        written(name, runs)
    return 0


def main():
    if OVER:
        import hostile_sockets  # noqa: PLC0415 (it uses this file)

        return hostile_sockets.main(OVER)
    if WIDE:
        return main_wide()
    import hostile_peers  # noqa: PLC0415 (they use this file)
    import keep_runs  # noqa: PLC0415
    import record_runs  # noqa: PLC0415
    import relay_runs  # noqa: PLC0415

    written("shown", shown)
    for name, runs in {**SCRIPTS, "faults": faults, "calls": calls}.items():
        written(f"hostile_{name}", runs)
    for name, runs in hostile_peers.SUBJECTS.items():
        written(f"peer_{name}", runs)
    for name, runs in {**relay_runs.SUBJECTS, **keep_runs.SUBJECTS, **record_runs.SUBJECTS}.items():
        written(name, runs)
    return 0


if __name__ == "__main__":
    sys.exit(main())
