"""Random scripts and clients on the wide server, for model/random_runs.py: what `cases_wide` makes of whole scripts
(--wide), and what `adsd` answers over sockets in both profiles (--adsd), against the model of the protocol. Requests
are made wide here: lengths by handle and by name that are greater than the value, names with NULs and a full stop in
front, modes in the context of a task, sums that tell lengths, additions and deletions in sums, packets to a local
router before the first frame.

What a program does not have yet is found out first (`has_of_cases`, `has_of`), left out or asked for its refusal, and
named in the last line.
"""
import contextlib
import random
import struct
import subprocess

import protocol
import random_runs
from ams import framed, request, u16, u32
from under_test import Program, connected, daemon_words

NAMES = (0xF003, 0xF004, 0xF007, 0xF009)
MORE = protocol.MORE_SUMS
NET, ME = "5.1.2.3.1.1", "192.168.0.9.1.1"
SMALL = {"schema": 1, "net": NET, "route": [{"net": ME, "rights": "control"}],
         "port": [{"port": 851, "name": "App", "major": 1, "minor": 1, "build": 1, "data": 8, "symbol": []}]}


def without_signals(d):
    """The description, whose symbols follow no signal: `cases_wide` has none, and over sockets signals go by the
    clock."""
    ports = [{**port, "symbol": [{key: it for key, it in symbol.items() if key != "signal"}
                                 for symbol in port.get("symbol", [])]} for port in d["port"]]
    return {**d, "port": ports}


# What a program has.


class Has:
    """What a program has beside the protocol: further sums, and rights for NetIds that no route names."""

    def __init__(self, more, others):
        self.more, self.others = more, others

    def left_out(self):
        """What it does not have, in words."""
        return [*(f"0x{group:X}" for group in MORE if group not in self.more),
                *(["other_routes"] if self.others == (None,) else [])]


# Wider requests.


def a_length(r, length):
    return min(r.choice((length, length + 1, 2 * length + 7, 1024, 0xFFFFFFFF)), 0xFFFFFFFF)


def a_name(r, name):
    name = r.choice((name, b"." + name, b".." + name)) if r.random() < 0.4 else name
    return name.rstrip(b"\0") + r.choice((b"", b"\0", bytes(r.randint(2, 90)), b"\0.x\0")) if r.random() < 0.6 else name


def a_sum(r, count, most, given):
    """A sum of reads, whose lengths by handle may be those of buffers, or one that tells lengths."""
    group, heads = r.choice((0xF080, 0xF080, *protocol.TOLD_SUMS)), []
    for k in range(count):
        of, at, own = struct.unpack("<III", given[12 * k:12 * k + 12])
        wide = min(a_length(r, own), 5000) if of == 0xF005 else own
        heads.append(u32(r.choice(MORE) if r.random() < 0.02 else of) + u32(at) + u32(wide))
        most += wide - own
    most += 0 if group == 0xF080 else 4 * count
    return u32(group) + u32(count) + u32(most % 2 ** 32) + u32(len(given)) + b"".join(heads)


def note_sum(r, group, parts, room):
    """A sum of additions or deletions, whose reply has so many bytes a part."""
    count = len(parts) if r.random() < 0.95 else r.choice((0, len(parts) + 1, 501))
    most = room * len(parts) + (0 if r.random() < 0.9 else r.choice((-1, 1, 40)))
    given = b"".join(parts) + (b"\0" if r.random() < 0.03 else b"")
    return 9, u32(group) + u32(count) + u32(max(most, 0)) + u32(len(given)) + given


def an_addition(r, payload):
    if r.random() < 0.3:
        width = r.choice((40, 40, 24))
        return note_sum(r, 0xF085, [payload[:12] + u32(r.choice((3, 4, 5, 6, 7))) + payload[16:width]
                                    for _ in range(r.randint(1, 3))], 8)
    return 6, payload[:12] + u32(r.choice((5, 6, 7))) + payload[16:] if r.random() < 0.5 else payload


def wider(r, command, payload):
    """A request as a client of TwinCAT would send it."""
    if command == 2 and len(payload) == 12:
        group, offset, length = struct.unpack("<III", payload)
        return 2, u32(group) + u32(offset) + u32(a_length(r, length) if group == 0xF005 else length)
    if command == 6 and len(payload) == 40:
        return an_addition(r, payload)
    if command == 7 and len(payload) == 4 and r.random() < 0.3:
        return note_sum(r, 0xF086, [u32(r.randrange(1, 7)) for _ in range(r.randint(1, 3))], 4)
    if command == 9 and len(payload) >= 16:
        group, offset, most, count = struct.unpack("<IIII", payload[:16])
        if group in NAMES and count == len(payload) - 16:
            name = a_name(r, payload[16:])
            return 9, u32(group) + u32(offset) + u32(a_length(r, most) if group == 0xF004
                                                     else most) + u32(len(name)) + name
        if group == 0xF080 and count == len(payload) - 16 == 12 * offset:
            return 9, a_sum(r, offset, most, payload[16:])
    return command, payload


def wider_frame(r, frame):
    """The frame with such a payload, where it is whole and as it should be."""
    if len(frame) < 38 or frame[:2] != b"\0\0":
        return frame
    length, (command, flags, count) = struct.unpack("<I", frame[2:6])[0], struct.unpack("<HHI", frame[22:30])
    if length != len(frame) - 6 or flags != 4 or count != length - 32:
        return frame
    error, number = struct.unpack("<II", frame[30:38])
    command, payload = wider(r, command, frame[38:])
    return framed(frame[6:14], frame[14:22], command, flags, error, number, payload)


def wider_event(r, event):
    if event[0] == "bytes":
        return ("bytes", event[1], wider_frame(r, event[2]))
    if event[0] == "reload" and isinstance(event[1], dict):
        d = without_signals(event[1])
        return ("reload", d, random_runs.toml_of(d))
    return event


def is_of_signals(event):
    """A reload that is refused, perhaps for its signals."""
    return event[0] == "reload" and not isinstance(event[1], dict) and "signal" in event[2]


# Whole scripts, by `cases_wide`.


def of_cases(program, folder, d, events, script, more, others=None):
    """What differs of a script on `cases_wide` from the model, or None; machines without a route have the right
    `others`."""
    lines = [f"| {line}" for line in script.splitlines()]
    out = [f"| {line}" for line in protocol.play(d, [], events, True, others, more).splitlines()[:-1]]
    right = [f"others {others}"] if others else []
    random_runs.write(folder, "plant.toml", random_runs.toml_of(d))
    random_runs.write(folder, "runs.txt", "it.runs\n")
    random_runs.write(folder, "it.runs", "\n".join([*right, "script", *lines, "out", *out]) + "\n")
    status, came, err = random_runs.ran(program, [folder], folder)
    random_runs.write(folder, "came", came)
    return f"status {status}, {len(came)} bytes came" if status != 0 or err else None


def empty_sum(group):
    """A frame with a sum of no part: a server that has the group gives no data, and any other 0x702."""
    return request(9, group, u32(group) + bytes(12))


def has_of_cases(program, folder):
    """What this program `cases_wide` has; found out by scripts of one request."""
    more = []
    for group in MORE:
        script = [("open", 1), ("bytes", 1, empty_sum(group))]
        if of_cases(program, folder, SMALL, script, f"open 1\nbytes 1 {empty_sum(group).hex()}\n", (group,)) is None:
            more.append(group)
    others = of_cases(program, folder, SMALL, [("open", 1)], "open 1\n", (), "read") is None
    return Has(tuple(more), (None, "read", "write") if others else (None,))


def one_wide(program, seed, folder, has):
    """A whole script on the wide server against the model; what differs, or None."""
    r = random.Random(seed)
    d = without_signals(random_runs.description(r))
    events = [wider_event(r, event) for event in random_runs.script(r, d) if not is_of_signals(event)]
    return of_cases(program, folder, d, events, random_runs.lines_of(r, events), has.more,
                    r.choice((None, *has.others)))


# Clients over sockets, by `adsd`.


@contextlib.contextmanager
def served(program, folder, d, profile, others=None):
    """A daemon over this description: its process and port."""
    random_runs.write(folder, "plant.toml", random_runs.toml_of(d))
    with Program(program, daemon_words("plant.toml", profile, others), cwd=folder, stderr=subprocess.PIPE) as it:
        yield it.process, it.port


def has_of(program, folder):
    """What this program of the daemon has; found out by asking it."""
    more = []
    with served(program, folder, SMALL, "wide") as (_, port), connected(port, 20) as conn:
        for group in MORE:
            conn.sendall(empty_sum(group))
            answer = random_runs.received(conn, 46)
            if struct.unpack("<I", answer[38:42])[0] == 0:
                more.append(group)
    # (an option that it does not know is told before the file, by another status)
    is_known = random_runs.ran(program, ["none.toml", "--other-routes", "read"], folder)[0] == 4
    return Has(tuple(more), (None, "read", "write") if is_known else (None,))


def machine_of(d, profile, others, has):
    """The model of a daemon."""
    if profile == "wide":
        return protocol.Routed(d, [], True, others, has.more)
    return protocol.Server(d, [], False, others)


def router_packets(r):
    """What a client may ask a local router, or what is no such packet, whole or in part."""
    one = r.choice((protocol.ASKS_PORT + u16(r.choice((0, 0, 32905, 1, 65535))), protocol.ASKS_NET))
    text = one + r.choice((b"", b"", protocol.ASKS_NET, protocol.ASKS_PORT + u16(7)))
    if r.random() < 0.1:
        text = r.choice((text[:r.randrange(len(text))], b"\1\x10" + text[2:], text + b"\0\x10\3\0\0\0",
                         text[:2] + b"\4" + text[3:]))
    return text


def with_router(r, event):
    """The event, and behind an opening perhaps packets to a router, in pieces."""
    yield event
    text = router_packets(r) if event[0] == "open" and r.random() < 0.4 else b""
    while text:
        cut = r.randint(1, len(text)) if r.random() < 0.5 else len(text)
        yield "bytes", event[1], text[:cut]
        text = text[cut:]


def one_daemon(program, seed, folder, has):
    """Random clients of the daemon, in one of its profiles, one event behind another; what differs, or None."""
    r = random.Random(seed)
    d, profile, others = without_signals(random_runs.description(r)), r.choice(("wide", "wide", "strict")), r.choice(
        has.others)
    # (samples, ticks and reloads come by the clock)
    events = [event for event in random_runs.script(r, d, notes=False) if event[0] in ("open", "bytes", "close")]
    events = [more for event in events for more in with_router(r,
                                                               wider_event(r, event) if profile == "wide"
                                                               or r.random() < 0.5 else event)]
    random_runs.write(folder, "words", f"{profile} {others}\n")
    try:
        with served(program, folder, d, profile, others) as (it, port):
            said = random_runs.talked(events, machine_of(d, profile, others, has), port)
            return (f"{profile}, other_routes {others}: {said}" if said else f"it ended with {it.returncode}"
                    if it.poll() is not None else None)
    except OSError as fault:
        return str(fault)
