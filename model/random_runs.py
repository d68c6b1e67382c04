#!/usr/bin/env python3
"""Random descriptions and scripts: what `ads replay` prints against a model of the protocol in plain Python
(model/protocol.py), byte for byte, and what `ads relay` passes on between askers and targets, some of which lie; what
`ads keep` prints and leaves of a file (model/store.py); random clients of `ads serve` and `ads relay` over loopback,
each of whose bytes must be the model's; client commands over loopback to peers that answer by the model and then
damage, repeat, cut or leave out what they say: each byte that is sent, what is printed and the status must be those of
the model of a client (model/client.py), and so must the rows that `record` leaves; and damaged descriptions and
scripts, which must end with a status of their own and never crash or hang.

    python3 model/random_runs.py [--program ADS] [--wide CASES_WIDE] [--adsd ADSD] [--seconds N] [--seed N]
                                 [--keep FOLDER]

Each program that is named has its runs, in turn until the seconds are over: `ads` those above; `cases_wide` whole
scripts on the wide server; `adsd` random clients over loopback in both profiles, with NetIds that no route names and
packets to a local router (model/wide_runs.py for both), and the same over a store, with new descriptions and further
starts (model/daemon_runs.py). Without one it is crates/ads/out/ads.

    python3 model/random_runs.py --program ADS --wide CASES_WIDE --adsd ADSD --seconds 3600
        an hour of all of them in one piece

Build the programs first: in crates/ads, `rt run -- selftest ../../examples/state.script`. Without --seconds it runs for
a minute. A difference is told with its seed, and its description, script and both texts are kept in the folder of
--keep. The last line counts the runs, and names what a program does not have. It ends with 1 where anything differed.
"""
import argparse
import functools
import os
import random
import re
import socket
import sqlite3
import subprocess
import sys
import tempfile
import time

sys.dont_write_bytecode = True
sys.path[1:1] = [f"{sys.path[0]}/../{room}" for room in ("tools", "tries")]
import client  # noqa: E402
import protocol  # noqa: E402
import store  # noqa: E402
from ams import any_frame, framed, net_of, u16, u32  # noqa: E402
from under_test import ADS, Program, connected  # noqa: E402

SIGNALS = [list(range(1000)), [0] * 10 + [1] * 10, [3, 1, 4, 1, 5, 9, 2, 6]]
WORDS = ["alpha", "Beta", "gamma_1", "_d", "Main", "axis", "Pos", "x", "Y2", "Flag"]


# Descriptions.


def text_of(value):
    if isinstance(value, bool):
        return "true" if value else "false"
    if isinstance(value, int):
        return str(value)
    if isinstance(value, list):
        return "[" + ", ".join(text_of(it) for it in value) + "]"
    if isinstance(value, dict):
        return "{ " + ", ".join(f"{key} = {text_of(it)}" for key, it in value.items()) + " }"
    return '"' + value + '"'


def toml_of(d):
    """A description's text: its ports and symbols as tables, all else in one line each."""
    lines = [f"{key} = {text_of(it)}" for key, it in d.items() if key != "port"]
    for port in d["port"]:
        lines += ["[[port]]"] + [f"{key} = {text_of(it)}" for key, it in port.items() if key != "symbol"]
        for symbol in port.get("symbol", []):
            lines += ["[[port.symbol]]"] + [f"{key} = {text_of(it)}" for key, it in symbol.items()]
    return "\n".join(lines) + "\n"


def any_case(r, text):
    return "".join(r.choice((c.lower(), c.upper())) for c in text)


def comment(r):
    return "".join(r.choice("abc XYZ.,;~!") for _ in range(r.randrange(12)))


def kind_text(r, named, depth=0):
    """A type text that names some of these types."""
    choice = r.random()
    if choice < 0.2 and depth == 0:
        bounds = ",".join(f"{low}..{low + r.randrange(4)}"
                          for low in (r.randrange(-3, 4) for _ in range(r.randint(1, 3))))
        return f"{any_case(r, 'ARRAY')} [{bounds}] {any_case(r, 'OF')} {kind_text(r, named, 1)}"
    if choice < 0.35:
        return r.choice((any_case(r, "STRING"), f"{any_case(r, 'STRING')}({r.randrange(20)})"))
    if choice < 0.6 and named:
        return any_case(r, r.choice(named))
    return any_case(r, r.choice(sorted(protocol.PLAIN)))


def types_of(r, schema):
    found, named = [], []
    for number in range(r.randrange(5)):
        name = f"T{number}_{r.choice(WORDS)}"
        if schema == 2 and r.random() < 0.4:
            base = r.choice(("SINT", "USINT", "INT", "UINT", "DINT", "UDINT", "LINT", "ULINT"))
            size = protocol.PLAIN[base][0]
            low, high = (0, min(2 ** (8 * size), 2 ** 63) - 1) if base[0] == "U" and base != "U" else (-2 ** (
                8 * size - 1), 2 ** (8 * size - 1) - 1)
            numbers = list(dict.fromkeys(r.choice((low, high, r.randint(low, high), r.randrange(0, 9)))
                                         for _ in range(r.randint(1, 4))))
            found.append({"name": name, "base": any_case(r, base),
                          "value": [{"name": f"V{k}", "number": it} for k, it in enumerate(numbers)]})
        else:
            members = []
            for k in range(r.randint(1, 4)):
                member = {"name": f"{r.choice(WORDS)}{k}", "type": kind_text(r, named)}
                if r.random() < 0.3:
                    member["comment"] = comment(r)
                members.append(member)
            found.append({"name": name, "member": members})
        named.append(name)
    return found, named


def symbols_of(r, types, named, schema, sizes, signals, nets):
    found, ends = [], {area: r.randrange(3) for area in protocol.AREAS}
    for number in range(r.randrange(9)):
        kind = kind_text(r, named)
        tree = protocol.type_of(kind)
        size, area = types.size(tree), r.choice(protocol.AREAS)
        at = ends[area] + r.choice((0, 0, 1, 3))
        if size > 600 or at + size > sizes[area]:
            continue
        ends[area] = at + size
        it = {"name": f"{r.choice(WORDS)}{number}.{r.choice(WORDS)}" if r.random() < 0.6
              else f"{r.choice(WORDS)}_{number}", "type": kind, "area": area, "offset": at}
        it.update({key: True for key in ("persistent", "read_only") if r.random() < 0.2})
        if r.random() < 0.3:
            it["comment"] = comment(r)
        base = types.named[tree[1].lower()].get("base") if tree[0] == "named" else None
        if r.random() < 0.5 and base:
            value = r.choice(types.named[tree[1].lower()]["values"])["number"]
            it["initial"] = any_case(r, (value % 2 ** (8 * size)).to_bytes(size, "little").hex())
        elif r.random() < 0.5 and not base:
            it["initial"] = any_case(r, r.randbytes(size).hex())
        if tree[0] == "plain" and signals and r.random() < 0.4:
            it["signal"] = signals.pop()
        if schema == 2 and r.random() < 0.25:
            it["writers"] = r.sample(nets, r.randint(1, len(nets)))
        found.append(it)
    return found


def description(r):
    schema = r.choice((1, 2))
    listed, named = types_of(r, schema)
    types = protocol.Types(listed)
    nets = [f"10.0.0.{k}.1.1" for k in range(1, 5)]
    signals = r.sample(range(3), 3)
    d = {"schema": schema, "net": "5.1.2.3.1.1", "route": [{"net": net,
                                                            "rights": r.choice(("read", "write", "control", "control"))}
                                                           for net in nets[:r.randint(1, 4)]]}
    if listed or r.random() < 0.5:
        d["type"] = listed
    d["port"] = []
    for number in r.sample((851, 852, 1, 65535), r.choice((1, 1, 2, 3))):
        sizes = {area: r.choice((0, r.randrange(1, 40), r.randrange(40, 2000))) for area in protocol.AREAS}
        port = {"port": number, "name": "App " + "x" * r.randrange(13), "major": r.randrange(256),
                "minor": r.randrange(256), "build": r.randrange(65536)}
        port.update({area: size for area, size in sizes.items() if size or r.random() < 0.5})
        port["symbol"] = symbols_of(r, types, named, schema, sizes, signals, nets)
        d["port"].append(port)
    return d


def changed(r, d):
    """A description that is much like another."""
    if r.random() < 0.3:
        return description(r)
    d = {key: it for key, it in d.items()}
    d["net"] = r.choice((d["net"], d["net"], "5.1.2.3.1.2"))
    d["route"] = [dict(it, rights=r.choice(("read", "control", it["rights"]))) for it in d["route"]
                  if r.random() < 0.95]
    ports = []
    for port in d["port"]:
        if r.random() < 0.1 and len(d["port"]) > 1:
            continue
        port = dict(port, build=r.randrange(65536), data=port.get("data", 0) + 64)
        listed = [dict(it) for it in port["symbol"] if r.random() < 0.9]
        r.shuffle(listed)
        for it in listed:
            if r.random() < 0.2:
                it["name"] = any_case(r, it["name"])
            if r.random() < 0.2:
                it.pop("initial", None)
        if listed and r.random() < 0.5:
            # (one goes behind all others of the data area)
            it = r.choice(listed)
            it["area"], it["offset"] = "data", port["data"] - 64
            size = protocol.Types(d.get("type", [])).size(protocol.type_of(it["type"]))
            port["data"] += size
        port["symbol"] = listed
        ports.append(port)
    if ports:
        d["port"] = ports
    return d


# Scripts.


def frame_of(r, d, net, source_port, command, number, payload):
    target = net_of(d["net"])
    port = r.choice(d["port"])["port"]
    if r.random() < 0.03:
        target = bytes(6)
    if r.random() < 0.03:
        port = 77
    flags, length, error = 4, len(payload), r.choice((0, 0, 5))
    if r.random() < 0.03:
        flags = r.choice((0, 5, 1, 6, 0x44, 0xFFFF))
    if r.random() < 0.03:
        length += r.choice((1, -1 if length else 1))
    said = {"command": command, "flags": flags, "length": length, "error": error, "number": number}
    if r.random() < 0.008:
        said.update(r.choice(({"reserved": 1}, {"whole": 31}, {"whole": 2097153})))
    return any_frame(target + u16(port), net_of(net) + u16(source_port), payload, **said)


def count(r, near):
    return max(0, r.choice((near, near, near, near + 1, near - 1, 0, 1, 4, 2 ** 32 - 1, r.randrange(64))))


def a_type_text(r, d):
    """A text that may be that of a type, with or without its NUL."""
    names = [it["name"] for it in d.get("type", [])] + ["DINT", "STRING", "STRING(7)", "BOOL", "none"]
    text = r.choice(names)
    if r.random() < 0.4:
        bounds = ",".join(f"{low}..{low + r.choice((0, 1, 2, 900))}"
                          for low in (r.randrange(-3, 4) for _ in range(r.choice((1, 1, 2, 3, 4)))))
        text = f"ARRAY [{bounds}] OF {text}"
    return r.choice((text, text.lower(), text.upper())).encode() + r.choice((b"", b"\0", b"\0\0x"))


def a_path(r, d):
    """A name that may be a symbol's, or a part's."""
    port = r.choice(d["port"])
    if not port["symbol"] or r.random() < 0.1:
        return r.choice((b"", b"x", b"Main", b"a[0]", b"\xff", b"a" * 1025, b"1a", b"a..b"))
    types, it = protocol.Types(d.get("type", [])), r.choice(port["symbol"])
    path, kind = it["name"], protocol.type_of(it["type"])
    while r.random() < 0.7:
        if kind[0] == "array":
            path += "[" + ",".join(str(low + r.randrange(-1 if r.random() < 0.1 else 0, some)) for low,
                                   some in kind[1]) + "]"
            kind = kind[2]
        elif kind[0] == "named" and "members" in types.named[kind[1].lower()]:
            member = r.choice(types.named[kind[1].lower()]["members"])
            path, kind = path + "." + member[0], member[1]
        else:
            break
    return any_case(r, path).encode() + r.choice((b"", b"", b"\0", b"\0\0" if r.random() < 0.1 else b""))


def place(r, d, handles):
    """A group, an offset and a length that may be good."""
    if handles and r.random() < 0.4:
        number = r.choice(sorted(handles))
        return 0xF005, number, count(r, handles[number]["size"])
    if r.random() < 0.1:
        return 0xF005, r.randrange(9), 1
    port = r.choice(d["port"])
    if r.random() < 0.2:
        group = r.choice(sorted(protocol.BITS_OF))
        return group, r.randrange(8 * port.get(protocol.BITS_OF[group], 0) + 9), count(r, 1)
    group = r.choice(sorted(protocol.BYTES_OF))
    size = port.get(protocol.BYTES_OF[group], 0)
    if port["symbol"] and r.random() < 0.7:
        it = r.choice(port["symbol"])
        size = protocol.Types(d.get("type", [])).size(protocol.type_of(it["type"]))
        return protocol.GROUP_OF[it["area"]], it["offset"], count(r, size)
    at = r.choice((0, size, size + 1, r.randrange(size + 1)))
    return group, at, count(r, r.randrange(size + 1))


def bytes_for(r, most):
    return r.randbytes(min(most, r.choice((most, 40)), 3000))


def request(r, d, handles, in_sum=False, notes=True):
    """A command and its payload; without notes never an addition of a notification."""
    command = r.choice((2, 2, 3, 3, 9, 9, 9, 6, 6, 1, 4, 5, 7)) if not in_sum else r.choice((2, 3, 9))
    command = 4 if command == 6 and not notes else command
    if not in_sum and r.random() < 0.02:
        return r.choice((0, 8, 10, 65535)), r.randbytes(r.randrange(9))
    if command == 2:
        group, at, some = place(r, d, handles)
        if r.random() < 0.3:
            group, some = r.choice((*protocol.SIZE_OF, 0xF008, 0xF00B, 0xF00C, 0xF00E, 0xF00F, 0x9999, 0xF006,
                                    0xF080)), r.choice((0, 1, 4, 8, 24, 1000, 100000))
        payload = u32(group) + u32(at) + u32(some)
    elif command == 3:
        group, at, some = place(r, d, handles)
        given = bytes_for(r, some)
        if r.random() < 0.2:
            group, given = r.choice((0xF006, 0xF006, 0xF003,
                                     0x4025)), u32(r.choice((*handles, 1, 77)))[:r.choice((4, 4, 4, 3))]
        payload = u32(group) + u32(at) + u32(len(given)) + given
    elif command == 9:
        payload = asked(r, d, handles, in_sum)
    elif command == 6:
        group, at, some = place(r, d, handles)
        payload = u32(group) + u32(at) + u32(2049 if r.random() < 0.05
                                             else some) + u32(1 if r.random() < 0.05 else r.choice((3, 4, 4, 4))) + u32(
            r.randrange(9)) + u32(r.choice((0, 0, 5, 100, 2 ** 32 - 1))) + bytes(16)
    elif command == 5:
        payload = u16(r.choice((5, 6, 6, 3))) + u16(r.randrange(9)) + u32(0)
    elif command == 7:
        payload = u32(r.randrange(1, 6))
    else:
        payload = b""
    if r.random() < 0.02:
        payload = payload[:-1] if payload else b"\0"
    return command, payload


def asked(r, d, handles, in_sum):
    if in_sum or r.random() < 0.75:
        group = 0xF002 if r.random() < 0.03 else r.choice((0xF003, 0xF003, 0xF003, 0xF004, 0xF007, 0xF009, 0xF011))
        given = a_type_text(r, d) if group == 0xF011 else a_path(r, d)
        most = {0xF003: 4, 0xF004: r.choice((1, 2, 4, 8, 0)), 0xF007: 12, 0xF009: 400, 0xF011: 5000}.get(group, 9)
        return u32(group) + u32(r.randrange(3)) + u32(most if r.random() < 0.8
                                                      else r.choice((3, 11, 13, 50, 2000))) + u32(len(given)) + given
    group, heads, data, most = r.choice(protocol.SUMS), b"", b"", 0
    some = r.choice((0, 1, 2, 5, 9))
    for _ in range(some):
        if group == 0xF080:
            head = place(r, d, handles)
            heads, most = heads + b"".join(map(u32, (head[0], head[1],
                                                     min(head[2], 5000)))), most + 4 + min(head[2], 5000)
        elif group == 0xF081:
            payload = request(r, d, handles, True)
            while payload[0] != 3 or len(payload[1]) < 12:
                payload = request(r, d, handles, True)
            given = payload[1][12:]
            heads, data, most = heads + payload[1][:8] + u32(len(given)), data + given, most + 4
        else:
            payload = asked(r, d, handles, True)
            heads, data, most = heads + payload[:16], data + payload[16:], most + 8 + int.from_bytes(payload[
                8:12], "little")
    if r.random() < 0.05:
        some = r.choice((some + 1, 501, 2 ** 32 - 1))
    if r.random() < 0.05:
        data += b"\0"
    return u32(group) + u32(some) + u32(r.choice((most, most, most + 7, max(most - 1, 0)))) + u32(
        len(heads + data)) + heads + data


def script(r, d, notes=True):
    """Events of clients, each with a NetId and a port or two, between ticks and reloads; with notifications or
    without."""
    events, live, opened, clock, now, seen = [], [], 0, 0, d, 0
    nets, clients, server = [f"10.0.0.{k}.1.1" for k in range(1, 6)], {}, protocol.Server(d, SIGNALS)
    for _ in range(r.choice((5, 20, 80, 200))):
        # (the model goes along, so that requests name handles that there are)
        for event in events[seen:]:
            protocol.turn(server, event, [])
        seen = len(events)
        choice = r.random()
        if not live or choice < 0.06:
            opened += 1
            live.append(opened)
            clients[opened] = r.choice([route["net"] for route in now["route"]]
                                       or nets) if r.random() < 0.95 else r.choice(nets)
            events.append(("open", opened))
        elif choice < 0.75:
            conn, stream = r.choice(live), b""
            known = server.conns[conn].handles if conn in server.conns else {}
            for _ in range(r.choice((1, 1, 1, 2, 5))):
                command, payload = request(r, now, known, notes=notes)
                stream += frame_of(r, now, clients[conn] if r.random() < 0.98 else r.choice(nets),
                                   r.choice((32905, 32905, 40000)), command, r.randrange(2 ** 32), payload)
            while stream:
                cut = len(stream) if r.random() < 0.6 else r.randint(1, len(stream))
                events.append(("bytes", conn, stream[:cut]))
                stream = stream[cut:]
                if r.random() < 0.05:
                    break
        elif choice < 0.88:
            clock = max(0, clock + r.choice((1, 5, 5, 100, 100000, -3, 2 ** 40)))
            events.append(("tick", clock if r.random() < 0.99 else 2 ** 64 - 1))
        elif choice < 0.91:
            if r.random() < 0.3:
                number, text = r.choice(((2, "schema = 2\n"), (0, "= 1\n"),
                                         (3, toml_of(dict(now, schema=3)) if "writers" not in str(now)
                                          and "base" not in str(now) else "schema = 2\n")))
                events.append(("reload", 2 if text == "schema = 2\n" else number, text))
            else:
                now = changed(r, now)
                events.append(("reload", now, toml_of(now)))
        elif choice < 0.96:
            events.append(("room", r.choice(live), r.choice((0, 10, 46, 200, 5000, 2 ** 64 - 1))))
        elif choice < 0.975:
            events.append(("fail", r.choice(live)))
        else:
            conn = r.choice(live)
            live.remove(conn)
            events.append(("close", conn))
    return events


def relay_frame(r, machine, number, nets):
    """A frame of a connection of a relay: a request, a notification, or a response to what it was asked; some of them
    from others, or not as they should be."""
    conn = machine.conns[number]
    free = [net for net in nets if not machine.owner(net_of(net))]
    own = machine.owned.get(conn) or net_of(r.choice(free if free and r.random() < 0.95 else nets))
    source, target = own + u16(r.choice((851, 851, 32905))), net_of(r.choice((*nets, "5.1.2.3.1.1"))) + u16(r.choice((
        851, 851, 32905)))
    command, flags, invoke, payload = r.choice((2, 2, 2, 4, 8, 9, 0, 65535)), r.choice(
        (4, 4, 4, 4, 5, 0, 0xFFFF)), r.randrange(3), r.randbytes(r.choice((0, 4, 12, 70)))
    asked = [wanted for _, to, wanted in machine.asked if to is conn]
    if asked and r.random() < 0.6:
        target, source, command, invoke = r.choice(asked)
        flags = r.choice((5, 5, 5, 1))
        if r.random() < 0.1:
            target = target[:6] + u16(r.randrange(65536))
        invoke ^= r.random() < 0.1
    if r.random() < 0.02:
        source = net_of(r.choice((*nets, "9.9.9.9.1.1"))) + source[6:]
    length = len(payload) + (r.choice((1, -1 if payload else 1)) if r.random() < 0.01 else 0)
    said = {"command": command, "flags": flags, "length": length, "error": r.choice((0, 0, 7)), "number": invoke}
    return any_frame(target, source, payload, reserved=r.random() < 0.005, **said)


def note_to_itself(frame):
    """A notification to the source of a frame."""
    return framed(frame[14:22], frame[14:22], 8, 4, 0, 0, b"")


def relay_script(r, d, is_served=False):
    """Events of a relay's connections. Over loopback these are frames alone, each with a notification of its sender to
    itself, which says that the frame was taken."""
    events, opened, machine = [], 0, protocol.Relay(d)
    nets = [route["net"] for route in d["route"]]

    def happens(*event):
        events.append(event)
        protocol.turn(machine, event, [])

    for _ in range(r.choice((10, 50, 200))):
        choice, live = r.random(), sorted(machine.conns)
        if not live or choice < (0.08 if len(live) < len(nets) else 0.02):
            opened += 1
            happens("open", opened)
        elif is_served:
            number = r.choice(live)
            frame = relay_frame(r, machine, number, nets)
            happens("bytes", number, frame + note_to_itself(frame))
        elif choice < 0.85:
            number = r.choice(live)
            stream = b"".join(relay_frame(r, machine, number, nets) for _ in range(r.choice((1, 1, 1, 3))))
            while stream and number in machine.conns:
                cut = len(stream) if r.random() < 0.8 else r.randint(1, len(stream))
                happens("bytes", number, stream[:cut])
                stream = stream[cut:]
        elif choice < 0.88:
            happens("close", r.choice(live))
        elif choice < 0.93:
            happens("room", r.choice(live), r.choice((0, 10, 38, 200, 5000, 2 ** 64 - 1)))
        elif choice < 0.95:
            happens("fail", r.choice(live))
        elif choice < 0.98:
            happens("tick", r.randrange(2 ** 64))
        else:
            happens("reload", 0, r.choice(("= 1\n", toml_of(d), "")))
    return events


def lines_of(r, events):
    lines = []
    for event in events:
        if event[0] == "bytes":
            text, words = event[2].hex(), []
            while text:
                cut = 2 * r.randint(1, len(text) // 2) if r.random() < 0.2 else len(text)
                words.append(text[:cut])
                text = text[cut:]
            lines.append(f"bytes {event[1]} {' '.join(words)}")
        elif event[0] == "reload":
            lines += ["reload", *event[2].splitlines(), "."]
        else:
            lines.append(" ".join(map(str, event)))
        if r.random() < 0.05:
            lines.append(r.choice(("", "# a comment")))
    return "\n".join(lines) + "\n"


# Runs.


def ran(program, words, folder):
    try:
        it = subprocess.run([program, *words], cwd=folder, capture_output=True, timeout=60)
    except subprocess.TimeoutExpired:
        return "hang", b"", b""
    return it.returncode, it.stdout, it.stderr


def write(folder, name, text):
    with open(os.path.join(folder, name), "wb") as it:
        it.write(text if isinstance(text, bytes) else text.encode())


def one_replay(program, seed, folder):
    """A whole script against the model; what differs, or None."""
    r = random.Random(seed)
    d = description(r)
    events = script(r, d)
    return played(program, "replay", toml_of(d), lines_of(r, events), protocol.play(d, SIGNALS, events), folder)


def one_relay(program, seed, folder):
    """The same of a relay."""
    r = random.Random(seed)
    d = description(r)
    events = relay_script(r, d)
    return played(program, "relay", toml_of(d), lines_of(r, events), protocol.relayed(d, events), folder)


def one_kept(program, seed, folder):
    """Runs of `keep` one behind another over one file, which is damaged now and then; some over a description that
    changed in between."""
    r = random.Random(seed)
    d, file = description(r), b""
    for _ in range(r.choice((1, 2, 3))):
        if r.random() < 0.3:
            it = bytearray(file)
            for _ in range(r.randint(1, 3) if it else 0):
                at = r.choice((r.randrange(min(len(it), 300)), r.randrange(len(it)),
                               store.SECOND if len(it) > store.SECOND else 0))
                it[at] = r.choice((0, 1, 255, r.randrange(256)))
            file = bytes(it[:r.choice((len(it), len(it), r.randrange(len(it) + 1)))])
        events = script(r, d)[:r.choice((3, 20, 60))]
        disk = store.Disk(file)
        status, wanted, _ = store.kept(d, SIGNALS, events, disk)
        write(folder, "store", file)
        write(folder, "before", file)
        write(folder, "plant.toml", toml_of(d))
        write(folder, "it.script", lines_of(r, events))
        came, out, err = ran(program, ["keep", "plant.toml", "it.script", "store"], folder)
        write(folder, "came", out)
        write(folder, "wanted", wanted)
        with open(os.path.join(folder, "store"), "rb") as it:
            file = it.read()
        if came != status or err or out.decode(errors="replace") != wanted or file != disk.file:
            return (f"keep: status {came}, {status} was wanted; {len(out)} bytes came, {len(wanted)} were wanted; the "
                    f"file {'is as wanted' if file == disk.file else 'differs'}")
        d = changed(r, d) if r.random() < 0.5 else d
    return None


def played(program, command, plant, text, wanted, folder):
    write(folder, "plant.toml", plant)
    write(folder, "it.script", text)
    status, out, err = ran(program, [command, "plant.toml", "it.script"], folder)
    write(folder, "came", out)
    write(folder, "wanted", wanted)
    if status != 0 or err or out.decode(errors="replace") != wanted:
        return f"status {status}, {len(out)} bytes came, {len(wanted)} were wanted"
    return None


def received(conn, count):
    given = b""
    while len(given) < count:
        piece = conn.recv(count - len(given))
        if not piece:
            break
        given += piece
    return given


def talked(events, machine, port, described=None):
    """Plays events over sockets against the model of a server or a relay; what differs, or None. A whole frame is sent
    before anything is waited for. `described` puts a description there and is given the model's line of it."""
    conns = {}
    try:
        for event in events:
            lines, conn = [], None if event[0] == "reload" else conns.get(event[1])
            protocol.turn(machine, event, lines)
            if event[0] == "reload":
                said = described(event[2], lines.pop(0))
                if said:
                    return said
            elif event[0] == "open":
                conns[event[1]] = connected(port, 20)
            elif conn is None:
                continue
            elif event[0] == "close":
                conns.pop(event[1]).close()
            else:
                conn.sendall(event[2])
            said = not_told(conns, lines)
            if said:
                return said
    except OSError as fault:
        return f"{event[0]} {event[1] if event[0] != 'reload' else ''}: {fault}"
    finally:
        for conn in conns.values():
            conn.close()
    return None


def not_told(conns, lines):
    """What connections are not told of what these lines say; None where they are told all of it, and are shut."""
    for line in lines:
        word, number, *given = line.split()
        wanted = bytes.fromhex("".join(given))
        came = received(conns[int(number)], len(wanted)) if word == "out" else rest(conns.pop(int(number)))
        if came != wanted:
            return f"connection {number}: {came.hex()} came, {wanted.hex() or 'its end'} was wanted"
    return None


def rest(conn):
    """What comes on a connection that is to be shut."""
    with conn:
        try:
            return conn.recv(1)
        except ConnectionResetError:
            return b""


def one_served(program, seed, folder):
    """Random clients over loopback, one event behind another."""
    r = random.Random(seed)
    d = description(r)
    for port in d["port"]:
        for symbol in port["symbol"]:
            symbol.pop("signal", None)
    # (samples, ticks and reloads come by the clock)
    events = [event for event in script(r, d, notes=False) if event[0] in ("open", "bytes", "close")]
    return listened(program, "serve", d, events, protocol.Server(d, SIGNALS), folder)


def one_relayed(program, seed, folder):
    """Random askers and targets of a relay over loopback."""
    r = random.Random(seed)
    d = description(r)
    return listened(program, "relay", d, relay_script(r, d, True), protocol.Relay(d), folder)


def listened(program, command, d, events, machine, folder):
    write(folder, "plant.toml", toml_of(d))
    try:
        with Program(program, [command, "plant.toml", "--events", "1000000000"], cwd=folder,
                     stderr=subprocess.PIPE) as it:
            said = talked(events, machine, it.port)
            return said or (f"it ended with {it.process.returncode}" if it.process.poll() is not None else None)
    except OSError as fault:
        return str(fault)


# Peers of client commands.


class Device:
    """A server that one client talks to: what it gives, until it closes the connection."""

    def __init__(self, d):
        self.server, self.closed = protocol.Server(d, SIGNALS), False
        protocol.turn(self.server, ("open", 1), [])

    def after(self, event):
        lines = []
        protocol.turn(self.server, event, lines)
        self.closed = self.closed or any(line.startswith("shut ") for line in lines)
        return b"".join(bytes.fromhex(line.split()[2]) for line in lines if line.startswith("out "))


def call(r, d):
    """A client's call, as the model of a client has it, and the words of its own."""
    name = a_path(r, d)
    name = name.decode("ascii") if name.isascii() and b"\0" not in name else "Main.count"
    kind, value = r.choice(("info", "state", "control", "get", "get", "set", "set", "list", "watch", "watch", "record",
                            "record", "show", "show")), None
    symbols, types = [it for port in d["port"] for it in port["symbol"]], protocol.Types(d.get("type", []))
    if symbols and r.random() < 0.7:
        it = r.choice(symbols)
        name, own = any_case(r, it["name"]), protocol.type_of(it["type"])
        value = client.value_text(types.number(own), r.randbytes(types.size(own)))
    if kind == "control":
        states = [r.choice((5, 6, 6, 7)), r.randrange(65536)]
        return [kind, *states], [*map(str, states)]
    if kind == "set":
        value = value if value and r.random() < 0.8 else r.choice(("0", "1", "-1", "TRUE", "''", "'a$0A'", "16#00",
                                                                   "255"))
        return [kind, name, value], [name, value]
    if kind in ("watch", "record"):
        mode, cycle, some = r.choice(("cycle", "change")), r.choice((0, 0, 200000)), r.randint(1, 4)
    if kind == "record":
        names = {it.lower(): it for it in (name, *(any_case(r, it["name"])
                                                   for it in r.sample(symbols, min(len(symbols), r.randrange(3)))))}
        return [kind, list(names.values()), mode, cycle, some, "it.samples"], [
            "--mode", mode, "--cycle", str(cycle), "--count", str(some), "--store", "it.samples", "--", *names.values()]
    if kind == "watch":
        return [kind, name, mode, cycle, some], ["--mode", mode, "--cycle", str(cycle), "--count", str(some), "--",
                                                 name]
    return [kind, *([name] if kind in ("get", "show") else [])], ["--", name] if kind in ("get", "show") else []


def note_frame(r, talker):
    samples = b"".join(u32_of(r.choice((1, 1, 2, 77))) + u32_of(len(given)) + given
                       for given in (r.randbytes(r.choice((0, 1, 2, 4, 9))) for _ in range(r.randrange(4))))
    stamp = r.randbytes(8) + u32_of(r.choice((samples.count(b""), 0, 1, 2, 3))) + samples
    payload = u32_of(r.choice((4, 4, 8, 0)) + len(stamp)) + u32_of(r.choice((1, 1, 1, 0, 2))) + stamp
    return framed(talker.me, talker.peer, 8, 4, 0, 0, payload)


def u32_of(n):
    return u32(n % 2 ** 32)


def spoiled(r, given, talker):
    """What a bad peer makes of an answer."""
    it, choice = bytearray(given), r.random()
    at = r.randrange(len(it)) if it else 0
    if choice < 0.15:
        for _ in range(r.randint(1, 3)):
            it[r.randrange(len(it))] = r.randrange(256)
    elif choice < 0.25:
        del it[at:at + r.choice((1, 2, 30))]
    elif choice < 0.35:
        it[at:at] = r.randbytes(r.choice((1, 2, 30)))
    elif choice < 0.5:
        at = 38 + 4 * r.randrange(max((len(it) - 38) // 4, 1)) if r.random() < 0.7 else 2 * r.randrange(19)
        own = int.from_bytes(it[at:at + 4], "little")
        it[at:at + 4] = u32_of(r.choice((own + 1, own - 1, own * 2, 0, 1, 2 ** 31, 2 ** 32 - 1)))
    elif choice < 0.6:
        it = it * 2
    elif choice < 0.7:
        other = bytearray(it)
        other[r.choice((6, 12, 14, 20, 22, 24, 34, 36))] ^= r.choice((1, 2, 128))
        it = other + it
    elif choice < 0.75:
        it[30:34] = u32_of(r.choice((6, 7, 0x745, r.randrange(2 ** 32))))
    elif choice < 0.8:
        it[38:42] = u32_of(r.choice((0x710, 0x704, r.randrange(2 ** 32))))
    elif choice < 0.9:
        it = note_frame(r, talker) + it
    elif choice < 0.95:
        it = it[:at]
    else:
        it = bytearray()
    return bytes(it)


def heard(conn, count):
    """So many bytes of a client; fewer where it ended."""
    try:
        return received(conn, count)
    except OSError:
        return b""


def told(conn, r, given):
    """Sends bytes in pieces. A client that is done with the call may be gone."""
    while given:
        cut = len(given) if r.random() < 0.5 else r.randint(1, len(given))
        try:
            conn.sendall(given[:cut])
        except OSError:
            return
        given = given[cut:]
        if r.random() < 0.1:
            time.sleep(r.random() / 50)


def conversed(conn, r, d, talker, is_good):
    """Answers a client until the model says that its call is over; what differs, or None."""
    device, at = Device(d), 0
    talker.begin(0)
    while talker.over is None:
        frames = [part[1] for part in talker.parts[at:] if part[0] == "sent"]
        at = len(talker.parts)
        for frame in frames:
            came = heard(conn, len(frame))
            if came != frame:
                return f"{came.hex()} was sent, {frame.hex()} was wanted"
        if not frames and talker.wants != "hear":
            # (an answer is waited for that will not come)
            if r.random() < 0.03:
                talker.over = client.Over(11, "ads: timed out ")
                break
            conn.shutdown(socket.SHUT_WR)
            talker.take("closed", 0)
            break
        given = b"".join(device.after(("bytes", 1, frame))
                         for frame in frames) if frames else device.after(("tick", device.server.moment + 100000))
        if given and not is_good and r.random() < 0.4:
            given = spoiled(r, given, talker)
        told(conn, r, given)
        talker.take("bytes", 0, given)
        if device.closed or (not frames and not given and r.random() < 0.2):
            conn.shutdown(socket.SHUT_WR)
            talker.take("closed", 0)
    return None


def recorded(folder):
    """The rows of a recording, which is taken away."""
    place = os.path.join(folder, "it.samples")
    with sqlite3.connect(place) as base:
        rows = base.execute("SELECT number, name, time, bytes FROM sample ORDER BY number").fetchall()
    base.close()
    for name in (place, f"{place}-wal", f"{place}-shm"):
        if os.path.exists(name):
            os.remove(name)
    return [(int.from_bytes(number, "big"), name, int.from_bytes(moment, "big"), given) for number, name, moment,
            given in rows]


def one_peer(program, seed, folder):
    """A client command over loopback to a peer that answers by the model, or not quite."""
    r = random.Random(seed)
    d = description(r)
    own, words = call(r, d)
    me = r.choice([route["net"] for route in d["route"]]) if r.random() < 0.97 else "9.9.9.9.1.1"
    port = r.choice(d["port"])["port"] if r.random() < 0.97 else 77
    talker = client.Client(own, me, d["net"], port)
    with socket.socket() as listener:
        listener.bind(("127.0.0.1", 0))
        listener.listen(1)
        listener.settimeout(20)
        where = f"127.0.0.1:{listener.getsockname()[1]}"
        command = [program, own[0], "--to", where, "--netid", d["net"], "--me", me, "--port", str(port),
                   *(["--"] if own[0] == "set" else []), *words]
        write(folder, "command", " ".join(command[1:]))
        write(folder, "plant.toml", toml_of(d))
        with subprocess.Popen(command, cwd=folder, stdout=subprocess.PIPE, stderr=subprocess.PIPE) as it:
            try:
                conn = listener.accept()[0]
                with conn:
                    conn.settimeout(20)
                    said = conversed(conn, r, d, talker, r.random() < 0.2)
                    out, err = it.communicate(timeout=60)
            except (subprocess.TimeoutExpired, OSError) as fault:
                it.kill()
                return f"{own}: {fault}"
    wanted = "".join(part[1] for part in talker.parts if part[0] == "put") + (talker.over.line if talker.over else "")
    if talker.recording and not said:
        keeper = client.Keeper()
        keeper.rows = talker.recording.rows
        said = None if recorded(folder) == keeper.rows else "other rows are recorded;"
        wanted = client.total_lines(keeper,
                                    talker.recording.entries) if talker.over and talker.over.status == 0 else wanted
    late = re.search(rb"(?<=ads: timed out )(\d+) (\d+)\n$", out)
    if late and 50000000 <= int(late[2]) - int(late[1]) < 100000000:
        # (by the clock)
        out = out[:late.start()]
    write(folder, "came", out)
    write(folder, "wanted", wanted)
    if said or not talker.over or it.returncode != talker.over.status or err or out.decode(errors="replace") != wanted:
        return (f"{own}: {said or ''} status {it.returncode}, {talker.over and talker.over.status} was wanted; "
                f"{len(out)} bytes came, {len(wanted)} were wanted")
    return None


def damaged(r, text):
    given = bytearray(text.encode())
    for _ in range(r.randint(1, 4)):
        if not given:
            break
        at = r.randrange(len(given))
        choice = r.random()
        if choice < 0.4:
            given[at] = r.randrange(256)
        elif choice < 0.6:
            del given[at:at + r.choice((1, 2, 30))]
        elif choice < 0.8:
            given[at:at] = r.choice((b"-", b"9", b"18446744073709551616", b"[[port]]\n", b"\n", b"\"", b"0"))
        else:
            other = r.randrange(len(given))
            given[at:at] = given[other:other + r.randrange(60)]
    return bytes(given)


def one_damaged(program, seed, folder):
    """Damaged input: a status of its own and a line that says it, and of a script that is taken a summary."""
    r = random.Random(seed)
    d = description(r)
    events = script(r, d)
    write(folder, "plant.toml", damaged(r, toml_of(d)) if r.random() < 0.6 else toml_of(d))
    write(folder, "it.script", damaged(r, lines_of(r, events)) if r.random() < 0.6 else lines_of(r, events))
    words = r.choice((["check", "plant.toml"], ["replay", "plant.toml", "it.script"], ["selftest", "it.script"],
                      ["replay", "it.script", "plant.toml"]))
    status, out, err = ran(program, words, folder)
    last = out.decode(errors="replace").splitlines()[-1:] or [""]
    fits = {0: ("connections ", "ok ports "), 2: ("ads: description ",), 3: ("ads: script line ",)}
    if status not in fits or err or not last[0].startswith(fits[status]):
        return f"{' '.join(words)}: status {status}, last line {last[0]!r}, {len(err)} bytes on standard error"
    if status and len(out.splitlines()) != 1:
        return f"{' '.join(words)}: {len(out.splitlines())} lines at status {status}"
    return None


def has(program, folder, *words):
    """Whether the program has a command: without it the words are no command, which is status 1."""
    return ran(program, list(words), folder)[0] != 1


def keep(to, name, seed, said, folder):
    """Tells of a difference, and keeps its files."""
    kept = f"{to}/{name}_{seed}"
    os.makedirs(kept, exist_ok=True)
    for file in os.listdir(folder):
        with open(os.path.join(folder, file), "rb") as one_file:
            write(kept, file, one_file.read())
    print(f"{name}, seed {seed}: {said}; kept in {kept}")


def kinds_of_ads(program, folder):
    """The kinds of runs of `ads`: a name, what plays one, and how many go to a seed."""
    relays, keeps = has(program, folder, "relay", "no.toml",
                        "no.script"), has(program, folder, "keep", "no.toml", "no.script", "no.store")
    left_out = {*(() if relays else ("relays", "relayed")), *(() if keeps else ("kept",))}
    kinds = [("replays", one_replay, 1), ("relays", one_relay, 1), ("kept", one_kept, 1), ("served", one_served, 1),
             ("relayed", one_relayed, 1), ("peers", one_peer, 8), ("damaged", one_damaged, 1)]
    return [(name, functools.partial(one, program), count) for name, one,
            count in kinds if name not in left_out], sorted(left_out)


def kinds_of(given, folder):
    """The kinds of runs of all programs that are named, and what these do not have, in words."""
    import daemon_runs  # noqa: PLC0415 (they use this file)
    import wide_runs  # noqa: PLC0415

    kinds, left_out = [], []
    if given.program or not (given.wide or given.adsd):
        kinds, left_out = kinds_of_ads(os.path.abspath(given.program or ADS), folder)
    if given.wide:
        program = os.path.abspath(given.wide)
        cases = wide_runs.has_of_cases(program, folder)
        kinds.append(("wide", lambda seed, place: wide_runs.one_wide(program, seed, place, cases), 1))
        left_out += [f"{it} of cases_wide" for it in cases.left_out()]
    if given.adsd:
        daemon = os.path.abspath(given.adsd)
        own = wide_runs.has_of(daemon, folder)
        kinds.append(("daemons", lambda seed, place: wide_runs.one_daemon(daemon, seed, place, own), 2))
        kinds.append(("keeping", lambda seed, place: daemon_runs.one_daemon(daemon, seed, place, own), 1))
        left_out += [f"{it} of adsd" for it in own.left_out()]
    return kinds, left_out


WORDS_OF = {"replays": "scripts", "relays": "scripts of a relay", "kept": "scripts over a store",
            "served": "plants served", "relayed": "relays", "peers": "client commands", "damaged": "damaged inputs",
            "wide": "scripts on the wide server", "daemons": "plants of the daemon",
            "keeping": "plants of the daemon over a store, with new descriptions"}


def main():
    it = argparse.ArgumentParser(description=__doc__, formatter_class=argparse.RawDescriptionHelpFormatter)
    it.add_argument("--seconds", type=float, default=60)
    it.add_argument("--seed", type=int, default=1)
    it.add_argument("--program", metavar="ADS", help="the program ads")
    it.add_argument("--wide", metavar="CASES_WIDE", help="the program cases_wide")
    it.add_argument("--adsd", metavar="ADSD", help="the program adsd")
    it.add_argument("--keep", default=os.path.join(tempfile.gettempdir(), "ads_random"))
    given = it.parse_args()
    seed, wrong = given.seed, 0
    with tempfile.TemporaryDirectory() as folder:
        kinds, left_out = kinds_of(given, folder)
        begun = time.time()
        counts = {name: 0 for name, _, _ in kinds}
        while time.time() - begun < given.seconds and wrong < 10:
            for name, one, count in kinds:
                for own in range(count * seed, count * seed + count):
                    said = one(own, folder)
                    counts[name] += 1
                    if said:
                        wrong += 1
                        keep(given.keep, name, own, said, folder)
            seed += 1
    told = ", ".join(f"{count} {WORDS_OF[name]}" for name, count in counts.items())
    print(f"{told} against the models: {wrong} wrong, seeds {given.seed} to {seed - 1}, {time.time() - begun:.0f} s"
          + (f"; not in this program: {', '.join(left_out)}" if left_out else ""))
    return 1 if wrong else 0


if __name__ == "__main__":
    sys.exit(main())
