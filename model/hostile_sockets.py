"""The hostile runs over sockets, for `python3 model/hostile.py --adsd PATH`: scripts that need no clock, packets to a
local router, and NetIds that no route names, on the daemon in both profiles. One daemon a round takes all runs, one
behind another, and so does one model (model/protocol.py); each byte must be the model's, and behind all runs the daemon
must have as many descriptors and threads as before the first."""
import os
import tempfile

import held
import hostile
import protocol
import random_runs
import wide_runs
from hostile import NET, PLANT, asked, frame, read, state, write
from ams import u16, u32

BY_CLOCK = ("tick", "reload", "room", "fail")
STRANGER = "10.9.8.7.1.1"


def routers():
    """What may stand before the first frame of a connection, and behind it."""
    port, net = protocol.ASKS_PORT, protocol.ASKS_NET
    for some in (0, 1, 32905, 65535):
        yield asked(f"A router is asked for port {some}.", port + u16(some))
    yield asked("It is asked for its NetId, twice, and for a port.", net, net, port + u16(0))
    yield asked("All of it in one piece, with a frame behind.", net + port + u16(7) + net + state(1))
    whole = port + u16(851) + net
    for cut in range(1, len(whole)):
        yield asked(f"Two packets, cut behind {cut} bytes.", whole[:cut], whole[cut:])
    yield asked("Byte by byte.", *[whole[k:k + 1] for k in range(len(whole))])
    for cut in range(1, len(port) + 2):
        yield asked(f"The first {cut} bytes of a packet, and then a frame.", (port + u16(0))[:cut])
    for said, text in (("another length", b"\0\x10\3\0\0\0\0\0\0"), ("another command", b"\1\x10\0\0\0\0"),
                       ("a NetId with a byte", b"\2\x10\1\0\0\0\0"), ("a close of a port", b"\1\0\2\0\0\0\0\0")):
        yield asked(f"No packet to a router: {said}.", text)
    yield asked("A packet to a router behind a frame.", state(1), net)
    yield asked("A packet to a router behind the first byte of a frame.", b"\0", net)


def strangers():
    """A machine that no route names."""
    yield asked("It asks for the state.", frame(4, 1, b"", source=STRANGER))
    yield asked("It reads, and writes, and reads again.",
                *[frame(2, 1, u32(0x4040) + u32(0) + u32(4), source=STRANGER),
                  write(2, 0x4040, 0, b"\7\0\0\0", source=STRANGER), read(3, 0x4040, 0, 4)])
    yield asked("It controls.", frame(5, 1, u16(6) + u16(0) + u32(0), source=STRANGER), state(2))
    yield asked("It asks another machine, and another port.", frame(4, 1, b"", source=STRANGER, net="5.1.2.3.1.2"),
                frame(4, 2, b"", source=STRANGER, port=77))
    yield asked("It is all zeros, and all ones.", frame(4, 1, b"", source="0.0.0.0.0.0"),
                frame(4, 2, b"", source="255.255.255.255.255.255"))
    yield asked("It has the server's own NetId.", frame(4, 1, b"", source=NET))
    yield asked("One with a route speaks on a stranger's connection.", frame(4, 1, b"", source=STRANGER), state(2),
                write(3, 0x4040, 0, b"\1\0\0\0"))


SUBJECTS = {**hostile.SCRIPTS, "told": hostile.told_sums, "routers": routers, "strangers": strangers}


def is_by_clock(events, machine):
    """Whether a run has events of the clock, or watches something, whose samples come by the clock."""
    if any(event[0] in BY_CLOCK for event in events):
        return True
    for event in events:
        protocol.turn(machine, event, [])
        if any(conn.added for conn in machine.conns.values()):
            return True
    return False


def renumbered(events, base):
    """The events with numbers of connections that no run before has."""
    return [(event[0], event[1] + base, *event[2:]) for event in events]


def played(runs, machine, anew, port):
    """Plays runs one behind another; how many, how many were left out, and what differs."""
    count, out, wrong = 0, 0, []
    for said, events in runs:
        if is_by_clock(events, anew()):
            out += 1
            continue
        count += 1
        events = renumbered(events, 10 * count)
        came = random_runs.talked(events, machine, port)
        for number in [it for it in machine.conns if it >= 10 * count]:
            del machine.conns[number]
        if came:
            wrong.append(f"{said} {came}")
    return count, out, wrong


def round_of(program, folder, profile, others, has):
    """All subjects on one daemon."""
    d, wrong, counts = wide_runs.without_signals(PLANT), [], [0, 0]

    def machine():
        return wide_runs.machine_of(d, profile, others, has)

    with wide_runs.served(program, folder, d, profile, others) as (it, port):
        one, before = machine(), held.counts(it.pid)
        for name, runs in SUBJECTS.items():
            count, out, found = played(runs(), one, machine, port)
            counts = [counts[0] + count, counts[1] + out]
            wrong += [f"{name}: {it}" for it in found]
        if it.poll() is not None:
            wrong.append(f"it ended with {it.returncode}")
        left = held.left_over(it.pid, before) if it.poll() is None else (0, 0, 0)
        wrong += [held.told(left)] if left[:2] != (0, 0) else []
    for said in wrong[:10]:
        print(f"{profile}, other_routes {others or 'none'}: {said}")
    print(f"{profile}, other_routes {others or 'none'}: {counts[0]} runs over sockets, {len(wrong)} otherwise; "
          f"{counts[1]} go by the clock, and are played by scripts alone; "
          f"{held.told(left)}")
    return len(wrong)


def main(program):
    program, wrong = os.path.abspath(program), 0
    with tempfile.TemporaryDirectory() as folder:
        has = wide_runs.has_of(program, folder)
        for profile in ("wide", "strict"):
            for others in has.others:
                wrong += round_of(program, folder, profile, others, has)
    if has.left_out():
        print(f"not in this program: {', '.join(has.left_out())}")
    return 1 if wrong else 0
