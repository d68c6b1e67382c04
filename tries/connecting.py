#!/usr/bin/env python3
"""What docs/CONNECTING.md says that clients ask and are answered, played over sockets.

    python3 tries/connecting.py [ADS]
        where the strict server differs from TwinCAT: `ads serve` (crates/ads/out/ads)
    python3 tries/connecting.py --adsd ADSD
        the sessions of common clients (tries/client_sessions.py) on the daemon in both profiles; with a route for each
        client, and with none but `other_routes`
    python3 tries/connecting.py --table         prints the table of the page, which the sessions make

A line each that came otherwise, then the count; status 1 where there is one. What a program does not have is named.
house/docs.py runs the first, and looks at the table.
"""
import contextlib
import os
import pathlib
import socket
import struct
import subprocess
import sys
import tempfile

sys.dont_write_bytecode = True
sys.path[1:1] = [f"{sys.path[0]}/../{room}" for room in ("model", "tools")]
import client_sessions  # noqa: E402
import protocol  # noqa: E402
import wide_runs  # noqa: E402
from ams import OWN_PORT, REQUEST, framed, u16  # noqa: E402
from client_sessions import ME, NET, add, outcome_of, part, read, read_write  # noqa: E402
from under_test import ADS, PLANT, ROOT, Program, connected, daemon_words, next_frame, serve_words, taken  # noqa: E402

DATA, HANDLE, BY_NAME, VALUE, VERSION, EXTENDED, TYPE_BY_NAME = 0x4040, 0xF003, 0xF004, 0xF005, 0xF008, 0xF009, 0xF011
STATE, CONTROL = 4, 5
PART = part()
# what is asked of the strict server, where: the AMS error, the result, and what is told of the data
STEPS = [
    ("a handle, the name with its NUL", 851, read_write(HANDLE, 0, 4, b"Main.title\0"), 0, 0, struct.pack("<I", 1)),
    ("a name with two NULs", 851, read_write(HANDLE, 0, 4, b"Main.title\0\0"), 0, 0x710, b""),
    ("a handle with a great buffer: its four bytes", 851, read_write(HANDLE, 0, 0xFFFFFFFF, b"Main.count"), 0, 0,
     struct.pack("<I", 2)),
    ("a STRING(7) by handle, with a buffer of 1,024 bytes", 851, read(VALUE, 1, 1024), 0, 0x705, b""),
    ("a STRING(7) by handle, with its own size", 851, read(VALUE, 1, 8), 0, 0, b"Mix\0\0\0\0\0"),
    ("a value by name, with a great buffer", 851, read_write(BY_NAME, 0, 1024, b"Main.count"), 0, 0x705, b""),
    ("the state of the system service", 10000, (STATE, b""), 6, None, b""),
    ("the state", 851, (STATE, b""), 0, 0, None),
    ("another state than run and stop", 851, (CONTROL, struct.pack("<HHI", 2, 0, 0)), 0, 0x706, None),
    ("a type by its name", 851, read_write(TYPE_BY_NAME, 0, 0xFFFF, b"Axis"), 0, 0x702, b""),
    *[(f"a sum 0x{group:X}", 851, read_write(group, 1, 64, PART), 0, 0x702, b"")
      for group in (0xF083, 0xF084, 0xF085, 0xF086)],
    ("a sum of 501 parts", 851, read_write(0xF080, 501, 4096, PART * 501), 0, 0x706, b""),
    *[(f"a notification in mode {mode}", 851, add(DATA, 0, 4, mode), 0, 0x713, None) for mode in (0, 1, 2, 5, 6)],
    ("a notification in mode 3", 851, add(DATA, 0, 4, 3), 0, 0, None),
    ("a notification in mode 4", 851, add(DATA, 4, 4, 4), 0, 0, None),
    ("a notification of 2,049 bytes", 851, add(DATA, 0, 2049, 4), 0, 0x717, None),
    ("a notification on the symbol version", 851, add(VERSION, 0, 1, 4), 0, 0x702, None),
    ("a notification on 0xF100", 851, add(0xF100, 0, 1, 4), 0, 0x702, None),
    ("the symbol version", 851, read(VERSION, 0, 1), 0, 0, b"\1"),
]


class Link:
    """A connection of a client with this NetId."""

    def __init__(self, port, net=ME):
        self.net, self.number, self.socket = net, 0, connected(port, 20)

    def ask(self, port, command, data):
        """The AMS error of the answer and its data; notifications are passed over."""
        self.number += 1
        ends = NET + u16(port), self.net + u16(OWN_PORT)
        self.socket.sendall(framed(*ends, command, REQUEST, 0, self.number, data))
        packet = self.answer()
        return struct.unpack("<I", packet[24:28])[0], packet[32:]

    def answer(self):
        """The next packet that is no notification: samples come whenever a cycle is over, before an answer too."""
        while True:
            frame = next_frame(self.socket)
            if len(frame) < 38:
                raise ConnectionError
            if frame[22:24] != b"\x08\x00":
                return frame[6:]

    def is_closed(self, text):
        """Whether the server closes the connection behind these bytes."""
        self.socket.sendall(text)
        try:
            self.answer()
        except ConnectionError:
            return True
        except socket.timeout:
            pass
        return False

    def close(self):
        self.socket.close()


class Server(Link):
    """`ads serve` over the example, and a connection to it."""

    def __init__(self, program):
        self.program = Program(program, serve_words(PLANT))
        super().__init__(self.program.port)

    def stop(self):
        self.close()
        self.program.stop()


def try_steps(program):
    """The page's table of differences, on the strict server."""
    server, wrong = Server(program), 0
    for what, port, (command, data), error, result, told in STEPS:
        came_error, came = server.ask(port, command, data)
        came_result = struct.unpack("<I", came[:4])[0] if came else None
        if (came_error, came_result) != (error, result) or (told is not None and came[8:] != told):
            wrong += 1
            print(f"docs/CONNECTING.md: {what}: error 0x{came_error:X}, {came.hex()}")
    entry = server.ask(851, *read_write(EXTENDED, 0, 0xFFFF, b"Main.axis"))[1][8:]
    if struct.unpack("<I", entry[16:20])[0] != 65:
        wrong += 1
        print("docs/CONNECTING.md: an array has another type id than 65")
    if not server.is_closed(protocol.ASKS_PORT + bytes(4)):
        wrong += 1
        print("docs/CONNECTING.md: the router's packet leaves the connection open")
    server.stop()
    print(f"docs/CONNECTING.md: {len(STEPS) + 2} steps of clients, {wrong} otherwise")
    return wrong


# The sessions of clients, on the daemon.

SYSTEM = '[[port]]\nport = 10000\nname = "System"\nmajor = 3\nminor = 1\nbuild = 1\n'


def plant_with(nets):
    """The example without its signal, whose routes are these."""
    text = pathlib.Path(PLANT).read_text().replace("signal = 2\n", "")
    routes = "".join(f'[[route]]\nnet = "{".".join(map(str, net))}"\nrights = "write"\n' for net in nets)
    begun, ended = text.index("[[route]]"), text.index("[[type]]")
    return text[:begun] + routes + text[ended:]


@contextlib.contextmanager
def daemon(program, text, profile, others=None):
    """The daemon over this description; its port."""
    with tempfile.TemporaryDirectory() as folder:
        pathlib.Path(folder, "plant.toml").write_text(text)
        words = daemon_words("plant.toml", profile, others)
        with Program(program, words, cwd=folder, stderr=subprocess.DEVNULL) as it:
            yield it.port


def told_of(error, came):
    """What came, as an outcome tells it: its kind and value."""
    if error:
        return "error", error
    result = struct.unpack("<I", came[:4])[0]
    return ("code", result) if result else ("data", came[4:])


def is_as_said(outcome, command, error, came):
    kind, value = told_of(error, came)
    if kind == "data" and outcome.kind == "type id":
        return struct.unpack("<I", value[20:24])[0] == outcome.value
    if kind != outcome.kind:
        return False
    return outcome.value is None or value == (outcome.value if kind != "data"
                                              else struct.pack("<I", len(outcome.value)) + outcome.value
                                              if command in (2, 9) else outcome.value)


def ask_router(link):
    """Asks a local router for a port, as ads-client does; the NetId that it gives, None where it closes."""
    link.socket.sendall(protocol.ASKS_PORT + b"\0\0")
    try:
        answer = taken(link.socket, 14)
    except ConnectionError:
        return None
    if not answer:
        return None
    return answer[6:12] if answer[:6] == b"\0\x10\x08\0\0\0" and answer[12:] == struct.pack("<H", 32768) else b""


def open_link(port, session, profile):
    """A connection of a client, behind its router's answer where it asks one; what came otherwise."""
    link = Link(port, session.net)
    if not session.router:
        return link, None
    given, wanted = ask_router(link), None if profile == "strict" else NET
    if profile == "strict":
        link.close()
        link = Link(port, session.net)
    return link, None if given == wanted else f"its router's packet: {given} came"


def played(port, session, profile, more):
    """A session; what came otherwise than is told of it."""
    link, wrong = open_link(port, session, profile)
    wrong, handles = [wrong] if wrong else [], {}
    with contextlib.closing(link):
        for it in session.steps:
            data = it.data(handles) if callable(it.data) else it.data
            error, came = link.ask(it.port, it.command, data)
            outcome = outcome_of(it, profile, more)
            if not is_as_said(outcome, it.command, error, came):
                wrong.append(f"{it.said}: error 0x{error:X}, {came[:80].hex()} came")
            if it.command == 6 and came[:4] == bytes(4):
                handles["note"] = struct.unpack("<I", came[4:8])[0]
            if it.keep:
                handles[it.keep] = struct.unpack("<I", came[8:12])[0] if came[:4] == bytes(4) else 0
    return wrong


def is_turned_away(port, session):
    """Whether the connection closes at the first frame of a client that no route names."""
    with contextlib.closing(Link(port, session.net)) as link:
        try:
            link.ask(851, STATE, b"")
        except ConnectionError:
            return True
    return False


def try_session(program, session, has, profile):
    """A session with a route for it, and without one: alone, and with `other_routes`; what came otherwise."""
    more = has.more if profile == "wide" else ()
    with daemon(program, plant_with([session.net]), profile) as port:
        wrong = played(port, session, profile, more)
    with daemon(program, plant_with([]), profile) as port:
        wrong += [] if is_turned_away(port, session) else ["without a route it was answered"]
    if has.others != (None,):
        with daemon(program, plant_with([]), profile, "write") as port:
            wrong += [f"with other_routes, {it}" for it in played(port, session, profile, more)]
    return wrong


def try_clients(program):
    """All sessions on the daemon, in both profiles."""
    count = 0
    with tempfile.TemporaryDirectory() as folder:
        has = wide_runs.has_of(program, folder)
    for session in client_sessions.SESSIONS:
        for profile in ("wide", "strict"):
            wrong = try_session(program, session, has, profile)
            count += len(wrong)
            for it in wrong:
                print(f"{session.client}, {profile}: {it}")
            works = sum(outcome_of(it, profile, has.more).works for it in session.steps)
            print(f"{session.client}, {profile}: {works} of {len(session.steps)} steps go on, {len(wrong)} otherwise "
                  f"than told", flush=True)
    with daemon(program, plant_with([ME]) + SYSTEM, "wide") as port, contextlib.closing(Link(port)) as link:
        if link.ask(10000, STATE, b"") != (0, struct.pack("<IHH", 0, 5, 0)):
            count += 1
            print("with a [[port]] 10000 its state is not told")
    if has.left_out():
        print(f"not in this program: {', '.join(has.left_out())}")
    return count


def try_table():
    """Whether the page has the table that the sessions make."""
    if client_sessions.table() in (ROOT / "docs/CONNECTING.md").read_text():
        return 0
    print("docs/CONNECTING.md: its table of clients is not that of tries/connecting.py --table")
    return 1


def main(words):
    if words[:1] == ["--table"]:
        print(client_sessions.table(), end="")
        return 0
    if words[:1] == ["--adsd"]:
        return 1 if try_clients(os.path.abspath(words[1])) + try_table() else 0
    return 1 if try_steps(words[0] if words else ADS) + try_table() else 0


if __name__ == "__main__":
    sys.exit(main(sys.argv[1:]))
