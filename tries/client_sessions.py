"""What common ADS clients send, client by client, and what the server answers in both profiles; for
tries/connecting.py.

Written from what is known of the clients' sources and manuals: no client and no TwinCAT ran. A session is one
connection. Its steps are what the client does, in its own words, with the request and the answers of the strict and of
the wide server. What the wide server answers is what TwinCAT is known to answer; no capture was at hand.
"""
import collections
import struct

import protocol

NET, ME = bytes([5, 1, 2, 3, 1, 1]), bytes([192, 168, 0, 9, 1, 1])
OWN_IP = bytes([127, 0, 0, 1, 1, 1])     # what AdsLib, pyads and Home Assistant on this machine take for their NetId
DATA, BY_HANDLE = 0x4040, 0xF005
TITLE, COUNT = b"Mix\0\0\0\0\0", struct.pack("<I", 42)

Outcome = collections.namedtuple("Outcome", "works kind value")
Step = collections.namedtuple("Step", "said port command data strict wide keep more", defaults=(None, ()))
Session = collections.namedtuple("Session", "client net router steps")

OK = Outcome(True, "data", None)


def gives(data):
    """The result 0, and this data; any where it is None."""
    return Outcome(True, "data", data)


def useless(data):
    """An answer that its client can't use."""
    return Outcome(False, "data", data)


ARRAY_ID = Outcome(False, "type id", 65)    # TwinCAT and the wide server give an array the id of its elements


def code(number):
    return Outcome(False, "code", number)


def ams_error(number):
    return Outcome(False, "error", number)


# Requests: what is asked, of port 851 unless another is told. The data may need a handle that an earlier step was
# given: then it is a function of those.


def step(said, request, strict, wide=None, *, port=851, keep=None, more=()):
    return Step(said, port, *request, strict, wide or strict, keep, more)


def read(group, offset, size):
    return 2, struct.pack("<III", group, offset, size)


def write(group, offset, data):
    return 3, struct.pack("<III", group, offset, len(data)) + data


def read_write(group, offset, size, data):
    return 9, struct.pack("<IIII", group, offset, size, len(data)) + data


def add(group, offset, size, mode, cycle=100000):
    return 6, struct.pack("<IIIIII", group, offset, size, mode, 0, cycle) + bytes(16)


def part(offset=0, size=4):
    return struct.pack("<III", DATA, offset, size)


def read_handle(name, size):
    return 2, lambda handles: struct.pack("<III", BY_HANDLE, handles[name], size)


def write_handle(name, data):
    return 3, lambda handles: struct.pack("<III", BY_HANDLE, handles[name], len(data)) + data


def watch_handle(name, size, mode=4):
    return 6, lambda handles: struct.pack("<IIIIII", BY_HANDLE, handles[name], size, mode, 0, 100000) + bytes(16)


def release(name):
    return 3, lambda handles: struct.pack("<IIII", 0xF006, 0, 4, handles[name])


def handle(said, name, keep, strict=OK, wide=None, size=4):
    return step(said, read_write(0xF003, 0, size, name), strict, wide, keep=keep)


INFO, STATE = (1, b""), (4, b"")
ZERO = struct.pack("<I", 0)
AGAIN_42 = struct.pack("<II", 0, 0) + COUNT * 2


def told_sum(group):
    """A sum of two reads that tells their lengths."""
    return read_write(group, 2, 24, part() + part())


def told(group):
    return step(f"the sum 0x{group:X}", told_sum(group), code(0x702),
                gives(struct.pack("<IIII", 0, 4, 0, 4) + COUNT * 2), more=(group,))


def added_sum(said):
    return step(said, read_write(0xF085, 1, 8, add(DATA, 4, 4, 4)[1]), code(0x702), OK, more=(0xF085,))


def deleted_sum(said):
    return step(said, read_write(0xF086, 1, 4, struct.pack("<I", 99)), code(0x702), OK, more=(0xF086,))


def lists():
    return [step("the symbol list", read(0xF00F, 0, 24), OK), step("the symbol list", read(0xF00B, 0, 0x10000), OK)]


def types():
    return step("the type list", read(0xF00E, 0, 0x10000), OK)


def plain_sums():
    name = b"Main.title"
    return [step("sums", read_write(0xF080, 2, 16, part() + part()), gives(AGAIN_42)),
            step("sums", read_write(0xF081, 1, 4, struct.pack("<III", DATA, 4, 1) + b"\7"), gives(ZERO)),
            step("sums", read_write(0xF082, 1, 12, struct.pack("<IIII", 0xF003, 0, 4, len(name)) + name), OK)]


def system_state(said="port 10000"):
    return step(said, STATE, ams_error(6), port=10000)


def notes_of_version():
    return [step("a notification on 0xF008", add(0xF008, 0, 1, 4), code(0x702), OK),
            step("a notification on 0xF100", add(0xF100, 0, 4, 4), code(0x702), OK)]


SESSIONS = (
    Session("AdsLib, adstool", OWN_IP, False, [
        step("name and version", INFO, OK), step("state", STATE, OK), handle("handles", b"Main.title", "title"),
        handle("handles", b"Main.count", "count"),
        step("values", read_handle("count", 4), gives(COUNT)),
        step("writes", write_handle("count", COUNT), gives(None)),
        step("a buffer of 255 bytes (`adstool .. var`)", read_handle("title", 255), code(0x705), gives(TITLE)),
        *lists(),
        step("notifications", add(DATA, 0, 4, 4), OK), step("notifications",
                                                            (7, lambda handles: struct.pack("<I", handles["note"])),
                                                            gives(None)),
        step("handles", release("title"), gives(None)), system_state("port 10000 (`adstool .. state` without a "
                                                                     "port)")]),
    Session("pyads", OWN_IP, False, [
        step("name and version", INFO, OK), step("state", STATE, OK), handle("handles", b"Main.title\0", "title"),
        handle("handles", b"Main.count\0", "count"),
        step("values", read_handle("count", 4), gives(COUNT)),
        step("a STRING, with a buffer of 1,024 bytes", read_handle("title", 1024), code(0x705), gives(TITLE)),
        step("writes", write_handle("count", COUNT), gives(None)),
        step("a shorter text written", write_handle("title", b"Mix\0"), gives(None)),
        step("a STRING by name, with a buffer of 1,024 bytes", read_write(0xF004, 0, 1024, b"Main.title\0"),
             code(0x705), gives(TITLE)),
        step("lists by name", read_write(0xF009, 0, 0xFFFF, b"Main.count\0"), OK), *plain_sums(), *lists(),
        step("an array in a list by name, without `structure_defs`", read_write(0xF009, 0, 0xFFFF, b"Main.axis\0"),
             ARRAY_ID, OK),
        step("notifications", watch_handle("count", 4), OK), step("notifications", add(DATA, 4, 4, 3), OK),
        step("handles", release("title"), gives(None))]),
    Session("Home Assistant", OWN_IP, False, [
        handle("handles", b"Main.count\0", "count"), step("values", read_handle("count", 4), gives(COUNT)),
        step("writes", write_handle("count", COUNT), gives(None)),
        step("notifications", watch_handle("count", 4), OK), step("handles", release("count"), gives(None))]),
    Session("ads-client for node", NET, True, [
        system_state(), step("name and version", INFO, OK), step("state", STATE, OK),
        step("the symbol version", read(0xF008, 0, 1), gives(b"\1")), *notes_of_version(),
        step("`readRaw`, `writeRaw`", read(DATA, 0, 4), gives(COUNT)),
        step("`readRaw`, `writeRaw`", write(DATA, 0, COUNT), gives(None)),
        step("`readRawByPath`", read_write(0xF004, 0, 0xFFFFFFFF, b"Main.title"), code(0x705), gives(TITLE)),
        handle("`createVariableHandle`", b"Main.title\0", "title", useless(None), size=0xFFFFFFFF),
        step("`readRawByHandle`", read_handle("title", 0xFFFFFFFF), code(0x705), gives(TITLE)),
        step("`subscribeRaw`", add(DATA, 0, 4, 4), OK), step("sums", read_write(0xF080, 2, 16, part() + part()),
                                                             gives(AGAIN_42)), *lists(), types(),
        step("a type by its name, 0xF011 (`readValue`)", read_write(0xF011, 0, 0xFFFFFFFF, b"Axis\0"), code(0x702),
             OK)]),
    Session("node-ads, node-red-contrib-ads", ME, False, [
        step("name and version", INFO, OK), step("state", STATE, OK), handle("handles", b"Main.title\0", "title"),
        handle("handles", b"Main.count\0", "count"),
        handle("names with a full stop in front", b".Main.count\0", "stop", code(0x710), OK),
        step("`ads.STRING`, 81 bytes", read_handle("title", 81), code(0x705), gives(TITLE)),
        step("values", read_handle("count", 4), gives(COUNT)),
        step("writes", write_handle("count", COUNT), gives(None)), *plain_sums(), *lists(), types(),
        step("notifications", watch_handle("count", 4), OK), step("handles", release("count"), gives(None))]),
    Session("TwinCAT: XAE, Scope, a PLC", ME, False, [
        system_state("port 10000 (XAE)"), step("name and version", INFO, OK), step("state", STATE, OK),
        step("`ADSREAD`, `ADSWRITE`", read(DATA, 0, 4), gives(COUNT)),
        step("`ADSREAD`, `ADSWRITE`", write(DATA, 0, COUNT), gives(None)),
        handle("`ADSRDWRT`", b"Main.count\0", "count"),
        handle("names by SIZEOF, with their NULs", b"Main.title" + bytes(71), "title", code(0x710), OK), *lists(),
        types(), step("notifications", add(DATA, 0, 4, 3), OK),
        step("modes 5 and 6 (Scope)", add(DATA, 0, 4, 5), code(0x713), OK),
        step("modes 5 and 6 (Scope)", add(DATA, 4, 4, 6), code(0x713), OK)]),
    Session("Beckhoff's .NET library", ME, False, [
        step("state", STATE, OK), *lists(), types(), handle("handles", b"Main.title\0", "title"),
        handle("handles", b"Main.count\0", "count"),
        step("values", read_handle("count", 4), gives(COUNT)),
        step("`ReadAnyString`, 81 bytes", read_handle("title", 81), code(0x705), gives(TITLE)),
        step("writes", write_handle("count", COUNT), gives(None)), *plain_sums(), *map(told, protocol.TOLD_SUMS),
        added_sum("the sum 0xF085"), deleted_sum("the sum 0xF086"), step("notifications", watch_handle("count", 4), OK),
        step("`CyclicInContext`, `OnChangeInContext`", add(DATA, 0, 4, 5), code(0x713), OK),
        step("`CyclicInContext`, `OnChangeInContext`", add(DATA, 4, 4, 6), code(0x713), OK),
        *notes_of_version()]),
    Session("the Rust crate `ads`", OWN_IP, False, [
        step("name and version", INFO, OK), step("state", STATE, OK), handle("handles", b"Main.title", "title"),
        handle("handles", b"Main.count", "count"),
        step("values", read_handle("count", 4), gives(COUNT)),
        step("writes", write_handle("count", COUNT), gives(None)), *lists(), types(),
        step("`read_multi`", told_sum(0xF083), code(0x702), gives(struct.pack("<IIII", 0, 4, 0, 4) + COUNT * 2),
             more=(0xF083,)),
        step("`write_multi`", read_write(0xF081, 1, 4, struct.pack("<III", DATA, 4, 1) + b"\7"), gives(ZERO)),
        step("notifications", add(DATA, 0, 4, 4), OK),
        added_sum("`add_notification_multi`"), step("handles", release("title"), gives(None))]),
    Session("OPC servers (a guess)", ME, False, [
        step("state", STATE, OK), *lists(), types(), handle("handles", b"Main.count\0", "count"), *plain_sums(),
        step("500 items in a group", read_write(0xF080, 500, 4000, part() * 500), OK),
        step("501 items in a group", read_write(0xF080, 501, 4008, part() * 501), code(0x706))]),
)


def outcome_of(it, profile, more):
    """What a server of this profile, with these further sums, answers to a step."""
    if profile == "strict" or any(group not in more for group in it.more):
        return it.strict
    return it.wide


# The table of docs/CONNECTING.md.

LANDED = protocol.MORE_SUMS                 # the further sums that the page tells of


def phrases(steps):
    """What they are called, each once."""
    return list(dict.fromkeys(it.said for it in steps))


def row(session):
    """What a client does that goes on with the wide server alone, and with neither."""
    wide = [it for it in session.steps if not it.strict.works and outcome_of(it, "wide", LANDED).works]
    left = [it for it in session.steps if not outcome_of(it, "wide", LANDED).works]
    return ["a local router asked"] * session.router + phrases(wide), phrases(left)


def table():
    """A row a client."""
    lines = ["| client | works in `wide` only | works in neither |", "|---|---|---|"]
    for session in SESSIONS:
        lines.append(f"| {session.client} | " + " | ".join("; ".join(it) or "–" for it in row(session)) + " |")
    return "\n".join(lines) + "\n"
