"""Servers under page.py: one that goes and comes, that has a new description, that has more symbols than are watched, and those that lie."""
import concurrent.futures
import os
import shutil
import struct
import subprocess
import tempfile
import time

from tries.counting import Counting
from tries.fake_server import Fake, data, reply, symbol, told, type_entry, uploads
from tries.paged import PLANT, Page, Rig, Stream, put
from tries.running import FOREVER, ME, NET, Served, see


def goes_and_comes(program):
    """The server is gone, and back with its first values; a connection that is cut; a server that hangs."""
    words = ("--write", "Main.count", "--seconds", "4")
    with Served(program, PLANT) as server, Counting(server.to) as between, Page(PLANT, between.to, *words) as page, Stream(page) as stream:
        page.until(page.is_well, "the server")
        with Rig(server) as rig:
            rig.put("Main.count", struct.pack("<i", 5))
        page.until(lambda: page.values()[851, "Main.count"]["value"] == 5, "a value")
        between.is_open = False
        between.cut_off()
        said = stream.next("state", lambda it: not it["live"] and it["version"])
        see("closed the connection" in said["why"], f"the sentence for a server that is gone: {said['why']}")
        page.until(lambda: not page.is_well(), "503 of /healthz")
        see(b"ads_page_up 0\n" in page.ask("/metrics")[2] and page.values()[851, "Main.count"]["value"] == 5, "the last values while the server is gone")
        status, why = page.write("Main.count", "6", page.token())
        see(status == 503 and "can't be asked now" in why, f"a write while the server is gone: {status} {why}")
        between.is_open = True
        stream.next("table", lambda it: it["state"]["live"])
        see(page.is_well() and page.json("/history.json?name=Main.count")["values"][-2:] == [None, 5], "the past has no gap where the server was gone")
        server.process.send_signal(19)
        page.until(lambda: b"did not answer in 4 seconds" in page.ask("/healthz")[2], "the sentence for a server that hangs")
        server.process.send_signal(18)
        page.until(page.is_well, "the server that went on")
        server.process.kill()
        server.process.wait()
        page.until(lambda: not page.is_well(), "503 of a killed server")
        words = (program, "serve", PLANT, "--listen", server.to, "--events", FOREVER)
        again = subprocess.Popen(words, stdin=subprocess.DEVNULL, stdout=subprocess.DEVNULL)
        try:
            page.until(lambda: page.is_well() and page.values()[851, "Main.count"]["value"] == 42, "the server that was started again")
        finally:
            again.kill()
            again.wait()


def takes_descriptions(program):
    with tempfile.TemporaryDirectory() as folder:
        takes_new(program, folder)
        tells_of_another(program, folder)


def takes_new(program, folder):
    """A new description under the page: symbols, types and enumerations are those of the new one."""
    place, text = os.path.join(folder, "plant.toml"), open(PLANT, encoding="utf-8").read()
    shutil.copy(PLANT, place)
    with Served(program, place) as server, Page(place, server.to, "--write", "Main.count") as page, Stream(page) as stream:
        first = stream.next("table", lambda it: it["g"])
        with Rig(server) as rig:
            rig.put("Main.count", struct.pack("<i", 7))
        new = text.replace('name = "Main.bits"', 'name = "Main.other"').replace('name = "Auto"', 'name = "Running"')
        put(place, new.replace('offset = 0\ninitial = "2a000000"', "offset = 69984"))
        table = stream.next("table", lambda it: it["g"] > first["g"] and it["state"]["version"] == 2)
        names = [it["n"] for it in table["symbols"]]
        see("Main.other" in names and "Main.bits" not in names and ["Running", 2] in table["types"]["Mode"]["v"], f"the table of a new description: {names}")
        see(page.values()[851, "Main.count"]["value"] == 7, f"a value that moved is {page.values()[851, 'Main.count']['value']}")
        notices = table["state"]["notices"]
        see(len(notices) == 1 and notices[0].startswith("904 values of long arrays are not shown"), f"the notices: {notices}")
        put(place, text.replace('net = "5.1.2.3.1.1"', 'net = "6.6.6.6.1.1"').replace('name = "Main.count"', 'name = "Main.gone"'))
        table = stream.next("table", lambda it: it["state"]["version"] == 3)
        see(table["state"]["net"] == "6.6.6.6.1.1", f"another NetId: {table['state']}")
        see(table["forms"] == [{"n": "Main.count", "port": None, "l": None}], f"the form of a name that is gone: {table['forms']}")
        status, why = page.write("Main.count", "5", page.token())
        see(status == 403 and "none of the values" in why, f"a write of a name that is gone: {status} {why}")
        put(place, "nonsense")
        time.sleep(2.5)
        see(page.is_well() and page.values()[851, "Main.gone"]["value"] == 42, "a description that is refused leaves all as it was")


def tells_of_another(program, folder):
    """A file that differs from what is served: what is served is shown, and the difference is told."""
    other, text = os.path.join(folder, "other.toml"), open(PLANT, encoding="utf-8").read()
    put(other, text.replace('name = "Main.mode"\ntype = "Mode"', 'name = "Main.mode"\ntype = "INT"').replace('name = "pos"', 'name = "place"'))
    with Served(program, PLANT) as server, Page(other, server.to) as page:
        page.until(page.is_well, "the server")
        notices = page.json("/values.json")["server"]["notices"]
        see(len(notices) == 2 and "2 of 16 symbols differ, among them Main.axes" in notices[0], f"a file that is not what is served: {notices}")
        see("pos" in page.values()[851, "Main.axes"]["value"][0], "what is shown is not what is served")


def two_ports(program):
    """Two ports with the same names: each value has its own, in the table, in the past and in the form."""
    with open(PLANT, encoding="utf-8") as file, tempfile.TemporaryDirectory() as folder:
        place, (head, port) = os.path.join(folder, "two.toml"), file.read().split("[[port]]\n")
        put(place, f"{head}[[port]]\n{port}[[port]]\n{port.replace('port = 851', 'port = 852').replace('signal = 2', 'signal = 1')}")
        with Served(program, place) as server, Page(place, server.to, "--write", "852:Main.count") as page:
            page.until(page.is_well, "the server")
            see(page.write("Main.count", "7", page.token())[0] == 403, "a write without its port, which is that of the first")
            body = b'{"name": "Main.count", "port": 852, "value": "7"}'
            status, _, said = page.ask("/write", "POST", body, Content_Type="application/json", X_Token=page.token())
            see(status == 200, f"a write at the second port: {status} {said}")
            page.until(lambda: page.values()[852, "Main.count"]["value"] == 7, "the value of the second port")
            see(page.values()[851, "Main.count"]["value"] == 42, "the value of the first port changed, too")
            see(page.json("/history.json?name=Main.count&port=852")["values"][-1] == 7, "the past of the second port")
            see(page.json("/history.json?name=Main.count")["values"] == [42], "the past of the first port")
        with Served(program, place) as server, Page(place, server.to, "--port", "852") as page:
            page.until(page.is_well, "the server")
            see({port for port, _ in page.values()} == {852}, "--port shows another port")


def far_apart(program):
    """More symbols than notifications can watch: the rest is read in sums, and none is shown under the name of another when a description moves them."""
    def text(shift):
        symbols = "".join(f'[[port.symbol]]\nname = "Far.s{at}"\ntype = "DINT"\narea = "data"\noffset = {4096 * at + shift}\n'
                          f'initial = "{struct.pack("<i", at).hex()}"\n' for at in range(600))
        return (f'schema = 2\nnet = "{NET}"\n[[route]]\nnet = "{ME}"\nrights = "write"\n[[port]]\nport = 851\nname = "Far"\nmajor = 1\nminor = 0\nbuild = 0\n'
                f"data = {4096 * 601}\n{symbols}")
    with tempfile.TemporaryDirectory() as folder:
        place = os.path.join(folder, "far.toml")
        put(place, text(0))
        with Served(program, place) as server, Page(place, server.to, "--seconds", "30") as page, Stream(page) as stream:
            table = stream.next("table", lambda it: it["g"])
            see(table["values"] == list(range(600)), "values of sums")
            with Rig(server) as rig:
                rig.put("Far.s599", struct.pack("<i", -1))
            stream.next("values", lambda it: [599, -1] in it["c"])
            put(place, text(8))
            seen, table = [], None
            while table is None:
                kind, said = stream.events.get(timeout=60)
                table, seen = (said if kind == "table" else None), seen + (said["c"] if kind == "values" else [])
            see(not seen and table["values"] == [*range(599), -1], f"values while a description moves all symbols: {seen[:5]}")


def lying_server(lie):
    what, answer, part = lie
    with Fake(answer) as it, Page(PLANT, it.to, "--seconds", "1") as page:
        page.until(lambda: part.encode() in page.ask("/healthz")[2], f"a server with {what}: the sentence {part!r}")


def notes(answer, payload):
    """A device that grants a notification and sends a frame of notifications behind it."""
    def answers(frame):
        if frame.command == 6:
            note = frame._replace(target=frame.source, source=frame.target, command=8, flags=4, id=0, payload=payload)
            return reply(frame, struct.pack("<II", 0, 1)) + note.bytes()
        return answer(frame)
    return answers


def sample(given):
    inner = struct.pack("<QIII", 1, 1, 1, len(given)) + given
    return struct.pack("<II", 4 + len(inner), 1) + inner


def running_version(count=iter(range(10 ** 6))):
    return lambda frame: data(frame, bytes([next(count) % 256]))


def endless(answer):
    """A device that sends notifications without end in place of an answer to a read."""
    def answers(frame):
        note = frame._replace(target=frame.source, source=frame.target, command=8, flags=4, id=0, payload=struct.pack("<II", 4, 0)).bytes()
        return (note * 100 for _ in range(10 ** 6)) if frame.command == 2 else answer(frame)
    return answers


def chain(count, last):
    """Types each of which has a member of the next; the last one has a member of that type."""
    names = [b"T%d" % number for number in range(count)] + [last]
    return [type_entry(name, name, 4, subs=[type_entry(b"in", inner, 4, flags=2)]) for name, inner in zip(names, names[1:])]


ONE = symbol(b"Main.count", b"DINT", 0x4040, 0, 4, 3)
CIRCLE = type_entry(b"T0", b"T0", 4, subs=[type_entry(b"in", b"T0", 4, flags=2)])
HOSTILE = symbol(b"<img src=x>\x1b[2J", b"DINT", 0x4040, 4, 4, 3, comment=b"</td><script>")
GOOD = {**uploads([ONE], []), 0xF008: b"\1"}
# What a server is, its answers, and a part of the sentence that must come.
LIES = [
    ("samples of 5 bytes where 4 are watched", notes(told(GOOD), sample(bytes(5))), "sent 5 bytes of a notification of 4"),
    ("a sample that is none", notes(told(GOOD), b"\xff" * 30), "does not speak ADS"),
    ("no samples", notes(told(GOOD), struct.pack("<II", 4, 0)), "did not send its first samples"),
    ("an upload of 4 GB", told({**GOOD, 0xF00F: struct.pack("<IIIIII", 1, 2 ** 32 - 1, 0, 0, 0, 0)}), "are not asked for"),
    ("names that are none", told({**GOOD, 0xF00B: b"\xff" * len(ONE)}), "sends no symbols"),
    ("a version of two bytes", told({**GOOD, 0xF008: b"\1\2"}), "where 1 were asked for"),
    ("no ADS", lambda frame: b"HTTP/1.1 400 Bad Request\r\n\r\n", "does not speak ADS"),
    ("frames without end", endless(told(GOOD)), "in place of an answer"),
    ("answers to what nobody asked", lambda frame: told(GOOD)(frame._replace(id=frame.id + 7)), "answers nothing"),
    ("answers of another command", lambda frame: told(GOOD)(frame._replace(command=frame.command ^ 11)), "answers nothing"),
    ("a frame of 4 GB", lambda frame: b"\0\0\xff\xff\xff\xff" + bytes(40), "does not speak ADS"),
    ("a frame of four bytes", lambda frame: b"\0\0\4\0\0\0" + bytes(4), "does not speak ADS"),
    ("an answer whose length is more than there is", lambda frame: reply(frame, struct.pack("<II", 0, 9999) + b"1"), "does not speak ADS"),
    ("a thousand symbols, of which it sends one", told({**GOOD, 0xF00F: struct.pack("<IIIIII", 1000, len(ONE), 0, 0, 0, 0)}), "1000 symbols, and sends 1"),
    ("fewer bytes than it says", told({**GOOD, 0xF00F: struct.pack("<IIIIII", 1, len(ONE) + 100, 0, 0, 0, 0)}), "were asked for"),
    ("an end", lambda frame: None, "closed the connection"),
    ("a version that runs", notes(told({**GOOD, 0xF008: running_version()}), sample(bytes(4))), "has a new description again and again"),
]


def lying_servers():
    """Peers that lie: the page says so, asks again and lives."""
    with concurrent.futures.ThreadPoolExecutor(4) as pool:
        list(pool.map(lying_server, LIES))
    with Fake(notes(told({**uploads([ONE, HOSTILE], []), 0xF008: b"\1"}), sample(bytes(8)))) as it, Page(PLANT, it.to) as page:
        page.until(page.is_well, "a server with a hostile name")
        see((851, "<img src=x>\\x1b[2J") in page.values(), f"a hostile name: {list(page.values())}")
    for what, types in (("a type that has itself", chain(0, b"T0") or [CIRCLE]), ("types in a circle", chain(3, b"T0")), ("two thousand types in one another", chain(2000, b"DINT"))):
        odd = symbol(b"Main.odd", b"T0", 0x4040, 8, 4, 65)
        with Fake(notes(told({**uploads([ONE, odd], types), 0xF008: b"\1"}), sample(bytes(4)))) as it, Page(PLANT, it.to) as page:
            page.until(page.is_well, f"a server with {what}")
            notices = page.json("/values.json")["server"]["notices"]
            see(any("Main.odd is not shown" in notice for notice in notices), f"{what}: {notices}")
    return len(LIES) + 4
