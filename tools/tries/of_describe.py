"""describe.py: round trips with our server, a controller, and peers that lie."""
import concurrent.futures
import os
import resource
import socket
import struct
import tempfile
import time

from lib.program import run as run_program
from tries.controller import LEFT_OUT, SYMBOLS, TYPES, WANTED, controller
from tries.fake_server import Fake, data, reply, symbol, told, type_entry, uploads
from tries.running import ME, NET, PLANT, Served, Wrong, refused, see, tool

WORDS = ("--netid", NET, "--me", ME)


def described(to, *words, net=NET):
    """What describe.py prints, and the seconds of a processor that it took."""
    before = resource.getrusage(resource.RUSAGE_CHILDREN).ru_utime
    out, err, status = tool("describe.py", "--to", to, "--netid", net, "--me", ME, *words)
    see(status == 0, f"describe.py of {to}: status {status}: {err}")
    return out, resource.getrusage(resource.RUSAGE_CHILDREN).ru_utime - before


def round_trip(program, folder, given, *words):
    """The description of a description's server, served and described again: the same. Gives it, and the greater time."""
    name = os.path.join(folder, "described.toml")
    with Served(program, given) as server:
        first, one = described(server.to, *words)
    with open(name, "w", encoding="utf-8") as file:
        file.write(first)
    said, status = run_program(program, "check", name)
    see(status == 0, f"check of what describe.py wrote: {said}")
    with Served(program, name) as server:
        second, two = described(server.to, *words)
    plain = [[line for line in text.splitlines() if not line.startswith("#")] for text in (first, second)]
    see(plain[0] == plain[1], f"described again, the description of {given} differs")
    return first, max(one, two)


def values_kept(program, folder):
    """With --initial, the present values: a value that was set is the one that the next server begins with."""
    with Served(program, PLANT) as server:
        for name, value in (("Main.count", "7"), ("Main.title", "'Max'"), ("Main.axis[2].pos", "258")):
            said, status = run_program(program, "set", name, value, *server.words())
            see(status == 0, f"set {name}: {said}")
        text, _ = described(server.to, "--initial")
    see('initial = "07000000"' in text and 'initial = "4d61780000000000"' in text and "read_only = true" in text and "persistent = true" in text, text)
    name = os.path.join(folder, "values.toml")
    with open(name, "w", encoding="utf-8") as file:
        file.write(text)
    for path, value in (("Main.count", "7"), ("Main.title", "'Max'"), ("Main.axis[2].pos", "258"), ("Main.limit", "1000")):
        said, _ = run_program(program, "get", path, "--local", name, "--me", ME)
        see(said == value + "\n", f"get {path} of what describe.py --initial wrote: {said}")


def many_symbols(folder, count=10000):
    name = os.path.join(folder, "many.toml")
    with open(name, "w", encoding="utf-8") as file:
        file.write(f'schema = 1\nnet = "{NET}"\nroute = [{{ net = "{ME}", rights = "control" }}]\n')
        file.write(f'[[port]]\nport = 851\nname = "Many"\nmajor = 1\nminor = 0\nbuild = 0\ndata = {4 * count}\n')
        for place in range(count):
            file.write(f'[[port.symbol]]\nname = "Hall{place % 7}.s{place}"\ntype = "DINT"\narea = "data"\noffset = {4 * place}\n')
    return name


def of_controller(program, folder):
    with Fake(controller()) as it:
        text, _ = described(it.to, "--initial")
        see(text.startswith(WANTED), f"the description of a controller:\n{text}")
        left_out = {line.split(": ")[1].split(" ")[0] for line in text.splitlines() if line.startswith("# left out")}
        see(left_out == LEFT_OUT and "# MAIN.flags: its present value can't be read" in text, f"what is left out of a controller's description: {left_out}")
    name = os.path.join(folder, "controller.toml")
    with open(name, "w", encoding="utf-8") as file:
        file.write(text)
    said, status = run_program(program, "check", name)
    see(status == 0, f"check of a controller's description: {said}")
    said, _ = run_program(program, "show", "MAIN.timer", "--local", name, "--me", ME)
    see("MAIN.timer.Q FALSE\n" in said, f"show of a controller's function block: {said}")
    said, _ = run_program(program, "get", "MAIN.mode", "--local", name, "--me", ME)
    see(said == "7\n", f"get of a controller's enumeration: {said}")


def drip(frame):
    """A frame of 400 bytes, one each 0.1 s."""
    for byte in bytes(2) + struct.pack("<I", 400) + bytes(400):
        time.sleep(0.1)
        yield bytes([byte])


def counted(symbols=0, symbol_bytes=0, types=0, type_bytes=0):
    return struct.pack("<IIIIII", symbols, symbol_bytes, types, type_bytes, 0, 0)


def changed(given, at, new):
    return given[:at] + new + given[at + len(new):]


def lies():
    """Peers that lie: what each is, its answers, and the status and a part of the sentence that must come."""
    good, one = uploads(SYMBOLS, TYPES), symbol(b"A", b"INT", 0x4040, 0, 2, 2)
    struct_type = type_entry(b"S", b"", 2, subs=[type_entry(b"x", b"INT", 2, 0, 2, 2)])
    return [
        ("an upload of 4 GB", told({**good, 0xF00F: counted(1, 2 ** 32 - 1)}), 9, "are not asked for"),
        ("types of 4 GB", told({**good, 0xF00F: counted(0, 0, 1, 2 ** 32 - 1)}), 9, "are not asked for"),
        ("more symbols than it sends", told(uploads([one], []) | {0xF00F: counted(2, len(one))}), 9, "has 2 symbols, and sends 1"),
        ("fewer bytes than it says", told(uploads([one], []) | {0xF00F: counted(1, 100)}), 9, "where 100 were asked for"),
        ("counts of 12 bytes", told({0xF00F: bytes(12)}), 9, "where 24 were asked for"),
        ("an entry beyond the upload", told(uploads([changed(one, 0, b"\xff\0\0\0")], [])), 9, "an entry says that it has 255 bytes"),
        ("an entry of no bytes", told(uploads([changed(one, 0, bytes(4))], [])), 9, "an entry says that it has 0 bytes"),
        ("a name beyond its entry", told(uploads([changed(one, 24, b"\xff\xff")], [])), 9, "has not its NUL"),
        ("a text without its NUL", told(uploads([changed(one, 31, b"x")], [])), 9, "has not its NUL"),
        ("dimensions beyond the entry", told(uploads([], [changed(struct_type, 38, b"\xff\xff")])), 9, "fewer dimensions than it says"),
        ("sub entries beyond the entry", told(uploads([], [changed(struct_type, 40, b"\xff\xff")])), 9, "a sub entry says"),
        ("a frame of 4 GB", lambda frame: bytes(2) + b"\xff\xff\xff\xff" + bytes(100), 9, "a frame says that it has 4294967295 bytes"),
        ("a frame of no bytes", lambda frame: bytes(6), 9, "a frame says that it has 0 bytes"),
        ("reserved bytes", lambda frame: b"\1\0 \0\0\0" + bytes(32), 9, "two bytes that are not zero"),
        ("a wrong data length", lambda frame: changed(reply(frame, bytes(24)), 26, b"\5\0\0\0"), 9, "says that 5 bytes follow it, and 24 do"),
        ("a wrong length of data", lambda frame: reply(frame, struct.pack("<II", 0, 9)), 9, "does not speak ADS"),
        ("another invoke id", lambda frame: reply(frame._replace(id=99), bytes(24)), 9, "answers nothing"),
        ("no answer", lambda frame: b"", 11, "did not answer in 1 seconds"),
        ("a byte now and then", drip, 11, "did not end its answer in 12 seconds"),
        ("an end", lambda frame: None, 9, "closed the connection"),
        ("an AMS error", lambda frame: reply(frame, b"", 7), 8, "0x7 target machine not found"),
        ("a refusal of everything", told({}), 8, "0x702 invalid index group"),
        ("notifications for ever", lambda frame: (frame._replace(command=8, payload=bytes(8))).bytes() * 10001, 9, "notifications in place of an answer"),
    ]


def of_liars():
    with concurrent.futures.ThreadPoolExecutor(4) as pool:
        return len(list(pool.map(of_liar, lies())))


def of_liar(lie):
    what, answer, status, part = lie
    with Fake(answer) as it:
        try:
            refused(status, part, "describe.py", "--to", it.to, *WORDS, "--seconds", "1")
        except Wrong as wrong:
            raise Wrong(f"a peer with {what}: {wrong}") from None


def wrong_words():
    refused(1, "--to and --netid and --me are wanted", "describe.py")
    refused(1, "--netid is a NetId", "describe.py", "--to", "localhost", "--netid", "5.1", "--me", ME)
    refused(1, "--port is a number from 1 to 65535", "describe.py", "--to", "localhost", *WORDS, "--port", "0")
    refused(1, "the port of --to", "describe.py", "--to", "localhost:x", *WORDS)
    refused(1, "rights", "describe.py", "--to", "localhost", *WORDS, "--route", "1.2.3.4.5.6=all")
    with socket.socket() as it:
        it.bind(("127.0.0.1", 0))
        refused(6, "can't be reached", "describe.py", "--to", "127.0.0.1:%d" % it.getsockname()[1], *WORDS)


def of_served(program, folder):
    with Served(program, PLANT) as server:
        refused(9, "is 1.1.1.1.1.1 one of its routes?", "describe.py", *server.words(me="1.1.1.1.1.1"))
        refused(8, "0x7 target machine not found", "describe.py", *server.words(net="1.1.1.1.1.1"))
        refused(8, "0x6 target port not found", "describe.py", *server.words(), "--port", "852")
        refused(4, "No such file", "describe.py", *server.words(), "--out", "/nowhere/plant.toml")
        name = os.path.join(folder, "out.toml")
        out, _, status = tool("describe.py", *server.words(), "--out", name, "--route", "10.0.0.1.1.1=read", "--route", f"{ME}=write")
        see(status == 0 and out == "", "describe.py --out prints nothing")
        with open(name, encoding="utf-8") as file:
            see('net = "10.0.0.1.1.1"\nrights = "read"' in file.read(), "describe.py --route")


def tried(program, _size):
    with tempfile.TemporaryDirectory() as folder:
        text, _ = round_trip(program, folder, PLANT)
        see("#" not in text.split("\n", 1)[1], f"plant.toml is described with nothing left out: {text}")
        round_trip(program, folder, PLANT, "--initial")
        values_kept(program, folder)
        _, seconds = round_trip(program, folder, many_symbols(folder), "--initial")
        see(seconds < 10, f"10,000 symbols took {seconds:.1f} s of a processor")
        of_controller(program, folder)
        liars = of_liars()
        wrong_words()
        of_served(program, folder)
    return f"plant.toml, a controller and 10,000 symbols described ({seconds:.1f} s of a processor for these), served and described again; {liars} peers that lie"
