"""The programs themselves, as processes over real files: a store and a recording that a second start goes on with, the number of each status,
what is long, and what is taken of memory and of the processor."""
import os
import resource
import shutil
import socket
import subprocess
import tempfile
import threading

from tries.running import EXAMPLES, ME, NET, PLANT, Served, free_port, see

# 8 bytes to data offset 72, and a read of them; each a frame of a client that is a route of plant.toml.
ADDRESSES = "0501020301015303c0a8000901018980"
HI = "4869000000000000"
READ = f"00002c000000{ADDRESSES}020004000c0000000000000002000000404000004800000008000000"


def ran(program, folder, *words, stdin=None, seconds=60):
    """What a process of the program prints, and its status."""
    it = subprocess.run([program, *words], cwd=folder, stdin=stdin or subprocess.DEVNULL, stdout=subprocess.PIPE, stderr=subprocess.PIPE, timeout=seconds)
    return it.stdout.decode(), it.returncode


def write_of(data):
    """A frame that writes 8 bytes to data offset 72."""
    return f"000034000000{ADDRESSES}0300040014000000000000000100000040400000" + "48000000" + "08000000" + data


def frame(command, number, payload):
    """A frame of that client, in hexadecimal digits."""
    fields = (command, 2), (4, 2), (len(payload), 4), (0, 4), (number, 4)
    ams = bytes.fromhex(ADDRESSES) + b"".join(n.to_bytes(size, "little") for n, size in fields) + payload
    return (bytes(2) + len(ams).to_bytes(4, "little") + ams).hex()


def asks(at, length, *data):
    """The payload of a read or a write of the data area."""
    return b"".join(n.to_bytes(4, "little") for n in (0x4040, at, length)) + b"".join(data)


def put(folder, name, text):
    with open(os.path.join(folder, name), "w", encoding="utf-8") as file:
        file.write(text)


def keeps(program, folder):
    """A store that one process writes is what the next one begins with."""
    put(folder, "write.script", f"open 1\nbytes 1 {write_of(HI)}\ntick 1\n")
    put(folder, "read.script", f"open 1\nbytes 1 {READ}\n")
    out, status = ran(program, folder, "keep", "plant.toml", "write.script", "values.store")
    see(status == 0 and out.splitlines()[-1] == "saved 1", f"keep: {out!r}, status {status}")
    see(os.path.getsize(os.path.join(folder, "values.store")) > 0, "the store is empty")
    out, status = ran(program, folder, "keep", "plant.toml", "read.script", "values.store")
    see(status == 0 and out.splitlines()[-1] == "saved 0", f"keep again: {out!r}, status {status}")
    see(out.splitlines()[0].endswith("08000000" + HI), f"the second start does not read what the first wrote: {out!r}")


def records(program, folder):
    """A recording that one process ended is what the next one goes on with."""
    words = ("record", "Main.wave", "Main.count", "--mode", "change", "--cycle", "0", "--count", "4", "--store", "s", "--local", "plant.toml", "--me", ME)
    for wave, count in ((3, 1), (6, 2)):
        out, status = ran(program, folder, *words)
        wanted = [f"Main.wave count {wave} last 300000 4", f"Main.count count {count} last 100000 42"]
        see(status == 0 and out.splitlines() == wanted, f"record: {out!r}, status {status}")


def ends(program, folder):
    """The number that the process ends with is that of docs/COMMANDS.md."""
    put(folder, "bad.script", "open 1\nnothing\n")
    put(folder, "broken.toml", "schema = 1\nnet = \"5.1.2.3.1.1\n")
    shutil.copy(os.path.join(EXAMPLES, "overlap.toml"), folder)
    nobody = f"127.0.0.1:{free_port()}"
    local = ("--local", "plant.toml", "--me", ME)
    asked = [
        (0, "", ("check", "plant.toml")), (1, "ads: usage", ()), (1, "ads: usage", ("--help",)), (1, "ads: usage", ("check", "plant.toml", "more")),
        (2, "ads: description rule 12 item 1", ("check", "overlap.toml")), (2, "ads: description syntax", ("check", "broken.toml")),
        (3, "ads: script line 2", ("replay", "plant.toml", "bad.script")), (4, "ads: read fault", ("check", "nowhere.toml")),
        (6, "ads: link fault", ("get", "Main.count", "--to", nobody, "--netid", NET, "--me", ME)), (0, "42", ("get", "Main.count", *local)),
        (8, "ads: refused 0x710 symbol not found", ("get", "Main.none", *local)), (13, "ads: bad value", ("set", "Main.count", "x", *local)),
    ]
    for wanted, last, words in asked:
        out, status = ran(program, folder, *words)
        see(status == wanted and (not last or out.splitlines()[-1:] == [last]), f"ads {' '.join(words)}: {out[-200:]!r}, status {status} in place of {last!r}, {wanted}")
    with open("/dev/full", "wb") as full:
        status = subprocess.run([program, "check", "plant.toml"], cwd=folder, stdin=subprocess.DEVNULL, stdout=full, stderr=subprocess.DEVNULL).returncode
    see(status == 5, f"ads check onto a full disk: status {status}")
    return len(asked) + 1


def daemon_of(program):
    """The daemon that was built beside the program; None where the program was named alone."""
    daemon = os.path.join(os.path.dirname(program), "..", "..", "adsd", "out", "adsd")
    return daemon if os.path.exists(daemon) else None


def daemon_ends(program, folder):
    """The number that the daemon ends with is that of docs/DAEMON.md."""
    daemon = daemon_of(program)
    if not daemon:
        return 0
    put(folder, "stored.toml", "description = \"plant.toml\"\nstore = \"nowhere/store\"\n")
    put(folder, "wrong.toml", "description = \"plant.toml\"\nlisten = 7\n")
    asked = [(0, ("--version",)), (1, ()), (1, ("--no-such-option",)), (1, ("wrong.toml",)), (2, ("overlap.toml",)), (4, ("nowhere.toml",)),
             (14, ("stored.toml",))]
    for wanted, words in asked:
        it = subprocess.run([daemon, *words], cwd=folder, stdin=subprocess.DEVNULL, stdout=subprocess.PIPE, stderr=subprocess.PIPE, timeout=60)
        see(it.returncode == wanted, f"adsd {' '.join(words)}: status {it.returncode} in place of {wanted}: {it.stdout[-200:]!r} {it.stderr[-200:]!r}")
    return len(asked)


def daemon_tells(program, folder):
    """The daemon's log says that the description can't be read any more, and that it can be read again; then it ends in order."""
    daemon, plant, aside = daemon_of(program), os.path.join(folder, "told.toml"), os.path.join(folder, "aside.toml")
    if not daemon:
        return
    shutil.copy(PLANT, plant)
    words = [daemon, "told.toml", "--listen", f"127.0.0.1:{free_port()}", "--log", "journal", "--stop-file", "stop"]
    with subprocess.Popen(words, cwd=folder, stdin=subprocess.DEVNULL, stdout=subprocess.PIPE, stderr=subprocess.PIPE, text=True) as it:
        late = threading.Timer(60, it.kill)
        late.start()
        see(it.stdout.readline() == "listening\n", "adsd does not listen")
        for one, other, wanted in ((plant, aside, "<4>description: cannot be read"), (aside, plant, "<5>description: can be read again")):
            os.rename(one, other)
            line = next((line for line in it.stderr if "description: " in line), "nothing")
            see(line.startswith(wanted), f"adsd says {line!r} in place of {wanted!r}")
        put(folder, "stop", "")
        it.communicate()
        late.cancel()
    see(it.returncode == 0, f"adsd ended with {it.returncode}")


def daemon_refuses(program, folder):
    """A configuration with two files that are one, or with a slip of TOML, is refused by a sentence, and nothing is made."""
    daemon = daemon_of(program)
    if not daemon:
        return 0
    os.symlink("plant.toml", os.path.join(folder, "round.toml"))
    asked = [
        ('store = "round.toml"\n', "adsd: description and store are one file, plant.toml or round.toml"),
        ('status = "./one.toml"\n', "adsd: the configuration and status are one file, one.toml or ./one.toml"),
        ('store = "one"\nstatus = "one"\n', "adsd: store and status are one file, one: "),
        ('status = "."\n', "adsd: status is to be a file"),
        ('listen = "0.0.0.0"\n', "adsd: listen takes an address"),
        ('settle = 3601\n', "adsd: settle takes a number of seconds from 0 to 3600"),
        ('keep_description = true\n', "adsd: keep_description needs store"),
        ('allow = [\n', "adsd: this is no configuration: TOML parse error at line 3, column 1: "),
    ]
    before = sorted(os.listdir(folder))
    for keys, wanted in asked:
        put(folder, "one.toml", f'description = "plant.toml"\n{keys}')
        it = subprocess.run([daemon, "check", "one.toml"], cwd=folder, stdin=subprocess.DEVNULL, stdout=subprocess.PIPE, stderr=subprocess.PIPE, timeout=60)
        told = it.stderr.decode()
        see(it.returncode == 1 and told.startswith(wanted) and told.count("\n") == 1, f"adsd check of {keys!r}: status {it.returncode}, {told!r}")
    os.remove(os.path.join(folder, "one.toml"))
    see(sorted(os.listdir(folder)) == before, "adsd check made a file")
    return len(asked)


def daemon_stands_in(program, folder):
    """The daemon serves the description that it accepted last, where a start finds one that is refused."""
    daemon = daemon_of(program)
    if not daemon:
        return
    shutil.copy(PLANT, os.path.join(folder, "kept.toml"))
    words = [daemon, "kept.toml", "--store", "kept", "--keep-description", "true", "--log", "journal", "--stop-file", "end"]
    for told in (None, "<3>description refused: rule "):
        with subprocess.Popen([*words, "--listen", f"127.0.0.1:{free_port()}"], cwd=folder, stdin=subprocess.DEVNULL, stdout=subprocess.PIPE,
                              stderr=subprocess.PIPE, text=True) as it:
            late = threading.Timer(60, it.kill)
            late.start()
            see(it.stdout.readline() == "listening\n", "adsd does not listen")
            put(folder, "end", "")
            _, log = it.communicate()
            late.cancel()
        os.remove(os.path.join(folder, "end"))
        see(it.returncode == 0 and (told is None or told in log), f"adsd ended with {it.returncode}, and tells {log!r}")
        shutil.copy(os.path.join(EXAMPLES, "overlap.toml"), os.path.join(folder, "kept.toml"))


# A body of one entry has 21 bytes beside its value and its form, where the name has one byte, and the form has 26: "array [1..1048529] of byte". It has
# 1,048,576 at most.
MOST = 1_048_576 - 21 - 26
LONG = f"""schema = 1
net = "{NET}"
[[route]]
net = "{ME}"
rights = "control"
[[port]]
port = 851
name = "Long"
major = 1
minor = 1
build = 1
data = 1048576
[[port.symbol]]
name = "x"
type = "ARRAY [1..{MOST}] OF BYTE"
area = "data"
offset = 0
persistent = true
"""


def long_ones(program, folder):
    """A piece of megabytes is taken like any other, and a body of the greatest size is saved and read again."""
    first, then = bytes(n % 251 for n in range(MOST)), bytes(n % 241 for n in range(MOST))
    piece = frame(3, 1, asks(0, MOST, first)) + frame(2, 2, asks(0, MOST)) + frame(3, 3, asks(0, MOST, then))
    put(folder, "long.toml", LONG)
    put(folder, "long.script", f"open 1\nbytes 1 {piece}\ntick 1\n")
    put(folder, "again.script", f"open 1\nbytes 1 {frame(2, 1, asks(0, MOST))}\n")
    out, status = ran(program, folder, "keep", "long.toml", "long.script", "long.store")
    lines = out.splitlines()
    see(status == 0 and lines[-1] == "saved 1", f"keep of a long piece: {out[-200:]!r}, status {status}")
    see(len(lines) > 3 and lines[1].endswith(first.hex()), "keep: the long piece is not answered by what it wrote")
    see(os.path.getsize(os.path.join(folder, "long.store")) > 1_048_576, "keep: the longest body is not in its file")
    out, status = ran(program, folder, "keep", "long.toml", "again.script", "long.store")
    see(status == 0 and out.splitlines()[0].endswith(then.hex()), f"keep again: the long body is not what was written, {out[-200:]!r}, status {status}")


def with_types(ports):
    """A description with many types, whose members have long names; each port has a symbol of one of them."""
    members = ",\n".join(f"  {{ name = \"member_{n}_{'x' * 200}\", type = \"DINT\" }}" for n in range(100))
    types = "".join(f"[[type]]\nname = \"Type_{n}\"\nmember = [\n{members}\n]\n" for n in range(150))
    each = "".join(f"[[port]]\nport = {851 + n}\nname = \"A\"\nmajor = 1\nminor = 1\nbuild = 1\ndata = 400\n[[port.symbol]]\nname = \"x\"\ntype = \"Type_7\"\n"
                   "area = \"data\"\noffset = 0\n" for n in range(ports))
    return f"schema = 1\nnet = \"{NET}\"\n[[route]]\nnet = \"{ME}\"\nrights = \"write\"\n{types}{each}"


def memory_of(server, word):
    """What a server holds of memory (VmRSS), or held at most (VmHWM), in bytes."""
    with open(f"/proc/{server.process.pid}/status", encoding="ascii") as lines:
        return next(int(line.split()[1]) * 1024 for line in lines if line.startswith(f"{word}:"))


def shares_types(program, folder):
    """The types of a description stand once, however many ports it has."""
    held = []
    for ports in (1, 16):
        put(folder, f"types_{ports}.toml", with_types(ports))
        with Served(program, os.path.join(folder, f"types_{ports}.toml")) as server:
            held.append(memory_of(server, "VmHWM"))
    see(held[1] < held[0] + (16 << 20), f"16 ports take {held[1]:,} bytes, where one takes {held[0]:,}: the types are copied")


def gives_room_back(program, folder):
    """What waited for a connection gives its room back once it was taken."""
    burst = bytes.fromhex("".join(frame(2, n, asks(0, 1_000_000)) for n in range(1, 5)))
    with Served(program, os.path.join(folder, "long.toml")) as server:
        held = []
        for _ in range(24):
            peer = socket.create_connection(server.to.split(":"), 10)
            held.append(peer)
            peer.sendall(burst)
            left = 4 * 1_000_046
            while left:
                left -= len(peer.recv(1 << 20))
        took = memory_of(server, "VmRSS")
        for peer in held:
            peer.close()
    see(took < 64 << 20, f"24 connections, which took 4 MB each, hold {took:,} bytes")


def used(program, folder, *words):
    """What a process prints, and the seconds of the processor that it took."""
    before = resource.getrusage(resource.RUSAGE_CHILDREN)
    out, status = ran(program, folder, *words)
    after = resource.getrusage(resource.RUSAGE_CHILDREN)
    see(status == 0, f"ads {' '.join(words)}: status {status}")
    return out, after.ru_utime + after.ru_stime - before.ru_utime - before.ru_stime


def reads_much_at_once(program, folder):
    """A client reads what comes in large pieces, not byte by byte."""
    local, took = used(program, folder, "get", "x", "--local", "long.toml", "--me", ME)
    with Served(program, os.path.join(folder, "long.toml")) as server:
        came, spent = used(program, folder, "get", "x", *server.words())
    see(came == local, f"get over a socket prints {came[:80]!r}, in the same process {local[:80]!r}")
    see(spent < 0.1 + 8 * took, f"get of a megabyte over a socket takes {spent:.2f} s of a processor, {took:.2f} s in the same process")


def serves(program):
    """A server answers a process of the same program over loopback."""
    with Served(program, PLANT) as server:
        out, status = ran(program, ".", "get", "Main.count", *server.words())
        see((out, status) == ("42\n", 0), f"get of a server: {out!r}, status {status}")


def tried(program, _size):
    with tempfile.TemporaryDirectory() as folder:
        shutil.copy(PLANT, os.path.join(folder, "plant.toml"))
        keeps(program, folder)
        records(program, folder)
        count = ends(program, folder)
        count += daemon_ends(program, folder)
        daemon_tells(program, folder)
        count += daemon_refuses(program, folder)
        daemon_stands_in(program, folder)
        long_ones(program, folder)
        shares_types(program, folder)
        gives_room_back(program, folder)
        reads_much_at_once(program, folder)
    serves(program)
    return (f"a store and a recording go on at a second start; {count} endings by their numbers; a description that can't be read, or is refused at a start; "
            "long pieces and bodies; room; a server and a client as processes")
