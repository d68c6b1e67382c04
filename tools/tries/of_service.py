"""service.py: each unit parses, each example becomes the command of its tool, each tool runs by it, and wrong files are
told by their lines.
"""
import os
import re
import shlex
import shutil
import signal
import subprocess
import sys
import tempfile

from tries.running import EXAMPLES, ME, NET, PLANT, TOOLS, Served, free_port, refused, see, tool

SERVICES = ("page", "history", "mqtt", "dial", "relay")
# What a unit is for, the file, its name, and a part of what must be said.
BAD = [
    ("page", "[", ":1: "),
    ("page", 'plant = "a', ":1: "),
    ("page", 'plant = "a"\nto = "b"\n', "`me` is missing; examples/page.toml has all keys"),
    ("page", 'plant = "a"\nto = "b"\nme = "c"\nstat = "d"\n', ":4: page has no key `stat`; is `state` meant?"),
    ("page", 'zzz = "a"\n', ":1: page has no key `zzz`; its keys are plant, to, netid, me,"),
    ("page", "plant = 5\n", ":1: `plant`: a text in quotes is wanted, and a number stands there"),
    ("page", 'plant = "a"\nto = "b"\nme = "c"\nseconds = "5"\n', ":4: `seconds`: a number without quotes is wanted"),
    ("page", 'plant = "a"\nto = "b"\nme = "c"\nwrite = [true]\n', ":4: `write`: an array of texts is wanted, and true"),
    ("history", "names = []\n", ":1: `names`: an array of texts is wanted, and it has none"),
    ("mqtt", 'names = ["a"]\nto = "b"\nme = "c"\nbroker = "d"\nset = 1\n', ":5: `set`: true or false is wanted"),
    ("dial", 'relay = "a"\nserver = "b"\n', "`netid` is missing"),
    ("relay", 'description = "a"\nlisten = "b"\nevents = 5\n', ":3: relay has no key `events`"),
    ("relay", "\xff", "is no TOML document"),
]


def printed(name, file):
    out, err, status = tool("service.py", name, file, "--print")
    see(status == 0, f"service.py {name}: {out}{err}")
    return shlex.split(out)


def commands():
    """Each example is the command of its tool, whose options are all known to it."""
    for name in SERVICES:
        words = printed(name, os.path.join(EXAMPLES, f"{name}.toml"))
        if name == "relay":
            see(words[1:2] == ["relay"] and words[-2] == "--events", f"the command of the relay: {words}")
            continue
        see(words[0] == sys.executable and words[1].endswith(f"/{name}.py"), f"the command of {name}: {words}")
        it = subprocess.run([*words, "--nonesuch"], capture_output=True, text=True, timeout=60)
        see(it.returncode == 1 and "there is no option --nonesuch" in it.stderr, f"{words}: {it.stderr}")
        more = commented(os.path.join(EXAMPLES, f"{name}.toml"))
        see(len(more) >= len(words), f"the keys that stand behind a # in {name}.toml: {more}")


def commented(file):
    """The command with the keys, too, that stand behind a # in an example."""
    with open(file, encoding="utf-8") as it:
        text = re.sub("^# ([a-z-]+ = )", r"\1", it.read(), flags=re.MULTILINE)
    with tempfile.NamedTemporaryFile("w", suffix=".toml", encoding="utf-8") as it:
        it.write(text)
        it.flush()
        return printed(os.path.basename(file)[:-5], it.name)


def wrong_files(folder):
    file = os.path.join(folder, "bad.toml")
    for name, text, part in BAD:
        with open(file, "w", encoding="latin-1") as it:
            it.write(text)
        refused(12, part, "service.py", name, file)
    refused(4, "No such file or directory; examples/page.toml is one to begin with", "service.py", "page", file + ".none")
    refused(1, "'pages' is none of page, history, mqtt, dial, relay", "service.py", "pages", file)
    refused(1, "FILE is wanted", "service.py", "page")
    return len(BAD)


class Running:
    """A service by a file of such lines."""

    def __init__(self, folder, name, **keys):
        self.file = os.path.join(folder, f"{name}.toml")
        with open(self.file, "w", encoding="utf-8") as it:
            it.writelines(f"{key.replace('_', '-')} = {value}\n" for key, value in keys.items())
        words = [sys.executable, os.path.join(TOOLS, "service.py"), name, self.file]
        self.process = subprocess.Popen(
            words, stdin=subprocess.DEVNULL, stdout=subprocess.PIPE, stderr=subprocess.STDOUT, text=True
        )

    def __enter__(self):
        return self

    def __exit__(self, *_):
        self.process.kill()
        self.process.communicate()

    def ended(self):
        """Stops it as systemd does; what it said."""
        self.process.send_signal(signal.SIGTERM)
        out, _ = self.process.communicate(timeout=60)
        see("Traceback" not in out, out)
        return out


def runs(program, folder):
    """The tools do what their files say."""
    def text(it):
        return f'"{it}"'

    with Served(program, PLANT) as server:
        on = {"to": text(server.to), "me": text(ME)}
        http, base = f"127.0.0.1:{free_port()}", os.path.join(folder, "h.db")
        with Running(folder, "page", plant=text(PLANT), http=text(http), write='["Main.count"]', **on) as it:
            line = it.process.stdout.readline()
            see(line == f"http://{http}/\n", f"the page says {line!r}")
        with Running(folder, "history", names='["Main.count"]', netid=text(NET), sqlite=text(base), **on) as it:
            line = it.process.stdout.readline()
            while line and not line.startswith("recording "):
                line = it.process.stdout.readline()
            see(line, "the history does not begin")
            said = it.ended()
            see(re.search("^recorded [0-9]+ samples$", said, re.M), f"the history says {said!r}")
    relay, listen = text(f"127.0.0.1:{free_port()}"), {}
    listen = {"description": text(PLANT), "listen": relay}
    with Running(folder, "relay", **listen) as it:
        see(it.process.stdout.readline() == "listening\n", "the relay does not listen")
        with Running(folder, "dial", relay=relay, server=text("127.0.0.1:1"), netid=text("1.1.1.1.1.1")) as dial:
            said, _ = dial.process.communicate(timeout=60)
            see(dial.process.returncode == 9 and "1.1.1.1.1.1" in said, f"dial.py says {said!r}")


def units(folder, program):
    """The units of all services as they are installed; systemd says what is wrong with them."""
    prefix = os.path.join(folder, "prefix")
    words = [os.path.join(TOOLS, "install.sh"), prefix]
    variables = {**os.environ, "DESTDIR": "/", "PROGRAM": program, "DAEMON": program}
    it = subprocess.run(words, env=variables, capture_output=True, text=True, timeout=120)
    see(it.returncode == 0, f"install.sh: {it.stderr}")
    place = os.path.join(prefix, "lib", "systemd", "system")
    found = sorted(os.path.join(place, name) for name in os.listdir(place))
    see({f"ads-{name}.service" for name in SERVICES} <= {os.path.basename(name) for name in found}, f"units: {found}")
    for name in SERVICES:
        see(os.path.exists(os.path.join(prefix, "share", "ads", f"{name}.toml")), f"the file of {name} is not there")
    if not shutil.which("systemd-analyze"):
        return 0
    for unit in found:
        name = unit.replace("@.service", "@line1.service")
        if name != unit:
            shutil.copy(unit, name)
        it = subprocess.run(["systemd-analyze", "verify", "--man=no", name], capture_output=True, text=True, timeout=60)
        own = [line for line in (it.stdout + it.stderr).splitlines() if os.path.basename(name) in line]
        see(not own, f"systemd-analyze verify {name}: {own}")
    return len(found)


def tried(program, size):
    with tempfile.TemporaryDirectory() as folder:
        commands()
        wrong = wrong_files(folder)
        runs(program, folder)
        count = units(folder, program)
    said = f"{count} units that systemd takes" if count else "there is no systemd-analyze"
    return f"{len(SERVICES)} examples as commands, four of them run; {wrong} wrong files; {said}"
