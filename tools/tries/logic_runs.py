"""Runs of logic.py, and of the daemon whose values it moves."""
import os
import signal
import subprocess
import sys
import threading
import time

from lib.files import read_plant
from lib.value_link import Values
from tries.of_program import daemon_of
from tries.running import FOREVER, ME, NET, TOOLS, free_port, see, tool

DATA = os.path.join(TOOLS, "tries", "data")
MOVING, LOGIC = os.path.join(DATA, "moving.toml"), os.path.join(DATA, "moving.py")


def text_of(name):
    with open(name, encoding="utf-8") as file:
        return file.read()


def written(folder, name, text):
    path = os.path.join(folder, name)
    with open(path, "w", encoding="utf-8") as file:
        file.write(text)
    return path


def described(folder, without=(), first=""):
    """Builds the description of tries/data/moving.toml, and puts it into its place in one step."""
    lines = [it for it in text_of(MOVING).split("\n") if not any(f'"{name}"' in it for name in without)]
    text = "\n".join(lines).replace("symbol = [", "symbol = [\n" + first)
    path, fresh = os.path.join(folder, "plant.toml"), os.path.join(folder, "fresh.toml")
    out, err, status = tool("plant.py", "build", written(folder, "line.toml", text), "--out", fresh, lines=9)
    see(status == 0, f"plant.py build: {out}{err}")
    os.replace(fresh, path)
    return path


class Server:
    """The daemon where it was built, else the program, at one port of this machine whenever it runs."""

    def __init__(self, program, path):
        daemon, self.to, self.path, self.process = daemon_of(program), f"127.0.0.1:{free_port()}", path, None
        words = [path, "--listen", self.to]
        self.words = [program, "serve", *words, "--events", FOREVER]
        if daemon:
            self.words = ["env", "--block-signal=TERM,INT,HUP", daemon, *words, "--log", "none"]

    def __enter__(self):
        self.start()
        return self

    def __exit__(self, *_):
        self.stop()

    def start(self):
        quiet = {"stdin": subprocess.DEVNULL, "stderr": subprocess.DEVNULL}
        self.process = subprocess.Popen(self.words, stdout=subprocess.PIPE, **quiet)
        see(self.process.stdout.readline() == b"listening\n", f"{self.words} does not listen")

    def stop(self):
        self.process.kill()
        self.process.communicate()

    def on(self):
        return "--to", self.to, "--netid", NET, "--me", ME, "--plant", self.path

    def client(self):
        return Client((self.to, NET, ME, 5), 851, read_plant(self.path))


class Client(Values):
    def one(self, name):
        return self.values([name])[name]


class Logic:
    """A run of logic.py, with all that it says."""

    def __init__(self, file, *words):
        self.lines, self.file = [], file
        asked = [sys.executable, os.path.join(TOOLS, "logic.py"), "run", file, *words]
        streams = {"stdin": subprocess.DEVNULL, "stdout": subprocess.PIPE, "stderr": subprocess.STDOUT}
        self.process = subprocess.Popen(asked, text=True, **streams)
        self.reader = threading.Thread(target=self.read, daemon=True)
        self.reader.start()

    def read(self):
        for line in self.process.stdout:
            self.lines.append(line)

    def __enter__(self):
        self.tells("running: ")
        return self

    def __exit__(self, *_):
        self.process.kill()
        self.process.wait()
        self.reader.join(5)

    def said(self, part):
        """How many lines have this part."""
        return sum(part in line for line in list(self.lines))

    def tells(self, part):
        self.until(lambda: self.said(part), f"{part!r} is not told")

    def until(self, holds, what, seconds=30):
        until = time.monotonic() + seconds
        while not holds():
            if time.monotonic() > until or self.process.poll() is not None:
                self.reader.join(1)
                break
            time.sleep(0.02)
        see(holds(), f"{what}: {''.join(self.lines)[-800:]}")

    def end(self, one=signal.SIGTERM):
        self.process.send_signal(one)
        status = self.process.wait(10)
        self.reader.join(5)
        see(not self.said("Traceback"), "".join(self.lines)[-800:])
        return status
