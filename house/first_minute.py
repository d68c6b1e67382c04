#!/usr/bin/env python3
"""The first minute as README.md has it: ./start builds, a value is read and set, a browser sees it, nothing is left.

    python3 house/first_minute.py

It runs in a copy of this clone. Programs that an earlier run has built of the same sources, in out/unproved, are taken;
else those that are built are left there for the next one. A line a check, then a count; status 1 where one is wrong.
The page is looked at with Debian's chromium and chromium-driver, or without them its values as JSON are.
"""
import json
import os
import pathlib
import re
import shlex
import shutil
import signal
import socket
import subprocess
import sys
import tempfile
import threading
import time
import urllib.request

ROOT = pathlib.Path(__file__).resolve().parent.parent
sys.dont_write_bytecode = True
sys.path[1:1] = [f"{sys.path[0]}/../{room}" for room in ("model", "tools", "tries")]
import docs  # noqa: E402
import unproved  # noqa: E402
from browser import Driver, Failed  # noqa: E402
from page_parts import MAIN, SHOWS  # noqa: E402
from under_test import free_port  # noqa: E402

LONGEST, LATER = 600, 60
LIVE = "return document.getElementById('pill-text').textContent === 'live'"


class Checks:
    def __init__(self):
        self.right = self.wrong = 0

    def see(self, holds, what, came=""):
        self.right, self.wrong = self.right + bool(holds), self.wrong + (not holds)
        print(what if holds else f"WRONG  {what}: {came}", flush=True)


def copy_to(folder):
    """The files of this clone, without what was built in it."""
    shutil.copytree(ROOT, folder, symlinks=True, ignore=shutil.ignore_patterns("out", ".git", "__pycache__"))


class Started:
    """./start in a folder, and the lines that it printed until it said how to stop it, or ended."""

    all = []

    def __init__(self, folder, *words, seconds=LATER):
        self.all.append(self)
        self.folder, (self.port, self.http) = folder, (free_port(), free_port())
        words = ["./start", *words, "--port", str(self.port), "--http", str(self.http)]
        self.process = subprocess.Popen(words, cwd=folder, stdin=subprocess.DEVNULL, stdout=subprocess.PIPE, text=True,
                                        stderr=subprocess.STDOUT, start_new_session=True)
        self.lines, began = [], time.monotonic()
        timer = threading.Timer(seconds, os.killpg, (self.process.pid, signal.SIGKILL))
        timer.start()
        for line in self.process.stdout:
            self.lines.append(line.rstrip("\n"))
            if line.startswith("stop:"):
                break
        self.seconds = time.monotonic() - began
        timer.cancel()

    def runs(self):
        return self.lines[-1:] == ["stop:       Ctrl-C"]

    def command(self, name):
        """A command that it printed, run as it stands there."""
        said = next((line for line in self.lines if line.startswith(name)), "")
        words = shlex.split(said.partition(":")[2]) or ["false"]
        it = subprocess.run(words, cwd=self.folder, capture_output=True, text=True, timeout=60, check=False)
        return it.stdout + it.stderr

    def as_page(self):
        """Its lines with the ports and the times that the page names."""
        lines = [line.replace(f":{self.port}", ":48898").replace(f":{self.http}", ":8080") for line in self.lines]
        return [re.sub(r"\b\d+ s$", "N s", line) for line in lines]

    def end(self, it, whole_group):
        """Ends it, as Ctrl-C does or by SIGTERM; the status, and what is left of it."""
        (os.killpg if whole_group else os.kill)(self.process.pid, it)
        try:
            status = self.process.wait(30)
        except subprocess.TimeoutExpired:
            os.killpg(self.process.pid, signal.SIGKILL)
            status = "none in 30 seconds"
        return status, processes_of(self.folder)


def processes_of(folder):
    """The processes whose words name a folder."""
    found = []
    for it in pathlib.Path("/proc").glob("[0-9]*"):
        try:
            words = (it / "cmdline").read_bytes().replace(b"\0", b" ").decode(errors="replace")
        except OSError:
            continue
        if str(folder) in words:
            found.append(words)
    return found


def page_has(it, started, name, value):
    """The page shows a value, in a browser or, without one, as JSON."""
    url = f"http://127.0.0.1:{started.http}/"
    try:
        with Driver() as driver:
            browser = driver.browser()
            browser.go(url)
            it.see(browser.wait(LIVE, seconds=20), "a browser has the page, which is live")
            shows = browser.wait(SHOWS, name, value, seconds=10)
            it.see(shows, f"and shows {name} as {value}", browser.script(MAIN, name))
    except Failed as fault:
        print(f"no browser looks at the page ({fault})")
        opener = urllib.request.build_opener(urllib.request.ProxyHandler({}))
        with opener.open(f"{url}values.json", timeout=10) as answer:
            shown = [str(symbol["value"]) for symbol in json.load(answer)["values"] if symbol["name"] == name]
        it.see(shown == [value], f"/values.json has {name} as {value}", shown)


def first(it, folder):
    """The first start, as README has it."""
    before = ROOT / "out/unproved"
    built = unproved.stand(ROOT, before)
    if built:
        shutil.copytree(before, folder / "out/unproved", symlinks=True)
    started = Started(folder, seconds=LONGEST)
    wanted = docs.lines_of_start(built)
    how = "with programs that an earlier run built of the same sources" if built else f"of at most {LONGEST}"
    it.see(started.as_page() == wanted, f"./start prints what README.md has, in {started.seconds:.0f} s, {how}",
           "\n".join([*started.as_page(), "in place of", *wanted]))
    if not started.runs():
        return
    if not built:
        shutil.rmtree(before, ignore_errors=True)
        shutil.copytree(folder / "out/unproved", before, symlinks=True)
    came = started.command("read one")
    it.see(came == "Line.speed = 1.25\n", "its command reads a value", came)
    came = started.command("set one") + started.command("read one")
    is_set = came.startswith("1 value") and came.endswith("set\nLine.speed = 2.5\n")
    it.see(is_set, "its command sets one, which is read then", came)
    page_has(it, started, "Line.speed", "2.5")
    second = Started(folder)
    status = second.end(signal.SIGTERM, False)[0]
    it.see(status == 6 and "runs already" in second.lines[-1], "a second ./start beside it says so", second.lines)
    ended = started.end(signal.SIGINT, True)
    it.see(ended == (0, []), "Ctrl-C ends it with status 0, and no process is left", ended)


def later(it, folder):
    """Later starts, and one that another signal ends."""
    started = Started(folder, str(ROOT / "examples/plant.toml"))
    what = f"a later start takes {started.seconds:.1f} s, over a description too"
    it.see(started.runs() and started.seconds < LATER / 2, what, started.lines)
    came = started.command("read one") + started.command("set one")
    it.see("Main." in came and "1 value" in came, "its commands read and set a value of that", came)
    ended = started.end(signal.SIGTERM, False)
    it.see(ended == (0, []), "SIGTERM ends it with status 0, and no process is left", ended)
    started = Started(folder)
    os.kill(started.process.pid, signal.SIGKILL)
    until = time.monotonic() + 15
    while processes_of(folder) and time.monotonic() < until:
        time.sleep(0.1)
    it.see(processes_of(folder) == [], "where it is killed, what it started ends too", processes_of(folder))
    started.process.wait()


def refusals(it, folder):
    """A sentence, and a status, for what can't be."""
    (folder / "wrong.toml").write_text('net = "5.1.2.3.1.1"\n[[port]]\nport = 851\nname = 7\n')
    (folder / "bytes.toml").write_bytes(bytes(range(256)) * 9)
    for words, status, part in ((["nowhere.toml"], 4, "nowhere.toml: No such file"), (["."], 4, "directory"),
                                (["wrong.toml"], 2, "nothing was written"), (["bytes.toml"], 2, "nothing was written"),
                                (["--wrong"], 1, "no option --wrong"), (["a", "b"], 1, "one too many")):
        refused(it, folder, status, part, words)
    with socket.create_server(("127.0.0.1", 0)) as taken:
        number = str(taken.getsockname()[1])
        for option in ("--port", "--http"):
            refused(it, folder, 6, f"127.0.0.1:{number} can't be had", [option, number], own=option)
    shutil.rmtree(folder / "out/unproved")
    fake = folder / "fake/bin"
    fake.mkdir(parents=True)
    tools = ":".join(dict.fromkeys(os.path.dirname(shutil.which(name)) for name in ("sh", "env")))
    (fake / "python3").symlink_to(sys.executable)
    refused(it, folder, 4, "no Rattle kit", [], PATH=f"{fake}:{tools}")
    for name, text, part in (("rt", "echo rattle-kit-99 logic 0", "rattle-kit-99"), ("python3", "exit 1", "Python 3.9"),
                             ("python3", 'case "$*" in *version*) exit 0 ;; esac; exit 1', "python3-minimal")):
        (fake / name).unlink(missing_ok=True)
        (fake / name).write_text(f"#!/bin/sh\n{text}\n")
        (fake / name).chmod(0o755)
        refused(it, folder, 4, part, [], PATH=f"{fake}:{os.path.dirname(sys.executable)}:{tools}")


def refused(it, folder, status, part, words, own="", **variables):
    given = [word for name, port in zip(("--port", "--http"), (free_port(), free_port())) if name != own
             for word in (name, str(port))]
    said = subprocess.run(["./start", *words, *given], cwd=folder, stdin=subprocess.DEVNULL, capture_output=True,
                          text=True, timeout=60, check=False, env={**os.environ, **variables})
    right = said.returncode == status and part in said.stderr and "Traceback" not in said.stderr
    it.see(right, f"./start {' '.join(words)}: {(said.stderr.splitlines() or [''])[-1]}",
           f"status {said.returncode} in place of {status}, {said.stdout + said.stderr!r}")


def main():
    it = Checks()
    with tempfile.TemporaryDirectory(prefix="first-minute-") as folder:
        folder = pathlib.Path(os.path.realpath(folder), "clone")
        copy_to(folder)
        try:
            first(it, folder)
            if unproved.stand(folder, folder / "out/unproved"):
                later(it, folder)
                refusals(it, folder)
        finally:
            for started in Started.all:
                if started.process.poll() is None:
                    started.end(signal.SIGTERM, False)
            left = processes_of(folder)
            it.see(left == [], "in the end no process is left", left)
    print(f"{it.right + it.wrong} checks, {it.wrong} wrong")
    return 1 if it.wrong else 0


if __name__ == "__main__":
    sys.exit(main())
