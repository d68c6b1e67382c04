"""No value is lost by a change: a plant with recipes, changed and changed back under a daemon with a store, and cut
off at each step.
"""
import glob
import json
import os
import shutil
import signal
import subprocess
import sys
import time

import values
from tries.inside import inside
from tries.running import ME, NET, PLANT, TOOLS, free_port, refused, see, tool

ADSD = os.path.join(TOOLS, "..", "crates", "adsd", "out", "adsd")
# The step of deploy.py that sets the values; those in front of it write files and rename them.
BEFORE_VALUES = 7
OTHER, THIRD = "192.168.0.10.1.1", "192.168.0.11.1.1"
LINE = """net = "5.1.2.3.1.1"
[[route]]
net = "192.168.0.9.1.1"
rights = "control"
[[route]]
net = "192.168.0.10.1.1"
rights = "write"
[[type]]
name = "Mode"
base = "INT"
value = ["Off", "On"]
[[type]]
name = "Recipe"
member = [
  { name = "title", type = "STRING(8)" },
  { name = "volume", type = "REAL", initial = 1.5 },
  { name = "offset", type = "INT" },
  { name = "mode", type = "Mode" },
]
[[port]]
port = 851
name = "Line"
symbol = [
  { name = "Line.recipes", type = "ARRAY [1..3] OF Recipe", persistent = true },
  { name = "Line.count", type = "UDINT", persistent = true },
  { name = "Line.limit", type = "DINT", persistent = true, initial = 7 },
  { name = "Line.speed", type = "LREAL" },
]
"""
GROWN = [
    (
        '  { name = "mode", type = "Mode" },',
        '  { name = "mode", type = "Mode" },\n  { name = "sugar", type = "REAL", initial = 2.5 },',
    ),
    ("STRING(8)", "STRING(12)"),
]
LOST = [
    ('  { name = "offset", type = "INT" },\n', ""),
    ('"volume", type = "REAL"', '"volume", type = "LREAL"'),
    ('"Line.limit", type = "DINT"', '"Line.limit", type = "INT"'),
]
BARRED = [('OF Recipe", persistent = true', f'OF Recipe", persistent = true, writers = ["{OTHER}"]')]
RECIPES = [
    {"title": "Water", "volume": 500.0, "offset": 0, "mode": "On"},
    {"title": "Kühl", "volume": 0.1, "offset": -250, "mode": "Off"},
    {"title": "", "volume": 1.5, "offset": 3, "mode": "Off"},
]


class Daemon:
    """adsd over a place, with a store beside it; where it is not built, `ads serve` without one."""

    def __init__(self, program, place):
        self.program, self.place, self.to = program, place, f"127.0.0.1:{free_port()}"
        self.has_store = os.access(ADSD, os.X_OK)

    def __enter__(self):
        words = [self.program, "serve", self.place, "--listen", self.to, "--events", "18446744073709551615"]
        if self.has_store:
            words = [
                ADSD,
                self.place,
                "--listen",
                self.to,
                "--store",
                self.place + ".kept",
                "--save-each",
                "1",
                "--log",
                "none",
            ]
        self.process = subprocess.Popen(
            ["env", "--block-signal=TERM,INT,HUP", *words], stdin=subprocess.DEVNULL, stdout=subprocess.PIPE
        )
        see(self.process.stdout.readline() == b"listening\n", f"{words[0]} does not listen")
        return self

    def __exit__(self, *_):
        self.process.kill()
        self.process.communicate()

    def again(self):
        """Stops in order, and starts with what the store has."""
        if self.has_store:
            self.process.send_signal(signal.SIGTERM)
            self.process.communicate(timeout=30)
            self.__enter__()

    def words(self):
        return "--to", self.to, "--netid", NET, "--me", ME

    def get(self, *names):
        out, err, status = inside(values.main, "get", *names, "--json", *self.words(), "--plant", self.place)
        see(status == 0, f"values.py get {names}: {err}")
        return json.loads(out)

    def set(self, *words):
        out, err, status = inside(values.main, "set", *words, *self.words(), "--plant", self.place)
        see(status == 0, f"values.py set {words}: {out}{err}")

    def deploy(self, *words, cut=None, status=0):
        """A run of deploy.py; with `cut` one that ends in front of this step. What it prints, and whether it came so
        far.
        """
        script = (
            [os.path.join(TOOLS, "deploy.py")]
            if cut is None
            else [os.path.join(TOOLS, "tries", "cut_off.py"), str(cut)]
        )
        it = subprocess.run(
            [sys.executable, *script, *words, *self.words(), "--wait", "30", "--seconds", "30"],
            stdin=subprocess.DEVNULL,
            capture_output=True,
            text=True,
            timeout=90,
        )
        see(
            "Traceback" not in it.stderr and (it.returncode == status or (cut and it.returncode == 137)),
            f"deploy.py {words}: {it.returncode}: {it.stdout}{it.stderr}",
        )
        return it.stdout, it.returncode != 137


def built(folder, name, pairs, before=None):
    text, source, out = LINE, os.path.join(folder, f"{name}.line"), os.path.join(folder, f"{name}.toml")
    for old, new in pairs:
        see(old in text, f"the line has no {old!r}")
        text = text.replace(old, new, 1)
    with open(source, "w", encoding="utf-8") as file:
        file.write(text)
    _, err, status = tool("plant.py", "build", source, "--out", out, *(("--before", before) if before else ()))
    see(status == 0, err)
    return out


def with_members(recipes, **more):
    return [{**it, **more} for it in recipes]


def without(recipes, name):
    return [{key: value for key, value in it.items() if key != name} for it in recipes]


def holds(daemon, recipes, count, limit):
    found = daemon.get("Line.recipes", "Line.count", "Line.limit")
    wanted = {"Line.recipes": recipes, "Line.count": count, "Line.limit": limit}
    see(found == wanted, f"the values are {found} in place of {wanted}")


def files_of(place):
    return sorted(glob.glob(place + ".values-*.json"), key=lambda name: os.stat(name).st_mtime_ns)


def own_plant(daemon, place, first):
    """From the example's plant to one's own, with recipes: what the example had is in a file."""
    out, _ = daemon.deploy(first, place, status=3)
    gone = "value left out: Main.title of port 851: the new description has no such symbol"
    see(gone in out and "it has Mix" in out, f"the own plant: {out}")
    daemon.deploy(first, place, "--yes")
    with open(files_of(place)[-1], encoding="utf-8") as file:
        is_saved = json.load(file)["values"] == {"Main.title": "Mix"}
    see(is_saved and os.stat(file.name).st_mode & 0o777 == 0o600, "the value of the example's plant is in no file")
    daemon.set(f"Line.recipes={json.dumps(RECIPES)}", "Line.count=5", "Line.limit=-100000")


def life(daemon, place, plants):
    """A structure that grows, one that loses a member, and the ways back, over restarts."""
    first, grown, lost = plants
    own_plant(daemon, place, first)
    out, _ = daemon.deploy(grown, place)
    see("persistent values: 2 kept, 1 converted" in out, f"a structure that grew: {out}")
    holds(daemon, with_members(RECIPES, sugar=2.5), 5, -100000)
    daemon.again()
    holds(daemon, with_members(RECIPES, sugar=2.5), 5, -100000)
    out, _ = daemon.deploy(place, "--rollback")
    see("value left out" not in out, f"a rollback that loses nothing: {out}")
    holds(daemon, RECIPES, 5, -100000)
    out, _ = daemon.deploy(lost, place, status=3)
    for line in (
        "value left out: Line.recipes[..].offset of port 851, 3 values: Recipe has no such member now",
        "value left out: Line.limit of port 851: -100000 is no number of INT, -32768 to 32767; DINT holds it; it has -100000",
    ):
        see(line in out.splitlines(), f"a member that goes, and a number that does not fit: {out}")
    daemon.deploy(lost, place, "--yes")
    holds(daemon, without(RECIPES, "offset"), 5, 7)
    daemon.set('Line.recipes[2]={"volume": 0.25, "mode": "On"}', "Line.count=6")
    with open(place, "a", encoding="utf-8") as file:
        file.write(f'[[route]]\nnet = "{THIRD}"\nrights = "read"\n')
    out, _ = daemon.deploy(place, "--rollback")
    see(f"route taken away: {THIRD}" in out, f"a rollback behind a route that was added: {out}")
    newer = [RECIPES[0], {**RECIPES[1], "volume": 0.25, "mode": "On"}, RECIPES[2]]
    holds(daemon, newer, 6, -100000)
    daemon.again()
    holds(daemon, newer, 6, -100000)
    return newer


def barred(daemon, place, first, other, recipes):
    """A symbol that --me may not write any more: its value is set by another, and comes back without a rollback."""
    out, _ = daemon.deploy(other, place, status=3)
    why = f"{ME} is none of its `writers`: values.py restore sets it, with --me {OTHER}"
    see(f"value left out: Line.recipes of port 851: {why}" in out.splitlines(), f"a symbol with other writers: {out}")
    out, _ = daemon.deploy(other, place, "--yes", status=8)
    name, on = files_of(place)[-1], ("--to", daemon.to, "--netid", NET, "--me", OTHER, "--plant", place)
    out, err, status = tool("values.py", "restore", name, *on)
    see(status == 0, f"values.py restore by the writer: {out}{err}")
    wanted = with_members(recipes, sugar=2.5)
    wanted[0]["sugar"] = 9.0
    holds(daemon, wanted, 6, -100000)
    daemon.deploy(first, place, "--yes")
    holds(daemon, recipes, 6, -100000)


def bad_notes(daemon, place, lost, recipes):
    """The note of a change and the file of its values, damaged or gone: a sentence, and the change can still be
    finished.
    """
    daemon.deploy(lost, place, "--yes", cut=BEFORE_VALUES)
    name = files_of(place)[-1]
    with open(place + ".unfinished", encoding="utf-8") as file:
        note = file.read()
    for text in ("", "[" * 3000, '{"kind": 1}'):
        with open(place + ".unfinished", "w", encoding="utf-8") as file:
            file.write(text)
        refused(4, "is no note of tools/deploy.py", "deploy.py", lost, place, *daemon.words())
    with open(place + ".unfinished", "w", encoding="utf-8") as file:
        file.write(note)
    os.rename(name, name + ".away")
    refused(4, "remove ", "deploy.py", lost, place, *daemon.words())
    with open(name, "w", encoding="utf-8") as file:
        file.write('{"values": {"a": 1}, "port": 851, "restore": {}, "bytes": {"a": "zz"}}')
    refused(4, "was not written by tools/deploy.py", "deploy.py", lost, place, *daemon.words())
    os.rename(name + ".away", name)
    daemon.deploy(lost, place)
    holds(daemon, without(recipes, "offset"), 6, 7)
    daemon.deploy(place, "--rollback")
    holds(daemon, recipes, 6, -100000)


def asks_for_yes(daemon, place, grown, recipes):
    """A rollback that would lose a value asks for --yes, and what it loses comes back by another one."""
    daemon.deploy(grown, place)
    daemon.set("Line.recipes[1].sugar=9")
    out, _ = daemon.deploy(place, "--rollback", status=3)
    see(
        "value left out: Line.recipes[1].sugar of port 851: Recipe has no such member now; it has 9.0"
        in out.splitlines(),
        f"a rollback that loses a value: {out}",
    )
    daemon.deploy(place, "--rollback", "--yes")
    holds(daemon, recipes, 6, -100000)
    daemon.deploy(place, "--rollback")
    wanted = with_members(recipes, sugar=2.5)
    wanted[0]["sugar"] = 9.0
    holds(daemon, wanted, 6, -100000)
    daemon.deploy(place, "--rollback", "--yes")
    holds(daemon, recipes, 6, -100000)


def cut_off(daemon, place, lost, recipes, steps):
    """A deploy, or its rollback, ends in front of a step; the same command brings all values, whatever step that
    was.
    """
    shrunk, count = without(recipes, "offset"), 0
    for step in steps:
        for words, wanted in (
            ((lost, place, "--yes"), (shrunk, 6, 7)),
            ((place, "--rollback", "--yes"), (recipes, 6, -100000)),
        ):
            _, is_whole = daemon.deploy(*words, cut=step)
            count += not is_whole
            see(is_whole or files_of(place), "no file has the values")
            if not is_whole:
                daemon.deploy(*words)
            holds(daemon, *wanted)
            see(
                not os.path.exists(place + ".unfinished") and not os.path.exists(place + ".next"),
                f"cut off at step {step}, it is never finished",
            )
    return count


def by_hand(daemon, place, lost, recipes):
    """The values of a change that was cut off in front of them, set by values.py out of their file; the next run of
    deploy.py finds nothing left to do.
    """
    daemon.deploy(lost, place, "--yes", cut=BEFORE_VALUES)
    name, until = files_of(place)[-1], time.monotonic() + 30
    while "offset" in daemon.get("Line.recipes")["Line.recipes"][0]:
        see(time.monotonic() < until, "the daemon does not take the description")
        time.sleep(0.1)
    holds(daemon, [{"title": "", "volume": 1.5, "mode": "Off"}] * 3, 6, 7)
    out, err, status = tool("values.py", "restore", name, "--plan", *daemon.words(), "--plant", place)
    see(
        status == 0 and "Line.recipes[1].volume: 1.5 becomes 500.0" in out.splitlines(),
        f"values.py restore --plan of {name}: {out}{err}",
    )
    out, err, status = tool("values.py", "restore", name, *daemon.words(), "--plant", place)
    see(status == 0, f"values.py restore {name}: {out}{err}")
    holds(daemon, without(recipes, "offset"), 6, 7)
    out, _ = daemon.deploy(place, "--rollback")
    see("the deploy that was cut off is finished" in out, f"a rollback behind a deploy that was cut off: {out}")
    holds(daemon, recipes, 6, -100000)


def kept_values(program, folder, size):
    """How often a change was cut off."""
    place = os.path.join(folder, "own", "plant.toml")
    os.mkdir(os.path.dirname(place))
    shutil.copy(PLANT, place)
    first = built(folder, "first", [])
    plants = first, built(folder, "grown", GROWN, first), built(folder, "lost", LOST, first)
    with Daemon(program, place) as daemon:
        recipes = life(daemon, place, plants)
        asks_for_yes(daemon, place, plants[1], recipes)
        barred(daemon, place, first, built(folder, "barred", GROWN + BARRED, first), recipes)
        by_hand(daemon, place, plants[2], recipes)
        bad_notes(daemon, place, plants[2], recipes)
        count = cut_off(daemon, place, plants[2], recipes, range(1, 11) if not size.quick else (5, BEFORE_VALUES))
    return count
