"""samples.sql: that every value of one to seven bytes is read as it is, and that a recording of the program reads as `record` printed it."""
import contextlib
import itertools
import os
import random
import shutil
import sqlite3
import subprocess
import tempfile

from lib.program import run as run_program
from tries.running import ME, PLANT, TOOLS, see

VIEW = os.path.join(TOOLS, "samples.sql")
EDGES = (0x00, 0x01, 0x7F, 0x80, 0xFF)
# Of no byte, and of eight and nine: no `whole`, and `signed` of eight alone.
OTHERS = [b"", bytes(8), b"\xff" * 8, b"\x01" + bytes(6) + b"\x80", bytes(range(1, 9)), b"\x01" * 9]
NAMES = ["Main.wave", "Main.count"]
ASKED = "SELECT date, whole FROM samples WHERE name = 'Main.wave' ORDER BY number"


def recording(program, path):
    """What `record` prints of two names whose samples go into a new file."""
    out, status = run_program(program, "record", *NAMES, "--mode", "change", "--cycle", "0", "--count", "4", "--store", path, "--local", PLANT, "--me", ME)
    see(status == 0, f"record ends with {status}: {out!r}")
    return out


def opened(path):
    return contextlib.closing(sqlite3.connect(f"file:{path}?mode=ro", uri=True))


def view_of(base):
    with open(VIEW, encoding="utf-8") as file:
        base.executescript(file.read())


def same_tables(model, path):
    """A new file with the tables of another, made with the statements that stand in it, and a connection to it."""
    with opened(model) as base:
        made = [text for (text,) in base.execute("SELECT sql FROM sqlite_schema WHERE type = 'table'")]
    see(len(made) == 2, f"a recording has {len(made)} tables")
    base = sqlite3.connect(path)
    for text in made:
        base.execute(text)
    return contextlib.closing(base)


def values_of(size):
    """All values of one to seven bytes, each an edge; in a quick run those of one to four bytes, and some that are longer."""
    values = [bytes(v) for n in range(1, size.of(8, 5)) for v in itertools.product(EDGES, repeat=n)]
    dice = random.Random(size.seed)
    return values + OTHERS + [bytes(dice.choices(EDGES, k=dice.randint(5, 7))) for _ in range(size.of(0, 1000))]


def read_back(model, path, values):
    """Rows with these values, read through the view."""
    with same_tables(model, path) as base:
        base.executemany("INSERT INTO sample VALUES (?, ?, ?, ?)",
                         ((k.to_bytes(8, "big"), b"Main.v", (k * 10 ** 13).to_bytes(8, "big"), v) for k, v in enumerate(values, 1)))
        base.commit()
        view_of(base)
        rows = base.execute("SELECT number, name, moment, bytes, whole, signed FROM samples ORDER BY number").fetchall()
    see(len(rows) == len(values), f"{len(values)} rows are {len(rows)} in the view")
    for k, (row, value) in enumerate(zip(rows, values), 1):
        whole = int.from_bytes(value, "little") if 1 <= len(value) <= 7 else None
        signed = int.from_bytes(value, "little", signed=True) if 1 <= len(value) <= 8 else None
        wanted = (k, "Main.v", k * 10 ** 13, value.hex().upper(), whole, signed)
        see(row == wanted, f"the value {value.hex()} is read as {row}, not as {wanted}")
    return len(values)


def line_of(base, name):
    """The line that `record` prints of a name, made from the view alone."""
    (count,) = base.execute("SELECT count(*) FROM samples WHERE name = ?", (name,)).fetchone()
    moment, whole = base.execute("SELECT moment, whole FROM samples WHERE name = ? ORDER BY number DESC", (name,)).fetchone()
    return f"{name} count {count} last {moment} {whole}\n"


def lines_in_view(path):
    with opened(path) as base:
        view_of(base)
        return "".join(line_of(base, name) for name in NAMES)


def front_page(program, folder):
    """The query of docs/RECORD.md over a copy of the file alone: what `record` printed is its last row, and the totals."""
    path, alone = os.path.join(folder, "samples.db"), os.path.join(folder, "alone.db")
    said = recording(program, path)
    shutil.copyfile(path, alone)
    see(os.listdir(folder) in (["samples.db", "alone.db"], ["alone.db", "samples.db"]), f"record leaves {sorted(os.listdir(folder))}, not one file")
    see(lines_in_view(alone) == said, f"record printed {said!r}, and the view of a copy of its file has {lines_in_view(alone)!r}")
    if not shutil.which("sqlite3"):
        return alone, "sqlite3 is not installed"
    it = subprocess.run(["sqlite3", alone, f".read {VIEW}", ASKED], stdin=subprocess.DEVNULL, capture_output=True, timeout=60)
    wanted = "1601-01-01 00:00:00.010|3\n1601-01-01 00:00:00.020|1\n1601-01-01 00:00:00.030|4\n"
    see(it.stdout.decode() == wanted and not it.stderr, f"the query of the front page prints {(it.stdout + it.stderr).decode()!r}")
    return alone, "the query of the front page prints what was recorded"


def tried(program, size):
    with tempfile.TemporaryDirectory() as folder:
        model, front = front_page(program, folder)
        count = read_back(model, os.path.join(folder, "values.db"), values_of(size))
        return f"{count} values of 0 to 9 bytes read back; {front}"
