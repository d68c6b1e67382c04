"""draw.py: that each value of a recording, and of files of every type, is where it belongs; and what it says of files and words that are wrong."""
import contextlib
import os
import re
import sqlite3
import struct
import tempfile
import xml.dom.minidom

from tries.of_samples import recording, same_tables
from tries.running import PLANT, refused, see, tool

# (word, form, values): the highest and the lowest of each type, and one between.
TYPES = [("SINT", "b", (-128, 0, 127)), ("USINT", "B", (0, 1, 255)), ("BOOL", "B", (0, 1, 0)),
         ("INT", "h", (-32768, -1, 32767)), ("UINT", "H", (0, 300, 65535)),
         ("DINT", "i", (-2 ** 31, 5, 2 ** 31 - 1)), ("UDINT", "I", (0, 5, 2 ** 32 - 1)),
         ("LINT", "q", (-2 ** 63, 0, 2 ** 63 - 1)), ("ULINT", "Q", (0, 2 ** 63, 2 ** 64 - 1)),
         ("REAL", "f", (-1.5, 0.0, 2.25)), ("LREAL", "d", (-1e308, 0.0, 1e308)), ("", "H", (7, 300, 1000))]


def filled(model, path, rows):
    """A file with the tables of a recording, and these (name, moment, bytes)."""
    if os.path.exists(path):
        os.remove(path)
    with same_tables(model, path) as base:
        for k, (name, moment, data) in enumerate(rows, 1):
            number, time = k.to_bytes(8, "big"), moment.to_bytes(8, "big")
            base.execute("INSERT INTO sample VALUES (?, ?, ?, ?)", (number, name, time, data))
            base.execute("INSERT INTO total VALUES (?1, 1, ?2, ?3, ?4) ON CONFLICT DO UPDATE SET count = count + 1, last = ?2, time = ?3, bytes = ?4",
                         (name, number, time, data))
        base.commit()
    return path


def drawn(*words):
    """The names and the circles of a picture, as (across, down)."""
    out, err, status = tool("draw.py", *words)
    see(status == 0 and not err, f"draw.py {' '.join(words)}: status {status}, {err!r}")
    page = xml.dom.minidom.parseString(out.encode())
    names = [it.firstChild.data for it in page.getElementsByTagName("text") if it.getAttribute("class") == "name"]
    return names, [(float(it.getAttribute("cx")), float(it.getAttribute("cy"))) for it in page.getElementsByTagName("circle")], out


def where(values, moments, top=0):
    """Where the values of one panel belong: across from 90 to 880, the highest 28 below the panel's top and the lowest 154."""
    low, high, first, last = min(values), max(values), moments[0], moments[-1]
    return [(90 + 790 * (t - first) / (last - first), top + 154 - 126 * ((v - low) / (high - low) if high > low else 0.5)) for v, t in zip(values, moments)]


def near(came, wanted, what):
    see(len(came) == len(wanted) and all(abs(a - c) < 0.06 and abs(b - d) < 0.06 for (a, b), (c, d) in zip(came, wanted)), f"{what}: {came}, wanted {wanted}")


def of_a_recording(path):
    names, circles, out = drawn(path)
    see(names == ["Main.count", "Main.wave"], f"the panels are {names}")
    see("1601-01-01 00:00:00.010" in out and "1601-01-01 00:00:00.030" in out, "the first and the last moment are not written")
    # Main.count has one sample; Main.wave is 3, 1, 4 at 10, 20 and 30 ms.
    near(circles, [(90, 91)] + where([3, 1, 4], [1, 2, 3], 180), "a recording of the program")
    steps = re.findall(r'd="(M[^"]*)" class="line"', out)[1]
    see(steps.count("V") == 2 and steps.count("H") == 3, f"a value does not hold until the next one: {steps}")


def of_types(model, path):
    moments = [100, 250, 900]
    for kind, form, values in TYPES:
        filled(model, path, [(b"v", t, struct.pack("<" + form, v)) for t, v in zip(moments, values)])
        names, circles, _ = drawn(path, f"v:{kind}" if kind else "v")
        see(names == ["v"], f"the panel of {kind} is {names}")
        near(circles, where(values if kind != "LREAL" else [v / 1e300 for v in values], moments), kind or "no type")
    # A REAL that is no number is no point, and one that is infinite neither.
    filled(model, path, [(b"r", k, struct.pack("<f", v)) for k, v in enumerate((1.0, float("nan"), 2.0, float("inf"), 1.5), 1)])
    _, circles, out = drawn(path, "r:REAL")
    near(circles, [(90, 154), (485, 28), (880, 91)], "values that are no number")
    see("nan" not in out and "inf" not in out, "a value that is no number stands in the picture")


def of_odd_files(model, folder, path):
    names, _, _ = drawn(filled(model, path, [(b"\xff<&>\x01", 5, b"\x01"), (b"\xff<&>\x01", 2 ** 63, b"\x02")]))
    see(names == ["\\xff<&>\\x01"], f"a name of odd bytes is {names}")
    odd = os.path.join(folder, "50% of? #1.db")
    see(drawn(filled(model, odd, [(b"a:b", 1, b"\x01")]), "a:b:USINT")[0] == ["a:b"], "a name with a colon, in a file whose name is no URI")
    refused(2, "has no sample", "draw.py", filled(model, path, []))
    refused(2, "only numbers are drawn", "draw.py", filled(model, path, [(b"b", 1, bytes(9))]))
    refused(2, "and LREAL has 8", "draw.py", path, "b:LREAL")
    refused(2, "it has b", "draw.py", path, "Nope")
    refused(1, "none of SINT", "draw.py", path, "b:WORD")
    refused(1, "FILE is wanted", "draw.py")
    refused(4, "is not there", "draw.py", os.path.join(folder, "nothing.db"))
    refused(4, "is no file", "draw.py", folder)
    refused(4, "is no recording", "draw.py", PLANT)
    with contextlib.closing(sqlite3.connect(path)) as base:
        base.execute("BEGIN EXCLUSIVE")
        refused(4, "is being written by `record`", "draw.py", path)


def tried(program, size):
    with tempfile.TemporaryDirectory() as folder:
        model, path = os.path.join(folder, "samples.db"), os.path.join(folder, "made.db")
        recording(program, model)
        of_a_recording(model)
        of_types(model, path)
        of_odd_files(model, folder, path)
    return f"a recording, {len(TYPES)} types with their highest and lowest value, and files and words that are wrong"
