#!/usr/bin/env python3
"""Draws a recording of `ads record` as SVG, for whoever wants to see what a value did: time against value, one panel a name.

    python3 tools/draw.py samples.db Main.wave:UINT > wave.svg

The words are FILE [NAME[:TYPE]..]: FILE is what `--store` named, and without a NAME all are drawn. TYPE is one of SINT, USINT, INT, UINT, DINT, UDINT,
LINT, ULINT, REAL, LREAL and BOOL, which says how the bytes of the value are read; without it they are an unsigned integer of at most eight bytes, the low
byte first. A value holds until the next one, so the line goes in steps; it has a gap where a REAL is no number or infinite.

The status is 0 when it is drawn, 1 for wrong words, 4 if the file can't be read or is no recording, and 2 if it has no such samples.
"""
import contextlib
import datetime
import math
import os
import pathlib
import sqlite3
import struct
import sys
import xml.sax.saxutils

sys.path.insert(0, os.path.dirname(os.path.abspath(__file__)))
from lib.near import closest  # noqa: E402
from lib.words import Ended, run  # noqa: E402

FORMS = {"SINT": "b", "USINT": "B", "BOOL": "B", "INT": "h", "UINT": "H", "DINT": "i", "UDINT": "I", "LINT": "q", "ULINT": "Q", "REAL": "f", "LREAL": "d"}
WIDE, HIGH, LEFT, RIGHT, ABOVE, BELOW = 900, 180, 90, 20, 28, 26


def shown(name):
    """A name as `record` prints it: each byte outside 0x20 to 0x7E as \\x and two digits."""
    return "".join(chr(b) if 0x20 <= b <= 0x7E else f"\\x{b:02x}" for b in name)


def value_of(name, kind, data):
    if kind is None:
        if len(data) > 8:
            raise Ended(f"draw.py: {shown(name)} has a value of {len(data)} bytes: only numbers are drawn, of at most 8", 2)
        return int.from_bytes(data, "little")
    form = "<" + FORMS[kind]
    if struct.calcsize(form) != len(data):
        raise Ended(f"draw.py: {shown(name)} has a value of {len(data)} bytes, and {kind} has {struct.calcsize(form)}", 2)
    return struct.unpack(form, data)[0]


def series_of(base, name, kind):
    """The moments of a name and its values, in the order of the link; a value that can't be drawn is None."""
    rows = base.execute("SELECT time, bytes FROM sample WHERE name = ? ORDER BY number", (name,))
    points = [(int.from_bytes(time, "big"), value_of(name, kind, data)) for time, data in rows]
    return [(moment, value if math.isfinite(value) else None) for moment, value in points]


def date(moment):
    """A moment of ADS, in units of 100 ns since 1601, as a date."""
    try:
        return (datetime.datetime(1601, 1, 1) + datetime.timedelta(microseconds=moment // 10)).strftime("%Y-%m-%d %H:%M:%S.%f")[:-3]
    except OverflowError:
        return str(moment)


def steps_of(points, last, x, y):
    """The line: each value holds until the next one, and none is a gap."""
    parts, before = [], None
    for moment, value in points:
        if before is not None:
            parts.append(f"H{x(moment):.1f}")
        if value is not None:
            parts.append(f"V{y(value):.1f}" if before is not None else f"M{x(moment):.1f} {y(value):.1f}")
        before = value
    return "".join(parts + [f"H{x(last):.1f}"] * (before is not None))


def panel(top, name, points, first, last):
    values = [v for _, v in points if v is not None] or [0]
    low, high = min(values), max(values)
    across = max(last - first, 1)
    def x(t): return LEFT + (WIDE - LEFT - RIGHT) * (t - first) / across
    def y(v): return top + ABOVE + (HIGH - ABOVE - BELOW) * (1 - (v / 2 - low / 2) / (high / 2 - low / 2) if high > low else 0.5)
    lines = [f'<text x="{LEFT}" y="{top + 18}" class="name">{xml.sax.saxutils.escape(shown(name))}</text>']
    for v in sorted({low, high}):
        lines.append(f'<path d="M{LEFT} {y(v):.1f}H{WIDE - RIGHT}" class="rule"/><text x="{LEFT - 8}" y="{y(v) + 4:.1f}" class="value">{v:.6g}</text>')
    lines.append(f'<path d="{steps_of(points, last, x, y)}" class="line"/>')
    if len(points) <= 200:
        lines += [f'<circle cx="{x(t):.1f}" cy="{y(v):.1f}" r="2.5"/>' for t, v in points if v is not None]
    return "\n".join(lines)


def picture(drawn):
    first, last = min(t for _, points in drawn for t, _ in points), max(t for _, points in drawn for t, _ in points)
    tall = HIGH * len(drawn) + 24
    parts = [panel(HIGH * k, name, points, first, last) for k, (name, points) in enumerate(drawn)]
    foot = f'<text x="{LEFT}" y="{tall - 8}" class="date">{date(first)}</text><text x="{WIDE - RIGHT}" y="{tall - 8}" class="date end">{date(last)}</text>'
    style = (".name{font-weight:600}.value{text-anchor:end;fill:#555}.date{fill:#555}.end{text-anchor:end}.rule{stroke:#ddd}"
             ".line{fill:none;stroke:#1f5fa8;stroke-width:1.5}circle{fill:#1f5fa8}")
    return (f'<svg xmlns="http://www.w3.org/2000/svg" width="{WIDE}" height="{tall}" font-family="sans-serif" font-size="12"><style>{style}</style>\n'
            f'<rect width="{WIDE}" height="{tall}" fill="#fff"/>\n' + "\n".join([*parts, foot]) + "\n</svg>\n")


def asked(word):
    name, _, kind = word.rpartition(":") if word.rpartition(":")[0] else (word, "", "")
    if kind and kind not in FORMS:
        raise Ended(f"draw.py: {kind} is none of {', '.join(FORMS)}")
    return os.fsencode(name), kind or None


def drawn_of(base, file, names):
    known = [name for (name,) in base.execute("SELECT name FROM total ORDER BY name")]
    drawn = []
    for name, kind in names or [(name, None) for name in known]:
        points = series_of(base, name, kind)
        if not points:
            near = closest(shown(name), map(shown, known))
            right = f"is {near} meant?" if near else f"it has {', '.join(map(shown, known[:20])) or 'none'}" + (", .." if known[20:] else "")
            raise Ended(f"draw.py: {shown(name)} has no sample in {file}; {right}", 2)
        drawn.append((name, points))
    if not drawn:
        raise Ended(f"draw.py: {file} has no sample", 2)
    return drawn


def main(words):
    if "--help" in words or "-h" in words:
        print(__doc__.strip())
        return 0
    if not words:
        raise Ended("FILE is wanted; --help says what that is")
    file, names = words[0], [asked(word) for word in words[1:]]
    if not os.path.isfile(file):
        raise Ended(f"draw.py: {file} is not there, or is no file", 4)
    try:
        with contextlib.closing(sqlite3.connect(pathlib.Path(os.path.abspath(file)).as_uri() + "?mode=ro", uri=True)) as base:
            drawn = drawn_of(base, file, names)
    except sqlite3.OperationalError as fault:
        busy = "locked" in str(fault)
        raise Ended(f"draw.py: {file} " + ("is being written by `record`: wait until it ends" if busy else f"is no recording: {fault}"), 4) from None
    except (sqlite3.DatabaseError, TypeError) as fault:
        raise Ended(f"draw.py: {file} is no recording: {fault}", 4) from None
    sys.stdout.write(picture(drawn))
    return 0


if __name__ == "__main__":
    run(main)
