"""Whether a history is what a server that counts ticks sent: each symbol's values go up by one, but behind a gap that is marked."""
import contextlib
import sqlite3
import struct

from tries.fake_plant import FORMS, number_at
from tries.running import see


def of_sqlite(path):
    """The symbols of a history: (name, type) with its samples (unix_ns, value, bytes) and its gaps (from, to, why), and the rows of `run`."""
    with contextlib.closing(sqlite3.connect(f"file:{path}?mode=ro", uri=True)) as base:
        return of_cursor(base.cursor(), "value", "again")


def of_cursor(cursor, value, again):
    cursor.execute("SELECT id, name, type FROM symbol")
    found = {number: ((name, kind), [], []) for number, name, kind in cursor.fetchall()}
    cursor.execute(f"SELECT symbol, unix_ns, {value}, bytes FROM sample ORDER BY symbol, unix_ns" + (f", {again}" if again else ""))
    for number, ns, it, data in cursor.fetchall():
        found[number][1].append((ns, it, bytes(data)))
    cursor.execute("SELECT symbol, from_ns, to_ns, why FROM gap ORDER BY symbol, from_ns")
    for number, *gap in cursor.fetchall():
        found[number][2].append(tuple(gap))
    cursor.execute("SELECT until_ns, batch, state FROM run ORDER BY id")
    return {key: (samples, gaps) for key, samples, gaps in found.values()}, cursor.fetchall()


def counted(kind, data):
    return struct.unpack("<" + FORMS[kind][2], data)[0]


def sound(history, kinds=("DINT", "UDINT", "LREAL", "REAL", "ULINT")):
    """Sees that nothing is lost or there twice but where a gap says so; gives how many samples and gaps there are."""
    for (name, kind), (rows, holes) in history.items():
        fault = next(faults(kind if kind in kinds else None, rows, holes), None)
        see(fault is None, f"{name}: {fault}")
    return sum(len(rows) for rows, _ in history.values()), sum(len(holes) for _, holes in history.values())


def faults(kind, rows, holes):
    """What is wrong with the samples and the gaps of a symbol, whose values count where its kind is given."""
    if len([1 for _, end, _ in holes if end is None]) > 1:
        yield f"two open gaps: {holes}"
    for ns, value, data in rows:
        if kind and value != counted(kind, data):
            yield f"at {ns} the value {value!r}, and the bytes {data.hex()}"
    for (ns, _, one), (after, _, two) in zip(rows, rows[1:]):
        if ns >= after:
            yield f"two samples of {ns}"
        marked = any(ns <= start < after and end == after for start, end, _ in holes)
        if kind and not marked and counted(kind, two) != number_at(kind, counted(kind, one) + 1):
            yield f"{one.hex()} and then {two.hex()}, with no gap from {ns} to {after}: {holes}"
    for start, end, why in holes:
        if any(start < ns and (end is None or ns < end) for ns, _, _ in rows):
            yield f"a sample in the gap {start} to {end} ({why})"
