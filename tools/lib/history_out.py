"""A history as CSV, as line protocol of InfluxDB, and as a picture; and recordings of `ads record` taken into one."""
import contextlib
import csv
import datetime
import os
import struct
import sys
import tempfile

from lib.drawing import Thinned, picture
from lib.flow_names import is_pattern, pattern_of
from lib.near import closest
from lib.flow_values import LETTERS
from lib.history_import import taken_in
from lib.history_store import Away
from lib.type_texts import lower
from lib.words import Ended

FIRST, LAST = -2 ** 63, 2 ** 63 - 1
EPOCH = datetime.datetime(1970, 1, 1)


def date(ns):
    """A moment in UTC, to 100 ns."""
    try:
        return (EPOCH + datetime.timedelta(seconds=ns // 10 ** 9)).strftime("%Y-%m-%dT%H:%M:%S") + f".{ns // 100 % 10 ** 7:07d}Z"
    except OverflowError:
        return str(ns)


def moment_of(text, name, otherwise):
    if not text:
        return otherwise
    try:
        given = datetime.datetime.fromisoformat(text[:-1] if text[-1] in "zZ" else text)
        given = given.astimezone(datetime.timezone.utc).replace(tzinfo=None) if given.tzinfo else given
        span = given - EPOCH
        return (span.days * 86400 + span.seconds) * 10 ** 9 + span.microseconds * 1000
    except (ValueError, OverflowError):
        raise Ended(f"{name} is a moment as 2026-11-29T15:00:00 in UTC, and {text!r} is none") from None


def chosen(store, words):
    """The symbols of a history that names and patterns mean: id, net, port, name and type of each."""
    listed, found = store.listed(), {}
    for word in words:
        pattern = pattern_of(word) if is_pattern(word) else None
        these = [row for row in listed if (pattern.fullmatch(lower(row[3])) if pattern else lower(row[3]) == lower(word))]
        if not these:
            near = closest(word, {row[3] for row in listed})
            raise Ended(f"{store.where} has no symbol {word}" + (f"; is {near} meant?" if near else ""), 2)
        found.update((row[0], row) for row in these)
    return list(found.values())


def value_of(kind, value, text, data):
    """The value of a row, exact where its type is a plain one."""
    word = kind.upper()
    if word in LETTERS and len(data) == struct.calcsize(LETTERS[word]):
        it = struct.unpack("<" + LETTERS[word], data)[0]
        return int(it != 0) if word == "BOOL" else it
    if text is not None or value is None:
        return text
    return int(value) if isinstance(value, float) and value.is_integer() and "REAL" not in word else value


@contextlib.contextmanager
def output(path):
    """Standard output, or a file that is written beside its place and renamed."""
    if not path:
        yield sys.stdout
        return
    folder, fresh = os.path.dirname(os.path.abspath(path)), None
    try:
        handle, fresh = tempfile.mkstemp(prefix="." + os.path.basename(path) + ".", dir=folder)
        with os.fdopen(handle, "w", encoding="utf-8", newline="") as file:
            yield file
        mask = os.umask(0)
        os.umask(mask)
        os.chmod(fresh, 0o666 & ~mask)
        os.replace(fresh, path)
    except OSError as fault:
        raise Ended(f"{path}: {fault.strerror}", 4) from None
    finally:
        if fresh and os.path.exists(fresh):
            os.unlink(fresh)


def exported(words, options, store_of):
    store = store_of(options).reading()
    since, until = moment_of(options["from"], "--from", FIRST), moment_of(options["to"], "--to", LAST)
    if options["format"] not in ("csv", "influx"):
        raise Ended(f"--format is csv or influx, and {options['format']!r} is neither")
    symbols = chosen(store, words)
    with output(options["out"]) as file:
        if options["gaps"]:
            gaps_out(store, symbols, since, until, csv.writer(file, lineterminator="\n"))
        elif options["format"] == "csv":
            rows = csv.writer(file, lineterminator="\n")
            rows.writerow(("time", "name", "type", "value", "bytes", "unix_ns"))
            for symbol, _, _, name, kind in symbols:
                rows.writerows((date(ns), name, kind, value_of(kind, value, text, data), data.hex(), ns)
                               for ns, value, text, data in store.samples(symbol, since, until))
        else:
            left_out = sum(influx_out(file, row, store.samples(row[0], since, until)) for row in symbols)
            if left_out:
                print(f"{left_out} samples have no value that InfluxDB takes, and are left out", file=sys.stderr)
    return 0


def gaps_out(store, symbols, since, until, rows):
    rows.writerow(("from", "to", "name", "why"))
    for symbol, _, _, name, _ in symbols:
        rows.writerows((date(start), "" if end is None else date(end), name, why) for start, end, why in store.gaps(symbol, since, until))


def tag(text):
    """A tag of line protocol; a line's end and a backslash at the end can't stand in one."""
    text = text.replace("\n", "\\n").rstrip("\\")
    return "".join("\\" + it if it in ",= " else it for it in text) or "-"


def influx_out(file, row, samples):
    """Writes the lines of a symbol: numbers as the field `value`, whole ones of 64 bits exact beside it, texts as `text`. Gives how many have none."""
    _, net, port, name, kind = row
    head, left_out = f"ads,name={tag(name)},net={net},port={port},type={tag(kind)}", 0
    for ns, value, text, data in samples:
        it = value_of(kind, value, text, data)
        if it is None or it != it or it in (float("inf"), float("-inf")):
            left_out += 1
            continue
        if isinstance(it, str):
            field = 'text="' + it.replace("\\", "\\\\").replace('"', '\\"') + '"'
        else:
            exact = {"LINT": f",whole={it}i", "ULINT": f",unsigned={it}u", "LWORD": f",unsigned={it}u"}.get(kind.upper(), "")
            field = f"value={float(it)!r}{exact}"
        file.write(f"{head} {field} {ns}\n")
    return left_out


def plotted(words, options, store_of):
    store = store_of(options).reading()
    since, until = moment_of(options["from"], "--from", FIRST), moment_of(options["to"], "--to", LAST)
    drawn = []
    for symbol, _, _, name, kind in chosen(store, words):
        ends = store.ends(symbol, since, until)
        if ends[0] is None:
            continue
        thin = Thinned(*ends)
        for ns, value, text, data in store.samples(symbol, since, until):
            it = value_of(kind, value, text, data)
            if isinstance(it, (int, float)) and it == it and abs(it) != float("inf"):
                thin.add(ns, it)
        if thin.points():
            drawn.append((name, thin.points(), [(start, min(LAST if end is None else end, until)) for start, end, _ in store.gaps(symbol, *ends)]))
    if not drawn:
        raise Ended(f"{store.where} has no number of {', '.join(words)} to draw in that time", 2)
    with output(options["out"]) as file:
        file.write(picture(drawn, date))
    return 0


def imported(words, options, store_of):
    try:
        return taken_in(words, options, store_of(options))
    except Away as away:
        raise Ended(f"the database can't be written: {away}", 16) from None
