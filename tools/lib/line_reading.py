"""A line, as tools/plant.py takes it: a description in which places, sizes and numbers may be left out, with values as people write them and names in
ranges."""
import copy
import itertools
import re

from lib.document import Reading
from lib.keys import MUST, TABLES
from lib.page_words import LIMITS, PAGE_KEYS
from lib.rules_ports import AREAS, MOST_SYMBOLS
from lib.rules_types import MOST_PARTS
from lib.toml_text import Value

ABSENT = {
    "document": {"schema": ("number", 2)},
    "member": {"initial": ("any", None)},
    "value": {"number": ("number", None)},
    "port": {"major": ("number", 1), "minor": ("number", 0), "build": ("number", 0), **{area: ("number", None) for area in AREAS}},
    "symbol": {"area": ("text", "data"), "offset": ("number", None), "initial": ("any", None)},
}
BIT = {"name": ("text", MUST), "bit": ("number", None), "alarm": ("flag", False), "alarm_at": ("flag", None)}
# What a source says of values for a page.
SHOWN = {**{key: ("text", None) for key in PAGE_KEYS}, **{key: ("any", None) for key in (*LIMITS, "alarm_at")}, "bits": ("bit", None)}
OF_MEMBER = {key: it for key, it in SHOWN.items() if key != "group"}
LINE = {**{kind: {**keys, **ABSENT.get(kind, {})} for kind, keys in TABLES.items()}, "bit": BIT}
LINE.update(member={**LINE["member"], **OF_MEMBER}, symbol={**LINE["symbol"], **SHOWN})
NAME = {"name": ("text", MUST)}
PAGE = {"document": {"type": ("type", None), "port": ("port", None)}, "structure": {**NAME, "member": ("member", MUST)},
        "port": {"port": ("number", MUST), "symbol": ("symbol", MUST)}, "member": {**NAME, **OF_MEMBER}, "symbol": {**NAME, **SHOWN}, "bit": BIT}
PAGE["enumeration"] = PAGE["structure"]
RANGE = re.compile(r"\{([0-9]{1,9})\.\.([0-9]{1,9})\}")


class LineReading(Reading):
    TABLES = LINE

    def value(self, entry, key, wanted, value):
        return value if wanted == "any" and value.kind != "broken" else super().value(entry, key, wanted, value)

    def item(self, entry, key, wanted, place, one):
        if wanted in ("value", "bit") and one.kind == "string":
            one = Value("table", {"name": one}, one.at)
        return super().item(entry, key, wanted, place, one)


class PageReading(LineReading):
    TABLES = PAGE


def read_page(root, doubtful):
    """The document that the words of a page are, and all that is wrong with its keys."""
    reading = PageReading(True, doubtful)
    return reading.table("document", root, "the file"), reading.faults


def read_line(root, doubtful):
    """The document that a line is, with names in ranges written out, and all that is wrong with its keys, numbers and ranges."""
    schema = root.data.get("schema")
    reading = LineReading(schema is None or schema.kind == "broken" or (schema.kind == "integer" and schema.data != 1), doubtful)
    d, faults = reading.table("document", root, "the source"), reading.faults
    for it in d["type"]:
        if it.kind == "enumeration":
            number_values(it)
        else:
            it.values["member"] = written_out(it["member"], MOST_PARTS, faults)
    for port in d["port"]:
        port.values["symbol"] = written_out(port["symbol"], MOST_SYMBOLS, faults)
    return d, faults


def number_values(it):
    """Gives each value of an enumeration without a number the next one."""
    number = -1
    for value in it["value"]:
        if value["number"] is None and "number" not in value.lost and number is not None:
            value.values["number"] = number + 1
        number = value["number"]


def written_out(entries, most, faults):
    found = []
    for entry in entries:
        name = entry["name"]
        if name is None or "{" not in name:
            found.append(entry)
            continue
        why, right = range_fault(name, most)
        if why:
            faults.append(entry.broken("name", why, None, right))
            entry.values["name"] = None
            entry.lost.add("name")
            found.append(entry)
        else:
            found += [copied(entry, numbers) for numbers in itertools.product(*(numbers_of(it) for it in RANGE.finditer(name)))]
    return found


def range_fault(name, most):
    """Why the braces of a name are no ranges, and what would be right."""
    count = 1
    for it in RANGE.finditer(name):
        low, high = it.groups()
        if int(low) > int(high):
            return f"the range {it[0]} ends below its beginning", f"write {{{high}..{low}}}"
        if low[0] == "0" and len(low) > 1 and len(low) != len(high):
            return f"the numbers of the range {it[0]} have not as many digits", f"write {{{low}..{high.zfill(len(low))}}}"
        count *= int(high) - int(low) + 1
    if "{" in RANGE.sub("", name) or "}" in RANGE.sub("", name):
        return "braces stand around a range of two numbers", "as Valve{1..24}, or Valve{01..24} for as many digits in each"
    return (f"the ranges of the name are {count} names", f"at most {most} fit") if count > most else (None, None)


def numbers_of(it):
    low, high = it.groups()
    width = len(low) if low[0] == "0" else 0
    return [str(number).zfill(width) for number in range(int(low), int(high) + 1)]


def copied(entry, numbers):
    """One of the entries for which a range stands. In its texts each {} is the number in the same place of its name."""
    it, left = copy.copy(entry), iter(numbers)
    it.values = dict(entry.values, name=RANGE.sub(lambda _: next(left), entry["name"]))
    for key in ("comment", "alarm", "group"):
        if it.values.get(key):
            right = iter(numbers)
            it.values[key] = re.sub(r"\{\}", lambda found, numbers=right: next(numbers, found[0]), it.values[key])
    return it


