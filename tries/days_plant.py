"""The plants of tries/days.py: a line whose types and symbols change from one description to the next, and what the
bytes of a symbol tell. Each value that is written has a number of its own, so a number found anywhere says which write
it is of.
"""
import re

from lib.building import build
from lib.kept import form
from lib.line_values import index_text
from lib.type_texts import lower
from lib.value_json import json_of

HEAD = """net = "5.1.2.3.1.1"
[[route]]
net = "192.168.0.9.1.1"
rights = "control"
[[type]]
name = "Mode"
base = "INT"
value = ["Off", "On"]
[[type]]
name = "Recipe"
member = [%s]
[[port]]
port = 851
name = "Line"
symbol = [
%s
]
"""
TITLE, VOLUME, OFFSET, MODE = (("title", "STRING(8)"), ("volume", "REAL"), ("offset", "INT"), ("mode", "Mode"))
SUGAR = ("sugar", "LREAL")
# What may stand for each part of the line; the first is the usual one.
RECIPES = {
    "as it was": [TITLE, VOLUME, OFFSET, MODE],
    "a member more": [TITLE, VOLUME, SUGAR, OFFSET, MODE],
    "a last member more": [TITLE, VOLUME, OFFSET, MODE, SUGAR],
    "a member less": [TITLE, VOLUME, MODE],
    "another order": [OFFSET, MODE, TITLE, VOLUME],
    "other types": [("title", "STRING(12)"), ("volume", "LREAL"), ("offset", "DINT"), MODE],
    "a shorter title": [("title", "STRING(3)"), VOLUME, OFFSET, MODE],
}
CHOICES = {
    "recipe": list(RECIPES),
    "recipes": ["ARRAY [1..3] OF Recipe", "ARRAY [1..5] OF Recipe", "ARRAY [1..2] OF Recipe", "Recipe"],
    "levels": ["ARRAY [0..4] OF DINT", "ARRAY [0..7] OF DINT", "ARRAY [0..1] OF DINT", "ARRAY [0..4] OF LREAL", ""],
    "limit": ["DINT", "INT", "LREAL", "UDINT", "STRING(10)"],
    "count": ["Line.count", "Line.counter", "", "not persistent"],
    "name": ["STRING(12)", "STRING(20)", "STRING(3)", ""],
    "first": ["", "ARRAY [1..7] OF BYTE"],
}


class Variant:
    """A description of the line."""

    def __init__(self, picked):
        self.picked = picked
        count = picked["count"] if picked["count"] not in ("", "not persistent") else "Line.count"
        rows = [
            ("Line.first", picked["first"], True),
            ("Line.recipes", picked["recipes"], True),
            ("Line.levels", picked["levels"], True),
            ("Line.limit", picked["limit"], True),
            (count, "UDINT" if picked["count"] else "", picked["count"] != "not persistent"),
            ("Line.name", picked["name"], True),
            ("Line.speed", "LREAL", False),
        ]
        members = ", ".join(f'{{ name = "{name}", type = "{kind}" }}' for name, kind in RECIPES[picked["recipe"]])
        symbols = "\n".join(
            f'  {{ name = "{name}", type = "{kind}"{", persistent = true" if kept else ""} }},'
            for name, kind, kept in rows
            if kind
        )
        built = build((HEAD % (members, symbols)).encode(), "days.line")
        if built.faults:
            raise ValueError(built.faults)
        self.text = built.text.encode()
        self.shapes = {
            lower(it["name"]): built.verdict.shapes[it]
            for port in built.verdict.document["port"]
            for it in port["symbol"]
            if it["persistent"]
        }

    def named(self):
        """In words, where it is another than the usual one."""
        said = [f"{key}: {it or 'none'}" for key, it in self.picked.items() if it != CHOICES[key][0]]
        return ", ".join(said) or "the usual one"

    def leaves(self):
        """The paths of all that has no parts, and its type."""
        for name, shape in self.shapes.items():
            for path, own, _ in leaves_of(name, shape, 0):
                yield path, own


def leaves_of(path, shape, at):
    """What has no parts in a type: its path, type and place."""
    named = shape.named()
    if shape.ends:
        inner = shape.of_element()
        for place in range(shape.count()):
            yield from leaves_of(path + index_text(shape.ends, place), inner, at + place * inner.size())
    elif named and not named.base:
        for member in named.members:
            yield from leaves_of(f"{path}.{lower(member.name)}", member.shape, at + member.at)
    else:
        yield path, shape, at


def value_for(shape, number):
    """The value that tells a number; None where the type has none."""
    kind, it = shape.element
    if kind == "text":
        return f"v{number}" if len(f"v{number}") <= it else None
    if kind == "named" or it in ("BOOL", "BYTE", "SINT", "USINT"):
        return None
    return number if it != "INT" or number < 32768 else None


def number_in(value):
    """The number that a value tells; None where it tells none."""
    if isinstance(value, str):
        found = re.fullmatch("v([1-9][0-9]*)", value) or re.fullmatch(r"([1-9][0-9]*)(\.0)?", value)
        return int(found[1]) if found else None
    if isinstance(value, bool) or not isinstance(value, (int, float)):
        return None
    return int(value) if value > 0 and value == int(value) else None


def numbers_in(name, shape, data):
    """The numbers that the bytes of a symbol tell, by path."""
    found = {}
    for path, own, at in leaves_of(lower(name), shape, 0):
        number = number_in(json_of(own, data[at : at + own.size()]))
        if number is not None:
            found[path] = number
    return found


class Book:
    """All types that symbols have had, by which the bytes of stores and of dumps are read."""

    def __init__(self):
        self.by_form, self.by_size = {}, {}

    def take(self, variant):
        for name, shape in variant.shapes.items():
            self.by_form[name, form(shape)] = shape
            self.by_size.setdefault((name, shape.size()), {})[form(shape)] = shape

    def of_store(self, entries):
        """The numbers in the entries of a store, by path."""
        found = {}
        for it in entries:
            shape = self.by_form.get((lower(it.name), it.form))
            if shape and shape.size() == len(it.value):
                found.update(numbers_in(it.name, shape, it.value))
        return found

    def of_bytes(self, name, data):
        """Pairs of path and number that bytes may tell whose type is not said."""
        for shape in self.by_size.get((lower(name), len(data)), {}).values():
            yield from numbers_in(name, shape, data).items()


def variant_of(chance, likely=0.6):
    """Some variant: each part is the usual one with this likelihood."""
    return Variant({key: row[0] if chance.random() < likely else chance.choice(row) for key, row in CHOICES.items()})


def changed(chance, variant):
    """A variant that differs in one to three parts."""
    picked = dict(variant.picked)
    while picked == variant.picked:
        for key in chance.sample(list(CHOICES), chance.choice((1, 1, 2, 3))):
            picked[key] = CHOICES[key][0] if chance.random() < 0.5 else chance.choice(CHOICES[key])
    return Variant(picked)
