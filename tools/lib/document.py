"""Description rule 2: a TOML table read as the tables of a description, with the place of each key, and all that is wrong with its keys.

What can't be read is None, and its key is among the `lost` of its table: no later rule looks at it.
"""
import difflib

from lib.keys import EXAMPLES, HEADERS, IN_WORDS, KIND_OF, MEANT, MUST, SECOND, TABLES, TOML_WORDS
from lib.shown import told

# For so many unknown keys it is looked for what they were meant to be.
MOST_MEANT = 100


class Broken:
    """A place where a rule is broken: where in the text, what is meant, the key, and why; `other` is the table that it clashes with. Of a fault of TOML
    nothing is meant, and its column is told.

    `right` is what would be right, in words, or a function that finds it; None where that can't be told.
    """

    def __init__(self, at, who, key, why, other=None, right=None):
        self.at, self.who, self.key, self.why, self.other, self.right = at, who, key, why, other, right

    def said(self, places):
        """All of it as a line without the file's name."""
        if not self.who:
            return f"{places.line(self.at)}:{places.column(self.at)}: {self.why}"
        right = self.right() if callable(self.right) else self.right
        other = f" (line {places.line(self.other.at)})" if self.other else ""
        key = f", key `{self.key}`" if self.key else ""
        return f"{places.line(self.at)}: {self.who}{key}: {self.why}{other}{f'; {right}' if right else ''}"


class Entry:
    """One table of a description: its values by key, what they are read from, and where each stands."""

    def __init__(self, kind, table, who):
        self.kind, self.at, self.who, self.values, self.places, self.raw, self.lost = kind, table.at, who, {}, {}, {}, set()

    def __getitem__(self, key):
        return self.values[key]

    def place(self, key):
        """Where a key stands, or else its table."""
        return self.places.get(key, self.at)

    def broken(self, key, why, other=None, right=None):
        return Broken(self.place(key), self.who, key, why, other, right)


def read_document(root, doubtful=()):
    """The document that a table is, and what breaks rule 2, in the order of the text. Of the `doubtful` tables no key is missed."""
    schema = root.data.get("schema")
    second = schema is not None and (schema.kind == "broken" or (schema.kind == "integer" and schema.data == 2))
    reading = Reading(second or any(it is root for it in doubtful), doubtful)
    entry = reading.table("document", root, "the description")
    reading.faults.sort(key=lambda fault: fault.at)
    return entry, reading.faults


class Reading:
    TABLES = TABLES

    def __init__(self, second, doubtful=()):
        self.second, self.faults, self.doubtful = second, [], {id(it) for it in doubtful}

    def fault(self, at, who, key, why, right=None):
        self.faults.append(Broken(at, who, key, why, None, right))

    def table(self, kind, table, who):
        if kind == "type":
            kind = "enumeration" if self.second and "base" in table.data else "structure"
        known = self.TABLES[kind]
        keys = {key: it for key, it in known.items() if self.second or key not in SECOND.get(kind, ())}
        entry = Entry(kind, table, who)
        entry.values = {key: [] if self.is_tables(wanted) else None if absent is MUST else absent for key, (wanted, absent) in known.items()}
        for key, value in table.data.items():
            if key not in keys:
                self.fault(value.at, who, told(key), *self.unknown(kind, key, keys, table))
        for key, (wanted, absent) in keys.items():
            value = table.data.get(key)
            if value is not None:
                entry.places[key], entry.raw[key] = value.at, value
                entry.values[key] = self.value(entry, key, wanted, value)
            elif absent is MUST:
                entry.lost.add(key)
                self.missing(kind, table, who, key)
        return entry

    def missing(self, kind, table, who, key):
        if id(table) not in self.doubtful:
            self.fault(table.at, who, key, f"{HEADERS[kind]} must have it", f"as `{EXAMPLES[key]}`" if key in EXAMPLES else None)

    @staticmethod
    def is_tables(wanted):
        return wanted in TABLES or wanted == "type"

    def unknown(self, kind, key, keys, table):
        """Why a key is none of its table's, and which is meant."""
        if not self.second and (key in SECOND.get(kind, ()) or (kind == "structure" and key in SECOND["enumeration"])):
            what = "an enumeration" if kind == "structure" else "a list of writers"
            return f"{what} is a matter of schema 2, and this description has not `schema = 2`", None
        free = [it for it in keys if it not in table.data]
        near = [MEANT[key.lower()]] if MEANT.get(key.lower()) in free else []
        if not near and len(self.faults) < MOST_MEANT:
            near = difflib.get_close_matches(key, free, 1)
        return f"{HEADERS[kind]} has no such key", f"is `{near[0]}` meant?" if near else f"its keys are {', '.join(keys)}"

    def value(self, entry, key, wanted, value):
        """The value of a key, where it is of its kind."""
        if value.kind == "broken":
            entry.lost.add(key)
            return [] if self.is_tables(wanted) else None
        if wanted in KIND_OF:
            if value.kind == KIND_OF[wanted]:
                return value.data
            entry.lost.add(key)
            self.fault(value.at, entry.who, key, f"{IN_WORDS[wanted]} is wanted, and {TOML_WORDS[value.kind]} stands there", self.instead(wanted, value))
            return None
        if value.kind != "array":
            entry.lost.add(key)
            what = IN_WORDS[wanted] if wanted == "texts" else f"an array of tables, as [[{key}]] writes it,"
            self.fault(value.at, entry.who, key, f"{what} is wanted, and {TOML_WORDS[value.kind]} stands there")
            return None if wanted == "texts" else []
        items = [self.item(entry, key, wanted, place, one) for place, one in enumerate(value.data)]
        if None in items:
            entry.lost.add(key)
        return [it for it in items if it is not None]

    @staticmethod
    def instead(wanted, value):
        """What to write in place of a value of another kind."""
        data = value.data
        if value.kind == "string" and wanted == "number" and data.strip().lstrip("-").isdecimal() and data.isascii():
            return f"write {int(data)}"
        if value.kind == "string" and wanted == "flag" and data.lower() in ("true", "false"):
            return f"write {data.lower()}"
        if value.kind == "integer" and wanted == "flag" and data in (0, 1):
            return f"write {'true' if data else 'false'}"
        if value.kind == "float" and wanted == "number" and abs(data) < 2 ** 63 and data == data // 1:
            return f"write {int(data)}"
        return None

    def item(self, entry, key, wanted, place, one):
        kind = "string" if wanted == "texts" else "table"
        if one.kind == "broken":
            return None
        if one.kind != kind:
            self.fault(one.at, entry.who, key, f"its element {place + 1} is {TOML_WORDS[one.kind]} in place of {TOML_WORDS[kind]}")
            return None
        return one.data if kind == "string" else self.table(wanted, one, who_is(wanted, place, one, entry))


def who_is(kind, place, table, outer):
    """What a table describes, in words: by its name, or else by its place, counted from 1."""
    name = table.data.get({"route": "net", "port": "port"}.get(kind, "name"))
    is_told = name is not None and name.kind == ("integer" if kind == "port" else "string")
    said = (str(name.data) if kind == "port" else f'"{told(name.data)}"') if is_told else f"number {place + 1}"
    return f"{kind} {said}" + (f" of {outer.who}" if kind in ("member", "value", "symbol", "bit") else "")
