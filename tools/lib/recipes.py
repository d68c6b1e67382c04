"""Recipes: values by name in a file, as JSON or as CSV, and what differs between two of them."""
import csv
import io
import json
import time

from lib.type_texts import lower
from lib.value_json import NoValueOf, Raw, json_in, parsed, text_of
from lib.words import Ended

COLUMNS = ["name", "value"]


class Recipe:
    """Values by name, with the server and the AMS port that they are of.

    `restored` are those that a change loses, where they were saved before one.
    """

    def __init__(self, net, port, values, restored=None):
        self.net, self.port, self.values, self.restored = net, port, values, restored

    def json(self):
        head = {"netid": self.net, "port": self.port, "taken": time.strftime("%Y-%m-%dT%H:%M:%SZ", time.gmtime())}
        return json.dumps({**head, "values": self.values}, ensure_ascii=False, indent=2) + "\n"

    def csv(self):
        """A row for each plain value, so that a table program shows them."""
        out = io.StringIO()
        rows = csv.writer(out, lineterminator="\n")
        rows.writerow(COLUMNS)
        rows.writerows(
            (path, text_of(value)) for name, value in self.values.items() for path, value in leaves_of(name, value)
        )
        return out.getvalue()


def leaves_of(path, value, counted=False):
    """The plain values in a value. The elements of an array stay together, since their lowest index is the type's;
    or those that have parts are counted.
    """
    if isinstance(value, dict):
        for name, inner in value.items():
            yield from leaves_of(f"{path}.{name}", inner, counted)
    elif counted and isinstance(value, list) and any(isinstance(it, (dict, list)) for it in value):
        for place, inner in enumerate(value):
            yield from leaves_of(f"{path}[element {place + 1}]", inner, counted)
    else:
        yield path, value


def read_recipe(data, name):
    """A recipe of either form; an Ended where the file is none."""
    try:
        text = data.decode("utf-8-sig")
    except UnicodeDecodeError:
        raise Ended(f"{name} is no text of UTF-8", 4) from None
    return of_json(text, name) if text.lstrip().startswith("{") else of_csv(text, name)


def of_json(text, name):
    try:
        found = json_in(text)
    except (ValueError, NoValueOf) as fault:
        raise Ended(f"{name} is no JSON: {fault}", 4) from None
    if not isinstance(found, dict) or not isinstance(found.get("values"), dict) or not found["values"]:
        raise Ended(f"{name} has no object `values` with names and values", 4)
    port, restored = found.get("port"), found.get("restore")
    if port is not None and (type(port) is not int or not 0 < port < 65536):
        raise Ended(f"{name}: `port` is a number from 1 to 65535, and {text_of(port)[:80]} is none", 4)
    if restored is not None and not isinstance(restored, dict):
        raise Ended(f"{name}: `restore` is an object with names and values", 4)
    for values in (found["values"], restored or {}):
        once(values, name)
    return Recipe(found.get("netid"), port, found["values"], restored)


def once(names, recipe):
    """Sees that each name stands once, ASCII case aside."""
    seen = set()
    for name in names:
        if lower(name) in seen:
            raise Ended(f"{recipe} has {name} twice", 4)
        seen.add(lower(name))


def of_csv(text, name):
    csv.field_size_limit(2**31 - 1)
    try:
        rows = list(csv.reader(io.StringIO(text)))
    except csv.Error as fault:
        raise Ended(f"{name} is no CSV: {fault}", 4) from None
    if (
        not rows
        or [word.strip().lower() for word in rows[0]] != COLUMNS
        or any(len(row) != 2 for row in rows[1:] if row)
    ):
        mark = text.split("\n", 1)[0].strip().lower()
        right = "; save it with commas in place of semicolons" if mark == ";".join(COLUMNS) else ""
        raise Ended(f"{name} is neither JSON nor CSV with the columns {' and '.join(COLUMNS)}{right}", 4)
    once([row[0] for row in rows[1:] if row], name)
    values = {row[0]: Raw(row[1]) for row in rows[1:] if row}
    if not values:
        raise Ended(f"{name} has no value", 4)
    return Recipe(None, None, values)


def plain_values(recipe):
    """The plain values of a recipe, by their paths."""
    values = {name: parsed(it) if isinstance(it, Raw) and it[:1] in ("{", "[") else it for name, it in recipe.items()}
    return {path: text_of(value) for name, it in values.items() for path, value in leaves_of(name, it, True)}


def differences(one, other):
    """A line for each plain value that differs, or is in one of the two alone."""
    before, after = plain_values(one), plain_values(other)
    lines = [
        f"{path}: {before[path]} becomes {after[path]}"
        for path in before
        if path in after and before[path] != after[path]
    ]
    lines += [f"{path}: {before[path]} is in the first alone" for path in before if path not in after]
    return lines + [f"{path}: {after[path]} is in the second alone" for path in after if path not in before]
