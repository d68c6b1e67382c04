"""What a page shows beside values: units, limits, names of bits, alarms and groups, as a source says them and as a file
beside the description, PLANT.page.toml, keeps them.
"""
import os
import struct
from typing import NamedTuple

from lib.document import Broken
from lib.files import read_bytes
from lib.leaves import enum_name, kind_of
from lib.letters import quoted
from lib.line_values import LineValues
from lib.shown import shown
from lib.shown import told as told_name
from lib.signals import config_in
from lib.toml_all import AllReader
from lib.toml_text import Places, TomlFault, text_of
from lib.type_texts import lower
from lib.value_words import FLOATS, SIGNED
from lib.words import Ended

# The texts of a page have at most so many letters; a file at most so many bytes.
MOST_UNIT, MOST_TEXT, LONGEST = 16, 120, 4000000
LIMITS = ("min", "max", "low", "high")
PAGE_KEYS = ("unit", *LIMITS, "bits", "alarm", "alarm_at", "group")
WRITTEN = "# Written by tools/plant.py "
# The kinds of plain values that have a unit, limits, and names of bits.
WITH_UNIT, WITH_LIMITS, WITH_BITS = ("number", "real", "bits"), ("number", "real", "bits", "time"), ("number", "bits")


class Bit(NamedTuple):
    """A bit with a name; one that is an alarm is so while it is 1, or 0 where `at` says so."""

    number: int
    name: str
    is_alarm: bool
    at: bool


class Words(NamedTuple):
    """What is shown beside a plain value of a type: `least` and `most` limit what is written, `low` and
    `high` mark what is usual, and `at` has the values at which an alarm is there, each with its name.
    """

    type: str
    unit: str
    least: object
    most: object
    low: object
    high: object
    bits: tuple
    alarm: str
    at: tuple


def words_of(entry, shape, faults):
    """What an entry says of its values, None where that is nothing; what is wrong goes to the faults."""
    said = [key for key in PAGE_KEYS if key in entry.places]
    before = len(faults)
    if "group" in said:
        wrong_text(entry, "group", MOST_UNIT * 3, faults)
    said = [key for key in said if key != "group"]
    if not said or shape is None:
        return None
    element = shape.of_element() if shape.ends else shape
    if element.named() and not element.named().base:
        where = "the members of its type, or a symbol with a plain value"
        faults += [entry.broken(key, f"{element.text()} is a structure", None, f"say it of {where}") for key in said]
        return None
    kind = kind_of(element)
    wrong_kinds(entry, kind, element.text(), faults)
    limits = [limit_of(entry, key, element, faults) for key in LIMITS]
    for low, high, names in ((*limits[:2], LIMITS[:2]), (*limits[2:], LIMITS[2:])):
        if low is not None and high is not None and low > high:
            faults.append(
                entry.broken(names[1], f"it is below `{names[0]}`", None, f"write the lesser one as `{names[0]}`")
            )
    bits = bits_of(entry, element, faults)
    wrong_text(entry, "unit", MOST_UNIT, faults)
    wrong_text(entry, "alarm", MOST_TEXT, faults)
    at = alarm_at(entry, kind, element, faults)
    if len(faults) > before:
        return None
    return Words(element.text(), entry["unit"] or "", *limits, bits, entry["alarm"] or "", at)


def wrong_kinds(entry, kind, type_text, faults):
    """Keys that belong to values of other types."""
    for keys, kinds, what in (
        (("unit",), WITH_UNIT, "a number"),
        (LIMITS, WITH_LIMITS, "a number or a TIME"),
        (("bits",), WITH_BITS, "a whole number"),
    ):
        if kind not in kinds:
            faults += [
                entry.broken(key, f"it belongs to {what}, and this is {type_text}")
                for key in keys
                if key in entry.places
            ]
    if entry["alarm"] is None or kind in ("bool", "text"):
        return
    if kind == "enum":
        if "alarm_at" not in entry.places:
            right = 'add `alarm_at = ["NAME", ..]`, the values at which it is there'
            faults.append(entry.broken("alarm", f"{type_text} is an enumeration", None, right))
    elif kind not in WITH_LIMITS:
        what = "a BOOL, a STRING, a number or an enumeration"
        faults.append(entry.broken("alarm", f"it belongs to {what}, and this is {type_text}"))
    elif "low" not in entry.places and "high" not in entry.places:
        right = "add `high = ..` or `low = ..`; a bit's alarm is said in `bits`"
        faults.append(
            entry.broken(
                "alarm", "that of a number is there below `low` or above `high`, and neither stands here", None, right
            )
        )


def alarm_at(entry, kind, shape, faults):
    """The values at which an alarm is there, each with its name; none where nothing is said of them."""
    value = entry["alarm_at"]
    if value is None:
        return ()
    if entry["alarm"] is None and "alarm" not in entry.lost:
        faults.append(entry.broken("alarm_at", "no `alarm` stands here", None, "add `alarm = ..`, its text"))
    if kind == "bool" and value.kind == "boolean":
        return ((value.data, ""),)
    if kind != "enum":
        what = "true or false stands here" if kind == "bool" else "it belongs to a BOOL or an enumeration"
        faults.append(entry.broken("alarm_at", what + ("" if kind == "bool" else f", and this is {shape.text()}")))
        return ()
    reading, found = LineValues(entry.who, "alarm_at"), []
    for it in value.data if value.kind == "array" else [value]:
        number = number_of(shape.element[1].base.upper(), reading.bytes(shape, it))
        found.append((number, enum_name(shape, number) or str(number)))
    faults += reading.faults
    return tuple(found)


def wrong_text(entry, key, most, faults):
    text = entry[key] if key in entry.places else None
    if text is not None and (not 0 < len(text) <= most or not text.isprintable()):
        faults.append(
            entry.broken(key, f"it is a text of 1 to {most} printable letters in one line, and {shown(text)} is none")
        )


def limit_of(entry, key, shape, faults):
    """A limit as a number of the type; None where there is none."""
    value = entry[key]
    if value is None or kind_of(shape) not in WITH_LIMITS:
        return None
    if key in LIMITS and value.kind == "float" and value.data - value.data != 0:
        faults.append(
            entry.broken(key, "a limit is a number, and this is none", None, "leave it out where there is no limit")
        )
        return None
    reading = LineValues(entry.who, key)
    data = reading.bytes(shape, value)
    faults += reading.faults
    word = shape.element[1]
    return None if reading.faults else number_of(word, data)


def number_of(word, data):
    return (
        struct.unpack(FLOATS[word], data)[0]
        if word in FLOATS
        else int.from_bytes(data, "little", signed=word in SIGNED)
    )


def bits_of(entry, shape, faults):
    """The named bits of a number; one without a number is the next one."""
    found, number = [], -1
    width = 8 * shape.size()
    for it in entry["bits"] or []:
        number = number + 1 if it["bit"] is None else it["bit"]
        if it["name"] is None or "bit" in it.lost:
            continue
        wrong_text(it, "name", MOST_TEXT, faults)
        if not 0 <= number < width:
            faults.append(it.broken("bit", f"{shape.text()} has the bits 0 to {width - 1}, and this is bit {number}"))
        elif number in [own.number for own in found]:
            faults.append(it.broken("bit", f"bit {number} has a name already"))
        elif lower(it["name"]) in [lower(own.name) for own in found]:
            faults.append(it.broken("name", f"another bit has the name {shown(it['name'])} already"))
        else:
            at = it["alarm_at"] is None or it["alarm_at"]
            found.append(Bit(number, it["name"], bool(it["alarm"]), bool(at)))
            if it["alarm_at"] is not None and not it["alarm"]:
                faults.append(it.broken("alarm_at", "this bit is no alarm", None, "add `alarm = true`"))
    return tuple(found)


def wrong_words(d, types, shapes):
    """What is wrong with the keys of a page in a document."""
    faults = []
    for it, named in zip(d["type"], types.listed):
        if it.kind == "structure" and named is not None and not named.base:
            for member, own in zip(it["member"], named.members):
                words_of(member, own.shape, faults)
    for port in d["port"]:
        for symbol in port["symbol"]:
            words_of(symbol, shapes.get(symbol), faults)
    return faults


# The file beside a description.


def beside(name):
    """The file beside a description that has the words of a page."""
    return (name[:-5] if name.endswith(".toml") else name) + ".page.toml"


def page_text(d, name):
    """The words of a page of a document as a file; None where it says none."""
    said = "".join(letter if " " <= letter <= "~" else "?" for letter in name)
    lines, count = [f"{WRITTEN}from {said}: what a page shows beside the values. Change that, and build again."], 0
    for it in d["type"]:
        inside = [told(member) for member in it["member"] if saying(member)] if it.kind == "structure" else []
        if inside:
            lines += ["", "[[type]]", f"name = {quoted(it['name'])}", "member = [", *inside, "]"]
            count += len(inside)
    for port in d["port"]:
        inside = [told(symbol) for symbol in port["symbol"] if saying(symbol)]
        if inside:
            lines += ["", "[[port]]", f"port = {port['port']}", "symbol = [", *inside, "]"]
            count += len(inside)
    return "\n".join(lines) + "\n" if count else None


def empty_text(name):
    """A file that says nothing, in the place of one that did."""
    return f"{WRITTEN}from {name.encode('ascii', 'replace').decode()}, which says nothing of a page.\n"


def saying(entry):
    return [key for key in PAGE_KEYS if key in entry.places]


def told(entry):
    return (
        "  { name = "
        + quoted(entry["name"])
        + "".join(f", {key} = {told_value(entry, key)}" for key in saying(entry))
        + " },"
    )


def told_value(entry, key):
    if key == "bits":
        return "[" + ", ".join(told_bit(it) for it in entry["bits"]) + "]"
    return told_plain(entry[key]) if key in LIMITS or key == "alarm_at" else quoted(entry[key])


def told_plain(value):
    if value.kind == "array":
        return "[" + ", ".join(told_plain(it) for it in value.data) + "]"
    if value.kind == "boolean":
        return "true" if value.data else "false"
    return quoted(value.data) if value.kind == "string" else repr(value.data)


def told_bit(it):
    return (
        "{ name = "
        + quoted(it["name"])
        + (f", bit = {it['bit']}" if it["bit"] is not None else "")
        + (", alarm = true" if it["alarm"] else "")
        + (f", alarm_at = {'true' if it['alarm_at'] else 'false'}" if it["alarm_at"] is not None else "")
        + " }"
    )


class PageWords:
    """`symbols` have pairs of words and a group by port and name, `members` words by type and member."""

    def __init__(self):
        self.symbols, self.members, self.missing = {}, {}, []

    def take(self, d, plant, faults):
        """Takes what a document says of the values that a plant has."""
        named = {lower(it.name): it for it in plant.types if it}
        for it in d["type"]:
            own = named.get(lower(it["name"] or ""))
            for entry in it["member"]:
                member = own.member(entry["name"] or "") if own and not own.base else None
                if member is None:
                    self.missing.append(f"{it['name']}.{entry['name']}")
                    continue
                self.members[lower(own.name), lower(member.name)] = words_of(entry, member.shape, faults)
        for port in d["port"]:
            for entry in port["symbol"]:
                part = plant.port(port["port"]).symbols.get(lower(entry["name"] or ""))
                if part is None:
                    self.missing.append(str(entry["name"]))
                    continue
                self.symbols[port["port"], lower(part.path)] = words_of(entry, part.shape, faults), entry["group"] or ""

    def has_alarms(self):
        words = [it for it, _ in self.symbols.values()] + list(self.members.values())
        return any(it and (it.alarm or any(bit.is_alarm for bit in it.bits)) for it in words)

    def notice(self):
        """A sentence about what is not there."""
        if not self.missing:
            return None
        some = f"{len(self.missing)} names in the file of units, limits and alarms"
        return f"{some} are not in the description, among them {told_name(self.missing[0])}."

    def of_symbol(self, port, name):
        return self.symbols.get((port, lower(name)), (None, ""))


def read_page_words(name, plant, may_miss=True):
    """The words of a file for a plant; none where the file may be absent and is."""
    from lib.line_reading import read_page  # (which reads sources by the keys of this module)

    found = PageWords()
    if may_miss and not os.path.exists(name):
        return found
    given, broken = read_bytes(name, LONGEST + 1), []
    if len(given) > LONGEST:
        raise Ended(f"{name} has more than {LONGEST} bytes", 2)
    try:
        text = text_of(given)
        reader = AllReader(text)
        d, broken = read_page(reader.document(), reader.doubtful)
        broken += [Broken(fault.at, "", "", fault.why) for fault in reader.faults]
    except TomlFault as fault:
        raise Ended(f"{name} is no TOML document: {fault.why}", 2) from None
    found.take(d, plant, broken)
    if broken:
        first = min(broken, key=lambda it: it.at)
        more = f", and {len(broken) - 1} more" if len(broken) > 1 else ""
        raise Ended(f"{name}:{first.said(Places(text))}{more}", 2)
    return found


def words_file(plant_file):
    """The file beside the description that a plant's file is, or names."""
    config = config_in(read_bytes(plant_file), plant_file)
    return beside(config.description if config else plant_file)
