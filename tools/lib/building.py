"""From a line to a description: what tools/plant.py build does."""
from lib.document import Broken
from lib.layout import NamedTypes
from lib.line_comments import Comments
from lib.line_reading import read_line
from lib.line_text import description_text
from lib.line_values import LineValues
from lib.page_words import page_text, wrong_words
from lib.placing import Before, place_all
from lib.rules_symbols import wrong_type
from lib.rules_types import LIMIT, wrong_part
from lib.signals import THREE
from lib.toml_all import AllReader
from lib.toml_text import Places, TomlFault, text_of
from lib.type_texts import NoType
from lib.verdict import LONGEST, rules_of, verdict_on


MOST = 50


class Built:
    """`text` is the description, `page` what a page shows beside its values, None where the line says nothing of that; `faults` are lines without the file's
    name, the first of `count`, and where there are some there is no text."""

    def __init__(self):
        self.page = None
        self.text, self.faults, self.count, self.before, self.verdict = None, [], 0, None, None

    def wrong(self, lines, count=1):
        self.faults, self.count = lines, count
        return self


def build(given, name, before=None, signals=THREE):
    """What the bytes of a line come to; `before` is the verdict on the description that was served."""
    it, broken = Built(), []
    if len(given) > LONGEST:
        return it.wrong([f"1: it has more than {LONGEST} bytes"])
    try:
        text = text_of(given)
    except TomlFault as fault:
        text, broken = given.decode("utf-8", "replace"), [Broken(fault.at, "", "", fault.why)]
    reader, places = AllReader(text), Places(text)
    root = reader.document()
    d, wrong_keys = read_line(root, reader.doubtful)
    broken += [Broken(fault.at, "", "", fault.why) for fault in reader.faults] + wrong_keys
    it.before = Before(before) if before else None
    types, shapes = finished(d, broken, it.before, signals)
    if broken:
        return it.wrong(*told(broken, places))
    it.text, it.page = description_text(d, types, shapes, Comments(reader, d), name), page_text(d, name)
    it.verdict = verdict_on(it.text.encode(), signals)
    if it.verdict.status:
        it.text = None
        return it.wrong([f"1: what would be written is refused: {it.verdict.lines[0]}; that is a fault of this tool"])
    if it.before:
        it.before.compare(d, shapes)
    return it


def finished(d, broken, before, signals):
    """Gives the document its values and places, and says all that is wrong with it then."""
    types, shapes = NamedTypes(), {}
    list(wrong_part(d, types))
    list(wrong_type(d, types, shapes))
    defaults = defaults_of(d, types, broken)
    for port in d["port"]:
        take_values(port, shapes, defaults, broken)
    place_all(d, shapes, before)
    types, shapes = NamedTypes(), {}
    for wrong in rules_of(d, types, shapes, signals):
        broken += [fault for _, fault in wrong()]
    broken += wrong_words(d, types, shapes)
    return types, shapes


def defaults_of(d, types, broken):
    """The bytes with which each structure begins, where they are not zeros."""
    defaults = {}
    for it, named in zip(d["type"], types.listed):
        known = named is not None and not named.base and named.size <= LIMIT
        data = bytearray(named.size if known else 0)
        for place, entry in enumerate(it["member"] if it.kind == "structure" else []):
            shape, reading = shape_of(entry, types), LineValues(entry.who, "initial", defaults)
            if shape is None or shape.size() > LIMIT:
                continue
            own = reading.begun(shape) if entry["initial"] is None else reading.bytes(shape, entry["initial"])
            broken += reading.faults
            if known:
                data[named.members[place].at:named.members[place].at + len(own)] = own
        if any(data):
            defaults[named] = bytes(data)
    return defaults


def shape_of(entry, types):
    try:
        return types.shape(entry["type"]) if entry["type"] is not None else None
    except NoType:
        return None


def take_values(port, shapes, defaults, broken):
    """Gives each symbol the bytes of its `initial`, or those with which its type begins."""
    read = {}
    for symbol in port["symbol"]:
        shape, value = shapes.get(symbol), symbol["initial"]
        symbol.values["initial"] = None
        if shape is None or shape.size() > LIMIT:
            continue
        reading = LineValues(symbol.who, "initial", defaults)
        if value is None:
            data = reading.begun(shape)
            symbol.values["initial"] = data.hex() if any(data) else None
            continue
        if id(value) not in read:
            data = reading.bytes(shape, value).hex()
            read[id(value)] = None if reading.faults else data
            broken += reading.faults
        symbol.values["initial"] = read[id(value)]


def told(broken, places):
    """The first faults as lines, in the order of the text, each once; and how many there are."""
    lines = {}
    for fault in sorted(broken, key=lambda it: it.at):
        lines.setdefault((fault.at, fault.who, fault.key, fault.why), fault)
    return [fault.said(places) for fault in list(lines.values())[:MOST]], len(lines)
