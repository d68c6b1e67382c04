"""What a text is to the reader of descriptions: a description, the least broken rule with its least item, or no TOML document; and all that is wrong."""
from lib.document import Broken, read_document
from lib.initial_fault import initial_meant
from lib.layout import NamedTypes
from lib.rules_nets import wrong_net, wrong_rights, wrong_schema
from lib.rules_ports import AREAS, upload_size, wrong_port, wrong_upload
from lib.rules_symbols import wrong_content, wrong_name, wrong_place, wrong_signal, wrong_type
from lib.rules_types import LIMIT, wrong_part, wrong_size, wrong_type_name
from lib.signals import THREE
from lib.toml_all import AllReader
from lib.toml_text import Places, TomlFault, text_of

LONGEST, LAST_ITEM = 16777216, 4294967295


class Verdict:
    """What `check` prints, its status, and what there is to say about it. Where it is a description: its document, its types and the type of each symbol.

    `rule` is the number of the least broken rule, 0 for no TOML document, None for a description. `found` has for each broken rule, in order, the places at
    which it is broken, and `broken` all of them in one list.
    """

    def __init__(self, lines, status):
        self.lines, self.status = lines, status
        self.rule, self.item, self.found, self.places = None, 0, {}, None
        self.document, self.types, self.shapes = None, NamedTypes(), {}

    @property
    def broken(self):
        return [broken for rule in sorted(self.found) for broken in self.found[rule]]


def verdict_on(given, signals=THREE):
    """The verdict on the bytes of a file, for so many signals."""
    if len(given) > LONGEST:
        return Verdict(["ads: file too long"], 12)
    it, faults = Verdict([], 0), []
    try:
        text = text_of(given)
    except TomlFault as fault:
        faults, text = [fault], given.decode("utf-8", "replace")
    it.places, reader = Places(text), AllReader(text)
    root = reader.document()
    faults += reader.faults
    if faults:
        it.lines, it.status, it.rule = ["ads: description syntax"], 2, 0
        it.found[0] = [Broken(fault.at, "", "", fault.why) for fault in faults]
    it.document, wrong_keys = read_document(root, reader.doubtful)
    take(it, 2, [(0, broken) for broken in wrong_keys])
    for rule, wrong in enumerate(rules_of(it.document, it.types, it.shapes, signals), 3):
        take(it, rule, list(wrong()))
    initials_meant(it, wrong_keys)
    it.lines = it.lines or lines_of(it)
    return it


def rules_of(d, types, shapes, signals):
    """Rules 3 to 15; each stands on those before it, and passes over what they could not read."""
    return [
        lambda: wrong_schema(d), lambda: wrong_net(d), lambda: wrong_rights(d),
        lambda: wrong_type_name(d), lambda: wrong_part(d, types), lambda: wrong_size(d, types), lambda: wrong_port(d),
        lambda: wrong_name(d), lambda: wrong_type(d, types, shapes), lambda: wrong_place(d, shapes),
        lambda: wrong_content(d, shapes, types), lambda: wrong_signal(d, shapes, signals), lambda: wrong_upload(d, shapes),
    ]


def take(it, rule, found):
    """Takes the places at which a rule is broken, pairs of an item and what is broken there."""
    if not found:
        return
    it.found[rule] = [broken for _, broken in found]
    if not it.lines:
        it.rule, it.item, it.status = rule, min(found[0][0], LAST_ITEM), 2
        it.lines = [f"ads: description rule {rule} item {it.item}"]


def initials_meant(it, wrong_keys):
    """Says of each `initial` that is no text which bytes it means."""
    symbols = {symbol.place("initial"): symbol for port in it.document["port"] for symbol in port["symbol"] if "initial" in symbol.raw}
    for broken in wrong_keys:
        symbol = symbols.get(broken.at) if broken.key == "initial" else None
        shape = it.shapes.get(symbol) if symbol else None
        if shape is not None and shape.size() <= LIMIT:
            broken.right = lambda symbol=symbol, shape=shape: initial_meant(symbol, shape)


def lines_of(it):
    d, lines = it.document, []
    for port in d["port"]:
        image = sum(port[area] for area in AREAS)
        lines.append(f"port {port['port']} name {port['name']} image {image} symbols {len(port['symbol'])} upload {upload_size(port, it.shapes)}")
    symbols = sum(len(port["symbol"]) for port in d["port"])
    return [*lines, f"ok ports {len(d['port'])} symbols {symbols} types {len(d['type'])}"]
