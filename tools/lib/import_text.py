"""What a file has as a line of tools/plant.py: what can be carried over, and at its place a comment for what can't."""
import bisect

from lib.describing import remark
from lib.import_bits import is_bit
from lib.import_types import ImportTypes, Remark
from lib.import_values import initial_bytes
from lib.layout import aligned
from lib.letters import quoted, spelled
from lib.rules_nets import is_net
from lib.rules_ports import AREAS, IMAGE_LIMITS, MOST_SYMBOLS, MOST_UPLOAD
from lib.rules_types import LONGEST, MOST_TYPES
from lib.type_texts import NoType, is_identifier, lower
from lib.value_words import spare_words

IMAGE = max(IMAGE_LIMITS.values())
MOST_VALUE = 4000


def bits_words(named):
    """The names of bits as a source has them; a number stands where it is not the next one."""
    words, last = [], -1
    for number, name in sorted(named.items()):
        words.append(quoted(name) if number == last + 1 else f"{{ name = {quoted(name)}, bit = {number} }}")
        last = number
    return "[" + ", ".join(words) + "]"


class ImportText:
    def __init__(self, given, name, net, routes, port, offsets):
        self.given, self.name, self.net, self.routes, self.number, self.offsets = given, name, net or given.net, routes, port or given.port or 851, offsets
        self.book, self.types, self.defaults = ImportTypes(given), [], {}
        self.names, self.heads, self.taken, self.ends, self.upload, self.count = set(), set(), {area: [] for area in AREAS}, dict.fromkeys(AREAS, 0), 0, 0

    def text(self):
        symbols = []
        for part in self.given.symbols:
            try:
                symbols += self.symbol(part)
            except NoType as fault:
                symbols += ["", remark(f"left out: {part.name} ({part.text or 'no type'}), line {part.line}: {fault}")]
        lines = self.head()
        for named in self.types:
            lines += self.type(named)
        return "".join(line + "\n" for line in [*lines, *self.port(), *symbols])

    def head(self):
        lines = [remark(f"Imported from {self.name}, a {self.given.what}. What could not be carried over is noted at its place."),
                 *(remark(said) for said in self.given.remarks), "schema = 2"]
        if self.net is not None and not is_net(self.net):
            lines.append(remark(f"the file has the NetId {self.net}, which is none"))
            self.net = None
        lines += [f"net = {quoted(self.net)}"] if self.net else ["# the file has no NetId: write the one that clients ask for", 'net = "127.0.0.1.1.1"']
        for own, rights in self.routes:
            lines += ["", "[[route]]", f"net = {quoted(own)}", f"rights = {quoted(rights)}"]
        return lines if self.routes else [*lines, "", "# no file says who may connect: each client needs a route", "# [[route]]",
                                          '# net = "192.168.0.9.1.1"', '# rights = "control"']

    def port(self):
        name = "".join(letter for letter in self.given.name if " " <= letter <= "~")[:16].strip() or "Imported"
        return ["", "[[port]]", f"port = {self.number}", f"name = {quoted(name)}"]

    # Types.

    def fresh(self, shape):
        """The types of a shape that are not written yet, those first that others name."""
        fresh = []

        def visit(it):
            named = it.element[1] if it.element[0] == "named" else None
            if named is None or named in self.types or named in fresh:
                return
            for member in named.members:
                visit(member.shape)
            fresh.append(named)

        visit(shape)
        if len(self.types) + len(fresh) > MOST_TYPES:
            raise NoType(f"a description has at most {MOST_TYPES} types")
        return fresh

    def begun(self, shape):
        kind, it = shape.element
        begun = self.defaults.get(it) if kind == "named" else None
        return begun * shape.count() if begun else bytes(shape.size())

    def type(self, named):
        notes = [remark(said) for said in self.book.notes.get(named.name, ())]
        lines = ["", *notes, "[[type]]", f"name = {quoted(named.name)}"]
        if named.base:
            lines += [f"base = {quoted(named.base)}", "value = ["]
            return [*lines, *(f"  {{ name = {quoted(name)}, number = {number} }}," for name, number in named.values), "]"]
        return [*lines, "member = [", *(f"  {line}" for line in self.members(named)), "]"]

    def members(self, named):
        own, lines = iter(named.members), []
        for one in self.book.lines[named]:
            if isinstance(one, Remark):
                lines.append(remark(one.said))
                continue
            member, part = next(own), one[0]
            said = f"name = {quoted(member.name)}, type = {quoted(member.shape.text())}"
            if part is None:
                lines.append(f"{{ {said} }},")
                continue
            words, faults = self.value(part, member.shape, self.begun(member.shape))
            lines += [remark(f"{part.name}: {fault}") for fault in faults]
            comment = spelled(part.comment, LONGEST)
            said += f", initial = {words}" if words else ""
            said += f", bits = {bits_words(part.named)}" if part.named else ""
            lines.append(f"{{ {said}" + (f", comment = {quoted(comment)}" if comment else "") + " },")
        return lines

    def take_type(self, named):
        """Notes with which bytes a structure begins."""
        data, own = bytearray(named.size), iter(named.members)
        for one in self.book.lines.get(named, ()):
            if isinstance(one, Remark):
                continue
            member = next(own)
            begun = self.begun(member.shape)
            begun = self.initial(one[0], member.shape)[0] if one[0] is not None else begun
            data[member.at:member.at + len(begun)] = begun
        if any(data):
            self.defaults[named] = bytes(data)
        self.types.append(named)

    def initial(self, part, shape):
        """The bytes with which a part begins on the controller, and what of them is not carried over: an enumeration begins with its first value."""
        if part.initial is not None:
            return initial_bytes(shape, part.initial, self.begun)
        kind, it = shape.element
        first = it.number_bytes(it.values[0][1]) * shape.count() if kind == "named" and it.base else None
        return first or self.begun(shape), []

    def value(self, part, shape, absent):
        """The initial value in words, None where it is what is there without it; and what of it is not carried over."""
        data, faults = self.initial(part, shape)
        faults = [f"of its initial value is not carried over: {fault}" for fault in faults[:20]]
        if data == absent:
            return None, faults
        words = spare_words(shape, data, self.begun)
        return (words if len(words) <= MOST_VALUE or len(words) < 2 * len(data) else f'"{data.hex()}"'), faults

    # Symbols.

    def symbol(self, part):
        if len(part.name) > LONGEST or not all(is_identifier(word) for word in part.name.split(".")):
            raise NoType("its name is not identifiers joined by full stops")
        if is_bit(part):
            part.text, part.bits, part.at = "BOOL", 8, None
            part.note = part.note or "it is one bit; a byte of its own stands in its place"
        shape = self.book.shape(part)
        fresh, place = self.fresh(shape), self.place(part, shape)
        self.take(part, shape, place)
        for named in fresh:
            self.take_type(named)
        lines = ["", *([remark(f"{part.name}: {part.note}")] if part.note else [])]
        lines += ["[[port.symbol]]", f"name = {quoted(part.name)}", f"type = {quoted(shape.text())}"]
        lines += [f"area = {quoted(part.area)}"] if part.area != "data" else []
        lines += [f"offset = {place}"] if self.offsets and part.at is not None else []
        comment, named = spelled(part.comment, LONGEST), shape.named()
        lines += [f"comment = {quoted(comment)}"] if comment else []
        lines += [f"{key} = true" for key, flag in (("persistent", part.persistent), ("read_only", part.read_only)) if flag]
        absent = named.number_bytes(named.values[0][1]) if named and named.base else self.begun(shape)
        words, faults = self.value(part, shape, absent)
        lines += [remark(f"{part.name}: {fault}") for fault in faults]
        return lines + ([f"initial = {words}"] if words else [])

    def place(self, part, shape):
        """Where the symbol is to stand, as far as it is known here."""
        if self.offsets and part.at is not None:
            if part.at % 8 or part.at < 0:
                raise NoType(f"it stands at bit {part.at}, and a description has no such place")
            return part.at // 8
        return aligned(self.ends[part.area], min(shape.align(), 8))

    def take(self, part, shape, place):
        """Takes the name and the bytes of a symbol, where they are free and there is room."""
        words, end = lower(part.name).split("."), place + shape.size()
        heads = {".".join(words[:count]) for count in range(1, len(words))}
        if lower(part.name) in self.names or lower(part.name) in self.heads or heads & self.names:
            raise NoType("its name, or the name of an earlier symbol, begins with the other")
        upload = 33 + len(part.name) + len(shape.text()) + len(spelled(part.comment, LONGEST))
        if self.count >= MOST_SYMBOLS or self.upload + upload > MOST_UPLOAD:
            raise NoType(f"a port has at most {MOST_SYMBOLS} symbols and {MOST_UPLOAD} bytes of upload")
        taken = self.taken[part.area]
        at = bisect.bisect_left(taken, (place,))
        if any(one[0] < end and place < one[1] for one in taken[max(at - 1, 0):at + 1]):
            raise NoType("its bytes are those of an earlier symbol, too")
        # (eight bytes for each symbol without a place of its own, since another one may stand where it would)
        room = 0 if self.offsets else 8
        if sum(self.ends.values()) - self.ends[part.area] + max(self.ends[part.area], end + room) > IMAGE:
            raise NoType(f"it ends at byte {end}, and a port has {IMAGE} bytes")
        taken.insert(at, (place, end))
        self.ends[part.area] = max(self.ends[part.area], end)
        self.names.add(lower(part.name))
        self.heads |= heads
        self.upload += upload
        self.count += 1
