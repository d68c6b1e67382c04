"""The types of a file as a description can hold them: structures with every member at its place, enumerations, and what stands in the place of the others."""
import re

from lib.import_bits import with_bytes
from lib.layout import Named, Shape, aligned
from lib.rules_types import DEEPEST, LIMIT, MOST_PARTS, name_fault
from lib.type_book import TypeBook
from lib.type_meant import ARRAY, BOUND, STANDING, tidy
from lib.type_texts import BASES, WORDS, NoType, lower, read_type

# Plain types of controllers whose bytes are those of another one, by their size: of a controller of 64 bits where the file does not say it.
SIZED = {"XINT": ("DINT", "LINT"), "UXINT": ("UDINT", "ULINT"), "XWORD": ("DWORD", "LWORD")}
UNSIGNED = {"BYTE": "USINT", "WORD": "UINT", "DWORD": "UDINT", "LWORD": "ULINT"}
SUBRANGE = re.compile(r"([A-Za-z]+)\s*\(\s*[^()]*\.\.[^()]*\)")
NONE = re.compile(r"(pointer to|reference to|wstring|wchar|pvoid|interface|bit$)", re.IGNORECASE)


class Remark:
    """What could not be carried over, at its place among the members of a structure."""

    def __init__(self, said):
        self.said = said


class ImportTypes:
    """`lines` has for each structure that was made its members and remarks in their order; `notes` are sentences about a type, by its name; `aliases` are
    sentences on what stands in the place of a type, by its name."""

    def __init__(self, given):
        self.given, self.built, self.lines, self.notes, self.aliases = given, {}, {}, {}, {}

    def note(self, key, said):
        self.notes.setdefault(key, {})[said] = None

    def shape(self, part):
        """The shape of a symbol or a member; a NoType where a description can't hold it."""
        if part.why:
            raise NoType(part.why)
        shape = self.named_by(part.text, part.ends, part.bits, part)
        if part.bits is not None and part.bits != 8 * shape.size():
            raise NoType(f"it has {size_words(part.bits)}, and {shape.text()} has {shape.size()} bytes")
        if shape.count() > LIMIT or shape.size() > LIMIT:
            raise NoType(f"it has {shape.size()} bytes, more than {LIMIT}")
        return shape

    def named_by(self, said, ends, bits, part):
        bounds, said = split(said)
        subrange = SUBRANGE.fullmatch(said)
        if subrange:
            part.note = part.note or f"the range of {said} is not kept, {subrange[1].upper()} stands here"
            said = subrange[1]
        if NONE.match(said):
            raise NoType(f"{said} is no type of a description")
        _, (kind, it) = read_type(tidy(said, []) or said.rpartition(".")[2])
        ends = checked([*ends, *bounds])
        return joined(ends, self.of_name(it, part, bits and bits // Shape(ends, None).count()) if kind == "named" else Shape([], (kind, it)))

    def of_name(self, name, part, bits):
        """The type of a name, or what stands in its place."""
        key, kind, word = name.lower(), self.given.kinds.get(name.lower()), STANDING.get(name.upper())
        if kind is None and name.upper() in SIZED:
            word = SIZED[name.upper()][0 if bits == 32 else 1]
        if kind is None and word:
            part.note = part.note or f"{name.upper()} is no type of a description: {word} stands here, with its number"
            return Shape([], ("plain", word))
        if kind is None:
            raise NoType(f"the file has no type {name}")
        if key not in self.built:
            self.built[key] = NoType("it contains itself")
            try:
                self.built[key] = self.made(kind)
            except NoType as fault:
                self.built[key] = fault
        made = self.built[key]
        if isinstance(made, NoType):
            raise NoType(f"the type {name} can't be held: {made}")
        part.note = part.note or self.aliases.get(key)
        return made

    def made(self, kind):
        if kind.why:
            raise NoType(kind.why)
        fault = name_fault(kind.name) or (f"{kind.name} is a word of type texts" if kind.name.upper() in WORDS else None)
        parts = self.parts_of(kind)
        if parts:
            if fault:
                raise NoType(fault)
            if kind.note:
                self.note(kind.name, kind.note)
            return Shape([], ("named", self.structure(kind, parts)))
        if kind.values:
            return self.enumeration(kind, fault)
        alias = Alias()
        shape = self.named_by(kind.base, kind.ends, kind.bits, alias)
        self.aliases[kind.name.lower()] = alias.note
        return shape

    def parts_of(self, kind):
        """The parts of a structure, those of the one that it extends first."""
        found, seen = list(kind.parts), {kind.name.lower()}
        while kind.extends and kind.extends.rpartition(".")[2].lower() not in seen:
            kind = self.given.kinds.get(kind.extends.rpartition(".")[2].lower())
            if kind is None:
                break
            seen.add(kind.name.lower())
            first = next((part.at for part in found if part.at is not None), None)
            if first is None or kind.bits is None or first >= kind.bits:
                found = list(kind.parts) + found
        return found

    def enumeration(self, kind, fault):
        base = UNSIGNED.get(kind.base.upper(), kind.base.upper())
        if base not in BASES and kind.bits in (8, 16, 32, 64):
            base = {8: "SINT", 16: "INT", 32: "DINT", 64: "LINT"}[kind.bits]
        if base not in BASES:
            raise NoType(f"{kind.base or 'nothing'} is no base of an enumeration")
        names, numbers = [lower(name) for name, _ in kind.values], [number for _, number in kind.values]
        low, high = BASES[base]
        odd = any(name_fault(name) for name, _ in kind.values) or any(number is None or not low <= number <= high for number in numbers)
        if fault or odd or len(set(names)) < len(names) or len(set(numbers)) < len(numbers) or len(names) > MOST_PARTS:
            self.aliases[kind.name.lower()] = f"the values of {kind.name} can't be held (a name or a number is none, or stands twice): {base} stands here"
            return Shape([], ("plain", base))
        if base != kind.base.upper():
            self.note(kind.name, f"the base {kind.base or 'of ' + size_words(kind.bits)} is {base} here")
        return Shape([], ("named", Named.enumeration(kind.name, base, kind.values)))

    def structure(self, kind, parts):
        """Each member at the place that the file says: bytes stand where one is left out, or where the file leaves some."""
        members, lines, seen, end = [], [], set(), 0
        for part in with_bytes(parts):
            try:
                shape = self.member(part, seen)
                at = aligned(end, min(shape.align(), 8))
                if part.at is not None and part.at != 8 * at:
                    end = filled_to(members, lines, seen, end, part, at)
                    at = aligned(end, min(shape.align(), 8))
            except NoType as fault:
                lines.append(Remark(f"left out: {part.name} ({part.text or 'no type'}): {fault}"))
                continue
            if part.at is not None and part.at != 8 * at:
                raise NoType(f"its member {part.name} stands at bit {part.at}, where a description can't put {shape.text()}: it is packed")
            if part.note:
                lines.append(Remark(f"{part.name}: {part.note}"))
            seen.add(lower(part.name))
            members.append((part.name, shape, ""))
            lines.append((part, shape))
            end = at + shape.size()
        return self.closed(kind, members, lines, seen, end)

    def closed(self, kind, members, lines, seen, end):
        size = kind.bits // 8 if kind.bits is not None and kind.bits % 8 == 0 else None
        if not members:
            raise NoType("it has no member that a description can hold")
        if size is not None and Named.structure(kind.name, members).size < size:
            TypeBook.filled(members, seen, end, size)
            lines.append((None, members[-1]))
        named = Named.structure(kind.name, members)
        if (size is not None and named.size != size) or named.size > LIMIT or named.depth > DEEPEST or len(members) > MOST_PARTS:
            raise NoType(f"the file gives it {size} bytes, and a description {named.size} bytes in {len(members)} members, nested {named.depth} deep")
        self.lines[named] = lines
        return named

    def member(self, part, seen):
        why = name_fault(part.name) or ("an earlier member has its name" if lower(part.name) in seen else None)
        if why or (part.at is not None and part.at % 8):
            raise NoType(why or f"it stands at bit {part.at}, and a description has no bits")
        return self.shape(part)


class Alias:
    """Asked for in the place of a part: what is noted on it is a matter of each part that has it."""
    note = None


def filled_to(members, lines, seen, end, part, natural):
    """Bytes as a member, from the end of the one before up to the place of a part that stands behind its natural one; the new end."""
    if part.at < 8 * end or part.at % 8 or (part.at < 8 * natural):
        raise NoType(f"it stands at bit {part.at}, on bytes of the member before it, or packed")
    TypeBook.filled(members, seen, end, part.at // 8)
    lines.append((None, members[-1]))
    return part.at // 8


def joined(ends, shape):
    """An array of what may be an array itself: one of as many dimensions."""
    return Shape(checked([*ends, *shape.ends]), shape.element) if ends else shape


def checked(ends):
    if len(ends) > 3 or any(low > high or not -2 ** 31 <= low or high >= 2 ** 31 for low, high in ends):
        raise NoType("its dimensions are not one to three pairs of a least and a greatest index")
    return ends


def size_words(bits):
    return f"{bits // 8} bytes" if bits % 8 == 0 else f"{bits} bits"


def split(text):
    """The dimensions of a text, and the text of its element: an array of arrays is one array."""
    it = ARRAY.fullmatch(text)
    if not it:
        return [], text.strip()
    bounds = [BOUND.fullmatch(bound) for bound in it[1].split(",")]
    if not all(bounds):
        raise NoType(f"the dimensions [{it[1]}] are not numbers l..u")
    inner, element = split(it[2])
    return [(int(bound[1]), int(bound[2])) for bound in bounds] + inner, element
