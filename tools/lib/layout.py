"""Where the parts of types lie: sizes, alignments and canonical texts over a list of named types."""
from lib.shown import shown
from lib.type_texts import PLAIN, TEXT_ID, WHOLE_ID, NoType, lower, read_type


class Shape:
    """A type that a text names: dimensions, and an element that is a plain type, a text or a named type.

    `element` is ("plain", word), ("text", n) or ("named", the Named itself).
    """

    def __init__(self, ends, element):
        self.ends, self.element = ends, element

    def count(self):
        """The number of elements; 1 where it is no array."""
        count = 1
        for low, high in self.ends:
            count *= high - low + 1
        return count

    def of_element(self):
        return Shape([], self.element)

    def is_plain(self):
        return not self.ends and self.element[0] == "plain"

    def named(self):
        """The structure or enumeration that this is, itself and no array of it."""
        return self.element[1] if not self.ends and self.element[0] == "named" else None

    def size(self):
        kind, it = self.element
        return self.count() * (PLAIN[it][0] if kind == "plain" else it + 1 if kind == "text" else it.size)

    def align(self):
        kind, it = self.element
        return PLAIN[it][0] if kind == "plain" else 1 if kind == "text" else it.align

    def depth(self):
        return self.element[1].depth if self.element[0] == "named" else 0

    def type_id(self):
        kind, it = self.element
        if self.ends:
            return WHOLE_ID
        return PLAIN[it][1] if kind == "plain" else TEXT_ID if kind == "text" else it.type_id

    def text(self):
        """The canonical text."""
        kind, it = self.element
        word = it if kind == "plain" else f"STRING({it})" if kind == "text" else it.name
        return f"ARRAY [{','.join(f'{low}..{high}' for low, high in self.ends)}] OF {word}" if self.ends else word


class Member:
    def __init__(self, name, shape, comment, at):
        self.name, self.shape, self.comment, self.at = name, shape, comment, at


class Named:
    """A structure with its members and their places, or an enumeration with its base and its values, pairs of a name and a number."""

    def __init__(self, name):
        self.name, self.base, self.values, self.members = name, None, [], []
        self.size, self.align, self.depth, self.type_id = 0, 1, 1, WHOLE_ID

    @staticmethod
    def enumeration(name, base, values):
        it = Named(name)
        it.base, it.values, it.depth = base, values, 0
        it.size = it.align = PLAIN[base][0]
        it.type_id = PLAIN[base][1]
        return it

    @staticmethod
    def structure(name, members):
        """`members` are triples of a name, a shape and a comment."""
        it, end = Named(name), 0
        for own, shape, comment in members:
            at = aligned(end, min(shape.align(), 8))
            it.members.append(Member(own, shape, comment, at))
            end, it.align, it.depth = at + shape.size(), max(it.align, shape.align()), max(it.depth, 1 + shape.depth())
        it.size = aligned(end, it.align)
        return it

    def number_bytes(self, number):
        return (number % 2 ** (8 * self.size)).to_bytes(self.size, "little")

    def member(self, name):
        return next((it for it in self.members if lower(it.name) == lower(name)), None)


def aligned(at, unit):
    return -(-at // unit) * unit


class NamedTypes:
    """Named types, found by their names, ASCII case aside. In the place of one whose layout is not known stands None."""

    def __init__(self):
        self.listed, self.found, self.whole = [], {}, set()

    def add(self, named, name=None, whole=True):
        """`whole` says that all of the type is known: of an enumeration its values, too."""
        self.listed.append(named)
        self.found.setdefault(lower(named.name if name is None else name), named)
        if whole:
            self.whole.add(named)

    def names(self):
        return [named.name for named in self.listed if named and named.name]

    def shape(self, text):
        """The type that a text names, None where its layout is not known; a NoType where there is none."""
        ends, (kind, it) = read_type(text)
        if kind != "named":
            return Shape(ends, (kind, it))
        named = self.found.get(lower(it))
        if lower(it) not in self.found:
            raise NoType(f"there is no type {shown(it)} before it")
        return Shape(ends, ("named", named)) if named else None


def step_into(shape, step):
    """The part of a type that a step of a path leads to: its place, its shape and its member, if it is one; None where it leads nowhere.

    A step is a name, or a tuple of one to three indexes.
    """
    if isinstance(step, str):
        named = shape.named()
        member = named.member(step) if named else None
        return (member.at, member.shape, member) if member else None
    if len(step) != len(shape.ends) or not shape.ends:
        return None
    place = 0
    for (low, high), index in zip(shape.ends, step):
        if not low <= index <= high:
            return None
        place = place * (high - low + 1) + index - low
    inner = shape.of_element()
    return place * inner.size(), inner, None


def part_at(shape, at, size):
    """The steps to the outermost part of a type that has exactly these bytes, as text; None where no part has."""
    path = ""
    while (at, size) != (0, shape.size()):
        if shape.ends:
            inner = shape.of_element()
            place, at = divmod(at, inner.size())
            indexes = []
            for low, high in reversed(shape.ends):
                place, own = divmod(place, high - low + 1)
                indexes.insert(0, low + own)
            path, shape = path + f"[{','.join(map(str, indexes))}]", inner
        else:
            named = shape.named()
            member = next((it for it in named.members if it.at <= at < it.at + it.shape.size()), None) if named else None
            if member is None:
                return None
            path, at, shape = path + "." + member.name, at - member.at, member.shape
        if at + size > shape.size():
            return None
    return path, shape
