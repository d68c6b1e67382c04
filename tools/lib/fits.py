"""What of a value a changed type takes: members by their names, elements by their indexes, and numbers, texts and
names where they fit.
"""
from lib.kept import differs
from lib.layout import Shape
from lib.line_values import index_text
from lib.value_json import NoValueOf, bytes_of, json_of, text_of
from lib.value_parts import Part, differing


class Fit:
    """`parts` are of the new type; `left` are triples of a path, why its value stays behind and the value; `rounded`
    are sentences.

    With `base`, bytes of the old type, only what differs from these is taken.
    """

    def __init__(self, data, base=None):
        self.data, self.base, self.parts, self.left, self.rounded = data, base, [], [], []

    def take(self, path, old, new, at=0, to=0):
        """Takes the part of the value at `at`, which gets the place `to`."""
        size = old.size()
        if self.base is not None and self.data[at : at + size] == self.base[at : at + size]:
            return self
        if differs(old, new) is None:
            self.same(Part(path, new, to, self.data[at : at + size]), at)
        elif old.ends or new.ends:
            self.elements(path, old, new, at, to)
        elif is_structure(old) and is_structure(new):
            self.members(path, old.named(), new.named(), at, to)
        elif is_structure(old) or is_structure(new):
            self.leave(path, old, at, f"its type was {old.text()} and is {new.text()}")
        else:
            self.plain(path, old, new, at, to)
        return self

    def same(self, part, at):
        if self.base is None:
            self.parts.append(part)
            return
        base = self.base[at : at + len(part.data)]
        self.parts += [new._replace(at=new.at + part.at) for new, _ in differing(part._replace(at=0), base)]

    def leave(self, path, shape, at, why):
        data = self.data[at : at + shape.size()]
        if self.base is None or data != self.base[at : at + shape.size()]:
            self.left.append((path, why, json_of(shape, data)))

    def elements(self, path, old, new, at, to):
        if len(old.ends) != len(new.ends):
            return self.leave(path, old, at, f"its type was {old.text()} and is {new.text()}")
        inner, other, places = old.of_element(), new.of_element(), {ends: place for place, ends in indexes(new)}
        for place, ends in indexes(old):
            own, start = path + index_text(old.ends, place), at + place * inner.size()
            if ends in places:
                self.take(own, inner, other, start, to + places[ends] * other.size())
            else:
                self.leave(own, inner, start, f"{path} is {new.text()} now")
        return None

    def members(self, path, old, new, at, to):
        for own in old.members:
            other = new.member(own.name)
            if other:
                self.take(f"{path}.{other.name}", own.shape, other.shape, at + own.at, to + other.at)
            else:
                self.leave(f"{path}.{own.name}", own.shape, at + own.at, f"{new.name} has no such member now")

    def plain(self, path, old, new, at, to):
        data = self.data[at : at + old.size()]
        try:
            taken = converted(old, new, data)
        except NoValueOf as fault:
            return self.leave(path, old, at, str(fault))
        before, after = text_of(json_of(old, data)), text_of(json_of(new, taken))
        if is_real(old) and is_real(new) and before != after:
            self.rounded.append(f"{path}: {before} becomes {after}")
        self.parts.append(Part(path, new, to, taken))
        return None


def is_structure(shape):
    named = shape.named()
    return bool(named) and not named.base


def is_real(shape):
    return shape.element in (("plain", "REAL"), ("plain", "LREAL"))


def indexes(shape):
    """The places of the elements of an array, each with its indexes."""
    found = [()]
    for low, high in shape.ends:
        found = [(*one, index) for one in found for index in range(low, high + 1)]
    return enumerate(found)


def converted(old, new, data):
    """The bytes of a plain value, a text or a value of an enumeration in another type; a NoValueOf where it does not
    fit.
    """
    (kind, it), (other, most) = old.element, new.element
    if (kind == "text") != (other == "text"):
        raise NoValueOf(f"its type was {old.text()} and is {new.text()}")
    if kind == "text":
        text = data.split(b"\0")[0]
        if len(text) > most:
            raise NoValueOf(f"the text has {len(text)} letters, and {new.text()} holds {most}")
        return text.ljust(most + 1, b"\0")
    if kind == "named":
        # (a value whose name is gone goes by its number)
        try:
            if other == "named":
                return bytes_of(new, json_of(old, data))
        except NoValueOf:
            pass
        old = Shape([], ("plain", it.base))
    elif it == "TIME" and most != "TIME":
        old = Shape([], ("plain", "UDINT"))
    return bytes_of(new, json_of(old, data))
