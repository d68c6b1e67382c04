"""The parts of a symbol that a value gives: the members and elements that it names, each with its bytes, and what of
them differs.
"""
import itertools
from functools import lru_cache
from typing import NamedTuple

from lib.layout import Shape
from lib.line_values import index_text
from lib.near import closest
from lib.value_json import NoValueOf, Raw, bytes_of, json_of, text_of, value_in
from lib.value_words import FLOATS


class Part(NamedTuple):
    """A part: its path, its type, its place in the symbol, and the bytes that it is given."""

    path: str
    shape: Shape
    at: int
    data: bytes

    def said(self):
        return text_of(json_of(self.shape, self.data))


def is_simple(shape):
    """Whether the elements of an array have no parts."""
    kind, it = shape.element
    return kind != "named" or bool(it.base)


def parts_of(path, shape, value, at=0):
    """The parts that a value gives: of an object the members that it names, of a list its elements, but for those in
    whose place null stands.
    """
    if isinstance(value, Raw):
        try:
            value = value_in(shape, str(value))
        except NoValueOf as fault:
            raise NoValueOf(f"{path}: {fault}") from None
    named = shape.named()
    if shape.ends and isinstance(value, dict) and list(value) == ["each"]:
        value = [value["each"]] * shape.count()
    if shape.ends and isinstance(value, list):
        return elements(path, shape, value, at)
    if isinstance(value, dict) and named and not named.base:
        return members(path, named, value, at)
    try:
        return [Part(path, shape, at, bytes_of(shape, value))]
    except NoValueOf as fault:
        raise NoValueOf(f"{path}: {fault}") from None


def members(path, named, value, at):
    found, seen = [], set()
    for name, inner in value.items():
        member = named.member(name)
        if member is None:
            near = closest(name, [own.name for own in named.members])
            right = f"is {near} meant?" if near else f"it has {', '.join(own.name for own in named.members)[:200]}"
            raise NoValueOf(f"{path}: {named.name} has no member {name!r}; {right}")
        if member in seen:
            raise NoValueOf(f"{path}: the member {member.name} stands there twice")
        seen.add(member)
        found += parts_of(f"{path}.{member.name}", member.shape, inner, at + member.at)
    return found


def elements(path, shape, value, at):
    inner = shape.of_element()
    size, places = inner.size(), list(places_of(path, shape, value, shape.ends))
    # (a text in a list of numbers may be NaN)
    if (
        is_simple(shape)
        and len(places) == shape.count()
        and not any(one is None or (isinstance(one, str) and shape.element[1] in FLOATS) for _, one in places)
    ):
        return whole(path, shape, [one for _, one in places], at)
    found = []
    for place, one in places:
        if one is not None:
            found += parts_of(path + index_text(shape.ends, place), inner, one, at + place * size)
    return found


def whole(path, shape, values, at):
    """All elements of an array as one part."""
    try:
        return [Part(path, shape, at, bytes_of(shape, values))]
    except NoValueOf as fault:
        raise NoValueOf(f"{path}: {fault}") from None


def places_of(path, shape, value, ends):
    """The elements of a list, or of a list of lists, each with its place in the array."""
    inner = Shape(ends[1:], shape.element).count()
    if len(ends) == 1 or not any(isinstance(one, list) for one in value):
        check_length(path, shape, value, inner * (ends[0][1] - ends[0][0] + 1), "elements")
        yield from enumerate(value)
        return
    check_length(path, shape, value, ends[0][1] - ends[0][0] + 1, "rows")
    for row, one in enumerate(value):
        if one is not None and not isinstance(one, list):
            raise NoValueOf(
                f"{path}: row {row + 1} of {shape.text()} is a list or null, and {text_of(one)[:80]} stands there"
            )
        for place, own in places_of(path, shape, one or [], ends[1:]):
            yield row * inner + place, own


def check_length(path, shape, value, most, what):
    if len(value) > most:
        where = shape.text() if what == "rows" or most == shape.count() else f"a row of {shape.text()}"
        raise NoValueOf(f"{path}: {where} has {most} {what}, and {len(value)} stand there; leave the others out")


def differing(part, now):
    """Those plain parts of a part that have other bytes in the symbol now, each beside the part as it is."""
    if now[part.at : part.at + len(part.data)] == part.data:
        return
    kind, it = part.shape.element
    if part.shape.ends:
        inner = part.shape.of_element()
        size = inner.size()
        inside = ((index_text(part.shape.ends, place), inner, place * size) for place in range(part.shape.count()))
    elif kind == "named" and not it.base:
        inside = ((f".{own.name}", own.shape, own.at) for own in it.members)
    else:
        yield part, part._replace(data=now[part.at : part.at + len(part.data)])
        return
    for step, shape, at in inside:
        yield from differing(Part(part.path + step, shape, part.at + at, part.data[at : at + shape.size()]), now)


@lru_cache(maxsize=4096)
def named_bytes(named):
    return named.size if named.base else sum(bytes_in(own.shape) for own in named.members)


def bytes_in(shape):
    """The bytes of a type that members and elements have, without those that fill it."""
    kind, it = shape.element
    return shape.count() * (named_bytes(it) if kind == "named" else shape.of_element().size())


def joined(path, shape, parts, at=0):
    """The same bytes in the fewest parts: what is given whole is one. `parts` are of one symbol, in the order of
    their places, and share no byte.
    """
    if len(parts) < 2:
        return parts
    if sum(bytes_in(part.shape) for part in parts) == bytes_in(shape):
        data = bytearray(shape.size())
        for part in parts:
            data[part.at - at : part.at - at + len(part.data)] = part.data
        return [Part(path, shape, at, bytes(data))]
    found, size = [], shape.of_element().size()
    named = shape.named()

    def child(part):
        return (
            (part.at - at) // size
            if shape.ends
            else next(it for it in reversed(named.members) if it.at <= part.at - at)
        )

    for it, group in itertools.groupby(parts, child):
        if shape.ends:
            found += joined(path + index_text(shape.ends, it), shape.of_element(), list(group), at + it * size)
        else:
            found += joined(f"{path}.{it.name}", it.shape, list(group), at + it.at)
    return found
