"""Which symbols of a description stay at a new one: those of the same port and name whose type is the same, member by member."""
from lib.type_texts import lower


def differs(old, new, what="its type"):
    """In words, how a type differs from another; None where they are the same to the server."""
    if old.text() != new.text():
        return f"{what} was {old.text()} and is {new.text()}"
    (kind, it), (_, other) = old.element, new.element
    return named_differ(it, other) if kind == "named" else None


def named_differ(old, new):
    """The same of two named types: an enumeration's base, or a structure's members with their places."""
    if old.base or new.base:
        bases = (old.base or "a structure", new.base or "a structure")
        return None if bases[0] == bases[1] else f"the base of {old.name} was {bases[0]} and is {bases[1]}"
    for before, after in zip(old.members, new.members):
        if lower(before.name) != lower(after.name):
            return f"a member of {old.name} was {before.name} and is {after.name}"
        inner = differs(before.shape, after.shape, f"member {before.name} of {old.name}")
        if inner:
            return inner
        if before.at != after.at:
            return f"member {before.name} of {old.name} lay at byte {before.at} and lies at {after.at}"
    if len(old.members) != len(new.members):
        return f"{old.name} had {len(old.members)} members and has {len(new.members)}"
    return None


def form(shape):
    """The form of a type in a store: its canonical text in small letters, with the members or the base of what it names."""
    kind, it = shape.element
    text = lower(shape.text())
    if kind != "named":
        return text
    inner = f"({lower(it.base)})" if it.base else "{" + "".join(f"{lower(m.name)}:{form(m.shape)};" for m in it.members) + "}"
    return text + inner
