"""Description rules 6 to 8: the names of types, their parts, and their sizes. Each gives all broken items in order, with what is broken there."""
import re

from lib.layout import Named
from lib.letters import spelled
from lib.rules_nets import near
from lib.shown import shown
from lib.type_meant import element_in, type_meant
from lib.type_texts import BASES, WORDS, NoType, is_identifier, lower

LONGEST, MOST_TYPES, MOST_PARTS, LIMIT, DEEPEST = 255, 1000, 1000, 1048576, 16


def name_fault(name):
    """Why a text is no identifier of at most 255 bytes; None where it is one."""
    if not is_identifier(name):
        return f"{shown(name)} is no identifier: a letter or _, and then letters, digits and _"
    return f"the name has {len(name)} bytes, more than {LONGEST}" if len(name) > LONGEST else None


def name_meant(name):
    """An identifier like a text that is none."""
    word = re.sub("[^A-Za-z0-9_]+", "_", name.strip())[:LONGEST]
    word = word if is_identifier(word) else "_" + word[:LONGEST - 1]
    return f"as {word}" if re.search("[A-Za-z0-9]", word) else None


def comment_fault(text):
    """Why a text is no comment of at most 255 printable bytes; None where it is one."""
    if len(text.encode()) > LONGEST:
        return f"the comment has {len(text.encode())} bytes, more than {LONGEST}"
    odd = next((letter for letter in text if not " " <= letter <= "~"), None)
    return f"the comment has the character {shown(odd)}, which is not from a space to a tilde" if odd else None


def comment_meant(text):
    return f'as "{spelled(text, LONGEST)}"' if len(text) < 80 else None


def wrong_type_name(d):
    seen = {}
    for place, it in enumerate(d["type"][:MOST_TYPES + 1]):
        name = it["name"]
        why = name_fault(name) if name is not None else None
        if why or (name is not None and name.upper() in WORDS):
            yield place, it.broken("name", why or f"{name} is a word of type texts", None, name_meant(name) if why else f"as {name}_")
        elif name is not None and lower(name) in seen:
            yield place, it.broken("name", "an earlier type has the name, ASCII case aside", seen[lower(name)], "give one of them another name")
        elif place == MOST_TYPES:
            yield place, it.broken("name", f"it is type {place + 1} of {len(d['type'])}", None, f"there are at most {MOST_TYPES}")
        elif name is not None:
            seen[lower(name)] = it


def wrong_part(d, types):
    """Fills `types` with the types of the document, each as far as it is right."""
    members, place, later = {}, 0, {lower(it["name"]): it for it in d["type"] if it["name"] is not None}
    for it in d["type"]:
        for broken in wrong_count(it) if it.kind == "structure" else wrong_values(it):
            yield 0, broken
    for it in d["type"]:
        if it.kind == "enumeration":
            add_enumeration(it, types)
            continue
        for broken_place, broken in members_of(it, types, members, later):
            yield place + broken_place, broken
        place += len(it["member"])
        add_structure(it, types, members.pop(it))


def add_enumeration(it, types):
    base, name = it["base"], it["name"] if it["name"] is not None else ""
    values = [(value["name"], value["number"]) for value in it["value"] if None not in (value["name"], value["number"])]
    known = base is not None and base.isascii() and base.upper() in BASES
    types.add(Named.enumeration(name, base.upper(), values) if known else None, name, bool(known and right_values(it)))


def right_values(it):
    return "value" not in it.lost and all(not value.lost for value in it["value"]) and next(iter(wrong_values(it)), None) is None


def add_structure(it, types, members):
    known = members and all(member[1] for member in members) and "member" not in it.lost
    name = it["name"] if it["name"] is not None else ""
    types.add(Named.structure(name, members) if known else None, name, known)


def wrong_count(it):
    count = len(it["member"])
    if "member" not in it.lost and not 1 <= count <= MOST_PARTS:
        yield it.broken("member", f"there are {count} members", None, f"a structure has 1 to {MOST_PARTS}")


def wrong_values(it):
    count, base = len(it["value"]), it["base"]
    if "value" not in it.lost and not 1 <= count <= MOST_PARTS:
        yield it.broken("value", f"there are {count} values", None, f"an enumeration has 1 to {MOST_PARTS}")
    if base is not None and (not base.isascii() or base.upper() not in BASES):
        yield it.broken("base", f"{shown(base)} is none of {', '.join(BASES)}", None, near(base, BASES))
        base = None
    names, numbers = {}, {}
    for value in it["value"]:
        yield from value_faults(value, base.upper() if base else None, names, numbers)
        if value["name"] is not None:
            names.setdefault(lower(value["name"]), value)
        if value["number"] is not None:
            numbers.setdefault(value["number"], value)


def value_faults(value, base, names, numbers):
    name, number = value["name"], value["number"]
    why = name_fault(name) if name is not None else None
    if why:
        yield value.broken("name", why, None, name_meant(name))
    elif name is not None and lower(name) in names:
        yield value.broken("name", "an earlier value has the name, ASCII case aside", names[lower(name)], "give one of them another name")
    if number is not None and base and not BASES[base][0] <= number <= BASES[base][1]:
        yield value.broken("number", f"{number} is no number of {base}, {BASES[base][0]} to {BASES[base][1]}", None, base_for(number))
    elif number in numbers:
        yield value.broken("number", f"an earlier value has the number {number}", numbers[number], f"{next_free(numbers)} is free")


def base_for(number):
    fitting = [base for base, (least, greatest) in BASES.items() if least <= number <= greatest]
    return f"{fitting[0]} holds it" if fitting else None


def next_free(numbers):
    number = max(numbers) + 1
    return number if number < 2 ** 63 else next(it for it in range(len(numbers) + 1) if it not in numbers)


def members_of(it, types, members, later):
    """The places of the broken members of a structure, and what is broken there. `members` gets for `it` triples of name, shape and comment; the shape is None
    where it is not known. `later` are all types of the description."""
    seen, found = {}, members.setdefault(it, [])
    for place, member in enumerate(it["member"]):
        name, comment = member["name"], member["comment"]
        why, what = name_fault(name) if name is not None else None, comment_fault(comment) if comment is not None else None
        if why:
            yield place, member.broken("name", why, None, name_meant(name))
        if what:
            yield place, member.broken("comment", what, None, comment_meant(comment))
        if not why and name is not None and lower(name) in seen:
            yield place, member.broken("name", "an earlier member has the name, ASCII case aside", seen[lower(name)], "give one of them another name")
        try:
            found.append((name or "", types.shape(member["type"]) if member["type"] is not None else None, comment or ""))
        except NoType as fault:
            found.append((name or "", None, ""))
            yield place, member.broken("type", str(fault), None, first_meant(it, member["type"], types, later))
        if name is not None:
            seen.setdefault(lower(name), member)


def first_meant(it, text, types, later):
    """What would be right in place of a type that is none before this one."""
    other = later.get(lower(element_in(text)))
    if other is None:
        return lambda: type_meant(text, types.names())
    return "a structure can't contain itself" if other is it else f"put {other.who} before this one"


def wrong_size(d, types):
    for place, (it, named) in enumerate(zip(d["type"], types.listed)):
        if named is None:
            continue
        for entry, member in zip(it["member"] if it.kind == "structure" else [], named.members):
            if member.shape.count() > LIMIT:
                yield place, entry.broken("type", f"the array has {member.shape.count()} elements", None, f"at most {LIMIT}")
        if named.size > LIMIT:
            yield place, it.broken("member", f"the structure has {named.size} bytes", None, f"at most {LIMIT}")
        if named.depth > DEEPEST:
            yield place, it.broken("member", f"structures are nested {named.depth} deep", None, f"at most {DEEPEST}")
