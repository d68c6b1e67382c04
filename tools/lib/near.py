"""What a mistyped name is likely to mean."""
import difflib
import re

from lib.layout import step_into
from lib.line_values import index_text
from lib.plant import steps_of
from lib.type_texts import lower

ENDS = re.compile(r"[.\[]|$")
ZEROS = re.compile(r"(?<![0-9])0+(?=[0-9])")
LONGEST, CLOSE = 300, 0.75


def without_zeros(name):
    return ZEROS.sub("", lower(name))


def closest(word, names, close=0.6):
    """The name that a word is nearest to, ASCII case aside; None where none is near."""
    names = list(names)
    by_case, spelled = {lower(name): name for name in names}, {without_zeros(name): name for name in names}
    if without_zeros(word) in spelled:
        return by_case.get(lower(word)) or spelled[without_zeros(word)]
    near = [name for name in by_case if 2 * min(len(name), len(word)) >= close * (len(name) + len(word))]
    found = difflib.get_close_matches(lower(word), near, 1, close) if len(word) <= LONGEST else []
    return by_case[found[0]] if found else None


def meant(word, names, shape_of):
    """What a word that names nothing is likely to mean, in words; None where that can't be told. `shape_of` gives
    the type of one of the symbols' names.
    """
    ends = [it.start() for it in ENDS.finditer(word[:LONGEST])][::-1]
    whole = {lower(name): name for name in names}
    for end in ends:
        name = whole.get(lower(word[:end]))
        if name:
            return inside(name, shape_of(name), word[end:])
    found = [(name, word[end:]) for end, name in ((end, closest(word[:end], names, CLOSE)) for end in ends) if name]
    if not found:
        return None
    name, rest = max(found, key=lambda it: difflib.SequenceMatcher(None, lower(word), lower("".join(it))).ratio())
    return (
        f"is {name}{rest} meant?"
        if within(shape_of(name), rest)
        else inside(name, shape_of(name), rest) or f"is {name} meant?"
    )


def meant_in(port, path):
    """The same of a path that is none of a port of a description, behind a semicolon; nothing where that can't be
    told.
    """
    found = meant(path, [part.path for part in port.symbols.values()], lambda name: port.symbols[lower(name)].shape)
    return f"; {found}" if found else ""


def within(shape, rest):
    """Whether a type has the part that the rest of a path names."""
    for step in steps_of("_" + rest)[1:] if rest else []:
        found = step_into(shape, step) if shape else None
        if not found:
            return False
        shape = found[1]
    return not rest or bool(steps_of("_" + rest))


def inside(path, shape, rest):
    """The same of the rest of a path behind the symbol that it begins with."""
    for step in steps_of("_" + rest)[1:]:
        found = step_into(shape, step) if shape else None
        if found:
            path, shape = path + (f".{found[2].name}" if found[2] else f"[{','.join(map(str, step))}]"), found[1]
            continue
        named = shape.named() if shape else None
        if isinstance(step, str) and named and not named.base:
            near = closest(step, [it.name for it in named.members])
            return (
                f"is {path}.{near} meant?" if near else f"{path} has {', '.join(it.name for it in named.members)[:200]}"
            )
        if shape and shape.ends:
            last = index_text(shape.ends, shape.count() - 1)
            return f"{path} is an array, from {path}{index_text(shape.ends, 0)} to {path}{last}"
        return f"{path} has no parts"
    return None
