"""Recipes of a page: an array of structures, of which one is written whole."""
from lib.page_limits import see_within
from lib.typed_in import typed_bytes
from lib.values import NoValue


class BadParts(NoValue):
    """Values of a structure that are none: sentences by their paths in it."""

    def __init__(self, faults):
        first = next(iter(faults))
        more = f", and {len(faults) - 1} more" if len(faults) > 1 else ""
        super().__init__(f"{first}: {faults[first]}{more}")
        self.faults = faults


def is_recipes(shape):
    """Whether a type is an array of structures."""
    return bool(shape.ends) and shape.element[0] == "named" and not shape.element[1].base


def element_bytes(table, element, texts):
    """The bytes of a structure with what was typed; what was not stays, and so do bytes of no member."""
    given, faults = bytearray(element.symbol.data[element.at : element.at + element.size]), {}
    for path, text in texts.items():
        number = element.values.get(path)
        if number is None:
            faults[path] = "there is no such value"
            continue
        leaf = table.leaves[number]
        try:
            given[leaf.at - element.at : leaf.at - element.at + leaf.size] = see_within(
                leaf, table.words.get(number), typed_bytes(leaf, text)
            )
        except NoValue as fault:
            faults[path] = str(fault)
    if faults:
        raise BadParts(faults)
    return bytes(given)
