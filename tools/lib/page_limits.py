"""The words of a page at the values of a table, and the limits of what the page writes."""
from lib.page_words import number_of
from lib.type_texts import lower
from lib.values import NoValue


def dress(table, words):
    """Gives the values of a table what the page shows beside them."""
    places = {}
    for symbol in table.symbols:
        own, symbol.section = words.of_symbol(symbol.port, symbol.name)
        dress_node(table, words, symbol.node, own, places)


def dress_node(table, words, node, own, places):
    if node.leaf is not None:
        # (a server may have another type than the description)
        if own and own.type == node.shape.text():
            if own not in places:
                places[own] = len(places)
                table.all_words.append(own)
            table.words[node.leaf], node.words = own, places[own]
        return
    named = node.shape.named()
    for part in node.parts:
        it = words.members.get((lower(named.name), lower(part.name[1:]))) if named else own
        dress_node(table, words, part, it, places)


def for_page(words):
    """Words as the page gets them; what is not said is left out."""
    it = {
        "u": words.unit,
        "min": words.least,
        "max": words.most,
        "low": words.low,
        "high": words.high,
        "alarm": words.alarm,
        "at": [str(value) if type(value) is int else value for value, _ in words.at],
        "bits": [[bit.number, bit.name, bit.is_alarm, bit.at] for bit in words.bits],
    }
    it = {key: value for key, value in it.items() if value not in ("", None, [])}
    return {key: str(value) if type(value) is int and abs(value) >= 2**53 else value for key, value in it.items()}


def number_text(value, words):
    """A number with its unit."""
    said = f"{value:.7g}" if words.type == "REAL" else str(value)
    return f"{said} ms" if words.type == "TIME" else f"{said} {words.unit}".rstrip()


def see_within(leaf, words, data):
    """Sees that the bytes of a value are within its limits; a NoValue that says which limit it passes."""
    if words is None or (words.least is None and words.most is None):
        return data
    value = number_of(leaf.shape.element[1], data)
    said = number_text(value, words)
    if value != value:
        raise NoValue(f"{leaf.path} has limits, and {said} is no number")
    if words.least is not None and value < words.least:
        raise NoValue(
            f"{said} is below {number_text(words.least, words)}, the least that may be written to {leaf.path} here"
        )
    if words.most is not None and value > words.most:
        raise NoValue(
            f"{said} is above {number_text(words.most, words)}, the greatest that may be written to {leaf.path} here"
        )
    return data
