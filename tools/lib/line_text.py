"""A description as text: one key a line, each table with the comments that it had, and every hexadecimal value with what it is in words."""
import textwrap

from lib.letters import quoted
from lib.line_comments import MEANS, WRITTEN
from lib.line_values import index_text
from lib.rules_ports import AREAS
from lib.value_words import words_of
from lib.verdict import LONGEST

WIDTH, BESIDE, MOST_BYTES, MOST_LINES = 150, 90, 20000, 60


def description_text(d, types, shapes, comments, name):
    """The text; where it is too long with the values in words, without them."""
    for words in (True, False):
        writing = Writing(comments, words)
        writing.document(d, types, shapes, name)
        text = "".join(line + "\n" for line in writing.lines)
        if len(text.encode()) <= LONGEST:
            return text
    return text


class Writing:
    def __init__(self, comments, words):
        self.comments, self.words, self.lines = comments, words, []

    def document(self, d, types, shapes, name):
        said = "".join(letter if " " <= letter <= "~" else "?" for letter in name)
        self.lines += [f"{WRITTEN}from {said}: change that, and build again.", *self.comments.first, ""]
        self.pair(d, "schema", str(d["schema"]))
        self.pair(d, "net", quoted(d["net"]))
        for route in d["route"]:
            self.header(route, "[[route]]")
            self.pair(route, "net", quoted(route["net"]))
            self.pair(route, "rights", quoted(route["rights"]))
        for it, named in zip(d["type"], types.listed):
            self.type(it, named)
        for port in d["port"]:
            self.port(port, shapes)
        self.lines += ["", *self.comments.last] if self.comments.last else []

    def header(self, entry, text):
        self.lines += ["", *self.comments.above.pop((entry, None), []), joined(text, self.comments.behind.pop((entry, None), []))]

    def pair(self, entry, key, said, words=None):
        self.lines += self.comments.above.pop((entry, key), [])
        self.lines.append(joined(f"{key} = {said}", ([MEANS + words] if words else []) + self.comments.behind.pop((entry, key), [])))

    def type(self, it, named):
        self.header(it, "[[type]]")
        self.pair(it, "name", quoted(it["name"]))
        if it.kind == "enumeration":
            self.pair(it, "base", quoted(it["base"]))
            self.inside(it, "value", [(value, f"name = {quoted(value['name'])}, number = {value['number']}") for value in it["value"]])
            return
        parts = []
        for member, own in zip(it["member"], named.members):
            comment = f", comment = {quoted(member['comment'])}" if member["comment"] else ""
            parts.append((member, f"name = {quoted(member['name'])}, type = {quoted(own.shape.text())}{comment}"))
        self.inside(it, "member", parts)

    def inside(self, it, key, parts):
        """An array of tables, one a line, with what stands beside them and beside their keys."""
        self.lines += self.comments.above.pop((it, key), [])
        self.lines.append(joined(f"{key} = [", self.comments.behind.pop((it, key), [])))
        for entry, said in parts:
            keys = [None, *entry.places]
            self.lines += ["  " + line for own in keys for line in self.comments.above.pop((entry, own), [])]
            self.lines.append(joined(f"  {{ {said} }},", [line for own in keys for line in self.comments.behind.pop((entry, own), [])]))
        self.lines.append("]")

    def port(self, port, shapes):
        self.header(port, "[[port]]")
        self.pair(port, "port", str(port["port"]))
        self.pair(port, "name", quoted(port["name"]))
        for key in ("major", "minor", "build", *AREAS):
            if key not in AREAS or port[key] or key in port.raw:
                self.pair(port, key, str(port[key]))
        for symbol in port["symbol"]:
            self.symbol(symbol, shapes[symbol])

    def symbol(self, symbol, shape):
        self.header(symbol, "[[port.symbol]]")
        for key, said in (("name", symbol["name"]), ("type", shape.text()), ("area", symbol["area"])):
            self.pair(symbol, key, quoted(said))
        self.pair(symbol, "offset", str(symbol["offset"]))
        if symbol["comment"] or "comment" in symbol.raw:
            self.pair(symbol, "comment", quoted(symbol["comment"]))
        for key in ("persistent", "read_only"):
            if symbol[key] or key in symbol.raw:
                self.pair(symbol, key, "true" if symbol[key] else "false")
        if symbol["signal"] is not None:
            self.pair(symbol, "signal", str(symbol["signal"]))
        if symbol["writers"] is not None:
            self.pair(symbol, "writers", "[" + ", ".join(quoted(net) for net in symbol["writers"]) + "]")
        if symbol["initial"] is not None:
            self.initial(symbol, shape, bytes.fromhex(symbol["initial"]))

    def initial(self, symbol, shape, data):
        lines = words_lines(shape, data) if self.words else []
        beside = lines.pop() if len(lines) == 1 and len(lines[0]) <= BESIDE else None
        above = self.comments.above.pop((symbol, "initial"), [])
        self.comments.above[(symbol, "initial")] = above + [MEANS + line for line in lines]
        self.pair(symbol, "initial", f'"{data.hex()}"', beside)


def joined(text, comments):
    return text + (f"  {comments[0]}" + "".join("; " + one.lstrip("# ") for one in comments[1:]) if comments else "")


def words_lines(shape, data):
    """A value in words, in lines: of an array of structures one or more an element."""
    if len(data) > MOST_BYTES:
        return []
    named = shape.element[1] if shape.ends and shape.element[0] == "named" and not shape.element[1].base else None
    whole = words_of(shape, data)
    if len(whole) <= BESIDE or not named or whole.startswith("{"):
        lines = wrapped(whole)
    else:
        lines = element_lines(shape, data, named.size)
    return lines if len(lines) <= MOST_LINES else [*lines[:MOST_LINES], "and so on"]


def element_lines(shape, data, size):
    """A line or more for each element; for those that follow one another and are the same, for all at once."""
    inner, place, lines = shape.of_element(), 0, []
    while place < shape.count() and len(lines) <= MOST_LINES:
        one, last = data[place * size:(place + 1) * size], place
        while data[(last + 1) * size:(last + 2) * size] == one:
            last += 1
        named = index_text(shape.ends, place) + (f" to {index_text(shape.ends, last)}" if last > place else "")
        lines += wrapped(f"{named} {words_of(inner, one)}")
        place = last + 1
    return lines


def wrapped(text):
    return textwrap.wrap(text, WIDTH, break_long_words=True, break_on_hyphens=False, subsequent_indent="  ") if len(text) > WIDTH else [text]
