"""What the readers of TwinCAT's files find: types, symbols, and who they are of."""


class Part:
    """A member or a symbol. `bits` and `at` are its size and its place in bits, None where the file does not say; `initial` is a literal as text, a list of
    triples (place, index or path, value), or None; `why` is why it is left out."""

    def __init__(self, name, text, line):
        self.name, self.text, self.line, self.ends = name, text, line, []
        self.bits, self.at, self.comment, self.initial, self.why = None, None, "", None, None
        self.persistent, self.read_only, self.area, self.note = False, False, "data", None
        # (the names of its bits, by their numbers)
        self.named = {}


class Kind:
    """A named type: a structure of `parts`; an enumeration of `values`, pairs of a name and a number; or an alias of a text and its dimensions."""

    def __init__(self, name, line):
        self.name, self.line, self.parts, self.values, self.base, self.ends = name, line, [], [], "", []
        self.bits, self.extends, self.note, self.why = None, "", None, None


class Given:
    """A file: what it is in words, its types by name in lower case, its symbols in their order, and remarks on all of it."""

    def __init__(self, what):
        self.what, self.kinds, self.symbols, self.remarks = what, {}, [], []
        self.net, self.port, self.name = None, None, ""

    def add(self, kind):
        self.kinds.setdefault(kind.name.lower(), kind)


class NoImport(Exception):
    """Why a file can't be imported at all, and at which line."""

    def __init__(self, line, why):
        super().__init__(why)
        self.line, self.why = line, why


def number_of(text):
    """A decimal number of a file; None where there is none."""
    text = text.strip()
    digits = text[1:] if text[:1] in ("-", "+") else text
    return int(text) if digits.isascii() and digits.isdigit() and len(digits) < 19 else None
