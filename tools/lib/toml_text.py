"""TOML 1.1 with places: what a document says, and where in the file it says it.

It reads the very documents that the program reads: keys of at most 80 parts, arrays and inline tables nested at most 80 deep, integers of 64 bits with a sign.
"""
import re

from lib.shown import shown

DEEPEST = 80
BLANK = re.compile(r"[ \t\n]+|\r\n|#[^\x00-\x08\x0a-\x1f\x7f]*")
SPACE = re.compile(r"[ \t]*")
LINES = re.compile(r"[ \t\n]+|\r\n")
BARE = re.compile(r"[A-Za-z0-9_-]+")
PLAIN = {'"': re.compile(r'[^"\\\x00-\x08\x0a-\x1f\x7f]*'), "'": re.compile(r"[^'\x00-\x08\x0a-\x1f\x7f]*")}
PLAIN_LINES = {'"': re.compile(r'[^"\\\x00-\x08\x0b-\x1f\x7f]*'), "'": re.compile(r"[^'\x00-\x08\x0b-\x1f\x7f]*")}
CUT = re.compile(r"[ \t]*\r?\n")
WORD = re.compile(r"[A-Za-z0-9_+.:-]*")
ESCAPES = {"b": "\b", "e": "\x1b", "f": "\f", "n": "\n", "r": "\r", "t": "\t", '"': '"', "\\": "\\"}
HEX_DIGITS = {"x": 2, "u": 4, "U": 8}
PREFIXED = {"0x": (16, re.compile(r"[0-9A-Fa-f]+")), "0o": (8, re.compile(r"[0-7]+")), "0b": (2, re.compile(r"[01]+"))}
DECIMAL = re.compile(r"(0|[1-9][0-9]*)(\.[0-9]+)?([eE][+-]?[0-9]+)?")
WITH_COMMA = re.compile(r"(?<![0-9A-Za-z_.])[-+]?[0-9]{1,19},[0-9]{1,19}(?![0-9A-Za-z_.])")
DATE_LIKE = re.compile(r"[0-9]+[-:]")
DATE = re.compile(r"(\d{4})-(\d{2})-(\d{2})", re.ASCII)
TIME = re.compile(r"(\d{2}):(\d{2})(?::(\d{2})(?:\.\d+)?)?", re.ASCII)
OFFSET = re.compile(r"[Zz]|[+-](\d{2}):(\d{2})", re.ASCII)


class TomlFault(Exception):
    """Why a text is no TOML document, and at which character."""

    def __init__(self, at, why):
        super().__init__(why)
        self.at, self.why = at, why


class Value:
    """A value and where it begins. `kind` is string, integer, float, boolean, date, array or table; `data` is a str, an int, a bool, a list or a dict.

    `made` is how a table that may still grow came about: `implicit` by a header that passes through it, `dotted` by a dotted key, `header` by its own header,
    `tables` for an array of tables; None for what is complete.
    """
    __slots__ = ("kind", "data", "at", "made")

    def __init__(self, kind, data, at, made=None):
        self.kind, self.data, self.at, self.made = kind, data, at, made


class Places:
    """Lines and columns of a text, both counted from 1."""

    def __init__(self, text):
        self.text = text

    def line(self, at):
        return self.text.count("\n", 0, at) + 1

    def column(self, at):
        return at - self.text.rfind("\n", 0, at)


def comma_meant(text, at):
    """What is said where a fault is the comma of a number; None where it is another."""
    near = next((it[0] for it in WITH_COMMA.finditer(text, max(at - 40, 0), at + 40) if it.start() < at <= it.end()), None)
    return near and f"a number has a full stop in place of a comma: write {near.replace(',', '.')} for {near}"


def text_of(given):
    """The text of a file's bytes; a TomlFault where they are not UTF-8."""
    try:
        return given.decode("utf-8")
    except UnicodeDecodeError as fault:
        raise TomlFault(len(given[:fault.start].decode("utf-8")), "these bytes are no UTF-8") from None


class Reader:
    def __init__(self, text):
        self.text = text

    def first(self, at):
        return self.text[at:at + 1]

    def behind_all(self, pattern, at):
        """Where a run of what the pattern takes ends."""
        it = pattern.match(self.text, at)
        while it:
            at = it.end()
            it = pattern.match(self.text, at)
        return at

    # Strings and keys.

    def escape(self, at):
        """The character that an escape writes, behind its backslash, and where it ends."""
        letter = self.first(at)
        if letter in ESCAPES and letter:
            return ESCAPES[letter], at + 1
        count = HEX_DIGITS.get(letter)
        digits = self.text[at + 1:at + 1 + count] if count else ""
        if count and len(digits) == count and re.fullmatch("[0-9A-Fa-f]+", digits):
            number = int(digits, 16)
            if number < 0xD800 or 0xE000 <= number <= 0x10FFFF:
                return chr(number), at + 1 + count
        raise TomlFault(at - 1, "behind a backslash stand b, e, f, n, r, t, a quote, a backslash, or x, u or U with 2, 4 or 8 hex digits of a character")

    def string(self, start, many=False):
        """The text of a string at its quote, and where it ends; with `many` between triple quotes."""
        mark, at, pieces = self.text[start], start + (3 if many else 1), []
        plain = (PLAIN_LINES if many else PLAIN)[mark]
        if many:
            at += 1 if self.first(at) == "\n" else 2 if self.text[at:at + 2] == "\r\n" else 0
        while True:
            it = plain.match(self.text, at)
            pieces.append(it[0])
            at, letter = it.end(), self.first(it.end())
            if letter == mark and not many:
                return "".join(pieces), at + 1
            if letter == mark:
                count = len(re.compile(f"{mark}+").match(self.text, at)[0])
                if count > 5:
                    raise TomlFault(at, "more than five quotes stand together")
                if count >= 3:
                    pieces.append(mark * (count - 3))
                    return "".join(pieces), at + count
                pieces.append(mark * count)
                at += count
            elif letter == "\\" and mark == '"':
                cut = CUT.match(self.text, at + 1) if many else None
                if cut:
                    at = self.behind_all(LINES, at + 1)
                else:
                    one, at = self.escape(at + 1)
                    pieces.append(one)
            elif not letter:
                raise TomlFault(start, f"this string has no closing {mark * 3 if many else mark}")
            elif many and self.text[at:at + 2] == "\r\n":
                pieces.append("\r\n")
                at += 2
            elif letter in "\r\n":
                raise TomlFault(start, f"this string has no closing {mark} in its line")
            else:
                raise TomlFault(at, f"the control character {ord(letter):#04x} may not stand in a string")

    def key(self, at):
        """The parts of a key, and where the white space behind it ends."""
        parts = []
        while len(parts) < DEEPEST:
            bare = BARE.match(self.text, at)
            if bare:
                parts.append(bare[0])
                at = bare.end()
            elif self.first(at) in ('"', "'"):
                part, at = self.string(at)
                parts.append(part)
            else:
                raise TomlFault(at, "a key is wanted here: letters, digits, - and _, or a text in quotes")
            at = SPACE.match(self.text, at).end()
            if self.first(at) != ".":
                return parts, at
            at = SPACE.match(self.text, at + 1).end()
        raise TomlFault(at, f"a key of more than {DEEPEST} parts")

    def pair(self, at, deep):
        """A key, its value, and where that ends."""
        start, (parts, at) = at, self.key(at)
        if self.first(at) != "=":
            raise TomlFault(at, comma_meant(self.text, start) or f"behind the key {shown(parts[-1])} an equals sign is wanted")
        value, end = self.value(SPACE.match(self.text, at + 1).end(), deep)
        return parts, value, end

    # Values.

    def value(self, at, deep):
        letter = self.first(at)
        if letter in ("[", "{") and deep == 0:
            raise TomlFault(at, f"arrays and inline tables are nested at most {DEEPEST} deep")
        if letter == "[":
            return self.array(at, deep - 1)
        if letter == "{":
            return self.inline(at, deep - 1)
        if letter in ('"', "'") and letter:
            text, end = self.string(at, self.text[at:at + 3] == letter * 3)
            return Value("string", text, at), end
        return self.word(at)

    def word(self, at):
        end = WORD.match(self.text, at).end()
        if self.first(end) == " " and self.first(end + 1) in tuple("0123456789"):
            end = WORD.match(self.text, end + 1).end()
        word = self.text[at:end]
        if not word:
            raise TomlFault(at, "a value is wanted here: a text in quotes, a number, true, false, a date, an array or a table")
        kind, data = scalar_of(word, at)
        return Value(kind, data, at), end

    def behind(self, at, closing, what):
        at = self.behind_all(BLANK, at)
        if self.first(at) == ",":
            return at + 1
        if self.first(at) == closing:
            return at
        raise TomlFault(at, f"in this {what} a comma or {closing} is wanted here")

    def array(self, start, deep):
        found, at = [], start + 1
        while True:
            at = self.behind_all(BLANK, at)
            if self.first(at) == "]":
                return Value("array", found, start), at + 1
            one, at = self.value(at, deep)
            found.append(one)
            at = self.behind(at, "]", "array")

    def inline(self, start, deep):
        table, at = Value("table", {}, start), start + 1
        while True:
            at = self.behind_all(BLANK, at)
            if self.first(at) == "}":
                return table, at + 1
            parts, one, end = self.pair(at, deep)
            put(table, parts, one, at)
            at = self.behind(end, "}", "inline table")

    # The document.

    def document(self):
        root = Value("table", {}, 0, "header")
        section, at = root, 1 if self.text[:1] == "\ufeff" else 0
        while True:
            at = self.behind_all(BLANK, at)
            if at == len(self.text):
                return root
            section, at = self.statement(root, section, at)

    def statement(self, root, section, at):
        """A header or a pair: the table that goes on, and where the statement ends."""
        if self.first(at) == "[":
            section, end = self.header(root, at)
        else:
            parts, one, end = self.pair(at, DEEPEST)
            put(section, parts, one, at)
        end = SPACE.match(self.text, end).end()
        if self.first(end) not in ("", "#", "\n", "\r"):
            raise TomlFault(end, comma_meant(self.text, end) or "a new line is wanted here")
        return section, end

    def header(self, root, start):
        many = self.text[start:start + 2] == "[["
        parts, at = self.key(SPACE.match(self.text, start + (2 if many else 1)).end())
        closing = "]]" if many else "]"
        if not self.text.startswith(closing, at):
            raise TomlFault(at, f"this header wants {closing} here")
        return headed(root, parts, many, start), at + len(closing)


def scalar_of(word, at):
    """The kind and the value of a word without quotes."""
    if word in ("true", "false"):
        return "boolean", word == "true"
    if DATE_LIKE.match(word):
        if is_date(word):
            return "date", word
        raise TomlFault(at, f"{shown(word)} is no date and no time")
    return number_of(word, at)


def number_of(word, at):
    digit = "[0-9A-Fa-f]" if word.startswith("0x") else "[0-9]"
    if re.search(f"(?<!{digit})_|_(?!{digit})", word):
        raise TomlFault(at, f"in {shown(word)} an underscore stands where no digit is on both sides")
    bare = word.replace("_", "")
    radix, digits = PREFIXED.get(bare[:2], (10, None))
    if digits:
        if digits.fullmatch(bare[2:]):
            return "integer", fitting(int(bare[2:], radix), word, at)
        raise TomlFault(at, f"{shown(word)} is no number")
    negative, bare = bare[:1] == "-", bare[1:] if bare[:1] in ("-", "+") else bare
    if bare in ("inf", "nan"):
        return "float", -float(bare) if negative else float(bare)
    it = DECIMAL.fullmatch(bare)
    if not it:
        meant = f"; write {word.lower()}" if word.lower() in ("true", "false") else ""
        raise TomlFault(at, f"{shown(word)} is no value: a text stands in quotes, a number has no superfluous zeros{meant}")
    if it[2] or it[3]:
        if float(bare) == float("inf"):
            raise TomlFault(at, f"{shown(word)} is too great")
        return "float", -float(bare) if negative else float(bare)
    number = int(bare) if len(bare) < 20 else 2 ** 64
    return "integer", fitting(-number if negative else number, word, at)


def fitting(number, word, at):
    if not -2 ** 63 <= number < 2 ** 63:
        raise TomlFault(at, f"{shown(word)} does not fit into 64 bits with a sign")
    return number


def is_date(word):
    if word[2:3] == ":":
        return is_time(TIME.fullmatch(word))
    date = DATE.match(word)
    if not date:
        return False
    year, month, day = (int(part) for part in date.groups())
    leap = year % 4 == 0 and (year % 100 != 0 or year % 400 == 0)
    if not (1 <= month <= 12 and 1 <= day <= (31, 29 if leap else 28, 31, 30, 31, 30, 31, 31, 30, 31, 30, 31)[month - 1]):
        return False
    if date.end() == len(word):
        return True
    time = TIME.match(word, date.end() + 1)
    if word[date.end()] not in "Tt " or not is_time(time):
        return False
    offset = OFFSET.fullmatch(word, time.end())
    return time.end() == len(word) or bool(offset and (not offset[1] or (int(offset[1]) < 24 and int(offset[2]) < 60)))


def is_time(it):
    return bool(it) and int(it[1]) < 24 and int(it[2]) < 60 and int(it[3] or 0) < 61


def put(table, parts, one, at):
    """A pair of a table or an inline table: its key goes through no table that a header made."""
    for part in parts[:-1]:
        inner = table.data.get(part)
        if inner is None:
            inner = table.data[part] = Value("table", {}, at, "dotted")
        elif inner.made not in ("implicit", "dotted"):
            raise TomlFault(at, f"the key {shown(part)} has a value or a header already, and a dotted key can't add to it")
        inner.made, table = "dotted", inner
    if parts[-1] in table.data:
        raise TomlFault(at, f"the key {shown(parts[-1])} stands here a second time")
    table.data[parts[-1]] = one


def headed(root, parts, many, at):
    """The table that a header begins."""
    table = root
    for part in parts[:-1]:
        inner = table.data.get(part)
        if inner is None:
            inner = table.data[part] = Value("table", {}, at, "implicit")
        elif inner.made is None:
            raise TomlFault(at, f"the key {shown(part)} has a value already, and a header can't add to it")
        table = inner.data[-1] if inner.made == "tables" else inner
    found, last = table.data.get(parts[-1]), parts[-1]
    if many and (found is None or found.made == "tables"):
        one = Value("table", {}, at, "header")
        if found is None:
            table.data[last] = Value("array", [one], at, "tables")
        else:
            found.data.append(one)
        return one
    if not many and found is None:
        table.data[last] = Value("table", {}, at, "header")
        return table.data[last]
    if not many and found.made == "implicit":
        found.made, found.at = "header", at
        return found
    raise TomlFault(at, f"the table {shown('.'.join(parts))} is there already" if found.made else f"the key {shown(last)} has a value already")


def parse(text):
    """The root table of a document; a TomlFault where there is none."""
    return Reader(text).document()
