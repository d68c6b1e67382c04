"""TOML with all its faults: behind a broken statement the reader goes on at the next one. It notes the comments of the text, too."""
import re

from lib.toml_text import BARE, BLANK, SPACE, Reader, TomlFault, Value, headed, put

MOST_FAULTS = 200
# What a line begins with that is a header or a pair.
BEGINS = re.compile(r"""[ \t]*(?:\[\[?[ \t]*["'A-Za-z_]|["'A-Za-z_][A-Za-z0-9_."'-]*[ \t]*=)""")
HEADER = re.compile(r"\[\[?[ \t]*([A-Za-z0-9_-]+(?:[ \t]*\.[ \t]*[A-Za-z0-9_-]+)*)")


class AllReader(Reader):
    """`faults` are all faults of the text, in its order; `doubtful` the tables of which an unreadable key may be one; `comments` the ends of the comments
    by where they begin, and `spans` the ends of the values."""

    def __init__(self, text):
        super().__init__(text)
        self.faults, self.doubtful, self.comments, self.spans = [], [], {}, {}

    def behind_all(self, pattern, at):
        while True:
            it = pattern.match(self.text, at)
            if not it:
                return at
            if self.text[at] == "#" and pattern is BLANK:
                self.comments[at] = it.end()
            at = it.end()

    def pair(self, at, deep):
        parts, one, end = super().pair(at, deep)
        self.spans[one.at] = end
        return parts, one, end

    def statement(self, root, section, at):
        try:
            return super().statement(root, section, at)
        except TomlFault as fault:
            end = self.resumed(at, fault)
            self.faults.append(fault)
            if len(self.faults) == MOST_FAULTS:
                return section, len(self.text)
            return self.header_meant(root, at) if self.first(at) == "[" else self.key_meant(section, at), end

    def array(self, start, deep):
        """An array, whose elements begin lines of their own: behind a broken one the reader goes on at the next."""
        found, at = [], start + 1
        while True:
            at = begun = self.behind_all(BLANK, at)
            if self.first(at) == "]":
                return Value("array", found, start), at + 1
            try:
                one, at = self.value(at, deep)
                found.append(one)
                at = self.behind(at, "]", "array")
            except TomlFault as fault:
                at = self.next_element(begun, fault)
                if at is None or len(self.faults) + 1 >= MOST_FAULTS:
                    raise
                if found[-1:] == [] or found[-1].at != begun:
                    found.append(Value("broken", None, begun))
                self.faults.append(fault)

    def next_element(self, begun, fault):
        """Where the next table of an array begins, or its end: the first line behind a fault that is as far from the margin, or less; None where none is."""
        line = self.text.rfind("\n", 0, begun) + 1
        margin = self.text[line:begun]
        if margin.strip(" \t") or self.first(begun) != "{":
            return None
        line = self.text.rfind("\n", 0, fault.at) + 1
        line = line if line > begun else self.text.find("\n", fault.at) + 1
        while line:
            at = SPACE.match(self.text, line).end()
            if (self.first(at) == "{" and self.text[line:at] == margin) or (self.first(at) == "]" and at - line < len(margin)):
                return at
            if BEGINS.match(self.text, line) and at - line < max(len(margin), 1):
                return None
            line = self.text.find("\n", line) + 1
        return None

    def resumed(self, start, fault):
        """Where the next statement begins. A value whose end is missing ends before the line that looks like one."""
        line = self.text.rfind("\n", 0, fault.at) + 1
        if start < line and BEGINS.match(self.text, line):
            first = self.text.count("\n", 0, start) + 1
            fault.at, fault.why = line, f"before this line the value that begins in line {first} wants its closing ] or }}"
            return line
        while True:
            line = self.text.find("\n", max(fault.at, line)) + 1
            if not line:
                return len(self.text)
            if BEGINS.match(self.text, line):
                return line

    def header_meant(self, root, at):
        """The table that a broken header means; one of its own where that can't be told."""
        it, line = HEADER.match(self.text, at), self.text[at:].split("\n", 1)[0]
        parts = re.split(r"[ \t]*\.[ \t]*", it[1]) if it else []
        for many in (True, False) if "[[" in line or "]]" in line else (False, True):
            try:
                return headed(root, parts, many, at) if parts else Value("table", {}, at, "header")
            except TomlFault:
                continue
        return Value("table", {}, at, "header")

    def key_meant(self, section, at):
        """The table in which a broken pair stands: its key is there, with a value that is not known; or any key may be."""
        try:
            parts, end = self.key(at)
        except TomlFault:
            bare = BARE.match(self.text, at)
            parts, end = ([bare[0]], bare.end()) if bare else ([], at)
        try:
            put(section, parts, Value("broken", None, at), at)
        except (TomlFault, IndexError):
            if not parts:
                self.doubtful.append(section)
        return section
