"""XML as a tree, read safely: no document types, so no entities of its own; a limit to bytes, elements and nesting."""
import xml.parsers.expat

MOST_BYTES, MOST_NODES, DEEPEST = 64 * 1048576, 1000000, 100


class XmlFault(Exception):
    """Why a file is not read, and at which line."""

    def __init__(self, line, why):
        super().__init__(why)
        self.line, self.why = line, why


class Node:
    """An element: its name without a prefix, its attributes, the elements in it, its text, and its line."""
    __slots__ = ("tag", "attributes", "inner", "text", "line")

    def __init__(self, tag, attributes, line):
        self.tag, self.attributes, self.inner, self.text, self.line = tag, attributes, [], "", line

    def all(self, tag):
        return [it for it in self.inner if it.tag == tag]

    def first(self, *tags):
        """The element at the end of a path of first ones; None where there is none."""
        it = self
        for tag in tags:
            it = next((one for one in it.inner if one.tag == tag), None)
            if it is None:
                return None
        return it

    def said(self, *tags):
        """The text at the end of a path, without blanks around it; empty where there is none."""
        it = self.first(*tags)
        return it.text.strip() if it is not None else ""

    def every(self, *tags):
        """All elements of these names at any depth, in the order of the file."""
        found, left = [], [self]
        while left:
            it = left.pop()
            if it.tag in tags:
                found.append(it)
            left += reversed(it.inner)
        return found

    def whole_text(self):
        return " ".join(" ".join([self.text, *(it.whole_text() for it in self.inner)]).split())


class Reading:
    def __init__(self, passed):
        self.parser, self.passed, self.count, self.skipping = xml.parsers.expat.ParserCreate(), passed, 0, 0
        self.open, self.root = [], None
        self.parser.buffer_text = True
        self.parser.StartElementHandler, self.parser.EndElementHandler, self.parser.CharacterDataHandler = self.begin, self.end, self.data
        self.parser.StartDoctypeDeclHandler = self.parser.EntityDeclHandler = self.parser.ExternalEntityRefHandler = self.refuse

    def refuse(self, *_):
        why = "it has a DOCTYPE, which no file of TwinCAT has: such a file is not read, since its entities may name other files or grow without end"
        raise XmlFault(self.parser.CurrentLineNumber, why)

    def begin(self, name, attributes):
        self.count += 1
        if self.count > MOST_NODES:
            raise XmlFault(self.parser.CurrentLineNumber, f"it has more than {MOST_NODES} elements")
        if len(self.open) + self.skipping >= DEEPEST:
            raise XmlFault(self.parser.CurrentLineNumber, f"its elements are nested more than {DEEPEST} deep")
        tag = name.rpartition(":")[2]
        if self.skipping or tag in self.passed:
            self.skipping += 1
            return
        node = Node(tag, attributes, self.parser.CurrentLineNumber)
        if self.open:
            self.open[-1].inner.append(node)
        else:
            self.root = node
        self.open.append(node)

    def end(self, _):
        if self.skipping:
            self.skipping -= 1
        else:
            self.open.pop()

    def data(self, text):
        if self.open and not self.skipping:
            self.open[-1].text += text


def read_xml(given, passed=()):
    """The root of a file; an XmlFault where it is not read. Elements whose names are `passed` over are left out with all in them."""
    if len(given) > MOST_BYTES:
        raise XmlFault(1, f"it has more than {MOST_BYTES} bytes")
    reading = Reading(passed)
    try:
        reading.parser.Parse(given, True)
    except xml.parsers.expat.ExpatError as fault:
        raise XmlFault(fault.lineno, f"it is no XML: {xml.parsers.expat.ErrorString(fault.code)}, column {fault.offset + 1}") from None
    except (LookupError, ValueError) as fault:
        raise XmlFault(1, f"its encoding can't be read: {fault}") from None
    return reading.root
