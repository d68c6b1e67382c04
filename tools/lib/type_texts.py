"""Plain types, and the texts of types as a description writes them."""
import re

from lib.shown import shown

# Bytes and type id of each; each is aligned to its size.
PLAIN = {
    "BOOL": (1, 33), "SINT": (1, 16), "USINT": (1, 17), "BYTE": (1, 17), "INT": (2, 2), "UINT": (2, 18), "WORD": (2, 18), "DINT": (4, 3), "UDINT": (4, 19),
    "DWORD": (4, 19), "TIME": (4, 19), "LINT": (8, 20), "ULINT": (8, 21), "LWORD": (8, 21), "REAL": (4, 4), "LREAL": (8, 5),
}
# The plain types that an enumeration may stand on, and the least and the greatest number of each.
BASES = {
    word: (-2 ** (8 * PLAIN[word][0] - 1) if word[0] != "U" else 0, 2 ** (8 * PLAIN[word][0] - (word[0] != "U")) - 1)
    for word in ("SINT", "USINT", "INT", "UINT", "DINT", "UDINT", "LINT", "ULINT")
}
TEXT_ID, WHOLE_ID = 30, 65
LONGEST_TEXT = 65534
WORDS = {*PLAIN, "STRING", "ARRAY", "OF"}

IDENTIFIER = re.compile(r"[A-Za-z_][A-Za-z0-9_]*")
NUMBER = r"-?(?:0|[1-9][0-9]{0,9})"
ARRAY = re.compile(r"ARRAY \[([^\]]*)\] OF (.*)", re.ASCII | re.IGNORECASE | re.DOTALL)
BOUNDS = re.compile(rf"({NUMBER})\.\.({NUMBER})")
STRING = re.compile(r"STRING\((0|[1-9][0-9]{0,4})\)", re.ASCII | re.IGNORECASE)


class NoType(Exception):
    """Why a text is the text of no type."""


def lower(text):
    """A text with its ASCII letters in lower case."""
    return text.encode("utf-8", "surrogatepass").lower().decode("utf-8", "surrogatepass")


def is_identifier(text):
    return bool(IDENTIFIER.fullmatch(text))


def read_type(text):
    """A text as its dimensions, pairs of the least and the greatest index, and its element: ("plain", word), ("text", n) or ("named", name)."""
    if lower(text[:7]) != "array [":
        return [], element_of(text)
    it = ARRAY.fullmatch(text)
    if not it:
        raise NoType("an array is written ARRAY [l..u] OF T, with one space behind ARRAY, before OF and behind OF")
    bounds = it[1].split(",")
    if len(bounds) > 3:
        raise NoType("an array has one to three dimensions")
    return [ends_of(bound) for bound in bounds], element_of(it[2])


def ends_of(text):
    it = BOUNDS.fullmatch(text)
    if not it or "-0" in it.groups() or not all(-2 ** 31 <= int(end) < 2 ** 31 for end in it.groups()):
        raise NoType(f"{shown(text)} is no dimension l..u of two numbers of 32 bits with a sign, without spaces and superfluous zeros")
    if int(it[1]) > int(it[2]):
        raise NoType(f"in the dimension {text} the least index is above the greatest")
    return int(it[1]), int(it[2])


def element_of(text):
    word = text.upper() if text.isascii() else text
    if word in PLAIN:
        return "plain", word
    if word == "STRING":
        return "text", 80
    if word.startswith("STRING("):
        it = STRING.fullmatch(text)
        if not it or int(it[1]) > LONGEST_TEXT:
            raise NoType(f"{shown(text)} is not STRING(n) with n from 0 to {LONGEST_TEXT}")
        return "text", int(it[1])
    if word in ("ARRAY", "OF") or word.startswith("ARRAY "):
        raise NoType("an array of arrays is no type here; an array has one to three dimensions" if word != "OF" else "OF is no type")
    if not is_identifier(text):
        raise NoType(f"{shown(text)} is no plain type, no STRING(n), no array and no name of a type")
    return "named", text
