"""Which type is meant by a text that is the text of none."""
import difflib
import re

from lib.type_texts import PLAIN, NoType, lower, read_type

# Plain types of controllers that a description has not, and what has as many bytes.
STANDING = {**dict.fromkeys(("DATE", "TIME_OF_DAY", "TOD", "DATE_AND_TIME", "DT"), "UDINT"), **dict.fromkeys(("LTIME", "LDATE", "LTOD", "LDT"), "ULINT")}
# What other languages call a plain type.
CALLED = {
    "BIT": "BOOL", "BOOLEAN": "BOOL", "FLOAT": "REAL", "FLOAT32": "REAL", "SINGLE": "REAL", "DOUBLE": "LREAL", "FLOAT64": "LREAL", "INT8": "SINT",
    "INT16": "INT", "INT32": "DINT", "INT64": "LINT", "UINT8": "USINT", "UINT16": "UINT", "UINT32": "UDINT", "UINT64": "ULINT",
}
ARRAY = re.compile(r"\s*array\s*\[([^\]]*)\]\s*of\s*(.*?)\s*", re.IGNORECASE | re.DOTALL)
BOUND = re.compile(r"\s*([+-]?[0-9]{1,10})\s*\.\.\.?\s*([+-]?[0-9]{1,10})\s*")
TEXT = re.compile(r"\s*string\s*(?:[(\[]\s*([0-9]{1,5})\s*[)\]])?\s*", re.IGNORECASE)


def type_meant(text, names):
    """What would be right in place of a text; `names` are the types of the description. None where that can't be told."""
    meant = tidy(text, names)
    if meant is not None and meant != text:
        try:
            _, (kind, it) = read_type(meant)
            if kind != "named" or lower(it) in {lower(name) for name in names}:
                return f"write {meant}"
        except NoType:
            pass
    word = element_in(text)
    if word.upper() in STANDING:
        return f"{STANDING[word.upper()]} has its bytes"
    if word.upper() in CALLED:
        return f"{CALLED[word.upper()]} is its name here"
    near = nearest(word, names)
    return f"is `{near}` meant?" if near else None


def tidy(text, names):
    """The text as it is to be written, where only its spelling is wrong."""
    text = text[:1000]
    it = ARRAY.fullmatch(text)
    if it:
        bounds, inner = [BOUND.fullmatch(bound) for bound in it[1].split(",")], tidy(it[2], names)
        if not all(bounds) or inner is None:
            return None
        ends = [sorted((int(bound[1]), int(bound[2]))) for bound in bounds]
        return nested(",".join(f"{low}..{high}" for low, high in ends), inner)
    it = TEXT.fullmatch(text)
    if it:
        return f"STRING({int(it[1])})" if it[1] else "STRING"
    word = text.strip()
    return next((own for own in (*PLAIN, *names) if lower(own) == lower(word)), None)


def nested(bounds, inner):
    """An array of an array is one array of as many dimensions."""
    it = ARRAY.fullmatch(inner)
    return f"ARRAY [{bounds},{it[1]}] OF {it[2]}" if it else f"ARRAY [{bounds}] OF {inner}"


def element_in(text):
    it = ARRAY.fullmatch(text[:1000])
    return (it[2] if it else text[:1000]).strip()


def nearest(word, names):
    words = {lower(own): own for own in (*PLAIN, "STRING", *names)}
    found = difflib.get_close_matches(lower(word), words, 1, 0.6) if len(word) < 80 and len(words) < 2000 else []
    return words[found[0]] if found else None
