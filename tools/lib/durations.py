"""Durations as IEC 61131-3 writes them: T#1m30s."""
import re
from fractions import Fraction

UNITS = {"d": 86400000, "h": 3600000, "m": 60000, "s": 1000, "ms": 1, "us": Fraction(1, 1000), "ns": Fraction(1, 1000000)}
PART = re.compile(r"_?([0-9][0-9_]{0,19}(?:\.[0-9]{1,20})?)(ms|us|ns|d|h|m|s)", re.IGNORECASE)
HEAD = re.compile(r"(-?)(?:l?t|l?time)#(-?)", re.IGNORECASE)


class NoDuration(Exception):
    """Why a text is no duration."""


def milliseconds_of(text):
    """The milliseconds of a duration, as a fraction."""
    head = HEAD.match(text)
    at, total, last = head.end() if head else 0, Fraction(0), None
    while head and at < len(text):
        it = PART.match(text, at)
        if not it or (last is not None and UNITS[it[2].lower()] >= last):
            raise NoDuration
        last = UNITS[it[2].lower()]
        total += Fraction(it[1].replace("_", "")) * last
        at = it.end()
    if last is None:
        raise NoDuration
    return -total if head[1] or head[2] else total


def duration_text(milliseconds):
    left, parts = milliseconds, []
    for unit in ("d", "h", "m", "s", "ms"):
        count, left = divmod(left, UNITS[unit])
        parts += [f"{count}{unit}"] if count else []
    return "T#" + ("".join(parts) or "0s")
