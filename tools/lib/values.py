"""Values as text, by type id and size, as the program prints and reads them."""
import re

from lib.shown import shown

SIGNED, UNSIGNED = (16, 2, 3, 20), (17, 18, 19, 21)
BOOL, TEXT = 33, 30
TRUTH = {"FALSE": 0, "TRUE": 1}
# What stands for itself between single quotes; every other byte is $ and two hexadecimal digits.
STANDING = {chr(byte) for byte in range(0x20, 0x7F)} - {"'", "$"}


class NoValue(Exception):
    """Why a text is no value of a type."""


def is_number(type_id, size):
    return type_id in SIGNED + UNSIGNED and size in (1, 2, 4, 8)


def value_text(type_id, data):
    if is_number(type_id, len(data)):
        return str(int.from_bytes(data, "little", signed=type_id in SIGNED))
    if type_id == BOOL and len(data) == 1:
        return "TRUE" if data[0] else "FALSE"
    if type_id == TEXT and data:
        return "'" + "".join(chr(byte) if chr(byte) in STANDING else f"${byte:02X}" for byte in data.split(b"\0")[0]) + "'"
    return "16#" + data.hex()


def value_bytes(type_id, size, text):
    """The bytes of a value; a NoValue where the text is none. Hexadecimal text, 16#00ff, is a value of every type."""
    if text.startswith("16#"):
        if not re.fullmatch("([0-9A-Fa-f]{2})*", text[3:]) or len(text) - 3 != 2 * size:
            raise NoValue(f"{text} has not two hexadecimal digits for each of {size} bytes")
        return bytes.fromhex(text[3:])
    if is_number(type_id, size):
        low = -2 ** (8 * size - 1) if type_id in SIGNED else 0
        if not re.fullmatch("0|-?[1-9][0-9]{0,19}", text) or not low <= int(text) < low + 2 ** (8 * size):
            raise NoValue(f"{shown(text)} is no number from {low} to {low + 2 ** (8 * size) - 1}")
        return int(text).to_bytes(size, "little", signed=type_id in SIGNED)
    if type_id == BOOL and size == 1:
        if text not in TRUTH:
            raise NoValue(f"{shown(text)} is neither TRUE nor FALSE")
        return bytes([TRUTH[text]])
    if type_id == TEXT and size:
        it = re.fullmatch(r"'((?:[ -#%-&(-~]|\$[0-9A-F]{2})*)'", text)
        data = re.sub(rb"\$(..)", lambda found: bytes([int(found[1], 16)]), it[1].encode()) if it else b""
        if not it or 0 in data or len(data) >= size:
            raise NoValue(f"{text} is no text of at most {size - 1} bytes in single quotes")
        return data.ljust(size, b"\0")
    raise NoValue(f"{shown(text)} is no value: {size} bytes are written 16# and two hexadecimal digits a byte")


def printed(data):
    """A name, path or comment: up to its first NUL, with a byte outside 0x20 to 0x7E as two digits behind a backslash and an x."""
    return "".join(chr(byte) if 0x20 <= byte <= 0x7E else f"\\x{byte:02x}" for byte in data.split(b"\0")[0])
