"""The letters of a STRING: Windows-1252, as TwinCAT has them. Its five bytes without a letter are the control characters of their numbers."""
LETTERS = [bytes([byte]).decode("cp1252", "replace") for byte in range(256)]
LETTERS = [chr(byte) if letter == "\ufffd" else letter for byte, letter in enumerate(LETTERS)]
BYTES = {letter: byte for byte, letter in enumerate(LETTERS)}
SPELLED = {"ä": "ae", "ö": "oe", "ü": "ue", "Ä": "Ae", "Ö": "Oe", "Ü": "Ue", "ß": "ss", "µ": "u", "°": " deg "}
ESCAPES = {'"': '\\"', "\\": "\\\\", "\n": "\\n", "\r": "\\r", "\t": "\\t"}


def letters_of(data):
    return "".join(LETTERS[byte] for byte in data)


def bytes_of(text):
    """The bytes of a text, and the first letter that has none."""
    odd = next((letter for letter in text if letter not in BYTES), None)
    return bytes(BYTES[letter] for letter in text if letter in BYTES), odd


def quoted(text):
    """A text as TOML writes it."""
    return '"' + "".join(ESCAPES.get(letter) or (f"\\u{ord(letter):04x}" if letter < " " or "\x7f" <= letter < "\xa0" else letter) for letter in text) + '"'


def spelled(text, most):
    """A text like another one in printable ASCII, in one line, of at most so many bytes."""
    words = " ".join("".join(SPELLED.get(letter, letter) for letter in text).split())
    return "".join(letter if " " <= letter <= "~" else "?" for letter in words)[:most].rstrip()
