"""Texts of files and peers as a sentence shows them: in quotes, in one line, and not at any length."""

MOST = 80


def shown(text):
    return repr(text if len(text) <= MOST else text[:MOST] + "..")


def told(text):
    """The same without quotes of its own."""
    return shown(text)[1:-1]
