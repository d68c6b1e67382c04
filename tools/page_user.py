#!/usr/bin/env python3
"""Adds a user to a file of names and passwords for tools/page.py, or gives one another password.

    python3 tools/page_user.py FILE NAME
    python3 tools/page_user.py FILE NAME --remove

It asks for the password twice; where standard input is no terminal, its first line is the password. FILE keeps a hash
of it (scrypt), and only its owner and its group may read it. `page.py --users FILE` reads FILE again when it changes:
sessions of a name that is removed, or that has another password, end.

The status is 1 for wrong words, 2 for a file that is no such one, 4 if it can't be read or written.
"""
import getpass
import os
import sys

sys.path.insert(0, os.path.dirname(os.path.abspath(__file__)))
from lib.files import read_text, write_text  # noqa: E402
from lib.page_users import MOST_PASSWORD, NAME, line_of, read_users  # noqa: E402
from lib.words import Ended, read_words, run  # noqa: E402


def password_of(name):
    if sys.stdin is None or not sys.stdin.isatty():
        first = sys.stdin.readline().rstrip("\r\n") if sys.stdin else ""
    else:
        first = getpass.getpass(f"Password of {name}: ")
        if getpass.getpass("Again: ") != first:
            raise Ended("the two are not the same; nothing was written")
    if not 8 <= len(first) <= MOST_PASSWORD:
        raise Ended(f"a password has 8 to {MOST_PASSWORD} letters; nothing was written")
    return first


def main(words):
    (file, name), options = read_words(words, __doc__, ["FILE", "NAME"], {"remove": False})
    if not NAME.fullmatch(name):
        raise Ended(f"a name has 1 to 40 printable letters without a colon, and {name!r} is none")
    is_there = os.path.exists(file) and os.path.getsize(file) > 0
    known = read_users(file) if is_there else {}
    if options["remove"] and name not in known:
        raise Ended(f"{file} has no {name}")
    lines = [line for line in (read_text(file) if is_there else "").splitlines() if line.partition(":")[0] != name]
    lines += [] if options["remove"] else [line_of(name, password_of(name))]
    if not os.path.exists(file):
        try:
            os.close(os.open(file, os.O_WRONLY | os.O_CREAT | os.O_EXCL, 0o640))
        except OSError as fault:
            raise Ended(f"{file} can't be written: {fault.strerror}", 4) from None
    write_text(file, "".join(line + "\n" for line in lines))
    print(f"{file}: {name} " + ("is removed" if options["remove"] else "may log in"))
    return 0


if __name__ == "__main__":
    run(main)
