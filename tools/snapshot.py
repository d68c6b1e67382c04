#!/usr/bin/env python3
"""A copy of a recording while `ads record` writes it, for whoever wants to look at the values before it ends.

    python3 tools/snapshot.py samples.db now.db

The words are FILE COPY. `record` locks FILE for itself, so sqlite3 can't open it. This reads the file and the log beside it as bytes, makes sure that the
log was not written back meanwhile, and writes all rows that stand so far into COPY, one SQLite file. COPY is replaced if it is there. FILE is only read.

The status is 0 when COPY is written, 1 for wrong words, 2 if FILE is no SQLite file, 4 if it can't be read, 5 if COPY can't be written, 11 if the log was
written back in each of 20 tries.
"""
import contextlib
import os
import shutil
import sqlite3
import sys
import tempfile

sys.path.insert(0, os.path.dirname(os.path.abspath(__file__)))
from lib.words import Ended, read_words, run  # noqa: E402

TRIES, HEAD = 20, 32


def head_of(log):
    """The head of a log, which is another one behind each writing back; none where there is no log."""
    try:
        with open(log, "rb") as file:
            return file.read(HEAD)
    except FileNotFoundError:
        return b""


def copied(file, copy):
    """Whether file and log were copied as they stand together: the log was not begun anew between the first byte and the last."""
    log = os.path.realpath(file) + "-wal"
    before = head_of(log)
    shutil.copyfile(file, copy)
    if before:
        try:
            shutil.copyfile(log, copy + "-wal")
        except FileNotFoundError:
            return False
    return head_of(log) == before


def settled(copy, file):
    """The rows of the copied log go into the copied file, which is seen to be whole."""
    try:
        with contextlib.closing(sqlite3.connect(copy)) as base:
            base.execute("PRAGMA journal_mode = DELETE").fetchall()
            said = base.execute("PRAGMA quick_check(1)").fetchone()
    except sqlite3.DatabaseError as fault:
        raise Ended(f"snapshot.py: {file} is no SQLite file: {fault}", 2) from None
    if said != ("ok",):
        raise Ended(f"snapshot.py: {file} is damaged: {said[0]}", 2)


def main(words):
    (file, copy), _ = read_words(words, __doc__, ["FILE", "COPY"], {})
    if not os.path.isfile(file):
        raise Ended(f"snapshot.py: {file} is not there, or is no file", 4)
    if os.path.exists(copy) and (not os.path.isfile(copy) or os.path.samefile(file, copy)):
        raise Ended(f"snapshot.py: {copy} is FILE itself, or is no file", 5)
    try:
        folder = tempfile.TemporaryDirectory(dir=os.path.dirname(os.path.abspath(copy)), prefix=".snapshot-")
    except OSError as fault:
        raise Ended(f"snapshot.py: {copy} can't be written: {fault.strerror}", 5) from None
    with folder as place:
        made = os.path.join(place, "copy.db")
        try:
            for _ in range(TRIES):
                if copied(file, made):
                    break
                with contextlib.suppress(FileNotFoundError):
                    os.remove(made + "-wal")
            else:
                raise Ended(f"snapshot.py: the log of {file} was written back in each of {TRIES} tries", 11)
        except OSError as fault:
            raise Ended(f"snapshot.py: {fault.filename or file} can't be read or copied: {fault.strerror}", 4) from None
        settled(made, file)
        os.replace(made, copy)
    return 0


if __name__ == "__main__":
    run(main)
