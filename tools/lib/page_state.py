"""What a page keeps over its restarts, in a file that is replaced whole: its alarms and its log of writes."""
import json
import os
import threading
import time

from lib.files import read_bytes, regular, write_text
from lib.page_alarms import FIELDS
from lib.words import Ended

MOST_BYTES, BETWEEN = 20000000, 0.5
LOG_FIELDS = {"at": int, "by": str, "port": int, "name": str, "was": str, "value": str, "why": str}


class State(threading.Thread):
    """Writes the newest state, by a thread of its own, since a disk may be slow.

    Where it can't be written, `fault` says why, `told` is called, and it is tried again.
    """

    def __init__(self, name, told):
        super().__init__(daemon=True)
        self.name, self.told, self.fault, self.due, self.text = name, told, None, threading.Event(), None

    def change(self, said):
        self.text = json.dumps(said, indent=1, ensure_ascii=False) + "\n"
        self.due.set()

    def run(self):
        while True:
            self.due.wait()
            self.due.clear()
            try:
                write_text(self.name, self.text)
                why = None
            except Ended as end:
                why = f"What this page keeps can't be kept: {end.why}."
                self.due.set()
            if why != self.fault:
                self.fault = why
                self.told()
            time.sleep(BETWEEN if why is None else 5)


def read_state(name):
    """What a file of a state says; what a new one would where there is none."""
    nothing = {"alarms": [], "past": [], "log": []}
    if not name:
        return nothing
    folder = os.path.dirname(os.path.abspath(name))
    if not os.path.isdir(folder):
        raise Ended(f"--state {name}: there is no folder {folder}", 4)
    if not os.path.exists(name):
        return nothing
    regular(name)
    given = read_bytes(name, MOST_BYTES + 1)
    if not given.strip():
        return nothing
    try:
        said = json.loads(given)
    except (ValueError, RecursionError):
        said = None
    is_right = (
        isinstance(said, dict) and all(isinstance(said.get(key), list) for key in nothing) and len(given) <= MOST_BYTES
    )
    if (
        not is_right
        or not all(is_row(row, FIELDS) for row in said["alarms"] + said["past"])
        or not all(is_row(row, LOG_FIELDS) for row in said["log"])
    ):
        raise Ended(f"{name} is no file that page.py has kept: name another one by --state, or take it away", 4)
    return said


def is_row(row, fields):
    return (
        isinstance(row, dict)
        and set(row) == set(fields)
        and all(isinstance(row[name], kind) and not isinstance(row[name], bool) for name, kind in fields.items())
    )
