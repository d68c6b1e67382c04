"""What tries/days.py knows of the values that were written, and where it finds them: in the server, in the store, in
copies beside it, in dumps.
"""
import glob
import json
import os
import re

from lib.stores import standing
from lib.type_texts import lower

COPIED = re.compile(r"copied to ([^\s,;]+)")
# How many copies stay.
KEPT = 20
DUMPED = re.compile(r"^all persistent values are in (.+)$", re.M)


class Written:
    """The acknowledged numbers of each path in their order. The first `safe` of them were saved, or stood in a copy or
    a dump; of those up to `due` the log says that they are not saved.
    """

    def __init__(self):
        self.rows, self.safe, self.due, self.ever, self.late, self.last = {}, {}, {}, {}, set(), 9
        self.count = dict.fromkeys(("server", "store", "copy", "dump", "told", "lost", "written", "overtaken"), 0)

    def next(self):
        self.last += 1
        return self.last

    def sent(self, path, number):
        self.ever.setdefault(path, set()).add(number)

    def acknowledged(self, path, number):
        self.rows.setdefault(path, []).append(number)
        self.count["written"] += 1

    def are_safe(self):
        """A save was made, or all was saved at an end."""
        self.safe = {path: len(row) for path, row in self.rows.items()}
        self.due = dict(self.safe)

    def are_told(self):
        """A save was due, and the log says that it can't be made."""
        self.due = {path: len(row) for path, row in self.rows.items()}

    def needed(self, path, alive):
        return len(self.rows[path]) if alive else self.safe.get(path, 0)

    def best(self, path, places):
        """How many of the numbers of a path the latest that was found is, and where it was found."""
        row = self.rows[path]
        found = [
            (row.index(number) + 1, place)
            for place, numbers in places
            for number in numbers.get(path, ())
            if number in row
        ]
        return max(found, key=lambda it: it[0], default=(0, None))

    def missing(self, places, alive):
        """What is lost: triples of a path, the number and how many later ones there are."""
        lost = []
        for path in self.rows:
            need = self.needed(path, alive)
            if self.best(path, places)[0] < need:
                lost.append((path, self.rows[path][need - 1]))
        return lost

    def overtake(self, places, served):
        """Values that came beside deploy.py behind the new description, in the moment in which it set the value of
        before again: it wrote over them. They are counted, and are as if they had not been written. So are those of
        what is not persistent any more.
        """
        for path, row in self.rows.items():
            best = self.best(path, places)[0]
            gone = [number for number in row[best:] if number in self.late]
            self.count["overtaken"] += bool(gone) and path in served
            row[best:] = [number for number in row[best:] if number not in self.late]

    def odd(self, server):
        """What the server answers and nobody wrote."""
        return [
            (path, number)
            for path, numbers in server.items()
            for number in numbers
            if number not in self.ever.get(path, ())
        ]

    def settle(self, places, alive):
        """Counts where each value was found; behind a restart those that are gone never come again."""
        for path, row in self.rows.items():
            need, (best, place) = self.needed(path, alive), self.best(path, places)
            if need:
                self.count[place if best >= need else "lost"] += 1
            if not alive:
                self.count["told"] += max(0, self.due.get(path, 0) - max(best, need))
            if not alive or best < need:
                del row[best:]
                self.safe[path] = self.due[path] = best

    def forgive(self, places):
        """What a fault took that was told: each path goes on from what is found of it."""
        for path, row in self.rows.items():
            best = self.best(path, places)[0]
            self.count["told"] += self.safe.get(path, 0) > best
            del row[best:]
            self.safe[path] = self.due[path] = best


class Beside:
    """The copies and dumps that a log or a tool has named, and what they have."""

    def __init__(self, book, folder):
        self.book, self.folder, self.copies, self.dumps, self.known, self.changed = book, folder, set(), set(), {}, []

    def log(self, line):
        found = COPIED.search(line)
        if found:
            self.copies.add(os.path.join(self.folder, found[1]))

    def tool(self, text):
        for line in DUMPED.findall(text):
            self.dumps.update(line.split(" and "))

    def moved(self, folder, other):
        """The copies of a folder that is renamed."""
        for path in tuple(self.copies):
            if os.path.dirname(path) == folder:
                own = os.path.join(other, os.path.basename(path))
                self.copies.remove(path)
                self.copies.add(own)
                if path in self.known:
                    self.known[own] = self.known.pop(path)

    def places(self):
        """What each kind of place has: pairs of its name and the numbers by path."""
        found = []
        for kind, paths, read in (("copy", self.copies, self.of_store), ("dump", self.dumps, self.of_dump)):
            numbers = {}
            for path in tuple(paths):
                for own, number in self.held(path, read):
                    numbers.setdefault(own, set()).add(number)
            found.append((kind, numbers))
        return found

    def held(self, path, read):
        """Pairs of path and number of a file. It must stay as it is; of copies the last 20 stay."""
        try:
            it = os.stat(path)
        except OSError:
            head = path[: path.rindex(".before-") + 8] if ".before-" in path else None
            is_old = head and len(glob.glob(glob.escape(head) + "*")) >= KEPT
            return self.known[path][1] if is_old and path in self.known else []
        sign = it.st_ino, it.st_size, it.st_mtime_ns
        if path not in self.known:
            with open(path, "rb") as file:
                self.known[path] = sign, list(read(file.read()))
        elif self.known[path][0] != sign:
            self.changed.append(path)
            self.known[path] = sign, []
        return self.known[path][1]

    def of_store(self, data):
        found = standing(data)
        return self.book.of_store(found[1]).items() if found else []

    def of_dump(self, data):
        for name, text in json.loads(data)["bytes"].items():
            yield from self.book.of_bytes(lower(name), bytes.fromhex(text))
