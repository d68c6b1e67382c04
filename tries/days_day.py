"""A day of tries/days.py: its folder, its daemon, and how each value is looked for."""
import contextlib
import os
import pathlib
import random
import subprocess
import sys
import time

from days_daemon import Broken, Daemon
from days_plant import Book, leaves_of, value_for, variant_of
from days_seen import Beside, Written
from lib.link import Refused
from lib.stores import standing
from lib.type_texts import lower
from lib.words import Ended
from tries.running import ME, NET

# Seconds past which a save is due, for which it is waited for, and by which a log is late.
DUE, LATE, SLOW = 1.1, 20.0, 4.0
# How often a look is begun at least, however slow the machine is.
LEAST_TRIES = 4


class Day:
    """A plant in a folder of its own: a description, a store and a daemon."""

    def __init__(self, program, has, seed, folder):
        self.program, self.has, self.chance, self.folder = program, has, random.Random(seed), pathlib.Path(folder)
        self.place, self.kept, self.book, self.written = (
            self.folder / "plant.toml",
            self.folder / "store" / "kept",
            Book(),
            Written(),
        )
        self.beside, self.findings, self.told, self.older, self.longest = Beside(self.book, folder), [], [], None, 0.0
        self.kept.parent.mkdir()
        self.words = ["--store", "store/kept"]
        if self.chance.random() < 0.25:
            (self.folder / "elsewhere").mkdir()
            self.kept.symlink_to("../elsewhere/real")
            self.told.append("the store is a link")
        if "--keep-description" in has and self.chance.random() < 0.5:
            self.words += ["--keep-description", "true"]
            self.told.append("descriptions are kept")
        self.variant = self.take(variant_of(self.chance))
        self.place.write_bytes(self.variant.text)
        self.daemon = None
        self.start()

    def take(self, variant):
        self.book.take(variant)
        return variant

    def found(self, what):
        self.findings.append(what)

    # The daemon.

    def start(self, *more):
        self.daemon = Daemon(self.program, self.folder, [*self.words, *more], self.beside.log)
        if not self.daemon.listens():
            raise Broken(f"it does not start: status {self.daemon.process.returncode}: {self.daemon.log()}")

    def refused(self, status, *parts):
        """A start that must end with a status and a sentence."""
        it = Daemon(self.program, self.folder, self.words, self.beside.log)
        if it.listens():
            it.kill()
            raise Broken(f"it starts where status {status} is due ({', '.join(parts)}): {it.log()}")
        said = "\n".join(it.lines)
        if it.process.returncode not in status or not all(part in said for part in parts):
            self.found(f"status {it.process.returncode} where {status} is due, with {parts}: {it.log()}")

    def stop(self):
        """Stops in order. A status of 0 says that all is saved; another one the log must tell."""
        status = self.daemon.stop()
        if status == 0:
            self.written.are_safe()
        elif status == 14 and self.daemon.is_held():
            self.written.are_told()
        else:
            self.found(f"a stop ends with status {status}, and the log says: {self.daemon.log()}")

    def again(self, is_killed=False, *more):
        self.daemon.kill() if is_killed else self.stop()
        self.start(*more)

    # What is seen.

    def places(self):
        server = {path: {number} for path, number in self.daemon.numbers().items()}
        store = {path: {number} for path, number in self.in_store().items()}
        return [("server", server), *self.beside.places(), ("store", store)]

    def in_store(self):
        try:
            found = standing(self.kept.read_bytes())
        except OSError:
            return {}
        return self.book.of_store(found[1]) if found else {}

    def look(self, alive=True):
        """Looks for each value; what can't be found at once is looked for again, since a log comes later than what it
        tells.
        """
        until, tries = time.monotonic() + SLOW, 0
        while True:
            tries += 1
            try:
                places = self.places()
                lost = self.written.missing(places, alive)
                if not lost:
                    break
            except (Ended, Refused) as fault:
                lost, places = [(f"no look: {fault}", 0)], []
            if time.monotonic() > until and tries >= LEAST_TRIES or self.daemon.process.poll() is not None:
                break
            time.sleep(0.1)
        if not places:
            raise Broken(f"the server can't be asked: {lost[0][0]}; {self.daemon.process.poll()}, {self.daemon.log()}")
        if alive and lost and self.daemon.is_held():
            # (what a copy is to have that can't be made waits for it)
            self.written.count["told"] += len(lost)
            return
        for path, number in lost[:4]:
            self.found(
                f"lost: {path} = {number}; {len(lost)} in all; it had {self.written.rows[path][-3:]}, "
                f"the server says {self.daemon.said(path)}; "
                f"the log says: {self.daemon.log()}"
            )
        for path, number in self.written.odd(places[0][1]):
            self.found(f"{path} = {number}, which nobody wrote")
        for path in self.beside.changed:
            self.found(f"{path} was overwritten")
        self.beside.changed.clear()
        self.written.settle(places, alive)

    def overtake(self):
        with contextlib.suppress(Ended, Refused):
            symbols = self.leaves(self.daemon.symbols())
            self.written.overtake(self.places(), {path for _, leaves in symbols for path, _ in leaves})

    def wait(self):
        """Past the time by which a save is due: it is made, or the log says that it can't be."""
        began, equal = time.monotonic(), None
        time.sleep(DUE)
        while True:
            with contextlib.suppress(Ended, Refused):
                server, store = self.daemon.numbers(), self.in_store()
                is_saved, is_held = (
                    all(store.get(path) == number for path, number in server.items()),
                    self.daemon.is_held(),
                )
                equal = (equal or time.monotonic()) if is_saved else None
                # (what is lost is for the look to tell, since a log may come later than what it tells)
                if is_saved and (
                    not self.written.missing(self.places(), True) or not is_held and time.monotonic() > equal + SLOW
                ):
                    return self.saved(equal - began)
                if is_held:
                    self.written.are_told()
                    return "not saved, and told"
            if time.monotonic() > began + LATE or self.daemon.process.poll() is not None:
                self.written.are_told()
                self.found(f"neither saved in {LATE:g} s nor told: {self.daemon.process.poll()}, {self.daemon.log()}")
                return "not saved, not told"
            time.sleep(0.05)

    def saved(self, seconds):
        self.longest = max(self.longest, seconds)
        self.written.are_safe()
        if self.chance.random() < 0.5:
            self.older = self.kept.read_bytes()
        return "saved"

    # What is done.

    def leaves(self, values):
        """The paths that may be written now, of each symbol."""
        return [
            (own, [(path, inner) for path, inner, _ in leaves_of(lower(own.name), own.shape, 0)])
            for own in values.knowns
        ]

    def write(self, count, values=None):
        """Writes some values, each with a number of its own; what is acknowledged is noted."""
        symbols = self.leaves(values or self.daemon.symbols())
        every = [leaf for _, leaves in symbols for leaf in leaves]
        given = {}
        for path, shape in self.chance.sample(every, min(count, len(every))):
            number = self.written.next()
            value = value_for(shape, number)
            if value is not None:
                given[path] = (value, number)
                self.written.sent(path, number)
        if not given:
            return [] if values else 0
        link = values.values if values else self.daemon.link()
        codes = link.put({path: value for path, (value, _) in given.items()})
        done = [given[lower(path)][1] for path, code in codes if code == 0]
        for path, code in codes:
            if code == 0:
                self.written.acknowledged(lower(path), given[lower(path)][1])
        return done if values else len(done)

    def put(self, text):
        """A description, renamed into its place by hand."""
        beside = self.folder / "plant.new"
        beside.write_bytes(text)
        os.replace(beside, self.place)

    def accepted(self):
        return sum("reload accepted" in line for line in self.daemon.lines)

    def is_taken(self, count, seconds=15):
        """Whether one more description is taken than before."""
        until = time.monotonic() + seconds
        while self.accepted() == count and time.monotonic() < until and self.daemon.process.poll() is None:
            time.sleep(0.05)
        return self.accepted() > count

    def tool(self, script, *words, kill=None):
        """A run of deploy.py; what it prints comes at once, as on a terminal. With `kill` it is killed behind so many
        seconds.
        """
        on = ["--to", self.daemon.to, "--netid", NET, "--me", ME, "--wait", "20", "--seconds", "20", "--yes"]
        it = subprocess.Popen(
            [sys.executable, "-u", *map(str, [*script, *words, *on])],
            stdin=subprocess.DEVNULL,
            stdout=subprocess.PIPE,
            stderr=subprocess.PIPE,
            cwd=self.folder,
        )
        try:
            out, err = it.communicate(timeout=kill or 120)
        except subprocess.TimeoutExpired:
            it.kill()
            out, err = it.communicate()
            if not kill:
                self.found("deploy.py does not end in 120 s")
        said = (out + err).decode("utf-8", "replace")
        self.beside.tool(said)
        if "Traceback" in said:
            self.found(f"deploy.py: {said[-600:]}")
        return it.returncode, said

    def source(self, variant):
        """A file with a description, beside the plant."""
        path = self.folder / f"next{len(self.told)}.toml"
        path.write_bytes(variant.text)
        return path
