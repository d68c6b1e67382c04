"""A route that is added to the description under a running server: its lines, the file in its place, and the reload."""
import os
import time

from lib import groups
from lib.codes import code_text
from lib.files import read_bytes
from lib.link import Link, Refused
from lib.standing import noted, put
from lib.toml_text import DEEPEST, Reader
from lib.verdict import verdict_on
from lib.words import Ended

# Seconds between two looks at the server, and those in which it takes a description.
CLOSED, AGAIN, RELOAD = 9, 0.2, 2.0


def with_route(text, document, net, rights, note):
    """The text of a description with a route more, behind those that it has. Nothing else of the text changes."""
    line_end, routes = "\r\n" if "\r\n" in text else "\n", document.raw.get("route")
    if routes is not None and routes.made is None:
        return inlined(text, routes, f'{{ net = "{net}", rights = "{rights}" }}', line_end)
    table = document["route"][-1] if routes else document
    last = max(end_of(text, value) for value in table.raw.values() if value.made is None)
    at = text.find("\n", last) + 1 or len(text)
    before = "" if text[:at].endswith("\n") else line_end
    spaced = text.endswith(2 * line_end, 0, table.at) if routes else text.startswith(line_end, at)
    lines = [*([""] if spaced else []), "[[route]]", f'net = "{net}"  # {note}', f'rights = "{rights}"']
    return text[:at] + before + "".join(line + line_end for line in lines) + text[at:]


def end_of(text, value):
    return Reader(text).value(value.at, DEEPEST)[1]


def inlined(text, routes, table, line_end):
    """The text with one more table in `route = [..]`: in a line of its own, in front, where the others have lines."""
    at = routes.at + 1
    if not routes.data:
        return f"{text[:at]}{table}{text[at:]}"
    first, line = routes.data[0].at, text.find("\n", at) + 1
    if 0 < line <= first:
        indent = text[text.rfind("\n", 0, first) + 1:first]
        return f"{text[:line]}{indent}{table},{line_end}{text[line:]}"
    end = end_of(text, routes.data[-1])
    return f"{text[:end]}, {table}{text[end:]}"


def routes_in(verdict):
    return {route["net"]: route["rights"] for route in verdict.document["route"]}


class Served:
    """The server of a description, as the NetId of one of its routes is answered."""

    def __init__(self, to, net, me, port, until):
        self.to, self.net, self.me, self.port, self.until, self.link = to, net, me, port, until, None

    def version(self):
        """The symbol version; None where the server turns the NetId away."""
        seconds = max(min(self.until - time.monotonic(), 2.0), 0.1)
        try:
            self.link = self.link or Link(self.to, self.net, self.me, seconds)
            return self.link.read(self.port, groups.VERSION, 0, 1, 1)[0]
        except Refused as refused:
            raise Ended(f"{self.to} refuses to tell its version: {code_text(refused.code)}", 8) from None
        except Ended as end:
            self.close()
            if end.status != CLOSED:
                raise
            return None

    def has_risen(self, old):
        """Whether another version comes, or an answer where none came, in time."""
        while time.monotonic() < self.until:
            version = self.version()
            if version is not None and version != old:
                return True
            time.sleep(AGAIN)
        return False

    def close(self):
        if self.link:
            self.link.close()
        self.link = None


class Description:
    """The file of a description, where its server is, and how many signals that has."""

    def __init__(self, name, to, signals):
        self.name, self.to, self.signals, self.known = name, to, signals, []

    def verdict(self, given):
        """The verdict on these bytes. It takes seconds for very many symbols, so the last two are kept."""
        found = next((verdict for old, verdict in self.known if old == given), None)
        if found is None:
            found = verdict_on(given, self.signals)
            self.known = [(given, found), *self.known[:1]]
        return found

    def read(self):
        """The bytes of the file and the verdict on them, which is that they are accepted."""
        given = read_bytes(self.name)
        verdict = self.verdict(given)
        if verdict.status:
            more = ", and a configuration of adsd how many signals there are" if verdict.rule == 14 else ""
            raise Ended(f"{self.name} is refused: {verdict.lines[0]}; tools/why.py says why{more}", verdict.status)
        return given, verdict

    def add(self, net, rights, note, until):
        """Puts a route into the description, and sees that the server takes it; else the file is as it was."""
        given, before = self.read()
        text = with_route(given.decode("utf-8"), before.document, net, rights, note)
        after = self.verdict(text.encode())
        if after.status or routes_in(after) != {**routes_in(before), net: rights}:
            raise Ended(f"{self.name} would not have the route: {after.lines[0]}", 2)
        if time.monotonic() > until - RELOAD:
            raise Ended(f"to check {self.name} took too long for one request; a second one is quick", 11)
        me = next(iter(routes_in(before)), net)
        served = Served(self.to, before.document["net"], me, before.document["port"][0]["port"], until)
        try:
            old = served.version()
            if old is None and me != net:
                raise Ended(f"{self.to} turns {me} away, a route of {self.name}: does it serve it?", CLOSED)
            place = os.path.realpath(self.name)
            if read_bytes(place) != given or noted(place):
                raise Ended(f"{self.name} was changed meanwhile, or a deploy of it is not finished", 4)
            put(text.encode(), place)
            self.see(served, old, text.encode(), given)
        finally:
            served.close()

    def see(self, served, old, new, given):
        """Waits until the server has the new description; where it does not take it, the old one stands again."""
        try:
            if served.has_risen(old):
                return
            why = Ended(f"{served.to} did not take {self.name} in time", 7)
        except Ended as end:
            why = end
        try:
            if read_bytes(self.name) == new:
                put(given, os.path.realpath(self.name))
        except Ended as end:
            raise Ended(f"{why.why}; and the route stays in the description, since {end.why}", end.status) from None
        raise why
