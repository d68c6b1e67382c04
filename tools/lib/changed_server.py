"""The server under which a description is changed, and its values until it has the new one."""
import time

from lib import groups
from lib.codes import code_text
from lib.link import Link, Refused, net_of
from lib.plant import Plant
from lib.saved import Restoring
from lib.value_link import Values
from lib.words import Ended, number


class Server:
    """The server under which a description is changed."""

    def __init__(self, options):
        self.to, self.me, self.seconds, self.wait = (
            options["to"],
            net_of(options["me"], "--me"),
            options["seconds"],
            options["wait"],
        )
        self.port = number(options["port"], "--port", 1, 65535)
        self.link = Link(self.to, net_of(options["netid"], "--netid"), self.me, self.seconds)

    def version(self, *nets):
        """The version of its description, asked under the NetId that it had, or another that it may have now."""
        refusal = None
        for net in dict.fromkeys((self.link.net, *nets)):
            self.link.net = net
            try:
                return self.link.read(self.port, groups.VERSION, 0, 1, 1)[0]
            except Refused as refused:
                refusal = refusal or refused
        raise Ended(f"{self.to} refuses to tell its version at port {self.port}: {code_text(refusal.code)}", 8)

    def values(self, port, verdict):
        return Values((self.to, self.link.net, self.me, self.seconds), port, Plant(verdict) if verdict else None)

    def serves(self, kepts, verdict):
        """Whether the server has the types of all values that are to be set."""
        return all(Restoring(kept, verdict).is_served(self.values(kept.port, verdict)) for kept in kepts)

    def risen(self, net, old, latest, is_new):
        """The new version, once the server has it; None where it stays. A new NetId holds from the reload on. A version
        that rises for a description of before, which was not taken yet, is none.
        """
        until, before = time.monotonic() + self.wait, self.link.net
        while True:
            latest.look()
            for own in dict.fromkeys((before, net)):
                self.link.net = own
                try:
                    version = self.link.read(self.port, groups.VERSION, 0, 1, 1)[0]
                except Refused:
                    continue
                if (version != old or own != before) and is_new():
                    return version
            latest.was_before()
            if time.monotonic() > until:
                return None
            time.sleep(max(0.02, 4 * latest.took))


class Latest:
    """Those values that a change loses, as they were last before it: clients go on to write them until the server
    has the new description.
    """

    def __init__(self, persistent=(), keys=()):
        self.persistent, self.keys, self.last, self.found, self.took = persistent, keys, [], {}, 0.0

    def look(self):
        started = time.monotonic()
        try:
            self.last = [it for one in self.persistent for it in one.read(self.keys)] if self.keys else []
        except Ended:
            self.last, self.keys = [], ()
        self.took = time.monotonic() - started

    def was_before(self):
        """What was looked at last was the old description's."""
        self.found.update(((it.port, it.name), it) for it in self.last)

    def over(self, saved):
        return [self.found.get((it.port, it.name), it) for it in saved]
