"""Answers to searches for routers, and to requests for a route."""
import contextlib
import queue
import selectors
import threading
import time

from lib.discover_datagram import (ADD_ROUTE, IDENTIFY, LONGEST, OPTIONS, PASSWORD, ROUTE, USER, BadDatagram,
                                   datagram_of, identity, outcome)
from lib.discover_limits import Window
from lib.discover_route import routes_in
from lib.discover_users import users_of
from lib.letters import spelled
from lib.rules_nets import RIGHTS
from lib.words import Ended

# Answers in a second to one address and to all; wrong passwords in a minute of one address and of all; requests for a
# route that wait; seconds in which such a request is answered, since clients wait for five.
ANSWERS, WRONG, MOST_ASKED, PATIENCE = (1, 100, 1000), (60, 5, 60), 8, 4.5
REFUSED, NOBODY, NO = 0x704, "0.0.0.0.0.0", "asked for a route, and was refused"


class Router(threading.Thread):
    """Takes requests for a route, one after another. `users` is the file of users; without one it refuses all."""

    def __init__(self, followed, users, log):
        super().__init__(daemon=True)
        self.followed, self.users, self.log, self.added = followed, users, log, 0
        self.asked, self.wrong, self.told = queue.Queue(MOST_ASKED), Window(*WRONG), Window(60, 1, 1000)

    def once(self, address, line, more=""):
        """A line that is told once a minute of an address."""
        if self.told.take((address, line)):
            self.log.say(f"{address}: {line}{more}")

    def ask(self, asked, peer, send):
        """Takes a request, if there is room for it."""
        if not self.users:
            self.once(peer[0], f"{NO}: there is no --routes")
            send(outcome(asked, self.followed.net, REFUSED))
            return
        try:
            self.asked.put_nowait((asked, peer, send, time.monotonic() + PATIENCE))
        except queue.Full:
            self.once(peer[0], f"{NO}: too many ask at once")
            send(outcome(asked, self.followed.net, REFUSED))

    def run(self):
        while True:
            it = self.asked.get()
            if it is None:
                return
            asked, peer, send, until = it
            try:
                code = self.decided(asked, peer[0], until)
            except Ended as end:
                code = REFUSED
                self.once(peer[0], f"{NO}: {end.why}")
            except Exception as fault:  # one request must not end the others
                code = REFUSED
                self.once(peer[0], f"{NO}, since it failed: {type(fault).__name__}")
            send(outcome(asked, self.followed.net, code))

    def stop(self):
        """Waits for what is under way; what waits is not done."""
        with contextlib.suppress(queue.Empty):
            while True:
                self.asked.get_nowait()
        self.asked.put(None)
        self.join(PATIENCE + 1)

    def decided(self, asked, address, until):
        """The code that answers a request; the log says why."""
        if time.monotonic() > until:
            raise Ended("it waited too long behind others")
        users, name = users_of(self.users), asked.text(USER)
        if not users.may_ask(address):
            raise Ended("it is in none of the networks that may ask")
        if not self.wrong.has_room(address):
            raise Ended("too many wrong passwords within a minute, so this one was not looked at")
        if asked.data(PASSWORD) is None:
            raise Ended("it sent no password, or an encrypted one, which is not understood")
        user = users.user(name, asked.text(PASSWORD))
        if user is None:
            self.wrong.add(address)
            known = name in [it.name for it in users.users]
            self.log.say(f"{address}: {NO}: " + (f"a wrong password of {name}" if known else "an unknown user"))
            return REFUSED
        return self.routed(asked, address, user, until)

    def routed(self, asked, address, user, until):
        """The code for a user who is who he says."""
        net, name = asked.net(), spelled(asked.text(ROUTE), 40) or "a route"
        verdict = self.followed.description.read()[1]
        if net in (None, NOBODY, verdict.document["net"]):
            raise Ended(f"{net or 'nothing'} is no NetId of another machine")
        has = routes_in(verdict).get(net)
        if has is None:
            note = f"{name}, for {spelled(user.name, 64)} at {address}, {time.strftime('%Y-%m-%d', time.gmtime())}"
            self.followed.description.add(net, user.rights, note, until)
            self.added += 1
            stays = "; a temporary one was asked for, and it stays" if (asked.data(OPTIONS) or b"\0")[0] & 1 else ""
            self.log.say(f"{address}: {net} ({name}) has a route now, with {user.rights}, by {user.name}{stays}")
        elif RIGHTS.index(has) > RIGHTS.index(user.rights):
            raise Ended(f"{net} has a route with {has}, and {user.name} may give {user.rights}")
        else:
            self.log.say(f"{address}: {net} has a route already, with {has}; asked for by {user.name}")
        return 0


class Server:
    """Datagrams of some sockets, and their answers."""

    def __init__(self, sockets, name, version, router):
        self.sockets, self.name, self.version, self.router = sockets, name, version, router
        self.answers, self.found = Window(*ANSWERS), 0

    def run(self, stopped):
        with selectors.DefaultSelector() as poll:
            for it in self.sockets:
                it.setblocking(False)
                poll.register(it, selectors.EVENT_READ)
            while not stopped.is_set():
                for key, _ in poll.select(0.5):
                    self.take(key.fileobj)
                self.router.log.tick()

    def take(self, it):
        """One datagram of a socket."""
        try:
            given, peer = it.recvfrom(LONGEST + 1)
        except OSError:
            return
        try:
            asked = datagram_of(given)
        except BadDatagram as fault:
            self.router.once(peer[0], "sent what is no search and no request for a route", f": {fault}")
            return
        if asked.service not in (IDENTIFY, ADD_ROUTE) or not self.answers.take(peer[0]):
            return
        send = Sender(it, peer)
        if asked.service == ADD_ROUTE:
            self.router.ask(asked, peer, send)
            return
        self.found += 1
        self.router.once(peer[0], "looked for routers")
        send(identity(asked, self.router.followed.net, self.name, self.version))


class Sender:
    """Sends an answer to who asked. A broadcast address is none that it could be sent to."""

    def __init__(self, it, peer):
        self.socket, self.peer = it, peer

    def __call__(self, answer):
        try:
            self.socket.sendto(answer.bytes(), self.peer)
        except OSError:
            pass
