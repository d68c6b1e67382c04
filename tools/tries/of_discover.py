"""discover.py: found by what AdsLib and pyads send; routes that a server takes, and what is refused; floods, damage."""
import contextlib
import functools
import io
import os
import queue
import random
import shutil
import signal
import socket
import subprocess
import sys
import tempfile
import threading
import time

import discover
from lib.discover_datagram import LONGEST, PASSWORD as PASSWORD_TAG, datagram_of, identity, outcome, search, wish
from lib.discover_limits import Log, Window
from lib.discover_route import routes_in, with_route
from lib.discover_serve import Router, Sender, Server
from lib.discover_users import hash_of
from lib.program import run as run_program
from lib.standing import Note, forget
from lib.verdict import verdict_on
from lib.words import Ended
from tries import damage
from tries.discover_bytes import (ADDRESS, NAME, NET, PASSWORD, USER, adslib_add, adslib_address, adslib_code,
                                  adslib_net, damaged, pyads_add, pyads_address, pyads_code, pyads_net)
from tries.of_deploy import changed, text_of
from tries.of_program import daemon_of
from tries.running import FOREVER, ME, NET as SERVER, PLANT, TOOLS, Served, free_port, refused, see, tool

COST, HERE = (16384, 8, 1), "127.0.0.1"
NO = "asked for a route, and was refused"


def asker(source=HERE):
    it = socket.socket(socket.AF_INET, socket.SOCK_DGRAM)
    it.bind((source, 0))
    return it


class Found:
    """discover.py serve as a process; `said` is what it has said on standard error so far."""

    def __init__(self, folder, *words):
        self.name = os.path.join(folder, "said")
        run = [sys.executable, os.path.join(TOOLS, "discover.py"), "serve", *words]
        run += ["--listen", f"{HERE}:0", "--listen", "127.255.255.255:0"]
        with open(self.name, "wb") as said:
            self.process = subprocess.Popen(run, stdin=subprocess.DEVNULL, stdout=subprocess.PIPE, stderr=said,
                                            text=True)
        self.places = [self.listening() for _ in range(2)]
        self.to = "{}:{}".format(*self.places[0])

    def listening(self):
        line = self.process.stdout.readline()
        see(line.startswith("listening at 127."), f"discover.py serve says {line!r}")
        host, port = line.split()[-1].split(":")
        return host, int(port)

    def __enter__(self):
        return self

    def __exit__(self, *_):
        self.process.send_signal(signal.SIGTERM)
        try:
            out = self.process.communicate(timeout=20)[0]
        except subprocess.TimeoutExpired:
            self.process.kill()
            out = "nothing"
        see(self.process.returncode == 0 and out.startswith("searches "), f"serve: {out!r}, {self.process.returncode}")
        see("Traceback" not in self.said() and PASSWORD not in self.said(), f"serve says {self.said()[-300:]!r}")

    def said(self):
        return text_of(self.name)

    def says(self, part, count=1):
        until = time.monotonic() + 10
        while self.said().count(part) < count and time.monotonic() < until:
            time.sleep(0.02)
        see(self.said().count(part) == count, f"serve does not say {part!r} {count} times: {self.said()!r}")

    def asked(self, given, source=HERE, seconds=20.0):
        """The answer to a datagram; None where none comes."""
        with asker(source) as it:
            it.settimeout(seconds)
            it.sendto(given, self.places[0])
            try:
                return it.recv(65536)
            except socket.timeout:
                return None

    def searched(self, source=HERE):
        """The NetId that a search gets, which is sent once more where it was lost among others."""
        answers = (self.asked(adslib_address(), source, 1.0) for _ in range(20))
        return adslib_net(next((answer for answer in answers if answer), b""))


@functools.cache
def users_text():
    """A file of two users."""
    users = "".join(f'[[user]]\nname = "{user}"\nhash = "{hash_of(PASSWORD, COST)}"\nrights = "{rights}"\n'
                    for user, rights in ((USER, "write"), ("chef", "control")))
    return 'networks = ["127.0.0.0/30"]\n' + users


def users_file(folder, text=None):
    """A file of users, or with another text."""
    name = os.path.join(folder, "users.toml")
    with open(name, "w", encoding="utf-8") as file:
        file.write(users_text() if text is None else text)
    return name


ANSWER = bytes.fromhex("03661471 00000000 01000080 050102030101 1027 02000000"
                       "0500 0700 6c696e652d3700 0300 0400 0301ba0f")


def searched(folder):
    """Each search of a client is answered as that client reads it; and by find, by host and by broadcast."""
    place = os.path.join(folder, "plant.toml")
    with Found(folder, place, "--name", "line-7", "--version", "3.1.4026") as found:
        see(adslib_net(found.asked(adslib_address())) == SERVER, "GetRemoteAddress of AdsLib does not get the NetId")
        see(pyads_net(found.asked(pyads_address())) == SERVER, "adsGetNetIdForPLC of pyads does not get the NetId")
        see(found.asked(adslib_address()) == ANSWER, "the answer to a search has other bytes")
        row = ["line-7", SERVER, HERE, "3.1.4026", "-"]
        for to in (found.to, "127.0.0.0/8:{}".format(found.places[1][1])):
            out, err, status = tool("discover.py", "find", "--to", to, "--seconds", "1")
            see(status == 0 and [line.split() for line in out.splitlines()[1:]] == [row], f"find --to {to}: {out}{err}")
        for given in (identity(search(), SERVER, "x", (3, 1, 1)), outcome(search(), SERVER, 0),
                      search()._replace(service=2)):
            see(found.asked(given.bytes(), seconds=0.2) is None, f"service 0x{given.service:X} is answered")
        see(pyads_code(found.asked(pyads_add())) is False, "a route is given without --routes")
        found.says("there is no --routes")
        followed(found, folder, place)
    nobody = f"{HERE}:{free_port()}"
    refused(11, "no device answered in 1 seconds", "discover.py", "find", "--to", nobody, "--seconds", "1")


def followed(found, folder, place):
    """A changed description is followed; a refused one is not."""
    for name, pair, part in (("other.toml", ('"5.1.2.3.1.1"', '"6.6.6.6.1.1"'), "found as 6.6.6.6.1.1, and no more as"),
                             ("broken.toml", ("[[port]]", "[[prot]]"), "found as 6.6.6.6.1.1 still")):
        os.rename(changed(folder, name, pair), place)
        found.says(part)
        see(found.searched() == "6.6.6.6.1.1", f"the NetId with {name} is another one")
    shutil.copy(PLANT, place)


class Daemon:
    """The daemon over a configuration; or `ads serve` where the daemon was not built."""

    def __init__(self, program, folder, place):
        self.to, daemon = f"{HERE}:{free_port()}", daemon_of(program)
        self.config = os.path.join(folder, "adsd.toml")
        with open(self.config, "w", encoding="utf-8") as file:
            file.write(f'description = "{place}"\nlisten = ["{self.to}"]\n')
        words = [daemon, self.config] if daemon else [program, "serve", place, "--listen", self.to, "--events", FOREVER]
        none = subprocess.DEVNULL
        self.process = subprocess.Popen(words, stdin=none, stdout=subprocess.PIPE, stderr=none)
        see(self.process.stdout.readline() == b"listening\n", "the server does not listen")

    def __enter__(self):
        return self

    def __exit__(self, *_):
        self.process.kill()
        self.process.communicate()


def asked_as(program, to, net, *words):
    return run_program(program, *words, "--to", to, "--netid", SERVER, "--me", net)


def routed(program, folder, place):
    """AdsLib and pyads get a route from a running server, with the right of the user; then all that is refused."""
    users = users_file(folder)
    with Daemon(program, folder, place) as daemon, Found(folder, daemon.config, "--routes", users) as found:
        before = text_of(place)
        see(asked_as(program, daemon.to, NET, "get", "Main.count")[1] == 9, "there is a route before it is asked for")
        see(adslib_code(found.asked(adslib_add())) == 0, f"AddRemoteRoute of AdsLib: {found.said()}")
        see(asked_as(program, daemon.to, NET, "set", "Main.count", "7") == ("ok\n", 0), "the new route is not served")
        note = f"{NAME}, for {USER} at {HERE}, {time.strftime('%Y-%m-%d', time.gmtime())}"
        route = f'[[route]]\nnet = "{NET}"  # {note}\nrights = "write"\n'
        see(text_of(place) == before.replace("[[type]]", route + "[[type]]", 1), f"the description: {text_of(place)}")
        see(asked_as(program, daemon.to, NET, "control", "6", "0")[1] == 8, "a route that may write sets the ADS state")
        other = "10.0.0.1.1.1"
        see(pyads_code(found.asked(pyads_add(other, user="chef"))) is True, f"add_route_to_plc: {found.said()}")
        see(routes_in(verdict_on(text_of(place).encode()))[other] == "control", "chef's route has not his right")
        see(asked_as(program, daemon.to, other, "control", "6", "0") == ("ok\n", 0), "chef's route has not its right")
        asked_by_tool(found, folder, place)
        stays(found, place)
        too_many(found)


def asked_by_tool(found, folder, place):
    """add-route asks as pyads does, and a route that is there already is one."""
    secret = os.path.join(folder, "secret")
    with open(secret, "w", encoding="utf-8") as file:
        file.write(PASSWORD + "\n")
    before = text_of(place)
    words = ("--address", ADDRESS, "--name", NAME, "--user", USER, "--password-file", secret)
    see(wish(NET, ADDRESS, NAME, USER, PASSWORD).bytes() == pyads_add(), "add-route asks otherwise than pyads")
    out, err, status = tool("discover.py", "add-route", found.to, "--netid", NET, *words)
    see(status == 0 and f"has a route to {NET} at {ADDRESS}" in out, f"a route a second time: {out}{err}")
    see(text_of(place) == before, "a route a second time changes the description")
    refused(8, "0x704 reading or writing not permitted", "discover.py", "add-route", found.to, "--netid", ME, *words)


def liberal():
    """Requests in other forms that mean the same: tags turned around, texts without NUL, unknown tags, bytes behind."""
    asked = datagram_of(pyads_add())
    bare = [(tag, data.rstrip(b"\0")) for tag, data in asked.tags]
    odd = [(99, b"x" * 50), *asked.tags, (9, b"\1\0\0\0"), (0, b"")]
    return [asked._replace(tags=asked.tags[::-1]).bytes(), asked._replace(tags=bare).bytes(),
            asked._replace(tags=odd).bytes(), asked.bytes() + b"behind"]


def stays(found, place):
    """What gives no route: each is refused, and the description stays. What means the same as a request is one."""
    before = text_of(place)
    for given in liberal():
        see(adslib_code(found.asked(given)) == 0 and text_of(place) == before, f"{given.hex()} is refused")
    no_password = datagram_of(adslib_add("10.0.0.2.1.1"))
    no_password = no_password._replace(tags=[it for it in no_password.tags if it[0] != PASSWORD_TAG])
    for what, given in [
            ("a wrong password", adslib_add("10.0.0.2.1.1", password="no")), ("no password", no_password.bytes()),
            ("no user", adslib_add("10.0.0.2.1.1", user="")), ("a stranger", adslib_add("10.0.0.2.1.1", user="nobody")),
            ("more right than the user may give", adslib_add(ME)), ("the server's own NetId", adslib_add(SERVER)),
            ("a NetId of zeros", adslib_add("0.0.0.0.0.0")), ("no tags", adslib_add()[:20] + bytes(4)),
            ("a NetId of five bytes", adslib_add().replace(b"\7\0\6\0\xc0", b"\7\0\5\0"))]:
        see(adslib_code(found.asked(given)) == 0x704 and text_of(place) == before, f"{what}: {found.said()!r}")
    Note("deploy", "", "", 1, []).write(place)
    see(adslib_code(found.asked(adslib_add("10.0.0.2.1.1"))) == 0x704, "a route within a deploy")
    found.says("a deploy of it is not finished")
    forget(place)
    see(text_of(place) == before, "the description was changed within a deploy")
    see(adslib_code(found.asked(adslib_add("10.0.0.2.1.1"), "127.0.0.4")) == 0x704, "a network that may not ask")
    found.says("it is in none of the networks")


def too_many(found):
    """Wrong passwords: after five of an address in a minute the right one is refused, too; others are not."""
    for _ in range(2):
        see(adslib_code(found.asked(adslib_add(password="no"))) == 0x704, "a wrong password")
    found.says(f"{HERE}: {NO}: a wrong password of {USER}", 3)
    found.says(f"{HERE}: {NO}: an unknown user", 2)
    for _ in range(3):
        see(adslib_code(found.asked(adslib_add())) == 0x704, "the right password behind five wrong ones")
    found.says(f"{HERE}: {NO}: too many wrong passwords within a minute")
    see(adslib_code(found.asked(adslib_add(), "127.0.0.2")) == 0, "another address is refused, too")


def not_taken(program, folder, place):
    """A server of another file, and none at all: the description is as it was, and the answer is a refusal."""
    other = os.path.join(folder, "same.toml")
    for name in (other, place):
        shutil.copy(PLANT, name)
    with Served(program, other) as server:
        with Found(folder, place, "--routes", users_file(folder), "--to", server.to) as found:
            see(adslib_code(found.asked(adslib_add())) == 0x704, "a route that the server did not take")
            found.says("did not take")
            see(text_of(place) == text_of(PLANT), "the description has a route that the server did not take")
    with Found(folder, place, "--routes", users_file(folder), "--to", f"{HERE}:{free_port()}") as found:
        see(adslib_code(found.asked(adslib_add())) == 0x704, "a route without a server")
        found.says("can't be reached")
        os.unlink(os.path.join(folder, "users.toml"))
        see(adslib_code(found.asked(adslib_add())) == 0x704, "a route without the file of users")
        see(text_of(place) == text_of(PLANT), "the description has a route without a server")


def alone(program, folder, place):
    """A description without any route gets its first one."""
    text = text_of(PLANT)
    with open(place, "w", encoding="utf-8") as file:
        file.write(text[:text.index("[[route]]")] + text[text.index("[[type]]"):])
    with Served(program, place) as server:
        with Found(folder, place, "--routes", users_file(folder), "--to", server.to) as found:
            see(adslib_code(found.asked(adslib_add())) == 0, f"the first route: {found.said()}")
        see(asked_as(program, server.to, NET, "set", "Main.count", "7") == ("ok\n", 0), "the first route is not served")


def flooded(folder, size):
    """One address gets 100 answers a second, others get theirs; ten thousand damaged datagrams end nothing."""
    count, rng = size.of(30000, 10000), random.Random(size.seed)
    with Found(folder, os.path.join(folder, "plant.toml"), "--routes", users_file(folder)) as found:
        with asker() as it:
            begun, came = time.monotonic(), 0
            for _ in range(1000):
                it.sendto(adslib_address(), found.places[0])
            it.settimeout(0.5)
            try:
                while it.recv(65536):
                    came += 1
            except socket.timeout:
                pass
            gone = time.monotonic() - begun
            see(50 <= came <= 100 * (int(gone) + 1), f"{came} answers in {gone} seconds")
        see(found.searched("127.0.0.3") == SERVER, "another address has no answer beside a flood")
        lines, begun = len(found.said().splitlines()), time.monotonic()
        askers = [asker(f"127.0.0.{10 + place}") for place in range(10)]
        for place in range(count):
            askers[place % 10].sendto(damaged(rng), found.places[0])
        see(found.searched("127.0.0.5") == SERVER, "no answer behind damaged datagrams")
        lines, gone = len(found.said().splitlines()) - lines, time.monotonic() - begun
        see(lines <= 17 * (gone + 1.5), f"{lines} lines in {gone:.1f} seconds")
        for it in askers:
            it.close()
    return count


class Fake:
    """In place of a socket: gives a datagram, and keeps what is sent."""

    def __init__(self, given):
        self.given, self.sent = given, []

    def recvfrom(self, most):
        return self.given[:most], (HERE, 1)

    def sendto(self, answer, _):
        self.sent.append(answer)


def limited():
    """The log has 16 lines a second, and how many more there were; a window has room for so many of each and of all."""
    said = io.StringIO()
    with contextlib.redirect_stderr(said):
        log = Log()
        for number in range(40):
            log.second = int(time.monotonic())
            log.say(f"line {number}")
        log.second -= 1
        log.tick()
        log.tick()
    wanted = [f"line {number}" for number in range(16)] + ["24 more lines left out"]
    see(said.getvalue().splitlines() == wanted, f"the log: {said.getvalue()!r}")
    window = Window(0.3, 2, 3)
    took = [window.take(key) for key in "aaabcb"]
    see(took == [True, True, False, True, False, False], f"a window took {took}")
    time.sleep(0.35)
    see(window.take("a") and len(window.events) == len(window.counts) == 1, "a window does not forget")


def to_all():
    """No answer goes to a broadcast address, which a question can have as its faked source."""
    with asker("127.255.255.255") as all_of_them, asker() as it:
        it.setblocking(False)
        Sender(it, all_of_them.getsockname())(search())
        Sender(it, (HERE, 0))(search())
        all_of_them.settimeout(0.3)
        try:
            see(not all_of_them.recv(100), "an answer went to a broadcast address")
        except socket.timeout:
            see(True, "")


class Quiet:
    """In place of the log, and of a description."""
    net = SERVER

    def say(self, _):
        pass


def answered(size):
    """The answers to damaged datagrams: none is longer than three times its question, and only questions have one."""
    rng, count, most = random.Random(size.seed), size.of(100000, 10000), 0.0
    server = Server([], "n" * 35, (3, 1, 4024), Router(Quiet(), "", Quiet()))
    server.answers = Window(1, 10 ** 9, 10 ** 9)
    for _ in range(count):
        given = damaged(rng)
        it = Fake(given)
        server.take(it)
        see(len(it.sent) <= 1, f"{given.hex()}: more than one answer")
        if it.sent:
            most = max(most, len(it.sent[0]) / len(given))
            asked, answer = datagram_of(given), datagram_of(it.sent[0])
            see((answer.service, answer.invoke) == (asked.service | 0x80000000, asked.invoke) and len(given) <= LONGEST,
                f"{given.hex()}: answered {it.sent[0].hex()}")
    see(2 < most <= 3, f"an answer is {most} times as long as its question")
    return count


# Descriptions by their routes, and what becomes of them.
ROUTE = '[[route]]\nnet = "1.2.3.4.5.6"  # n\nrights = "read"\n'
PORT = '[[port]]\nport = 851\nname = "P"\nmajor = 1\nminor = 0\nbuild = 0\n'
HEAD, A = 'schema = 2\nnet = "5.1.2.3.1.1"', '[[route]]\nnet = "1.1.1.1.1.1" # a\nrights = "read" # b\n'
TABLE, OWN = ('{ net = "1.2.3.4.5.6", rights = "read" }', '{ net = "1.1.1.1.1.1", rights = "read" }')
PLACED = [
    (f"{HEAD}\n{PORT}", f"{HEAD}\n{ROUTE}{PORT}"),
    (f"{HEAD}\n\n# ports\n{PORT}", f"{HEAD}\n\n{ROUTE}\n# ports\n{PORT}"),
    (f"{HEAD}\n{A}{PORT}", f"{HEAD}\n{A}{ROUTE}{PORT}"),
    (f"{HEAD}\n\n{A}\n{PORT}", f"{HEAD}\n\n{A}\n{ROUTE}\n{PORT}"),
    (f"{HEAD}\n{PORT}{A}# end", f"{HEAD}\n{PORT}{A}{ROUTE}# end"),
    (f"{HEAD}\n{PORT}{A}"[:-1], f"{HEAD}\n{PORT}{A}{ROUTE}"),
    (f"{HEAD}\nroute = []\n{PORT}", f"{HEAD}\nroute = [{TABLE}]\n{PORT}"),
    (f"{HEAD}\nroute = [ # none\n]\n{PORT}", f"{HEAD}\nroute = [{TABLE} # none\n]\n{PORT}"),
    (f"{HEAD}\nroute = [{OWN}]\n{PORT}", f"{HEAD}\nroute = [{OWN}, {TABLE}]\n{PORT}"),
    (f"{HEAD}\nroute = [{OWN}, ]\n{PORT}", f"{HEAD}\nroute = [{OWN}, {TABLE}, ]\n{PORT}"),
    (f"{HEAD}\nroute = [ # all\n    # a\n    {OWN}, # b\n]\n{PORT}",
     f"{HEAD}\nroute = [ # all\n    {TABLE},\n    # a\n    {OWN}, # b\n]\n{PORT}"),
    (f"port = [{{ port = 1, name = '', major = 1, minor = 0, build = 0 }}]\n{HEAD} # e",
     f"port = [{{ port = 1, name = '', major = 1, minor = 0, build = 0 }}]\n{HEAD} # e\n{ROUTE}"),
    ("\ufeff" + f"{HEAD}\n{A}{PORT}".replace("\n", "\r\n"),
     "\ufeff" + f"{HEAD}\n{A}{ROUTE}{PORT}".replace("\n", "\r\n")),
]


def placed(size):
    """A route gets its place in the text; of random descriptions that are accepted nothing else changes."""
    for before, after in PLACED:
        verdict = verdict_on(before.encode())
        see(verdict.status == 0, f"{before!r} is refused")
        came = with_route(before, verdict.document, "1.2.3.4.5.6", "read", "n")
        see(came == after and verdict_on(came.encode()).status == 0, f"{before!r}: {came!r} in place of {after!r}")
    count, net = 0, "99.2.3.4.5.6"
    for number in range(size.of(2000, 150)):
        given = damage.damaged(number, size.seed)
        verdict = verdict_on(given)
        if verdict.status:
            continue
        count, text = count + 1, given.decode()
        after = with_route(text, verdict.document, net, "read", "n")
        see(routes_in(verdict_on(after.encode())) == {**routes_in(verdict), net: "read"}, f"{text!r}: {after!r}")
        same = len(os.path.commonprefix([text, after]))
        see(after.endswith(text[same:]), f"{text!r} is changed: {after!r}")
    return len(PLACED) + count


# Files of users that are refused, and a part of the sentence.
ZEROS = f'{"0" * 32}:{"0" * 64}'
BAD_USERS = [
    ("", "[[user]] with name, hash, rights is wanted"), ("x = 1\n", "'x' is neither"), ("user = 1", "is wanted"),
    ("[[user]]\n", "has the texts name, hash, rights"), ("= 1", "is no TOML document"),
    ('[[user]]\nname = "a"\nhash = "b"\nrights = "write"', "is no hash that"),
    ('[[user]]\nname = "a"\nhash = "b"\nrights = "all"', "'all' is none of them"),
    ('[[user]]\nname = ""\nhash = "b"\nrights = "read"', "1 to 64 printable"),
    (f'[[user]]\nname = "a"\nhash = "scrypt:1048576:8:1:{ZEROS}"\nrights = "read"', "is no hash that"),
    (f'[[user]]\nname = "a"\nhash = "scrypt:1024:8:1:{ZEROS}"\nrights = "read"', "is no hash that")]
BAD_NETWORKS = [("", "networks is wanted"), ("networks = []", "networks is wanted"),
                ('networks = ["x"]', "'x' is no network"), ('networks = ["1.2.3.4/24"]', "is no network")]


def ends(status, part, *given):
    """Sees that these words end with this status and a sentence that has this part."""
    try:
        came = discover.main(list(given)), ""
    except Ended as end:
        came = end.status, end.why
    see(came[0] == status and part in came[1] and "\n" not in came[1],
        f"discover.py {' '.join(given)}: {came} in place of {status}, {part!r}")


def words(folder):
    """Wrong words and files end with a sentence."""
    refused(1, "is none of serve, hash, find, add-route", "discover.py", "look")
    ends(1, "DESCRIPTION or CONFIG is wanted", "serve")
    ends(4, "No such file", "serve", "/nowhere.toml")
    ends(4, "a file is wanted", "serve", folder)
    ends(4, "a file is wanted", "serve", PLANT, "--routes", "/dev/zero")
    ends(2, "rule 12", "serve", os.path.join(os.path.dirname(PLANT), "overlap.toml"))
    fourth = changed(folder, "fourth.toml", ("signal = 2", "signal = 4"))
    ends(2, "a configuration of adsd how many signals there are", "serve", fourth)
    for option, value, part in (
            ("--version", "3.1", "three numbers"), ("--version", "3.1.70000", "three numbers"),
            ("--name", "n" * 36, "1 to 35"), ("--listen", HERE, "ADDRESS:PORT"),
            ("--listen", f"{HERE}:x", "is a number"), ("--to", ":1", "HOST or HOST:PORT")):
        ends(1, part, "serve", PLANT, option, value)
    with asker() as it:
        ends(6, "Address already in use", "serve", PLANT, "--listen", "{}:{}".format(*it.getsockname()))
    for to in ("1.2.3.4/40", "", "a" * 70 + ".b"):
        ends(1, "no host and no network", "find", "--to", to)
    ends(6, "can't be reached", "find", "--to", "no-such-host.invalid")
    own = ("--name", NAME, "--user", USER, "--password-file", users_file(folder))
    ends(1, "--netid is a NetId", "add-route", HERE, "--netid", "x", "--address", ADDRESS, *own)
    ends(1, "--address is the IP address", "add-route", HERE, "--netid", NET, "--address", "a b", *own)
    ends(1, "is one controller", "add-route", "127.0.0.0/8", "--netid", NET, "--address", ADDRESS, *own)
    ends(6, "can't be reached", "add-route", f"{HERE}:{free_port()}", "--netid", NET, "--address", ADDRESS, *own)
    for text in (b"", b"\n", b"\0", b"\xff"):
        with open(os.path.join(folder, "secret"), "wb") as file:
            file.write(text)
        ends(4 if text == b"\xff" else 1, "UTF-8" if text == b"\xff" else "begins with none",
             "hash", "--password-file", file.name)
    hashed = f'\n[[user]]\nname = "a"\nhash = "scrypt:16384:8:1:{ZEROS}"\nrights = "read"\n'
    twice = ('networks = ["1.2.3.4"]' + 2 * hashed, "has the name 'a' already")
    for text, part in [*BAD_USERS, *((text + hashed, part) for text, part in BAD_NETWORKS), twice]:
        ends(4, part, "serve", PLANT, "--routes", users_file(folder, text))


LIES = [lambda given: given, lambda _: b"", lambda _: random.randbytes(100),
        lambda given: given[:8] + b"\7" + given[9:], lambda _: search()._replace(service=0x80000006).bytes(),
        lambda _: outcome(search(), NET, 0).bytes()[:-1],
        lambda _: identity(search(), NET, "a\x1b[2J\x07", (1, 2, 3)).bytes()]


def lied(folder):
    """What no device sends: find lists nothing by it, and add-route waits for an answer."""
    with asker() as it:
        it.settimeout(0.2)
        stopped = queue.Queue()

        def lie():
            while stopped.empty():
                try:
                    given, peer = it.recvfrom(65536)
                    for answer in LIES:
                        it.sendto(answer(given), peer)
                except OSError:
                    continue
        thread = threading.Thread(target=lie)
        thread.start()
        to = "{}:{}".format(*it.getsockname())
        out, err, status = tool("discover.py", "find", "--to", to, "--seconds", "1")
        row = ["a\\x1b[2J\\x07", NET, HERE, "1.2.3", "-"]
        see(status == 0 and [line.split() for line in out.splitlines()[1:]] == [row], f"find among lies: {out!r}{err}")
        refused(11, "did not answer in 1 seconds", "discover.py", "add-route", to, "--netid", NET, "--address", ADDRESS,
                "--name", NAME, "--user", USER, "--password-file", users_file(folder), "--seconds", "1")
        stopped.put(1)
        thread.join()


def tried(program, size):
    texts, answers = placed(size), answered(size)
    with tempfile.TemporaryDirectory() as folder:
        place = os.path.join(folder, "plant.toml")
        words(folder)
        limited()
        to_all()
        shutil.copy(PLANT, place)
        searched(folder)
        lied(folder)
        routed(program, folder, place)
        not_taken(program, folder, place)
        alone(program, folder, place)
        sent = flooded(folder, size)
    return (f"found and routed as AdsLib and pyads ask; {texts} texts with a route more; "
            f"{answers} damaged datagrams answered or not, {sent} sent")
