#!/usr/bin/env python3
"""Is found in the network as a router is, and finds routers (UDP 48899): for who connects TwinCAT, adstool or pyads.

    python3 tools/discover.py serve DESCRIPTION [--listen 0.0.0.0:48899] [--name NAME] [--version 3.1.4024]
    python3 tools/discover.py serve CONFIG --listen 0.0.0.0:48899 --routes USERS [--to HOST[:PORT]]
    python3 tools/discover.py hash
    python3 tools/discover.py find [--to HOST-or-NETWORK ..]
    python3 tools/discover.py add-route HOST --netid OWN --address OWN-IP --name NAME --user USER

`serve` answers searches with the NetId of a description, the name of this host (or `--name`) and a version of TwinCAT.
CONFIG is a configuration of adsd, whose description is taken. A changed description is followed. It listens at
127.0.0.1:48899; a search by broadcast reaches 0.0.0.0 alone, or a broadcast address; `--listen` may be repeated.
Requests for a route are refused, unless `--routes` names a file of users:

    networks = ["192.168.0.0/24"]
    [[user]]
    name = "maintenance"
    hash = "scrypt:.."              # as `hash` prints it
    rights = "write"                # what a route that this user asks for may do: read, write or control

Then it puts a [[route]] into the description, and answers when the server, at `--to` (where CONFIG listens, or
127.0.0.1:48898), has taken it. It runs until it is ended (Ctrl-C, kill), and says on standard error who searches.

`hash` asks for a password and prints the line with its hash. `find` lists who answers in `--seconds` (2): in all
networks of this machine, or at a host, or in a network as 192.168.0.0/24, with :PORT behind it where that is not 48899.
`add-route` asks HOST, a controller, for a route to this machine, and waits `--seconds` (5). The password is typed in,
or the first line of `--password-file`; the protocol sends it as clear text. docs/DISCOVER.md has the whole of it.

The status is 0, or 1 wrong words, 2 a refused description, 4 a file can't be read or is no file of users, 6 not
reached, or the port is taken, 8 refused by the controller, 11 no answer in time.
"""
import os
import re
import socket
import sys
import threading

sys.path.insert(0, os.path.dirname(os.path.abspath(__file__)))
from lib.discover_datagram import MOST_OF_NAME, UDP_PORT  # noqa: E402
from lib.discover_find import add_route, checked, find  # noqa: E402
from lib.discover_limits import Log  # noqa: E402
from lib.discover_place import Followed, described  # noqa: E402
from lib.discover_serve import Router, Server  # noqa: E402
from lib.discover_users import hash_of, password_of, users_of  # noqa: E402
from lib.flow_words import watch_stop  # noqa: E402
from lib.link import host_of, net_of  # noqa: E402
from lib.words import Ended, number, read_words, run  # noqa: E402


def version_of(text):
    """The three numbers of a version of TwinCAT."""
    it = re.fullmatch(r"([0-9]{1,3})\.([0-9]{1,3})\.([0-9]{1,5})", text)
    numbers = tuple(int(word) for word in it.groups()) if it else (256,)
    if numbers[0] > 255 or numbers[1] > 255 or numbers[2] > 65535:
        raise Ended(f"--version is three numbers as 3.1.4024, and {text!r} is none")
    return numbers


def name_of(text):
    """The name under which the server is found: one that is given, or this host's as far as it goes."""
    if text and (not text.isprintable() or len(text.encode(errors="replace")) > MOST_OF_NAME):
        raise Ended(f"--name has 1 to {MOST_OF_NAME} printable letters")
    return text or socket.gethostname().split(".")[0][:MOST_OF_NAME]


def socket_at(text):
    """A socket that listens there."""
    host, colon, port = text.rpartition(":")
    if not colon:
        raise Ended(f"--listen is ADDRESS:PORT, as 0.0.0.0:{UDP_PORT}, and {text!r} is none")
    it = socket.socket(socket.AF_INET, socket.SOCK_DGRAM)
    try:
        it.bind((host, number(port, "the port of --listen", 0, 65535)))
    except (OSError, UnicodeError) as fault:
        raise Ended(f"can't listen at {text}: {getattr(fault, 'strerror', None) or fault}", 6) from None
    return it


def serve(words):
    (name,), options = read_words(words, __doc__, ["DESCRIPTION or CONFIG"], {
        "listen": [], "name": "", "version": "3.1.4024", "routes": "", "to": ""})
    version, own, stopped = version_of(options["version"]), name_of(options["name"]), threading.Event()
    if options["to"]:
        host_of(options["to"])
    if options["routes"]:
        users_of(options["routes"])
    log = Log()
    followed = Followed(described(name, options["to"]), log)
    sockets = [socket_at(text) for text in options["listen"] or [f"127.0.0.1:{UDP_PORT}"]]
    watch_stop(stopped)
    router = Router(followed, options["routes"], log)
    for it in (followed, router):
        it.start()
    print("\n".join("listening at {}:{}".format(*it.getsockname()) for it in sockets), flush=True)
    server = Server(sockets, own, version, router)
    server.run(stopped)
    router.stop()
    print(f"searches {server.found}, routes added {router.added}")
    return 0


def hashed(words):
    _, options = read_words(words, __doc__, [], {"password-file": ""})
    print(f'hash = "{hash_of(password_of(options["password-file"], True))}"')
    return 0


def found(words):
    _, options = read_words(words, __doc__, [], {"to": [], "seconds": "2"})
    return find(options["to"], number(options["seconds"], "--seconds", 1, 3600))


def routed(words):
    (host,), options = read_words(words, __doc__, ["HOST"], {
        "netid": None, "address": None, "name": None, "user": None, "password-file": "", "seconds": "5"})
    net_of(options["netid"], "--netid")
    checked(options)
    seconds = number(options["seconds"], "--seconds", 1, 3600)
    return add_route(host, options, password_of(options["password-file"]), seconds)


def main(words):
    kinds = {"serve": serve, "hash": hashed, "find": found, "add-route": routed}
    if "--help" in words or "-h" in words or not words:
        read_words(words or ["--help"], __doc__, [], {})
    if words[0] not in kinds:
        raise Ended(f"{words[0]!r} is none of {', '.join(kinds)}; --help says what they do")
    return kinds[words[0]](words[1:])


if __name__ == "__main__":
    run(main)
