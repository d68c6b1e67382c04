"""The asking side: a search for routers, and a request for a route to this machine."""
import fcntl
import ipaddress
import re
import socket
import struct
import sys
import time

from lib.codes import code_text
from lib.discover_datagram import (ADD_ROUTE, COMPUTER, FINGERPRINT, IDENTIFY, LONGEST, RESPONSE, STATUS, UDP_PORT,
                                   VERSION, BadDatagram, datagram_of, search, wish)
from lib.values import printed
from lib.words import Ended, number

# How often a search is sent, since a datagram can be lost; how many devices are listed; and the request by which Linux
# tells the broadcast address of an interface.
SEARCHES, MOST_FOUND, BROADCAST_OF = 2, 4096, 0x8919
NOTHING = "-"


def place_of(text):
    """The address and the UDP port that a host or a network means; of a network its broadcast address."""
    host, colon, port = text.partition(":")
    port = number(port, f"the port of {text}", 1, 65535) if colon else UDP_PORT
    try:
        if not host:
            raise ValueError
        if "/" in host:
            network = ipaddress.IPv4Network(host, strict=False)
            return str(network.broadcast_address), port
        return socket.getaddrinfo(host, port, socket.AF_INET, socket.SOCK_DGRAM)[0][4]
    except ValueError:
        raise Ended(f"{text!r} is no host and no network, as 192.168.0.5 or 192.168.0.0/24") from None
    except OSError as fault:
        raise Ended(f"{text} can't be reached: {fault.strerror}", 6) from None


def own_networks():
    """The broadcast addresses of this machine's interfaces; or else the one that means the nearest network."""
    found = []
    with socket.socket(socket.AF_INET, socket.SOCK_DGRAM) as it:
        for _, name in socket.if_nameindex():
            try:
                told = fcntl.ioctl(it, BROADCAST_OF, struct.pack("256s", name.encode()))
                found.append(socket.inet_ntoa(told[20:24]))
            except OSError:
                pass
    return [(address, UDP_PORT) for address in found if address != "0.0.0.0"] or [("255.255.255.255", UDP_PORT)]


class Device:
    """What a device tells of itself."""

    def __init__(self, answer, address):
        version, mark = answer.data(VERSION) or b"", answer.data(FINGERPRINT)
        self.name = printed((answer.data(COMPUTER) or b"")[:64]) or NOTHING
        self.net, self.address = answer.source.net, address
        self.version = "{}.{}.{}".format(*struct.unpack("<BBH", version)) if len(version) == 4 else NOTHING
        self.fingerprint = printed(mark[:128]) if mark else NOTHING

    def row(self):
        return self.name, self.net, self.address, self.version, self.fingerprint


def sent(it, places, faults):
    """Sends a search to each place; what could not be sent is kept in `faults`."""
    for place in places:
        try:
            it.sendto(search().bytes(), place)
        except OSError as fault:
            faults[place] = f"{place[0]} can't be reached: {fault.strerror}"


def devices(places, seconds):
    """Who answers a search in so many seconds, and the sentences of what could not be sent."""
    found, faults, begun, rounds = {}, {}, time.monotonic(), 0
    with socket.socket(socket.AF_INET, socket.SOCK_DGRAM) as it:
        it.setsockopt(socket.SOL_SOCKET, socket.SO_BROADCAST, 1)
        while len(faults) < len(places):
            gone = time.monotonic() - begun
            if gone >= rounds * seconds / SEARCHES and rounds < SEARCHES:
                sent(it, places, faults)
                rounds += 1
                continue
            if gone >= seconds or len(found) >= MOST_FOUND:
                break
            it.settimeout(max(min(rounds * seconds / SEARCHES, seconds) - gone, 0.001))
            try:
                given, peer = it.recvfrom(LONGEST + 1)
                answer = datagram_of(given)
            except (OSError, BadDatagram):
                continue
            if answer.service == IDENTIFY | RESPONSE:
                found[peer[0], answer.source.net] = Device(answer, peer[0])
    return found.values(), list(faults.values())


def find(words, seconds):
    """Lists the devices."""
    found, faults = devices([place_of(word) for word in words] or own_networks(), seconds)
    if not found:
        raise Ended(faults[0] if faults else f"no device answered in {seconds} seconds", 6 if faults else 11)
    for fault in faults:
        print(fault, file=sys.stderr)
    rows = sorted((it.row() for it in found), key=lambda row: (socket.inet_aton(row[2]), row[1]))
    rows = [("name", "NetId", "IP", "version", "fingerprint"), *rows]
    widths = [max(len(row[place]) for row in rows) for place in range(5)]
    for row in rows:
        print("  ".join(word.ljust(width) for word, width in zip(row, widths)).rstrip())
    return 0


def checked(options):
    """The words of a request for a route, each of at most so many bytes as others send."""
    for key, most in (("name", 64), ("address", 64), ("user", 64)):
        if not options[key].isprintable() or not 0 < len(options[key].encode(errors="replace")) <= most:
            raise Ended(f"--{key} has 1 to {most} printable letters")
    if not re.fullmatch(r"[A-Za-z0-9.-]+", options["address"]):
        raise Ended(f"--address is the IP address or the name of this machine, and {options['address']!r} is neither")


def add_route(host, options, password, seconds):
    """Asks a controller for a route to this machine."""
    if "/" in host:
        raise Ended(f"HOST is one controller, and {host!r} is none")
    place, until = place_of(host), time.monotonic() + seconds
    asked = wish(options["netid"], options["address"], options["name"], options["user"], password)
    try:
        with socket.socket(socket.AF_INET, socket.SOCK_DGRAM) as it:
            it.connect(place)
            it.send(asked.bytes())
            answer = answered(it, host, until, seconds)
    except OSError as fault:
        raise Ended(f"{host} can't be reached at UDP port {place[1]}: {fault.strerror}", 6) from None
    code = struct.unpack("<I", answer.data(STATUS))[0]
    if code:
        may = "; are user and password right, and may this user add routes?" if code == 0x704 else ""
        raise Ended(f"{host} refuses the route: {code_text(code)}{may}", 8)
    print(f"{host}, {answer.source.net}, has a route to {options['netid']} at {options['address']}")
    return 0


def answered(it, host, until, seconds):
    """The answer to a request for a route."""
    while True:
        left = until - time.monotonic()
        if left <= 0:
            raise Ended(f"{host} did not answer in {seconds} seconds", 11)
        it.settimeout(left)
        try:
            answer = datagram_of(it.recv(LONGEST + 1))
        except (socket.timeout, BadDatagram):
            continue
        if answer.service == ADD_ROUTE | RESPONSE and len(answer.data(STATUS) or b"") == 4:
            return answer
