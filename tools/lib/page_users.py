"""Who asks a page: an address; the name that a web server before it tells; or who has logged in, by a file of names
and hashes of passwords.
"""
import asyncio
import base64
import concurrent.futures
import hashlib
import hmac
import ipaddress
import json
import os
import re
import secrets
import time
from typing import NamedTuple

from lib.files import read_bytes
from lib.page_record import short
from lib.web import Answer, Bad
from lib.words import Ended

# Wrong passwords of an address in so many seconds; passwords that are looked at or wait; seconds of a session that is
# not used; sessions, and addresses, that are remembered.
MOST_WRONG, WITHIN, MOST_WAITING, SESSION, MOST_SESSIONS, MOST_ADDRESSES = 5, 60, 16, 43200, 1000, 10000
MOST_PASSWORD, SALT, LENGTH, COST = 200, 16, 32, (16384, 8, 1)
NAME = re.compile(r"[^:\x00-\x20\x7f](?:[^:\x00-\x1f\x7f]{0,38}[^:\x00-\x20\x7f])?")
LINE = re.compile(r"scrypt:([0-9]{2,6}):([0-9]{1,2}):([0-9]):([0-9a-f]{32}):([0-9a-f]{64})")


class Hash(NamedTuple):
    cost: tuple
    salt: bytes
    digest: bytes

    def fits(self, password):
        return hmac.compare_digest(derived(password, self.salt, self.cost), self.digest)


def derived(password, salt, cost):
    n, r, p = cost
    return hashlib.scrypt(password.encode(), salt=salt, n=n, r=r, p=p, maxmem=2 * 128 * n * r, dklen=LENGTH)


def line_of(name, password):
    """The line of a name with a new hash of its password."""
    salt = secrets.token_bytes(SALT)
    cost = ":".join(map(str, COST))
    return f"{name}:scrypt:{cost}:{salt.hex()}:{derived(password, salt, COST).hex()}"


def hash_in(text):
    it = LINE.fullmatch(text)
    n, r, p = (int(it[at]) for at in (1, 2, 3)) if it else (0, 0, 0)
    if not (2 <= n <= 131072 and n & (n - 1) == 0 and 1 <= r <= 16 and 1 <= p <= 4):
        return None
    return Hash((n, r, p), bytes.fromhex(it[4]), bytes.fromhex(it[5]))


def read_users(name):
    """The hashes of a file by the names of its users."""
    try:
        rights = os.stat(name).st_mode
    except OSError as fault:
        raise Ended(f"{name}: {fault.strerror}", 4) from None
    if rights & 0o007:
        raise Ended(f"{name} has hashes of passwords, and everyone may read it: chmod o= {name}", 4)
    found = {}
    for number, line in enumerate(read_bytes(name, 1000000).decode("utf-8", "replace").splitlines(), 1):
        if not line.strip() or line.startswith("#"):
            continue
        user, _, rest = line.partition(":")
        if not NAME.fullmatch(user) or hash_in(rest) is None or user in found:
            why = f"{user[:40]} stands twice" if user in found else "this is no line of tools/page_user.py"
            raise Ended(f"{name}:{number}: {why}", 2)
        found[user] = hash_in(rest)
    if not found:
        raise Ended(f"{name} has no user: `python3 tools/page_user.py {name} NAME` adds one", 2)
    return found


def address_of(text):
    """An address as one that others can be compared with; None where it is none."""
    try:
        it = ipaddress.ip_address(text.strip("[]"))
    except ValueError:
        return None
    return str(getattr(it, "ipv4_mapped", None) or it)


def neighbours(address):
    """What is counted as one address: of IPv6 the first 64 bits, since a machine has as many addresses as it likes."""
    if ":" not in address:
        return address
    return ":".join(ipaddress.ip_address(address.partition("%")[0]).exploded.split(":")[:4])


class Everyone:
    """Nobody is asked who he is."""

    has_login = False

    async def who(self, request, peer):
        return peer


class Proxy:
    """A web server at one of some addresses tells by a header who asks; nobody else is answered."""

    has_login = False

    def __init__(self, header, addresses):
        self.header, self.addresses = header.lower(), {address_of(it) for it in addresses}

    async def who(self, request, peer):
        if peer not in self.addresses:
            if request.path == "/healthz":
                return peer
            raise Bad(403, f"this page answers the web server before it alone, and {peer} is not named by --proxy")
        named = request.headers.get(self.header, "")
        try:
            named = named.encode("latin-1").decode("utf-8")
        except UnicodeDecodeError:
            pass
        named = named.strip()
        if not named or not named.isprintable():
            if request.method == "POST":
                raise Bad(403, f"the web server before this page tells no name by {self.header}")
            return peer
        return short(named)


class Users:
    """Names and passwords of a file, which is read again when it changes; sessions are forgotten at the end."""

    has_login = True

    def __init__(self, name, port):
        self.name, self.users, self.read = name, read_users(name), self.stamp(name)
        self.cookie, self.sessions, self.wrong, self.known = f"ads_page_{port}", {}, {}, {}
        self.pool, self.waiting = concurrent.futures.ThreadPoolExecutor(2), 0

    @staticmethod
    def stamp(name):
        try:
            it = os.stat(name)
            return it.st_mtime_ns, it.st_ino, it.st_size
        except OSError:
            return None

    def refresh(self):
        """Reads the file again where it has changed; one that is wrong leaves the last one."""
        stamp = self.stamp(self.name)
        if stamp == self.read or stamp is None:
            return
        self.read = stamp
        try:
            fresh = read_users(self.name)
        except Ended:
            return
        changed = {it for it in self.users if fresh.get(it) != self.users[it]}
        self.users = fresh
        for kept in (self.sessions, self.known):
            for key in [key for key, it in kept.items() if it[0] in changed]:
                del kept[key]

    async def who(self, request, peer):
        """The name of who asks; a Bad with status 401 where nobody has logged in."""
        self.refresh()
        key, now = digest(cookie_in(request, self.cookie)), time.monotonic()
        name, until = self.sessions.get(key, ("", 0))
        if now < until:
            self.sessions[key] = name, now + SESSION
            return name
        basic = basic_in(request)
        if basic:
            return await self.by_basic(request, basic, peer)
        raise Bad(401, "log in first: / is the form, and programs send a name and a password (Basic)")

    async def by_basic(self, request, basic, peer):
        key = digest(request.headers["authorization"])
        if key not in self.known:
            if not await self.is_right(*basic, peer):
                raise Bad(401, "this name and this password are not known")
            bounded(self.known, MOST_SESSIONS)
            self.known[key] = (basic[0],)
        return self.known[key][0]

    async def is_right(self, name, password, peer):
        """Whether a password is that of a name; a Bad with status 429 where an address has tried too often."""
        whose = neighbours(peer)
        until = self.blocked(whose)
        if until:
            raise Bad(429, f"too many wrong passwords from {peer}: try again in {until} seconds")
        if self.waiting >= MOST_WAITING:
            raise Bad(503, "too many are logging in: try again")
        own = self.users.get(name)
        tried = own or next(iter(self.users.values()))
        self.waiting += 1
        self.note_wrong(whose)
        try:
            fits = await asyncio.get_running_loop().run_in_executor(self.pool, tried.fits, password[:MOST_PASSWORD])
        finally:
            self.waiting -= 1
        if fits and own:
            if self.wrong.get(whose):
                self.wrong[whose].pop()
            return True
        return False

    def note_wrong(self, whose):
        """Notes a password as wrong until it is known to be right, so that many at once are not looked at, either."""
        found = self.wrong.pop(whose, [])
        bounded(self.wrong, MOST_ADDRESSES)
        self.wrong[whose] = [*found, time.monotonic()][-MOST_WRONG:]

    def blocked(self, whose):
        """The seconds until an address may try again; 0 where it may."""
        now = time.monotonic()
        found = [it for it in self.wrong.get(whose, []) if now - it < WITHIN]
        return max(1, round(WITHIN - (now - found[0]))) if len(found) >= MOST_WRONG else 0

    async def login(self, request, peer):
        """Begins a session."""
        self.refresh()
        if request.method != "POST":
            raise Bad(405, "this is done by POST")
        if request.headers.get("content-type", "").split(";")[0].strip().lower() != "application/json":
            raise Bad(415, "a name and a password are sent as application/json")
        try:
            said = json.loads(request.body)
            name, password = said["name"], said["password"]
        except (ValueError, RecursionError, KeyError, TypeError):
            name = password = None
        if not isinstance(name, str) or not isinstance(password, str):
            raise Bad(400, 'the body is {"name": NAME, "password": PASSWORD}')
        if not await self.is_right(name, password, peer):
            raise Bad(403, "this name and this password are not known")
        token = secrets.token_urlsafe(32)
        bounded(self.sessions, MOST_SESSIONS)
        self.sessions[digest(token)] = name, time.monotonic() + SESSION
        return self.answer(token, SESSION)

    def logout(self, request):
        self.sessions.pop(digest(cookie_in(request, self.cookie)), None)
        return self.answer("", 0)

    def answer(self, token, seconds):
        own = f"{self.cookie}={token}; Path=/; Max-Age={seconds}; HttpOnly; SameSite=Strict"
        return Answer(200, "application/json", b"{}\n", f"Set-Cookie: {own}\r\n")


def bounded(found, most):
    """Makes room for one more, by what came first."""
    while len(found) >= most:
        del found[next(iter(found))]


def digest(text):
    return hashlib.sha256(text.encode()).digest()


def cookie_in(request, name):
    for part in request.headers.get("cookie", "").split(";"):
        own, _, value = part.strip().partition("=")
        if own == name:
            return value
    return ""


def basic_in(request):
    """A name and a password in the head of a request; None where there are none."""
    kind, _, given = request.headers.get("authorization", "").partition(" ")
    if kind.lower() != "basic":
        return None
    try:
        name, colon, password = base64.b64decode(given, validate=True).decode("utf-8").partition(":")
    except ValueError:
        return None
    return (name, password) if colon else None
