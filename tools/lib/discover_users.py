"""The users that may ask for a route: their hashes, the rights that they may give, and the networks that may ask."""
import getpass
import hashlib
import hmac
import ipaddress
import os
import re
from typing import NamedTuple

from lib.files import read_bytes, regular
from lib.rules_nets import RIGHTS
from lib.shown import shown
from lib.toml_text import Places, TomlFault, parse, text_of
from lib.words import Ended

# 2 to the 14th blocks of 1 KiB, five times: 16 MiB, and some tenths of a second.
COST, MOST_MEMORY, MOST_PASSWORD = (16384, 8, 5), 67108864, 256
HASH = re.compile(r"scrypt:([0-9]{1,7}):([0-9]{1,2}):([0-9]{1,2}):((?:[0-9a-f]{2}){16,32}):([0-9a-f]{64})")
KEYS = ("name", "hash", "rights")


def key_of(password, salt, cost):
    n, r, p = cost
    return hashlib.scrypt(password.encode(), salt=salt, n=n, r=r, p=p, maxmem=MOST_MEMORY, dklen=32)


def hash_of(password, cost=COST):
    """The hash of a password, as a file of users has it."""
    salt = os.urandom(16)
    return ":".join(["scrypt", *map(str, cost), salt.hex(), key_of(password, salt, cost).hex()])


class User(NamedTuple):
    name: str
    cost: tuple
    salt: bytes
    key: bytes
    rights: str


class Users:
    def __init__(self, networks, users):
        self.networks, self.users = networks, users

    def may_ask(self, address):
        return any(ipaddress.ip_address(address) in network for network in self.networks)

    def user(self, name, password):
        """The user with this name and password; None where there is none, after the same work."""
        found = next((user for user in self.users if user.name == name), None)
        like = found or self.users[0]
        right = hmac.compare_digest(key_of(password[:MOST_PASSWORD], like.salt, like.cost), like.key)
        return found if right and len(password) <= MOST_PASSWORD else None


def users_of(name):
    """The users of a file."""
    regular(name)
    try:
        text = text_of(read_bytes(name))
        root = parse(text)
    except TomlFault as fault:
        raise Ended(f"{name} is no TOML document: {fault.why}", 4) from None
    places = Places(text)

    def wrong(value, why):
        return Ended(f"{name}:{places.line(value.at)}: {why}", 4)

    odd = [key for key in root.data if key not in ("networks", "user")]
    if odd:
        raise wrong(root.data[odd[0]], f"a file of users has networks and [[user]], and {shown(odd[0])} is neither")
    tables = root.data.get("user")
    if tables is None or tables.kind != "array" or not tables.data or any(it.kind != "table" for it in tables.data):
        raise wrong(tables or root, f"at least one table [[user]] with {', '.join(KEYS)} is wanted")
    users = [user_of(table, wrong) for table in tables.data]
    for place, user in enumerate(users):
        if user.name in [it.name for it in users[:place]]:
            raise wrong(tables.data[place], f"an earlier user has the name {shown(user.name)} already")
    return Users(networks_of(root, wrong), users)


def networks_of(root, wrong):
    value = root.data.get("networks")
    if value is None or value.kind != "array" or not value.data or any(it.kind != "string" for it in value.data):
        raise wrong(value or root, 'networks is wanted, the networks that may ask, as networks = ["192.168.0.0/24"]')
    found = []
    for it in value.data:
        try:
            found.append(ipaddress.IPv4Network(it.data))
        except ValueError:
            raise wrong(it, f"{shown(it.data)} is no network, as 192.168.0.9 or 192.168.0.0/24") from None
    return found


def user_of(table, wrong):
    texts = {key: value.data for key, value in table.data.items() if value.kind == "string"}
    if sorted(table.data) != sorted(KEYS) or len(texts) != len(KEYS):
        raise wrong(table, f"a [[user]] has the texts {', '.join(KEYS)}, and nothing else")
    name, it = texts["name"], HASH.fullmatch(texts["hash"])
    if not 0 < len(name) <= 64 or not name.isprintable():
        raise wrong(table.data["name"], "a name has 1 to 64 printable letters")
    if texts["rights"] not in RIGHTS:
        why = f"a user may give read, write or control, and {shown(texts['rights'])} is none of them"
        raise wrong(table.data["rights"], why)
    cost = tuple(int(number) for number in it.groups()[:3]) if it else (0, 0, 0)
    n, r, p = cost
    if n < 16384 or n & (n - 1) or r != 8 or not 0 < p <= 16 or 128 * r * (n + p + 2) > MOST_MEMORY:
        raise wrong(table.data["hash"], "this is no hash that `discover.py hash` prints")
    return User(name, cost, bytes.fromhex(it[4]), bytes.fromhex(it[5]), texts["rights"])


def password_of(file, again=False):
    """The password: the first line of a file, or else what is typed in, twice where it is a new one."""
    if file:
        try:
            password = read_bytes(file, 4096).split(b"\n")[0].rstrip(b"\r").decode("utf-8")
        except UnicodeDecodeError:
            raise Ended(f"{file} is no UTF-8 text", 4) from None
    else:
        try:
            os.close(os.open("/dev/tty", os.O_RDWR))
        except OSError:
            raise Ended("there is no terminal to ask for the password; --password-file names a file", 1) from None
        try:
            password = getpass.getpass("Password: ")
            if again and getpass.getpass("Again: ") != password:
                raise Ended("the two passwords differ", 1)
        except (EOFError, UnicodeDecodeError):
            raise Ended("no password was typed in", 1) from None
    if not password or len(password) > MOST_PASSWORD or not password.isprintable():
        begins = f"; {file} begins with none" if file else ""
        raise Ended(f"a password has 1 to {MOST_PASSWORD} printable letters{begins}", 1)
    return password
