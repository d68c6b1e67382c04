#!/usr/bin/env python3
"""Runs a tool, or the relay, with what a file says: for units of systemd.

    python3 tools/service.py page /etc/ads/page.toml

The first word is page, history, mqtt, dial or relay; examples/page.toml and its like are their files. A file is
TOML: its keys are the options of the tool, without the two dashes (`page.py --help` and its like say what they are),
and its other words:

    page       plant = FILE, the description or the configuration of adsd
    history    names = ["Main.count", "GVL.*"]
    mqtt       names = ["Main.*"]
    dial       relay = "HOST:PORT", server = "HOST:PORT", netid = NETID
    relay      description = FILE, listen = "HOST:PORT"

An option that may stand more than once is an array of texts; one without a value is true. `--print` prints the words in
place of running them.

The status is that of the tool, or 1 wrong words, 4 the file can't be read, 12 the file is wrong.
"""
import difflib
import os
import shlex
import sys

sys.path.insert(0, os.path.dirname(os.path.abspath(__file__)))
from lib.files import read_bytes  # noqa: E402
from lib.keys import TOML_WORDS  # noqa: E402
from lib.program import program_at  # noqa: E402
from lib.toml_text import Places, Reader, TomlFault, text_of  # noqa: E402
from lib.words import Ended, read_words, run  # noqa: E402

TEXT, COUNT, FLAG, TEXTS = "text", "number", "flag", "texts"
KINDS = {
    TEXT: ("string",),
    COUNT: ("integer",),
    FLAG: ("boolean",),
    TEXTS: ("array", "string", "integer"),
}
WANTED = {TEXT: "a text in quotes", COUNT: "a number without quotes", FLAG: "true or false", TEXTS: "an array of texts"}
SERVER = {"to": TEXT, "netid": TEXT, "me": TEXT, "cycle": COUNT}
FOREVER = "18446744073709551615"
# Of each service its positional words, those that must be there, and its options.
SERVICES = {
    "page": (
        {"plant": TEXT},
        ("plant", "to", "me"),
        {
            **SERVER,
            **dict.fromkeys(("http", "words", "state", "users", "user-header", "history"), TEXT),
            **dict.fromkeys(("host", "write", "port", "proxy"), TEXTS),
            "seconds": COUNT,
        },
    ),
    "history": (
        {"names": TEXTS},
        ("names", "to", "me"),
        {
            **SERVER,
            **dict.fromkeys(("sqlite", "postgres", "mode"), TEXT),
            **dict.fromkeys(("port", "keep-days", "hold"), COUNT),
        },
    ),
    "mqtt": (
        {"names": TEXTS},
        ("names", "to", "me", "broker"),
        {
            **SERVER,
            **dict.fromkeys(("broker", "plant", "user", "password-file", "ca", "description"), TEXT),
            **dict.fromkeys(("port", "period"), COUNT),
            "set": FLAG,
        },
    ),
    "dial": (
        {"relay": TEXT, "server": TEXT, "netid": TEXT},
        ("relay", "server", "netid"),
        {"askers": COUNT},
    ),
    "relay": ({"description": TEXT}, ("description", "listen"), {"listen": TEXT}),
}


def keys_in(given, name):
    """The keys of a file with their values, and how a place in it is said."""
    try:
        text = text_of(given)
        places = Places(text)
    except TomlFault as fault:
        raise Ended(f"{name} is no TOML document: {fault.why}", 12) from None
    try:
        return Reader(text).document().data, lambda at: f"{name}:{places.line(at)}"
    except TomlFault as fault:
        raise Ended(f"{name}:{places.line(fault.at)}: {fault.why}", 12) from None


def word_of(value, key, kind, where):
    """The words that a value is."""
    if value.kind not in KINDS[kind]:
        there = TOML_WORDS[value.kind]
        raise Ended(f"{where(value.at)}: `{key}`: {WANTED[kind]} is wanted, and {there} stands there", 12)
    if value.kind == "array":
        odd = next((it for it in value.data if it.kind not in ("string", "integer")), None)
        if odd is not None or not value.data:
            why = f"{TOML_WORDS[odd.kind]} stands among them" if odd else "it has none"
            raise Ended(f"{where(value.at)}: `{key}`: {WANTED[kind]} is wanted, and {why}", 12)
        return [str(it.data) for it in value.data]
    return [str(value.data)]


def words_of(service, keys, where, name):
    """The words of a service: its positional ones, and its options."""
    places, musts, options = SERVICES[service]
    kinds = {**places, **options}
    for key, value in keys.items():
        if key.replace("_", "-") not in kinds:
            near = difflib.get_close_matches(key, kinds, 1)
            right = f"is `{near[0]}` meant?" if near else f"its keys are {', '.join(kinds)}"
            raise Ended(f"{where(value.at)}: {service} has no key `{key}`; {right}", 12)
    keys = {key.replace("_", "-"): value for key, value in keys.items()}
    words = {key: word_of(value, key, kinds[key], where) for key, value in keys.items()}
    missing = [key for key in musts if key not in keys]
    if missing:
        raise Ended(f"{name}: `{missing[0]}` is missing; examples/{service}.toml has all keys", 12)
    found = [word for key in places for word in words[key]]
    for key, kind in options.items():
        if key not in words:
            continue
        if kind == FLAG:
            found += [f"--{key}"] if keys[key].data else []
        else:
            found += [f"--{key}={it}" for it in words[key]] if service != "relay" else [f"--{key}", *words[key]]
    return found


def command(service, words):
    """The whole command of a service."""
    if service == "relay":
        return [program_at(""), "relay", *words, "--events", FOREVER]
    here = os.path.dirname(os.path.abspath(__file__))
    return [sys.executable, os.path.join(here, f"{service}.py"), *(["record"] if service == "history" else []), *words]


def main(words):
    (service, name), options = read_words(words, __doc__, ["NAME", "FILE"], {"print": False})
    if service not in SERVICES:
        raise Ended(f"{service!r} is none of {', '.join(SERVICES)}; --help says what they are")
    try:
        given = read_bytes(name)
    except Ended as end:
        raise Ended(f"{end.why}; examples/{service}.toml is one to begin with", 4) from None
    keys, where = keys_in(given, name)
    whole = command(service, words_of(service, keys, where, name))
    if options["print"]:
        print(shlex.join(whole))
        return 0
    sys.stdout.flush()
    os.execv(whole[0], whole)


if __name__ == "__main__":
    run(main)
