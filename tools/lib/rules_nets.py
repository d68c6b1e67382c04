"""Description rules 3 to 5: the schema, NetIds, and the rights of routes. Each gives all broken items in order, with what is broken there."""
import difflib
import re

from lib.shown import shown

NUMBER = "(?:0|[1-9][0-9]{0,2})"
NET = re.compile(rf"{NUMBER}(?:\.{NUMBER}){{5}}")
LOOSE = re.compile(r"[0-9]{1,9}(?:\.[0-9]{1,9}){3,5}")
RIGHTS = ("read", "write", "control")
NO_NET = "is no NetId: six numbers from 0 to 255 without superfluous zeros, joined by full stops"


def is_net(text):
    return bool(NET.fullmatch(text)) and all(int(word) < 256 for word in text.split("."))


def net_meant(text):
    """The NetId that a text nearly is; None where that can't be told."""
    words = text.strip().split(".") if text.isascii() and LOOSE.fullmatch(text.strip()) else []
    meant = ".".join(str(int(word)) for word in words) + (".1.1" if len(words) == 4 else ".1" if len(words) == 5 else "")
    return f"write {meant}" if words and is_net(meant) else None


def near(word, words, most=1):
    """Which of some words is meant by another one; None where none is near."""
    found = difflib.get_close_matches(word.lower(), [it.lower() for it in words], most)
    meant = next((it for it in words if found and it.lower() == found[0]), None)
    return f"is `{meant}` meant?" if meant is not None else None


def wrong_schema(d):
    if d["schema"] not in (None, 1, 2):
        yield 0, d.broken("schema", f"{d['schema']} is neither 1 nor 2", None, "write schema = 2")


def wrong_net(d):
    if d["net"] is not None and not is_net(d["net"]):
        yield 0, d.broken("net", f"{shown(d['net'])} {NO_NET}", None, net_meant(d["net"]))
    seen = {}
    for place, route in enumerate(d["route"]):
        net = route["net"]
        if net is None:
            continue
        if not is_net(net):
            yield 1 + place, route.broken("net", f"{shown(net)} {NO_NET}", None, net_meant(net))
        elif net in seen:
            yield 1 + place, route.broken("net", "an earlier route has it already", seen[net], "leave one of them out")
        else:
            seen[net] = route


def wrong_rights(d):
    for place, route in enumerate(d["route"]):
        if route["rights"] is not None and route["rights"] not in RIGHTS:
            yield place, route.broken("rights", f"{shown(route['rights'])} is not read, write or control", None, near(route["rights"], RIGHTS))
