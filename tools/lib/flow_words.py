"""The words of tools that watch many names: who the server is, and how they end."""
import signal
import sys

from lib.link import host_of, net_of
from lib.words import Ended, read_words

SECONDS = 5


def many_words(words, doc, options):
    """Any number of positional words, at least one, and options."""
    given, found = read_words(words, doc, ["NAME"] + ["[NAME]"] * len(words), options)
    return [it for it in given if it is not None], found


def net_behind(to):
    """The NetId that a system has by custom: its address with .1.1 behind it."""
    host, _ = host_of(to)
    if host.count(".") == 3 and host.replace(".", "").isdigit():
        return net_of(host + ".1.1", "the NetId of --to")
    raise Ended(f"--netid is wanted, since {host} is no address that a NetId follows from")


def link_of(options):
    """To, NetId, own NetId and seconds of a Stream."""
    host_of(options["to"])
    net = net_of(options["netid"], "--netid") if options["netid"] else net_behind(options["to"])
    return options["to"], net, net_of(options["me"], "--me"), SECONDS


def say(text):
    print(text, file=sys.stderr, flush=True)


def watch_stop(stopped):
    """Ctrl-C and `kill` end a tool in peace."""
    for one in (signal.SIGTERM, signal.SIGINT):
        signal.signal(one, lambda *_: stopped.set())
