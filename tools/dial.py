#!/usr/bin/env python3
"""Brings a server that only waits for clients to a relay: for whoever has panels at `ads relay` and a server that cannot connect to it.

    python3 tools/dial.py 192.168.0.5:48898 127.0.0.1:48898 5.1.2.3.1.1

RELAY and SERVER are HOST or HOST:PORT (48898). NETID is the server's own NetId, which must be a route of the relay's description: dial.py owns it
at the relay, and the server gets each frame for it as it came. Each asker has a connection of its own to the server, so one that the server
turns away closes nobody else's; the askers' NetIds must be routes of the server. `--askers` is how many there may be (60).

It runs until it is stopped. If the relay is gone, it connects again, once a second. If the server is gone or turns an asker away, the
asker is answered AMS error 7 (target machine not found), as by a relay without the server, and the next request tries again. A panel's
handles and notifications end with its connection to the server: its symbol version (0xF008) then begins again.

The status is 1 for wrong words, 9 if the relay turns NETID away (it is no route there, or another connection owns it), 130 when stopped by Ctrl-C.
"""
import os
import sys

sys.path.insert(0, os.path.dirname(os.path.abspath(__file__)))
from lib.dialing import Dial  # noqa: E402
from lib.link import host_of, net_of  # noqa: E402
from lib.words import number, read_words, run  # noqa: E402


def main(words):
    (relay, server, net), options = read_words(words, __doc__, ["RELAY", "SERVER", "NETID"], {"askers": "60"})
    net_of(net, "NETID")
    askers = number(options["askers"], "--askers", 1, 1000)
    Dial(relay, server, net, askers, host_of(relay), host_of(server)).run()
    return 0


if __name__ == "__main__":
    run(main)
