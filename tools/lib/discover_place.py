"""What is served and where: a description, or a configuration of adsd that names it; and its NetId, which follows."""
import os
import threading
import time

from lib.discover_route import Description
from lib.files import read_bytes, regular
from lib.link import TCP_PORT
from lib.signals import THREE, config_in
from lib.toml_text import parse, text_of
from lib.words import Ended

HERE = "127.0.0.1"


def address_of(listen):
    """The address at which a server that listens there is reached from this machine."""
    host, _, port = listen.rpartition(":")
    host = {"0.0.0.0": HERE, "[::]": HERE}.get(host, host.strip("[]"))
    return f"{host}:{port}"


def described(name, to):
    """The description that a file is, or that a configuration names; `to` is where its server is, if it is told."""
    regular(name)
    given = read_bytes(name)
    config, there = config_in(given, name), f"{HERE}:{TCP_PORT}"
    if config is None:
        return Description(name, to or there, THREE)
    listen = parse(text_of(given)).data.get("listen")
    if listen is not None and listen.kind == "array" and listen.data:
        listen = listen.data[0]
    if listen is not None and listen.kind != "string":
        raise Ended(f"{name} is no configuration of adsd: `adsd check {name}` says why", 2)
    regular(config.description)
    return Description(config.description, to or (address_of(listen.data) if listen else there), config.signals)


class Followed(threading.Thread):
    """The NetId of a description, which is looked at each second. While it is refused or gone, the last NetId stays."""

    def __init__(self, description, log):
        super().__init__(daemon=True)
        self.description, self.log = description, log
        self.seen = self.state()
        self.net = description.read()[1].document["net"]

    def state(self):
        try:
            it = os.stat(self.description.name)
        except OSError as fault:
            return fault.strerror
        return it.st_mtime_ns, it.st_size, it.st_ino

    def run(self):
        while True:
            time.sleep(1)
            state = self.state()
            if state != self.seen:
                self.seen = state
                self.look()

    def look(self):
        try:
            net = self.description.read()[1].document["net"]
        except Ended as end:
            self.log.say(f"{end.why}; found as {self.net} still")
            return
        if net != self.net:
            self.log.say(f"found as {net}, and no more as {self.net}")
            self.net = net
