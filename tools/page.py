#!/usr/bin/env python3
"""A page of live values of an ADS server of ours, for whoever stands before a plant with a browser and no other client.

    python3 tools/page.py plant.toml --to 127.0.0.1:48898 --me 192.168.0.9.1.1

serves http://127.0.0.1:8080/: all values of the server with their types, what changes, and a plot of the last minutes of each. PLANT is the description that
the server was started with. The page is one client of the server, with the NetId `--me`, which must be a route, however many browsers look at it.

`--http HOST:PORT` is where browsers find it; whoever reaches that sees all values. `--host NAME` is a name that it is called by, beside localhost and
addresses; it may stand more than once. `--write NAME` gives a form for this value, with the rights of the route `--me`; it may stand more than once, and
without one nothing can be written. NAME may be an array of structures: it is then a table of recipes, of which one is written whole. `--netid` is the NetId of the server where it is not the description's, `--port N` an AMS port that is shown (all are; it
may stand more than once), `--cycle MS` how often changes come (100), `--seconds` how long an answer may take (5).

Units, limits, names of bits, alarms and groups are those of PLANT.page.toml beside the description, which tools/plant.py writes; `--words FILE` names
another file. `--state FILE` keeps the list of alarms and the log of writes over a restart. `--history FILE`, or a URL as postgresql://.., is a history that tools/history.py records: plots then go back
up to seven days. It is only read.

The log of writes and the alarms have addresses, or names: `--users FILE` asks who they are, by the names and passwords that tools/page_user.py writes into
FILE. Or `--user-header NAME` is the header by which a web server before this page says who asks, and `--proxy ADDRESS` the address of that web server (it may
stand more than once): nobody else is answered then.

/values.json has all values, /history.json?name=NAME the last minutes of one, /metrics what Prometheus reads, and /healthz the status 200 while the server
answers, else 503.

It runs until it is ended. The status is 1 for wrong words, 2 for a description that is refused, 4 for a file that can't be read, 6 if HOST:PORT can't be had.
"""
import asyncio
import os
import re
import sys

sys.path.insert(0, os.path.dirname(os.path.abspath(__file__)))
from lib.link import host_of, net_of  # noqa: E402
from lib.near import meant_in  # noqa: E402
from lib.page_history import History  # noqa: E402
from lib.page_recipes import is_recipes  # noqa: E402
from lib.page_users import Everyone, Proxy, Users, address_of  # noqa: E402
from lib.plant import steps_of  # noqa: E402
from lib.routes import Routes, say  # noqa: E402
from lib.type_texts import lower  # noqa: E402
from lib.watcher import Watcher  # noqa: E402
from lib.words import Ended, number, read_words, run  # noqa: E402


def http_of(text):
    """The address and the port at which browsers find the page."""
    host, colon, port = text.rpartition(":")
    if not colon or not host.strip("[]"):
        raise Ended(f"--http is HOST:PORT, and {text!r} is not: 127.0.0.1:8080 is this machine alone, 0.0.0.0:8080 all that reach it")
    return host.strip("[]"), number(port, "the port of --http", 1, 65535)


def names_of(given):
    """The values that may be written, pairs of a port, None where it is not said, and a path."""
    found = []
    for word in given:
        port, colon, path = word.rpartition(":")
        if not steps_of(path):
            raise Ended(f"--write is the NAME of a value, such as Main.count or Main.axis[1].pos, or PORT:NAME, and {word!r} is none")
        found.append((number(port, "the port of --write", 1, 65535) if colon else None, path))
    return found


def guests_of(options, port):
    """Who may ask, and how it is known who that is."""
    header, proxies, users = options["user-header"], options["proxy"], options["users"]
    if header and not re.fullmatch("[A-Za-z0-9-]{1,64}", header):
        raise Ended(f"--user-header is the name of a header, such as X-Remote-User, and {header!r} is none")
    if users and (header or proxies):
        raise Ended("--users and --user-header both say who asks: give one of them")
    if bool(header) != bool(proxies):
        missing, why = ("--proxy", "ADDRESS, that of the web server which sends the header: 127.0.0.1 if it runs here")
        if proxies:
            missing, why = ("--user-header", "NAME, the header by which the web server says who asks")
        raise Ended(f"{missing} {why}, is wanted, too")
    wrong = [it for it in proxies if not address_of(it)]
    if wrong:
        raise Ended(f"--proxy is an address, such as 127.0.0.1, and {wrong[0]!r} is none")
    return Users(users, port) if users else Proxy(header, proxies) if header else Everyone()


def parts_port(ports, path):
    """The first port that has a path."""
    return next(number for number in ports if ports[number].find(path))


def writable(watcher, names):
    """Sees that each name that may be written is a plain value of the description, or a symbol that is an array of structures."""
    for port, path in names:
        own = watcher.plant.ports
        parts = [it for it in (own[number].find(path) for number in ([port] if port else own) if number in own) if it]
        if not parts:
            asked = [number for number in ([port] if port else list(own)[:1]) if number in own]
            near = "".join(meant_in(own[number], path) for number in asked)
            raise Ended(f"{watcher.file} has no {path}: --write names a value of it{near}")
        named = parts[0].shape.named()
        if is_recipes(parts[0].shape) and lower(path) in own[port or parts_port(own, path)].symbols:
            continue
        if parts[0].shape.ends or (named and not named.base):
            raise Ended(f"{path} has parts: --write names a plain value in it, such as {path}{'[1]' if parts[0].shape.ends else '.' + named.members[0].name}")


async def serve(routes, host, port):
    try:
        server = await routes.web.start(host, port)
    except (OSError, UnicodeError) as fault:
        raise Ended(f"{host}:{port} can't be had: {getattr(fault, 'strerror', None) or fault}", 6) from None
    routes.watcher.publish = routes.publishing(asyncio.get_running_loop())
    say(f"http://{f'[{host}]' if ':' in host else host}:{port}/")
    if routes.names and host not in ("127.0.0.1", "::1", "localhost"):
        say(f"whoever reaches {host}:{port} may write {', '.join(path for _, path in routes.names)}")
    routes.watcher.start()
    async with server:
        await asyncio.gather(server.serve_forever(), routes.streams.beat())


def main(words):
    (file,), options = read_words(words, __doc__, ["PLANT"], {
        "to": None, "me": None, "netid": "", "http": "127.0.0.1:8080", "host": [], "write": [], "port": [], "cycle": "100", "seconds": "5", "words": "", "state": "",
        "user-header": "", "proxy": [], "users": "", "history": ""})
    host_of(options["to"])
    me, net = net_of(options["me"], "--me"), net_of(options["netid"], "--netid") if options["netid"] else None
    ports = [number(port, "--port", 1, 65535) for port in options["port"]]
    cycle, seconds = number(options["cycle"], "--cycle", 10, 60000), number(options["seconds"], "--seconds", 1, 60)
    (host, port), names = http_of(options["http"]), names_of(options["write"])
    guests = guests_of(options, port)
    watcher = Watcher(file, options["to"], me, net, ports, 10000 * cycle, seconds, None, options["words"])
    writable(watcher, names)
    history = History(options["history"]) if options["history"] else None
    asyncio.run(serve(Routes(watcher, names, options["host"], options["state"], guests, history), host, port))
    return 0


if __name__ == "__main__":
    run(main)
