"""Which server a tool speaks with: by its options, or by a table of a file that names servers."""
import os

from lib.files import read_bytes, read_plant
from lib.flow_words import SECONDS, net_behind
from lib.link import host_of, net_of
from lib.toml_text import TomlFault, parse, text_of
from lib.words import Ended, number

KEYS = ("name", "to", "netid", "me", "port", "plant")


def default_file():
    return os.path.join(os.environ.get("XDG_CONFIG_HOME") or os.path.expanduser("~/.config"), "ads", "servers.toml")


def listed(name):
    """The servers of a file, each a table of texts."""
    try:
        root = parse(text_of(read_bytes(name))).data
    except Ended as end:
        raise Ended(f"{end.why}; --at takes a server from its tables [[server]] with {', '.join(KEYS)}", end.status) from None
    except TomlFault as fault:
        raise Ended(f"{name} is no TOML document: {fault.why}", 4) from None
    tables = root.get("server")
    if tables is None or tables.kind != "array" or any(it.kind != "table" for it in tables.data) or len(root) != 1:
        raise Ended(f"{name}: it wants tables [[server]] with {', '.join(KEYS)}", 4)
    found = []
    for table in tables.data:
        odd = [key for key, value in table.data.items() if key not in KEYS or value.kind not in ("string", "integer")]
        if odd or "name" not in table.data or "to" not in table.data or "me" not in table.data:
            raise Ended(f"{name}: a [[server]] has name, to, me, and may have netid, port and plant" + (f"; {odd[0]!r} is none of these, or no text" if odd else ""), 4)
        found.append({key: str(value.data) for key, value in table.data.items()})
    return found


def chosen(options):
    """The options, those that are not given taken from the file's server."""
    name = options["servers"] or default_file()
    if options["to"] or not (options["at"] or options["servers"] or os.path.exists(name)):
        return options
    servers = listed(name)
    these = [it for it in servers if options["at"] in ("", it["name"])]
    if len(these) != 1:
        known = ", ".join(it["name"] for it in servers)
        raise Ended(f"{name} has no server {options['at']!r}; it has {known}" if options["at"] else f"--at says which server of {name}: {known}", 1)
    found = {**options, **{key: value for key, value in these[0].items() if key in options and not options[key]}}
    if found["plant"] and not options["plant"]:
        found["plant"] = os.path.join(os.path.dirname(os.path.abspath(name)), found["plant"])
    return found


def server_of(options):
    """The words of a Stream, the AMS port, and the description as a plant, if one is named."""
    options = chosen(options)
    missing = [f"--{key}" for key in ("to", "me") if not options[key]]
    if missing:
        raise Ended(f"{' and '.join(missing)} {'is' if len(missing) == 1 else 'are'} wanted, or --at with a file of servers; --help says what that is")
    host_of(options["to"])
    plant = read_plant(options["plant"]) if options["plant"] else None
    net = net_of(options["netid"], "--netid") if options["netid"] else plant.net if plant else net_behind(options["to"])
    return (options["to"], net, net_of(options["me"], "--me"), SECONDS), number(options["port"] or "851", "--port", 1, 65535), plant
