"""How many signals a server has: the three of `ads`, or those of a configuration of `adsd`; and which files such a
configuration names.
"""
import os
import re
from typing import NamedTuple, Optional

from lib.toml_text import TomlFault, parse, text_of
from lib.words import Ended, number

MOST = 1024
# What a configuration has a line of: looked for first, since to read a great description takes seconds.
DESCRIBES = re.compile(rb"""^[ \t]*["']?description["']?[ \t]*=""", re.MULTILINE)


class Signals(int):
    """A number of signals; `said` says where it is from."""

    said = ""


def signals(count, said):
    it = Signals(count)
    it.said = said
    return it


THREE = signals(
    3,
    "`ads` has 3, numbered from 0 (for `adsd` name its configuration by --config FILE, or say --signals N; "
    "`adsd check FILE` checks it, `ads check` knows these 3)",
)


class Config(NamedTuple):
    """What a configuration says that a tool wants to know."""

    description: str
    store: Optional[str]
    signals: Signals


def beside(path, name):
    """A file that a configuration names: from the folder in which the daemon is started, which is this one, or else
    from that of the configuration.
    """
    own = os.path.join(os.path.dirname(os.path.abspath(name)), path)
    return path if os.path.exists(path) or not os.path.exists(own) else own


def config_in(given, name):
    """The configuration that the bytes of a file are; None where they are none."""
    if not DESCRIBES.search(given):
        return None
    try:
        keys = parse(text_of(given)).data
    except TomlFault:
        return None
    texts = {key: keys[key].data if key in keys else None for key in ("description", "store")}
    if "description" not in keys or any(text is not None and not isinstance(text, str) for text in texts.values()):
        return None
    listed = keys["signal"] if "signal" in keys else None
    if listed is not None and (listed.kind != "array" or any(it.kind != "table" for it in listed.data)):
        raise Ended(f"{name}: `signal` takes tables [[signal]]", 2)
    count = len(listed.data) if listed else 0
    tables = (
        f"{name} has {count} {'tables' if count != 1 else 'table'} [[signal]]"
        if count
        else f"{name} has no table [[signal]], so there are the 3 of `ads`"
    )
    store = beside(texts["store"], name) if texts["store"] else None
    return Config(beside(texts["description"], name), store, signals(count or 3, f"{tables}, numbered from 0"))


def read_config(name):
    """The configuration that --config names."""
    try:
        with open(name, "rb") as file:
            given = file.read()
    except OSError as fault:
        raise Ended(f"{name}: {fault.strerror}", 4) from None
    found = config_in(given, name)
    if found is None:
        raise Ended(f"{name} is no configuration of adsd: that is a TOML document with a text `description`", 2)
    return found


def signals_of(options):
    """The signals that the options of a tool name."""
    if options["config"] and options["signals"]:
        raise Ended("--config tells the number of signals, so --signals does not go with it")
    if options["signals"]:
        count = number(options["signals"], "--signals", 0, MOST)
        return signals(count, f"--signals says {count}, numbered from 0")
    return read_config(options["config"]).signals if options["config"] else THREE
