"""Mistakes that people make at `ads`, `adsd` and the tools: the status and a part of what is said, by
data/mistakes.toml.
"""
import importlib
import os
import shlex
import shutil
import subprocess
import tempfile

from lib.toml_text import parse, text_of
from tries.inside import inside
from tries.kept_values import ADSD
from tries.running import EXAMPLES, ME, NET, Served, see

TABLE = os.path.join(os.path.dirname(os.path.abspath(__file__)), "data", "mistakes.toml")
SOURCE = f"""schema = 2
net = "{NET}"
[[route]]
net = "{ME}"
rights = "control"
[[port]]
port = 851
name = "P"
symbol = [
  SYMBOL,
]
"""
CONFIG = 'description = "plant.toml"\nlisten = ["127.0.0.1:48898"]\n'
FEWEST = 100


def mistakes():
    with open(TABLE, "rb") as file:
        found = parse(text_of(file.read())).data["mistake"].data
    return [{key: value.data for key, value in it.data.items()} for it in found]


def file_of(it):
    """What the file it.toml has; None where there is none."""
    if "symbol" in it:
        return SOURCE.replace("SYMBOL", it["symbol"])
    return CONFIG + it["config"] + "\n" if "config" in it else it.get("text")


def said(program, words):
    """What the words print, and the status; None where their program is not built."""
    if words[0] in ("ads", "adsd"):
        own = program if words[0] == "ads" else ADSD
        if not os.access(own, os.X_OK):
            return None
        it = subprocess.run(
            [own, *words[1:]], stdin=subprocess.DEVNULL, capture_output=True, text=True, errors="replace", timeout=60
        )
        return it.stdout + it.stderr, it.returncode
    out, err, status = inside(importlib.import_module(words[0][:-3]).main, *words[1:])
    return out + err, status


def tried_one(program, it, values):
    words = it["words"]
    for word, value in values.items():
        words = words.replace(word, value)
    text = file_of(it)
    if text is not None:
        with open("it.toml", "w", encoding="utf-8") as file:
            file.write(text)
    found = said(program, shlex.split(words))
    if found is None:
        return 0
    told, status = found
    about = f"{it['words']}" + (f" with {text!r}" if text else "")
    see(status == it["status"] and it["part"] in told, f"{about}: {status}, {told[-400:]!r} in place of {it}")
    see("Traceback" not in told, f"{about}: {told[-400:]}")
    return 1


def tried(program, size):
    table = mistakes()
    see(len(table) >= FEWEST, f"{len(table)} mistakes")
    before, home = os.getcwd(), os.environ.get("XDG_CONFIG_HOME")
    with tempfile.TemporaryDirectory() as folder, Served(program, os.path.join(EXAMPLES, "plant.toml")) as server:
        for name in ("plant", "line", "overlap"):
            shutil.copy(os.path.join(EXAMPLES, f"{name}.toml"), folder)
        values = {"$ON": "--to $TO --netid $NET --me $ME", "$TO": server.to, "$NET": NET, "$ME": ME}
        values.update({f"${name.upper()}": f"{name}.toml" for name in ("plant", "line", "overlap")})
        os.environ["XDG_CONFIG_HOME"] = folder
        os.chdir(folder)
        try:
            count = sum(tried_one(program, it, values) for it in table)
        finally:
            os.chdir(before)
            os.environ.pop("XDG_CONFIG_HOME")
            if home is not None:
                os.environ["XDG_CONFIG_HOME"] = home
    return f"{count} of {len(table)} mistakes are told"
