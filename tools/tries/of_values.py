"""values.py: values as people write them, both ways; recipes saved, compared and brought back; what is refused, and
by whom.
"""
import json
import os
import signal
import subprocess
import sys
import tempfile
import time

import values
from lib.files import read_plant
from lib.value_json import NoValueOf, Raw
from lib.value_parts import parts_of
from tries.fake_server import Fake
from tries.inside import inside
from tries.running import ME, NET, TOOLS, Served, refused, see, tool

HEAD = """schema = 2
net = "5.1.2.3.1.1"
[[route]]
net = "192.168.0.9.1.1"
rights = "control"
[[route]]
net = "192.168.0.10.1.1"
rights = "read"
[[type]]
name = "Mode"
base = "INT"
value = [{ name = "Stopped", number = 0 }, { name = "Running", number = 2 }]
[[type]]
name = "Recipe"
member = [{ name = "name", type = "STRING(15)" }, { name = "volume", type = "REAL" }, { name = "mode", type = "Mode" }, { name = "pause", type = "TIME" }]
[[port]]
port = 851
name = "Line"
major = 1
minor = 0
build = 0
data = 1100
"""
SYMBOLS = [
    ("Main.recipe", "ARRAY [1..3] OF Recipe"),
    ("Main.mode", "Mode"),
    ("Main.title", "STRING(7)"),
    ("Main.level", "LREAL"),
    ("Main.on", "BOOL"),
    ("Main.grid", "ARRAY [0..1,1..2] OF INT"),
    ("Main.big", "ULINT"),
    ("Main.small", "SINT"),
    ("Main.one", "Recipe"),
    ("Main.mask", "WORD"),
    ("Main.floats", "ARRAY [1..3] OF REAL"),
]
SHAPES = {}
# What is set, and what is then read.
TYPED = [
    ("Main.level", "-1.5", -1.5),
    ("Main.level", "1e300", 1e300),
    ("Main.level", "7", 7.0),
    ("Main.level", "NaN", "NaN"),
    ("Main.on", "true", True),
    ("Main.on", "0", False),
    ("Main.mode", "running", "Running"),
    ("Main.mode", "0", "Stopped"),
    ("Main.title", "7", "7"),
    ("Main.title", "Kühl 1", "Kühl 1"),
    ("Main.title", '"a\\"b"', 'a"b'),
    ("Main.big", "18446744073709551615", 18446744073709551615),
    ("Main.small", "-128", -128),
    ("Main.grid", "[[1, 2], [3, -4]]", [[1, 2], [3, -4]]),
    ("Main.mask", "255", 255),
    ("Main.recipe[2].pause", "T#1m30s", "T#1m30s"),
    ("Main.recipe[2].volume", "0.1", 0.1),
    (
        "Main.one",
        '{"name": "Water", "mode": "Running"}',
        {"name": "Water", "volume": 0.0, "mode": "Running", "pause": "T#0s"},
    ),
]
# What is no value, and a part of why.
BAD = [
    ("Main.level", "x", "LREAL wants a number"),
    ("Main.on", "2", "BOOL wants true or false"),
    ("Main.mode", "Runing", "is Running meant?"),
    ("Main.title", "12345678", "STRING(7) holds 7"),
    ("Main.title", "\u4e2d", "none of Windows-1252"),
    ("Main.small", "128", "-128 to 127"),
    ("Main.small", "1.5", "SINT wants"),
    ("Main.grid", "[1, 2, 3, 4, 5]", "has 4 elements"),
    ("Main.one", '{"nme": "x"}', "has no member 'nme'"),
    ("Main.one", "5", "wants its members"),
    ("Main.big", "-1", "0 to 18446744073709551615"),
    ("Main.on", "null", "null is no value"),
    ("Main.level", "120,0", "write 120.0"),
    ("Main.recipe", '[{}, {"volum": 1}]', "Main.recipe[2]: Recipe has no member 'volum'; is volume meant?"),
    ("Main.recipe", "[{}, {}, {}, {}]", "has 3 elements, and 4 stand there"),
    ("Main.grid", "[[1], [1, 2, 3]]", "has 2 elements, and 3 stand there"),
    ("Main.grid", "[[1], 5]", "row 2 of ARRAY [0..1,1..2] OF INT is a list or null"),
    ("Main.one", '{"volume": 1, "Volume": 2}', "the member volume stands there twice"),
    ("Main.one", '{"volume": 1, "volume": 2}', "'volume' stands there twice"),
    ("Main.small", "[" * 900 + "]" * 900, "nested too deep"),
    ("Main.recipe", '[{"name": "0123456789abcdef"}]', "Main.recipe[1].name: the text has 16 letters"),
]
WATER = {"name": "Water", "volume": 5.5, "mode": "Running", "pause": "T#1s"}
EMPTY = {"name": "", "volume": 0.0, "mode": "Stopped", "pause": "T#0s"}
# What is set of an array of structures, and what it then has.
IN_ARRAYS = [
    ("Main.recipe", [WATER, WATER, WATER], [WATER, WATER, WATER]),
    ("Main.recipe", [{"volume": 1.0}, {"volume": 2.0}], [{**WATER, "volume": 1.0}, {**WATER, "volume": 2.0}, WATER]),
    (
        "Main.recipe",
        [None, {"NAME": "B"}, None],
        [{**WATER, "volume": 1.0}, {**WATER, "volume": 2.0, "name": "B"}, WATER],
    ),
    (
        "Main.recipe",
        {"each": {"mode": "Stopped"}},
        [
            {**WATER, "volume": 1.0, "mode": "Stopped"},
            {**WATER, "volume": 2.0, "name": "B", "mode": "Stopped"},
            {**WATER, "mode": "Stopped"},
        ],
    ),
    ("Main.recipe", [EMPTY] * 3, [EMPTY] * 3),
    ("Main.grid", [[1, 2], [3, 4]], [[1, 2], [3, 4]]),
    ("Main.grid", [[None, 7]], [[1, 7], [3, 4]]),
    ("Main.grid", [None, [8]], [[1, 7], [8, 4]]),
    ("Main.grid", [9], [[9, 7], [8, 4]]),
    ("Main.grid", [], [[9, 7], [8, 4]]),
    ("Main.floats", ["NaN", 1.5], ["NaN", 1.5, 0.0]),
    ("Main.floats", [2.5, "NaN", "-Infinity"], [2.5, "NaN", "-Infinity"]),
]


def described(folder):
    text, offset = HEAD, 0
    for name, kind in SYMBOLS:
        text += f'[[port.symbol]]\nname = "{name}"\ntype = "{kind}"\narea = "data"\noffset = {offset}\n'
        offset += 100
    path = os.path.join(folder, "line.toml")
    with open(path, "w", encoding="utf-8") as file:
        file.write(
            text + '[[port.symbol]]\nname = "Fixed.one"\ntype = "INT"\narea = "data"\noffset = 1050\nread_only = true\n'
            '[[port.symbol]]\nname = "Own.one"\ntype = "INT"\narea = "data"\noffset = 1052\nwriters = ["192.168.0.10.1.1"]\n'
        )
    return path


def got(on, *names):
    out, err, status = inside(values.main, "get", *names, "--json", *on)
    see(status == 0, f"values.py get {names}: {err}")
    return json.loads(out)


def rounds():
    """What is set, in rounds in which no name stands twice."""
    left = list(TYPED)
    while left:
        some = {}
        for row in left:
            some.setdefault(row[0], row)
        yield list(some.values())
        left = [row for row in left if row not in some.values()]


def set_and_read(on):
    for some in rounds():
        out, err, status = tool("values.py", "set", *(f"{name}={text}" for name, text, _ in some), *on)
        see(status == 0 and out.endswith("values set\n"), f"values.py set {some}: {out}{err}")
        wanted, came = {name: value for name, _, value in some}, got(on, *(name for name, _, _ in some))
        see(came == wanted, f"{some} are read back as {came}")
    for name, value, wanted in IN_ARRAYS:
        out, err, status = inside(values.main, "set", f"{name}={json.dumps(value)}", *on)
        see(
            status == 0 and got(on, name) == {name: wanted},
            f"{name} = {value}: {out}{err}{got(on, name)} in place of {wanted}",
        )
    for name, text, part in BAD:
        see(part in fault_of(name, text), f"{name} = {text} is told as {fault_of(name, text)!r}, without {part!r}")
    before = got(on, "Main.*")
    refused(13, "is Running meant?; nothing was written", "values.py", "set", "Main.mask=1", "Main.mode=Runing", *on)
    see(got(on, "Main.*") == before, "a set that has a wrong value has set others")
    refused(8, "refused, 0x704", "values.py", "set", "Fixed.one=1", *on)
    refused(8, "no symbol 'Main.none'", "values.py", "get", "Main.none", *on)
    refused(
        8,
        "no symbol 'Main.recpie[1].volume' at port 851; is Main.recipe[1].volume meant?",
        "values.py",
        "get",
        "Main.recpie[1].volume",
        *on,
    )
    refused(1, "'Main.*' is a pattern, and values are set by their names", "values.py", "set", "Main.*=1", *on)
    refused(
        8,
        "; Main.recipe is an array, from Main.recipe[1] to Main.recipe[3]",
        "values.py",
        "set",
        "Main.recipe[4].volume=1",
        *on,
    )
    out, _, _ = tool("values.py", "get", "main.MODE", "Main.recipe[2].volume", *on)
    see(out == "Main.mode = Stopped\nMain.recipe[2].volume = 0.0\n", f"values.py get: {out}")


def fault_of(name, text):
    """Why a text is no value of a symbol of the description; nothing where it is one."""
    try:
        parts_of(name, SHAPES[name], Raw(text))
    except NoValueOf as fault:
        return str(fault)
    return ""


def recipes(folder, on):
    names = [os.path.join(folder, name) for name in ("one.json", "one.csv")]
    see(
        tool("values.py", "dump", "*", "--out", names[0], *on)[2] == 0
        and tool("values.py", "dump", "*", "--csv", "--out", names[1], *on)[2] == 0,
        "no recipe was saved",
    )
    see(tool("values.py", "diff", *names)[::2] == ("", 0), "a recipe as JSON and as CSV differ")
    before = got(on, "*")
    for name in names:
        tool("values.py", "set", "Main.level=99", "Main.one.name=Other", "Main.on=true", *on)
        out, _, status = tool("values.py", "restore", name, "--plan", *on)
        see(
            status == 0
            and "Main.level: 99.0 becomes NaN" in out
            and "Main.one.name: Other becomes Water" in out
            and got(on, "*") != before,
            f"a plan: {out}",
        )
        out, err, status = tool("values.py", "restore", name, *on)
        see(status == 0 and out == "3 values set\n" and got(on, "*") == before, f"values.py restore {name}: {out}{err}")
        see(tool("values.py", "restore", name, *on)[0] == "nothing differs\n", "what is restored differs still")
    tool("values.py", "set", "Main.level=1", *on)
    tool("values.py", "dump", "Main.level", "--out", os.path.join(folder, "two.json"), *on)
    out, _, status = tool("values.py", "diff", names[0], os.path.join(folder, "two.json"))
    see(
        status == 3
        and "Main.level: NaN becomes 1.0" in out.splitlines()
        and "Main.on: false is in the first alone" in out.splitlines(),
        f"values.py diff: {out}",
    )


def bad_recipes(folder, on):
    """Files that are no recipes."""
    for text, part in (
        ("", "neither JSON nor CSV"),
        ("{", "is no JSON"),
        ("{}", "no object `values`"),
        ("name,value\na,1\na,2\n", "a twice"),
        ("name;value\na;1\n", "commas in place of semicolons"),
        ('{"values": {"a": 1, "A": 2}}', "A twice"),
        ("name,value\n", "no value"),
    ):
        with open(os.path.join(folder, "bad"), "w", encoding="utf-8") as file:
            file.write(text)
        refused(4, part, "values.py", "restore", os.path.join(folder, "bad"), *on)
    refused(13, "nothing was written", "values.py", "restore", bad_recipe(folder), *on)


def saved(folder, values, **more):
    """A recipe as a file."""
    path = os.path.join(folder, "saved.json")
    with open(path, "w", encoding="utf-8") as file:
        json.dump({"values": values, **more}, file)
    return path


def plans(folder, on, server):
    """A plan refuses what the writing would refuse, in the same words, and says of an array what changes in it."""
    inside(values.main, "set", "Main.recipe=" + json.dumps([WATER] * 3), "Main.level=1", *on)
    name = saved(folder, {"Main.recipe": [{"volume": 2.0}, {"name": "B", "pause": "T#1s"}], "Main.level": 1.0})
    out, _, status = inside(values.main, "restore", name, "--plan", *on)
    see(
        (out, status) == ("Main.recipe[1].volume: 5.5 becomes 2.0\nMain.recipe[2].name: Water becomes B\n", 0),
        f"a plan of an array: {out}",
    )
    out, _, status = inside(values.main, "restore", name, *on)
    see(
        (out, status) == ("2 values set\n", 0)
        and got(on, "Main.recipe") == {"Main.recipe": [{**WATER, "volume": 2.0}, {**WATER, "name": "B"}, WATER]},
        f"a recipe of a type that has more members now: {out}",
    )
    see(inside(values.main, "restore", name, "--plan", *on)[0] == "nothing differs\n", "a recipe that is there differs")
    plant, reader = ("--plant", on[-1]), server.words(me="192.168.0.10.1.1")
    for given, words in (
        ({"Main.level": "64,5"}, on),
        ({"Main.mode": "Runing"}, on),
        ({"Main.title": "12345678"}, on),
        ({"Main.none": 1}, on),
        ({"Fixed.one": 5}, on),
        ({"Own.one": 5}, on),
        ({"Main.level": 7.0}, (*reader, *plant)),
        ({"Main.recipe": [{}] * 4}, on),
    ):
        name = saved(folder, given)
        ends = [inside(values.main, "restore", name, *more, *words) for more in (("--plan",), ())]
        see(
            ends[0][1:] == ends[1][1:] and ends[0][2] in (8, 13),
            f"a plan of {given} ends with {ends[0]}, and the restore with {ends[1]}",
        )


def before_a_change(folder, on):
    """What deploy.py saved before a change: what the change loses is set, and with --all everything."""
    name = saved(folder, {"Main.level": 5.0, "Main.small": 5}, port=851, restore={"Main.small": 6})
    before = got(on, "Main.level")
    out, _, _ = inside(values.main, "restore", name, *on)
    see(
        "these alone are restored" in out and got(on, "Main.level", "Main.small") == {**before, "Main.small": 6},
        f"a file from before a change: {out}",
    )
    inside(values.main, "restore", name, "--all", *on)
    see(
        got(on, "Main.level", "Main.small") == {"Main.level": 5.0, "Main.small": 5},
        "a file from before a change, all of it",
    )
    refused(8, "port 852", "values.py", "restore", saved(folder, {"Main.level": 5.0}, port=852), *on)
    refused(4, "`port` is a number", "values.py", "restore", saved(folder, {"Main.level": 5.0}, port="x"), *on)


def bad_recipe(folder):
    path = os.path.join(folder, "bad.json")
    with open(path, "w", encoding="utf-8") as file:
        json.dump({"values": {"Main.level": 5, "Main.on": "perhaps"}}, file)
    return path


def watches(on):
    it = subprocess.Popen(
        [sys.executable, os.path.join(TOOLS, "values.py"), "watch", "Main.mode", "Main.level", "--cycle", "0", *on],
        stdout=subprocess.PIPE,
        text=True,
    )
    first = sorted(it.stdout.readline().split(" ", 1)[1] for _ in range(2))
    see(first == ["Main.level = 1.0\n", "Main.mode = Stopped\n"], f"values.py watch begins with {first}")
    tool("values.py", "set", "Main.mode=Running", *on)
    line = it.stdout.readline()
    see(line.endswith(" Main.mode = Running\n"), f"values.py watch says {line!r}")
    time.sleep(0.2)
    it.send_signal(signal.SIGINT)
    see(it.wait(10) == 130 and it.stdout.read() == "", "values.py watch does not end at Ctrl-C")


def servers(folder, on, path):
    name = os.path.join(folder, "servers.toml")
    with open(name, "w", encoding="utf-8") as file:
        file.write(
            f'[[server]]\nname = "line"\nto = "{on[1]}"\nme = "{ME}"\nplant = "{os.path.basename(path)}"\n[[server]]\nname = "other"\nto = "127.0.0.1:1"\nnetid = "{NET}"\nme = "{ME}"\n'
        )
    see(got(("--servers", name, "--at", "line"), "Main.mode") == {"Main.mode": "Running"}, "a server by its name")
    refused(6, "can't be reached", "values.py", "get", "Main.mode", "--servers", name, "--at", "other")
    refused(1, "it has line, other", "values.py", "get", "Main.mode", "--servers", name, "--at", "third")
    refused(1, "--at says which server", "values.py", "get", "Main.mode", "--servers", name)


def wrong_words(on):
    refused(1, "is none of get, set", "values.py", "gett")
    refused(1, "NAME is wanted", "values.py", "get", *on)
    refused(1, "is not NAME=VALUE", "values.py", "set", "Main.on", *on)
    refused(1, "--to and --me are wanted", "values.py", "get", "x", "--servers", "")
    with Fake(lambda frame: b"\0\0\1") as liar:
        refused(11, "did not answer", "values.py", "get", "x", "--to", liar.to, "--netid", NET, "--me", ME)
    with Fake(lambda frame: b"HTTP/1.1 400") as liar:
        refused(9, "does not speak ADS", "values.py", "get", "x", "--to", liar.to, "--netid", NET, "--me", ME)


def tried(program, _size):
    with tempfile.TemporaryDirectory() as folder:
        os.environ["XDG_CONFIG_HOME"] = folder
        path = described(folder)
        SHAPES.update({part.path: part.shape for part in read_plant(path).port(851).symbols.values()})
        with Served(program, path) as server:
            on = (*server.words(), "--plant", path)
            set_and_read(on)
            recipes(folder, on)
            bad_recipes(folder, on)
            watches(on)
            servers(folder, on, path)
            wrong_words(on)
            plans(folder, on, server)
            before_a_change(folder, on)
            see(
                tool("values.py", "get", "Main.mode", *server.words())[0] == "Main.mode = 2\n",
                "without a description an enumeration is its number",
            )
    return f"{len(TYPED)} values as they are written and read, {len(BAD)} that are none; recipes in two forms; watched; servers by name"
