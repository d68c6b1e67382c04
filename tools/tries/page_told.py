"""What page.py tells beside values: units, limits, bits, alarms that come, go and are acknowledged, recipes, and
what it keeps over a restart.
"""
import json
import os
import re
import signal
import struct
import tempfile

from tries.page_login import logged_in
from tries.paged import Page, Rig, Stream
from tries.running import ME, NET, TOOLS, Served, refused, see, tool

LINE = os.path.join(os.path.dirname(os.path.abspath(__file__)), "page_told.toml")
# What is typed for a value, the status, and a part of the sentence.
LIMITED = [
    ("Main.count", "50", 200, ""),
    ("Main.count", "51", 400, "51 is above 50, the greatest that may be written to Main.count here"),
    ("Main.count", "9", 400, "9 is below 10, the least"),
    ("Main.wait", "T#1m31s", 400, "91000 ms is above 90000 ms"),
    ("Main.wait", "1500", 200, ""),
    ("Main.pump1.flow", "40.5", 200, ""),
    ("Main.pump1.flow", "40.6", 400, "40.6 l/min is above 40.5 l/min"),
    ("Main.pump2.flow", "-0.1", 400, "is below 0 l/min"),
    ("Main.long", "9007199254740996", 400, "9007199254740996 is above 9007199254740995"),
    ("Main.long", "-9007199254740995", 200, ""),
    ("Main.recipes[2].steps[1]", "6", 400, "6 is above 5"),
    ("Main.recipes[2].steps[2]", "-5", 200, ""),
]
# An element, what is typed, the array, and the status.
BAD_RECIPES = [
    ("[4]", {}, "Main.recipes", 404),
    ("", {}, "Main.recipes", 404),
    ("[1].steps", {}, "Main.recipes", 404),
    ("[1]", {"none": "1"}, "Main.recipes", 400),
    ("[1]", {}, "Main.count", 403),
    ("[1]", {"title": 5}, "Main.recipes", 400),
]
BAD_STATES = (
    b"{",
    b"[]",
    b'{"alarms": [], "past": []}',
    b'{"alarms": [{}], "past": [], "log": []}',
    b'{"alarms": [], "past": [], "log": [1]}',
    b"\xff" * 9,
)
BAD_WORDS = (
    ("[", "a key is wanted here"),
    ('[[port]]\nport = 851\nsymbol = [{ name = "Main.count", mim = 1 }]', "is `min` meant?"),
    ('[[port]]\nport = 851\nsymbol = [{ name = "Main.count", min = 2, max = 1 }]', "key `max`: it is below `min`"),
    ('[[type]]\nname = "Pump"\nmember = [{ name = "state", bits = ["a", "a"] }]', "another bit has the name"),
    ('[[port]]\nport = 851\nsymbol = [{ name = "Main.mode", alarm = "x" }]', "key `alarm`: Mode is an enumeration"),
    (
        '[[port]]\nport = 851\nsymbol = [{ name = "Main.mode", alarm = "x", alarm_at = ["Fauled"] }]',
        "key `alarm_at`: 'Fauled' is no value of Mode; is Faulted meant?",
    ),
    ('[[port]]\nport = 851\nsymbol = [{ name = "Main.door", alarm_at = false }]', "key `alarm_at`: no `alarm` stands"),
    ('[[port]]\nport = 851\nsymbol = [{ name = "Main.door", alarm = "x", alarm_at = 0 }]', "true or false stands here"),
    ('[[port]]\nport = 851\nsymbol = [{ name = "Main.count", alarm = "x", high = 1, alarm_at = 0 }]', "it belongs to"),
    ("\xff", "is no TOML document"),
)


def acknowledge(page, numbers, **headers):
    given = {"Content_Type": "application/json", "X_Token": page.token(), **headers}
    return page.ask("/acknowledge", "POST", json.dumps({"alarms": numbers}), **given)


def state_of(name):
    with open(name, encoding="utf-8") as file:
        return json.load(file)


def rows_of(said):
    return {row["name"]: row for row in said["rows"]}


def limits_hold(page):
    token = page.token()
    for name, text, wanted, part in LIMITED:
        status, why = page.write(name, text, token)
        see(
            status == wanted and (status == 200 or part in why),
            f"{name} := {text}: status {status}, {why!r} in place of {wanted}, {part!r}",
        )


def alarms_come(page, rig, stream):
    """Alarms of each kind, in the stream; gives the numbers of the rows."""

    def there(name):
        return lambda said: name in rows_of(said) and rows_of(said)[name]["went"] is None

    rig.put("Main.door", b"\1")
    see(
        rows_of(stream.next("alarms", there("Main.door")))["Main.door"]["text"] == "Door <b>open</b>",
        "the alarm of a BOOL",
    )
    rig.put("Main.said", b"no bottles".ljust(21, b"\0"))
    see(
        rows_of(stream.next("alarms", there("Main.said")))["Main.said"]["detail"] == "no bottles",
        "the alarm of a STRING",
    )
    rig.put("Main.pump2.state", b"\1\x80")
    see(
        rows_of(stream.next("alarms", there("Main.pump2.state")))["Main.pump2.state"]["text"] == "Hot",
        "the alarm of a bit",
    )
    rig.put("Main.pump1.flow", struct.pack("<f", 39.0))
    said = stream.next(
        "alarms",
        lambda said: rows_of(said).get("Main.pump1.flow", {}).get("detail") == "above 38 l/min" and said["there"] == 4,
    )
    rig.put("Main.door", b"\0")
    said = stream.next("alarms", lambda said: said["there"] == 3)
    see(
        rows_of(said)["Main.door"]["went"] >= rows_of(said)["Main.door"]["came"] and said["open"] == 4,
        "an alarm that went stays until it is acknowledged",
    )
    return {name: row["id"] for name, row in rows_of(said).items()}


def values_alarm(rig, stream):
    """Alarms of FALSE, of a bit that is 0, and of values of an enumeration; they go again."""

    def there(**wanted):
        def holds(said):
            rows = {row["name"].split(".")[1]: row for row in said["rows"] if row["went"] is None}
            return {name: rows[name]["detail"] for name in rows if name in ("air", "mode", "relays")} == wanted

        return holds

    for name, given, wanted in (
        ("Main.air", b"\0", {"air": ""}),
        ("Main.relays", b"\xfe", {"air": "", "relays": ""}),
        ("Main.mode", struct.pack("<h", 99), {"air": "", "relays": "", "mode": "Faulted"}),
        ("Main.mode", struct.pack("<h", -2), {"air": "", "relays": "", "mode": "Starved"}),
        ("Main.mode", struct.pack("<h", 1), {"air": "", "relays": ""}),
        ("Main.air", b"\1", {"relays": ""}),
        ("Main.relays", b"\1", {}),
    ):
        rig.put(name, given)
        said = stream.next("alarms", there(**wanted))
    return [row["id"] for row in said["rows"]]


def acknowledged(page, stream, numbers):
    see(
        acknowledge(page, [numbers["Main.door"]], X_Token="x")[0] == 403
        and acknowledge(page, [1], Content_Type="text/plain")[0] == 415,
        "guards of acknowledging",
    )
    see(
        acknowledge(page, [numbers["Main.door"]], Origin="http://evil.example")[0] == 403
        and page.ask("/acknowledge")[0] == 405,
        "guards of acknowledging",
    )
    see(acknowledge(page, ["1"])[0] == 400 and acknowledge(page, {})[0] == 400, "numbers that are none")
    see(
        json.loads(acknowledge(page, [numbers["Main.door"], numbers["Main.said"], 999])[2]) == {"count": 2},
        "two are acknowledged",
    )
    said = stream.next("alarms", lambda said: said["open"] == 2)
    see(
        "Main.door" not in rows_of(said) and said["past"][0]["name"] == "Main.door",
        "an alarm that is gone and acknowledged is a past one",
    )
    see(
        rows_of(said)["Main.said"]["by"] == "127.0.0.1" and rows_of(said)["Main.said"]["ack"], "who has acknowledged it"
    )


def kept(plant, server, words, state, rig):
    """A page that is killed and started again has its alarms and its log; what went meanwhile has gone."""
    rig.put("Main.pump2.state", b"\1\0")
    with Page(plant, server.to, *words) as page, Stream(page) as stream:
        page.until(page.is_well, "the server")
        log = stream.next("log")
        page.until(lambda: "Main.pump2.state" in open(state, encoding="utf-8").read(), "the state")
        rig.put("Main.door", b"\1")
        said = stream.next("alarms", lambda said: said["there"] == 3)
        rows = rows_of(said)
        see(
            rows["Main.pump2.state"]["went"] and rows["Main.said"]["ack"] and rows["Main.pump1.flow"]["ack"] is None,
            f"alarms that were kept: {rows}",
        )
        see(
            len(log) == sum(status == 200 for _, _, status, _ in LIMITED)
            and log[-1]["name"] == "Main.count"
            and log[-1]["was"] == "42",
            f"the log that was kept: {log}",
        )
        see(
            log[-1]["value"] == "50" and log[-1]["by"] == "127.0.0.1" and log[-1]["why"] == "",
            f"a line of the log: {log[-1]}",
        )
    given = json.load(open(state, encoding="utf-8"))
    see(set(given) == {"alarms", "past", "log"}, "the file of the state")


def refusals(folder, plant):
    to = ("--to", "127.0.0.1:1", "--me", ME)
    state, words = os.path.join(folder, "bad.json"), os.path.join(folder, "bad.toml")
    for given in BAD_STATES:
        with open(state, "wb") as file:
            file.write(given)
        refused(4, "is no file that page.py has kept", "page.py", plant, *to, "--state", state)
    refused(4, "there is no folder", "page.py", plant, *to, "--state", os.path.join(folder, "no", "x.json"))
    for text, part in BAD_WORDS:
        with open(words, "w", encoding="latin-1") as file:
            file.write(text)
        refused(2, part, "page.py", plant, *to, "--words", words)
    refused(4, "No such file", "page.py", plant, *to, "--words", os.path.join(folder, "none.toml"))
    refused(1, "--user-header is the name of a header", "page.py", plant, *to, "--user-header", "a b")
    refused(1, "--proxy ADDRESS, that of the web server", "page.py", plant, *to, "--user-header", "X-User")
    refused(1, "--user-header NAME, the header", "page.py", plant, *to, "--proxy", "127.0.0.1")
    refused(1, "--proxy is an address", "page.py", plant, *to, "--user-header", "X-User", "--proxy", "proxy")


def tells(program):
    with tempfile.TemporaryDirectory() as folder:
        plant, state = os.path.join(folder, "plant.toml"), os.path.join(folder, "state.json")
        out, err, status = tool("plant.py", "build", LINE, "--out", plant)
        see(status == 0 and os.path.exists(os.path.join(folder, "plant.page.toml")), f"plant.py build: {out}{err}")
        words = [word for name in sorted({it[0] for it in LIMITED}) for word in ("--write", name)] + ["--state", state]
        with Served(program, plant) as server, Rig(server) as rig:
            page = Page(plant, server.to, *words).__enter__()
            with Stream(page) as stream:
                page.until(page.is_well, "the server")
                table = stream.next("table", lambda it: it["g"])
                see(
                    {it["n"]: it.get("section") for it in table["symbols"]}["Main.pump2"] == "Pumps",
                    "the section of a symbol",
                )
                see(
                    {"u": "l/min", "min": 0.0, "max": 40.5, "high": 38.0, "alarm": "Flow"} in table["words"],
                    f"the words of a value: {table['words']}",
                )
                limits_hold(page)
                rig.put("Main.pump1.flow", struct.pack("<f", 1.0))
                acknowledge(page, values_alarm(rig, stream))
                stream.next("alarms", lambda said: not said["rows"])
                acknowledged(page, stream, alarms_come(page, rig, stream))
                page.until(
                    lambda: '"ack": null' in open(state, encoding="utf-8").read()
                    and "Main.door" in open(state, encoding="utf-8").read(),
                    "the state",
                )
                page.until(lambda: "Main.door" in [it["name"] for it in state_of(state)["past"]], "the last state")
            page.process.send_signal(signal.SIGKILL)
            page.end()
            kept(plant, server, words, state, rig)
            named(plant, server)
            logged_in(folder, plant, server)
            history_is_read(folder, plant, server)
            recipes_are_written(plant, server)
        refusals(folder, plant)
    in_german()
    return len(LIMITED)


def in_german():
    """Each text of the page's code has its German one."""
    folder = os.path.join(TOOLS, "lib", "page")
    texts = {
        name: open(os.path.join(folder, name), encoding="utf-8").read()
        for name in sorted(os.listdir(folder))
        if name.endswith((".js", ".html"))
    }
    german = set(re.findall(r'^  "((?:[^"\\]|\\.)*)":', texts.pop("german.js"), re.M))
    asked = {word for text in texts.values() for word in re.findall(r'\bt\("((?:[^"\\]|\\.)*)"', text)}
    asked |= set(re.findall(r"data-t[^>]*>([^<]+)<", texts["page.html"]))
    see(len(asked) > 50 and asked <= german, f"texts of the page without a German one: {asked - german}")


def recipe(page, index, values, name="Main.recipes", port=851):
    given = {"Content_Type": "application/json", "X_Token": page.token()}
    status, _, body = page.ask(
        "/recipe", "POST", json.dumps({"name": name, "port": port, "index": index, "values": values}), **given
    )
    return status, json.loads(body) if body.startswith(b"{") else {"why": body.decode()}


def recipes_are_written(plant, server):
    """An element is written whole, or not at all."""
    with Page(plant, server.to, "--write", "Main.recipes") as page, Rig(server) as rig, Stream(page) as stream:
        page.until(page.is_well, "the server")
        see(
            stream.next("table", lambda it: it["g"])["recipes"] == [{"n": "Main.recipes", "port": 851}],
            "the arrays that may be written",
        )
        before = rig.bytes_of("Main.recipes").hex()
        status, said = recipe(page, "[2]", {"title": "Milk", "volume": "1001", "soak": "T#11m", "steps[1]": "1"})
        see(
            status == 400
            and sorted(said["parts"]) == ["soak", "volume"]
            and "volume: 1001 ml is above 1000 ml" in said["why"],
            f"a recipe with two faults: {said}",
        )
        for index, values, name, wanted in BAD_RECIPES:
            status, said = recipe(page, index, values, name)
            see(status == wanted, f"the recipe {name}{index} of {values}: {status} {said}")
        see(page.write("Main.recipes[1].volume", "5", page.token())[0] == 403, "a part of a recipe is no form")
        see(rig.bytes_of("Main.recipes").hex() == before, "a recipe with a fault was written in part")
        status, said = recipe(
            page, "[2]", {"title": "Milk", "volume": "750.5", "soak": "T#1m", "steps[1]": "-3", "steps[2]": "4"}
        )
        see(status == 200, f"a recipe: {status} {said}")
        size = len(rig.bytes_of("Main.recipes")) // 3
        wanted = (
            before[: 2 * size] + "4d696c6b".ljust(24, "0") + "00a03b44" + "60ea0000" + "fdff0400" + before[4 * size :]
        )
        see(
            rig.bytes_of("Main.recipes").hex() == wanted,
            f"the bytes of a recipe: {rig.bytes_of('Main.recipes').hex()} in place of {wanted}",
        )
        logged = stream.next("logged")
        see(logged["name"] == "Main.recipes[2]" and "volume 750.5" in logged["value"], f"the log of a recipe: {logged}")


def history_is_read(folder, plant, server):
    """Points of a history stand before those of the page itself; a history that is gone is told."""
    base = os.path.join(folder, "h.db")
    out, err, status = tool(
        "history.py",
        "record",
        "Main.count",
        "--to",
        server.to,
        "--netid",
        NET,
        "--me",
        ME,
        "--sqlite",
        base,
        "--seconds",
        "1",
    )
    see(status == 0, f"history.py record: {out}{err}")
    with Page(plant, server.to, "--history", base) as page:
        page.until(page.is_well, "the server")
        long, short = page.json("/history.json?name=Main.count&minutes=60"), page.json("/history.json?name=Main.count")
        see(
            len(long["times"]) > len(short["times"]) and long["times"] == sorted(long["times"]),
            f"points of a history: {long} {short}",
        )
        see(page.ask("/history.json?name=Main.count&minutes=0")[0] == 400, "no minutes")
        os.rename(base, base + ".away")
        see("No such file" in page.json("/history.json?name=Main.count&minutes=60")["why"], "a history that is gone")
    to = ("--to", server.to, "--me", ME)
    refused(4, "file is not a database", "page.py", plant, *to, "--history", plant)
    refused(4, "No such file", "page.py", plant, *to, "--history", base)


def named(plant, server):
    """The name that a proxy tells stands in the log; nobody but the proxy is answered."""
    words = ("--write", "Main.count", "--user-header", "X-User", "--proxy")
    with Page(plant, server.to, *words, "127.0.0.1") as page, Stream(page) as stream:
        page.until(page.is_well, "the server")
        page.write("Main.count", "20", page.token(), X_User="Jörg".encode().decode("latin-1"))
        see(stream.next("logged")["by"] == "Jörg", "who wrote")
        status, why = page.write("Main.count", "21", page.token())
        see(status == 403 and "tells no name by x-user" in why, f"a write without a name: {status} {why}")
    with Page(plant, server.to, *words, "192.0.2.1", "--proxy", "2001:db8::1") as page:
        page.until(page.is_well, "the server")
        for path in ("/", "/values.json", "/metrics", "/events"):
            status, _, said = page.ask(path, X_User="root")
            is_told = b"127.0.0.1 is not named by --proxy" in said
            see(status == 403 and is_told, f"{path} past the proxy: {status} {said}")
        see(page.write("Main.count", "22", "x", X_User="root")[0] == 403, "a write past the proxy")
