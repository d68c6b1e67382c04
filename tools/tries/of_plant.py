"""plant.py: that what it builds is accepted and read back as it was written, that places stay, that every fault is told, and what it imports."""
import bisect
import os
import random
import re
import tempfile

from lib.building import build
from lib.document import Entry
from lib.import_model import NoImport
from lib.importing import imported
from lib.plant import Plant
from lib.program import run as run_program
from lib.values import value_text
from lib.verdict import verdict_on
from lib.xml_tree import XmlFault
from tries import line_faults
from tries.damage import damaged_text, made, rendered
from tries.import_more import more_imports
from tries.random_lines import Lines, line_of
from tries.running import EXAMPLES, ME, PLANT, TOOLS, Served, refused, see, tool

PAGE = os.path.join(TOOLS, "..", "docs", "PLANT.md")
LINE = os.path.join(EXAMPLES, "line.toml")
DATA, CASES = os.path.join(TOOLS, "tries", "data"), os.path.join(TOOLS, "..", "crates", "cases_description", "data")
FILES = (("filling.tmc", "utf-8", ()), ("filling.tpy", "iso-8859-1", ("--offsets",)), ("filling.xml", "utf-8", ()))
KINDS = {"filling.tmc": "TwinCAT 3 module class", "filling.tpy": "TwinCAT 2 project", "filling.xml": "PLCopen XML export"}
VALUES = {
    "filling.tmc": (("MAIN.aRecipes[1].sTitle", "'K$FChl 1'"), ("MAIN.aRecipes[2].aOffset[3]", "-7"), ("MAIN.aRecipes[3].fVolume", "16#0000c03f"),
                    ("MAIN.eMode", "5"), ("MAIN.aRecipes[3].eMode", "5"),
                    ("MAIN.fSpeeds[0]", "16#0000000000003440"), ("MAIN.tDelay", "90000"), ("MAIN.dStart", "1577880000")),
    "filling.tpy": (("MAIN.GRID[1,1]", "7"), ("GLOBAL", "-5"), ("MAIN.TITLE", "'M$FCll'"), ("MAIN.STATE", "1"), ("MAIN.AXES[2].STATE", "1")),
    "filling.xml": (("MAIN.aLevels[3]", "16#00000000000034c0"), ("MAIN.aPoints[1].x", "16#0000003f"), ("MAIN.aPoints[1].step", "11"), ("MAIN.nCount", "-31"),
                    ("MAIN.sTitle", "'M$FCll $271$27'"), ("GVL.cMost", "1000")),
}
GROWING = "".join(f"<!ENTITY {two} '{10 * f'&{one};'}'>" for one, two in zip("abcdefgh", "bcdefghi"))
LAUGHS = f"<!DOCTYPE l [<!ENTITY a 'ha'>{GROWING}]><project>&i;</project>"
BAD_FILES = [
    (LAUGHS, "it has a DOCTYPE"),
    ("<!DOCTYPE l [<!ENTITY a SYSTEM 'file:///etc/passwd'>]><project>&a;</project>", "it has a DOCTYPE"),
    ("<!DOCTYPE l SYSTEM 'http://127.0.0.1/x.dtd'><project/>", "it has a DOCTYPE"),
    ("<project>&a;</project>", "it is no XML: undefined entity"),
    ("<project>" + "<a>" * 200, "nested more than 100 deep"),
    ("", "it is no XML: no element found"),
    ("\0\1\2", "it is no XML"),
    ("<?xml version='1.0' encoding='x-none'?><project/>", "its encoding can't be read"),
    ("<TcModuleClass><DataTypes>", "it is no XML: no element found"),
    ("<TcModuleClass/>", "it has no <Module>"),
    ("<html/>", "its root is <html>"),
    ("<TcPlcObject/>", "import the TMC file of its project"),
    ("<project/>", "it has no variable"),
]


def written(folder, name, text, encoding="utf-8"):
    path = os.path.join(folder, name)
    with open(path, "w", encoding=encoding, newline="") as file:
        file.write(text)
    return path


def text_of(name, encoding="utf-8"):
    with open(name, encoding=encoding) as file:
        return file.read()


# What is built.

def built_of(text, before=None):
    it = build(text.encode(), "line.toml", before)
    see(not it.faults, f"a line does not build: {it.faults[:3]}\n{text}")
    return it


def first_bytes(verdict):
    """The bytes of each area of the first port at the start: for each area the places and the bytes of its symbols."""
    images = {}
    for symbol in verdict.document["port"][0]["symbol"]:
        shape = verdict.shapes[symbol]
        first = shape.named().number_bytes(shape.named().values[0][1]) if shape.named() and shape.named().base else bytes(shape.size())
        images.setdefault(symbol["area"], {})[symbol["offset"]] = first if symbol["initial"] is None else bytes.fromhex(symbol["initial"])
    return {area: (sorted(image), image) for area, image in images.items()}


def reads_as(text, wanted):
    """Sees that a line builds to a plant in which every part has the value that the line says; the description."""
    it = built_of(text)
    port, images = Plant(it.verdict).port(851), first_bytes(it.verdict)
    for path, value in wanted.items():
        part = port.find(path)
        see(part, f"{path} is not there\n{text}")
        places, image = images[part.area]
        start = places[bisect.bisect_right(places, part.at) - 1]
        came = value_text(part.shape.type_id(), image[start][part.at - start:part.at - start + part.shape.size()])
        see(came == value, f"{path} is {came}, and the line says {value}\n{text}")
    return it


def properties(seed, count):
    """Random lines: all of them build, and what they built builds to itself."""
    parts = 0
    for number in range(count):
        text, wanted = line_of(seed, number)
        it, parts = reads_as(text, wanted), parts + len(wanted)
        if number % 4 == 0:
            see(build(it.text.encode(), "line.toml").text == it.text, f"what was built does not build to itself\n{text}")
    return parts


def shown_by_program(program, folder, seed, count):
    """The program accepts what is built, and shows each value as the line says it."""
    for number in range(count):
        text, wanted = line_of(f"{seed} shown", number)
        it = built_of(text)
        path = written(folder, "shown.toml", it.text)
        said, status = run_program(program, "check", path)
        see(status == 0 and said.splitlines() == it.verdict.lines, f"check of what was built: {said}\n{it.text}")
        symbols = it.verdict.document["port"][0]["symbol"]
        for symbol in random.Random(number).sample(symbols, min(2, len(symbols))):
            said, _ = run_program(program, "show", symbol["name"], "--local", path, "--me", ME)
            name = symbol["name"]
            mine = [f"{path} {value}" for path, value in wanted.items() if path == name or path.startswith((f"{name}.", f"{name}["))]
            see(sorted(said.splitlines()) == sorted(mine), f"show {name}: {said}\nand the line says {mine}\n{text}")


def by_hand():
    """Small lines whose descriptions were worked out by hand: places, sizes, bytes, words and comments; and the lines that the page shows."""
    it = build(text_of(os.path.join(DATA, "small.toml")).encode(), "small.toml")
    wanted = text_of(os.path.join(DATA, "small.plant.toml"))
    see(it.text == wanted, f"small.toml builds to another text: {it.faults}\n{it.text}")
    for shown in re.findall(r"```toml\n(.*?)```", text_of(PAGE), re.DOTALL):
        built_of(shown)


def descriptions_stay(seed, count):
    """Every description is a line: what it builds to is the same plant."""
    given = [text_of(name) for name in (PLANT, os.path.join(CASES, "areas.toml"), os.path.join(CASES, "mode.toml"))]
    for number in range(count):
        rng = random.Random(f"{seed} made {number}")
        given.append(rendered(rng, made(rng)))
    for text in given:
        one = verdict_on(text.encode())
        if one.status == 0:
            two = built_of(text).verdict
            see(one.lines == two.lines and plain(one.document) == plain(two.document), f"a description builds to another plant: {plain(two.document)}\n{text}")


def plain(entry):
    """A table of a description as it is, but for how its bytes and its types are spelled."""
    found = {}
    for key, value in entry.values.items():
        if isinstance(value, list):
            value = [plain(it) if isinstance(it, Entry) else it for it in value]
        found[key] = re.sub("string$", "string(80)", value.lower()) if key in ("initial", "type", "base") and isinstance(value, str) else value
    return found


# What stays under a running server.

def places_stay(seed, count):
    """With --before no symbol that is kept moves, and no new one stands where another one was."""
    for number in range(count):
        lines = Lines(f"{seed} before {number}")
        text, _ = lines.line()
        old = built_of(text).verdict
        new = built_of(lines.changed(), old)
        was = {symbol["name"]: symbol for symbol in old.document["port"][0]["symbol"]}
        taken = [(one["area"], one["offset"], one["offset"] + old.shapes[one].size()) for one in was.values()]
        for symbol in new.verdict.document["port"][0]["symbol"]:
            shape, one = new.verdict.shapes[symbol], was.get(symbol["name"])
            if one and one["area"] == symbol["area"] and old.shapes[one].text() == shape.text():
                see(one["offset"] == symbol["offset"], f"{symbol['name']} moved from {one['offset']} to {symbol['offset']}\n{text}")
            else:
                start, end = symbol["offset"], symbol["offset"] + shape.size()
                clash = [it for it in taken if it[0] == symbol["area"] and it[1] < end and start < it[2]]
                see(not clash, f"{symbol['name']} stands where another one was: {clash}\n{text}")
        areas = [[port[area] for area in ("inputs", "outputs", "memory", "data")] for port in (old.document["port"][0], new.verdict.document["port"][0])]
        see(all(one <= two for one, two in zip(*areas)), f"an area became smaller: {areas}")


def described_as_built(server, plant):
    """A server of a built plant, described with its values, has the same symbols at the same places with the same bytes."""
    text, err, status = tool("describe.py", *server.words(), "--initial", "--seconds", "60", seconds=120)
    see(status == 0, err)
    one, two = verdict_on(text_of(plant).encode()), verdict_on(text.encode())
    symbols = [[it for it in verdict.document["port"][0]["symbol"] if it["name"] != "Line.wave"] for verdict in (one, two)]
    images = first_bytes(one), first_bytes(two)
    see([it["name"] for it in symbols[0]] == [it["name"] for it in symbols[1]], f"describe.py tells other symbols than were built: {text}")
    for old, new in zip(*symbols):
        places = [(it["area"], it["offset"]) for it in (old, new)]
        values = [image[area][1][offset] for image, (area, offset) in zip(images, places)]
        see(places[0] == places[1] and values[0] == values[1], f"{old['name']}: {places[0]} {values[0].hex()} was built, {places[1]} {values[1].hex()} is read")


def changed_while_served(program, folder):
    """A line that is changed under a server: the value that a client wrote stays, and so does its place."""
    plant, line = os.path.join(folder, "plant.toml"), written(folder, "line.toml", text_of(LINE))
    out, err, status = tool("plant.py", "build", line, "--out", plant)
    see(status == 0 and "ok ports 1 symbols" in out, err)
    with Served(program, plant) as server:
        described_as_built(server, plant)
        said, _ = run_program(program, "set", "Line.count", "12345", *server.words())
        before, _ = run_program(program, "list", *server.words())
        new = text_of(LINE).replace("symbol = [", 'symbol = [\n  { name = "Line.added", type = "LREAL", initial = 2.5 },', 1)
        fresh = os.path.join(folder, "new.toml")
        out, err, status = tool("plant.py", "build", written(folder, "line.toml", new), "--before", plant, "--out", fresh)
        see(said == "ok\n" and status == 0 and "moved with their values: 0; new: 1 (Line.added); gone: 0" in out, out + err)
        _, err, status = tool("deploy.py", fresh, plant, *server.words(), "--seconds", "30", "--wait", "30")
        see(status == 0, err)
        said, _ = run_program(program, "get", "Line.count", *server.words())
        after, _ = run_program(program, "list", *server.words())
        see(said == "12345\n", f"the value of a client after a new description: {said}")
        see(set(before.splitlines()) < set(after.splitlines()), f"a symbol moved: {before}\n{after}")


# Faults.

def every_fault(folder):
    """Each fault of the list alone, and all of them together: each is told at its line, and nothing else is."""
    plain = text_of(LINE)
    whole, counted = plain, 0
    for old, new, parts in line_faults.FAULTS:
        see(plain.count(old) == 1, f"line.toml has not one {old!r}")
        faults_are(plain.replace(old, new), [(plain.index(old), parts, new)])
        whole, counted = whole.replace(old, new), counted + len(parts)
    faults_are(whole, [(whole.rindex(new), parts, new) for _, new, parts in line_faults.FAULTS])
    name = written(folder, "faults.toml", whole)
    refused(2, f"faults.toml: {counted} faults; nothing was written", "plant.py", "build", name, lines=counted + 1)
    return counted


def faults_are(text, wanted):
    told = build(text.encode(), "line.toml").faults
    for at, parts, new in wanted:
        first, last = text.count("\n", 0, at) + 1, text.count("\n", 0, at + len(new)) + 1
        for part in parts:
            lines = [line for line in told if part in line]
            see(lines and any(first <= int(line.split(":")[0]) <= last for line in lines), f"{part!r} is not told at line {first}, but {told}")
    count = sum(len(parts) for _, parts, _ in wanted)
    see(len(told) == count, f"{len(told)} faults are told in place of {count}: {told}")


def damaged_lines(seed, count):
    """Whatever a line is: it is built, or its faults are told."""
    built = 0
    for number in range(count):
        rng = random.Random(f"{seed} line {number}")
        text = line_of(seed, number)[0] if number % 3 else text_of(LINE)
        for _ in range(rng.randrange(1, 4)):
            text = damaged_text(rng, text)
        it = build(text.encode(), "line.toml")
        see(bool(it.faults) != bool(it.text), f"a damaged line is neither built nor told to be wrong\n{text}")
        see(not any("fault of this tool" in line for line in it.faults), f"{it.faults}\n{text}")
        built += not it.faults
    return built


# Import.

def imports(program, folder):
    """Each file comes to the line that was worked out by hand for it, and that to a plant whose values the program tells."""
    for name, encoding, words in FILES:
        text, wanted = text_of(os.path.join(DATA, name), encoding), text_of(os.path.join(DATA, f"{name}.toml"))
        line, _ = imported(text.encode(encoding), name, None, [], None, bool(words))
        head = f"# Imported from {name}, a {KINDS[name]}. What could not be carried over is noted at its place."
        see(line.split("\n", 1) == [head, wanted], f"the import of {name}:\n{line}")
        wide, _ = imported(text.replace(f'encoding="{encoding}"', 'encoding="utf-16"').encode("utf-16"), name, None, [], None, bool(words))
        see(wide == line, f"the same file in UTF-16: {wide}")
        it = built_of(line)
        port = it.verdict.document["port"][0]["port"]
        local = written(folder, "local.toml", it.text.replace("\n[[type]]", f'\n[[route]]\nnet = "{ME}"\nrights = "control"\n\n[[type]]', 1))
        for path, value in VALUES[name]:
            said, _ = run_program(program, "get", path, "--local", local, "--me", ME, "--port", str(port))
            see(said == value + "\n", f"get {path} of the import of {name}: {said}")
    line = os.path.join(folder, "imported.toml")
    words = "--net", "1.2.3.4.5.6", "--port", "300", "--route", "1.1.1.1.1.1=read", "--out", line
    out, err, status = tool("plant.py", "import", os.path.join(DATA, "filling.tmc"), *words)
    see(status == 0 and out == f"{line}: 10 symbols and 4 types; 7 left out, each noted in a comment\n", out + err)
    text = text_of(line)
    see('net = "1.2.3.4.5.6"' in text and "port = 300" in text and 'net = "1.1.1.1.1.1"\nrights = "read"' in text, f"the options of import: {text}")


def bad_files(folder):
    for text, part in BAD_FILES:
        try:
            line, why = imported(text.encode(), "bad.xml", None, [], None, False)[0], "it was imported"
        except (XmlFault, NoImport) as fault:
            line, why = None, fault.why
        see(line is None and part in why, f"{text[:60]!r}: {why} in place of {part!r}")
    refused(2, "bad.xml:1: it has a DOCTYPE", "plant.py", "import", written(folder, "bad.xml", LAUGHS))


def damaged_files(seed, count):
    """Whatever a file is: it comes to a line that builds, or is refused in a sentence."""
    for number in range(count):
        rng, (name, encoding, words) = random.Random(f"{seed} file {number}"), FILES[number % len(FILES)]
        text = text_of(os.path.join(DATA, name), encoding)
        for _ in range(rng.randrange(1, 4)):
            text = damaged_text(rng, text) if rng.random() < 0.3 else other_word(rng, text)
        try:
            imported(text.encode(encoding, "replace"), name, None, [], None, bool(words))
        except (XmlFault, NoImport) as fault:
            see("fault of this tool" not in fault.why, f"{name}: {fault.why}\n{text}")


def other_word(rng, text):
    """The text of one element in place of that of another one."""
    places = [at for at in range(len(text)) if text[at] == ">" and text[at + 1:at + 2] not in ("<", "\n", "")]
    if not places:
        return text
    one, other = rng.choice(places), rng.choice(places)
    own = text[other + 1:text.index("<", other)]
    new = rng.choice((own, "", "0", "-1", "99999999999", "2147483647", "A.B", "ARRAY [1..3] OF INT", "STRING(5)", "BOOL", "E_Mode"))
    return text[:one + 1] + new + text[text.index("<", one):]


def words_of_others(folder):
    """A comma in a number, and a key of another system: what is meant is said. Signals are counted in a configuration of adsd."""
    for old, new, part in (("initial = 1.25", "initial = 120,0", "a number has a full stop in place of a comma: write 120.0 for 120,0"),
                           ("initial = 1.25", 'initial = "120,0"', "LREAL wants a number, as 1.5 or 20, and '120,0' has a comma; write 120.0"),
                           ('"UDINT", persistent', '"UDINT", retain', "key `retain`: [[port.symbol]] has no such key; is `persistent` meant?")):
        told = build(text_of(LINE).replace(old, new, 1).encode(), "line.toml").faults
        see(len(told) == 1 and part in told[0], f"{new}: {told}")
    line = written(folder, "four.toml", text_of(LINE).replace("signal = 2", "signal = 3"))
    config = written(folder, "adsd.toml", 'description = "x"\n' + "[[signal]]\nramp = 1\nperiod = 9\n" * 4)
    out = os.path.join(folder, "four.plant.toml")
    refused(2, "there is no signal 3; `ads` has 3, numbered from 0", "plant.py", "build", line, lines=2)
    for words in (("--config", config), ("--signals", "4")):
        said, err, status = tool("plant.py", "build", line, "--out", out, *words)
        see(status == 0 and "it has signals of adsd: `adsd check" in said, f"plant.py build with {words}: {said}{err}")
    see(tool("plant.py", "build", line, "--before", out, "--signals", "4")[2] == 0, "--before is refused for its signals")
    refused(1, "--signals is an option of build", "plant.py", "import", LINE, "--signals", "4")


def wrong_words(folder):
    refused(1, "build or import and FILE are wanted", "plant.py")
    refused(1, "'make' is neither build nor import", "plant.py", "make", LINE)
    refused(1, "there is no option --x", "plant.py", "build", LINE, "--x")
    refused(1, "--net is an option of import", "plant.py", "build", LINE, "--net", "1.1.1.1.1.1")
    refused(1, "--before is an option of build", "plant.py", "import", LINE, "--before", PLANT)
    refused(1, "--net is a NetId", "plant.py", "import", LINE, "--net", "5")
    refused(1, "--route is NETID=RIGHTS", "plant.py", "import", LINE, "--route", "1.1.1.1.1.1=all")
    refused(1, "is the source itself", "plant.py", "build", written(folder, "own.toml", text_of(LINE)), "--out", os.path.join(folder, "own.toml"))
    refused(2, "is refused: ads: description rule 12 item 1", "plant.py", "build", LINE, "--before", os.path.join(EXAMPLES, "overlap.toml"))
    refused(2, "it is no XML", "plant.py", "import", LINE)
    refused(4, "No such file", "plant.py", "build", "/nowhere.toml")
    refused(4, "No such file", "plant.py", "build", LINE, "--before", "/nowhere.toml")
    refused(4, "Is a directory", "plant.py", "build", "/")
    refused(4, "can't be written", "plant.py", "build", LINE, "--out", "/nowhere/plant.toml")
    refused(4, "can't be written", "plant.py", "build", LINE, "--out", folder)
    place = written(folder, "stays.toml", "as it was")
    refused(2, "1 fault; nothing was written", "plant.py", "build", written(folder, "bad.toml", text_of(LINE) + "x = 1\n"), "--out", place, lines=2)
    see(text_of(place) == "as it was", "a line with a fault was written")


def tried(program, size):
    seed, lines, damaged = size.seed, size.of(1500, 150), size.of(250, 40)
    with tempfile.TemporaryDirectory() as folder:
        by_hand()
        parts = properties(seed, lines)
        shown_by_program(program, folder, seed, size.of(10, 3))
        descriptions_stay(seed, damaged)
        places_stay(seed, damaged)
        changed_while_served(program, folder)
        faults = every_fault(folder)
        built = damaged_lines(seed, damaged)
        imports(program, folder)
        more_imports(folder)
        bad_files(folder)
        damaged_files(seed, damaged)
        words_of_others(folder)
        wrong_words(folder)
    see(parts and built, "nothing was tried")
    return (f"{lines} random lines build, and their {parts} parts are read back; {faults} faults together are told; {damaged} damaged lines, {built} of which "
            f"build; TMC, TPY and PLCopen imported, {damaged} of them damaged; {len(BAD_FILES)} bad files")
