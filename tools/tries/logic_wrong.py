"""What logic.py says of wrong names, values, files and words; and that values of each type come to the right bytes."""
import os
import random
import re
import signal
import struct

from lib.layout import Shape
from lib.logic_file import loaded
from lib.logic_functions import BOOK
from lib.named_values import given_parts, packer_of, reader_of
from lib.type_texts import PLAIN
from lib.value_json import NoValueOf
from lib.words import Ended
from tries.fake_server import Fake, told
from tries.logic_runs import LOGIC, Logic, described, text_of, written
from tries.running import EXAMPLES, ME, NET, free_port, refused, see, tool

# What is no value of a type, and a part of why.
BAD = [
    ("INT", 1.5, "wants a whole number"), ("INT", 2 ** 15, "-32768 to 32767"), ("BOOL", 2, "BOOL wants"),
    ("REAL", 1e39, "greater than a REAL"), ("DINT", None, "None is no value"), ("TIME", "2", "no duration"),
    ("DINT", object(), "what Python calls object is no value"), ("INT", "\udc80", "INT wants"),
    ("BYTE", -1, "0 to 255"), ("LREAL", 10 ** 400, "greater than a LREAL"), ("INT", float("nan"), "a whole number"),
    ("INT", 1 << 20000, "has no such value"),
]
HEAD = "from logic import after, every, plant, when\n"
# Files that are no logic, and a part of why.
NO_LOGIC = [
    ("", "nothing would run"), ("def (", ":1: it is no Python: "), ("\0", "it is no Python"),
    ("x" + "(" * 999, "it is no Python"),
    ("x = 1 / 0\n", "y.py:1: ZeroDivisionError: division by zero"), ("import nowhere_at_all\n", "No module named"),
    ("from logic import tell\n", "cannot import name 'tell'"), ("raise GeneratorExit\n", "y.py:1: GeneratorExit"),
    (HEAD + "@every(0)\ndef f(): pass\n", "y.py:2: every wants seconds from 0.001 to 86400, and 0 is none"),
    (HEAD + "@every('1')\ndef f(): pass\n", "every wants seconds"),
    (HEAD + "@every(1)\ndef f(a, b): pass\n", "f wants a, b, and gets one"),
    (HEAD + "@every(1)\nasync def f(): pass\n", "async"), (HEAD + "@every(1)\ndef f(): yield\n", "yield"),
    (HEAD + "plant['x']\n", "plant has values within functions alone"),
    (HEAD + "@when('Line.*')\ndef f(): pass\n", "when wants the name"),
    (HEAD + "after(1, 5)\n", "after wants a function"), (HEAD + "after(1, lambda x: 5)\n", "wants x, and gets nothing"),
    (HEAD + "after(float('nan'), print)\n", "after wants seconds"),
]
# Lines that `check` finds something in, and a part of that.
CHECKED = [
    ('plant["Tank.levl"]', "plant.toml has no symbol 'Tank.levl'; is Tank.level meant?"),
    ('plant["Line.recipes[4].volume"] = 1', "Line.recipes is an array, from Line.recipes[1]"),
    ('plant["Line.recipe[2].volume"]', "is Line.recipes[2].volume meant?"),
    ('plant["Line.recipes[2].volum"] += 1', "is Line.recipes[2].volume meant?"),
    ('plant["Line.mode"] = "Runing"', "is Running meant?"), ('x = plant["Line.mode"] == "Stoped"', "is Stopped meant?"),
    ('x = plant["Line.mode"] in ("Running", "Stop")', "'Stop' is no value"),
    ('plant.set("Line.on", 2)', "BOOL wants true or"), ('plant["Command.step"] = 40000', "-32768 to 32767"),
    ('plant["Line.title"] = "1234567890123456"', "STRING(15) holds 15"),
    ('plant["Fixed.one"] = 1', "is read-only"), ('plant["Line.recipes[1]"] = {"volum": 1}', "has no member 'volum'"),
    ('when("Line.mode", "Off")(print)', "'Off' is no value of Mode"), ('when(name="Line.mod")', "is Line.mode meant?"),
    ('plant["Tank.level"] = None', "None is no value"), ('plant[" x"]', "has no symbol ' x'"),
    ('plant["Line.mode.x"]', "Line.mode has no parts"), ('plant["Line.on[1]"]', "Line.on has no parts"),
    ('logic.plant["Nothing.here"]', "has no symbol 'Nothing.here'"),
    ('plant["Two.a"], plant["Two.c"] = 1, 2', "'Two.c'"),
    ('plant["Two.a"] = 0x' + "f" * 9999, "DINT has no such value"), ('plant["Täg"] = 1', "has no symbol 'Täg'"),
    ('plant["Line.recipes.volume"]', "Line.recipes is an array, from Line.recipes[1] to Line.recipes[3]"),
    ('plant[f"Tank{x}.levl"]', "has no symbol 'Tank{}.levl'; is it one as Tank.level?"),
    ('plant[f"Line.recipes[{x}].volum"] = 1', "is it one as Line.recipes[1].volume?"),
    ('plant[str(x) + ".mode"] = "Runing"', "is Running meant?"),
    ('plant.set(f"Line.{x}id[{x},2]", 99999)', "-32768 to 32767"), ('plant[f"Fixed.{x}"] = 1', "is read-only"),
    ('when(f"{x}.ons")', "has no symbol '{}.ons'"),
]
# A file whose functions are all wrong, and what a run says of it.
WRONG = HEAD + '''
@every(0.05)
def one(): plant["Tank.levl"] = 1
@when("Line.mode", "Runing")
def two(): pass
@every(0.05)
def three(): plant["Two." + "c"] = 1
@every(0.05)
def four(): plant[5]
@every(0.05)
def five(): plant["Two.a"] = {"x": 1}
@every(0.05)
def six(): raise GeneratorExit
@every(0.05)
def seven(): return seven()
'''
TOLD = [":3: one waits: the server has no symbol 'Tank.levl'; is Tank.level meant?",
        ":5: two: when: Line.mode: 'Runing' is no value of Mode; is Running meant?",
        ":7: three waits: the server has no symbol 'Two.c'", ":10: four: plant wants the name of a symbol",
        ":12: five: Two.a: DINT wants a number", ":14: six: GeneratorExit",
        ":16: seven: RecursionError: maximum recursion depth exceeded"]


def why_no_value(word, value):
    try:
        given_parts("x", Shape([], ("plain", word)), value)
    except NoValueOf as fault:
        return str(fault)
    return ""


def all_types(count):
    """The quick way and the careful way give the same bytes, and these are read as the value."""
    rng = random.Random(1)
    for word, (size, _) in PLAIN.items():
        shape, low = Shape([], ("plain", word)), -2 ** (8 * size - 1) if word in ("SINT", "INT", "DINT", "LINT") else 0
        for _ in range(count):
            value = rng.choice([low, low + 2 ** (8 * size) - 1, rng.randrange(low, low + 2 ** (8 * size))])
            if word in ("REAL", "LREAL"):
                value = struct.unpack("<f", struct.pack("<f", rng.uniform(-1e9, 1e9)))[0]
            if word == "BOOL":
                value = bool(value & 1)
            quick, ((_, careful),) = packer_of(shape)(value), given_parts("x", shape, value)
            see(quick in (None, careful), f"{word} {value} is {quick} and {careful}")
            read = reader_of(shape)(b"\0" + careful, 1)
            see(word == "TIME" or read == value, f"{word} {value} is read as {read}")
    for word, value, part in BAD:
        see(packer_of(Shape([], ("plain", word)))(value) is None, f"{word} packs what has {part!r}")
        see(part in why_no_value(word, value), f"{part!r} is not in {why_no_value(word, value)!r}")


def misspelt(folder, server):
    """Names that the server does not have, and values that are none, in a run."""
    with Logic(written(folder, "wrong.py", WRONG), *server.on()) as logic:
        for part in TOLD:
            logic.tells(part)
        see(logic.end(signal.SIGINT) == 3, "Ctrl-C does not end it with 3")
    text = HEAD + '@every(0.05)\ndef f():\n    plant["Line.on"] = plant["Line.mode"] == "Running"\n'
    bare = written(folder, "bare.py", text)
    with Logic(bare, *server.on()[:6]) as logic:
        logic.tells("bare.py:4: Line.mode is a number, and never 'Running': --plant FILE")
        see(logic.end() == 0, "a run without a description fails")


def why_not(path):
    """Why a file does not run; nothing where it does."""
    try:
        loaded(path)
    except Ended as end:
        return f"{end.status} {end.why}"
    finally:
        BOOK.functions, BOOK.later = [], []
    return ""


def does_not_run(folder, server):
    good, on = written(folder, "x.py", HEAD + "@every(1)\ndef f(): pass\n"), server.on()
    for text, part in NO_LOGIC:
        why = why_not(written(folder, "y.py", text))
        see(why.startswith("2 ") and part in why, f"{text[:80]!r}: {why}")
    with open(os.path.join(folder, "z.py"), "wb") as file:
        file.write(b"\xff\xfe")
    refused(4, "is no UTF-8 text", "logic.py", "run", os.path.join(folder, "z.py"), *on)
    refused(2, "y.py:1: it is no Python", "logic.py", "run", written(folder, "y.py", "def ("), *on)
    refused(1, "is neither run nor check", "logic.py", "go")
    refused(1, "--report is a number", "logic.py", "run", good, *on, "--report", "0")
    refused(8, "refuses port 852: 0x6", "logic.py", "run", good, *on, "--port", "852")
    refused(9, "is 1.2.3.4.5.6 one of its routes?", "logic.py", "run", good, *on[:4], "--me", "1.2.3.4.5.6")
    refused(6, "can't be reached", "logic.py", "run", good, "--to", f"127.0.0.1:{free_port()}", *on[2:])
    liars = (told({}), "refuses port 851: 0x702", 8), (lambda frame: b"HTTP/1.1 400 Bad", "does not speak ADS", 9)
    for answer, part, status in liars:
        with Fake(answer) as liar:
            refused(status, part, "logic.py", "run", good, "--to", liar.to, "--netid", NET, "--me", ME)


def checks(folder):
    """What `check` finds by a description alone."""
    plant = described(folder)
    right = text_of(LOGIC).replace("Runing", "Running").replace('plant["Fixed.one"] = ', "x = ")
    out, _, status = tool("logic.py", "check", written(folder, "right.py", right), "--plant", plant)
    see(status == 0 and re.fullmatch(r"\S*right.py: ok, \d+ names\n", out), f"logic.py check: {out}")
    text = HEAD + "import logic; x = ''\n" + "".join(line + "\n" for line, _ in CHECKED)
    out, _, status = tool("logic.py", "check", written(folder, "wrong.py", text), "--plant", plant)
    lines = out.splitlines()
    see(status == 1 and lines[-1].endswith(f": {len(CHECKED)} faults"), f"check: {out}")
    see(len(lines) == len(CHECKED) + 1, f"check: {out}")
    for number, (line, part) in enumerate(CHECKED):
        see(f"wrong.py:{number + 3}: " in lines[number] and part in lines[number], f"{line[:80]}: {lines[number]}")
    refused(2, "it is no Python", "logic.py", "check", written(folder, "no.py", "def ("), "--plant", plant)
    refused(1, "--plant is wanted", "logic.py", "check", written(folder, "no.py", ""))
    filling = os.path.join(folder, "filling.toml")
    tool("plant.py", "build", os.path.join(EXAMPLES, "line.toml"), "--out", filling)
    out, _, status = tool("logic.py", "check", os.path.join(EXAMPLES, "filling_logic.py"), "--plant", filling)
    see(status == 0, f"the example: {out}")
    return filling
