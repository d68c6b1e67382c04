"""why.py: what it says of each rule, and that it agrees with `check` over damaged descriptions."""
import concurrent.futures
import os
import random
import tempfile
from collections import Counter

from lib.program import run as run_program
from lib.verdict import verdict_on
from tries.cases import cases
from tries.damage import damaged
from tries.running import EXAMPLES, PLANT, refused, see, tool
from tries.why_faults import ALONE, FAULTS, PLAIN

# A change of plant.toml, the first line that must come, and a part of what is said.
ONE_CHANGE = [
    ("schema = 1", "schema 1", "syntax", ":1:8: behind the key 'schema' an equals sign is wanted"),
    ('net = "5.1.2.3.1.1"', 'net = "5.1.2.3.1.1', "syntax", ":2:7: this string has no closing \" in its line"),
    ("offset = 60", "ofset = 60", "rule 2 item 0", 'symbol "Main.limit" of port 851, key `ofset`: [[port.symbol]] has no such key; is `offset` meant?'),
    ("offset = 60", 'offset = "60"', "rule 2 item 0", "key `offset`: a number without quotes or point is wanted, and a text stands there"),
    ('area = "data"\noffset = 60', "area = 4\noffset = 60", "rule 2 item 0", "key `area`: a text in quotes is wanted, and a number stands there"),
    ('name = "Axis"\nmember = [', 'name = "Axis"\nmember = "x"\ny = [', "rule 2 item 0", 'type "Axis", key `member`: an array of tables, as [[member]] writes'),
    ('area = "data"\noffset = 60\n', "offset = 60\n", "rule 2 item 0", "key `area`: [[port.symbol]] must have it"),
    ("read_only = true", 'writers = ["1.2.3.4.5.6"]', "rule 2 item 0", "key `writers`: a list of writers is a matter of schema 2"),
    ('[[type]]', '[[type]]\nname = "Mode"\nbase = "INT"\nvalue = []\n[[type]]', "rule 2 item 0", "an enumeration is a matter of schema 2"),
    ("schema = 1", "schema = 3", "rule 3 item 0", "the description, key `schema`: 3 is neither 1 nor 2"),
    ('net = "192.168.0.9.1.1"', 'net = "192.168.0.9.1"', "rule 4 item 1", "is no NetId"),
    ('net = "192.168.0.10.1.1"', 'net = "192.168.0.9.1.1"', "rule 4 item 2", "an earlier route has it already (line 3)"),
    ('rights = "control"', 'rights = "all"', "rule 5 item 0", "'all' is not read, write or control"),
    ('name = "Axis"', 'name = "INT"', "rule 6 item 0", "INT is a word of type texts"),
    ('name = "pos"', 'name = "ACTIVE"', "rule 7 item 1", "an earlier member has the name, ASCII case aside"),
    ('type = "STRING(5)"', 'type = "Foo"', "rule 7 item 2", "there is no type 'Foo' before it"),
    ('type = "STRING(5)"', 'type = "ARRAY [1..2000000] OF BOOL"', "rule 8 item 0", "the array has 2000000 elements"),
    ("major = 3", "major = 300", "rule 9 item 0", "port 851, key `major`: 300 is not from 0 to 255"),
    ("data = 128", "data = 2000000", "rule 9 item 0", "the areas have 2000064 bytes together, more than 1048576"),
    ('name = "Main.limit"', 'name = "Main.Count.x"', "rule 10 item 2", "it begins with the whole name 'Main.count' of an earlier symbol (line"),
    ('type = "INT"', 'type = "WSTRING(5)"', "rule 11 item 2", "'WSTRING(5)' is no plain type"),
    ("offset = 60", "offset = 2", "rule 12 item 2", 'and 0 to 3 are those of symbol "Main.count" of port 851 (line'),
    ("offset = 60", "offset = 127", "rule 12 item 2", "it ends at byte 129, and data has 128 bytes"),
    ('initial = "e803"', 'initial = "e8"', "rule 13 item 2", "it has 1 bytes, and INT has 2"),
    ("signal = 2", "signal = 3", "rule 14 item 3", "there is no signal 3; `ads` has 3, numbered from 0 (for `adsd` name its"),
]


def great_upload():
    """A description whose upload has too many bytes."""
    symbols = "".join(f'[[port.symbol]]\nname = "S{place}"\ntype = "BOOL"\narea = "data"\noffset = {place}\ncomment = "{"c" * 255}"\n' for place in range(7000))
    return f'schema = 1\nnet = "1.1.1.1.1.1"\n[[port]]\nport = 851\nname = ""\nmajor = 0\nminor = 0\nbuild = 0\ndata = 7000\n{symbols}'


def agrees(program, given, name):
    """Sees that the verdict on a text is that of `check`."""
    with open(name, "wb") as file:
        file.write(given)
    said, status = run_program(program, "check", name)
    it = verdict_on(given)
    wanted = "".join(line + "\n" for line in it.lines)
    see(status == it.status and said == wanted, f"{name}: check says {said!r}, status {status}, and why.py {wanted!r}, status {it.status}")
    return it.rule


def examples(program, folder):
    with open(PLANT, encoding="utf-8") as file:
        plant = file.read()
    for place, (old, new, line, part) in enumerate(ONE_CHANGE):
        see(plant.count(old) >= 1, f"plant.toml has no {old!r}")
        name = os.path.join(folder, f"change{place}.toml")
        agrees(program, plant.replace(old, new, 1).encode(), name)
        out, _, status = tool("why.py", name)
        see(status == 2 and out.splitlines()[0] == f"ads: description {line}" and part in out, f"{new!r} in plant.toml: {out}")
    for name in ("plant.toml", "overlap.toml"):
        with open(os.path.join(EXAMPLES, name), "rb") as file:
            agrees(program, file.read(), os.path.join(folder, name))
    for given in (b"", b"\xef\xbb\xbf", great_upload().encode(), b"\n" * 16777217):
        agrees(program, given, os.path.join(folder, "text.toml"))


def faults_are(text, faults):
    """Sees that each fault is told in a line of its own, and that no other one is."""
    it = verdict_on(text.encode())
    told = [f":{broken.said(it.places)}" for broken in it.broken]
    for _, new, parts in faults:
        first = text.count("\n", 0, text.rindex(new)) + 1
        for part in parts:
            lines = [int(line.split(":")[1]) for line in told if part in line]
            near = part != parts[0] or any(first <= line <= first + new.count("\n") + 1 for line in lines)
            see(lines and near, f"{new!r}: {part!r} is not told at line {first}: {told}")
    count = sum(len(parts) for _, _, parts in faults)
    see(len(told) == count, f"{len(told)} faults are told in place of {count} ({[new for _, new, _ in faults]}): {told}")


def planted(faults):
    text = PLAIN
    for old, new, _ in faults:
        see(text.count(old) == 1, f"the description has not one {old!r}")
        text = text.replace(old, new)
    return text


def together(program, folder, seed, count):
    """Sees that of faults that are planted together every one is told, and nothing else: each alone, some at random, all at once."""
    agrees(program, PLAIN.encode(), os.path.join(folder, "plain.toml"))
    rng = random.Random(f"{seed} together")
    for faults in [[one] for one in (*FAULTS, *ALONE)] + [rng.sample(FAULTS, rng.randrange(2, 12)) for _ in range(count)] + [FAULTS]:
        faults_are(planted(faults), faults)
    name = os.path.join(folder, "all.toml")
    agrees(program, planted(FAULTS).encode(), name)
    out, _, status = tool("why.py", name)
    see(status == 2 and all(part in out for _, _, parts in FAULTS for part in parts), f"all faults: {out}")


def by_hand(longest):
    """Sees that the cases of descriptions, worked out by hand, are judged as they say, but for those with more bytes."""
    count = 0
    for text, signals, wanted in cases():
        if len(text) > longest:
            continue
        it = verdict_on(text, signals)
        said = "accepted" if it.status == 0 else "syntax" if it.rule == 0 else f"rule {it.rule or 1} item {it.item}"
        see(said == wanted, f"a case of symbol_file: {said} in place of {wanted}: {text[:300]!r}")
        count += 1
    return count


def signals(folder):
    """How many signals there are is told by the configuration of adsd, in place of the description or beside it, or by a number; and said."""
    plant, config = os.path.join(folder, "four.toml"), os.path.join(folder, "adsd.toml")
    with open(PLANT, encoding="utf-8") as file, open(plant, "w", encoding="utf-8") as out:
        out.write(file.read().replace("signal = 2", "signal = 3"))
    for count, part in ((4, None), (2, f"there is no signal 3; {config} has 2 tables [[signal]], numbered from 0; free: 0, 1"),
                        (0, f"there is no signal 3; {config} has no table [[signal]], so there are the 3 of `ads`, numbered from 0")):
        with open(config, "w", encoding="utf-8") as file:
            file.write(f'description = "{plant}"\n' + "[[signal]]\nramp = 1\nperiod = 9\n" * count)
        for words in ((config,), (plant, "--config", config)):
            out, _, status = tool("why.py", *words)
            see((status == 0 and "ok ports 1" in out) if part is None else (status == 2 and part in out), f"why.py {words}: {out}")
    see(tool("why.py", plant, "--signals", "4")[2] == 0, "why.py with four signals refuses the fourth")
    refused(2, "there is no signal 3; --signals says 1, numbered from 0; free: 0", "why.py", plant, "--signals", "1")
    refused(1, "--signals does not go with it", "why.py", plant, "--signals", "1", "--config", config)
    refused(1, "--signals is a number from 0 to 1024", "why.py", plant, "--signals", "1025")
    refused(2, "is no configuration of adsd", "why.py", plant, "--config", plant)
    refused(4, "No such file", "why.py", plant, "--config", "/nowhere.toml")
    with open(config, "w", encoding="utf-8") as file:
        file.write(f'description = "{plant}"\nsignal = 3\n')
    refused(2, "`signal` takes tables [[signal]]", "why.py", config)


def wrong_words():
    refused(1, "DESCRIPTION is wanted", "why.py")
    refused(1, "one too many", "why.py", "a", "b")
    refused(1, "there is no option --x", "why.py", "--x", PLANT)
    refused(4, "No such file", "why.py", "/nowhere.toml")
    refused(4, "Is a directory", "why.py", "/")


def tried(program, size):
    found, count, seed = Counter(), size.of(1000, 200), size.seed
    with tempfile.TemporaryDirectory() as folder, concurrent.futures.ThreadPoolExecutor(4) as pool:
        examples(program, folder)
        wrong_words()
        signals(folder)
        worked = by_hand(size.of(2 ** 63, 100000))
        together(program, folder, seed, size.of(200, 40))
        rules = pool.map(lambda number: agrees(program, damaged(number, seed), os.path.join(folder, f"damaged{number}.toml")), range(count))
        found.update("none" if rule is None else "syntax" if rule == 0 else f"rule {rule}" for rule in rules)
    counts = ", ".join(f"{name} {some}" for name, some in sorted(found.items()))
    return (f"{worked} cases worked out by hand; {len(ONE_CHANGE)} changes of plant.toml; {len(FAULTS) + len(ALONE)} faults, alone and together; "
            f"{count} damaged descriptions agree with check: {counts}")
