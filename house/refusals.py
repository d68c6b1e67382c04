"""When each wrong body was last refused, and on which text: house/refused.txt, which house/wrong_bodies.py keeps.

A line has the crate and the edit, the day, a sum of what the crate promised then and of the edit, and a sum of the
crate's text. What a crate promises is its specs/, and of src/ all but comments, imports of Rust and the bodies of
functions. The promises of the crates below are not in it: their own edits try these. A line without a day is of an edit
that was not tried since the table began; its sums are those of the last time that the table was made. """
import functools
import hashlib
import pathlib
import re
import time

ROOT = pathlib.Path(__file__).resolve().parent.parent
CRATES, TABLE = ROOT / "crates", ROOT / "house/refused.txt"
KINDS = ("must-fail", "wrong-bodies")
NEVER = "----------"
TOP = """# When each wrong body was last refused: its crate and name, the day, a sum of the promises of its crate and of
# the edit, and one of the crate's text. Made by house/wrong_bodies.py; house/refusals.py says what the sums are of.
"""
HEAD = re.compile(r"^( *)(?:pub(?:\([^)]*\))? )?(?:const )?(?:unsafe )?fn \w+")


def without_bodies(text):
    """A source without comments and the bodies of its functions: what stands between a head with its clauses and the
    end."""
    kept, indent, is_head = [], None, False
    for line in text.split("\n"):
        if re.match(r"\s*(//|(pub(\(\w+\))? )?(use|mod) )", line):
            continue
        if indent is not None and not is_head:
            indent = None if line == f"{indent}}}" else indent
            continue
        found = HEAD.match(line) if indent is None else None
        indent, is_head = (found[1], True) if found else (indent, is_head)
        kept.append(line)
        if is_head:
            is_over = line.endswith((";", "{}")) or (found is not None and line.endswith("}"))
            begins = line == f"{indent}{{" or (line.endswith("{") and not re.search(r"\b(ensures|requires)\b", line))
            indent, is_head = (None, False) if is_over else (indent, not begins)
    return "\n".join(kept)


def sum_of(*texts):
    return hashlib.sha256("\0".join(texts).encode()).hexdigest()[:12]


def texts_of(crate, *kinds):
    """The files of these folders of a crate, with their names, in order."""
    for path in sorted(it for kind in kinds for it in (CRATES / crate / kind).glob("**/*")
                       if it.suffix in (".rt", ".antt")):
        yield str(path.relative_to(CRATES)), path.read_text()


@functools.cache
def promises_of(crate):
    """A sum of what the crate promises."""
    specs = (re.sub(r"^\s*--.*\n", "", text, flags=re.M) for _, text in texts_of(crate, "specs"))
    return sum_of(*specs, *(without_bodies(text) for _, text in texts_of(crate, "src")))


@functools.cache
def text_of(crate):
    """A sum of all that the crate is."""
    return sum_of(*(part for it in texts_of(crate, "src", "specs", "proofs") for part in it))


def edits():
    """All edits that stand in a crate: its name, that of the edit, and the folder's kind."""
    for path in sorted(it for kind in KINDS for it in CRATES.glob(f"*/{kind}/*.edit")):
        yield path.parts[-3], path.stem, path.parts[-2]


def sums_of(crate, name, kind):
    return sum_of(promises_of(crate), (CRATES / crate / kind / f"{name}.edit").read_text()), text_of(crate)


def rows():
    """The table: of a crate and an edit the day and both sums."""
    lines = TABLE.read_text().splitlines() if TABLE.is_file() else []
    return {tuple(it[0].split("/")): tuple(it[1:]) for line in lines if line[:1] != "#"
            and len(it := line.split()) == 4}


def record(refused):
    """Puts into the table that these edits, a crate and a name each, were refused on this text, today; those that are
    in no line get one without a day, and those that are gone are left out. How many of them are in it."""
    old, new, day = rows(), {}, time.strftime("%Y-%m-%d")
    for crate, name, kind in edits():
        stood = old.get((crate, name), (NEVER,))
        made = (day if (crate, name) in refused else NEVER, *sums_of(crate, name, kind))
        new[crate, name] = made if made[0] == day or stood[0] == NEVER else stood
    TABLE.write_text(TOP + "".join(f"{crate}/{name} {' '.join(new[crate, name])}\n" for crate, name in sorted(new)))
    return len(new.keys() & set(refused))


def refused_in(text):
    """The edits that rt, or wrong_bodies.py, tells as refused."""
    found = re.findall(r"^(?:rt: )?must-fail (\w+)/(\S+)\.edit: refused", text,
                       re.M) + re.findall(r"^(\w+)/(\S+): refused", text, re.M)
    return set(found)


def due():
    """Prints a line a crate of whose edits one is to be tried again, and the sums; how many must be, since what their
    crate promises, or they themselves, changed since. Those of must-fail/ are tried by the gate, and need nobody
    else."""
    old, must, may, never = rows(), {}, 0, 0
    for crate, name, kind in edits():
        day, *sums = old.get((crate, name), ("", "", ""))
        promised, text = sums_of(crate, name, kind)
        never += day in ("", NEVER)
        if promised != sums[0] and kind == "wrong-bodies":
            must.setdefault(crate, []).append(name)
        elif text != sums[1]:
            may += 1
    for crate, names in must.items():
        print(f"{crate}: what it promises has changed: try again {' '.join(names)}")
    count = sum(map(len, must.values()))
    print(f"{len(list(edits()))} wrong bodies: {count} must be tried again, since what their crates promise has "
          f"changed; "
          f"{may} were tried on another text; {never} not since the table began")
    return count
