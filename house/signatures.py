#!/usr/bin/env python3
"""Holds the public calls and types that users of the libraries may rely on (house/calls.txt) against the crates.

    python3 house/signatures.py [CRATE..]     at the top of a clone; only these crates
    python3 house/signatures.py --of CRATE    prints what the crate has, in the form of the list

A line of the list is a call or a type, under the name of its crate. Before a call `M` says that it takes memory:
`alloc: Global` comes first, behind `self`, and the answer is wrapped in `Result<_, NoMemory>`; `A` that it takes
`alloc: Global` and is not wrapped; `T` that it takes the threads, `rt: &T`, before that. These are left out of its
signature, as are lifetimes and bounds; the names of parameters mean nothing. A call or a type that the crates have
otherwise is followed by a line `here:`, as it stands in the crate (nothing behind it: it is not there), and a line
`since:`, the beginning of the line of docs/DECISIONS.md that gives the reason.

It prints each deviation with its reason. The status is 1 where a crate has something else than the list says, or
docs/DECISIONS.md no such line.
"""
import pathlib
import re
import sys

TOP = pathlib.Path(__file__).resolve().parent.parent
LIST, REASONS = TOP / "house/calls.txt", TOP / "docs/DECISIONS.md"
BLOCK = re.compile(r"^(?:pub )?(?:unsafe )?(impl|trait)\b(.*)")
HEAD = re.compile(r"^( *)(pub )?(?:const )?(?:unsafe )?fn (\w+)", re.M)
ENDS = re.compile(r"^\s*(ensures|requires)\b|\{\s*$|;\s*$|\{\}\s*$")
WAITING = re.compile(r"\brt: &(?:mut )?\w+, ")


def plain(text):
    """A signature without bounds, lifetimes and what of its layout means nothing."""
    text = re.sub(r"\s+", " ", text).strip().rstrip(",")
    text = re.sub(r"'\w+ ", "", text.replace("'static ", ""))
    text = re.sub(r"<'\w+>", "", text)
    text = re.sub(r"<'\w+, ", "<", text)
    text = re.sub(r",? *\}", " }", re.sub(r", ?(?=\))", "", text))
    return text.replace("( ", "(").replace(" )", ")")


def without_generics(text):
    """A head without the parameters of types behind its name."""
    found = re.match(r"(\w+(?:::\w+)?)<", text)
    if not found:
        return text
    depth, at = 0, found.end() - 1
    for at in range(found.end() - 1, len(text)):
        depth += {"<": 1, ">": -1}.get(text[at], 0) if text[at - 1:at + 1] != "->" else 0
        if depth == 0:
            break
    return found[1] + text[at + 1:]


def call_of(name, text):
    """The line of the list that a function's head makes."""
    text = without_generics(plain(re.sub(r"^.*?fn \w+", name, text.split(" where ")[0], count=1)))
    text = re.sub(r"\bSelf\b", name.split("::")[0], text).replace("(mut ", "(").replace(", mut ", ", ")
    marks = ""
    if WAITING.search(text):
        marks, text = "T ", WAITING.sub("", text, count=1)
    took = re.search(r"\b_?alloc: Global(, )?", text)
    if took:
        text = text.replace(took[0], "", 1).replace(", )", ")")
    wrapped = re.search(r" -> Result<(.*), NoMemory>$", text)
    if took and wrapped:
        marks = "M " + marks
        text = text[:wrapped.start()] + ("" if wrapped[1] == "()" else f" -> {wrapped[1]}")
    elif took:
        marks = "A " + marks
    return marks + text.replace("_delay:", "delay:")


def head_at(lines, at):
    """The head of the function that begins at a line."""
    head = []
    for line in lines[at:]:
        if re.match(r"\s*(ensures|requires)\b", line):
            break
        head.append(line.split(" //")[0])
        if ENDS.search(line):
            break
    return re.sub(r"\s*[{;]\s*\}?$", "", " ".join(head)).strip()


def owner(rest, kind):
    """Whose functions stand in a block; None where they are those of a trait for a type."""
    if kind == "trait":
        return re.match(r"\s*(\w+)", rest)[1]
    if " for " in rest:
        return None
    return (re.findall(r"(\w+)(?:<[^{]*>)?\s*\{?$", re.sub(r"^<.*?> ", "", rest.strip())) or [None])[-1]


def calls_in(text):
    """The public functions of a file."""
    lines, whose, is_trait = text.split("\n"), "", False
    for at, line in enumerate(lines):
        block = BLOCK.match(line)
        if block and not line.rstrip().endswith("}"):
            whose, is_trait = owner(block[2].rstrip(" {"), block[1]), block[1] == "trait" and line.startswith("pub")
        elif line == "}":
            whose, is_trait = "", False
        head = HEAD.match(line)
        if head and whose is not None and (head[2] or is_trait):
            yield call_of(f"{whose}::{head[3]}" if whose else head[3], head_at(lines, at))


def fields_of(lines, at):
    """What stands between the braces of a type that begins at a line."""
    held = []
    for line in lines[at + 1:]:
        if line == "}":
            break
        line = line.split("//")[0].strip()
        if line and not line.startswith(("#", "ghost")):
            held.append(line)
    return " ".join(held)


def types_in(text):
    """The public types of a file whose parts are public."""
    lines = text.split("\n")
    for at, line in enumerate(lines):
        head = re.match(r"pub (struct|enum) (\w+)", line)
        alias = re.match(r"pub type (\w+) = ListOf<(.*)>;", line)
        if alias:
            yield f"{alias[1]}: list of {plain(alias[2])}"
        elif head and line.rstrip().endswith("{"):
            held = fields_of(lines, at)
            if head[1] == "enum" or (held and all(part.startswith("pub ")
                                                  for part in re.split(r", (?=\w+(?: \w+)?:)", held.rstrip(",")))):
                yield plain(f"{head[2]} {{ {held.replace('pub ', '')} }}")
            else:
                yield head[2]
        elif head:
            yield plain(re.sub(r"pub (struct|enum) ", "", line).rstrip(";"))


def crate_has(name):
    """All that a crate has of calls and types, each once."""
    found = set()
    for path in sorted((TOP / "crates" / name / "src").glob("**/*.rt")):
        text = path.read_text(encoding="utf-8")
        for line in (*types_in(text), *calls_in(text)):
            found.add(line)
    return found


def shape_of(line):
    """A line without the names of a call's parameters, and with an enumeration's variants in order."""
    head, brace, held = line.partition(" { ")
    if brace:
        parts = re.split(r", (?![^({]*[)}])", held[:-2])
        return head + brace + ", ".join(parts if all(re.match(r"\w+: ", it) for it in parts) else sorted(parts))
    return re.sub(r"([(,] ?)\w+: ", r"\1", line)


def name_of(line):
    """The name of a call or a type."""
    return re.match(r"(?:[MTA] )*([\w:]+)", line)[1]


def read_list():
    """The list: crate, call, what the crate has in its place (None: the call itself), and the reason."""
    crate, rows = "", []
    for number, line in enumerate(LIST.read_text(encoding="utf-8").split("\n"), 1):
        if line.startswith("# ") and re.fullmatch(r"# \w+", line):
            crate = line[2:]
        elif line.startswith("    here:") and rows:
            rows[-1][2] = line.split("here:", 1)[1].strip()
        elif line.startswith("    since:") and rows:
            rows[-1][3] = line.split("since:", 1)[1].strip()
        elif line and not line.startswith(("#", " ")):
            rows.append([crate, line, None, None, number])
    return rows


def judged(row, has, reasons):
    """What is to be said of a line of the list, and whether it is right."""
    crate, wanted, here, since, number = row
    place = f"{LIST.relative_to(TOP)}:{number}: {crate}: {wanted}"
    shapes = {shape_of(it) for it in has}
    if here is None:
        if shape_of(wanted) in shapes:
            return None, True
        near = [it for it in has if name_of(it) == name_of(wanted)]
        return f"{place}\n    the crate has: {'; '.join(near) or 'nothing of this name'}", False
    if shape_of(wanted) in shapes:
        return f"{place}\n    the crate has it as the list says, so here: and since: are to go", False
    if here and shape_of(here) not in shapes:
        return f"{place}\n    the crate has nothing like: {here}", False
    if not since or not any(line.lstrip("- ").replace("*", "").startswith(since) for line in reasons):
        return f"{place}\n    docs/DECISIONS.md has no line that begins: {since}", False
    return f"{crate}: {wanted}\n    here:  {here or '(not there)'}\n    since: {since}", True


def main(words):
    unknown = [word for word in words if not word.startswith("-") and not (TOP / "crates" / word / "src").is_dir()]
    if unknown or (words and words[0].startswith("-") and (words[0] != "--of" or len(words) != 2)):
        print(f"there is no crate {unknown[0]}" if unknown
              else "signatures.py takes names of crates, or --of and one name")
        return 2
    if words[:1] == ["--of"]:
        print("\n".join(sorted(crate_has(words[1]))))
        return 0
    rows = [row for row in read_list() if not words or row[0] in words]
    reasons = REASONS.read_text(encoding="utf-8").replace("`", "").split("\n")
    had, count, other = {}, 0, 0
    for row in rows:
        said, right = judged(row, had.setdefault(row[0], crate_has(row[0])), reasons)
        count, other = count + (not right), other + (right and said is not None)
        if said:
            print(said)
    print(f"{len(rows)} calls and types in {len(had)} crates: {other} of them are otherwise, each with its reason; "
          f"{count} without")
    return 1 if count or not rows else 0


if __name__ == "__main__":
    sys.exit(main(sys.argv[1:]))
