#!/usr/bin/env python3
"""The index of what is proved: docs/CONTRACTS.md, made of the crates' READMEs in the groups and the order of
crates.txt.

    python3 house/contracts.py            prints the page
    python3 house/contracts.py --write    writes it
    python3 house/contracts.py --check
        status 1 where the page is another, or a crate has no README or one that this script can't read

Of a README it takes the first sentence, and the names of the clauses: what stands in backquotes in the last column of
each table whose last column is headed `clause` or `by`. What each clause says, what is only tested, and the limits
stand in the README.
"""
import pathlib
import re
import sys

ROOT = pathlib.Path(__file__).resolve().parent.parent
PAGE = ROOT / "docs/CONTRACTS.md"
HEAD = """# What is proved, crate by crate

Made by `house/contracts.py --write` from the READMEs of the crates; what stands here is changed there. Each function is proved safe, and to end unless it waits for sockets or threads. Beyond that its clauses say what it does. Each README has a table of sentences, with the clauses that carry them, what is only tested, and the limits. Here are the names of the clauses, to find the crate; the lowest crate is first, and a crate sees only the contracts of those below it.
"""
NAME = re.compile(r"`([^`]+)`")
IDENTIFIER = re.compile(r"[A-Za-z_][\w:]*")


def groups():
    """The groups of crates.txt: a title, and the names of the crates."""
    found = []
    for line in (ROOT / "crates.txt").read_text().split("\n"):
        if line.startswith("# "):
            found.append((line[2:], []))
        elif ":" in line and not line.startswith("#"):
            found[-1][1].append(line.partition(":")[0].split()[0])
    return [(title, names) for title, names in found if names]


def sentence(text):
    """The first sentence of a README: the first line of prose, to its first full stop outside of backquotes."""
    body = re.sub(r"\s+", " ", next((part for part in text.split("\n\n")[1:] if part.strip()
                                     and not part.startswith(("#", "|", "```"))), ""))
    hidden = NAME.sub(lambda m: m.group(0).replace(".", "\0"), body)
    return re.split(r"(?<=[^.])\. (?=[A-Z`])", hidden)[0].replace("\0", ".").strip().rstrip(".:") if body else ""


def linked(text, name):
    """The text, with its links as seen from docs/."""
    return re.sub(r"\]\((?![a-z]+:|#)([^)]+)\)", lambda m: f"](../crates/{name}/{m.group(1)})", text)


def cells(line):
    return [cell.strip() for cell in re.split(r"(?<!\\)\|", line.strip().strip("|"))]


def clauses(text):
    """The names in the last column of each table of clauses, each once."""
    names, inside = {}, False
    lines = text.split("\n")
    for at, line in enumerate(lines):
        if not line.startswith("|"):
            inside = False
        elif at + 1 < len(lines) and re.match(r"\|[-| ]+\|$", lines[at + 1]):
            inside = re.match(r"(clauses?|by)\b", cells(line)[-1]) is not None
            heads = NAME.findall(cells(line)[-1])
            names.update(dict.fromkeys(heads if inside else []))
        elif inside and not line.startswith("|--"):
            names.update(dict.fromkeys(it for it in NAME.findall(cells(line)[-1]) if IDENTIFIER.fullmatch(it)))
    return list(names)


def row(name):
    path = ROOT / "crates" / name / "README.md"
    text = path.read_text() if path.is_file() else ""
    said, carried = sentence(text), clauses(text)
    shown = ", ".join(f"`{it}`" for it in carried) or ("definitions, no code" if name.startswith("spec_")
                                                       else "none beside safety")
    title = f"[{name}](../crates/{name}/README.md)" if text else name
    return said, f"| {title} | {linked(said, name)} | {shown} |"


def page():
    """The page, and what is wrong with the READMEs."""
    out, faults = [HEAD], []
    for title, names in groups():
        name, _, holds = title.partition(": ")
        out.append(f"## {name[0].upper()}{name[1:]}\n\n{holds[:1].upper()}{holds[1:]}.\n" if holds
                   else f"## {name[0].upper()}{name[1:]}\n")
        out.append("| crate | what it is | clauses |\n|---|---|---|")
        for crate in names:
            said, line = row(crate)
            if not said:
                faults.append(f"{crate}: no README, or its first sentence can't be found")
            out.append(line)
        out.append("")
    return "\n".join(out), faults


def main(words):
    text, faults = page()
    print("\n".join(faults), end="\n" if faults else "")
    if words == ["--write"]:
        PAGE.write_text(text)
    elif words == ["--check"]:
        same = PAGE.is_file() and PAGE.read_text() == text
        print("docs/CONTRACTS.md: " + ("as the READMEs say" if same
                                       else "not what the READMEs say: house/contracts.py --write"))
        faults += [] if same else ["another"]
    elif words:
        print(__doc__, file=sys.stderr)
        return 2
    else:
        print(text, end="")
    return 1 if faults else 0


if __name__ == "__main__":
    sys.exit(main(sys.argv[1:]))
