#!/usr/bin/env python3
"""The manual pages docs/ads.1 and docs/adsd.1, made of the pages docs/COMMANDS.md and docs/DAEMON.md.

    python3 house/manual.py --write    writes both
    python3 house/manual.py --check    status 1 where one of them is not what would be written
    man -l docs/ads.1                  shows it

Headings become sections, a table a list whose tags are its first column, a block of code is shown as it stands. The
synopsis is the table whose first columns are headed `command` and `words`; without one, the table headed `command`
alone.
"""
import pathlib
import re
import sys

ROOT = pathlib.Path(__file__).resolve().parent.parent
PAGES = {
    "ads": ("COMMANDS.md", "serves a plant over Beckhoff's ADS, and asks a server", "adsd"),
    "adsd": ("DAEMON.md", "serves a plant over Beckhoff's ADS until it is stopped", "ads"),
}
CLEAR = ("last line", "means", "words", "prints")
CELL = re.compile(r"(?<!\\)\|")


def plain(text):
    """Text of the page as roff has it: backslashes doubled, hyphens as they are typed."""
    return text.replace("\\|", "|").replace("\\", "\\e").replace("-", "\\-").replace("'", "\\(aq").replace("`", "\\(ga")


def inline(text):
    """A line of prose: code and bold in bold, a link as its text."""
    text = re.sub(r"!?\[([^\]]*)\]\([^)\s]*\)", r"\1", text)
    out = []
    for at, part in enumerate(re.split(r"`([^`]*)`", text)):
        if at % 2:
            out.append(f"\\fB{plain(part)}\\fR")
        else:
            out += [f"\\fB{plain(it)}\\fR" if k % 2 else plain(it) for k, it in enumerate(part.split("**"))]
    return "".join(out)


def line(text):
    """A line of output that begins with no control character."""
    return "\\&" + text if text.startswith((".", "'")) else text


def cells(row):
    return [cell.strip() for cell in CELL.split(row.strip()[1:-1])]


def blocks(text):
    """The blocks of a page: (kind, lines)."""
    lines, at = text.split("\n"), 0
    while at < len(lines):
        first, begin = lines[at], at
        at += 1
        if first.startswith("```"):
            while not lines[at].startswith("```"):
                at += 1
            at += 1
            yield "code", lines[begin + 1:at - 1]
        elif first.startswith("#"):
            yield "heading", [first]
        elif first.startswith("|"):
            while at < len(lines) and lines[at].startswith("|"):
                at += 1
            yield "table", lines[begin:at]
        elif re.match(r"(- |\d+\. )", first):
            while at < len(lines) and lines[at].startswith("  "):
                at += 1
            yield "item", [" ".join(it.strip() for it in lines[begin:at])]
        elif first.strip() and not first.startswith("<!--"):
            while at < len(lines) and lines[at].strip() and not lines[at].startswith(("#", "|", "```", "- ")):
                at += 1
            yield "prose", [" ".join(it.strip() for it in lines[begin:at])]


def labelled(head, cell):
    """A cell behind what its column is headed, where that is needed to understand it."""
    return cell if head in CLEAR else f"{head}: {cell}" if " " in head else f"{head} {cell}"


def table(rows):
    heads = cells(rows[0])
    for row in rows[2:]:
        tag, *others = cells(row)
        yield ".TP"
        yield line(inline(tag) or "\\(en")
        said = [labelled(head, it) if len(heads) > 2 else it for head, it in zip(heads[1:], others) if it]
        yield line((": " if heads[-1] in CLEAR else "; ").join(map(inline, said)) or "\\&")


def converted(text):
    """The sections of a page."""
    for kind, lines in blocks(text):
        if kind == "heading":
            level, _, title = lines[0].partition(" ")
            if level != "#":
                yield (".SH " + inline(title).upper().replace("\\FB", "\\fB").replace("\\FR", "\\fR") if level == "##"
                       else ".SS " + inline(title))
        elif kind == "code":
            yield ".PP\n.RS\n.nf"
            yield from (line(plain(it)) for it in lines)
            yield ".fi\n.RE"
        elif kind == "table":
            yield from table(lines)
        elif kind == "item":
            mark, _, said = lines[0].partition(" ")
            yield ".IP \\(bu 2" if mark == "-" else f".IP {mark} 4"
            yield line(inline(said))
        else:
            yield ".PP"
            yield line(inline(lines[0]))


def synopsis(name, text):
    tables = [lines for kind, lines in blocks(text) if kind == "table" and cells(lines[0])[0] == "command"]
    wordy = [rows for rows in tables if cells(rows[0])[1:2] == ["words"]]
    for rows in (wordy or tables)[:1]:
        for row in rows[2:]:
            command, words = cells(row)[0], cells(row)[1] if wordy else ""
            for it in re.findall(r"`([^`]+)`", command):
                yield ".br"
                yield line(inline(f"`{name} {it}` {words}" if wordy else f"`{it}`").strip())


def made(name):
    page, about, other = PAGES[name]
    text = (ROOT / "docs" / page).read_text()
    first, _, rest = text.partition("\n## ")
    begin = [
        '.\\" -*- coding: utf-8 -*-',
        f'.\\" Made of docs/{page} by house/manual.py --write.',
        f'.TH {name.upper()} 1 "" Wenjukar',
        ".SH NAME",
        f"{name} \\- {plain(about)}",
        ".SH SYNOPSIS",
        *list(synopsis(name, text))[1:],
        ".SH DESCRIPTION",
        *converted(first),
        *converted("## " + rest),
        ".SH SEE ALSO",
        f".BR {other} (1),",
        "and the pages of the repository's folder",
        ".IR docs/ .",
    ]
    return "\n".join(begin) + "\n"


def main(words):
    if words not in (["--write"], ["--check"]):
        print(__doc__, file=sys.stderr)
        return 2
    wrong = 0
    for name in PAGES:
        path, text = ROOT / "docs" / f"{name}.1", made(name)
        if words == ["--write"]:
            path.write_text(text)
        elif not path.is_file() or path.read_text() != text:
            wrong += 1
            print(f"docs/{name}.1: not what docs/{PAGES[name][0]} says: house/manual.py --write")
    if words == ["--check"]:
        print(f"docs/*.1: {len(PAGES)} manual pages, {wrong} otherwise")
    return 1 if wrong else 0


if __name__ == "__main__":
    sys.exit(main(sys.argv[1:]))
