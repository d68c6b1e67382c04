#!/usr/bin/env python3
"""The map of the house, from crates.txt and the crates' files.

    python3 house/map.py            the table of groups, the longest chain, and what is to be mended
    python3 house/map.py --write
        also writes docs/architecture.svg, and the table and the chain into docs/ARCHITECTURE.md (between its marks)

To be mended are: a use that no file of the crate names, a use that crates.txt lacks, a crate that stands above what it
uses, a spec_ crate with code or a crate of definitions without the prefix, a group that the drawing has no place for,
and a line that would run behind a box. The status is 1 where there is one.
"""
import os
import re
import sys

TOP = os.path.dirname(os.path.dirname(os.path.abspath(__file__)))
BEGIN, END = "<!-- made by house/map.py -->", "<!-- end of what house/map.py makes -->"


class Crate:
    """A line of crates.txt, with what its folder holds."""

    def __init__(self, name, group, uses):
        self.name, self.group, self.uses = name, group, uses
        self.code = self.specs = self.proofs = 0
        self.text, self.title = "", ""
        for at, folders, files in os.walk(f"{TOP}/crates/{name}"):
            folders[:] = [it for it in folders if it != "out"]
            for file in files:
                if file.endswith((".rt", ".antt")):
                    self.add(os.path.relpath(os.path.join(at, file), f"{TOP}/crates/{name}"))

    def add(self, file):
        with open(f"{TOP}/crates/{self.name}/{file}", encoding="utf-8") as it:
            text = it.read()
        lines = text.count("\n")
        self.text += text
        if file.startswith("src/"):
            self.code += lines
            if file in ("src/lib.rt", "src/main.rt"):
                self.title = text.split("\n", 1)[0].lstrip("/! ").rstrip(".:")
        elif file.startswith("specs/"):
            self.specs += lines
        else:
            self.proofs += lines

    def names(self, word):
        return re.search(rf"(?<!\w){word}(?!\w)", self.text) is not None

    def has_bodies(self):
        """Whether the program runs something of it: a function whose body is not empty, or a type."""
        code = re.sub(r"//[^\n]*", "", "\n".join(texts_of(self.name)))
        return re.search(r"\n\s*(pub )?(struct|enum|trait|impl)\b",
                         code) is not None or re.search(r"\n\{\n\s*\S", code) is not None


def texts_of(name):
    """The crate's source files but its tests."""
    for at, _, files in os.walk(f"{TOP}/crates/{name}/src"):
        for file in sorted(files):
            if file.endswith(".rt"):
                with open(os.path.join(at, file), encoding="utf-8") as it:
                    yield it.read()


def read_map():
    """The groups in their order, each with its title and crates."""
    groups, crates = [], {}
    with open(f"{TOP}/crates.txt", encoding="utf-8") as it:
        for line in it.read().split("\n"):
            if line.startswith("# ") and groups is not None:
                groups.append((line[2:], []))
            elif ":" in line and not line.startswith("#"):
                left, right = line.split(":", 1)
                name = left.split()[0]
                crates[name] = Crate(name, len(groups) - 1, right.split())
                groups[-1][1].append(name)
    return [(title, names) for title, names in groups if names], crates


def faults(groups, crates):
    """What is to be mended, a line each."""
    seen = set()
    for _, names in groups:
        for name in names:
            crate = crates[name]
            for use in crate.uses:
                if not crate.names(use):
                    yield f"{name}: no file names {use}"
                if use in crates and use not in seen:
                    yield f"{name} stands above {use}, which it uses"
            for other in crates:
                if other != name and other not in crate.uses and other in crate.text and re.search(
                    rf"(use|Rattle\.|^|\W){other}(::|\.specs)", crate.text):
                    yield f"{name}: a file names {other}, which its line lacks"
            if name.startswith("spec_") and crate.has_bodies():
                yield f"{name}: definitions alone are called spec_, and this one has code"
            if not name.startswith("spec_") and not crate.has_bodies() and crate.specs:
                yield f"{name}: definitions alone, but not called spec_"
            seen.add(name)


def chain(crates, top=None):
    """The longest chain of crates that hold code, the lowest first; of those that end with a crate, if it is named."""
    best = {}

    def longest(name):
        if name not in best:
            below = max((longest(it) for it in crates[name].uses if it in crates), key=weight, default=[])
            best[name] = below + [name]
        return best[name]

    def weight(names):
        return sum(1 for it in names if not it.startswith("spec_")), sum(crates[it].code for it in names)

    return longest(top) if top else max((longest(it) for it in crates), key=weight)


def with_code(names):
    return [it for it in names if not it.startswith("spec_")]


def parts_of_chain(names, groups):
    """How many crates of a chain stand in each group, a phrase a group."""
    of = {name: title.split(":")[0] for title, held in groups for name in held}
    counts = {}
    for name in names:
        counts[of[name]] = counts.get(of[name], 0) + 1
    return ", ".join(f"{count} of {title}" for title, count in counts.items())


def table(groups, crates):
    lines = ["| group | crates | lines of code | of definitions | of proofs |", "|---|---|---|---|---|"]
    total = [0, 0, 0]
    for title, names in groups:
        sums = [sum(getattr(crates[it], part) for it in names) for part in ("code", "specs", "proofs")]
        total = [a + b for a, b in zip(total, sums)]
        linked = ", ".join(f"`{it}`" for it in names)
        lines.append(f"| **{title.split(':')[0]}** | {linked} | {sums[0]:,} | {sums[1]:,} | {sums[2]:,} |")
    lines.append(f"| all | {len(crates)} | {total[0]:,} | {total[1]:,} | {total[2]:,} |")
    return lines


def made_text(groups, crates):
    names = chain(crates)
    proving = with_code(names)
    below = {it: len(with_code(chain(crates, it))) for it in ("server_core", "client_loop", "local_link")}
    return [
        *table(groups, crates),
        "",
        f"The longest chain has {len(proving)} crates with code: " + ", ".join(f"`{it}`" for it in names) + "."
        f" They are {parts_of_chain(proving, groups)}. The server's chain has {below['server_core']}, to `server_core`,"
        f" the client's {below['client_loop']}, to `client_loop`, and a client over the server in one process "
        f"{below['local_link']}, to `local_link`;"
        " the others are the commands and the programs.",
    ]


# The drawing: a box a group, at places by hand. A line leads down from a box to each box that it
# uses and that none of the others that it uses does; so what a box uses is all that its lines lead to. No line runs
# behind a box: `Drawing.line` says where one would.
# (from the left, to the right, from the top row, to the bottom row)
PLACES = {
    "cases": (16, 690, 0, 0), "examples": (706, 856, 0, 0),
    "the daemon": (16, 856, 1, 1),
    "the program": (16, 856, 2, 2),
    "stores": (16, 196, 3, 3), "the relay": (212, 376, 3, 3), "the local link": (392, 556, 3, 3),
    "the client": (590, 856, 3, 4),
    "the server": (16, 556, 4, 4),
    "one client": (16, 556, 5, 5), "samples": (706, 856, 5, 5),
    "the device": (16, 676, 6, 6),
    "descriptions": (16, 330, 7, 7), "the wire": (346, 856, 7, 7),
    "what is believed": (880, 1084, 0, 7),
    "the ground": (16, 1084, 8, 8),
}
FILLS = {"what is believed": "#fdf3d8", "the ground": "#eeeeee", "cases": "#f5f5f5", "the client": "#e4f2e4",
         "samples": "#e4f2e4", "the local link": "#d9eef0"}
# What stands below the names in a box.
WRAPS = {
    "the daemon": ("the wire: Watched (it ends at a stop, and tells the log) around Routed (the local router) around RealWire",
                   "(sockets, with its allow list); beside the loop: SavesOn (a store) or Tells, which tell the log"),
}
FILL, SIDE, CHANNEL = "#e3ecf7", "what is believed", 36


def wrapped(words, wide):
    """The words in lines of so many pixels, at 12 pixels a letter's height."""
    lines = [""]
    for word in words:
        if lines[-1] and len(lines[-1]) + 3 + len(word) > wide / 6.7:
            lines.append("")
        lines[-1] = f"{lines[-1]}, {word}".lstrip(", ")
    return [it + "," for it in lines[:-1]] + lines[-1:]


def box_of(title):
    """The name of a group's box: its title up to the colon or the comma."""
    return re.split("[:,]", title)[0]


class Drawing:
    """The boxes with their crates, and what each uses."""

    def __init__(self, groups, crates):
        self.holds, self.uses, self.faults = {}, {}, []
        for title, names in groups:
            for name in names:
                self.holds.setdefault(box_of(title), []).append(name)
        box = {name: title for title, names in self.holds.items() for name in names}
        for name, title in box.items():
            self.uses.setdefault(title, set()).update(box[use] for use in crates[name].uses if use in box
                                                      and box[use] != title)
        self.rows()

    def rows(self):
        """Where each row begins and ends, as high as its fullest box."""
        self.places = dict(PLACES)
        for title in self.holds:
            if title not in self.places:
                self.faults.append(f"{title}: house/map.py knows no place in the drawing for this group")
        count = 1 + max(bottom for _, _, _, bottom in PLACES.values())
        need = [44] * count
        for title, names in self.holds.items():
            if title in self.places:
                left, right, top, bottom = self.places[title]
                if top == bottom:
                    lines = len(wrapped(names, right - left - 20)) + len(WRAPS.get(title, ()))
                    need[top] = max(need[top], 36 + 16 * lines)
        self.begins, y = [], 12
        for row in range(count):
            self.begins.append((y, y + need[row]))
            y += need[row] + CHANNEL
        self.high = y - CHANNEL + 12

    def box(self, title):
        left, right, top, bottom = self.places[title]
        longer = CHANNEL // 2 if title == SIDE else 0
        return left, self.begins[top][0], right, self.begins[bottom][1] + longer

    def below(self, title):
        found = set()
        for use in self.uses.get(title, ()):
            found |= {use} | self.below(use)
        return found

    def pairs(self):
        """The lines: from a box to one that it uses and none of the others that it uses does."""
        for title in self.holds:
            uses = self.uses.get(title, set())
            yield from ((title, it) for it in sorted(uses) if not any(it in self.below(other) for other in uses
                                                                      if other != it))

    def line(self, upper, lower, drawn):
        """The corners of a line; a fault where it would run behind a box."""
        (a, b, c, d), (e, f, g, h) = self.box(upper), self.box(lower)
        if lower == SIDE and d <= h:
            stop = [it for it in self.holds if it not in (upper, lower) and self.box(it)[0] >= c and self.box(it)[1] < d
                    and self.box(it)[3] > b]
            low = d + CHANNEL // 2 - 6
            corners = [((a + c) / 2, d), ((a + c) / 2, low), (e, low)] if stop else [(c, (b + d) / 2), (e, (b + d) / 2)]
        else:
            near, far = max(a, e), min(c, g)
            taken = [x for x, top, bottom in drawn if top < f and bottom > d and near <= x <= far]
            x = next((it for it in ((near + far) / 2, near + (far - near) / 4, far - (far - near) / 4)
                      if self.free(it, d, f, upper, lower) and it not in taken), None)
            if x is None or near >= far:
                self.faults.append(f"{upper} uses {lower}: house/map.py has no room for this line in the drawing")
                return []
            drawn.append((x, d, f))
            corners = [(x, d), (x, f)]
        return corners

    def free(self, x, top, bottom, upper, lower):
        boxes = [self.box(it) for it in self.holds if it not in (upper, lower) and it in self.places]
        return not any(a <= x <= c and b < bottom and d > top for a, b, c, d in boxes)

    def text(self):
        out = [
            f'<svg xmlns="http://www.w3.org/2000/svg" width="1100" height="{self.high}" viewBox="0 0 1100 {self.high}" '
            f'font-family="sans-serif">',
            "<title>The crates in boxes; a box uses the boxes that its lines lead down to, and what these use</title>",
            f'<rect width="1100" height="{self.high}" fill="#ffffff"/>',
            '<defs><marker id="to" viewBox="0 0 10 10" refX="9" refY="5" markerWidth="7" markerHeight="7" '
            'orient="auto"><path d="M0 0 10 5 0 10z" fill="#445"/></marker></defs>',
        ]
        drawn = []
        for title, names in self.holds.items():
            if title in self.places:
                a, b, c, d = self.box(title)
                out.append(f'<rect x="{a}" y="{b}" width="{c - a}" height="{d - b}" rx="6" '
                           f'fill="{FILLS.get(title, FILL)}" stroke="#667"/>')
                out.append(f'<text x="{a + 10}" y="{b + 20}" font-size="14" font-weight="bold" '
                           f'fill="#222">{title}</text>')
                for n, line in enumerate((*wrapped(names, c - a - 20), *WRAPS.get(title, ()))):
                    out.append(f'<text x="{a + 10}" y="{b + 38 + 16 * n}" font-size="12" fill="#333">{line}</text>')
        for upper, lower in self.pairs():
            if upper in self.places and lower in self.places:
                corners = self.line(upper, lower, drawn)
                if corners:
                    path = " L ".join(f"{x:.0f} {y:.0f}" for x, y in corners)
                    out.append(f'<path d="M {path}" stroke="#445" stroke-width="1.4" fill="none" '
                               f'marker-end="url(#to)"/>')
        return "\n".join([*out, "</svg>", ""])


def main():
    groups, crates = read_map()
    made, drawn = made_text(groups, crates), Drawing(groups, crates)
    picture = drawn.text()
    if "--write" in sys.argv[1:]:
        with open(f"{TOP}/docs/architecture.svg", "w", encoding="utf-8") as it:
            it.write(picture)
        path = f"{TOP}/docs/ARCHITECTURE.md"
        with open(path, encoding="utf-8") as it:
            text = it.read()
        if BEGIN in text:
            before, rest = text.split(BEGIN, 1)
            behind = rest.split(END, 1)[1]
            with open(path, "w", encoding="utf-8") as it:
                it.write(before + BEGIN + "\n" + "\n".join(made) + "\n" + END + behind)
    print("\n".join(made))
    found = [*faults(groups, crates), *drawn.faults]
    print()
    print("\n".join(found) if found else "Nothing is to be mended.")
    sys.exit(1 if found else 0)


main()
