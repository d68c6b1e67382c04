#!/usr/bin/env python3
"""What must be believed by reading, for the contracts of the top call `run` and of the daemon to mean what their words
say.

    python3 house/believed.py             a line a part, and the sum
    python3 house/believed.py --files
        a line a file of a part, in reading order: its lines there, and all that it has
    python3 house/believed.py --names     a line a definition
    python3 house/believed.py --write     writes docs/BELIEVED.md
    python3 house/believed.py --check
        status 1 where that page is another, or something is not right: `wrong_in` says what
    python3 house/believed.py --tried
        how many lines of the definitions of each part the worked examples reach, and a line a definition that none
        reaches
    python3 house/believed.py --spare     definitions that stand twice, and those that nobody reaches: what might be cut
    python3 house/believed.py --from crates/X/src/y.rt:name      one function or definition by itself

It follows the names: from the clauses of a function to the definitions that they cite, to those that these cite, and so
on. A definition counts with the comment above it; an operator of our own and `do` count as names. A type of the code
that a definition names counts with its fields and with what contracts see of it, a trait with all that it is seen as
and all that its calls promise. What stands in the library `std` or in a crate of the kit is named at the end and not
counted.

The parts are made of the theorems that they are for (PARTS): a definition stands in the first part whose theorems reach
it. Two things are taken apart. A type of CHOICES is a choice of what a program does: a case counts from the part on
that makes this case, and so does an equation that says what becomes of it. (A clause about all values of such a type
would need all cases: `wrong_in` looks that there is none.) And of a trait of PROVED, whose implementation in the
programs is proved, the calls count in the last part only.
"""
import collections
import functools
import pathlib
import re
import sys

ROOT = pathlib.Path(__file__).resolve().parent.parent
CRATES = ROOT / "crates"
PAGE, GUARANTEES = ROOT / "docs/BELIEVED.md", ROOT / "docs/GUARANTEES.md"

# The parts of docs/BELIEVED.md, in reading order: a title, what it is, and the functions and definitions that it is
# for.
PARTS = (
    ("The server", "What `serve` promises: first what a plant is, and the bytes on the wire (`spec_formats`, to be "
     "read beside the Beckhoff Information "
     "System); then which descriptions are accepted (`spec_rules`), the written server (`spec_machine`), its laws and "
     "promises, and how a run goes and ends.",
     ("crates/plant_commands/src/serve_file.rt:serve",)),
    ("The relay", "What `relay` promises over a wire.", ("crates/plant_commands/src/relay_serve.rt:serve_relay",)),
    ("Scripts", "How a script is read, and the text of its play.",
     ("crates/spec_server/specs/Server.antt:server_script", "crates/spec_server/specs/Server.antt:server_text")),
    ("Stores", "What `keep` promises: a file of kept values, a disk, and what a stop of the machine may leave.",
     ("crates/plant_commands/src/keep_file.rt:keep",)),
    ("Clients", "What `get`, `set`, `watch`, `record` and the others ask, print and end with; a link, and a table of "
     "samples.",
     ("crates/client_commands/src/asking.rt:ask", "crates/client_commands/src/recording.rt:record")),
    ("The daemon", "What a run of `adsd` promises, with a store or without one.",
     ("crates/daemon_run/src/plant.rt:run_plant", "crates/daemon_run/src/plant_watched.rt:run_watched")),
    ("The command line", "What `run` promises: which words are a command, and what each comes to.",
     ("crates/ads_run/src/top_call.rt:run",)),
    ("Other signals", "What signals must keep that are not those of the programs. Of those of the programs it is "
     "proved, so nobody needs this part for them.",
     ("crates/server_core/src/sources.rt:calls of Sources",)),
)
# traits whose implementation in the programs is proved
PROVED = {"Sources"}
# types whose cases are what a program may do, each read where it is first done
CHOICES = {"Verdict", "ServedMachine", "Status"}

WORD = re.compile(r"[^\W\d][\w'-]*(?:\.[^\W\d][\w'-]*)*|[◌⟦][^\s,{}]*")
USE = re.compile(r"(pub )?(?:ghost )?use ([\w.:]+?)(?:[.:]+\{([^}]*)\})?(?: as (\w+))?;?\s*$")
HEAD = re.compile(r"^(?:abbrev pub|unfoldable pub|pub record|pub data|abbrev|unfoldable|record|data)\s+(\S+)")
MUTUAL = re.compile(r"^(?:[a-z]+ )?mutual\b")
RUST = re.compile(r"^(?:pub(?:\([a-z]+\))? )?(struct|enum|trait|type)\s+(\w+)")
KEYWORDS = {"if", "then", "else", "λ", "elim", "record", "abbrev", "unfoldable", "pub", "let", "in", "do", "Type"}
INNER = re.compile(r"^  (?:abbrev pub|unfoldable pub|pub record|pub data|pub)\s+(?!record\b|data\b)(\S+)", re.M)
CASES = re.compile(r"^ {2,4}(?:pub )?([^\W\d][\w'-]*)\s*:", re.M)


def uses_of(lines):
    """The uses of a file, each joined to one line: (public, path, names or None, alias)."""
    at = 0
    while at < len(lines):
        line = lines[at].strip()
        if re.match(r"(pub )?(ghost )?use ", line):
            while ("{" in line and "}" not in line) or line.endswith("::"):
                at += 1
                line += " " + lines[at].strip()
            found = USE.match(line)
            if not found or re.search(r"[{ ]\*[,}]|[.:]\*;?$", line):
                LOST.add(f"a use that can't be followed: {line}")
            if found:
                public, path, names, alias = found.groups()
                yield bool(public), path.replace("::", "."), [n.strip() for n in names.split(",")
                                                              if n.strip()] if names else None, alias
        at += 1


class Item:
    """A definition, an equation or a case of one, a type or trait of the code, or the contract of a function: a name,
    and lines of a file."""

    def __init__(self, file, name, lines, needs=()):
        self.file, self.name, self.needs, self.cites, self.behind = file, name, needs, None, None
        self.leave(lines)

    def leave(self, lines):
        """Makes these lines all that it has."""
        self.lines = [at for at in lines if self.file.lines[at].strip()]
        self.text = "\n".join(filter(str.strip, map(self.file.code, self.lines)))

    def place(self):
        return f"{self.file.path.relative_to(ROOT)}:{self.lines[0] + 1}"


def with_comment(lines, first):
    while first > 0 and lines[first - 1].lstrip().startswith(("--", "///", "//", "#[", "infix")):
        first -= 1
    return first


def block_end(lines, first):
    """The last line of a Rust item that begins at a line: where its braces close, or its semicolon."""
    depth = 0
    for at in range(first, len(lines)):
        code = lines[at].split("//")[0]
        depth += code.count("{") - code.count("}")
        if depth == 0 and (code.rstrip().endswith(("}", ";"))):
            return at
    return len(lines) - 1


class Page:
    """A file of definitions or of code."""

    def __init__(self, path):
        self.path, self.crate = path, path.relative_to(CRATES).parts[0]
        self.lines = path.read_text().split("\n")
        while self.lines and not self.lines[-1]:
            self.lines.pop()
        # what is defined here; the cases of choices; what each imported name is, and what else where it is imported
        # twice, as a definition and as code
        self.items, self.cases, self.imports, self.others, self.modules, self.exports = (
            {}, set(), {}, collections.defaultdict(list), {}, {})
        for public, path_of, names, alias in uses_of(self.lines):
            above, _, last = path_of.rpartition(".")
            if names is None:
                self.bring(alias or last, above, last)
                if alias:
                    self.modules[alias] = path_of
            for entry in names or []:
                real, _, other = entry.partition(" as ")
                if real == "self":
                    self.bring(other or last, above, last)
                    continue
                self.bring(other or real, path_of, real)
                if public:
                    self.exports[other or real] = (path_of, real)
        (self.read_definitions if path.suffix == ".antt" else self.read_code)()

    def bring(self, name, where, real):
        if self.imports.setdefault(name, (where, real)) != (where, real):
            self.others[name].append((where, real))

    def code(self, at):
        """A line without its comment; none of a line that only says where a name comes from."""
        line = self.lines[at]
        if self.path.suffix == ".antt":
            return "" if line.lstrip().startswith("--") else line.split(" -- ")[0]
        return "" if re.match(r"\s*(ghost )?use .*;$", line) else line.split("//")[0]

    def read_definitions(self):
        heads = [(at, None if MUTUAL.match(line) else HEAD.match(line)) for at, line in enumerate(self.lines)
                 if HEAD.match(line) or MUTUAL.match(line)]
        for k, (at, head) in enumerate(heads):
            end = with_comment(self.lines, heads[k + 1][0]) if k + 1 < len(heads) else len(self.lines)
            first = with_comment(self.lines, at)
            if head and head.group(1) in CHOICES:
                self.read_choice(head.group(1), first, at, end)
                continue
            names = [head.group(1)] if head else INNER.findall("\n".join(self.lines[at:end]))
            if not names:
                continue
            item = Item(self, names[0], range(first, end))
            self.items.update(dict.fromkeys(names, item))
            if "data " in item.text:
                for case in CASES.findall(item.text):
                    self.items.setdefault(case, item)

    def read_choice(self, name, first, at, end):
        """A choice, and each of its cases by itself, with the comment above it."""
        self.items[name] = Item(self, name, range(first, at + 1))
        from_there = at + 1
        for k in range(at + 1, end):
            case = CASES.match(self.lines[k])
            if case:
                self.cases.add(case.group(1))
                last = next((j for j in range(k + 1, end) if CASES.match(self.lines[j])
                             or self.lines[j].lstrip().startswith("--")), end)
                self.items[case.group(1)] = Item(self, case.group(1), range(from_there, last))
                from_there = last

    def read_variants(self, name, at, end):
        """A choice of the code, and each of its cases by itself, with the comment above it."""
        cases = [(k, found.group(1)) for k in range(at + 1, end) if (found := re.match(r"    (\w+)", self.lines[k]))]
        for k, case in cases:
            self.cases.add(case)
            self.items[case] = Item(self, case, range(with_comment(self.lines, k), k + 1))
        away = {line for _, case in cases for line in self.items[case].lines}
        self.items[name].leave([line for line in self.items[name].lines if line not in away])

    def read_code(self):
        for at, line in enumerate(self.lines):
            found = RUST.match(line)
            if found:
                end, first, name = block_end(self.lines, at) + 1, with_comment(self.lines, at), found.group(2)
                seen = range(first, end)
                if found.group(1) == "trait" and name in PROVED:
                    seen = [*range(first, at + 1), *(k for m in range(at, end)
                                                     if re.match(r"    ghost \w+:.*;$", self.lines[m])
                                                     for k in range(with_comment(self.lines, m), m + 1)), end - 1]
                    self.items["calls of " + name] = Item(self, "calls of " + name,
                                                          [k for k in range(first, end) if k not in seen])
                self.items[name] = Item(self, name, seen)
                if name in CHOICES:
                    self.read_variants(name, at, end)
        for at, line in enumerate(self.lines):
            found = re.match(r"impl(?:<.*?>)? Model for (\w+)", line)
            if found and found.group(1) in self.items:
                item = self.items[found.group(1)]
                item.behind = [Item(self, found.group(1), range(at, block_end(self.lines, at) + 1), (item,))]
            found = re.match(r"pub fn (\w+)", line)
            if found:
                end = next((k for k in range(at, len(self.lines)) if self.lines[k] in ("{", "{}")), at)
                self.items.setdefault("fn " + found.group(1), Item(self, found.group(1),
                                                                   range(with_comment(self.lines, at), end)))


PAGES = {}
# what is named of the library and the kit, by crate; and what is named as ours and not found
OUTSIDE, LOST = collections.defaultdict(set), set()


def page(path):
    if path not in PAGES:
        PAGES[path] = Page(path) if path.is_file() else None
    return PAGES[path]


def rust_page(crate, parts):
    """The file of a module of code: `parts` are its names, the last one perhaps that of an item."""
    for length in range(len(parts), -1, -1):
        stem = CRATES / crate / "src" / pathlib.Path(*parts[:length]) if length else CRATES / crate / "src/lib"
        for path in (stem.with_suffix(".rt"), stem / "mod.rt"):
            if path.is_file():
                return page(path)
    return None


def find(where, name):
    """The item of a path and a name, through what is exported again; None where it is none of ours."""
    if where.startswith("Rattle."):
        crate, _, rest = where[len("Rattle."):].partition(".")
        kind, *parts = rest.split(".")
        if not (CRATES / crate).is_dir():
            OUTSIDE[crate].add(name)
            return None
        if parts[:1] == ["declared"]:
            found = rust_page(crate, parts[1:])
            for word in [name] + list(reversed(parts[1:])):
                if found and word in found.items:
                    return found.items[word]
            return exported(crate, name)
        for length in (len(parts), len(parts) - 1) if kind in ("specs", "proofs") else ():
            found = page((CRATES / crate / kind / pathlib.Path(*parts[:length])).with_suffix(
                ".antt")) if length else None
            if found:
                word = name if name in found.items or name in found.exports else ".".join(parts[length:]) or name
                if word in found.items:
                    return found.items[word]
                if word in found.exports:
                    return find(*found.exports[word])
        return None
    crate, _, rest = where.partition(".")
    if (CRATES / crate).is_dir():
        found = rust_page(crate, rest.split(".") if rest else [])
        if found and name in found.items:
            return found.items[name]
        if not rest:
            return exported(crate, name)
        return find(*within(crate, *found.exports[name])) if found and name in found.exports else None
    OUTSIDE[crate].add(name)
    return None


def within(crate, where, name):
    """The path of a use, read in a crate of code."""
    first, _, rest = where.partition(".")
    if first == "crate":
        return f"{crate}.{rest}", name
    if (CRATES / crate / "src" / (first + ".rt")).is_file():
        return f"{crate}.{where}", name
    return where, name


def exported(crate, name):
    lib = page(CRATES / crate / "src/lib.rt")
    if lib and name in lib.items:
        return lib.items[name]
    if lib and name in lib.imports:
        return find(*within(crate, *lib.imports[name]))
    return None


def is_of_kit(where):
    return where.startswith("Rattle.") and not (CRATES / where.split(".")[1]).is_dir()




def operators(item):
    """The operators of our own that a text uses: `do` uses that which binds."""
    here = item.file
    words = set(re.findall(r"[^\W\d][\w'-]*|[^\s\w(){},;]+", item.text))
    for name in sorted(it for it in {*here.items, *here.imports} if "◌" in it):
        signs = [it for it in name.split("◌") if it]
        if name != item.name and (all(it in words for it in signs) or (name == "◌>>=◌" and "do" in words)):
            yield name


def meant(here, word, own):
    """The item that a word of a file means, but for the own name of the item where it stands."""
    parts = word.split(".")
    for name, rest in ((word, ""), (parts[0], ".".join(parts[1:]))):
        if name == own and not rest:
            return None
        if name in here.items:
            return here.items[name]
        if rest and name in here.modules:
            found = find(here.modules[name], rest.split(".")[0])
            if found:
                return found
        if name in here.imports:
            where = here.imports[name]
            found = find(*within(here.crate, *where))
            if not found and name not in here.modules and where[0].split(".")[0] in (
                "Rattle", "crate") and not is_of_kit(where[0]):
                LOST.add(f"{here.path.relative_to(ROOT)}: {'.'.join(where)} is not found")
            return found
    return None


def cited(item):
    """The items that an item names."""
    if item.cites is None:
        words = dict.fromkeys([*WORD.findall(item.text), *operators(item)])
        others = [find(*within(item.file.crate, *where)) for word in words
                  for where in item.file.others.get(word.partition(".")[0], ())]
        found = {id(it): it for it in (*(meant(item.file, word, item.name) for word in words), *others) if it
                 and it is not item}
        item.cites = list(found.values())
    return item.cites


def behind_cases(item):
    """The equations of a definition that say what becomes of a case of a choice. They are items of their own, and no
    longer of the definition."""
    if item.behind is None:
        item.behind = []
        starts = [at for at in item.lines if re.match(r"[^\s-]", item.file.lines[at])]
        if item.file.path.suffix == ".antt" and len(starts) > 1 and not re.search(
            r"\b(record|data|mutual)\b", item.file.lines[starts[0]].split(":")[0]):
            for start, end in zip(starts[1:], [*starts[2:], item.lines[-1] + 1]):
                lines = [at for at in item.lines if start <= at < end]
                left = re.split(r" =(?: |$)", "\n".join(map(item.file.code, lines)), maxsplit=1, flags=re.M)[0]
                cases = [it for it in (meant(item.file, word, item.name) for word in WORD.findall(left)) if it
                         and it.name in it.file.cases]
                if cases:
                    item.behind.append(Item(item.file, item.name, lines, (item, *cases)))
        away = {at for it in item.behind for at in it.lines}
        if away:
            item.leave([at for at in item.lines if at not in away])
    return item.behind


def reached(roots, known):
    """What some items reach that is not known, in the order in which it is met."""
    new, waiting = {}, collections.deque(roots)
    while waiting:
        item = waiting.popleft()
        if id(item) not in known and id(item) not in new:
            behind_cases(item)
            new[id(item)] = item
            waiting.extend(cited(item))
        if not waiting:
            all_known = {**known, **new}
            waiting.extend(it for of in all_known.values() for it in of.behind
                           if id(it) not in all_known and all(id(need) in all_known for need in it.needs))
    return new


def root(place):
    """The contract of a function, or the definition, of a place."""
    file, _, name = place.partition(":")
    items = page(ROOT / file).items
    return items["fn " + name] if "fn " + name in items else items[name]


def in_parts(parts):
    """What stands in each part."""
    known, found = {}, []
    for _, _, places in parts:
        new = reached(map(root, places), known)
        known.update(new)
        found.append(list(new.values()))
    return found


def lines_of(items):
    """How many lines some items take up."""
    return len({(item.file.path, at) for item in items for at in item.lines})


@functools.cache
def layers():
    """The crates in the order of crates.txt, lowest first: a crate stands behind those that it uses."""
    used = {}
    for line in (ROOT / "crates.txt").read_text().split("\n"):
        if ":" in line and not line.startswith("#"):
            head, _, deps = line.partition(":")
            used[head.split()[0]] = deps.split()
    order = {}

    def visit(name):
        if name in used and name not in order:
            for dep in used[name]:
                visit(dep)
            order.setdefault(name, len(order))

    for name in used:
        visit(name)
    return order


def in_order(items):
    """The files of a part and what of them stands there, each behind those that it cites; by crates, lowest first.
    Where files of a crate cite one another in a circle, one stands there twice."""
    left, order, found = collections.defaultdict(list), layers(), []
    for item in items:
        left[item.file].append(item)
    while left:
        lowest = min((file.crate for file in left), key=order.get)
        files = sorted((file for file in left if file.crate == lowest), key=lambda file: str(file.path))
        waiting = {id(it): file for file in files for it in left[file]}
        ready = {file: readable(left[file], waiting) for file in files}
        free = next((file for file in files if len(ready[file]) == len(left[file])),
                    None) or next((file for file in files if ready[file]), files[0])
        now = ready[free] or left[free]
        found.append((free, now))
        left[free] = [item for item in left[free] if item not in now]
        if not left[free]:
            del left[free]
    return found


def readable(items, waiting):
    """Which items of a file cite nothing that waits in another, themselves or by others of that file."""
    bad = {id(item) for item in items if any(waiting.get(id(it), item.file) is not item.file
                                             for it in (*cited(item), *item.needs))}
    while True:
        more = {id(item) for item in items if id(item) not in bad
                and any(id(it) in bad for it in (*cited(item), *item.needs))}
        if not more:
            return [item for item in items if id(item) not in bad]
        bad |= more


def wrong_in(parts):
    """What is not right: a name that is not found; a line that stands twice; what cites a later part, or in its part
    what comes later; a clause about all values of a choice; a sentence of docs/GUARANTEES.md that says less lines than
    there are."""
    part = {id(item): k for k, items in enumerate(parts) for item in items}
    yield from sorted(LOST)
    taken, every = {}, re.compile(rf"\([\w' ]+ : (?:{'|'.join(CHOICES)})\)(?:\s*[({{][^(){{}}]* : "
                                  rf"[^(){{}}]*[)}}])*\s*[→×]")
    for k, items in enumerate(parts):
        place = {id(item): n for n, (_, here) in enumerate(in_order(items)) for item in here}
        for item in items:
            for at in item.lines:
                other = taken.setdefault((item.file.path, at), item)
                if other is not item:
                    yield f"{item.place()}: a line of {item.name} is one of {other.name} too"
            for it in (*cited(item), *item.needs):
                if part.get(id(it), len(parts)) > k:
                    yield f"{item.place()}: {item.name} of part {k + 1} cites {it.name}, of a later one: {it.place()}"
                elif part[id(it)] == k and place[id(it)] > place[id(item)]:
                    yield f"{item.place()}: {item.name} stands before what it cites, {it.name}: {it.place()}"
            if every.search(item.text):
                yield f"{item.place()}: {item.name} speaks of all values of a choice: {every.search(item.text).group()}"
    for most in re.findall(r"fewer than ([\d,]+) lines", GUARANTEES.read_text()):
        if len(parts) == len(PARTS) and lines_of(parts[0]) >= int(most.replace(",", "")):
            yield f"docs/GUARANTEES.md: part 1 has {lines_of(parts[0]):,} lines"


INTRODUCTION = """# What must be believed by reading

Made by `house/believed.py --write`. A proof shows that the program does what the definitions say. That the definitions say what ADS says, and what you want, has to be read. The script follows the names: from the contracts of the runs to the definitions that they cite, to those that these cite, and so on. Here is all that it reaches, each file with the number of its lines that count, comments among them.

**Read the first part, and then those that you need.** Each part is for a theorem: it has what the theorem cites and no part before it has. So each line stands in one part, and no part cites a later one. Within a part each file is read after those that it cites.

- A trait of the outside counts whole: what its calls promise is all that is known of a file, a socket or a disk.
- {choices} have a case for each thing that a program may do. A case stands in the first part that makes it, and so does an equation that says what becomes of it.
- Of {proved} the first parts have only what signals are seen as, since those of the programs are proved. Its calls are the last part.
- What the library `std` and the crates of the kit define is not counted.

Worked examples stand beside the definitions (`proofs/*Examples.antt`), computed from them alone. The last column of the table tells how many lines of the definitions they reach, each that they name and all that it cites; `house/believed.py --tried` lists those that they do not. Wrong definitions are tried and refused (`wrong-bodies/`); and two models in plain Python, written from the formats ([model.py](../model/protocol.py), [client.py](../model/client.py)), agree with the program on every random and hostile run that was tried.
"""


def names_of(words):
    return " and ".join(f"`{word}`" for word in sorted(words))


def link_to(path, text):
    return f"[{text}](../{path})"


def table_of(items):
    """The table of a part: a line a crate."""
    rows = collections.defaultdict(list)
    for file, here in in_order(items):
        rows[file.crate].append((file, here))
    yield from ("| crate | files, in reading order | lines |", "|---|---|---|")
    for crate, files in rows.items():
        texts = []
        for file, here in files:
            inner = file.path.relative_to(CRATES / crate)
            texts.append(f"{link_to(file.path.relative_to(ROOT), inner.stem if inner.suffix == '.antt' else inner)} "
                         f"{lines_of(here)}")
        yield (f"| {link_to(f'crates/{crate}/README.md', f'`{crate}`')} | {', '.join(texts)} | "
               f"{lines_of([it for _, here in files for it in here])} |")


def share(shares):
    """Of some parts: how many lines of definitions the worked examples reach, of how many."""
    return f"{sum(here for here, _ in shares):,} of {sum(every for _, every in shares):,}"


def written(parts):
    """The page."""
    out = [INTRODUCTION.format(choices=names_of(CHOICES), proved=names_of(PROVED))]
    out += ["| part | lines | stands on | with what it needs of these | of its definitions tried |",
            "|---|---|---|---|---|"]
    part = {id(item): k for k, items in enumerate(parts) for item in items}
    shares = [(every - lines_of(left), every) for every, left in tried(parts)]
    for k, (title, about, places) in enumerate(PARTS):
        alone = reached(map(root, places), {})
        before = sorted({part[it] + 1 for it in alone} - {k + 1})
        out.append(f"| [{k + 1}. {title}](#{k + 1}-{title.lower().replace(' ', '-')}) | {lines_of(parts[k]):,} "
                   f"| {', '.join(map(str, before)) or 'nothing'} | {lines_of(alone.values()):,} | "
                   f"{share(shares[k:k + 1])} |")
    every = [item for items in parts for item in items]
    crates, files = {item.file.crate for item in every}, {item.file for item in every}
    out.append(f"| for the programs, without the last part | {sum(map(lines_of, parts[:-1])):,} | | | "
               f"{share(shares[:-1])} |")
    out.append(f"| all, in {len(files)} files of {len(crates)} crates | {lines_of(every):,} | | | {share(shares)} |")
    for k, (title, about, places) in enumerate(PARTS):
        roots = ", ".join(f"`{name.split()[-1]}` ({link_to(file, pathlib.Path(file).name)})" for file, _,
                          name in (place.partition(":") for place in places))
        out += [f"\n## {k + 1}. {title}\n", f"{about} It is for {roots}.\n", *table_of(parts[k])]
    return "\n".join(out) + "\n"


def signs(item):
    """The text of a definition with its own name and those of its variables taken out: two of one text say the same."""
    names, text = {}, []
    bound = not re.search(r"\b(record|data|mutual)\b", item.text.split(":")[0])
    for word in re.findall(r'"[^"]*"|[^\W\d][\w\'-]*(?:\.[^\W\d][\w\'-]*)*|\S',
                           "\n".join([item.text, *(it.text for it in behind_cases(item))])):
        first, _, rest = word.partition(".")
        found = None if word == item.name else meant(item.file, word, item.name)
        where, name = item.file.imports.get(first, ("", first))
        if word == item.name:
            text.append("·")
        elif found:
            text.append(f"{found.place()} {name} {rest}")
        elif where:
            text.append(f"{where} {name} {rest}")
        elif bound and re.match(r"[^\W\d]", first) and first not in KEYWORDS:
            text.append(f"{names.setdefault(first, len(names))} {rest}")
        else:
            text.append(word)
    return " ".join(text)


def all_definitions():
    for path in sorted(CRATES.glob("*/specs/*.antt")):
        seen = {id(item): item for item in page(path).items.values()}
        yield from (item for item in seen.values() if item.lines)


def spare(parts):
    """Definitions that stand twice, and those that no contract reaches."""
    part = {id(item): k + 1 for k, items in enumerate(parts) for item in items}
    known = reached([Item(page(path), "", range(len(page(path).lines)))
                     for path in sorted(CRATES.glob("*/src/**/*.rt"))], {})
    proofs = reached([Item(page(path), "", range(len(page(path).lines)))
                      for path in sorted(CRATES.glob("*/proofs/**/*.antt"))], known)
    same, heads = collections.defaultdict(list), collections.defaultdict(list)
    for item in all_definitions():
        if item.name not in CHOICES and not re.search(r"^\S+ = [\w\"]+$", item.text, re.M):
            same[signs(item)].append(item)
        if not re.search(r"\b(record|data)\b", item.text.split(":")[0]):
            heads[item.name, item.text.split("\n")[0]].append(item)

    def told(item):
        return f"{item.place()} {item.name}" + (f" (part {part[id(item)]})" if id(item) in part else "")

    print("the same text:")
    for items in same.values():
        if len(items) > 1:
            print(f"{len(items[0].lines):4} lines  " + ", ".join(map(told, items)))
    print("the same field of two records that must be believed:")
    fields = collections.defaultdict(list)
    for item in (item for items in parts for item in items):
        for field in re.findall(r"^  pub (\w+ : .*(?:\n      .*)*)", item.text, re.M):
            fields[" ".join(field.split())].append(item)
    for field, items in fields.items():
        if len(items) > 1 and len(field) > 60:
            print(f"            {field.split()[0]}: " + ", ".join(map(told, items)))
    print("the same name and type, and another text:")
    for items in heads.values():
        if len(items) > 1 and len({signs(item) for item in items}) > 1:
            print("            " + ", ".join(map(told, items)))
    for title, of in (("reached by no contract, but by proofs", proofs), ("reached by nobody", None)):
        left = [item for item in all_definitions() if id(item) not in known
                and (id(item) in proofs if of else id(item) not in proofs)]
        print(f"{title}: {len(left)}, {lines_of(left)} lines")
        for item in left:
            print(f"{len(item.lines):4} lines  {told(item)}")


def examples():
    """The files of worked examples, each as one item without its uses and without the lists of what is unfolded."""
    for path in sorted(CRATES.glob("*/proofs/*Examples.antt")):
        of, lines, inside = page(path), [], False
        for at, line in enumerate(of.lines):
            inside = re.match(r"(?:pub )?(?:use|unfolding) ", line) or (inside and line.startswith(" "))
            if not inside:
                lines.append(at)
        yield Item(of, "", lines)


def is_definition(item):
    return item.file.path.suffix == ".antt"


def tried(parts):
    """Of each part: what the worked examples reach of its definitions, as names are followed from them, and what they
    do not."""
    known = reached(examples(), {})
    for items in parts:
        yield lines_of(filter(is_definition, items)), [item for item in items if is_definition(item)
                                                       and id(item) not in known]


def main(words):
    chosen = (("One", "", (words[words.index("--from") + 1],)),) if "--from" in words else PARTS
    parts = in_parts(chosen)
    if "--spare" in words:
        spare(parts)
        return 0
    if "--tried" in words:
        for k, ((title, _, _), (every, left)) in enumerate(zip(chosen, tried(parts))):
            print(f"{k + 1}. {title}: {every - lines_of(left):,} of {every:,} lines of definitions; not reached: "
                  f"{len(left)}")
            for item in sorted(left, key=lambda it: (it.file.path, it.lines)):
                print(f"{len(item.lines):4} lines  {item.place()} {item.name}")
        return 0
    wrong = list(wrong_in(parts))
    if "--write" in words:
        PAGE.write_text(written(parts))
    if "--check" in words:
        same = PAGE.is_file() and PAGE.read_text() == written(parts)
        print("docs/BELIEVED.md: " + ("as it stands" if same else "not what house/believed.py --write writes"))
        print("\n".join(wrong), end="\n" if wrong else "")
        return 1 if wrong or not same else 0
    for k, ((title, _, _), items) in enumerate(zip(chosen, parts)):
        print(f"{k + 1}. {title}: {lines_of(items):,} lines, {len(items)} definitions, in "
              f"{len({item.file for item in items})} files")
        for file, here in in_order(items) if "--files" in words else ():
            print(f"{lines_of(here):5} of {len(file.lines):5}  {file.path.relative_to(ROOT)}")
        for item in sorted(items, key=lambda it: (it.file.path, it.lines)) if "--names" in words else ():
            print(f"{item.place()} {item.name} {len(item.lines)}")
    print(f"{lines_of([item for items in parts for item in items]):,} lines; besides of the library and the kit: "
          + ", ".join(f"{name} ({len(names)} names)" for name, names in sorted(OUTSIDE.items())))
    for text in wrong:
        print(f"not right: {text}")
    return 1 if wrong else 0


if __name__ == "__main__":
    sys.exit(main(sys.argv[1:]))
