#!/usr/bin/env python3
"""Prints the public items of the crates that nothing names: functions, types, traits and constants.

    python3 house/unused.py [PAPER..]     at the top of a clone; what a PAPER prints (`Core::connection`) is left out

An item is named where code names it: not in a comment, a clause, a `use`, in its own body, nor, of a type or a trait,
in its own impl blocks, nor, of a method, where one of its name passes the call on. A function without `self` is named
by its type (`Octets::new`), one outside of a type in its own crate, or in files that name its crate; a name of a method
that two types share is printed only where neither is named. Laws, which have no body, are called by nobody, and are
left out. What tests alone name is told as such. The status is 0 where nothing is printed.
"""
import collections
import pathlib
import re
import sys

CLAUSE = re.compile(r"^\s*(//|ghost\b|requires\b|ensures\b|mod\b)|[≡→λ×⊎↔∷≤]")
USE = re.compile(r"^\s*(pub(\(crate\))? )?use\b")
FUNCTION = re.compile(r"^( *)(pub )?(?:const )?(?:unsafe )?fn (\w+)")
TYPE = re.compile(r"^pub (struct|enum|trait|const|type) (\w+)")
BLOCK = re.compile(r"^(?:pub )?(impl|trait)\b(?:<[^{]*?>)? *(?:(?:\w+::)*(\w+)(?:<[^{]*?>)? for )?&?(?:mut "
                   r")?(?:\w+::)*(\w+)?")
Item = collections.namedtuple("Item", "kind crate name owner path line is_method")


class Code:
    """The lines of code of a file: each with its number, the function that it stands in, and the names of its block."""

    def __init__(self, path):
        self.path, self.crate, self.lines, self.items = path, path.parts[1], [], []
        self.is_test = "test" in path.stem
        self.text = path.read_text()
        self.read(self.text.split("\n"))

    def read(self, lines):
        block, function, is_public, in_tests, in_use = (), "", False, False, False
        for at, line in enumerate(lines, 1):
            in_tests = in_tests or line.startswith(("#[cfg(test)]", "mod tests {"))
            if not line.startswith((" ", ")", "}", "//", "#")) and (found := BLOCK.match(line)):
                block, is_public = tuple(filter(None, found.groups()[1:])), line.startswith("pub trait")
            elif found := TYPE.match(line):
                block = (found[2],)
                self.items.append(Item(found[1], self.crate, found[2], "", self.path, at, False))
            if found := FUNCTION.match(line):
                function = found[3]
                if (found[2] or is_public) and not is_law(lines, at - 1) and function != "main":
                    owner = block[-1] if found[1] and block else ""
                    is_method = bool(re.search(r"\bself\b", " ".join(lines[at - 1:at + 3]).split("->")[0]))
                    self.items.append(Item("fn", self.crate, function, owner, self.path, at, is_method))
            is_use = in_use or bool(USE.match(line))
            in_use = is_use and ";" not in line
            if not is_use and not CLAUSE.search(line):
                self.lines.append((in_tests or self.is_test, function, block, line.split(" //")[0]))
            if line == "}":
                block, function, is_public = (), "", False


def is_law(lines, at):
    """Whether the body of a function is empty."""
    rest = "\n".join(lines[at:at + 60]).split("\n}")[0].split("\n    }")[0]
    return "\n{}" in rest or rest.rstrip().endswith("{")


def named_in(item, code):
    """The lines of a file that name an item: whether each is a test's."""
    form = rf"\b{item.name}\b"
    if item.kind == "fn" and item.owner and not item.is_method:
        form = rf"\b(?:{item.owner}|Self)(?:::<[^(]*>)?::{item.name}\b"
    elif item.kind == "fn" and not item.owner and code.crate != item.crate and f"{item.crate}::" not in code.text:
        return
    for is_test, function, block, line in code.lines:
        is_own = item.name in block
        if item.kind == "fn":
            is_own = function == item.name and (item.is_method or code.path == item.path)
        if not is_own and re.search(form, line):
            yield is_test


def main(papers):
    printed = " ".join(pathlib.Path(paper).read_text() for paper in papers)
    files = [Code(path) for path in sorted(pathlib.Path("crates").glob("*/src/**/*.rt"))]
    count, having = 0, collections.defaultdict(list)
    for code in files:
        for word in set(re.findall(r"\w+", code.text)):
            having[word].append(code)
    for item in [item for code in files for item in code.items]:
        found = {it for code in having[item.name] for it in named_in(item, code)}
        if False in found or re.search(rf"\b{item.name}\b", printed):
            continue
        count += 1
        name = f"{item.owner}::{item.name}" if item.owner else item.name
        print(f"{item.kind} {name}  {item.path}:{item.line}" + ("  (tests alone name it)" if found else ""))
    print(f"{count} public items that nothing names")
    return 1 if count else 0


if __name__ == "__main__":
    sys.exit(main(sys.argv[1:]))
