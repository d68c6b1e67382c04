"""What is wrong with the names and values in a user's file, by a description alone."""
import difflib
import re
from typing import List, NamedTuple, Optional, Tuple

from lib.files import read_bytes, read_plant, read_text
from lib.layout import Shape
from lib.logic_source import NOTHING, OPEN, Use, tree_of, uses_in
from lib.named_values import given_parts
from lib.near import meant_in
from lib.shown import shown
from lib.type_texts import lower
from lib.value_json import NoValueOf
from lib.verdict import verdict_on

MOST_PATHS, MOST_MATCHES, MOST_NAMES = 200000, 50, 5000
INDEXES = re.compile(r"\[[^\]]*\]")


class Path(NamedTuple):
    """A symbol or a part of one, of an array the first element; its key is in lower case, and has the index 0 there."""
    key: str
    path: str
    shape: Shape
    symbol: str


def is_about(key: str, fixed: str) -> bool:
    return key == fixed or key.startswith((fixed + ".", fixed + "["))


def zeros(path: str) -> str:
    """A path with the index 0 in place of each number."""
    return INDEXES.sub(lambda it: re.sub(r"-?[0-9]+", "0", it[0]), path)


def fits(pieces: List[str], key: str) -> bool:
    """Whether a name consists of these pieces in their order, and of anything between them."""
    first, *rest = pieces
    last, at = rest.pop(), len(first)
    if not key.startswith(first) or not key.endswith(last) or len(key) < len(first) + len(last):
        return False
    for piece in rest:
        found = key.find(piece, at, len(key) - len(last))
        if found < 0:
            return False
        at = found + len(piece)
    return True


class Described:
    """A port of a description; `fixed` are the symbols that nobody may write, in lower case."""

    def __init__(self, file: str, number: int):
        self.file, self.port, self.listed = file, read_plant(file).port(number), []
        ports = verdict_on(read_bytes(file)).document["port"]
        symbols = [it for port in ports if port["port"] == number for it in port["symbol"]]
        self.fixed = {lower(it["name"]) for it in symbols if it["read_only"]}

    def fault_of(self, use: Use) -> Optional[str]:
        """Why a use is wrong, else nothing."""
        if OPEN in use.name:
            return self.fault_of_pattern(use)
        part = self.port.find(use.name) if use.name.isascii() else None
        if part is None:
            right = meant_in(self.port, use.name) if use.name.isascii() else ""
            return f"{self.file} has no symbol {shown(use.name)}{right}"
        is_fixed = any(is_about(lower(part.path), it) for it in self.fixed)
        return self.fault_of_value(use, part.path, part.shape, is_fixed)

    @staticmethod
    def fault_of_value(use, path, shape, is_fixed):
        if use.verb == "write" and is_fixed:
            return f"{path} is read-only: nobody can write it"
        # What is compared with an enumeration must be a value of it, which else never comes; another value may be any.
        named = shape.named()
        is_name = bool(named and named.base and isinstance(use.value, str))
        if use.value is not NOTHING and (is_name or use.verb != "compare"):
            try:
                given_parts(path, shape, use.value)
            except NoValueOf as fault:
                return str(fault)
        return None

    # Names of which parts are put in while the file runs.

    def paths(self) -> List[Path]:
        """All symbols and their parts; none where these are too many."""
        symbols = self.port.symbols.items() if not self.listed else ()
        left = [Path(key, part.path, part.shape, key) for key, part in symbols]
        while left and len(self.listed) < MOST_PATHS:
            it = left.pop()
            self.listed.append(it)
            named = it.shape.named()
            if it.shape.ends:
                key = f"[{','.join('0' for _ in it.shape.ends)}]"
                path = f"[{','.join(str(low) for low, _ in it.shape.ends)}]"
                left.append(Path(it.key + key, it.path + path, it.shape.of_element(), it.symbol))
            for own in named.members if named else ():
                left.append(Path(f"{it.key}.{lower(own.name)}", f"{it.path}.{own.name}", own.shape, it.symbol))
        return self.listed if len(self.listed) < MOST_PATHS else []

    def fault_of_pattern(self, use: Use) -> Optional[str]:
        """Why no name that may come is right."""
        text = zeros(use.name.lower())
        found = [it for it in self.paths() if fits(text.split(OPEN), it.key)][:MOST_MATCHES]
        if not found:
            return self.why_none(use.name, text) if self.paths() else None
        whys = [self.fault_of_value(use, use.name, it.shape, it.symbol in self.fixed) for it in found]
        return whys[0] if all(whys) else None

    def why_none(self, name, text):
        bare = {re.sub("[0-9]+", "", it.key): it.path for it in self.paths()}
        near = difflib.get_close_matches(re.sub("[0-9]+", "", text.replace(OPEN, "")), list(bare)[:MOST_NAMES], 1)
        return f"{self.file} has no symbol {shown(name)}" + (f"; is it one as {bare[near[0]]}?" if near else "")


def findings(file: str, plant_file: str, number: int) -> Tuple[List[str], int]:
    """A line for each thing that is wrong, and how many names were looked at."""
    described, uses = Described(plant_file, number), uses_in(tree_of(read_text(file), file))
    faults = [(use, described.fault_of(use)) for use in uses]
    lines = [f"{file}:{use.line}: {why}" for use, why in faults if why]
    return list(dict.fromkeys(lines)), len({use.name.lower() for use in uses})
