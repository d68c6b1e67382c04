"""What becomes of each persistent value under a new description: kept, moved, converted or left out; and what is to
be set again.
"""
import re
from typing import NamedTuple, Optional

from lib.fits import Fit
from lib.kept import differs
from lib.layout import Shape
from lib.saved import Restoring, Saved, bar_of, begun, rights_of, spelled, symbols_of
from lib.type_texts import lower
from lib.value_json import text_of
from lib.value_parts import Part, joined

ENDS = "its handles are refused with 0x711, its notifications end"
INDEX = re.compile(r"\[[-0-9,]+\]")


class Fate(NamedTuple):
    """The fate of a value; `parts` are set again behind the change, and `left` are triples of a path, why it stays
    behind and the value.
    """

    kind: str
    saved: Saved
    shape: Optional[Shape]
    why: str
    parts: list
    left: list
    rounded: list

    def key(self):
        return self.saved.port, lower(self.saved.name)

    def is_known(self):
        return self.saved.data is not None

    def said(self):
        """The fate in words."""
        where = f"{self.saved.name} of port {self.saved.port}"
        if self.kind == "back":
            return f"{where}: its value of before is set again"
        fits = "" if self.is_known() else ", where it fits"
        return f"{where}: {self.why}; its value is set again by name{fits}; {ENDS}"

    def losses(self):
        """What stays behind, in words: what differs in its indexes alone is one sentence."""
        found = {}
        for path, why, value in self.left:
            found.setdefault((INDEX.sub("[..]", path), why), []).append((path, value))
        where = f"of port {self.saved.port}"
        for (paths, why), these in found.items():
            path, value = these[0]
            if len(these) > 1:
                yield f"{paths} {where}, {len(these)} values: {why}"
            else:
                said = text_of(value)
                yield f"{path} {where}: {why}" + (f"; it has {said}" if self.is_known() and len(said) <= 80 else "")


class Fates:
    """The fates of saved values under the description `after`. `me` is who sets them again, where that is known;
    `before` the description of the values, and `earlier` the files that were written before it came, by ports: a way
    back, which sets what these have, but for what was written since.
    """

    def __init__(self, saved, before, after, me=None, earlier=None):
        self.after, self.me, self.earlier = after, me, earlier or {}
        self.symbols, self.olds = symbols_of(after), symbols_of(before)
        self.sets = (
            {port: Restoring(kept, before).settable(kept.marks["me"]) for port, kept in self.earlier.items()}
            if before
            else {}
        )
        self.before, self.listed = before, [self.fate(it) for it in saved]
        self.listed += self.back({fate.key() for fate in self.listed})

    def fate(self, it):
        new = self.symbols.get((it.port, lower(it.name)))
        if new is None:
            ports = [port["port"] for port in self.after.document["port"]]
            why = (
                "the new description has no such symbol" if it.port in ports else "the new description has no such port"
            )
            return Fate("left out", it, None, why, [], [(it.name, f"{why}; {ENDS}", self.value(it))], [])
        shape, old = self.after.shapes[new], self.olds.get((it.port, lower(it.name)))
        why = differs(it.shape, shape)
        if why is None:
            is_moved = old and (old["area"], old["offset"]) != (new["area"], new["offset"])
            return Fate("moved" if is_moved else "kept", it, shape, "", [], [], [])
        fit = Fit(it.data if it.data is not None else bytes(it.shape.size()), self.base(it, old))
        fit.take(new["name"], it.shape, shape)
        parts, bar = self.laid_over(it, new, shape, sorted(fit.parts, key=lambda part: part.at)), self.bar(new)
        left = fit.left + ([(new["name"], bar, self.value(it))] if bar and parts else [])
        if not parts or bar:
            left = left or [(new["name"], f"{why}; {ENDS}", self.value(it))]
        return Fate("converted" if parts and not bar else "left out", it, shape, why, parts, left, fit.rounded)

    @staticmethod
    def value(it):
        return spelled(it.shape, it.data) if it.data is not None else None

    def base(self, it, old):
        """The bytes with which a value began behind the change that is taken back; None where that is not known."""
        kept = self.earlier.get(it.port)
        if kept is None or old is None or it.data is None or lower(it.name) not in kept.data:
            return None
        data = bytearray(begun(old, it.shape))
        for part in self.sets[it.port].get(old["name"], []):
            data[part.at : part.at + len(part.data)] = part.data
        return bytes(data) if len(data) == len(it.data) else None

    def laid_over(self, it, new, shape, parts):
        """The parts of a value, over the whole one of before where there is one."""
        kept = self.earlier.get(it.port)
        data = kept.data.get(lower(it.name)) if kept else None
        if data is None or len(data) != shape.size():
            return joined(new["name"], shape, parts)
        whole = bytearray(data)
        for part in parts:
            whole[part.at : part.at + len(part.data)] = part.data
        return [Part(new["name"], shape, 0, bytes(whole))]

    def bar(self, symbol):
        return bar_of(symbol, self.me, rights_of(self.after, self.me))

    def back(self, seen):
        """The fates of what the values do not have any more, and an earlier file has."""
        for port, kept in self.earlier.items():
            for name, data in kept.data.items():
                new, old = self.symbols.get((port, name)), self.olds.get((port, name))
                if (port, name) in seen or new is None or not new["persistent"]:
                    continue
                shape = self.after.shapes[new]
                is_alive = old and self.before and differs(self.before.shapes[old], shape) is None
                if is_alive or len(data) != shape.size():
                    continue
                saved, bar = Saved(port, new["name"], shape, data), self.bar(new)
                left = [(new["name"], bar, spelled(shape, data))] if bar else []
                yield Fate(
                    "left out" if bar else "back", saved, shape, "", [Part(new["name"], shape, 0, data)], left, []
                )

    def restored(self):
        """What is to be set again, by ports: the values by their paths."""
        found = {}
        for fate in self.listed:
            for part in fate.parts:
                found.setdefault(fate.saved.port, {})[part.path] = spelled(part.shape, part.data)
        return found
