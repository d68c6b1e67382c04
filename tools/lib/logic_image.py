"""The values that functions see: the server's at the beginning of a cycle, and what functions have written since."""
from typing import Any, Callable, Dict, List, Optional, Tuple

from lib.client import Client, NewDescription, NoSymbol, Place
from lib.link import Refused
from lib.logic_functions import BadLogic, Function, Outside, plant
from lib.value_json import NoValueOf
from lib.words import Ended

# Symbols that are read with one that is used for the first time, and how many bytes each may have; bytes of any symbol.
AHEAD, SMALL, MOST_PLANS, MOST_SIZE = 400, 1000, 64, 16777216


class Interrupted(BaseException):
    """The connection is lost, or the description another one, in the middle of a function, which has not failed."""


class Cell:
    """The bytes of a symbol; the last cycles in which some of them were read or written, and in which all were read."""

    def __init__(self, place: Place):
        self.place, self.data, self.used, self.whole = place, bytearray(place.size), 0, 0


class Item:
    """A name that is used, and where its bytes stand; `cycle` is the last one in which these are known."""

    def __init__(self, place: Place, own: Cell):
        self.place, self.own, self.cell, self.at, self.end = place, own, own.data, place.at, place.end
        self.read, self.pack, self.cycle = place.read, place.pack, 0

    def data(self) -> bytes:
        return bytes(self.cell[self.at:self.end])


class Image:
    def __init__(self, client: Client, told: Callable[[Place, int], None]):
        """`told(place, code)` is called for each write that is refused."""
        self.client, self.told, self.cycle = client, told, 0
        # Names as they are spelled, the bytes of symbols, and what the cycles of the same functions read.
        self.items: Dict[str, Item] = {}
        self.cells: Dict[str, Cell] = {}
        self.plans: Dict[tuple, tuple] = {}
        # What is written in this cycle, with the bytes of before where these are known.
        self.dirty: Dict[Item, Optional[bytes]] = {}
        # The function that runs, what it uses, how to take back what it has written, and what broke while it ran.
        self.function: Optional[Function] = None
        self.touched: Dict[str, int] = {}
        self.run = 0
        self.undo: List[Tuple[Item, bytes, bool, int]] = []
        self.broken: Optional[Exception] = None

    def item(self, path: str) -> Item:
        """The item of a name; all spellings of a name have one."""
        item = self.items.get(path)
        if item is None:
            place = self.client.find(path)
            item = self.items.get(place.path)
            if item is None:
                item = self.items[place.path] = Item(place, self.cell(place.symbol.name))
            self.items[path] = item
        return item

    def cell(self, name: str) -> Cell:
        if name not in self.cells:
            place = self.client.find(name)
            if place.size > MOST_SIZE:
                raise BadLogic(f"{name} has {place.size} bytes, and no more than {MOST_SIZE} are read")
            self.cells[name] = Cell(place)
        return self.cells[name]

    # Cycles.

    def begin(self, functions: List[Function]):
        """Reads all that these functions use, in one sum where it fits."""
        using = [it for it in functions if it.used()]
        key = tuple((id(it), it.stamp, it.runs == 0) for it in using)
        if key not in self.plans:
            if len(self.plans) >= MOST_PLANS:
                self.plans.clear()
            items = self.used(using)
            # (the functions are kept with it, so that no other has the id of one)
            self.plans[key] = items, self.client.reading([it.place for it in items]), using
        items, reading, _ = self.plans[key]
        self.cycle += 1
        self.dirty.clear()
        for item, data in zip(items, reading.take() if items else ()):
            if data is not None:
                item.cell[item.at:item.end] = data
                item.cycle = item.own.used = self.cycle

    def used(self, functions) -> List[Item]:
        found: Dict[Item, None] = {}
        for function in functions:
            for path in function.used():
                try:
                    found[self.item(path)] = None
                except (NoSymbol, BadLogic):
                    pass
        return list(found)

    def finish(self):
        """Writes what the functions have changed."""
        parts = []
        for item, before in self.dirty.items():
            data = item.data()
            if data != before:
                parts.append((item.place, data))
        self.dirty.clear()
        if parts:
            self.client.write(parts, self.told)

    # Runs of functions.

    def enter(self, function: Function):
        function.begin()
        self.function, self.touched, self.run, self.broken = function, function.touched, function.runs, None
        self.undo.clear()
        plant.image = self

    @staticmethod
    def leave():
        plant.image = Outside()

    def take_back(self):
        """What the function has written in this run is not written."""
        while self.undo:
            item, data, is_first, cycle = self.undo.pop()
            item.cell[item.at:item.end] = data
            item.cycle = cycle
            if is_first:
                del self.dirty[item]

    def get(self, path: str) -> Any:
        item = self.items.get(path) or self.sought(path)
        if item.cycle != self.cycle:
            self.fetch(item)
        if path not in self.touched:
            self.function.stamp += 1
        self.touched[path] = self.run
        return item.read(item.cell, item.at)

    def set(self, path: str, value: Any):
        item = self.items.get(path) or self.sought(path)
        data = item.pack(value)
        if data is not None:
            return self.put(item, path, data)
        try:
            parts = item.place.bytes_of(value)
        except NoValueOf as fault:
            raise BadLogic(str(fault)) from None
        for part, data in parts:
            self.put(self.items.get(part) or self.sought(part), part, data)

    def sought(self, path):
        """The item of a name that is new here; a NoSymbol where the server does not have it."""
        if not isinstance(path, str):
            raise BadLogic(f"plant wants the name of a symbol, as plant[\"Tank.level\"], and {path!r} is none")
        return self.item(path)

    def put(self, item: Item, path: str, data: bytes):
        cell, at, end, dirty = item.cell, item.at, item.end, self.dirty
        before, is_first = bytes(cell[at:end]), item not in dirty
        if is_first:
            dirty[item] = before if item.cycle == self.cycle else None
        self.undo.append((item, before, is_first, item.cycle))
        cell[at:end] = data
        item.cycle = item.own.used = self.cycle
        if path not in self.touched:
            self.function.stamp += 1
        self.touched[path] = self.run

    def fetch(self, item: Item):
        """Reads a name that this cycle has not read, under what was written in it, and the symbols behind its own, to
        which a loop may come next."""
        if item.own.whole != self.cycle:
            cells = self.ahead_of(item)
            places = [] if item.own in cells else [item.place]
            try:
                found = self.client.reading(places + [it.place for it in cells]).take()
            except (Ended, Refused, NewDescription) as fault:
                self.broken = fault
                raise Interrupted from None
            if found[0] is None:
                raise BadLogic(f"the server refuses to read {item.place.path}")
            if places:
                self.put_under(item, found.pop(0))
            for cell, data in zip(cells, found):
                if data is not None:
                    cell.data[:] = data
                    cell.whole = cell.used = self.cycle
        item.cycle = self.cycle

    def ahead_of(self, item: Item) -> List[Cell]:
        """The small symbols from that of a name on, of which this cycle has read and written nothing: its own first."""
        found = []
        for name in self.client.names_from(item.place.symbol.name, AHEAD) if item.own.place.size <= SMALL else ():
            if self.client.find(name).size <= SMALL and self.cell(name).used != self.cycle:
                found.append(self.cell(name))
        return found

    def put_under(self, item: Item, data: bytes):
        written = [(it, it.data()) for it in self.dirty if it.own is item.own]
        item.cell[item.at:item.end] = data
        for it, own in written:
            it.cell[it.at:it.end] = own
        item.own.used = self.cycle
