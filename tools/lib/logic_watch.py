"""What `when` waits for: values as notifications bring them, and the functions that they call."""
from typing import Any, List, Tuple

from lib.client import Client, NoSymbol
from lib.logic_functions import ANY, Function
from lib.type_texts import lower
from lib.value_json import NoValueOf


class Watched:
    """A name with its functions; `seen` are the last bytes that came, which stand over a loss of the connection."""

    def __init__(self, name: str):
        self.name, self.functions, self.seen = name, [], None


class Watches:
    """The sink of a flow_session.Session. What comes is queued, since it may come in the middle of a function."""
    frames = False

    def __init__(self, functions: List[Function], say):
        self.names, self.queue, self.say = {}, [], say
        for function in functions:
            if function.watched:
                watched = self.names.setdefault(lower(function.watched), Watched(function.watched))
                watched.functions.append(function)

    def begin(self, knowns):
        return [self.names.get(lower(known.name)) for known in knowns]

    def take(self, _, pairs):
        self.queue += [(item.own, data) for item, data in pairs if item.own]

    @staticmethod
    def ended(item, why):
        """A name is gone, which who looks at the names of all functions tells."""

    @staticmethod
    def missing(words):
        """(as above)"""

    def refused(self, known, why):
        self.say(f"{known.name}: {why}: functions that wait for it do not run")

    def due(self, client: Client) -> List[Tuple[Function, Any]]:
        """The functions that are called by what came, in its order, each with the value."""
        queue, self.queue, found = self.queue, [], []
        for watched, data in queue:
            try:
                place = client.find(watched.name)
            except NoSymbol:
                continue
            # (what came under another description than the one that is known)
            if len(data) != place.size:
                continue
            is_first = watched.seen is None or len(watched.seen) != len(data)
            is_other, watched.seen = watched.seen != data, data
            for function in (it for it in watched.functions if not it.is_over):
                held, function.holds = function.holds, holds(client, place, data, function.value)
                is_called = is_other and function.holds and (function.value is ANY or not held)
                if is_called and not is_first:
                    found.append((function, place.read(data, 0)))
        return found


def holds(client: Client, place, data: bytes, value: Any) -> bool:
    """Whether bytes of a place are a value: all parts that it names are."""
    try:
        parts = place.bytes_of(value) if value is not ANY else []
    except NoValueOf:
        return False
    for path, wanted in parts:
        part = client.find(path)
        if part.read(data, part.at - place.at) != part.read(wanted, 0):
            return False
    return True
