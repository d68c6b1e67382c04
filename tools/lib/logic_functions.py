"""What a user's file says by `every`, `when`, `after` and `plant`: its functions, and the names that each uses."""
import inspect
import math
from typing import Any, Callable, Dict, List, Optional, TypeVar

from lib.durations import NoDuration, milliseconds_of
from lib.shown import shown

Called = TypeVar("Called", bound=Callable[..., Any])
# Seconds of a period; calls that may wait; runs after which a name that was not used is not read any more.
LEAST, GREATEST, MOST_LATER, KEPT = 0.001, 86400.0, 10000, 100
ANY, ODD = object(), (inspect.iscoroutinefunction, inspect.isgeneratorfunction, inspect.isasyncgenfunction)


class BadLogic(ValueError):
    """A use of `every`, `when`, `after` or `plant` that means nothing."""


def time_of(seconds: Any, what: str, least: float) -> float:
    is_number = isinstance(seconds, (int, float)) and not isinstance(seconds, bool)
    if not is_number or not least <= seconds <= GREATEST or not math.isfinite(seconds):
        raise BadLogic(f"{what} wants seconds from {least:g} to {GREATEST:g}, and {shown(repr(seconds))[1:-1]} is none")
    return float(seconds)


def takes_one(call: Callable, what: str, most: int = 1) -> bool:
    """Whether a function wants a parameter, of which it may want so many. One with a default is the function's own."""
    if not callable(call):
        raise BadLogic(f"{what} wants a function, and {shown(repr(call))[1:-1]} is none")
    name = getattr(call, "__name__", "it")
    if any(is_odd(call) for is_odd in ODD):
        raise BadLogic(f"{what} wants a plain function, and {name} is one with async or yield")
    try:
        given = inspect.signature(call).parameters.values()
    except (TypeError, ValueError):
        return False
    wanted = [it for it in given if it.default is it.empty and it.kind not in (it.VAR_POSITIONAL, it.VAR_KEYWORD)]
    if len(wanted) > most or any(it.kind == it.KEYWORD_ONLY for it in wanted):
        names, gets = ", ".join(it.name for it in wanted), ("nothing", "one value")[most]
        raise BadLogic(f"{what}: {name} wants {names}, and gets {gets}")
    return bool(wanted)


class Function:
    """A function of the file: of `every` it has a `period`, of `when` a name that is `watched`, of `after` neither."""

    def __init__(self, call: Callable, takes: bool, period: Optional[float] = None, watched="", value: Any = ANY):
        self.call, self.takes, self.period, self.watched, self.value = call, takes, period, watched, value
        code = getattr(inspect.unwrap(call), "__code__", None)
        self.name = getattr(call, "__name__", "the function").replace("<lambda>", "the lambda")
        self.file, self.line = (code.co_filename, code.co_firstlineno) if code else ("", 0)
        self.due, self.last = 0.0, None
        # The names in its text, which must be there; those that it has used, each with the run in which it did last;
        # how often the latter changed.
        self.named: List[str] = [watched] if watched else []
        self.touched: Dict[str, int] = {}
        self.runs, self.stamp = 0, 0
        # The names that it waits for; whether it has failed; whether what `when` waits for holds.
        self.missing: List[LookupError] = []
        self.is_over, self.holds = False, False

    def is_once(self) -> bool:
        return not self.period and not self.watched

    def where(self) -> str:
        return f"{self.file}:{self.line}: {self.name}" if self.file else self.name

    def used(self) -> List[str]:
        """The names that are read for it."""
        return list(self.touched) if self.runs else self.named

    def begin(self):
        """One run more. Names that it has not used for long are not read for it any more."""
        self.runs += 1
        if self.runs % KEPT == 0:
            old = [path for path, run in self.touched.items() if run < self.runs - KEPT]
            for path in old:
                del self.touched[path]
            self.stamp += bool(old)


class Book:
    """The functions of the file in their order, the calls that wait for their time, and the names in its text."""

    def __init__(self):
        self.functions: List[Function] = []
        self.later: List[Function] = []
        self.uses: list = []
        self.now: Callable[[], float] = lambda: 0.0

    def put_off(self, seconds: float, call: Callable):
        if len(self.later) >= MOST_LATER:
            raise BadLogic(f"after: {MOST_LATER} calls wait already")
        function = Function(call, False)
        function.due = self.now() + max(seconds, LEAST)
        self.later.append(function)


class Outside:
    """What `plant` has while no function runs."""

    @staticmethod
    def get(name):
        raise BadLogic("plant has values within functions alone; after(0, function) runs one at the start")

    def set(self, name, _):
        self.get(name)


class Plant:
    """The values of the server by name: `plant["Tank.level"]`. Within a function alone."""

    def __init__(self):
        self.image: Any = Outside()

    def __getitem__(self, name: str) -> Any:
        return self.image.get(name)

    def __setitem__(self, name: str, value: Any) -> None:
        self.image.set(name, value)

    def set(self, name: str, value: Any) -> None:
        """The same as plant[name] = value, where a lambda wants a call."""
        self.image.set(name, value)


BOOK, plant = Book(), Plant()


def every(seconds: float) -> Callable[[Called], Called]:
    """Runs a function each so many seconds. If it takes a parameter, it gets the seconds since its last call."""
    period = time_of(seconds, "every", LEAST)

    def added(call: Called) -> Called:
        BOOK.functions.append(Function(call, takes_one(call, "every"), period=period))
        return call
    return added


def when(name: str, value: Any = ANY) -> Callable[[Called], Called]:
    """Runs a function when a value changes, or becomes `value`. If it takes a parameter, it gets the new value."""
    if not isinstance(name, str) or not name or "*" in name or "?" in name:
        raise BadLogic(f"when wants the name of a symbol, and {shown(repr(name))[1:-1]} is none")

    def added(call: Called) -> Called:
        BOOK.functions.append(Function(call, takes_one(call, "when"), watched=name, value=value))
        return call
    return added


def after(seconds: float, call: Callable[[], Any]) -> None:
    """Runs a function once, so many seconds from now; if this is called outside of functions, from the start."""
    takes_one(call, "after", 0)
    BOOK.put_off(time_of(seconds, "after", 0), call)


def seconds_of(duration: Any) -> float:
    """The seconds of a value of type TIME: 90.0 for T#1m30s."""
    try:
        return float(milliseconds_of(duration) if isinstance(duration, str) else duration) / 1000.0
    except (NoDuration, TypeError):
        raise BadLogic(f"{shown(repr(duration))[1:-1]} is no duration, such as T#1m30s") from None
