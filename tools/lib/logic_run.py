"""A plant that runs: cycles of functions over the values of a server, whatever becomes of that, until it is stopped."""
import signal
import threading
import time
from typing import Any, List

from lib.client import Client, NewDescription, NoSymbol
from lib.codes import code_text
from lib.files import read_plant
from lib.flow_words import say
from lib.link import Refused
from lib.logic_file import fault_text, place_of
from lib.logic_functions import ANY, Book, Function
from lib.logic_image import Image, Interrupted
from lib.logic_times import Times
from lib.logic_watch import Watches
from lib.value_json import NoValueOf
from lib.watching import refusal
from lib.words import Ended

# Seconds between attempts to connect; of the longest wait; between looks at the version; refusals that are told.
PAUSES, LONGEST, LOOK, MOST_REFUSALS = (0.1, 0.2, 0.5, 1, 2), 0.2, 1.0, 50


class Running:
    def __init__(self, file: str, book: Book, server, plant_file: str, report: float):
        """`server` are the words of a Stream, the AMS port and a description; `plant_file` is where that was read."""
        self.file, self.book, self.plant_file, self.report = file, book, plant_file, report
        self.link, self.port, self.description = server
        self.stopped, self.still, self.faults = threading.Event(), 0.0, 0
        # The refused writes that were told, and why the description could not be read.
        self.refused, self.unread = set(), ""
        self.times, self.all = Times(), Times()
        self.watches = Watches(book.functions, say)
        # What calls wait for the next cycle; the moment from which on the server is waited for.
        self.client, self.image, self.calls, self.asked = None, None, [], 0.0

    def now(self) -> float:
        """The plant's time, which stands still while there is no server."""
        return time.monotonic() - self.still

    def run(self) -> int:
        """Runs until it is stopped; the status."""
        self.watch_stop()
        self.begin()
        print(f"running: {len(self.book.functions)} functions of {self.file}", flush=True)
        reported = time.monotonic()
        try:
            while not self.stopped.is_set():
                try:
                    self.step()
                except Exception as end:
                    self.gone(self.why(end))
                if self.report and time.monotonic() >= reported + self.report:
                    reported = time.monotonic()
                    say(f"{self.report:g} s: {self.told_times()}")
                if not (self.book.later or self.calls) and all(it.is_over for it in self.book.functions):
                    say(f"no function of {self.file} is left to run")
                    break
        finally:
            self.client.close()
            self.told_times()
            say(f"ended: {self.all.text()}, {self.faults} faults")
        return 3 if self.faults else 0

    def told_times(self) -> str:
        times, self.times = self.times, Times()
        self.all.add(times)
        return times.text()

    def watch_stop(self):
        """Ctrl-C and `kill` end it behind the cycle; the second one in the middle of a function."""
        def stop(*_):
            if self.stopped.is_set():
                raise KeyboardInterrupt
            self.stopped.set()
        for one in (signal.SIGTERM, signal.SIGINT):
            signal.signal(one, stop)

    # Connections and descriptions.

    def begin(self):
        """The first connection: if it can't be had, that ends the tool."""
        try:
            self.connect()
        except Refused as refused:
            raise Ended(self.why(refused), 8) from None
        self.look_at_compared()
        self.book.now = self.now
        begun = self.now()
        for function in self.book.later + self.book.functions:
            function.due += begun

    def connect(self):
        self.client = Client(self.link, self.port, self.description)
        self.fit()
        if self.watches.names:
            self.client.watch([it.name for it in self.watches.names.values()], self.watches)

    def why(self, end) -> str:
        if isinstance(end, Refused):
            return f"{self.link[0]} refuses port {self.port}: {code_text(end.code)}"
        return end.why if isinstance(end, Ended) else f"{self.link[0]} was not understood: {fault_text(end)}"

    def gone(self, why: str):
        """The connection is lost: all waits until there is one again."""
        began, attempt = min(self.asked, time.monotonic()), 0
        say(f"{why}; the functions wait")
        while not self.stopped.wait(PAUSES[min(attempt, len(PAUSES) - 1)]):
            attempt += 1
            self.client.close()
            try:
                self.read_description()
                self.connect()
            except Exception as end:
                if self.why(end) != why:
                    why = self.why(end)
                    say(f"{why}; the functions wait")
                continue
            say(f"connected again after {time.monotonic() - began:.1f} seconds")
            break
        self.still += time.monotonic() - began

    def renew(self):
        """A new description: names are looked up again."""
        self.read_description()
        self.client.description = self.description
        self.client.describe()
        say(f"{self.link[0]} has a new description, version {self.client.version}")
        self.fit()

    def read_description(self):
        """The description again; one that is refused, or can't be read, leaves the last one."""
        try:
            self.description, self.unread = read_plant(self.plant_file) if self.plant_file else None, ""
        except Ended as end:
            if end.why != self.unread:
                self.unread = end.why
                say(f"{end.why}; the last description that was read holds")

    # Names.

    def fit(self):
        """Looks whether what functions use is there; those that lack a name wait for it."""
        self.image = Image(self.client, self.told_refusal)
        for function in self.book.functions:
            if not function.is_over:
                self.look_at(function)

    def look_at(self, function: Function):
        missing = []
        for path in dict.fromkeys([*function.named, *function.touched]):
            try:
                self.client.find(path)
            except NoSymbol as fault:
                missing.append(fault)
        was, function.missing = function.missing, missing
        if missing and [it.path for it in was] != [it.path for it in missing]:
            more = f", and {len(missing) - 1} more names" if missing[1:] else ""
            say(f"{function.where()} waits: {missing[0]}{more}")
        elif was and not missing:
            function.due, function.last = self.now(), None
            say(f"{function.where()} runs again: all its names are there")
        if function.watched and function.value is not ANY and not missing:
            self.look_at_value(function)

    def look_at_value(self, function):
        try:
            self.client.find(function.watched).bytes_of(function.value)
        except NoValueOf as fault:
            self.over(function, f"{function.file}:{function.line}", f"when: {fault}")

    def look_at_compared(self):
        """What is compared with the name of a value, and is only a number here, since nobody tells the names."""
        for use in self.book.uses:
            if use.verb == "compare" and isinstance(use.value, str):
                try:
                    if self.client.find(use.name).is_bare_number():
                        say(f"{self.file}:{use.line}: {use.name} is a number, and never {use.value!r}: --plant FILE, a "
                            "description that the server agrees with, tells the names of an enumeration")
                except NoSymbol:
                    pass

    # Cycles.

    def step(self):
        """Waits for what is next, and runs it."""
        try:
            self.calls += self.watches.due(self.client)
            wait = 0.0 if self.calls else max(self.wait_for(), 0.0)
            self.asked = time.monotonic() + wait
            self.client.wait(wait)
            self.calls += self.watches.due(self.client)
            self.calls = [it for it in self.calls if not it[0].is_over and not it[0].missing]
            now = self.now()
            later = sorted((it for it in self.book.later if it.due <= now), key=lambda it: it.due)
            due = [it for it in self.ready() if it.due <= now]
            if self.calls or later or due:
                self.cycle(later, due)
            if self.client.doubtful or time.monotonic() > self.client.checked + LOOK:
                self.asked = time.monotonic()
                self.client.check()
        except NewDescription:
            self.renew()

    def ready(self) -> List[Function]:
        return [it for it in self.book.functions if it.period and not it.is_over and not it.missing]

    def wait_for(self) -> float:
        """The seconds until a function is due."""
        now = self.now()
        return min([LONGEST] + [it.due - now for it in self.ready() + self.book.later])

    def cycle(self, later: List[Function], due: List[Function]):
        """Runs functions between a reading of all that they use and a writing of what they changed."""
        self.asked = time.monotonic()
        self.image.begin(list(dict.fromkeys([it for it, _ in self.calls] + later + due)))
        try:
            while self.calls:
                self.call(*self.calls[0])
                self.calls.pop(0)
            for function in later:
                self.call(function, None)
                self.book.later.remove(function)
            for function in due:
                begun = self.now()
                self.call(function, function.period if function.last is None else begun - function.last)
                self.next_due(function, begun)
        except NewDescription:
            # (what the functions before it have written stands)
            self.image.finish()
            raise
        self.image.finish()

    def next_due(self, function, begun):
        """The next moment of a function; those that passed meanwhile are left out."""
        late, left_out = begun - function.due, int((self.now() - function.due) / function.period)
        function.last, function.due = begun, function.due + (1 + left_out) * function.period
        self.times.take(function, late, left_out)

    def call(self, function: Function, argument: Any):
        """One call. What a function that fails has written is taken back, and so are the calls that it put off."""
        image, before, fault = self.image, len(self.book.later), None
        if function.is_over or function.missing:
            return
        image.enter(function)
        try:
            function.call(argument) if function.takes else function.call()
        except (KeyboardInterrupt, SystemExit, Interrupted) as end:
            if not isinstance(end, Interrupted):
                raise
        except BaseException as its:
            fault = its
        finally:
            image.leave()
        if fault or image.broken:
            image.take_back()
            del self.book.later[before:]
        if image.broken:
            raise image.broken
        if isinstance(fault, NoSymbol) and not function.is_once():
            function.touched[fault.path] = function.runs
            self.look_at(function)
        if fault and not function.missing:
            self.over(function, place_of(fault, self.file, function.where()), fault_text(fault))

    def over(self, function: Function, place: str, why: str):
        function.is_over, self.faults = True, self.faults + 1
        ends = "" if function.is_once() else f"; {function.name} does not run any more"
        say(f"{place}: {function.name}: {why}{ends}")

    def told_refusal(self, place, code):
        """A write that is refused is told once."""
        if (place.path, code) not in self.refused and len(self.refused) < MOST_REFUSALS:
            self.refused.add((place.path, code))
            more = "; no more refusals are told" * (len(self.refused) == MOST_REFUSALS)
            say(f"{place.path}: {refusal(code, place.path, self.link[2])}{more}")
