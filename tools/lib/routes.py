"""What a page of live values answers: its files, the values, the stream of changes, the state for other programs, and the form."""
import asyncio
import functools
import hmac
import html
import json
import os
import queue
import secrets
import threading
import time

from lib.leaves import enum_name, for_script, typed, values_of
from lib.page_history import joined
from lib.page_limits import for_page, see_within
from lib.page_recipes import BadParts, element_bytes, is_recipes
from lib.page_record import Record, short
from lib.page_users import address_of
from lib.streams import Streams, event
from lib.type_texts import lower
from lib.typed_in import typed_bytes
from lib.values import NoValue
from lib.web import Answer, Bad, Web, plain
from lib.words import Ended

FOLDER = os.path.join(os.path.dirname(os.path.abspath(__file__)), "page")
FILES = {"/page.css": "text/css; charset=utf-8", "/icon.svg": "image/svg+xml",
         **{f"/{name}.js": "text/javascript; charset=utf-8" for name in ("page", "rows", "plot", "form", "words", "alarms", "log", "lang", "german", "draw", "recipe",
                                                                       "login")}}
JSON, METRICS, WRITE_SECONDS = "application/json", "text/plain; version=0.0.4; charset=utf-8", 20
# Of a history, more than two months.
MOST_MINUTES = 99999


def json_answer(said, status=200):
    return Answer(status, JSON, json.dumps(said, separators=(",", ":"), allow_nan=False).encode() + b"\n")


class Teller(threading.Thread):
    """Lines of standard output, written by a thread of their own: who reads them may be slow, gone or asleep, and nothing waits for that."""

    def __init__(self):
        super().__init__(daemon=True)
        self.lines = queue.Queue(1000)
        self.start()

    def run(self):
        while True:
            try:
                os.write(1, self.lines.get().encode(errors="replace"))
            except OSError:
                pass


@functools.cache
def teller():
    return Teller()


def say(line):
    """A line of standard output; it is lost where a thousand wait."""
    try:
        teller().lines.put_nowait(line + "\n")
    except queue.Full:
        pass


def read_file(name):
    with open(os.path.join(FOLDER, name), "rb") as file:
        return file.read()


class Routes:
    """`names` are the values that may be written, pairs of a port, None where it is not said, and a path; `state` is
    the file of what is kept; `guests` knows who asks; `history` is what was recorded before.
    """

    def __init__(self, watcher, names, hosts, state, guests, history=None):
        self.history, self.guests = history, guests
        self.record, self.loop = Record(state, self.tell, self.noticed), None
        self.watcher, self.names, self.streams, self.web = watcher, names, Streams(), Web(self.answer, hosts)
        self.start, self.token, self.began = secrets.token_hex(8), secrets.token_urlsafe(32), time.time()
        self.files = {path: read_file(path[1:]) for path in FILES}
        page, self.login_page = read_file("page.html").decode(), read_file("login.html")
        self.page = page.replace("{start}", self.start).replace("{history}", "yes" if history else "")
        self.gets = {"/": self.get_page, "/events": self.get_events, "/values.json": self.get_values, "/history.json": self.get_history,
                     "/healthz": self.get_health, "/metrics": self.get_metrics}
        self.posts = {"/write": self.post_write, "/acknowledge": self.post_acknowledge, "/recipe": self.post_recipe}
        if guests.has_login:
            self.posts["/logout"] = self.post_logout
        self.kept = {}

    def tell(self, kind, said):
        self.streams.send(event(kind, said))

    def noticed(self):
        """What is kept can't be kept, or can again."""
        self.loop.call_soon_threadsafe(lambda: self.tell("state", self.state()))

    def state(self):
        it = self.watcher.state()
        return {**it, "notices": self.record.faults() + it["notices"]}

    def publishing(self, loop):
        self.loop = loop
        self.record.start()

        def publish(kind, said):
            loop.call_soon_threadsafe(self.published, kind, said)
        return publish

    def published(self, kind, said):
        """What the watcher has to say goes to all browsers; a new table and the state to standard output, too."""
        table = self.watcher.table
        if kind == "values":
            self.streams.send(event("values", said))
            if table.words and said["g"] == table.generation:
                self.record.look(self.loop, table, [number for number, _ in said["c"]])
        elif kind == "table":
            self.record.begin(table)
            self.streams.send(self.table_event())
            say(f"{self.watcher.to}: {len(self.watcher.table.symbols)} symbols of version {self.watcher.table.version}")
        else:
            self.tell("state", self.state())
            if self.kept.get("why") != said["why"]:
                say(said["why"])
        self.kept["why"] = self.watcher.why

    async def answer(self, request, reader, writer):
        peer = peer_of(writer)
        if self.guests.has_login and request.path == "/login":
            return await self.guests.login(request, peer)
        if self.guests.has_login and request.path in (*FILES, "/healthz"):
            return self.got(request, "")
        try:
            by = await self.guests.who(request, peer)
        except Bad as bad:
            if bad.status != 401 or request.path != "/":
                raise
            return Answer(401, "text/html; charset=utf-8", self.login_page)
        if request.path in self.posts:
            return await self.posts[request.path](request, by)
        if request.path == "/history.json" and request.method in ("GET", "HEAD"):
            return await self.get_history(request)
        if request.path == "/events" and request.method in ("GET", "HEAD"):
            return await self.get_events(request, reader, writer)
        return self.got(request, by)

    def got(self, request, by):
        """What is there to be read, and takes no time."""
        if request.path not in self.gets and request.path not in FILES:
            return plain(404, "there is nothing here: / is the page, /values.json its values")
        if request.method not in ("GET", "HEAD"):
            return plain(405, "this is read only", "Allow: GET, HEAD\r\n")
        if request.path in FILES:
            return Answer(200, FILES[request.path], self.files[request.path])
        return self.get_page(by) if request.path == "/" else self.gets[request.path](request)

    def get_page(self, by):
        token = self.token if self.names or self.watcher.words.has_alarms() or self.guests.has_login else ""
        user = html.escape(by) if self.guests.has_login else ""
        page = self.page.replace("{token}", html.escape(token)).replace("{user}", user)
        return Answer(200, "text/html; charset=utf-8", page.encode())

    async def get_events(self, request, reader, writer):
        if request.method == "HEAD":
            return Answer(200, "text/event-stream", b"")
        if not await self.streams.place():
            return plain(503, "too many browsers follow this page")
        more = event("alarms", self.record.alarms.told()) + event("log", self.record.told_log())
        await self.streams.follow(reader, writer, self.table_event() + more)
        return None

    # The values.

    def once(self, what, make):
        """What `make` gives, made once for each state of the table."""
        table, watcher = self.watcher.table, self.watcher
        key = (table and (table.generation, table.order), watcher.is_live, watcher.why)
        if self.kept.get(what, (None,))[0] != key:
            self.kept[what] = key, make()
        return self.kept[what][1]

    def table_event(self):
        return self.once("table", lambda: event("table", self.told()))

    def told(self):
        """The whole table for a browser."""
        table, state = self.watcher.table, self.state()
        said = {"start": self.start, "now": round(1000 * time.time()), "state": state, "g": 0, "o": 0, "ports": [], "types": {}, "symbols": [],
                "values": [], "changed": [], "forms": [], "recipes": [], "words": []}
        if not table:
            return said
        with table.lock:
            types = {leaf.shape.text(): {"k": leaf.kind, "s": leaf.size, "v": values_of(leaf.shape)} for leaf in table.leaves}
            return {**said, "g": table.generation, "o": table.order, "ports": table.ports, "types": types, "words": [for_page(it) for it in table.all_words],
                    "symbols": [it.told() for it in table.symbols], "values": [for_script(it) for it in table.values],
                    "changed": [round(1000 * moment) for moment in table.changed], "forms": self.forms(table), "recipes": self.recipes(table)}

    def forms(self, table):
        recipes = {lower(it["n"]) for it in self.recipes(table)}
        found = [(path, port, table.find(path, port)) for port, path in self.names if lower(path) not in recipes]
        return [{"n": path, "port": it[0].port if it else port, "l": it[1] if it else None} for path, port, it in found]

    def get_values(self, _):
        return self.once("values", self.make_values)

    def make_values(self):
        table, state = self.watcher.table, self.watcher.state()
        server = {key: state[key] for key in ("live", "why", "to", "net", "version", "notices")}
        return json_answer({"server": server, "values": table.records() if table else []})

    async def get_history(self, request):
        table, name = self.watcher.table, request.query.get("name", "")
        port, minutes = request.query.get("port", ""), request.query.get("minutes", "10")
        found = table.find(name, int(port) if port.isascii() and port.isdigit() and len(port) < 6 else None) if table else None
        if not found:
            return json_answer({"why": "there is no plain value of this name: /history.json?name=Main.count"}, 404)
        if not (minutes.isascii() and minutes.isdigit() and len(minutes) < 6 and 1 <= int(minutes) <= MOST_MINUTES):
            return json_answer({"why": f"minutes is a number from 1 to {MOST_MINUTES}"}, 400)
        points, now = table.points(found[1]), round(1000 * time.time())
        name, more = table.leaves[found[1]].path, {}
        if self.history and int(minutes) > 10:
            asked = (self.watcher.net(), found[0].port, name, now - 60000 * int(minutes), now)
            try:
                points = joined(await self.loop.run_in_executor(None, self.history.points, *asked), points)
            except Ended as end:
                more = {"why": end.why}
        return json_answer({"name": name, "port": found[0].port, "now": now, "times": points[0], "values": points[1], **more})

    # The state for other programs.

    def get_health(self, _):
        return plain(200, "ok") if self.watcher.is_live else plain(503, self.watcher.why)

    def get_metrics(self, _):
        counts, table = self.watcher.counts, self.watcher.table
        lines = [*metric("up", "gauge", "1 while the server answers", [("", int(self.watcher.is_live))]),
                 *metric("version", "gauge", "version of the description", [("", table.version if table else 0)]),
                 *metric("browsers", "gauge", "browsers that follow the page", [("", len(self.streams.open))]),
                 *metric("http_requests_total", "counter", "answers of the page", [(f'{{status="{it}"}}', n) for it, n in sorted(self.web.answers.items())]),
                 *metric("cpu_seconds_total", "counter", "processor time of the page", [("", round(time.process_time(), 3))]),
                 *metric("start_time_seconds", "gauge", "when the page was started", [("", round(self.began, 3))])]
        for name, help_text in (("requests", "requests to the server"), ("samples", "samples of the server"), ("changes", "plain values that changed"),
                                ("connections", "connections to the server"), ("tables", "descriptions that the server had"),
                                ("written", "values that were written"), ("refused", "writes that the server refused")):
            lines += metric(f"{name}_total", "counter", help_text, [("", counts[name])])
        lines += metric("value", "gauge", "plain values that are numbers", self.numbers(table) if table else [])
        return Answer(200, METRICS, "".join(line + "\n" for line in lines).encode())

    @staticmethod
    def numbers(table):
        with table.lock:
            for symbol in table.symbols:
                for number in range(symbol.first, symbol.end):
                    leaf, value = table.leaves[number], table.values[number]
                    if leaf.kind != "text" and value is not None:
                        said = {"NaN": "NaN", "Infinity": "+Inf", "-Infinity": "-Inf"}.get(value, value)
                        yield f'{{name="{label(leaf.path)}",port="{symbol.port}"}}', int(said) if isinstance(said, bool) else said

    # The form, and the alarms.

    def guard(self, request):
        """Sees that this very page asks: a POST with its token, of a body of JSON; gives what the body says."""
        if request.method != "POST":
            raise Bad(405, "this is done by POST")
        if not hmac.compare_digest(request.headers.get("x-token", "").encode("latin-1"), self.token.encode()):
            raise Bad(403, "the token is not that of this page: load the page again")
        if request.headers.get("content-type", "").split(";")[0].strip().lower() != "application/json":
            raise Bad(415, "a value is sent as application/json")
        try:
            return json.loads(request.body)
        except (ValueError, RecursionError):
            raise Bad(400, "the body is no JSON") from None

    async def post_write(self, request, by):
        """Writes a value: of the names that may be written, asked for by this very page, and checked before the server is asked."""
        if not self.names:
            return plain(404, "nothing can be written here: the page was started without --write")
        path, port, text = asked_in(self.guard(request))
        table = self.watcher.table
        found = table.find(path, port) if table else None
        allowed = table and [it for it in (table.find(own, own_port) for own_port, own in self.names) if it]
        if not found or found not in allowed:
            return json_answer({"why": f"{path} is none of the values that may be written here"}, 403)
        leaf, was = table.leaves[found[1]], table.values[found[1]]
        try:
            given = see_within(leaf, table.words.get(found[1]), typed_bytes(leaf, text))
        except NoValue as fault:
            return json_answer({"why": str(fault)}, 400)
        status, why = await self.written(
            lambda it: it.write(leaf.path, found[0].port, lambda own, words: see_within(own, words, typed_bytes(own, text))))
        self.record.wrote(by=by, port=found[0].port, name=leaf.path, was=short(said_of(leaf, was)), value=short(said_of(leaf, typed(leaf, given))),
                          why="" if status == 200 else short(why))
        return json_answer({"why": why, "bytes": given.hex(), "value": for_script(typed(leaf, given))}, status)

    async def written(self, call):
        """The status of a write, and why it was not done."""
        try:
            return await asyncio.wait_for(asyncio.wrap_future(self.watcher.write(call)), WRITE_SECONDS)
        except asyncio.TimeoutError:
            return 504, "the server did not answer: whether the value was written is not known"

    async def post_recipe(self, request, by):
        """Writes a structure of an array that may be written, whole, once all of its values were looked at."""
        said = self.guard(request)
        texts = said.get("values") if isinstance(said, dict) else None
        if not isinstance(texts, dict) or not all(isinstance(it, str) for it in texts.values()) or not isinstance(said.get("index"), str):
            raise Bad(400, 'the body is {"name": NAME, "index": "[1]", "values": {PATH: TEXT, ..}}')
        table = self.watcher.table
        own = next((it for it in self.recipes(table) if it["n"] == said.get("name") and it["port"] == said.get("port")), None) if table else None
        if not own:
            raise Bad(403, "this is none of the arrays that may be written here")
        with table.lock:
            element = table.element(own["n"] + said["index"], own["port"])
        if not element:
            raise Bad(404, f"there is no {short(own['n'] + said['index'])}, or it is too long to be shown here")
        try:
            element_bytes(table, element, texts)
        except BadParts as bad:
            return json_answer({"why": str(bad), "parts": bad.faults}, 400)
        was = {path: table.values[number] for path, number in element.values.items()}
        status, why = await self.written(lambda it: it.write_element(element.path, own["port"], lambda now, found: element_bytes(now, found, texts)))
        before = {path: said_of(table.leaves[number], was[path]) for path, number in element.values.items() if path in texts}
        changed = [path for path in before if before[path] != texts[path]]
        self.record.wrote(by=by, port=own["port"], name=element.path, was=short(", ".join(f"{path} {before[path]}" for path in changed)),
                          value=short(", ".join(f"{path} {texts[path]}" for path in changed)), why="" if status == 200 else short(why))
        return json_answer({"why": why}, status)

    def recipes(self, table):
        """The arrays of structures that may be written."""
        return [{"n": it.name, "port": it.port} for it in table.symbols for port, path in self.names
                if lower(path) == lower(it.name) and port in (None, it.port) and is_recipes(it.shape)]

    async def post_logout(self, request, _):
        self.guard(request)
        return self.guests.logout(request)

    async def post_acknowledge(self, request, by):
        """Acknowledges alarms by their numbers."""
        said = self.guard(request)
        numbers = said.get("alarms") if isinstance(said, dict) else None
        if not isinstance(numbers, list) or not all(type(number) is int for number in numbers):
            raise Bad(400, 'the body is {"alarms": [NUMBER, ..]}')
        return json_answer({"count": self.record.acknowledge(set(numbers), by)})


def peer_of(writer):
    """The address of who asks."""
    peer = (writer.get_extra_info("peername") or ("?",))[0]
    return address_of(peer) or peer


def said_of(leaf, value):
    """A value in a log: the name of an enumeration's value, and a text as it is."""
    if leaf.kind == "enum" and value is not None:
        return enum_name(leaf.shape, value) or str(value)
    return {True: "TRUE", False: "FALSE", None: "?"}.get(value, str(value)) if not isinstance(value, (int, float)) or isinstance(value, bool) else str(value)


def asked_in(said):
    """The path, the port and the text of a write."""
    if not isinstance(said, dict) or not isinstance(said.get("name"), str) or not isinstance(said.get("value"), str):
        raise Bad(400, 'the body is {"name": NAME, "value": TEXT}')
    port = said.get("port")
    if port is not None and (type(port) is not int or not 1 <= port <= 65535):
        raise Bad(400, "the port is a number from 1 to 65535")
    return said["name"], port, said["value"]


def label(text):
    return text.replace("\\", "\\\\").replace('"', '\\"').replace("\n", "\\n")


def metric(name, kind, help_text, samples):
    return [f"# HELP ads_page_{name} {help_text}", f"# TYPE ads_page_{name} {kind}", *(f"ads_page_{name}{labels} {value}" for labels, value in samples)]
