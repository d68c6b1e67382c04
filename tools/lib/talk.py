"""A script of `ads replay` with its words: each line as words, what the script says for it, and what the log of the program answers to it."""
import copy
import re

from lib import groups
from lib.answers import answer_lines
from lib.frames import ADD, NOTE, READ_WRITE, REQUEST, Address, BadFrame, Frame, cut, frame_in, frame_of
from lib.payloads import BadPayload, read_request, read_samples
from lib.plant import Plant
from lib.rules_nets import is_net
from lib.shown import shown
from lib.values import printed
from lib.verbs import NoRequest, place_words, request_of, sum_parts, words_of
from lib.verdict import verdict_on

OWN_PORT = 32905
WORD = re.compile(r"(?:[^ ']|'[^']*')+")
# A line of a log: what a connection took, its end, a reload, or the summary.
LOGGED = re.compile("out (?P<conn>[0-9]+) (?P<out>[0-9a-f]+)|(?:shut|lost) (?P<end>[0-9]+)|(?P<reload>reload (?:ok|refused) [0-9]+)"
                    "|connections [0-9]+ requests [0-9]+ replies [0-9]+ samples [0-9]+ reloads [0-9]+ [0-9]+")
# What may stand behind a request.
SAID = {"id": re.compile("[0-9]{1,10}"), "at": re.compile("[0-9]{1,5}"), "from": re.compile(r"[0-9.]+(:[0-9]{1,5})?")}
PLAIN_LINES = {"close": 1, "tick": 1, "room": 2, "fail": 1}


class Client:
    """A connection: who speaks on it, to which port, the ports and names that handles were asked for, and the places of its
    notifications."""

    def __init__(self, plant, source, port):
        self.plant, self.source, self.port, self.opened = plant, source, plant.port(port), None
        self.names, self.notes, self.id, self.stream, self.out, self.asked = [], {}, 0, b"", b"", {}

    def handle(self, number):
        """The part of the number-th handle, where each name that was asked for and is there was granted one."""
        port, name = self.names[number - 1] if 0 < number <= len(self.names) else (None, None)
        return self.port.find(name) if port == self.port.number else None

    def fixed(self, verb):
        return self.port.upload if verb == "symbols" else self.plant.type_upload()

    def target(self):
        return Address(self.plant.net, self.port.number)

    def frame(self, request, number):
        return Frame(self.target(), self.source, request.command, REQUEST, 0, number, request.bytes())

    def speaking(self, source, port):
        """The connection, as one request has it."""
        it = copy.copy(self)
        it.source, it.port = source, self.plant.port(port)
        return it


class Item:
    """A line: its words, the lines of the script for it, and what was answered."""

    def __init__(self, words, script, kind="", number=None):
        self.words, self.script, self.kind, self.number, self.said = words, script, kind, number, []


class Talk:
    def __init__(self, plant, read_file=None):
        self.plant, self.read_file = plant, read_file
        self.clients, self.items, self.reloads = {}, [], []

    # Lines of words and of scripts.

    def take(self, text, as_words):
        """Takes the lines of a file, which is one of words or a script; a NoRequest with its line where one is neither."""
        lines, place = text.split("\n"), 0
        while place < len(lines):
            line, start = lines[place].removesuffix("\r"), place
            place += 1
            if line == "reload":
                end = next((at for at in range(place, len(lines)) if lines[at].removesuffix("\r") == "."), None)
                if end is None:
                    raise NoRequest(f"line {start + 1}: reload has no line with a full stop alone behind it")
                self.reload("\n".join(lines[start:end + 1]), "\n".join(lines[place:end]) + "\n")
                place = end + 1
                continue
            try:
                self.line(line, as_words)
            except (NoRequest, BadFrame) as fault:
                raise NoRequest(f"line {start + 1}: {fault}") from None
        return self

    def line(self, line, as_words):
        words = WORD.findall(line)
        if as_words and line.startswith("="):
            return
        if not words or line.startswith("#"):
            self.items.append(Item(line, [line]))
        elif words[0] == "open":
            self.open(words, as_words)
        elif words[0] == "bytes" and len(words) > 2:
            self.bytes(self.client(words[1]), words[1], line, b"".join(hexed(word) for word in words[2:]))
        elif words[0] in PLAIN_LINES and len(words) == 1 + PLAIN_LINES[words[0]]:
            if words[0] != "tick":
                self.client(words[1])
            self.items.append(Item(line, [line], words[0], words[1]))
        elif not as_words:
            raise NoRequest(f"{shown(line)} is no line of a script")
        elif words[0] == "reload" and len(words) == 2:
            text = self.read_file(words[1])
            self.reload(line, text, f"reload\n{text}" + ("" if text.endswith("\n") else "\n") + ".")
        else:
            self.request(words, line)

    def client(self, number):
        if number not in self.clients:
            raise NoRequest(f"no line before it opens the connection {number}")
        return self.clients[number]

    def open(self, words, as_words):
        said = dict(zip(words[2::2], words[3::2])) if as_words else {}
        if len(words) % 2 or not re.fullmatch("[1-9][0-9]{0,9}", words[1]) or set(said) - {"from", "at"} or (not as_words and len(words) > 2):
            raise NoRequest("it is not: open C [from NETID[:PORT]] [at PORT]")
        if words[1] in self.clients:
            raise NoRequest(f"the connection {words[1]} was opened before")
        net, _, port = said.get("from", "").partition(":")
        at = said.get("at", str(next(iter(self.plant.ports))))
        if (net and not is_net(net)) or not all(re.fullmatch("[0-9]{1,5}", word) and int(word) < 65536 for word in (port or "0", at)):
            raise NoRequest("behind `from` stands a NetId, or one with a colon and a port, behind `at` a port")
        default = self.plant.routes[0] if self.plant.routes else "0.0.0.0.0.0"
        client = self.clients[words[1]] = Client(self.plant, Address(net or default, int(port or OWN_PORT)), int(at))
        item = Item(" ".join(words), [f"open {words[1]}"], "open", words[1])
        client.opened = None if as_words else item
        self.items.append(item)

    def request(self, words, line):
        if len(words) < 2:
            raise NoRequest(f"{shown(line)} names no connection")
        client = self.client(words[1])
        given = self.framed(client, words).bytes()
        item = Item(line, [f"bytes {words[1]} {given.hex()}"], "bytes", words[1])
        self.items.append(item)
        client.stream += given
        self.cut(client, item)

    @staticmethod
    def framed(client, words):
        """The frame of a request in words: behind these `id N`, `at PORT` and `from NETID[:PORT]` may stand, for this one alone."""
        words, said = list(words), {}
        while len(words) > 3 and words[-2] in SAID and SAID[words[-2]].fullmatch(words[-1]) and words[-2] not in said:
            said[words[-2]] = words[-1]
            words = words[:-2]
        net, _, port = said.get("from", client.source.net).partition(":")
        if not is_net(net) or int(port or 0) > 65535 or int(said.get("at", 0)) > 65535 or int(said.get("id", 0)) >= 2 ** 32:
            raise NoRequest("behind `id` stands a number of 32 bits, behind `at` a port, behind `from` a NetId, or one with a colon and a port")
        source = Address(net, int(port or (OWN_PORT if "from" in said else client.source.port)))
        speaking = client.speaking(source, int(said.get("at", client.port.number)))
        return speaking.frame(request_of(speaking, words[0], words[2:]), int(said.get("id", client.id + 1 & 0xFFFFFFFF)))

    def bytes(self, client, number, line, given):
        """A line of bytes: words where it is one whole frame as words write it, else itself."""
        item = Item(line, [line], "bytes", number)
        self.items.append(item)
        alone, before = not client.stream, client.id
        client.stream += given
        frames = self.cut(client, item)
        if alone and len(frames) == 1 and given == frames[0].bytes():
            item.words = self.worded(client, number, frames[0], before) or line

    def worded(self, client, number, frame, before):
        """The words that write a frame again, on a connection whose last invoke id was `before`; None where there are none."""
        if client.opened and frame.target.net == client.plant.net:
            if frame.target.port != client.port.number or frame.source != client.source:
                client.source, client.port = frame.source, client.plant.port(frame.target.port)
                client.opened.words = f"open {number} from {source_words(frame.source)} at {frame.target.port}"
        client.opened = None
        speaking = client.speaking(frame.source, frame.target.port)
        try:
            verb, *rest = words_of(speaking, read_request(frame.command, frame.payload)).split(" ", 1)
            words = WORD.findall(" ".join([verb, number, *rest]))
            words += ["id", str(frame.id)] if frame.id != before + 1 else []
            words += ["at", str(frame.target.port)] if frame.target.port != client.port.number else []
            words += ["from", source_words(frame.source)] if frame.source != client.source else []
            again = self.framed(dated(client, before), words)
        except (BadPayload, NoRequest, AttributeError):
            return None
        return " ".join(words) if again == frame else None

    def cut(self, client, item):
        """Takes note of the requests in the bytes of a connection."""
        packets, client.stream, _ = cut(client.stream)
        frames = [frame_in(ams) for ams in packets]
        for frame in frames:
            client.id = frame.id
            try:
                request = read_request(frame.command, frame.payload) if frame.flags == REQUEST else None
            except BadPayload:
                request = None
            speaking = client.speaking(frame.source, frame.target.port)
            client.asked.setdefault(frame.id, []).append((item, request, speaking))
            heard = frame.target.net == self.plant.net and frame.target.port in self.plant.ports and frame.source.net in self.plant.routes
            if request and request.command == READ_WRITE and heard:
                self.ask_handles(speaking, request)
        return frames

    @staticmethod
    def ask_handles(client, request):
        asks = [(request.group, 0, 0, request.data)] if request.group == groups.HANDLE else []
        if request.group == groups.SUM_ASK:
            asks = [part for part in sum_parts(request) or [] if part[0] == groups.HANDLE]
        for ask in asks:
            name = ask[3].decode("latin-1").rstrip("\0")
            if client.port.find(name):
                client.names.append((client.port.number, name))

    def reload(self, words, text, script=None):
        item = Item(words, (script or words).split("\n"), "reload")
        self.items.append(item)
        self.reloads.append(item)
        verdict = verdict_on(text.encode())
        if verdict.status == 0:
            self.plant = Plant(verdict)
            for client in self.clients.values():
                client.plant, client.port = self.plant, self.plant.port(client.port.number)

    # The log.

    def answer(self, log):
        """Puts the lines of a log behind the lines that they answer, whenever a connection took them; gives the last line, the summary."""
        at, reloads, last = 0, iter(self.reloads), None
        places = {id(item): place for place, item in enumerate(self.items)}
        for line in log.splitlines():
            it = LOGGED.fullmatch(line)
            number = it and (it["conn"] or it["end"])
            if last or not it or (number and number not in self.clients):
                raise NoRequest(f"{shown(line)} stands in it")
            if it["out"]:
                said = self.told(number, hexed(it["out"]), at)
            elif number:
                said = [(self.next_of(at, number), [line])]
            elif it["reload"]:
                said = [(next(reloads, None), [line])]
            else:
                said, last = [], line
            for item, lines in said:
                at = max(at, places.get(id(item), at))
                self.items[at].said += lines
        return last

    def next_of(self, at, number):
        """The next line that moves a connection; the last where none does."""
        moves = [it for it in self.items[at:] if (it.kind == "bytes" and it.number == number and not it.said) or it.kind == "tick"]
        return moves[0] if moves else self.items[-1]

    def told(self, number, given, at):
        """What the bytes that a connection took say: the line that they answer, and words."""
        client = self.clients[number]
        client.out += given
        packets, client.out, fault = cut(client.out)
        if fault:
            raise fault
        for frame in map(frame_of, packets):
            if frame.command == NOTE and frame.flags == REQUEST:
                yield from self.samples(client, number, frame, at)
                continue
            item, request, then = (client.asked.get(frame.id) or [(None, None, client)]).pop(0)
            lines = answer_lines(then, request, frame)
            if request and request.command == ADD and lines[0].startswith("notification "):
                client.notes[int(lines[0].split(" ")[1])] = place_words(then, request.group, request.offset, request.length)[1]
            yield item, [f"{number} {line}" for line in lines]

    def samples(self, client, number, frame, at):
        for sample in read_samples(frame.payload):
            place = client.notes.get(sample.handle)
            value = place.value(sample.data) if place else "16#" + sample.data.hex()
            kinds = ("tick",) if sample.data else ("reload",)
            item = next((it for it in self.items[at:] if it.kind in kinds and (it.kind == "reload" or int(it.number) >= sample.time)), None)
            yield item, [f"{number} sample {sample.time} {sample.handle} {value}" if sample.data else f"{number} ended {sample.time} {sample.handle}"]


def source_words(source):
    return source.net + (f":{source.port}" if source.port != OWN_PORT else "")


def dated(client, number):
    """The connection when its last invoke id was this one."""
    it = copy.copy(client)
    it.id = number
    return it


def hexed(word):
    try:
        return bytes.fromhex(word)
    except ValueError:
        raise NoRequest(f"{shown(printed(word.encode()))} is no hexadecimal text") from None
