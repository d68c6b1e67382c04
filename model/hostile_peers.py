"""The hostile runs of a client over a link, for `python3 model/hostile.py`: peers that answer as a server should
(model/protocol.py), and then cut, repeat, delay, damage or leave out what they say; peers that lie in lengths, entries,
types and samples; and each call of the link and of the output that fails. What must come is what the model of a client
(model/client.py) says.

    python3 model/hostile_peers.py --profiles [ADS ADSD]
        whether each call of a client is answered alike by the strict and the wide server: by the model; and with the
        two programs, by `ads` over a socket to a daemon in both profiles
"""
import os
import re
import subprocess
import sys
import tempfile

HERE = os.path.dirname(os.path.abspath(__file__))
sys.dont_write_bytecode = True
sys.path[1:1] = [f"{sys.path[0]}/../{room}" for room in ("tools", "tries")]
import client  # noqa: E402
from ams import any_frame, net_of, u16, u32  # noqa: E402
import protocol  # noqa: E402
from hostile import ME, NET, OTHER, PLANT, SIGNALS  # noqa: E402

TO = "127.0.0.1:48898"
COMMANDS = {
    "info": ["info"], "state": ["state"], "control": ["control", "6", "0"], "get": ["get", "Main.count"],
    "set": ["set", "Main.count", "7"],
    "list": ["list"], "watch": ["watch", "Main.wave", "change", 0, 2], "show": ["show", "Main.axis[2]"],
}
FIRST = 5


# Runs as text.


def words_of(words):
    """The words of a call as lines of a run."""
    given = list(map(str, words))
    if words[0] == "record":
        return ["words " + " ".join(["record", *words[1], "--mode", words[2], "--cycle", str(words[3]), "--count",
                                     str(words[4]), "--store", words[5], "--to", TO, "--netid", NET, "--me", ME])]
    if words[0] == "watch":
        given = [*given[:2], "--mode", given[2], "--cycle", given[3], "--count", given[4]]
    given += ["--to", TO, "--netid", NET, "--me", ME]
    if all(it and it.split() == [it] and not it.startswith("-") for it in map(str, words)):
        return ["words " + " ".join(given)]
    return [f"word {it}" for it in [given[0], *given[len(words) if words[0] != "watch" else 8:], "--",
                                    *given[1:len(words)]]]


def text_lines(text):
    """Lines of text; what says the same over and over is told shortly."""
    for line in text.splitlines(keepends=True):
        body, end = line.rstrip("\n"), line.endswith("\n")
        while len(body) > 4000:
            found = re.search(r"(.{1,4}?)\1{400,}", body)
            if not found:
                break
            yield from [f"+ {body[:found.start()]}"] * (found.start() > 0)
            yield f"repeat {len(found[0]) // len(found[1])} {found[1]}"
            body = body[found.end():]
        yield f"{'|' if end else '+'} {body}"


def rows_lines(rows):
    """The rows that a keeper must have, in any bytes; no line where there are none."""
    texts = [str(number).encode() + b" " + name + f" {moment} x{given.hex()}".encode() for number, name, moment,
             given in rows]
    return ["rows"] * bool(rows) + [f"| {text.decode()}" if all(0x20 <= c <= 0x7E for c in text)
                                    else f"bytes {text.hex()}0a" for text in texts]


def linked(said, words, comes, **how):
    """A run of a client over what comes, by the model of a client."""
    keeper = client.Keeper(how.pop("fail_keeper", 0))
    status, out, talk = client.run(words, comes, me=ME, peer=NET, to=TO, keeper=keeper, **how)
    lines = [f"# {line}" for line in said.splitlines()] + words_of(words)
    for it in comes:
        lines.append({"bytes": "comes", "quiet": "quiet", "closed": "ends"}[it[0]] + f" {it[1]}"
                     + (f" {it[2].hex() if it[0] == 'bytes' else it[2]}" if len(it) > 2 else ""))
    lines += [f"fail-link {how['fail']}"] if "fail" in how else []
    lines += [f"fail-put {how['fail_put']}"] if "fail_put" in how else []
    lines += [f"leave {how['leave']}"] if how.get("leave") else []
    lines += [f"fail-keeper {keeper.fail}"] if keeper.fail else []
    lines += [f"status {status}", "out", *text_lines(out), "talk", *text_lines("".join(line + "\n" for line in talk)),
              *rows_lines(keeper.rows)]
    return "\n".join(lines) + "\n"


# A peer that answers as it should.


class Device:
    """A server that one client talks to."""

    def __init__(self, d=PLANT, wide=False):
        self.server, self.moment = protocol.Server(d, SIGNALS, wide), 0
        protocol.turn(self.server, ("open", 1), [])

    def after(self, event):
        lines = []
        protocol.turn(self.server, event, lines)
        return b"".join(bytes.fromhex(line.split()[2]) for line in lines if line.startswith("out "))

    def ask(self, frame):
        return self.after(("bytes", 1, frame))

    def tick(self):
        self.moment += 100000
        return self.after(("tick", self.moment))


def honest(words, d=PLANT, wide=False):
    """What a peer gives that answers as it should: an answer to each request, and for a call that waits for samples
    what a tick brings."""
    device, talker, found, at = Device(d, wide), client.Client(words, ME, NET, 851), [], 0
    talker.begin(FIRST)
    while talker.over is None:
        frames = [part[1] for part in talker.parts[at:] if part[0] == "sent"]
        at = len(talker.parts)
        given = b"".join(map(device.ask, frames)) if frames else device.tick()
        found.append(given)
        talker.take("bytes", FIRST + len(found), given)
    return found


def in_turn(steps, first=FIRST):
    return [("bytes", first + k, it) for k, it in enumerate(steps)]


def is_answer(step):
    return step[22] & 0xFF != 8


STEPS = {name: honest(words) for name, words in COMMANDS.items()}
ANSWERS = [(name, k) for name, steps in STEPS.items() for k, step in enumerate(steps) if is_answer(step)]


def with_step(name, k, *others):
    """The steps of a call with others in the place of one, and all behind it."""
    return in_turn([*STEPS[name][:k], *others, *STEPS[name][k + 1:]])


# Frames from the peer.


def fields(step):
    """The target, the source, command, flags, error, invoke id and payload of a frame."""
    return {"target": step[6:14], "source": step[14:22], "command": client.number(step, 22, 2),
            "flags": client.number(step, 24, 2), "error": client.number(step, 30),
            "id": client.number(step, 34), "payload": step[38:]}


def frame(it, *, length=0, head=0, reserved=0):
    """A frame of such fields, whose data length and length may lie by so much."""
    size, said = len(it["payload"]), {name: it[name] for name in ("command", "flags", "error")}
    said.update(number=it["id"], length=(size + length) % 2 ** 32, whole=(32 + size + head) % 2 ** 32)
    return any_frame(it["target"], it["source"], it["payload"], reserved=reserved, **said)


def changed(step, **how):
    return frame({**fields(step), **how})


def note(stamps, *, length=None, count=None, target=None, source=None):
    """A notification of stamps: (moment, [(handle, bytes)..])."""
    body = b"".join(moment.to_bytes(8, "little") + u32(len(samples)) + b"".join(u32(h) + u32(len(
        given)) + given for h, given in samples) for moment, samples in stamps)
    payload = u32(len(body) + 4 if length is None else length) + u32(len(stamps) if count is None else count) + body
    own = fields(STEPS["state"][0])
    return frame({**own, "target": target or own["target"], "source": source or own["source"], "command": 8, "flags": 4,
                  "id": 0, "payload": payload})


def answer(command, number, payload, **how):
    return frame({**fields(STEPS["state"][0]), "command": command, "id": number, "payload": payload}, **how)


def given(command, number, data):
    """The answer to a Read or a ReadWrite that gives these bytes."""
    return answer(command, number, u32(0) + u32(len(data)) + data)


ORDER = ("first", "second", "third", "fourth", "fifth")


def named(name, k):
    """An answer by its call."""
    count = len([it for it in ANSWERS if it[0] == name])
    place = ANSWERS.index((name, k)) - ANSWERS.index((name, 0))
    return f"the answer to `{name}`" if count == 1 else f"the {ORDER[place]} answer to `{name}`"


# When and in what pieces answers come.


def pieces():
    for name, steps in STEPS.items():
        yield linked(f"`{name}`, answered as it should be, each answer by itself.", COMMANDS[name], in_turn(steps))
        yield linked(f"`{name}`: all answers come at once, also those to what was not asked yet.", COMMANDS[name],
                     [("bytes", FIRST, b"".join(steps))])
        yield linked(f"`{name}`: each answer comes twice.", COMMANDS[name], in_turn([step * 2 for step in steps]))
        yield linked(f"`{name}`: each answer comes again behind all others.", COMMANDS[name], in_turn([*steps, *steps]))
        yield linked(f"`{name}`: each answer in pieces of seven bytes, with silence between them.", COMMANDS[name],
                     [it for k, step in enumerate(steps) for at in range(0, len(step), 7)
                      for it in (("bytes", FIRST + k, step[at:at + 7]), ("quiet", FIRST + k, 3))])
        yield linked(f"`{name}`: each answer comes 4.9999999 s behind its request.", COMMANDS[name],
                     [("bytes", FIRST + 49999999 * k, step) for k, step in enumerate(steps, 1)])
        if len(steps) > 1:
            yield linked(f"`{name}`: the answers come in the other order.", COMMANDS[name], in_turn(steps[::-1]))
        request = client.run(COMMANDS[name], [], me=ME, peer=NET)[2][1].split()[1]
        yield linked(f"`{name}`: what comes is what was sent.", COMMANDS[name],
                     [("bytes", FIRST, bytes.fromhex(request))])
    for name, k in ANSWERS:
        yield linked(f"5 s pass before {named(name, k)} comes.", COMMANDS[name],
                     [*in_turn(STEPS[name][:k]), ("quiet", FIRST + k),
                      ("bytes", FIRST + max(k - 1, 0) + 50000000, STEPS[name][k])])
        yield linked(f"The connection ends in place of {named(name, k)}.", COMMANDS[name],
                     [*in_turn(STEPS[name][:k]), ("closed", FIRST + k)])
        yield linked(f"The connection ends before the last byte of {named(name, k)}.", COMMANDS[name],
                     [*in_turn(STEPS[name][:k]), ("bytes", FIRST + k, STEPS[name][k][:-1])])
    step = STEPS["state"][0]
    for cut in range(1, len(step)):
        yield linked(f"{cut} of {len(step)} bytes of an answer, and then the end.", COMMANDS["state"],
                     [("bytes", 5, step[:cut]), ("closed", 6)])
    entry = STEPS["get"][0]
    for cut in range(0, len(entry) + 1, 3):
        yield linked(f"An entry of {len(entry)} bytes is cut behind {cut}; its second part comes with the value.",
                     COMMANDS["get"],
                     [("bytes", 5, entry[:cut]), ("bytes", 6, entry[cut:] + STEPS["get"][1])])
    state, watch = COMMANDS["state"], COMMANDS["watch"]
    yield linked("999,999 times nothing, bytes that say nothing, and 999,998 times nothing; then the answer.", state,
                 [("quiet", 5, 999999), ("bytes", 5, step[:6]), ("quiet", 5, 999998), ("bytes", 5, step[6:])])
    yield linked("A million times nothing, and then the answer, which nobody waits for.", state,
                 [("quiet", 5, 1000000), ("bytes", 5, step)])
    yield linked("No sample comes, a million times, and no request waits.", watch,
                 [*in_turn(STEPS["watch"][:2]), ("quiet", 10 ** 9, 1000000)])
    yield linked("The clock goes back: the answer is in time.", state, [("quiet", 100), ("bytes", 5, step)])
    yield linked("The clock goes back, and then on to 5 s behind the request.", state,
                 [("quiet", 100), ("quiet", 5), ("quiet", 50000099), ("quiet", 50000100)])
    yield linked("The clock stands at its end.", state, [("quiet", 2 ** 64 - 1), ("quiet", 2 ** 64 - 1),
                                                         ("bytes", 2 ** 64 - 1, step)])
    yield linked("The clock leaps to its end.", state, [("quiet", 1), ("quiet", 2 ** 64 - 1)])
    yield linked("A timeout comes before what the same moment brings.", state,
                 [("quiet", 5), ("bytes", 50000005, step)])
    yield linked("A timeout comes before bytes that are no frame.", state,
                 [("quiet", 5), ("bytes", 50000005, b"\1" * 6)])
    yield linked("The end of the connection, at the moment of a timeout.", state, [("quiet", 5), ("closed", 50000005)])
    yield linked("Nothing comes at all.", state, [])
    yield linked("No bytes come, which is nothing.", state, [("bytes", 5, b""), ("bytes", 5, step)])


# Frames that are broken, or to somebody else.


def strays(step):
    """Responses that answer nothing that was asked."""
    own = fields(step)
    wrong_net, wrong_port = net_of(OTHER) + own["source"][6:], own["source"][:6] + u16(852)
    return {
        "its invoke id is one more": {"id": own["id"] + 1}, "its invoke id is one less": {"id": own["id"] - 1},
        "its invoke id is the greatest": {"id": 2 ** 32 - 1},
        "its command is another": {"command": own["command"] % 9 + 1}, "its command is 10": {"command": 10},
        "its command is 8": {"command": 8},
        "it is from another machine": {"source": wrong_net}, "it is from another port": {"source": wrong_port},
        "it is to another machine": {"target": net_of(OTHER) + own["target"][6:]},
        "it is to another port": {"target": own["target"][:6] + u16(1)},
        "it is a response to itself": {"source": own["target"], "target": own["source"]},
        "it is no response, though it has an answer's data": {"flags": 4}, "it has no flag at all": {"flags": 0},
        "it is an error to another request": {"id": own["id"] + 5, "error": 7},
    }


def frames():
    for said, how in strays(STEPS["state"][0]).items():
        yield linked(f"A frame comes and then the end: {said}.", COMMANDS["state"],
                     [("bytes", 5, changed(STEPS["state"][0], **how))])
    for name, k in ANSWERS:
        step = STEPS[name][k]
        yield linked(f"Before {named(name, k)} come responses to others, from others, to others, and frames that are "
                     f"none: they are passed over.", COMMANDS[name],
                     with_step(name, k, b"".join(changed(step, **how) for how in strays(step).values()) + step))
        for said, how in (("has AMS error 7 and its data", {"error": 7}),
                          ("has an AMS error without a text, and no data", {"error": 2 ** 32 - 1, "payload": b""}),
                          ("has AMS error 0x706 and data of another length", {"error": 0x706, "payload": b"\0" * 3})):
            yield linked(f"{named(name, k).capitalize()} {said}.", COMMANDS[name],
                         with_step(name, k, changed(step, **how)))
        payload = fields(step)["payload"]
        yield linked(f"{named(name, k).capitalize()} has the result 0x710 and all else as it should be.",
                     COMMANDS[name], with_step(name, k, changed(step, payload=u32(0x710) + payload[4:])))
        zeros = {1: 20, 2: 4, 4: 4, 6: 4, 9: 4}.get(fields(step)["command"], 0)
        yield linked(f"{named(name, k).capitalize()} is refused with 0xDEADBEEF and zeros.", COMMANDS[name],
                     with_step(name, k, changed(step, payload=u32(0xDEADBEEF) + bytes(zeros))))
        yield linked(f"{named(name, k).capitalize()} has a byte too many.", COMMANDS[name],
                     with_step(name, k, changed(step, payload=payload + b"\0")))
        yield linked(f"{named(name, k).capitalize()} has a byte too few.", COMMANDS[name],
                     with_step(name, k, changed(step, payload=payload[:-1])))
        yield linked(f"{named(name, k).capitalize()} has no data.", COMMANDS[name],
                     with_step(name, k, changed(step, payload=b"")))
        for lie in (1, -1):
            yield linked(f"{named(name, k).capitalize()}: the data length is {lie:+} of what it is.", COMMANDS[name],
                         with_step(name, k, frame(fields(step), length=lie)))
            if fields(step)["command"] in (2, 9):
                own = client.number(payload, 4) + lie
                yield linked(f"{named(name, k).capitalize()}: the length before its data is {lie:+} of what it is.",
                             COMMANDS[name],
                             with_step(name, k, changed(step, payload=payload[:4] + u32(own) + payload[8:])))
                data = payload[8:] + b"\0" if lie > 0 else payload[8:-1]
                yield linked(f"{named(name, k).capitalize()} gives {lie:+} of the bytes that it should.",
                             COMMANDS[name],
                             with_step(name, k, changed(step, payload=payload[:4] + u32(len(data)) + data)))
        yield linked(f"{named(name, k).capitalize()} gives 4,294,967,295 for each of its numbers.", COMMANDS[name],
                     with_step(name, k, changed(step, payload=payload[:4] + b"\xff" * (len(payload) - 4))))
    step = STEPS["state"][0]
    for lie in (1, -1):
        yield linked(f"The length of a frame is {lie:+} of what it is.", COMMANDS["state"],
                     [("bytes", 5, frame(fields(step), head=lie)), ("bytes", 6, step)])
    for flags in (1, 3, 5, 0xFFFF, 0x8001, 2, 6, 0xFFFE):
        yield linked(f"An answer with the flags {flags:#06x}: it is a response where the lowest bit is set.",
                     COMMANDS["state"], [("bytes", 5, changed(step, flags=flags))])
    for head in (0, 31, 32, 33, 2097152, 2097153, 2 ** 32 - 1):
        yield linked(f"Six bytes of a frame that says that it has {head}, and then zeros.", COMMANDS["state"],
                     [("bytes", 5, u16(0) + u32(head)), ("bytes", 6, bytes(40))])
    for reserved in (1, 0x100, 0xFFFF):
        yield linked(f"Reserved bytes {reserved:#06x} before an answer.", COMMANDS["state"],
                     [("bytes", 5, frame(fields(step), reserved=reserved))])
        yield linked(f"The same behind an answer by which the call is over.", COMMANDS["state"],
                     [("bytes", 5, step + frame(fields(step), reserved=reserved))])
    yield linked("Five bytes that begin no frame are no frame yet; with the sixth they are broken.", COMMANDS["state"],
                 [("bytes", 5, b"\1" * 5), ("quiet", 6), ("bytes", 7, b"\1")])
    yield linked("A frame of 2,097,152 bytes that answers nothing, and then the answer: too long a wait for a byte "
                 "that never comes.", COMMANDS["state"],
                 [("bytes", 5, u16(0) + u32(2097152) + step[6:]), ("bytes", 6, step)])
    yield linked("Text in place of frames.", COMMANDS["state"], [("bytes", 5, b"HTTP/1.1 400 Bad Request\r\n\r\n")])
    for name in ("info", "state", "get", "list"):
        yield linked(f"`{name}`: an AMS error comes for a request that comes only later, and then all answers.",
                     COMMANDS[name],
                     in_turn([changed(STEPS[name][0], id=2, error=7), *STEPS[name]]))
    good, bad = note([(7, [(9, b"\1\2")])]), note([(7, [(9, b"\1\2")])], length=99)
    for name, k in ANSWERS:
        if k == 0:
            yield linked(f"`{name}`: notifications of nothing that was asked for stand before the answer, one without "
                         f"a sample.", COMMANDS[name],
                         with_step(name, 0, good + note([]) + note([(3, [])]) + STEPS[name][0]))
            yield linked(f"`{name}`: a notification whose length lies stands before the answer.", COMMANDS[name],
                         with_step(name, 0, bad + STEPS[name][0]))


# Entries and values.


def entry(name=b"Main.count", kind=b"DINT", comment=b"", **said):
    """A symbol's entry. It may say what is not so: how much more `whole` and the `lengths` of its texts are, another
    byte than NUL behind these (`nul`), and bytes `behind` them."""
    it = {"size": 4, "number": 3, "group": 0x4040, "offset": 0, "flags": 0, "whole": 0, "behind": b"", **said}
    rest = lengths_of((name, kind, comment), it) + ended_texts((name, kind, comment), it) + it["behind"]
    head = u32(it["group"], it["offset"], it["size"], it["number"], it["flags"])
    return u32((4 + len(head) + len(rest) + it["whole"]) % 2 ** 32) + head + rest


def lengths_of(texts, it):
    """The lengths of texts, which may lie."""
    return b"".join(u16((len(text) + lie) % 65536) for text, lie in zip(texts, it.get("lengths", (0, 0, 0))))


def ended_texts(texts, it):
    """The texts, each with its NUL, or another byte."""
    return b"".join(text + bytes([end]) for text, end in zip(texts, it.get("nul", (0, 0, 0))))


def got(said, data, value=b"\x2a\0\0\0", words=("get", "Main.count")):
    return linked(said, list(words), in_turn([given(9, 1, data), given(9, 2, value)]))


ALL_BYTES = bytes(range(256))


def entries():
    for lie in (1, -1, -47, 2 ** 32 - 48):
        yield got(f"The length of an entry is {lie:+} of what it is.", entry(whole=lie))
    for k, text in enumerate(("name", "type", "comment")):
        for lie in (1, -1, 65535):
            yield got(f"The length of an entry's {text} is {lie:+} of what it is.",
                      entry(comment=b"why", lengths=[lie * (j == k) for j in range(3)]))
        yield got(f"No NUL stands behind the {text} of an entry.",
                  entry(comment=b"why", nul=[32 * (j == k) for j in range(3)]))
    yield got("An entry with more bytes behind its texts, which its length counts.", entry(behind=b"more of it"))
    yield got("A byte behind an entry, which its length does not count.", entry() + b"\0")
    yield got("Two entries where one was asked for.", entry() * 2)
    yield got("No entry at all.", b"")
    for some in (3, 4, 29, 30, 32, 33):
        yield got(f"The first {some} bytes of an entry, which say that they are all.",
                  u32(some) + entry()[4:some] if some > 4 else entry()[:some])
    yield got("An entry of no texts.", entry(b"", b"", b""))
    for size in (0, 1, 1048576, 1048577, 2 ** 32 - 1):
        yield got(f"An entry of a symbol of {size} bytes, and a value of four.", entry(size=size))
    yield got("A symbol of no byte, and its value.", entry(size=0), b"")
    yield got("A text of no byte has no quotes.", entry(size=0, number=30), b"")
    for number, sizes in ((16, (1, 2)), (17, (1,)), (2, (2, 4)), (18, (2,)), (3, (4, 8)), (19, (4,)), (20, (8,)),
                          (21, (8, 1)), (33, (1, 2)), (4, (4,)), (5, (8,)), (30, (9,)), (65, (3,)), (0, (4,)),
                          (2 ** 32 - 1, (1,))):
        for size in sizes:
            for value in (b"\xff" * size, b"\0" * (size - 1) + b"\x80", b"\1" + b"\0" * (size - 1)):
                yield got(f"A value of type id {number} and {size} byte{'s' if size > 1 else ''}: {value.hex()}.",
                          entry(size=size, number=number), value)
    yield got("A text of each byte but NUL.", entry(size=256, number=30), ALL_BYTES[1:] + b"\0")
    yield got("A text without a NUL, of control characters, quotes and dollars.", entry(size=8, number=30),
              b"\r\n\t\x1b'$\x7f\xff")
    yield got("A text behind whose NUL more stands.", entry(size=6, number=30), b"ab\0cd\0")
    for some in (3, 5, 0):
        yield got(f"A value of {some} bytes where four were asked for.", entry(), bytes(some))
    yield got("A name that is another's, with control characters: only the value is printed.",
              entry(b"\0\x1b[2J\r\nads: refused", b"\x07"))
    yield got("An entry whose name has 65,535 bytes is longer than was asked for, and taken.", entry(b"a" * 65535))
    yield linked("A name of 65,536 bytes is asked for; the device has no such symbol.", ["get", "a" * 65536],
                 in_turn([answer(9, 1, u32(0x710) + u32(0))]))
    yield linked("A value of 65,536 bytes is no number.", ["set", "Main.count", "9" * 65536],
                 in_turn([given(9, 1, entry())]))
    yield linked("A name that is not ASCII.", ["show", "ü"], in_turn([answer(9, 1, u32(0x710) + u32(0))]))


TEXTS = (
    (16, 1, ("-128", "127", "128", "-129", "-0", "0", "00", "+1", "1 ", "", "-", "0x1", "1e2")),
    (17, 1, ("255", "256", "-1", "0")), (2, 2, ("-32768", "32767", "32768")),
    (18, 2, ("65535", "65536")), (3, 4, ("-2147483648", "2147483648")), (19, 4, ("4294967295", "4294967296")),
    (20, 8, ("-9223372036854775808", "9223372036854775808")),
    (21, 8, ("18446744073709551615", "18446744073709551616", "-0", "99999999999999999999999")),
    (33, 1, ("TRUE", "FALSE", "true", "1", "")),
    (30, 4, ("''", "'abc'", "'abcd'", "abc", "'a", "'", "'$41'", "'$27'", "'$0a'", "'$0A'", "'$00'", "'a''", "'$'",
             "'$2'", "'ü'", "'$FF$7F'")),
    (30, 1, ("''", "'a'")), (30, 0, ("''", "16#")), (4, 4,
                                                     ("1.5", "16#0000c03F", "16#0000c03", "16#0000c03f00", "16#",
                                                      "0000c03f", "16#0000c03g")), (3, 2, ("7", "16#0700")),
    (65, 0, ("16#", "")),
)


def put(said, text, data):
    return linked(said, ["set", "X.y", text], in_turn([given(9, 1, data), given(9, 2, u32(0xFFFFFFFF)),
                                                       answer(3, 3, u32(0)), answer(3, 4, u32(0))]))


def values():
    for number, size, texts in TEXTS:
        for text in texts:
            yield put(f"The text {text!r} for a value of type id {number} and {size} "
                      f"byte{'s' if size != 1 else ''}.".replace("\n", " "), text,
                      entry(b"X.y", size=size, number=number))
    for kind in (b"ARRAY [0..1] OF STRING(2)", b"Array [0..1] of String(2)", b"ARRAYS"):
        yield got(f"A value of the type {kind.decode()}, of which the id of a text is told.",
                  entry(b"X.y", kind, size=6, number=30), b"ab\0cd\0", ("get", "X.y"))
    yield got("An array of one INT, of which the id of INT is told.",
              entry(b"X.y", b"ARRAY [0..0] OF INT", size=2, number=2), b"\1\0", ("get", "X.y"))
    for text in ("'ab'", "16#616200636400"):
        yield put(f"The text {text!r} for an array of texts, of which the id of a text is told.", text,
                  entry(b"X.y", b"ARRAY [0..1] OF STRING(2)", size=6, number=30))
    for some in (0, 3, 5, 8):
        yield linked(f"A handle of {some} bytes.", COMMANDS["set"],
                     in_turn([STEPS["set"][0], given(9, 2, bytes(some)), answer(3, 3, u32(0)), answer(3, 4, u32(0))]))
    for k, what in ((2, "write"), (3, "release")):
        yield linked(f"The {what} is refused, and nothing is asked behind it.", COMMANDS["set"],
                     in_turn([*STEPS["set"][:k], answer(3, k + 1, u32(0x711)), answer(3, k + 2, u32(0))]))
    yield linked("The state words are the greatest.", COMMANDS["state"], in_turn([answer(4, 1, u32(0) + b"\xff" * 4)]))
    for name in (b"", b"A name of 16 b..", b"\x1b[31m\0never said", b"\\x00\x00", ALL_BYTES[128:144],
                 b"\x7f\x1f ~\r\n"):
        yield linked(f"A device whose name is {name!r}.", COMMANDS["info"],
                     in_turn([answer(1, 1, u32(0) + b"\xff\0\xff\xff" + name.ljust(16, b"\0"))]))


def uploaded(said, data, count, size=None):
    return linked(said, COMMANDS["list"], in_turn([given(2, 1, u32(count) + u32(len(data) if size is None else size)),
                                                   given(2, 2, data)]))


def lists():
    one, two = entry(), entry(b"Flag", b"BOOL", size=1, number=33, group=0x4020, offset=3, flags=1)
    yield uploaded("No symbol.", b"", 0)
    yield uploaded("No symbol, but a byte.", b"\0", 0)
    yield uploaded("One symbol is counted, and two come.", one + two, 1)
    yield uploaded("Two symbols are counted, and one comes.", one, 2)
    yield uploaded("4,294,967,295 symbols are counted, and two come.", one + two, 2 ** 32 - 1)
    yield uploaded("Fewer bytes come than the peer had told.", one, 1, 1000)
    yield uploaded("More bytes come than the peer had told.", one + two, 2, 0)
    yield uploaded("The peer tells an upload of 4,294,967,295 bytes, and it is asked for.", one, 1, 2 ** 32 - 1)
    yield uploaded("The peer tells an upload of 2,000,001 bytes, and it is asked for.", one, 1, 2000001)
    for at, name in ((0, "first"), (1, "second")):
        for lie in (1, -1):
            yield uploaded(f"The length of the {name} of two entries is {lie:+} of what it is.",
                           b"".join(entry(whole=lie * (k == at)) for k in range(2)), 2)
        yield uploaded(f"The {name} of two entries is of a symbol of 1,048,577 bytes: no line is printed.",
                       b"".join(entry(size=1048577 if k == at else 4) for k in range(2)), 2)
        yield uploaded(f"No NUL stands behind the type of the {name} of two entries.",
                       b"".join(entry(nul=(0, 65 * (k == at), 0)) for k in range(2)), 2)
    yield uploaded("The last entry is cut in the middle.", (one + two)[:-20], 2)
    yield uploaded("Names and types of control characters, of NULs, of no byte, and that look like lines of this "
                   "program.", entry(b"\x1b[2J\x07", b"\r\n\t") + entry(b"a\0b", b"\0") + entry(b"", b"") + entry(
        b"x\nads: budget", b"\\x41") + entry(ALL_BYTES[1:], ALL_BYTES[128:]), 5)
    yield uploaded("The greatest numbers.", entry(group=2 ** 32 - 1, offset=2 ** 32 - 1, size=1048576,
                                                  number=2 ** 32 - 1, flags=2 ** 32 - 1), 1)
    yield uploaded("A name of 65,535 control characters.", entry(b"\x01" * 65535, b"INT"), 1)
    yield uploaded("A thousand entries of no texts.", entry(b"", b"") * 1000, 1000)
    for some in (0, 7, 9, 24):
        yield linked(f"{some} bytes tell how large the upload is.", COMMANDS["list"],
                     in_turn([given(2, 1, bytes(some)), given(2, 2, b"")]))
    yield linked("The upload is refused.", COMMANDS["list"],
                 in_turn([STEPS["list"][0], answer(2, 2, u32(0x705) + u32(0))]))


# Samples.


def watched(said, *comes, words=None, handle=1, entry_given=None):
    """A watch that is told this behind its entry and its handle, and then that its notification is deleted."""
    first = given(9, 1, entry_given) if entry_given else STEPS["watch"][0]
    return linked(said, words or COMMANDS["watch"], in_turn([first, answer(6, 2, u32(0) + u32(handle)), *comes,
                                                             answer(7, 3, u32(0))]))


def samples():
    one, two = note([(100, [(1, b"\3\0")])]), note([(200, [(1, b"\1\0")])])
    yield watched("Two samples.", one, two)
    yield watched("Both samples in one stamp.", note([(100, [(1, b"\3\0"), (1, b"\4\0")])]))
    yield watched("Both samples in two stamps, the second of an earlier moment.",
                  note([(100, [(1, b"\3\0")]), (50, [(1, b"\4\0")])]))
    yield watched("Three samples where two were asked for: the third is passed over.",
                  note([(100, [(1, b"\3\0"), (1, b"\4\0"), (1, b"\5\0")])]))
    yield watched("More samples before the notification is deleted.", one + two + one + two)
    yield watched("Samples of other notifications between them, also of no byte.",
                  note([(1, [(2, b"\7\0"), (0, b"\7\0"), (2 ** 32 - 1, b""), (1, b"\3\0")])]), note([(2, [(7, b"")])]),
                  two)
    yield watched("The notification ends at once.", note([(100, [(1, b"")])]))
    yield watched("It ends behind its first sample, in the same stamp, and a sample behind that is passed over.",
                  note([(100, [(1, b"\3\0"), (1, b""), (1, b"\4\0")])]))
    yield watched("It ends behind its last sample, when nobody waits for it.", one + two + note([(300, [(1, b"")])]))
    for value in (b"\3", b"\3\0\0", bytes(range(40))):
        yield watched(f"A sample of {len(value)} bytes where the symbol has two: it is printed byte for byte.",
                      note([(100, [(1, value)])]), two)
    yield watched("The greatest moment and the least.", note([(2 ** 64 - 1, [(1, b"\3\0")])]),
                  note([(0, [(1, b"\4\0")])]))
    yield watched("Notifications from another machine to another client: only the handle counts.",
                  note([(100, [(1, b"\3\0")])], target=bytes(8), source=b"\xff" * 8), two)
    yield watched("Notifications of no stamp and of a stamp without samples say nothing.", note([]) + note([(5, [])]),
                  one + two)
    for lie in (4, 1, -1, 3, 5, -4, 2 ** 32 - 21):
        body = client.number(fields(one)["payload"], 0)
        yield watched(f"The length of a notification is {lie:+} of what it is: four more is taken.",
                      note([(100, [(1, b"\3\0")])], length=(body + lie) % 2 ** 32), two)
    for count in (0, 2, 2 ** 32 - 1):
        yield watched(f"A notification says that it has {count} stamps, and has one.",
                      note([(100, [(1, b"\3\0")])], count=count), two)
    payload = fields(one)["payload"]
    for at, what in ((16, "samples of a stamp"), (24, "bytes of a sample")):
        for own in (0, 1, 2, 3, 2 ** 32 - 1):
            if own != client.number(payload, at):
                yield watched(f"The number of {what} is said to be {own}.",
                              changed(one, payload=payload[:at] + u32(own) + payload[at + 4:]), two)
    for some in (0, 4, 7, 8, 12, 19, 20, 27):
        yield watched(f"A notification of {some} bytes.", changed(one, payload=payload[:some]), two)
    yield watched("A byte behind the last sample.", changed(one, payload=payload + b"\0"), two)
    yield watched("A byte behind the last sample, which the length counts.",
                  changed(one, payload=u32(len(payload) - 3) + payload[4:] + b"\0"), two)
    yield linked("Samples come before the handle is told: they are passed over.", COMMANDS["watch"],
                 in_turn([STEPS["watch"][0], one + STEPS["watch"][1] + two, one, STEPS["watch"][4]]))
    yield watched("The handle is 0.", note([(1, [(0, b"\3\0"), (0, b"\4\0")])]), handle=0)
    yield watched("The handle is the greatest.", note([(1, [(2 ** 32 - 1, b"\3\0"), (2 ** 32 - 1, b"\4\0")])]),
                  handle=2 ** 32 - 1)
    yield linked("The addition is refused.", COMMANDS["watch"],
                 in_turn([STEPS["watch"][0], answer(6, 2, u32(0x716) + u32(0)), one]))
    yield linked("The deletion is refused, behind two samples.", COMMANDS["watch"],
                 in_turn([*STEPS["watch"][:2], one + two, answer(7, 3, u32(0x714))]))
    yield linked("No answer comes to the deletion; samples do.", COMMANDS["watch"],
                 [*in_turn([*STEPS["watch"][:2], one + two]), ("bytes", 50000000, one), ("quiet", 50000007),
                  ("quiet", 50000008)])
    yield linked("No sample comes for an hour, and then two.", COMMANDS["watch"],
                 [*in_turn(STEPS["watch"][:2]), ("quiet", 36 * 10 ** 9), ("bytes", 36 * 10 ** 9, one + two),
                  ("bytes", 36 * 10 ** 9 + 1, STEPS["watch"][4])])
    yield linked("The connection ends while samples are waited for.", COMMANDS["watch"],
                 [*in_turn([*STEPS["watch"][:2], one]), ("closed", 9)])
    yield linked("Bytes that are no frame behind the first sample, in the same piece: the sample is printed.",
                 COMMANDS["watch"], in_turn([*STEPS["watch"][:2], one + b"\1" * 6 + two]))
    yield linked("An answer that comes again while samples are waited for.", COMMANDS["watch"],
                 in_turn([*STEPS["watch"][:2], STEPS["watch"][1] + one, STEPS["watch"][0] + two, STEPS["watch"][4]]))
    yield watched("A symbol of 1,048,576 bytes is watched; the device gives what it likes.", note([(1, [(1, b"\1")])]),
                  note([(2, [(1, b"\2" * 300)])]), entry_given=entry(size=1048576, number=65))
    yield watched("A text is watched.", note([(1, [(1, b"a'\0b")])]), note([(2, [(1, b"\n$")])]),
                  entry_given=entry(size=4, number=30))


# Types.


def type_entry(name, size, subs=(), number=65, kind=b"", **said):
    """The entry of a type or a member. It may say what is not so, as that of a symbol, and of how many dimensions and
    members it has (`dim_count`, `count`)."""
    it = {"offset": 0, "flags": 1, "dims": (), "whole": 0, "behind": b"", "comment": b"", "version": 1, **said}
    texts, dims = (name, kind, it["comment"]), it["dims"]
    rest = u32(it["version"], 0, 0, size, it["offset"], number, it["flags"]) + lengths_of(texts, it)
    rest += u16(it.get("dim_count", len(dims))) + u16(it.get("count", len(subs))) + ended_texts(texts, it)
    rest += b"".join(u32(low % 2 ** 32, some) for low, some in dims) + b"".join(subs) + it["behind"]
    return u32((4 + len(rest) + it["whole"]) % 2 ** 32) + rest


def member(name, kind, size, offset, number=3, **how):
    return type_entry(name, size, number=number, kind=kind, offset=offset, flags=2, **how)


AXIS = (member(b"active", b"BOOL", 1, 0, 33), member(b"pos", b"DINT", 4, 4), member(b"label", b"STRING(5)", 6, 8, 30))


def typed(said, types, *, kind=b"Axis", size=16, name=b"Main.axis[2]", **other):
    """A `show` of a symbol of this type and size, by these types of the peer; another number of types (`count`), of
    their bytes (`told`) and another value may come."""
    own, data = entry(name, kind, size=size, number=65), b"".join(types)
    sizes = u32(6, 300, other.get("count", len(types)), other.get("told", len(data))) + bytes(8)
    value = other.get("value", bytes(range(1, size + 1)))
    steps = [given(9, 1, own), given(2, 2, sizes), given(2, 3, data), given(9, 4, value)]
    return linked(said, COMMANDS["show"], in_turn(steps))


def nested(depth):
    """Structures within one another, so many."""
    found = [type_entry(b"S1", 1, [member(b"a", b"BOOL", 1, 0, 33)])]
    for k in range(2, depth + 1):
        found.append(type_entry(f"S{k}".encode(), 1, [member(b"a", f"S{k - 1}".encode(), 1, 0, 65)]))
    return found


def types():
    axis = type_entry(b"Axis", 16, AXIS)
    yield typed("A structure of three members.", [axis])
    yield typed("Its type, named in another case, behind a type that is not met.",
                [type_entry(b"Other", 0), type_entry(b"AXIS", 16, AXIS)], kind=b"aXIS")
    yield typed("Of two types of one name the first counts.", [axis, type_entry(b"axis", 3)])
    yield typed("The type is not there.", [type_entry(b"Axes", 16, AXIS)])
    yield typed("No type is there.", [])
    for some in (0, 8, 23, 25, 32):
        yield linked(f"{some} bytes tell how large the upload of the types is.", COMMANDS["show"],
                     in_turn([STEPS["show"][0], given(2, 2, bytes(some)), *STEPS["show"][2:]]))
    for count in (0, 2, 2 ** 32 - 1):
        yield typed(f"{count} types are counted, and one comes.", [axis], count=count)
    yield typed("The peer tells an upload of 4,294,967,295 bytes of types.", [axis], told=2 ** 32 - 1)
    yield typed("A byte behind the last type.", [axis, b"\0"], count=1)
    for lie in (1, -1, -60, 2 ** 32 - 100):
        yield typed(f"The length of a type's entry is {lie:+} of what it is.",
                    [type_entry(b"Axis", 16, AXIS, whole=lie), type_entry(b"E", 1)])
        yield typed(f"The length of a member's entry is {lie:+} of what it is.",
                    [type_entry(b"Axis", 16, [AXIS[0], member(b"pos", b"DINT", 4, 4, whole=lie), AXIS[2]])])
    for k, text in enumerate(("name", "type", "comment")):
        for lie in (1, -1, 60000):
            yield typed(f"The length of the {text} of a member is {lie:+} of what it is.",
                        [type_entry(b"Axis", 16, [AXIS[0], member(b"pos", b"DINT", 4, 4,
                                                                  lengths=[lie * (j == k) for j in range(3)]),
                                                  AXIS[2]])])
        yield typed(f"No NUL stands behind the {text} of a member.",
                    [type_entry(b"Axis", 16, [AXIS[0], member(b"pos", b"DINT", 4, 4,
                                                              nul=[7 * (j == k) for j in range(3)]), AXIS[2]])])
        yield typed(f"No NUL stands behind the {text} of a type.",
                    [type_entry(b"Axis", 16, AXIS, nul=[7 * (j == k) for j in range(3)])])
    for count in (0, 2, 4, 65535):
        yield typed(f"A type says that it has {count} members, and has three.",
                    [type_entry(b"Axis", 16, AXIS, count=count)])
    yield typed("Bytes stand behind the members, and behind the dimensions of a member.",
                [type_entry(b"Axis", 16, [*AXIS[:2], member(b"label", b"STRING(5)", 6, 8, 30, behind=b"more")],
                            behind=b"and more")])
    yield typed("A member that has members of its own.",
                [type_entry(b"Axis", 16, [*AXIS[:2], member(b"label", b"STRING(5)", 6, 8, 30, subs=[AXIS[0]])])])
    yield typed("More dimensions are counted than there are.",
                [type_entry(b"Axis", 16, [*AXIS[:2], member(b"label", b"STRING(5)", 6, 8, 30, dim_count=1)])])
    yield typed("Dimensions that say otherwise than the text do not count.",
                [type_entry(b"Axis", 16, [*AXIS[:2], member(b"label", b"ARRAY [1..6] OF BYTE", 6, 8, 65,
                                                            dims=[(7, 2 ** 32 - 1)])])])
    yield typed("Versions, hashes, flags and ids of structures may be anything.",
                [type_entry(b"Axis", 16, AXIS, number=2 ** 32 - 1, flags=0, version=2 ** 32 - 1, comment=b"\1")])
    for size in (15, 17, 0):
        yield typed(f"The symbol has 16 bytes, and its type {size}.", [type_entry(b"Axis", size, AXIS)])
    yield typed("The symbol has no byte, and its type has none.", [type_entry(b"Axis", 0, [])], size=0, value=b"")
    for offset in (0, 3, 5, 10, 2 ** 32 - 1):
        yield typed(f"The second member begins at {offset}.",
                    [type_entry(b"Axis", 16, [AXIS[0], member(b"pos", b"DINT", 4, offset), AXIS[2]])])
    for size in (0, 3, 5, 8, 2 ** 32 - 1):
        yield typed(f"The second member, a DINT, says that it has {size} bytes.",
                    [type_entry(b"Axis", 16, [AXIS[0], member(b"pos", b"DINT", size, 4), AXIS[2]])])
    yield typed("The last member ends past its structure.",
                [type_entry(b"Axis", 16, [*AXIS[:2], member(b"label", b"STRING(5)", 6, 11, 30)])])
    for kind in (b"", b"POINTER TO INT", b"ARRAY [1..0] OF DINT", b"ARRAY [1..1]OF DINT", b"ARRAY[1..1] OF DINT",
                 b"ARRAY [1..1,1..1,1..1,1..1] OF DINT", b"ARRAY [-0..0] OF DINT", b"ARRAY [00..0] OF DINT",
                 b"ARRAY [1..2147483648] OF DINT", b"ARRAY [1..1] OF ARRAY [1..1] OF DINT", b"ARRAY [] OF DINT",
                 b"STRING(3", b"STRING(03)", b"STRING(65535)", b"\xff", b"DINT ", b"4DINT", b"Nope",
                 b"array [-1..-1] of dint", b"ARRAY [1..1,1..1,1..1] OF DINT", b"String(3)",
                 b"ARRAY [2147483647..2147483647] OF UDINT"):
        yield typed(f"A member of four bytes whose type is {kind!r}.",
                    [type_entry(b"Axis", 16, [AXIS[0], member(b"pos", kind, 4, 4), AXIS[2]])])
    yield typed("A member whose type has more elements than 32 bits hold.",
                [type_entry(b"Axis", 16, [AXIS[0], member(b"pos", b"ARRAY [-2147483648..2147483647,0..1] OF BYTE", 0,
                                                          4), AXIS[2]])])
    yield typed("A structure within itself.", [type_entry(b"Axis", 16, [member(b"a", b"Axis", 16, 0, 65)])])
    yield typed("Two structures within one another.", [type_entry(b"Axis", 16, [member(b"a", b"Other", 16, 0, 65)]),
                                                       type_entry(b"Other", 16, [member(b"a", b"Axis", 16, 0, 65)])])
    for depth in (16, 17):
        yield typed(f"Structures that are nested {depth} deep.", nested(depth), kind=f"S{depth}".encode(), size=1)
    yield typed("An enumeration within 16 structures.", [*nested(16)[1:],
                                                         type_entry(b"S1", 1, [member(b"a", b"Mode", 1, 0, 17)]),
                                                         type_entry(b"Mode", 1, number=17, kind=b"USINT")], kind=b"S16",
                size=1)
    yield typed("An enumeration, by its id and size.", [type_entry(b"Mode", 2, number=2, kind=b"INT")], kind=b"Mode",
                size=2)
    yield typed("An enumeration of an id that has no number of this size.", [type_entry(b"Mode", 3, number=2)],
                kind=b"ARRAY [0..1] OF Mode", size=6)
    yield typed("A type that is unsound, but that the value does not meet.",
                [axis, type_entry(b"Bad", 1, [member(b"a", b"Nope", 9, 9)])])
    yield typed("A name of control characters in front of each path.", [axis], name=b"\x1b\0\xff")
    yield typed("A member's name of control characters.",
                [type_entry(b"Axis", 1, [member(b"\r\n\0", b"BYTE", 1, 0, 17)])], size=1)
    for some in (15, 17, 0):
        yield typed(f"A value of {some} bytes where 16 were asked for: no line is printed.", [axis], value=bytes(some))
    yield typed("An array of three dimensions, the last moving fastest.", [], kind=b"ARRAY [-1..0,5..5,1..2] OF SINT",
                size=4)


# Calls that fail.


def calls():
    for name, steps in STEPS.items():
        status, _, talk = client.run(COMMANDS[name], in_turn(steps), me=ME, peer=NET)
        for fail in range(1, len(talk) + len(steps) + 1):
            yield linked(f"`{name}`: call {fail} of the link fails.", COMMANDS[name], in_turn(steps), fail=fail)
        count = len([part for part in talker_of(name).parts if part[0] == "put"])
        for put in range(1, count + 1):
            yield linked(f"`{name}`: piece {put} of the output can't be written; four bytes of it are.", COMMANDS[name],
                         in_turn(steps), fail_put=put, leave=4)
    for name in STEPS:
        yield linked(f"`{name}` is refused, which can't be written.", COMMANDS[name],
                     in_turn([changed(STEPS[name][0], error=7)]), fail_put=1, leave=9)
    for said, comes in (("A bad peer", [("closed", 5)]),
                        ("A request that had no answer", [("quiet", 5), ("quiet", 50000005)]),
                        ("A million times nothing", [("quiet", 5, 1000000)])):
        yield linked(f"{said}, which can't be told.", COMMANDS["state"], comes, fail_put=1)
    yield linked("A text that is no value, which can't be told.", ["set", "Main.count", "x"], in_turn(STEPS["set"][:1]),
                 fail_put=1, leave=20)
    for fail in (1, 2, 3):
        yield linked(f"Call {fail} of the link fails, and that can't be told.", COMMANDS["state"],
                     in_turn(STEPS["state"]), fail=fail, fail_put=1)
    yield linked("The link fails behind the first sample, and that can't be told.", COMMANDS["watch"],
                 in_turn(STEPS["watch"]), fail=7, fail_put=2)


def local_words(name):
    """The words of a call of the server of a description in the same process."""
    return words_of(COMMANDS[name])[0].replace(f"--to {TO} --netid {NET}", "--local plant.toml")


def local(said, name, lines, status, out):
    head = [f"# `{name}` in the same process: {said}", local_words(name)]
    return "\n".join([*head, *lines, f"status {status}", "out", *text_lines(out)]) + "\n"


def locals_():
    plant = ["file plant.toml", "from plant.toml"]
    for name, steps in STEPS.items():
        status, out, _ = client.run(COMMANDS[name], in_turn(steps), me=ME, peer=NET)
        yield local("as it should be; a second reading and a piece behind the last would fail.", name,
                    [*plant, "fail-read 2", "fail-put 20"], status, out)
        yield local("its description can't be read.", name, [*plant, "fail-read 1"], 4, "ads: read fault\n")
        yield local("its description is not there, which can't be told.", name, ["fail-put 1", "leave 7"], 5, "ads: re")
        yield local("its description breaks a rule.", name, [*plant, "change offset = 8 => offset = 2"], 2,
                    "ads: description rule 12 item 1\n")
        yield local("its description is no TOML.", name, [*plant, "change schema = 1 => schema == 1"], 2,
                    "ads: description syntax\n")
        yield local("its description is too long.", name, ["file plant.toml", "repeat 1048577 0123456789abcdef"], 12,
                    "ads: file too long\n")
        yield local("no route names it.", name, [*plant, f"change {ME} => 9.9.9.9.1.1"], 9, "ads: bad peer\n")
        yield local("no route names it, which can't be told.", name,
                    [*plant, f"change {ME} => 9.9.9.9.1.1", "fail-put 1"], 5, "")
        yield local("the port is another.", name, [*plant, "change port = 851 => port = 852"], 8,
                    "ads: refused 0x6 target port not found\n")
        for put in range(1, len(out.splitlines()) + 1):
            stopped = client.run(COMMANDS[name], in_turn(steps), me=ME, peer=NET, fail_put=put, leave=3)
            yield local(f"piece {put} of the output can't be written; three bytes of it are.", name,
                        [*plant, f"fail-put {put}", "leave 3"], stopped[0], stopped[1])


def talker_of(name):
    talker = client.Client(COMMANDS[name], ME, NET, 851)
    talker.begin(FIRST)
    for k, step in enumerate(STEPS[name]):
        talker.take("bytes", FIRST + k, step)
    return talker


SUBJECTS = {"pieces": pieces, "frames": frames, "entries": entries, "values": values, "lists": lists,
            "samples": samples, "types": types, "calls": calls, "local": locals_}


# The profiles of the server.


def by_program(ads, where, words):
    """What a call of the program prints of a server over a socket, and its status; of a call that goes by the clock how
    many lines."""
    given = [ads, *map(str, words), "--to", where, "--netid", NET, "--me", ME]
    if words[0] == "watch":
        given = [ads, "watch", words[1], "--mode", words[2], "--cycle", str(words[3]), "--count", str(words[4]), "--to",
                 where, "--netid", NET, "--me", ME]
    it = subprocess.run(given, capture_output=True, text=True, timeout=60)
    return it.returncode, len(it.stdout.splitlines()) if words[0] == "watch" else it.stdout


def wanted_of(words, steps):
    status, out, _ = client.run(words, in_turn(steps), me=ME, peer=NET)
    return status, len(out.splitlines()) if words[0] == "watch" else out


def try_profiles(programs):
    """Whether all calls are answered alike; how many are not."""
    wrong = [f"{name}: the model answers otherwise in the wide profile" for name,
             words in COMMANDS.items() if honest(words, wide=True) != STEPS[name]]
    for profile in ("strict", "wide") if programs else ():
        import wide_runs  # noqa: PLC0415

        ads, adsd = map(os.path.abspath, programs)
        for name, words in COMMANDS.items():
            # (a daemon anew: some calls change what it is)
            with tempfile.TemporaryDirectory() as folder, wide_runs.served(adsd, folder, PLANT, profile) as (_, port):
                came = by_program(ads, f"127.0.0.1:{port}", words)
            if came != wanted_of(words, STEPS[name]):
                wrong.append(f"{name}, {profile}: {came} came, {wanted_of(words, STEPS[name])} was wanted")
    for said in wrong:
        print(said)
    print(f"{len(COMMANDS)} calls of a client by the model{', and by the programs' if programs else ''} in both "
          f"profiles, {len(wrong)} otherwise")
    return len(wrong)


if __name__ == "__main__":
    if sys.argv[1:2] != ["--profiles"] or len(sys.argv) not in (2, 4):
        sys.exit(__doc__)
    sys.exit(1 if try_profiles(sys.argv[2:]) else 0)
