"""The runs of the relay that model/hostile.py writes: what it passes on, and what no well-behaved asker or target
sends; what must come is from the model of the relay (model/protocol.py). relay.runs has the plain cases,
hostile_relay_*.runs the others."""
import hostile
import protocol
from ams import OWN_PORT, PORT, any_frame, net_of, u16, u32

D = hostile.described("relay.toml")
# Panel and logger ask, rig and line are asked. The last two have no route: the one is the description's own NetId.
PANEL, RIG, LOGGER, LINE, OWN, STRANGER = ("192.168.0.9.1.1", "192.168.0.10.1.1", "192.168.0.11.1.1",
                                           "192.168.0.12.1.1", "5.1.2.3.1.1", "9.9.9.9.1.1")
KINDS = {"request": {}, "response": {"flags": 5}, "notification": {"command": 8}}
QUEUED, LONGEST, ALL = protocol.QUEUED, 2097152 + 6, 2 ** 64 - 1


def frame(source, target, number=1, *, ports=(OWN_PORT, PORT), payload=b"", **said):
    """A frame between two machines, by its source's port and its target's."""
    ends = net_of(target) + u16(ports[1]), net_of(source) + u16(ports[0])
    return any_frame(*ends, payload, **{"command": 4, "number": number, **said})


def ask(number=1, source=PANEL, target=RIG, **other):
    return frame(source, target, number, **other)


def answer(number=1, source=RIG, target=PANEL, **other):
    return frame(source, target, number, **{"flags": 5, "ports": (851, 32905), **other})


def note(source=RIG, target=PANEL, payload=b""):
    return frame(source, target, 0, command=8, ports=(851, 32905), payload=payload)


def hello(source):
    """A response to nothing: it is dropped, and its sender owns its NetId from then on."""
    return frame(source, STRANGER, 0, flags=5)


def opened(*nets):
    """Connections 1, 2.. that own these NetIds."""
    return [event for number, net in enumerate(nets, 1) for event in (("open", number), ("bytes", number, hello(net)))]


def sent(number, *frames):
    """Frames of one connection, each in a piece of its own."""
    return [("bytes", number, it) for it in frames]


def many(number, *parts):
    """A piece made of parts, each so many times; the first once."""
    return [("bytes", number, b"".join(count * given for count, given in parts), parts)]


def long_one(number, source, target, size, **other):
    """A frame of so many bytes with its head, in a piece of its own."""
    head = frame(source, target, length=size - 38, **other)
    return many(number, (1, head[:2] + u32(size - 6) + head[6:]), (size - 38, b"\0"))


def lines_of(event):
    if len(event) == 4:
        (_, head), *parts = event[3]
        return [f"+ bytes {event[1]} {head.hex()}", *(f"repeat {count} {given.hex()}" for count, given in parts), "|"]
    if event[0] == "reload":
        return ["| reload", "| this is no description", "| ."]
    return hostile.lines_of(event, "")


def run(said, events, plant="relay.toml"):
    """A run of `relay` over a script."""
    d = D if plant == "relay.toml" else hostile.PLANT
    head = [f"# {line}" for line in said.splitlines()] + [f"words relay {plant} it.script", f"file {plant}",
                                                          f"from {plant}", "file it.script"]
    script = [line for event in events for line in lines_of(event)]
    return "\n".join(head + script + ["status 0", "out"] + [
        f"| {line}" for line in protocol.relayed(d, events).splitlines()]) + "\n"


def wire(said, events, fails=0, cuts=(), puts=None, limit=1000):
    """A run of `relay` over a wire."""
    return hostile.on_a_wire(said, "relay relay.toml", protocol.Relay(D), events, (fails, cuts, puts), limit)


# The plain cases.


def cases():
    first = [("open", 1), ("open", 2), *sent(1, ask())]
    yield run("Nobody owns the target of a request, and its sender is told error 7. Then the rig sends a notification, "
              "by which it owns its NetId: it comes unchanged. The same request reaches it;\n"
              "its response comes back to the asker, and the same response once more answers nothing and is dropped.",
              [*first, *sent(2, note()), *sent(1, ask()), *sent(2, answer(), answer())], "plant.toml")
    yield run("The asker of a request is gone, and another connection owns its NetId: the late response is for "
              "neither.",
              [*opened(PANEL, RIG), *sent(1, ask()), ("close", 1), ("open", 3), *sent(3, hello(PANEL)),
               *sent(2, answer()), *sent(3, ask(2)), *sent(2, answer(2))])
    yield run("A request and then responses with another port of the asker, another port of the asked, another command "
              "and another id: all are dropped. The right one passes.",
              [*opened(PANEL, RIG), *sent(1, ask()), *sent(2, answer(ports=(851, 32906)), answer(ports=(852, 32905)),
                                                           answer(command=2), answer(2), answer())])
    yield run("Two requests that are alike and three responses: two pass.",
              [*opened(PANEL, RIG), *sent(1, ask(), ask()), *sent(2, answer(), answer(), answer())])
    yield run("The panel's NetId is the source of a frame on a second connection, which is shut. Once the panel is "
              "gone another connection may own it.",
              [*opened(PANEL), ("open", 2), *sent(2, ask()), ("close", 1), ("open", 3), *sent(3, ask())])
    yield run("A connection that owns one NetId sends from another, which nobody owns: it is shut, and what it owned "
              "is free.",
              [*opened(PANEL), *sent(1, ask(source=LOGGER)), ("open", 2), *sent(2, ask())])
    yield run("A response as the first frame of a connection is dropped, and gives it its NetId all the same: a "
              "request reaches it.", [*opened(PANEL), ("open", 2), *sent(2, answer()), *sent(1, ask())])
    yield run("A request and a response to oneself come back; the response to nothing does not.",
              [*opened(PANEL), *sent(1, ask(target=PANEL), *2 * [answer(source=PANEL, ports=(851, 32905))])])
    for name, kind in KINDS.items():
        yield run(f"A {name} whose data length is not that of its data: its connection is shut, and error 0xE is not "
                  f"told.", [*opened(PANEL, RIG), *sent(1, ask(), ask(2, length=1, **kind), ask(3))])
        yield run(f"A {name} whose source has no route: its connection is shut.",
                  [*opened(PANEL), ("open", 2), *sent(2, ask(source=STRANGER, **kind))])
    yield run("A notification to nobody is dropped; it counts as unknown.",
              [*opened(PANEL), *sent(1, note(PANEL, RIG))])
    yield from remembered()
    yield from overflowing()
    yield run("A frame from another's NetId between good ones, all in one piece: what stands behind it is not taken.",
              [*opened(PANEL, RIG), ("bytes", 1, ask() + ask(2, source=RIG) + ask(3))])
    yield run("A request comes byte by byte.", [*opened(PANEL, RIG), *sent(1, *(ask()[at:at + 1] for at in range(38))),
                                                *sent(2, answer())])
    yield run("Behind two frames of a piece stand six bytes that are no frame's: both are passed on, and the "
              "connection is shut.", [*opened(PANEL, RIG), ("bytes", 1, ask() + ask(2) + b"\1" + bytes(5))])
    yield run("A tick, and the bytes of no description in place of the description's: no line tells of either, and the "
              "request between its pieces passes.",
              [*opened(PANEL, RIG), ("bytes", 1, ask()[:20]), ("tick", 5), ("reload", 0), ("bytes", 1, ask()[20:]),
               ("reload", 0), *sent(2, answer())])
    yield run("The next offer to the target fails: it is lost with the request. Another connection owns its NetId "
              "then, and its response answers nothing.",
              [*opened(PANEL, RIG), ("fail", 2), *sent(1, ask()), ("open", 3), *sent(3, hello(RIG), answer()),
               *sent(1, ask(2)), *sent(3, answer(2))])
    events = [("open", 1), ("open", 2), *sent(2, hello(RIG)), *sent(1, ask()), *sent(2, answer())]
    for limit in (0, 1, 4, 5, 6):
        yield wire(f"A request and its response over a wire, of whose five events {limit} are to be taken.", events,
                   limit=limit)
    yield wire("The wire can't be started.", events, 1)
    yield wire("The second event does not come.", events, 3)
    yield wire("The first offer takes ten bytes, the second none, the third what is left.",
               [*events, ("writable", 2), ("writable", 2)], cuts=[10, 0])


def remembered():
    """The last 4,096 requests of an asker."""
    blocked = [("room", 2, 0)]
    for some in (4096, 4097):
        last = "it is the oldest of 4,096 that are remembered"
        last = "only the last 4,096 are remembered, so it is dropped" if some > 4096 else last
        yield run(f"{some:,} requests are passed on, the first with another id, and its response comes: {last}.\n"
                  "The response to the others passes.",
                  [*opened(PANEL, RIG), *blocked, *many(1, (1, ask()), (some - 1, ask(2))),
                   *sent(2, answer(), answer(2))])
    yield run("4,096 requests, the first to a third machine, which is gone by then, with its requests: one more takes "
              "no other's place.",
              [*opened(PANEL, RIG, LINE), *blocked, *sent(1, ask(7, target=LINE), ask(1)),
               *many(1, (1, ask(2)), (4093, ask(2))), ("close", 3), *sent(1, ask(3)), *sent(2, answer(1), answer(3))])


def overflowing():
    """4,194,304 bytes wait for a connection, and no more."""
    full = [*opened(PANEL, RIG, LOGGER), ("room", 2, 0), *2 * long_one(1, PANEL, RIG, QUEUED // 2)]
    for name in ("request", "notification"):
        yield run(f"As many bytes wait for the rig as may; a {name} of a third machine has no room: the rig is "
                  f"shut{', and the sender is told error 7' if name == 'request' else ''}.",
                  [*full, *sent(3, ask(source=LOGGER, **KINDS[name])), *sent(3, ask(2, source=LOGGER))])
    full = [*opened(PANEL, RIG), *sent(1, ask()), ("room", 1, 0), *2 * long_one(2, RIG, PANEL, QUEUED // 2, command=8)]
    yield run("As many bytes wait for the panel as may when a response to its request comes: it is shut, and the "
              "response counts as passed on by nobody.", [*full, *sent(2, answer(), note())])
    yield run("As many bytes wait for the panel as may when it sends a request to nobody: there is no room for the "
              "error 7, and it is shut.", [*full, *sent(1, ask(2, target=LINE))])


# Owners and sources.


def owners():
    for name, kind in KINDS.items():
        yield run(f"The first frame of a connection is a {name} from a NetId that another connection owns.",
                  [*opened(PANEL, RIG), ("open", 3), *sent(3, ask(source=RIG, target=PANEL, **kind)), *sent(1, ask())])
        yield run(f"A connection that owns a NetId sends a {name} from another's.",
                  [*opened(PANEL, RIG), *sent(1, ask(), ask(2, source=RIG, target=PANEL, **kind), ask(3)),
                   *sent(2, answer())])
        yield run(f"A connection that owns a NetId sends a {name} from one that has no route.",
                  [*opened(PANEL, RIG), *sent(1, ask(source=STRANGER, **kind), ask(2))])
        yield run(f"A {name} from the description's own NetId, which has no route; and one to it.",
                  [*opened(PANEL, RIG), *sent(1, ask(target=OWN, **kind)), *sent(2, frame(OWN, PANEL, **kind))])
        for said, length, payload in (("one less than", 3, bytes(4)), ("one more than", 5, bytes(4)),
                                      ("none of", 0, bytes(4)), ("far more than", 2 ** 32 - 1, b"")):
            yield run(f"The data length of a {name} is {said} its bytes of data.",
                      [*opened(PANEL, RIG), *sent(1, ask(length=length, payload=payload, **kind), ask(2))])
    net = net_of(PANEL)
    for at in range(6):
        near = ".".join(str(it ^ (k == at)) for k, it in enumerate(net))
        yield run(f"The source of a request is the panel's NetId, but for a bit of byte {at}; the target of another "
                  f"is.", [*opened(PANEL, RIG), *sent(2, ask(source=RIG, target=near)), *sent(1, ask(source=near))])
    for said, ends in (("closes", [("close", 1)]), ("is lost", [("fail", 1), *sent(2, note())]),
                       ("is shut for a broken frame", sent(1, b"\1" + bytes(5))),
                       ("is shut for a wrong length", sent(1, ask(length=1)))):
        yield run(f"The panel's connection {said}, and its NetId is free: the next one that sends from it owns it, and "
                  f"the one behind that is shut.",
                  [*opened(PANEL, RIG), *ends, ("open", 3), ("open", 4), *sent(3, ask()), *sent(4, ask()),
                   *sent(2, answer(), note())])
    yield run("A frame that is not whole yet gives no NetId: the connection that is first with a whole one owns it, "
              "and the other is shut when the rest comes.",
              [("open", 1), ("open", 2), ("bytes", 1, ask()[:37]), *sent(2, ask()), ("bytes", 1, ask()[37:])])
    for said, given in (("of a wrong length", ask(length=9)), ("that is no frame", b"\0\0" + u32(31) + bytes(31))):
        yield run(f"A first frame {said} gives no NetId.",
                  [("open", 1), ("open", 2), *sent(1, given), *sent(2, ask()), *sent(1, ask())])
    yield run("A request to nobody gives its sender its NetId; so does a notification.",
              [("open", 1), ("open", 2), *sent(1, ask()), *sent(2, note(), ask(source=RIG, target=PANEL))])
    yield run("Ports have no part in owning: frames from each port of one machine come on one connection, and those to "
              "each port of a machine go to one.",
              [*opened(PANEL, RIG), *sent(1, *(ask(k, ports=(k, 65535 - k)) for k in (0, 1, 851, 65535))),
               *sent(2, *(answer(k, ports=(65535 - k, k)) for k in (65535, 1, 0, 851)))])
    for said, target in (("that no connection owns", LINE), ("without a route", STRANGER), ("of zeros", "0.0.0.0.0.0")):
        yield run(f"A request, a notification and a response to a NetId {said}.",
                  [*opened(PANEL), *sent(1, *(ask(k, target=target, **kind) for k,
                                              kind in enumerate(KINDS.values(), 1)))])
    yield run("Two connections that are lost and shut in the turn of one event: the first takes nothing more, the "
              "second sends from its NetId.",
              [*opened(PANEL, RIG), ("fail", 1), ("open", 3),
               ("bytes", 3, ask(source=LOGGER, target=PANEL) + ask(source=PANEL, target=RIG)), ("open", 4),
               *sent(4, ask())])
    yield run("In one piece a request to each of three machines, and to oneself.",
              [*opened(PANEL, RIG, LOGGER, LINE), ("bytes", 1,
                                                   b"".join(ask(k, target=it) for k,
                                                            it in enumerate((LINE, PANEL, RIG, LOGGER))))])


# Responses.


def answers():
    wrong = {
        "to another machine": answer(target=LOGGER), "from another port": answer(ports=(0, 32905)),
        "to another port": answer(ports=(851, 0)), "to the ports as the request had them": answer(ports=(32905, 851)),
        "of command 0": answer(command=0), "of command 5": answer(command=5),
        "of a command with another high byte": answer(command=0x104),
        "with the id 0": answer(0), "with an id that differs in its last byte": answer(1 + 2 ** 24),
        "with the greatest id": answer(2 ** 32 - 1), "to nobody": answer(target=STRANGER),
        "to its sender": answer(target=RIG),
    }
    for said, given in wrong.items():
        yield run(f"A response {said} is dropped; the right one behind it passes, once.",
                  [*opened(PANEL, RIG, LOGGER), *sent(1, ask()), *sent(2, given, answer(), answer())])
    yield run("The addresses of a response are not exchanged: its source is the panel's, so its sender is shut.",
              [*opened(PANEL, RIG), *sent(1, ask()), *sent(2, ask(flags=5), answer())])
    yield run("A third machine responds with the id and command of another's request: dropped from its own NetId, shut "
              "from the rig's.",
              [*opened(PANEL, RIG, LOGGER), *sent(1, ask()), *sent(3, answer(source=LOGGER), answer()),
               *sent(2, answer())])
    for flags in (1, 3, 5, 7, 0x45, 0x8001, 0xFFFF):
        yield run(f"A response is what has flag 0x0001: one with the flags {flags:#06x} passes, once.",
                  [*opened(PANEL, RIG), *sent(1, ask()), *sent(2, *2 * [answer(flags=flags)])])
    for flags in (0, 2, 4, 6, 0x44, 0xFFFE):
        yield run(f"What has no flag 0x0001 is a request, and so it is with the flags {flags:#06x}: it reaches its "
                  f"target, and its response the asker.", [*opened(PANEL, RIG), *sent(1, ask(flags=flags)),
                                                           *sent(2, answer())])
    for command in (0, 1, 2, 3, 5, 6, 7, 8, 9, 10, 0x0804, 0x0108, 65535):
        yield run(f"A frame of command {command}: "
                  f"{'a notification has no response' if command == 8 else 'its response passes, once'}; then the same "
                  f"to nobody.",
                  [*opened(PANEL, RIG), *sent(1, ask(command=command)), *sent(2, *2 * [answer(command=command)]),
                   *sent(1, ask(2, target=LINE, command=command))])
    yield run("Data and error codes are nothing to a relay: a request and a response with either.",
              [*opened(PANEL, RIG), *sent(1, ask(error=5, payload=b"\1\2\3")),
               *sent(2, answer(error=0x745, payload=bytes(range(40))))])
    yield run("Two requests are answered in the other order.",
              [*opened(PANEL, RIG), *sent(1, ask(1), ask(2)), *sent(2, answer(2), answer(1))])
    yield run("Two machines ask with one id, and are answered in the other order: each has its own.",
              [*opened(PANEL, RIG, LOGGER), *sent(1, ask()), *sent(3, ask(source=LOGGER)),
               *sent(2, answer(target=LOGGER), answer())])
    yield run("One machine asks two others with one id.",
              [*opened(PANEL, RIG, LINE), *sent(1, ask(), ask(target=LINE)), *sent(3, answer(source=LINE)),
               *sent(2, answer(), answer())])
    yield run("Requests of two machines to each other with one id: each response goes to its asker.",
              [*opened(PANEL, RIG), *sent(1, ask(ports=(7, 7))), *sent(2, ask(source=RIG, target=PANEL, ports=(7, 7)),
              answer(ports=(7, 7))), *sent(1, answer(source=PANEL, target=RIG, ports=(7, 7)))])
    yield run("A response comes before its request: it is dropped, and the one behind the request passes.",
              [*opened(PANEL, RIG), *sent(2, answer()), *sent(1, ask()), *sent(2, answer())])
    yield run("A request to nobody is told error 7 and is not remembered: a response of who owns the target later is "
              "dropped.", [*opened(PANEL), *sent(1, ask()), ("open", 2), *sent(2, answer(), note())])
    yield run("The error 7 of a relay answers no request that waits: the same request that was passed on before is "
              "answered still.",
              [*opened(PANEL, RIG, LINE), *sent(1, ask(), ask(target=LINE)), ("close", 3), *sent(1, ask(target=LINE)),
               *sent(2, answer())])
    ends = {"closed": [("close", 1)], "lost": [("fail", 1), *sent(3, note(LOGGER))], "shut": sent(1, ask(9, length=1))}
    for said, end in ends.items():
        yield run(f"The asker is {said} before the response comes, which is dropped.",
                  [*opened(PANEL, RIG, LOGGER), *sent(1, ask()), *end, *sent(2, answer())])
        yield run(f"The asker is {said}, and its NetId another's, who asks with the same id: the first response "
                  f"answers the second request, and the second nothing.",
                  [*opened(PANEL, RIG, LOGGER), *sent(1, ask()), *end, ("open", 4), *sent(4, ask()),
                   *sent(2, answer(), answer())])
    ends = {"closed": [("close", 2)], "lost": [("fail", 2), *sent(3, note(LOGGER, RIG))],
            "shut": sent(2, answer(length=1))}
    for said, end in ends.items():
        yield run(f"The asked is {said}, and another connection owns its NetId, whose response answers nothing, and "
                  f"the next request reaches it.",
                  [*opened(PANEL, RIG, LOGGER), *sent(1, ask()), *end, ("open", 4), *sent(4, answer()),
                   *sent(1, ask(2)), *sent(4, answer(2), answer())])
    for some in (1, 2, 5):
        yield run(f"{some} requests with one id and {2 * some} responses: {some} pass, whatever each says.",
                  [*opened(PANEL, RIG), *sent(1, *some * [ask()]),
                   *sent(2, *(answer(payload=bytes([k])) for k in range(2 * some)))])
    yield run("Sixteen requests with ids of their own in one piece, and their responses in one, twice and in the other "
              "order.",
              [*opened(PANEL, RIG), ("bytes", 1, b"".join(map(ask, range(16)))),
               ("bytes", 2, b"".join(answer(k) for k in reversed(range(16))) + b"".join(map(answer, range(16))))])


# Limits: requests that are remembered, bytes that wait.


def limits():
    deaf = [("room", 2, 0)]
    for some in (4095, 4098, 4200):
        kept = [ask(k) for k in (1, 2, 3)]
        yield run(f"{some:,} requests, of which the first three have ids of their own: the last 4,096 are remembered.",
                  [*opened(PANEL, RIG), *deaf, *sent(1, *kept), *many(1, (1, ask(4)), (some - 4, ask(4))),
                  *sent(2, *(answer(k) for k in (1, 2, 3, 4)))])
    yield run("Each of two machines has its own 4,096: as many of another take no place of the panel's first.",
              [*opened(PANEL, RIG, LOGGER), *deaf, *sent(1, ask()),
               *many(3, (1, ask(2, source=LOGGER)), (4096, ask(2, source=LOGGER))), *sent(2, answer())])
    yield run("A notification behind 4,096 requests is not remembered, and takes no place.",
              [*opened(PANEL, RIG), *deaf, *sent(1, ask()), *many(1, (1, ask(2)), (4094, ask(2))),
               *sent(1, note(PANEL, RIG)), *sent(2, answer())])
    yield run("A request to nobody behind 4,096 requests takes no place.",
              [*opened(PANEL, RIG), *deaf, *sent(1, ask()), *many(1, (1, ask(2)), (4094, ask(2))),
               *sent(1, ask(3, target=LINE)), *sent(2, answer())])
    yield run("Of 4,096 requests the second is answered: one more takes no place, and the next one the first's.",
              [*opened(PANEL, RIG), *deaf, *sent(1, ask(1), ask(2)), *many(1, (1, ask(3)), (4093, ask(3))),
               *sent(2, answer(2)), *sent(1, ask(4)), *sent(2, answer(2)), *sent(1, ask(5)),
               *sent(2, answer(1), answer(4), answer(5))])
    yield run("4,097 requests that are alike: 4,096 responses pass, and no more.",
              [*opened(PANEL, RIG), *deaf, ("room", 1, 0), *many(1, (1, ask()), (4096, ask())),
               *many(2, (1, answer()), (4099, answer()))])
    for size, fits in ((LONGEST, True), (LONGEST + 1, False)):
        yield run(f"A notification of {size:,} bytes: "
                  f"{'the longest frame there is, which passes' if fits else 'no frame, and its sender is shut'}.",
                  [*opened(PANEL, RIG), ("room", 1, 0), *long_one(2, RIG, PANEL, size, command=8), *sent(2, note())])
    for name, kind in (("request", {}), ("notification", {"command": 8})):
        for more in (0, 1):
            yield run(f"Of the bytes that may wait for the rig there are left those of a "
                      f"{name}{', but one: the rig is shut, and the sender stays' if more else ': it waits'}.",
                      [*opened(PANEL, RIG), ("room", 2, 0), *long_one(1, PANEL, RIG, QUEUED // 2),
                       *long_one(1, PANEL, RIG, QUEUED // 2 - 38 + more), *sent(1, ask(9, **kind), ask(10, **kind))])
    for more in (0, 1):
        yield run(f"Of the bytes that may wait for the asker there are left those of a "
                  f"response{', but one: it is shut' if more else ', which waits'}.",
                  [*opened(PANEL, RIG), *sent(1, ask()), ("room", 1, 0),
                   *long_one(2, RIG, PANEL, QUEUED // 2, command=8),
                   *long_one(2, RIG, PANEL, QUEUED // 2 - 38 + more, command=8), *sent(2, answer(), note())])
        yield run(f"Of the bytes that may wait for a sender there are left those of an error "
                  f"7{', but one: it is shut' if more else ', which waits'}.",
                  [*opened(PANEL, RIG), ("room", 1, 0), *long_one(2, RIG, PANEL, QUEUED // 2, command=8),
                   *long_one(2, RIG, PANEL, QUEUED // 2 - 38 + more, command=8), *sent(1, ask(target=LINE)),
                   *sent(2, note())])
    yield run("Bytes that were taken make room: behind a full queue of which 38 bytes were taken one more frame waits, "
              "and the next one shuts.",
              [*opened(PANEL, RIG), ("room", 2, 0), *2 * long_one(1, PANEL, RIG, QUEUED // 2), ("room", 2, 38),
               *sent(1, ask(2), ask(3))])
    yield run("A machine whose own queue has no room sends to itself: it is shut, and there is no room for the error 7 "
              "either.", [*opened(PANEL, RIG), ("room", 1, 0), *2 * long_one(2, RIG, PANEL, QUEUED // 2, command=8),
                          *sent(1, ask(target=PANEL)), *sent(2, note())])
    yield run("Two frames of one piece to a machine whose queue is full: the first shuts it, the second finds nobody, "
              "and both are told error 7.",
              [*opened(PANEL, RIG, LOGGER), ("room", 2, 0), *2 * long_one(1, PANEL, RIG, QUEUED // 2),
               ("bytes", 3, ask(1, source=LOGGER) + ask(2, source=LOGGER))])
    yield run("The machine that is shut for its queue had asked, and was asked: both requests are dropped with it.",
              [*opened(PANEL, RIG, LOGGER), *sent(2, ask(3, source=RIG, target=LOGGER)), ("room", 2, 0),
               *2 * long_one(1, PANEL, RIG, QUEUED // 2), *sent(1, ask(2)),
               *sent(3, answer(3, source=LOGGER, target=RIG))])


# Streams that are cut, broken and lost; calls of the wire that fail.


def streams():
    for cut in range(1, 38, 2):
        yield run(f"A request in two pieces, the first of {cut} bytes; a notification to its sender between them.",
                  [*opened(PANEL, RIG), ("bytes", 1, ask()[:cut]), *sent(2, note()), ("bytes", 1, ask()[cut:]),
                   *sent(2, answer())])
    for said, head in (("reserved bytes that are not 0", b"\1\0" + u32(32)), ("31 bytes", b"\0\0" + u32(31)),
                       ("2,097,153 bytes", b"\0\0" + u32(2097153)), ("no bytes", bytes(6))):
        yield run(f"Behind a request comes a head of {said}: the request has passed, its sender is shut, and the "
                  f"response is dropped.", [*opened(PANEL, RIG), ("bytes", 1, ask() + head), *sent(2, answer())])
        yield run(f"A head of {said} from the target of a request: it is shut, and the next request told error 7.",
                  [*opened(PANEL, RIG), *sent(1, ask()), ("bytes", 2, head), *sent(1, ask(2))])
    yield run("A sender closes with half a frame sent: nothing of it passes.",
              [*opened(PANEL, RIG), ("bytes", 1, ask() + ask(2)[:20]), ("close", 1), *sent(2, answer())])
    for room in (0, 1, 37, 38, 39, 75):
        yield run(f"The target takes {room} bytes of two requests and then all: the rest of what it did not take, in "
                  f"order.", [*opened(PANEL, RIG), ("room", 2, room), *sent(1, ask(1), ask(2)), ("room", 2, ALL),
                              *sent(2, answer(2), answer(1))])
        yield run(f"The asker takes {room} bytes of two responses; then the target closes, and the asker takes all.",
                  [*opened(PANEL, RIG), ("room", 1, room), *sent(1, ask(1), ask(2)), *sent(2, answer(1), answer(2)),
                   ("close", 2), ("room", 1, ALL)])
    yield run("The next offer to the asker fails at its response: it is lost, and the response was passed on.",
              [*opened(PANEL, RIG), *sent(1, ask()), ("fail", 1), *sent(2, answer(), note())])
    yield run("Offers to both fail in one turn.", [*opened(PANEL, RIG, LOGGER), ("fail", 1), ("fail", 2),
                                                   ("bytes", 3, ask(source=LOGGER) + ask(source=LOGGER, target=PANEL)),
                                                   *sent(3, ask(2, source=LOGGER))])
    yield run("No event at all.", [])
    talk = [("open", 1), ("open", 2), *sent(1, ask()), *sent(2, note()), *sent(1, ask(2)), ("tick", 5),
            *sent(2, answer(2)), ("close", 2), *sent(1, ask(3))]
    for number in range(1, 16):
        yield wire(f"Call {number} of the wire fails: a start or an event ends the run, an offer loses its connection "
                   f"alone.", talk, number)
    for cut in range(0, 39, 4):
        yield wire(f"The first offer takes {cut} bytes: that connection waits, and the other is served.",
                   [*talk, ("writable", 1)], cuts=[cut])
        yield wire(f"Of a request of 38 bytes its target takes {cut} at the first offer, none at the second, and then "
                   f"what is left.",
                   [("open", 1), ("open", 2), *sent(2, hello(RIG)), *sent(1, ask()), ("writable", 2), ("tick", 1),
                    ("writable", 2), *sent(2, answer())], cuts=[cut, 0])
    for number in (1, 2):
        yield wire(f"Piece {number} of the output can't be written.", talk, puts=number)
    yield from files()


def files():
    """Readings, scripts and descriptions that fail."""
    words, script = "relay relay.toml it.script", [("open", 1), *sent(1, ask())]
    plant, it = ["file relay.toml", "from relay.toml"], ["file it.script",
                                                         *(line for event in script for line in lines_of(event))]
    text = protocol.relayed(D, script)
    for number in (1, 2):
        yield hostile.run(f"Reading {number} fails.", words, [*plant, *it, f"fail-read {number}"], 4,
                          "ads: read fault\n")
    yield hostile.run("Readings beyond the two fail, and pieces of output beyond the first.", words,
                      [*plant, *it, "fail-read 3", "fail-put 2"], 0, text)
    yield hostile.run("The script is not there.", words, plant, 4, "ads: read fault\n")
    yield hostile.run("Not a byte of the output can be written.", words, [*plant, *it, "fail-put 1"], 5, "")
    yield hostile.run("The output fails behind 50 bytes.", words, [*plant, *it, "fail-put 1", "leave 50"], 5, text[:50])
    yield hostile.run("The description breaks a rule.", words, [*plant, "change schema = 1 => schema = 3", *it], 2,
                      "ads: description rule 3 item 0\n")
    yield hostile.run("The description is no TOML.", words, [*plant, "change schema = 1 => schema = = 1", *it], 2,
                      "ads: description syntax\n")
    yield hostile.run("The description is too long.", words,
                      ["file relay.toml", "repeat 1048577 0123456789abcdef", *it], 12, "ads: file too long\n")
    yield hostile.run("The third line of the script is off the grammar.", words,
                      [*plant, "file it.script", "| open 1", "| tick 1", "| tick x"], 3, "ads: script line 3\n")
    yield hostile.run("The script is too long.", words, [*plant, "file it.script", "repeat 1048577 0123456789abcdef"],
                      12, "ads: file too long\n")
    yield hostile.run("The description of a relay over a wire can't be read: it does not listen.",
                      "relay relay.toml --listen 127.0.0.1:48898 --events 9", [*plant, "fail-read 1"], 4,
                      "ads: read fault\n")


SUBJECTS = {"relay": cases, "hostile_relay_owners": owners, "hostile_relay_answers": answers,
            "hostile_relay_limits": limits, "hostile_relay_streams": streams}
