"""What the wide server answers otherwise than the strict one, and what it answers alike: requests as TwinCAT's clients
send them, each with the reply that must come, by hand. model/hostile.py writes them as runs of `cases_wide`, and
compares each reply with that of the model of the protocol (model/protocol.py)."""
import protocol
from ams import OWN_PORT, PORT, framed, net_of, u16, u32
from hostile import ME, NET, OTHER, PLANT, PLANT2, ask, add, frame, lines_of, played_wide, read, write

TITLE = bytes.fromhex("4d69780000000000")


def reply(command, number, payload, *, error=0, to=ME):
    return framed(net_of(to) + u16(OWN_PORT), net_of(NET) + u16(PORT), command, 5, error, number, payload)


def given(number, data, command=2):
    """The reply of a Read, or of a ReadWrite, with data."""
    return reply(command, number, u32(0) + u32(len(data)) + data)


def refused(number, code, command=2):
    """A reply with a result alone; of a Read and a ReadWrite it has an empty length behind."""
    return reply(command, number, u32(code) + (b"" if command in (3, 7) else u32(0)))


def done(number, command=3):
    return reply(command, number, u32(0))


def handled(number, handle):
    return given(number, u32(handle), 9)


def added(number, handle):
    return reply(6, number, u32(0) + u32(handle))


def stamp(moment, *samples):
    stamps = u32(1) + moment.to_bytes(8, "little") + u32(len(samples)) + b"".join(u32(handle) + u32(len(
        data)) + data for handle, data in samples)
    return framed(net_of(ME) + u16(OWN_PORT), net_of(NET) + u16(PORT), 8, 4, 0, 0, u32(len(stamps)) + stamps)


def by_name(number, name, group=0xF003, most=4):
    return ask(number, group, 0, most, name)


def row(said, *turns, others=None):
    """A run of one client, connection 1, and of one beside it, 2: what each event is, and the frames that come of
    it."""
    events, out = [("open", 1)], []
    for event, *frames in turns:
        events.append(event if isinstance(event, tuple) else ("bytes", 1, event))
        conn = event[1] if isinstance(event, tuple) and event[0] == "bytes" else 1
        out += [it if isinstance(it, str) else f"out {conn} {it.hex()}" for it in frames]
    came = protocol.play(PLANT, [], events, True, others)
    wanted = "".join(line + "\n" for line in out)
    if wanted != came.rsplit("\n", 2)[0] + "\n":
        raise SystemExit(f"the model of the protocol and a row differ: {said}\nwanted:\n{wanted}came:\n{came}")
    return played_wide(said, [line for event in events for line in lines_of(event, "plant2.toml")], came, others)


def beside(*frames):
    return ("bytes", 2, b"".join(frames))


def longer():
    first = (by_name(1, b"Main.title"), handled(1, 1))
    whole = (read(2, 0xF005, 1, 1024), given(2, TITLE))
    yield row("A Read by a handle of more bytes than there are gives those that are there: the size that is asked is "
              "that of a buffer.", first, whole)
    yield row("So does a ReadWrite by a name.", (by_name(1, b"Main.count\0", 0xF004, 1024), given(1, u32(42), 9)))
    yield row(
        "A handle of a part reads the part, and not its symbol; fewer bytes are the first of it, and none are none.",
        (by_name(1, b"Main.axis[2].pos"), handled(1, 1)), (write(2, 0xF005, 1, u32(7)), done(2)),
        (read(3, 0xF005, 1, 0xFFFFFFFF), given(3, u32(7))),
        (read(4, 0xF005, 1, 2), given(4, b"\7\0")), (read(5, 0xF005, 1, 0), given(5, b"")))
    yield row(
        "As a part of a sum of reads it is filled with zeros to the asked length, so that each part stands where its "
        "client looks for it.", first,
        (ask(2, 0xF080, 2, 1040, u32(0xF005) + u32(1) + u32(1024) + u32(0x4040) + u32(0) + u32(4)),
         given(2, u32(0) * 2 + TITLE + bytes(1016) + u32(42), 9)))
    yield row(
        "A sum that asks more of its parts than a reply can have is refused as it is by the strict server.", first,
        (ask(2, 0xF080, 1, 0xFFFFFFFF, u32(0xF005) + u32(1) + u32(0xFFFFFFFF)), refused(2, 0x705, 9)))
    yield row(
        "As a part of a sum of reads and writes it tells its own length.", first,
        (ask(2, 0xF082, 2, 1040, u32(0xF004) + u32(0) + u32(1020) + u32(10) + u32(0xF004) + u32(0) + u32(4) + u32(
            10) + b"Main.titleMain.count"),
         given(2, u32(0) + u32(8) + u32(0) + u32(4) + TITLE + u32(42), 9)))
    yield row(
        "What stands behind the value is given to nobody who reads it, also where another machine wrote there.", first,
        (("open", 2),),
        (beside(write(1, 0x4040, 80, b"\xff" * 8)), done(1)), whole)


def sums():
    """Sums of reads whose results tell how many bytes each gave."""
    first = (by_name(1, b"Main.title"), handled(1, 1))
    heads = u32(0xF005) + u32(1) + u32(16) + u32(0xF005) + u32(99) + u32(4)
    told = u32(0) + u32(8) + u32(0x710) + u32(0)
    yield row("A sum of reads that tells their lengths: each result with the length of its data, and a refused part "
              "with none.", first,
              (ask(2, 0xF084, 2, 36, heads), given(2, told + TITLE, 9)))
    yield row("The other fills the data of each part with zeros to the asked length, that of a refused part too, and "
              "tells what was given.", first,
              (ask(2, 0xF083, 2, 36, heads), given(2, told + TITLE + bytes(12), 9)))
    yield row("Room for one byte less refuses the whole sum; so does data that is not as long as its heads, and more "
              "than 500 parts.", first,
              (ask(2, 0xF083, 2, 35, heads), refused(2, 0x705, 9)),
              (ask(3, 0xF084, 2, 35, heads), refused(3, 0x705, 9)),
              (ask(4, 0xF083, 2, 1000, heads[:-1]), refused(4, 0x705, 9)),
              (ask(5, 0xF084, 1, 1000, heads), refused(5, 0x705, 9)),
              (ask(6, 0xF084, 501, 0xFFFFFFFF, heads), refused(6, 0x706, 9)))
    yield row("As a part of another sum neither is a group, nor is the one a part of the other.",
              (ask(1, 0xF082, 2, 24, u32(0xF083) + u32(0) + u32(4) + u32(0) + u32(0xF084) + u32(0) + u32(4) + u32(0)),
               given(1, (u32(0x702) + u32(0)) * 2, 9)),
              (ask(2, 0xF083, 1, 12, u32(0xF084) + u32(0) + u32(4)), given(2, u32(0x702) + u32(0) + bytes(4), 9)),
              (read(3, 0xF083, 0, 4), refused(3, 0x702)), (write(4, 0xF084, 0, u32(1)), refused(4, 0x702, 3)))
    yield row("No part; a part of no byte; and parts one behind the other.",
              (ask(1, 0xF083, 0, 0, b""), given(1, b"", 9)), (ask(2, 0xF084, 1, 8, u32(0x4040) + u32(0) + u32(0)),
                                                              given(2, u32(0) * 2, 9)),
              (ask(3, 0xF084, 2, 22, u32(0x4040) + u32(0) + u32(4) + u32(0x4040) + u32(0) + u32(2)),
               given(3, u32(0) + u32(4) + u32(0) + u32(2) + u32(42) + u32(42)[:2], 9)))


def notes():
    """Sums of additions and deletions of notifications."""
    def addition(offset, length, mode, group=0x4040):
        return u32(group) + u32(offset) + u32(length) + u32(mode) + u32(0) + u32(0)

    def deletions(number, *handles):
        return ask(number, 0xF086, len(handles), 4 * len(handles), b"".join(map(u32, handles)))

    one = addition(0, 4, 4)
    yield row("A sum of additions without the reserved bytes of the command: each result with its handle, a refused "
              "part with 0, and those behind it are tried.",
              (ask(1, 0xF085, 4, 32, one + addition(0, 4, 2) + addition(0, 2, 6) + addition(1000, 8, 3)),
               given(1, u32(0) + u32(1) + u32(0x713) + u32(0) + u32(0) + u32(2) + u32(0x703) + u32(0), 9)),
              (("tick", 1000), stamp(1000, (1, u32(42)), (2, u32(42)[:2]))), (add(2, 0x4040, 0, 4, 3), added(2, 3)))
    yield row("The same with the reserved bytes, which may hold anything.",
              (ask(1, 0xF085, 2, 16, one + bytes(range(16)) + addition(0, 2, 3) + b"\xff" * 16),
               given(1, u32(0) + u32(1) + u32(0) + u32(2), 9)),
              (("tick", 1000), stamp(1000, (1, u32(42)), (2, u32(42)[:2]))))
    yield row("A value by its handle is watched, and a name's handle that is not live has its code.",
              (by_name(1, b"Main.title"), handled(1, 1)),
              (ask(2, 0xF085, 2, 16, addition(1, 8, 4, 0xF005) + addition(9, 8, 4, 0xF005)),
               given(2, u32(0) + u32(1) + u32(0x710) + u32(0), 9)),
              (("tick", 1000), stamp(1000, (1, TITLE))))
    yield row("A sum of deletions: a notification is deleted once, and the others go on.",
              (ask(1, 0xF085, 2, 16, one + addition(0, 2, 3)), given(1, u32(0) + u32(1) + u32(0) + u32(2), 9)),
              (deletions(2, 1, 1, 3), given(2, u32(0) + u32(0x714) * 2, 9)),
              (("tick", 1000), stamp(1000, (2, u32(42)[:2]))), (deletions(3, 2), given(3, u32(0), 9)), (("tick", 2000),
              ))
    yield row("Room for one byte less refuses the whole sum; so does data that is not as long as its heads, and more "
              "than 500 parts; no part is run.",
              (ask(1, 0xF085, 1, 7, one), refused(1, 0x705, 9)),
              (ask(2, 0xF085, 1, 1000, one + bytes(15)), refused(2, 0x705, 9)),
              (ask(3, 0xF085, 2, 1000, one + one + bytes(16)), refused(3, 0x705, 9)),
              (ask(4, 0xF085, 501, 0xFFFFFFFF, one), refused(4, 0x706, 9)),
              (ask(5, 0xF086, 1, 3, u32(1)), refused(5, 0x705, 9)),
              (ask(6, 0xF086, 2, 8, u32(1) + b"\1\0\0"), refused(6, 0x705, 9)),
              (add(7, 0x4040, 0, 4), added(7, 1)))
    yield row("No part; and as a part of another sum neither is a group.",
              (ask(1, 0xF085, 0, 0, b""), given(1, b"", 9)), (ask(2, 0xF086, 0, 0, b""), given(2, b"", 9)),
              (ask(3, 0xF082, 2, 24, u32(0xF085) + u32(0) + u32(4) + u32(0) + u32(0xF086) + u32(0) + u32(4) + u32(0)),
               given(3, (u32(0x702) + u32(0)) * 2, 9)),
              (read(4, 0xF085, 0, 4), refused(4, 0x702)), (write(5, 0xF086, 0, u32(1)), refused(5, 0x702, 3)))
    yield row("A part beyond the 512th notification is refused, and those before it stay.",
              (ask(1, 0xF085, 500, 4000, one * 500), given(1, b"".join(u32(0) + u32(k) for k in range(1, 501)), 9)),
              (ask(2, 0xF085, 13, 104, one * 13), given(2, b"".join(u32(0) + u32(k)
                                                                    for k in range(501, 513)) + u32(0x716) + u32(0),
                                                        9)),
              (deletions(3, 1, 512), given(3, u32(0) * 2, 9)), (add(4, 0x4040, 0, 4), added(4, 513)))


def alike():
    first = (by_name(1, b"Main.title"), handled(1, 1))
    yield row("A handle that was never given, or is released, is not found, however much is asked.", first,
              (read(2, 0xF005, 9, 1024), refused(2, 0x710)), (write(3, 0xF006, 0, u32(1)), done(3)),
              (read(4, 0xF005, 1, 1024), refused(4, 0x710)))
    yield row("A longer write is refused, and changes nothing.", first,
              (write(2, 0xF005, 1, bytes(9)), refused(2, 0x705, 3)), (read(3, 0xF005, 1, 1024), given(3, TITLE)))
    yield row("A shorter write by handle writes the first bytes.", first, (write(2, 0xF005, 1, b"Hi\0"), done(2)),
              (read(3, 0xF005, 1, 81), given(3, b"Hi" + bytes(6))))
    yield row("A Read by group and offset that ends behind the area is refused.",
              (read(1, 0x4040, 72, 1024), refused(1, 0x705)))
    yield row("A notification by handle of more bytes than there are is refused.", first,
              (add(2, 0xF005, 1, 9), refused(2, 0x705, 6)))
    yield row("A handle whose symbol a reload gives another type is outdated, however much is asked.", first,
              (("reload", PLANT2), "reload ok 2"), (read(2, 0xF005, 1, 1024), refused(2, 0x711)))
    yield row("A client that may only read writes nothing.", first,
              (write(2, 0x4040, 0, u32(1), source=OTHER), reply(3, 2, u32(0x704), to=OTHER)))


def reloads():
    yield row("A reload that moves a symbol: the handle reads it there, and the server stays wide.",
              (by_name(1, b"Main.count"), handled(1, 1)),
              (("reload", PLANT2), "reload ok 2"), (read(2, 0xF005, 1, 1024), given(2, u32(42))),
              (by_name(3, b".Main.count\0\0"), handled(3, 2)))


def names():
    yield row("A name in a buffer of 81 bytes, as a PLC's function block sends it.",
              (by_name(1, b"MAIN.COUNT" + bytes(71)), handled(1, 1)), (read(2, 0xF005, 1, 4), given(2, u32(42))))
    yield row("One full stop in front, as global names of TwinCAT 2 have it.",
              (by_name(1, b".Main.count\0"), handled(1, 1)), (by_name(2, b".Main.count", 0xF004), given(2, u32(42), 9)))
    yield row("Two full stops, NULs alone, a full stop alone and no byte are no name.",
              (by_name(1, b"..Main.count"), refused(1, 0x710, 9)), (by_name(2, bytes(9)), refused(2, 0x710, 9)),
              (by_name(3, b"."), refused(3, 0x710, 9)), (by_name(4, b""), refused(4, 0x710, 9)))
    yield row("What stands behind the first NUL is no part of the name.",
              (by_name(1, b"Main.count\0x\0[9]"), handled(1, 1)))
    yield row("A full stop behind a NUL is none in front; blanks are no NULs.",
              (by_name(1, b"\0.Main.count"), refused(1, 0x710, 9)), (by_name(2, b"Main.count "), refused(2, 0x710, 9)))
    yield row("An info by such a name; its room is looked at as ever.",
              (by_name(1, b".Main.count\0\0", 0xF007, 12), given(1, u32(0x4040) + u32(0) + u32(4), 9)),
              (by_name(2, b".Main.count\0\0", 0xF007, 11), refused(2, 0x705, 9)))
    yield row("Data that is no name keeps its NULs: a sum of writes.",
              (ask(1, 0xF081, 2, 8, u32(0x4040) + u32(0) + u32(2) + u32(0x4040) + u32(2) + u32(2) + b"\7\0\t\0"),
               given(1, u32(0) * 2, 9)),
              (read(2, 0x4040, 0, 4), given(2, b"\7\0\t\0")))


def modes():
    yield row("Mode 6 is mode 4, on change.", (add(1, 0x4040, 0, 4, 6), added(1, 1)),
              (("tick", 1000), stamp(1000, (1, u32(42)))), (("tick", 2000),),
              (write(2, 0x4040, 0, u32(7)), done(2)), (("tick", 3000), stamp(3000, (1, u32(7)))))
    yield row("Mode 5 is mode 3, at each cycle.", (add(1, 0x4040, 0, 4, 5, 1000), added(1, 1)),
              (("tick", 1000), stamp(1000, (1, u32(42)))), (("tick", 1500),),
              (("tick", 2000), stamp(2000, (1, u32(42)))))
    for mode in (0, 1, 2, 7, 10, 0xFFFFFFFF):
        yield row(f"Mode {mode} is none.", (add(1, 0x4040, 0, 4, mode), refused(1, 0x713, 6)))


def control(number, ads, device=0):
    return frame(5, number, u16(ads) + u16(device) + u32(0))


def own():
    """A port's own bytes: its state words, by 0xF100, and the version of its symbols, by 0xF008."""
    yield row("The state words by their group: both, one, and a part; none of them at their end.",
              (read(1, 0xF100, 0, 4), given(1, u16(5) + u16(0))), (read(2, 0xF100, 2, 2), given(2, u16(0))),
              (read(3, 0xF100, 0, 1), given(3, b"\5")), (read(4, 0xF100, 4, 0), given(4, b"")))
    yield row("An offset behind them, and more bytes than stand there, are refused; they are not written by their "
              "group.", (read(1, 0xF100, 5, 0), refused(1, 0x703)), (read(2, 0xF100, 0, 5), refused(2, 0x705)),
              (read(3, 0xF100, 3, 0xFFFFFFFF), refused(3, 0x705)), (write(4, 0xF100, 0, u16(6)), refused(4, 0x702, 3)),
              (ask(5, 0xF100, 0, 4, b""), refused(5, 0x702, 9)))
    yield row("As a part of a sum of reads.", (ask(1, 0xF080, 2, 13,
                                                   u32(0xF100) + u32(0) + u32(4) + u32(0xF008) + u32(0) + u32(1)),
                                               given(1, u32(0) * 2 + u16(5) + u16(0) + b"\1", 9)))
    yield row("A notification on the state tells what a control sets, at the tick behind it.",
              (add(1, 0xF100, 0, 4), added(1, 1)), (("tick", 1000), stamp(1000, (1, u16(5) + u16(0)))), (("tick", 2000),
              ),
              (control(2, 6, 7), done(2, 5)), (read(3, 0xF100, 0, 4), given(3, u16(6) + u16(7))),
              (("tick", 3000), stamp(3000, (1, u16(6) + u16(7)))))
    yield row("A notification on the version tells a reload, at the tick behind it, and one on the state goes on.",
              (add(1, 0xF008, 99, 1), added(1, 1)),
              (add(2, 0xF100, 0, 2), added(2, 2)), (("tick", 1000), stamp(1000, (1, b"\1"), (2, u16(5)))),
              (("reload", PLANT2), "reload ok 2"), (("tick", 2000), stamp(2000, (1, b"\2"))),
              (read(3, 0xF008, 0, 1), given(3, b"\2")))
    yield row("A notification on other bytes than these is refused, in the order of the checks of every addition.",
              (add(1, 0xF008, 0, 2), refused(1, 0x705, 6)), (add(2, 0xF008, 0, 0), refused(2, 0x705, 6)),
              (add(3, 0xF100, 5, 1), refused(3, 0x703, 6)), (add(4, 0xF100, 3, 2), refused(4, 0x705, 6)),
              (add(5, 0xF100, 0, 0), refused(5, 0x705, 6)), (add(6, 0xF100, 9, 4, 7), refused(6, 0x713, 6)),
              (add(7, 0xF100, 9, 2049), refused(7, 0x717, 6)))


AXIS = bytes.fromhex(
    "d7000000 01000000 00000000 00000000 10000000 00000000 41000000 01000000 0400 0000 0000 0000 0300 4178697300 00 00"
    "37000000 01000000 00000000 00000000 01000000 00000000 21000000 02000000 0600 0400 0000 0000 0000 61637469766500 "
    "424f4f4c00 00"
    "34000000 01000000 00000000 00000000 04000000 04000000 03000000 02000000 0300 0400 0000 0000 0000 706f7300 "
    "44494e5400 00"
    "3b000000 01000000 00000000 00000000 06000000 08000000 1e000000 02000000 0500 0900 0000 0000 0000 6c6162656c00 "
    "535452494e4728352900 00")


def entry(size, number, name, kind=b"", *dims):
    """The entry of a type without members."""
    texts = name + b"\0" + kind + b"\0\0" + b"".join(low.to_bytes(4, "little", signed=True) + u32(count) for low,
                                                     count in dims)
    return u32(42 + len(texts)) + u32(1) + u32(0) * 2 + u32(size) + u32(0) + u32(number) + u32(1) + u16(len(
        name)) + u16(len(kind)) + u16(0) + u16(len(dims)) + u16(0) + texts


def typed(number, text, most=0xFFFFFFFF):
    return ask(number, 0xF011, 0, most, text)


def types():
    """The entry of a type by its text (0xF011), and the id of an array."""
    dint = entry(4, 3, b"DINT")
    yield row("The entry of a structure by its name, in any case of letters: that of the type list.",
              (typed(1, b"Axis\0"), given(1, AXIS, 9)), (typed(2, b"aXIS", 215), given(2, AXIS, 9)),
              (read(3, 0xF00E, 0, 215), given(3, AXIS)))
    yield row("A plain type and a text have no text of a type.", (typed(1, b"dint\0"), given(1, dint, 9)),
              (typed(2, b"String"), given(2, entry(81, 30, b"STRING(80)"), 9)),
              (typed(3, b"STRING(65534)"), given(3, entry(65535, 30, b"STRING(65534)"), 9)))
    yield row("An array has its element's text and id, and its bounds.",
              (typed(1, b"ARRAY [1..3] OF Axis\0"), given(1, entry(48, 65, b"ARRAY [1..3] OF Axis", b"Axis", (1, 3)),
                                                          9)), (typed(2, b"array [-1..0,0..2,5..5] of int"), given(
        2, entry(12, 2, b"ARRAY [-1..0,0..2,5..5] OF INT", b"INT", (-1, 2), (0, 3), (5, 1)), 9)),
              (typed(3, b"ARRAY [-2147483648..-2147483648] OF STRING(7)"),
               given(3, entry(8, 30, b"ARRAY [-2147483648..-2147483648] OF STRING(7)", b"STRING(7)", (-2147483648, 1)),
                     9)))
    yield row("An array of 1,048,576 bytes is one, of more it is none.", (
        typed(1, b"ARRAY [0..1048575] OF BYTE"), given(1, entry(1048576, 17, b"ARRAY [0..1048575] OF BYTE", b"BYTE", (
        0, 1048576)), 9)), (typed(2, b"ARRAY [0..1048576] OF BYTE"), refused(2, 0x710, 9)),
              (typed(3, b"ARRAY [0..524288] OF INT"), refused(3, 0x710, 9)),
              (typed(4, b"ARRAY [-2147483648..2147483647,-2147483648..2147483647,-2147483648..2147483647] OF Axis"),
               refused(4, 0x710, 9)), (typed(5, b"ARRAY [0..65535] OF Axis"),
                                       given(5, entry(1048576, 65, b"ARRAY [0..65535] OF Axis", b"Axis", (0, 65536)),
                                             9)), (typed(6, b"ARRAY [0..65536] OF Axis"), refused(6, 0x710, 9)))
    for number, text in enumerate((b"Nothing\0", b"", b"\0Axis", b"Axis ", b".Axis", b"ARRAY", b"STRING(65535)",
                                   b"STRING(07)", b"STRING()", b"ARRAY [3..1] OF INT", b"ARRAY [0..1]OF INT",
                                   b"ARRAY [0..1,0..1,0..1,0..1] OF INT", b"ARRAY [] OF INT",
                                   b"ARRAY [0..2147483648] OF INT", b"ARRAY [0..1] OF ARRAY [0..1] OF INT",
                                   b"ARRAY [0..1] OF Nothing",
                                   b"\xc4xis"), 1):
        yield row(f"No type: {text!r}.", (typed(number, text), refused(number, 0x710, 9)))
    yield row("Room for one byte less than the entry is refused, behind the name.",
              (typed(1, b"Axis", 214), refused(1, 0x705, 9)), (typed(2, b"DINT", 48), refused(2, 0x705, 9)),
              (typed(3, b"Axis", 0), refused(3, 0x705, 9)), (typed(4, b"Nothing", 0), refused(4, 0x710, 9)))
    yield row("A part of a sum gives an entry too; by another command the group is none.",
              (ask(1, 0xF082, 2, 114, u32(0xF011) + u32(0) + u32(49) + u32(4) + u32(0xF011) + u32(0) + u32(49) + u32(
                  5) + b"DINTDINU\0"), given(1, u32(0) + u32(49) + u32(0x710) + u32(0) + dint, 9)),
              (read(2, 0xF011, 0, 215), refused(2, 0x702)), (write(3, 0xF011, 0, b"Axis"), refused(3, 0x702, 3)))
    yield row("A client that may only read is told types too.",
              (frame(9, 1, u32(0xF011) + u32(0) + u32(49) + u32(4) + b"DINT", source=OTHER),
               reply(9, 1, u32(0) + u32(49) + dint, to=OTHER)))
    yield row("A reload brings the types of its description.", (("reload", PLANT2), "reload ok 2"),
              (typed(1, b"Axis"), given(1, AXIS, 9)))
    yield row("The entry of an array tells its element's id.",
              (by_name(1, b"Main.axis", 0xF009, 64), given(1,
                                                           u32(62) + u32(0x4040) + u32(8) + u32(48) + u32(65) + u32(
        0) + u16(9) + u16(20) + u16(0)
              + b"Main.axis\0ARRAY [1..3] OF Axis\0\0", 9)))


STRANGER = "9.9.9.9.1.1"


def others():
    """A machine that no route of plant.toml names."""
    reads = (read(1, 0x4040, 0, 4, source=STRANGER), reply(2, 1, u32(0) + u32(4) + u32(42), to=STRANGER))
    writes = write(2, 0x4040, 0, u32(7), source=STRANGER)
    barred = reply(3, 2, u32(0x704), to=STRANGER)
    yield row("A machine without a route is shut out, where others have no right.",
              (read(1, 0x4040, 0, 4, source=STRANGER), "shut 1"))
    yield row("Where others may read, it reads, and writes nothing.", reads, (writes, barred),
              (read(3, 0x4040, 0, 4), given(3, u32(42))), others="read")
    yield row("Where others may write, it reads and writes, and controls nothing.", reads,
              (writes, reply(3, 2, u32(0), to=STRANGER)), (read(3, 0x4040, 0, 4), given(3, u32(7))),
              (frame(5, 4, u16(6) + u16(0) + u32(0), source=STRANGER), reply(5, 4, u32(0x704), to=STRANGER)),
              others="write")
    yield row("A machine with a route has the right of its route alone.",
              (write(2, 0x4040, 0, u32(1), source=OTHER), reply(3, 2, u32(0x704), to=OTHER)), others="write")
    yield row("A reload leaves others their right.", (("reload", PLANT2), "reload ok 2"),
              (frame(4, 1, b"", source=STRANGER), reply(4, 1, u32(0) + u16(5) + u16(0), to=STRANGER)), (writes, barred),
              others="read")


SUBJECTS = {"wide_longer": longer, "wide_sums": sums, "wide_notes": notes, "wide_alike": alike, "wide_reloads": reloads,
            "wide_names": names, "wide_modes": modes, "wide_own": own, "wide_others": others,
            "wide_types": types}
