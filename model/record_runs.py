"""Runs of `record` over a link, for `python3 model/hostile.py`: peers that answer as they should and that do not, calls
that fail, and what the keeper must have then. What must come is what the model of a client (model/client.py) says.
record.runs has the plain cases, peer_record.runs the others."""
import client
import hostile_peers as peers
from hostile import ME, NET, u32
from hostile_peers import FIRST, answer, changed, entry, given, in_turn, linked, note

WAVE, COUNT = "Main.wave", "Main.count"


def words(*names, mode="change", cycle=0, count=4):
    return ["record", list(names), mode, cycle, count, "s"]


TWO = words(WAVE, COUNT)
STEPS = peers.honest(TWO)


def handle(number, own):
    """The answer to an addition: the handle."""
    return answer(6, number, u32(0) + u32(own))


def entries(*handles, names=(b"Main.wave", b"Main.count"), sizes=(2, 4), kinds=(18, 3)):
    """The answers to the first requests, for two names: entry, handle, entry, handle."""
    steps = []
    for k, own in enumerate(handles):
        steps += [given(9, 2 * k + 1, entry(names[k], b"T", size=sizes[k], number=kinds[k])), handle(2 * k + 2, own)]
    return steps


def deleted(*numbers):
    return [answer(7, number, u32(0)) for number in numbers]


def samples(*some):
    """A notification of one stamp a sample: (handle, moment, bytes)."""
    return note([(moment, [(own, data)]) for own, moment, data in some])


def plain():
    yield linked("Two names, four samples: rows in the order of the link, then the deletions, then a line a name over "
                 "all rows.", TWO, in_turn(STEPS))
    yield linked("One name, one sample.", words(COUNT, count=1), in_turn(peers.honest(words(COUNT, count=1))))
    yield linked("In cycle mode a value that stays is recorded again and again.",
                 words(COUNT, mode="cycle", cycle=100000, count=5),
                 in_turn(peers.honest(words(COUNT, mode="cycle", cycle=100000, count=5))))
    yield linked("A name without a sample: `count 0`.", words(COUNT, WAVE, count=1),
                 in_turn([*entries(1, 2, names=(b"Main.count", b"Main.wave"), sizes=(4, 2), kinds=(3, 18)),
                          samples((1, 7, b"\1\2\3\4")), *deleted(5, 6)]))
    yield linked("Samples come while the second name is still asked for: they are kept.", TWO,
                 in_turn([*entries(1, 2)[:2], samples((1, 5, b"\1\0"), (1, 6, b"\2\0")), *entries(1, 2)[2:],
                          samples((2, 7, b"\3\0\0\0"), (1, 8, b"\4\0")), *deleted(5, 6)]))
    yield linked("Enough samples come while names are still asked for: all additions are asked, then the deletions.",
                 words(WAVE, COUNT, count=2),
                 in_turn([*entries(1, 2)[:2], samples((1, 5, b"\1\0"), (1, 6, b"\2\0"), (1, 7, b"\3\0")),
                          *entries(1, 2)[2:], *deleted(5, 6)]))
    yield linked("Each name has a notification of its own text; sixteen names.",
                 words(*(f"A{k}" for k in range(16)), count=16),
                 in_turn([*(it for k in range(16) for it in (given(9, 2 * k + 1,
                                                                   entry(b"A%d" % k, b"BYTE", size=1, number=17)),
                                                             handle(2 * k + 2, k + 1))),
                          samples(*((k + 1, k, bytes([k])) for k in range(16))), *deleted(*range(33, 49))]))
    for fail in range(1, 8):
        yield linked(f"Call {fail} of the keeper fails: the opening, a put, or a total. No line is printed but that.",
                     TWO, in_turn(STEPS), fail_keeper=fail)


LOCALLY = f"words record {WAVE} {COUNT} --mode change --cycle 0 --count 4 --store s --local plant.toml --me {ME}"


def locally():
    """In the same process: over the server of a description."""
    plant = ["file plant.toml", "from plant.toml"]
    keeper = client.Keeper()
    status, out, _ = client.run(TWO, in_turn(STEPS), me=ME, peer=NET, keeper=keeper)
    def run(said, lines, status, out, rows=(), words=LOCALLY):
        return "\n".join([f"# In the same process: {said}", words, *lines, f"status {status}", "out",
                          *peers.text_lines(out), *peers.rows_lines(list(rows))]) + "\n"
    yield run("two names; a second reading, a second piece and an eighth call of the keeper would fail.",
              [*plant, "fail-read 2", "fail-put 2", "fail-keeper 8"], status, out, keeper.rows)
    for fail in range(1, 8):
        kept = client.Keeper(fail)
        failed = client.run(TWO, in_turn(STEPS), me=ME, peer=NET, keeper=kept)
        yield run(f"call {fail} of the keeper fails.", [*plant, f"fail-keeper {fail}"], *failed[:2], kept.rows)
    yield run("the description can't be read: the keeper is not opened.", [*plant, "fail-read 1", "fail-keeper 1"], 4,
              "ads: read fault\n")
    yield run("the description breaks a rule: the keeper is not opened.",
              [*plant, "change offset = 8 => offset = 2", "fail-keeper 1"], 2, "ads: description rule 12 item 1\n")
    yield run("no route names it.", [*plant, f"change {ME} => 9.9.9.9.1.1"], 9, "ads: bad peer\n")
    yield run("the port is another.", [*plant, "change port = 851 => port = 852"], 8,
              "ads: refused 0x6 target port not found\n")
    yield run("the second name is none of the plant's.", plant, 8, "ads: refused 0x710 symbol not found\n",
              words=LOCALLY.replace(COUNT, "Main.none"))
    yield run("the lines can't be written; nine bytes of them are.", [*plant, "fail-put 1", "leave 9"], 5, out[:9],
              keeper.rows)
    yield run("a value that never changes: nothing comes a million times, and the row stays.", plant, 7,
              "ads: budget\n", [(1, b"Main.count", 100000, b"\x2a\0\0\0")],
              words=LOCALLY.replace(f"{WAVE} ", ""))
    hundred = client.Keeper()
    own = words(COUNT, mode="cycle", count=100)
    told = client.run(own, in_turn(peers.honest(own)), me=ME, peer=NET, keeper=hundred)
    yield run("a hundred samples of a value that stays.", plant, *told[:2], hundred.rows,
              words=f"words record {COUNT} --mode cycle --cycle 0 --count 100 --store s --local plant.toml --me {ME}")
    for said, text in (("no store", LOCALLY.replace(" --store s", "")),
                       ("a store without a name", LOCALLY.replace("--store s", "--store=")),
                       ("no name", LOCALLY.replace(f"{WAVE} {COUNT} ", "")),
                       ("seventeen names", LOCALLY.replace(WAVE, " ".join(f"A{k}" for k in range(16)))),
                       ("a name twice, in another case", LOCALLY.replace(COUNT, "mAIN.WAVE")),
                       ("a count of 0", LOCALLY.replace("--count 4", "--count 0")),
                       ("a count of 1,000,001", LOCALLY.replace("--count 4", "--count 1000001")),
                       ("no mode", LOCALLY.replace("--mode change ", ""))):
        yield run(f"no words of a command: {said}.", [*plant, "fail-keeper 1"], 1, "ads: usage\n", words=text)


def hostile():
    two = entries(1, 2)
    yield linked("All ended before there are enough: no deletion, and the lines.", TWO,
                 in_turn([*two, samples((1, 5, b"\1\0")), samples((1, 6, b""), (2, 7, b""))]))
    yield linked("One ended: only the other is deleted.", TWO,
                 in_turn([*two, samples((1, 5, b"")), samples(*((2, 6 + k, bytes([k]) * 4) for k in range(4))),
                          *deleted(5)]))
    yield linked("One ends between the two deletions: it is skipped.", TWO,
                 in_turn([*two, samples(*((1, 6 + k, bytes([k]) * 2) for k in range(4))),
                          deleted(5)[0] + samples((2, 9, b""))]))
    yield linked("The second ends before the answer to the first deletion, in the same piece: it is skipped.", TWO,
                 in_turn([*two, samples(*((1, 6 + k, bytes([k]) * 2) for k in range(4))),
                          samples((2, 9, b"")) + deleted(5)[0]]))
    yield linked("An end that comes again, and a sample behind it: it is kept, since its handle is.", TWO,
                 in_turn([*two, samples((1, 5, b""), (1, 6, b""), (1, 7, b"\7\0")),
                          samples(*((2, 8 + k, bytes(4)) for k in range(3))), *deleted(5)]))
    yield linked("One handle for both names: rows under the first, one deletion, two lines.", TWO,
                 in_turn([*entries(9, 9), samples(*((9, 5 + k, bytes([k]) * 2) for k in range(4))), *deleted(5)]))
    yield linked("A sample of a handle stands before the answer that gives it, in one piece: it is passed over.",
                 words(WAVE, count=1),
                 in_turn([two[0], samples((1, 5, b"\1\0")) + two[1], samples((1, 6, b"\2\0")), *deleted(3)]))
    yield linked("A sample stands behind the answer that gives its handle, in one piece: it is kept.",
                 words(WAVE, count=1), in_turn([two[0], two[1] + samples((1, 5, b"\1\0")), *deleted(3)]))
    yield linked("Samples of handles that nobody gave are passed over, empty ones too.", TWO,
                 in_turn([*two, samples((3, 5, b"\1\0"), (0, 5, b""), (2 ** 32 - 1, 5, b"\1")),
                          samples(*((1, 6 + k, b"\1\0") for k in range(4))), *deleted(5, 6)]))
    yield linked("More samples than are wanted, in one frame.", TWO,
                 in_turn([*two, samples(*((1 + k % 2, 5 + k, bytes([k]) * 3) for k in range(9))), *deleted(5, 6)]))
    yield linked("More come behind it, and with the answers to the deletions.", TWO,
                 in_turn([*two, samples(*((1, 5 + k, b"\1\0") for k in range(4))), samples((2, 9, b"\2")),
                          deleted(5)[0] + samples((1, 10, b"\3")), *deleted(6)]))
    yield linked("The value of a sample has another size than the entry says: it is kept as it is.", TWO,
                 in_turn([*two, samples((1, 5, b"\1"), (2, 6, bytes(range(9))), (1, 7, bytes(3)), (2, 8, b"\xff" * 5)),
                          *deleted(5, 6)]))
    yield linked("Moments fall, and stand at their end.", TWO,
                 in_turn([*two, samples((1, 2 ** 64 - 1, b"\1\0"), (1, 0, b"\2\0"), (2, 9, b"\3\0\0\0"),
                                        (2, 8, b"\4\0\0\0")), *deleted(5, 6)]))
    yield linked("The entries name other symbols than were asked for: rows and lines are by these.", TWO,
                 in_turn([*entries(1, 2, names=(b"Other.a", b"Other.b")),
                          samples(*((1 + k % 2, 5 + k, b"\1\0") for k in range(4))), *deleted(5, 6)]))
    yield linked("Both entries name one symbol: two lines of the same total.", TWO,
                 in_turn([*entries(1, 2, names=(b"Main.wave", b"Main.wave")),
                          samples(*((1 + k % 2, 5 + k, bytes([k, 0])) for k in range(4))), *deleted(5, 6)]))
    yield linked("Names of bytes that are no characters, with a NUL in the middle: whole in the rows, escaped in the "
                 "lines.", TWO, in_turn([*entries(1, 2, names=(b"a\0b\xff", b"\\x00")),
                                         samples(*((1 + k % 2, 5 + k, b"\1\0") for k in range(4))), *deleted(5, 6)]))
    yield linked("An empty name.", TWO, in_turn([*entries(1, 2, names=(b"", b"Main.count")),
                                                 samples(*((1 + k % 2, 5 + k, b"\1\0") for k in range(4))),
                                                 *deleted(5, 6)]))
    for size in (0, 1048576, 1048577):
        yield linked(f"An entry of a symbol of {size} bytes.", words(WAVE, count=1),
                     in_turn([given(9, 1, entry(b"Main.wave", size=size)), handle(2, 1), samples((1, 5, b"\1\0")),
                              *deleted(3)]))
    yield linked("The second name is unknown: refused, and the first's rows stay.", TWO,
                 in_turn([*two[:2], samples((1, 5, b"\1\0")), answer(9, 3, u32(0x710) + u32(0))]))
    yield linked("The second addition is refused; the rows stay.", TWO,
                 in_turn([*two[:3], samples((1, 5, b"\1\0")), answer(6, 4, u32(0x717) + u32(0))]))
    yield linked("A deletion is refused: told, and no line.", TWO,
                 in_turn([*two, samples(*((1, 5 + k, b"\1\0") for k in range(4))), answer(7, 5, u32(0x714))]))
    yield linked("A value that never changes again: nothing comes a million times; the rows stay.", TWO,
                 [*in_turn([*two, samples((1, 5, b"\1\0"))]), ("quiet", 9, 1000000)])
    yield linked("No answer to the second entry for 5 s.", TWO,
                 [*in_turn([*two[:2], samples((1, 5, b"\1\0"))]), ("quiet", 50000010)])
    yield linked("The connection ends while samples are waited for: the rows stay.", TWO,
                 [*in_turn([*two, samples((1, 5, b"\1\0"))]), ("closed", 20)])
    yield linked("Bytes that are no frame behind a sample, in the same piece: the sample is kept.", TWO,
                 in_turn([*two, samples((1, 5, b"\1\0")) + b"\1" * 6]))
    yield linked("A notification whose length lies, behind a sample.", TWO,
                 in_turn([*two, samples((1, 5, b"\1\0")), note([(7, [(1, b"\1\2")])], length=99)]))
    yield linked("A sample in 45 pieces of one byte.", words(WAVE, count=1),
                 in_turn([*two[:2], *(bytes([c]) for c in samples((1, 5, b"\1\0"))), *deleted(3)]))
    for at in range(len(STEPS)):
        yield linked(f"Answer {at + 1} comes twice.", TWO, in_turn([*STEPS[:at], STEPS[at] * 2, *STEPS[at + 1:]]))
        yield linked(f"Answer {at + 1} never comes, and the rest does.", TWO, in_turn([*STEPS[:at], *STEPS[at + 1:]]))
        yield linked(f"The connection ends in place of answer {at + 1}.", TWO, [*in_turn(STEPS[:at]), ("closed", 99)])
        yield linked(f"Answer {at + 1} has AMS error 7.", TWO,
                     in_turn([*STEPS[:at], changed(STEPS[at], error=7), *STEPS[at + 1:]]))
        yield linked(f"Answer {at + 1} in pieces of seven bytes.", TWO,
                     [*in_turn(STEPS[:at]), *(("bytes", FIRST + at, STEPS[at][k:k + 7])
                                              for k in range(0, len(STEPS[at]), 7)),
                      *in_turn(STEPS[at + 1:], FIRST + at + 1)])
    yield linked("All answers come at once.", TWO, [("bytes", FIRST, b"".join(STEPS))])
    talk = client.run(TWO, in_turn(STEPS), me=ME, peer=NET, keeper=client.Keeper())[2]
    for fail in range(1, len(talk) + len(STEPS) + 1):
        yield linked(f"Call {fail} of the link fails; what was kept stays.", TWO, in_turn(STEPS), fail=fail)
    yield linked("The lines can't be written; four bytes of them are.", TWO, in_turn(STEPS), fail_put=1, leave=4)
    for fail in (1, 3, 6):
        yield linked(f"Call {fail} of the keeper fails, which can't be told.", TWO, in_turn(STEPS), fail_keeper=fail,
                     fail_put=1, leave=3)


SUBJECTS = {"record": plain, "local_record": locally, "peer_record": hostile}
