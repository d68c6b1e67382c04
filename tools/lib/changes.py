"""What a new description changes for the clients of a server, and what is lost by it."""
from lib.fates import ENDS
from lib.kept import differs, form
from lib.type_texts import lower

RIGHTS = ["read", "write", "control"]
# Of each kind of change so many are named.
MOST_NAMED = 20
# The kinds of what becomes of a symbol, in the order in which they are said.
KINDS = ("gone", "value lost", "saved no more", "read-only now", "writers taken away", "moved")
# How the sentences begin that say that values go.
VALUE_GOES = ("gone: ", "value ", "saved no more: ", "port gone: ", "stored value ")


class Changes:
    """`lines` are sentences for people; `lost` those of them that take something away: values, rights, names, ports;
    `gone` those that take values away. `fates` are those of the persistent values; `before` is None where no
    description stood there.
    """

    def __init__(self, before, after, fates):
        self.before, self.after, self.lines, self.lost, self.gone = before, after, [], [], []
        self.kept, self.moved, self.fates = 0, 0, {fate.key(): fate for fate in fates}
        if before:
            self.net()
            self.routes()
            self.ports()
        self.others = len(self.lines)
        self.persistent()

    def say(self, sentence, is_loss=False):
        self.lines.append(sentence)
        if is_loss:
            self.lost.append(sentence)
            self.gone += [sentence] if sentence.startswith(VALUE_GOES) else []

    def say_all(self, kind, found, is_loss=False):
        for sentence in found[:MOST_NAMED]:
            self.say(f"{kind}: {sentence}", is_loss)
        if len(found) > MOST_NAMED:
            self.say(f"{kind}: {len(found) - MOST_NAMED} more", is_loss)

    def net(self):
        old, new = self.before.document["net"], self.after.document["net"]
        if old != new:
            self.say(
                f"NetId: {old} becomes {new}: clients that address {old} are answered 0x7 target machine not found",
                True,
            )

    def routes(self):
        old, new = (
            {it["net"]: it["rights"] for it in verdict.document["route"]} for verdict in (self.before, self.after)
        )
        gone = [
            f"{net} is turned away at its next request; until then it goes on receiving notifications"
            for net in old
            if net not in new
        ]
        less = [
            f"{net} had {old[net]} and has {new[net]}"
            for net in old
            if net in new and RIGHTS.index(new[net]) < RIGHTS.index(old[net])
        ]
        more = [
            f"{net} had {old[net]} and has {new[net]}"
            for net in old
            if net in new and RIGHTS.index(new[net]) > RIGHTS.index(old[net])
        ]
        self.say_all("route taken away", gone, True)
        self.say_all("rights taken away", less, True)
        self.say_all("rights given", more + [f"{net} may {new[net]}" for net in new if net not in old])

    def ports(self):
        old, new = ({it["port"]: it for it in verdict.document["port"]} for verdict in (self.before, self.after))
        self.say_all(
            "port gone",
            [
                f"{number}: requests to it are answered 0x6 target port not found; its {len(old[number]['symbol'])} symbols, "
                "their handles and notifications end"
                for number in old
                if number not in new
            ],
            True,
        )
        self.say_all(
            "new port", [f"{number} with {len(new[number]['symbol'])} symbols" for number in new if number not in old]
        )
        for number in old:
            if number in new:
                self.port(number, old[number], new[number])

    def port(self, number, old, new):
        by_name, found = {lower(it["name"]): it for it in new["symbol"]}, {kind: [] for kind in KINDS}
        before = {lower(it["name"]) for it in old["symbol"]}
        for symbol in old["symbol"]:
            for kind, what in self.of_symbol(number, symbol, by_name.get(lower(symbol["name"]))):
                found[kind].append(f"{symbol['name']} of port {number}: {what}")
        for kind in KINDS:
            self.say_all(kind, found[kind], kind != "moved")
        fresh = [it["name"] for it in new["symbol"] if lower(it["name"]) not in before]
        self.say_all("new", [f"{name} of port {number}" for name in fresh])

    def of_symbol(self, number, symbol, other):
        """What becomes of a symbol, by kinds; what is said of its value is said with its fate, where it has one."""
        has_fate = (number, lower(symbol["name"])) in self.fates
        why = other and differs(self.before.shapes[symbol], self.after.shapes[other])
        if other is None or why:
            if not has_fate:
                yield ("value lost", f"{why}, so it begins anew; {ENDS}") if why else (
                    "gone",
                    f"its value is lost, {ENDS}",
                )
            return
        self.kept += 1
        places = [(it["area"], it["offset"]) for it in (symbol, other)]
        if places[0] != places[1]:
            self.moved += 1
            where = f"from {words_of(places[0])} to {words_of(places[1])}"
            yield "moved", f"{where}; handles and notifications go on, clients by index offset reach other bytes"
        if symbol["persistent"] and not other["persistent"]:
            yield "saved no more", "it is persistent no more, so its value is saved no more"
        if other["read_only"] and not symbol["read_only"]:
            yield "read-only now", "no client may write it any more"
        had = set(symbol["writers"] or [*(other["writers"] or []), "every"])
        if other["writers"] and had - set(other["writers"]):
            yield "writers taken away", f"written by {writers_of(symbol)}, and now by {writers_of(other)} alone"

    def persistent(self):
        """What becomes of each persistent value."""
        found = {
            kind: [fate for fate in self.fates.values() if fate.kind == kind]
            for kind in ("kept", "moved", "converted", "back", "left out")
        }
        count = ", ".join(
            f"{len(fates)} {'set again' if kind == 'back' else kind}"
            for kind, fates in found.items()
            if fates or kind == "kept"
        )
        if self.fates:
            self.say(f"persistent values: {count}")
        for kind in ("kept", "moved"):
            for port in dict.fromkeys(fate.saved.port for fate in found[kind]):
                names = [fate.saved.name for fate in found[kind] if fate.saved.port == port]
                more = f" and {len(names) - MOST_NAMED} more" if len(names) > MOST_NAMED else ""
                self.say(f"value {kind}: {', '.join(names[:MOST_NAMED])}{more} of port {port}")
        self.say_all("value converted", [fate.said() for fate in found["converted"]])
        self.say_all("value set again", [fate.said() for fate in found["back"]])
        self.say_all("value rounded", [sentence for fate in self.fates.values() for sentence in fate.rounded])
        self.say_all("value left out", [sentence for fate in self.fates.values() for sentence in fate.losses()], True)

    def of_store(self, entries):
        """What of a store the new description would drop at the next save."""
        wanted = {
            (port["port"], lower(symbol["name"])): form(self.after.shapes[symbol])
            for port in self.after.document["port"]
            for symbol in port["symbol"]
            if symbol["persistent"]
        }
        self.say_all(
            "stored value dropped",
            [
                f"{it.name} of port {it.port}: " + why_dropped(it, wanted)
                for it in entries
                if wanted.get((it.port, lower(it.name))) != it.form and (it.port, lower(it.name)) not in self.fates
            ],
            True,
        )
        fits = sum(wanted.get((it.port, lower(it.name))) == it.form for it in entries)
        self.say(f"store: {fits} of {len(entries)} values fit the new description as they stand in it")

    def told(self):
        """All of it, the sum first."""
        count = f"{self.kept} symbols keep value, handles and notifications" + (
            f", {self.moved} of them at another place" if self.moved else ""
        )
        is_same = not self.others and all(fate.kind in ("kept", "moved") for fate in self.fates.values())
        return [count, *self.lines, *(["nothing else changes for a client"] if is_same else [])]


def why_dropped(entry, wanted):
    if (entry.port, lower(entry.name)) not in wanted:
        return "no persistent symbol has this port and name"
    return "its type is another"


def words_of(place):
    return f"{place[0]} byte {place[1]}"


def writers_of(symbol):
    return ", ".join(symbol["writers"] or ["every route that may write"])
