"""The alarms of a page: which are there, when they came and went, and who acknowledged them when.

An alarm stays in the list until it is gone and acknowledged; then it is one of the past ones, of which the last are
kept.
"""
import collections

from lib.page_limits import number_text

# Past alarms that are kept, and rows that a browser gets.
MOST_PAST, MOST_TOLD = 200, 300
# The fields of a row, and what each may be.
FIELDS = {
    "id": int,
    "key": str,
    "port": int,
    "name": str,
    "text": str,
    "detail": str,
    "came": int,
    "went": (int, type(None)),
    "ack": (int, type(None)),
    "by": str,
    "count": int,
}


def alarms_in(words, value):
    """What may be an alarm of a value: its mark, its text, whether it is there, and what is said behind it."""
    if words.alarm and isinstance(value, bool):
        yield "", words.alarm, value == (words.at[0][0] if words.at else True), ""
    elif words.alarm and words.at:
        said = dict(words.at)
        yield "", words.alarm, value in said, said.get(value, "")
    elif words.alarm and words.type.startswith("STRING"):
        yield "", words.alarm, bool(value), value or ""
    elif words.alarm:
        number = float(value) if isinstance(value, str) else value
        if words.low is not None:
            yield "low", words.alarm, number < words.low, f"below {number_text(words.low, words)}"
        if words.high is not None:
            yield "high", words.alarm, number > words.high, f"above {number_text(words.high, words)}"
    for bit in words.bits:
        if bit.is_alarm:
            yield f"bit {bit.number}", bit.name, bool(value >> bit.number & 1) == bit.at, ""


class Alarms:
    def __init__(self):
        self.rows, self.past, self.last = {}, collections.deque(maxlen=MOST_PAST), 0

    def load(self, said):
        """Takes the rows of a state, which were looked at."""
        self.rows = {row["key"]: row for row in said["alarms"]}
        self.past.extend(said["past"][:MOST_PAST])
        self.last = max([row["id"] for row in (*self.rows.values(), *self.past)], default=0)

    def saved(self):
        return {"alarms": list(self.rows.values()), "past": list(self.past)}

    def begin(self, table, moment):
        """Looks at all values of a table; alarms of values that are not there any more are gone."""
        keys, changed = set(), False
        for number in table.words:
            changed = self.look(table, number, moment, keys) or changed
        for key in [key for key, row in self.rows.items() if key not in keys and row["went"] is None]:
            self.go(self.rows[key], moment)
            changed = True
        return changed

    def look(self, table, number, moment, keys=None):
        """Looks at a value; whether an alarm came or went."""
        words, leaf, value, changed = table.words.get(number), table.leaves[number], table.values[number], False
        if words is None or value is None:
            return False
        port = table.port_of(number)
        for mark, text, is_there, detail in alarms_in(words, value):
            key = f"{port} {leaf.path} {mark}"
            if keys is not None:
                keys.add(key)
            row = self.rows.get(key)
            if is_there and (row is None or row["went"] is not None or row["detail"] != detail):
                self.come(row, {"key": key, "port": port, "name": leaf.path, "text": text, "detail": detail}, moment)
                changed = True
            elif not is_there and row is not None and row["went"] is None:
                self.go(row, moment)
                changed = True
        return changed

    def come(self, row, said, moment):
        self.last += 1
        count = row["count"] + 1 if row else 1
        self.rows[said["key"]] = {
            "id": self.last,
            **said,
            "came": moment,
            "went": None,
            "ack": None,
            "by": "",
            "count": count,
        }

    def go(self, row, moment):
        row["went"] = moment
        self.leave(row)

    def leave(self, row):
        if row["went"] is not None and row["ack"] is not None:
            del self.rows[row["key"]]
            self.past.appendleft(row)

    def acknowledge(self, numbers, by, moment):
        """Acknowledges rows by their numbers; how many."""
        those = [row for row in self.rows.values() if row["ack"] is None and row["id"] in numbers]
        for row in those:
            row["ack"], row["by"] = moment, by
            self.leave(row)
        return len(those)

    def told(self):
        """The rows for a page: those that nobody has acknowledged first, and of these the last ones."""
        rows = sorted(self.rows.values(), key=lambda row: (row["ack"] is not None, -row["id"]))
        return {
            "rows": [brief(row) for row in rows[:MOST_TOLD]],
            "more": max(0, len(rows) - MOST_TOLD),
            "past": [brief(row) for row in list(self.past)[:50]],
            "there": sum(row["went"] is None for row in rows),
            "open": sum(row["ack"] is None for row in rows),
        }


def brief(row):
    return {name: value for name, value in row.items() if name != "key"}
