"""The comments of a line, and beside which table or key each stands. Those that tools/plant.py writes itself are passed over: they are written anew."""
import bisect

from lib.document import Entry
from lib.page_words import PAGE_KEYS


WRITTEN, MEANS = "# Written by tools/plant.py ", "# = "


class Comments:
    """`first` are the comments in front of everything, `last` those behind everything; `above` and `behind` have those in front of, and behind, an entry
    (key None) or a key of it."""

    def __init__(self, reader, d):
        self.first, self.above, self.behind, self.last = [], {}, {}, []
        anchors = sorted(anchors_of(d), key=lambda it: it[0])
        starts = [at for at, _, _ in anchors]
        for at, end in sorted(reader.comments.items()):
            said, own_line = reader.text[at:end].rstrip(), not reader.text[reader.text.rfind("\n", 0, at) + 1:at].strip(" \t\ufeff")
            if said.startswith((WRITTEN, MEANS)):
                continue
            place = bisect.bisect_left(starts, at)
            _, before, key = anchors[place - 1] if place else (0, d, None)
            if key == "initial" and at < reader.spans.get(starts[place - 1], 0):
                self.above.setdefault((before, key), []).append(said)
            elif not own_line:
                self.behind.setdefault((before, key), []).append(said)
            elif place == 0:
                self.first.append(said)
            elif place == len(anchors):
                self.last.append(said)
            else:
                self.above.setdefault(anchors[place][1:], []).append(said)


def anchors_of(entry):
    """Where each table and each key stands: triples of a place, an entry and a key. Of those for which a range stands, the first."""
    found, seen = [(entry.at, entry, None)] if entry.kind != "document" else [], set()
    for key, at in entry.places.items():
        if key in PAGE_KEYS:
            # (which the description has not: their comments stand with the key before)
            before = [(place, own) for own, place in entry.places.items() if own not in PAGE_KEYS and place < at]
            found.append((at, entry, max(before, default=(0, None))[1]))
            continue
        inner = [it for it in entry[key] if isinstance(it, Entry)] if isinstance(entry[key], list) else []
        found += [(at, entry, key)] if not inner or key in ("member", "value") else []
        for it in inner:
            if it.at not in seen:
                seen.add(it.at)
                found += anchors_of(it)
    return found
