"""Notifications whose samples are of the same names in the same order as before, as those of a cycle are: read whole, not sample by sample."""
import struct

from lib.flow_values import LETTERS
from lib.payloads import BadPayload

STAMP, SAMPLE = struct.Struct("<QI"), struct.Struct("<II")


def stamps_in(payload):
    """The stamps of a notification: each a moment, and pairs of a handle and bytes."""
    found, at = [], 8
    try:
        length, stamps = SAMPLE.unpack_from(payload)
        for _ in range(stamps):
            moment, count = STAMP.unpack_from(payload, at)
            at, samples = at + 12, []
            for _ in range(count):
                number, size = SAMPLE.unpack_from(payload, at)
                at += 8
                if len(payload) - at < size:
                    raise BadPayload("a sample has fewer bytes than it says")
                samples.append((number, payload[at:at + size]))
                at += size
            found.append((moment, samples))
    except struct.error:
        raise BadPayload("a notification is too short") from None
    if at != len(payload) or length not in (at - 4, at):
        raise BadPayload("a notification has not the stated length")
    return found


class Layout:
    """One stamp with a sample of each of these items, in this order. Its columns are what the rows of the samples are made of."""

    def __init__(self, payload, pairs):
        self.items = [item for item, _ in pairs]
        sizes = [item.known.size for item in self.items]
        self.heads = struct.Struct("<IIQI" + "".join(f"II{size}x" for size in sizes))
        self.datas = struct.Struct("<20x" + "".join(f"8x{size}s" for size in sizes))
        self.values = struct.Struct("<20x" + "".join("8x" + (letter_of(item.known) or f"{item.known.size}s") for item in self.items))
        self.read = [(place, item.known.stored) for place, item in enumerate(self.items) if not letter_of(item.known)]
        self.front = (SAMPLE.unpack_from(payload)[0], 1)
        self.behind = tuple(word for item in self.items for word in (item.number, item.known.size))
        self.owns = [item.own for item in self.items]

    @staticmethod
    def is_of(payload, pairs):
        """Whether the notification is one stamp of just these samples."""
        return SAMPLE.unpack_from(payload)[1] == 1 and len(payload) == 20 + sum(8 + item.known.size for item, _ in pairs)

    def moment(self, payload):
        """The moment of a notification of this layout; None where it is of another."""
        words = self.heads.unpack(payload)
        return words[2] if words[:2] == self.front and words[3] == len(self.items) and words[4:] == self.behind else None

    def columns(self, payload):
        """The values and the bytes of the samples."""
        values, datas = self.values.unpack(payload), self.datas.unpack(payload)
        if self.read:
            values = list(values)
            for place, stored in self.read:
                values[place] = stored(values[place])
        return values, datas


def letter_of(known):
    """The letter of `struct` that gives the value as it is stored; none where more is to be done."""
    word = known.plain
    return None if word is None or word in ("ULINT", "LWORD") else "?" if word == "BOOL" else LETTERS[word]
