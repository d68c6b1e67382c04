"""The AMS frame and what requests carry, by the tables of docs/FORMATS.md: for models, tries and measurements.

Nothing here is taken from tools/, whose own frames (tools/lib/frames.py) are tried beside these.
"""
import struct

# The server of examples/plant.toml, and a client that may write there.
NET, ME = bytes([5, 1, 2, 3, 1, 1]), bytes([192, 168, 0, 9, 1, 1])
PORT, OWN_PORT = 851, 32905
REQUEST, RESPONSE = 4, 5


def u16(number):
    return struct.pack("<H", number)


def u32(*numbers):
    return struct.pack(f"<{len(numbers)}I", *numbers)


def net_of(text):
    return bytes(int(word) for word in text.split("."))


def text_of(net):
    return ".".join(map(str, net))


def in_frame(ams):
    """An AMS packet behind its AMS/TCP header."""
    return bytes(2) + u32(len(ams)) + ams


def any_frame(target, source, payload, *, reserved=0, whole=None, **said):
    """A frame between two addresses, each a NetId and a port, whose fields say what they are told to: the command,
    flags, length, error and number of the AMS header, and the length of the whole."""
    it = {"command": 0, "flags": REQUEST, "length": len(payload), "error": 0, "number": 0, **said}
    head = struct.pack("<HHIII", *(it[name] for name in ("command", "flags", "length", "error", "number")))
    ams = target + source + head + payload
    return u16(reserved) + u32(len(ams) if whole is None else whole) + ams


def framed(target, source, command, flags, error, number, payload):
    """The same with nothing but what is so."""
    return any_frame(target, source, payload, command=command, flags=flags, error=error, number=number)


def request(command, number, payload=b"", source=ME, source_port=OWN_PORT):
    """A request to port 851 of the plant's server."""
    return framed(NET + u16(PORT), source + u16(source_port), command, REQUEST, 0, number, payload)


def response(command, number, payload=b""):
    """What that port answers to `request`."""
    return framed(ME + u16(OWN_PORT), NET + u16(PORT), command, RESPONSE, 0, number, payload)


def area(group, offset, length):
    """The payload of a read, and what that of a write begins with."""
    return u32(group, offset, length)


def watched(group, offset, length, mode, cycle=0):
    """The payload that adds a notification; the cycle is in 100 ns."""
    return u32(group, offset, length, mode, 0, cycle) + bytes(16)


def size_of_first(stream):
    """How many bytes the first frame of these has; none where not all of it is there."""
    if len(stream) < 6:
        return None
    size = 6 + struct.unpack_from("<I", stream, 2)[0]
    return size if size <= len(stream) else None
