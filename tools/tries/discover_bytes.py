"""What AdsLib and pyads send to UDP 48899 and how they read the answers, byte for byte, and damage to such datagrams.

Written from knowledge of their sources.
"""
import struct

NET, ADDRESS, NAME, USER, PASSWORD = "192.168.0.20.1.1", "192.168.0.20", "panel-7", "anna", "geheim 7"
COOKIE = b"\x03\x66\x14\x71"


def netid(text):
    return bytes(int(word) for word in text.split("."))


def prepended(frame, tag, data):
    """AdsLib builds its frames from the end: a tag stands in front of those before it."""
    return struct.pack("<HH", tag, len(data)) + data + frame


def adslib_add(net=NET, user=USER, password=PASSWORD, name=NAME, address=ADDRESS):
    """`AddRemoteRoute` of AdsLib, which `adstool .. addroute` calls."""
    frame = prepended(b"", 5, address.encode() + b"\0")
    frame = prepended(frame, 2, password.encode() + b"\0")
    frame = prepended(frame, 13, user.encode() + b"\0")
    frame = prepended(frame, 7, netid(net))
    frame = prepended(frame, 12, name.encode() + b"\0")
    frame = struct.pack("<I", 5) + frame
    frame = netid(net) + b"\0\0" + frame
    return COOKIE + b"\0\0\0\0" + b"\6\0\0\0" + frame


def adslib_address():
    """`GetRemoteAddress` of AdsLib, which `adstool .. netid` calls."""
    return COOKIE + b"\0\0\0\0" + b"\1\0\0\0" + bytes(8) + b"\0\0\0\0"


def pyads_add(net=NET, user=USER, password=PASSWORD, name=NAME, address=ADDRESS):
    """`add_route_to_plc` of pyads, which packs a head, and then each text with its length and its NUL."""
    name, user, password, address = (text + "\0" for text in (name, user, password, address))
    data = struct.pack("<12s", b"\x03\x66\x14\x71\x00\x00\x00\x00\x06\x00\x00\x00")
    data += struct.pack("<6B", *map(int, net.split(".")))
    data += struct.pack("<H", 10000)
    data += struct.pack("<2s", b"\x05\x00")
    data += struct.pack("<4s", b"\x00\x00\x0c\x00")
    data += struct.pack("<H", len(name)) + name.encode()
    data += struct.pack("<2s", b"\x07\x00")
    data += struct.pack("<H", 6) + struct.pack("<6B", *map(int, net.split(".")))
    data += struct.pack("<2s", b"\x0d\x00")
    data += struct.pack("<H", len(user)) + user.encode()
    data += struct.pack("<2s", b"\x02\x00")
    data += struct.pack("<H", len(password)) + password.encode()
    data += struct.pack("<2s", b"\x05\x00")
    return data + struct.pack("<H", len(address)) + address.encode()


def pyads_address():
    """`adsGetNetIdForPLC` of pyads, from the system service's port."""
    data = struct.pack("<12s", b"\x03\x66\x14\x71\x00\x00\x00\x00\x01\x00\x00\x00")
    return data + bytes(6) + struct.pack("<H", 10000) + struct.pack("<4s", b"\0\0\0\0")


def adslib_head(answer, service):
    """What `SendRecv` of AdsLib looks at; the rest of the answer."""
    cookie, invoke, came = struct.unpack("<III", answer[:12])
    return answer[12:] if (cookie, invoke, came) == (0x71146603, 0, 0x80000000 | service) else None


def adslib_code(answer):
    """The code that `AddRemoteRoute` gives back; None for what it takes as no answer."""
    rest = adslib_head(answer, 6)
    if rest is None or len(rest) < 12:
        return None
    count, at = struct.unpack("<I", rest[8:12])[0], 12
    for _ in range(count):
        tag, length = struct.unpack("<HH", rest[at:at + 4])
        if tag == 1:
            return struct.unpack("<I", rest[at + 4:at + 8])[0] if length == 4 else None
        at += 4 + length
    return None


def adslib_net(answer):
    """The NetId that `GetRemoteAddress` gives back."""
    rest = adslib_head(answer, 1)
    return None if rest is None or len(rest) < 6 else ".".join(map(str, rest[:6]))


def pyads_code(answer):
    """What `add_route_to_plc` gives back: True, False for a wrong password, None where it raises. It takes 32 bytes."""
    answer = answer[:32]
    if answer[:12] != b"\x03\x66\x14\x71\x00\x00\x00\x00\x06\x00\x00\x80":
        return None
    right = b"\x01\x00\x00\x00\x01\x00\x04\x00\x00\x00\x00\x00"
    wrong = b"\x01\x00\x00\x00\x01\x00\x04\x00\x04\x07\x00\x00"
    return {right: True, wrong: False}.get(answer[20:])


def pyads_net(answer):
    """The NetId that `adsGetNetIdForPLC` gives back; it takes 395 bytes of the answer."""
    answer, head = answer[:395], b"\x03\x66\x14\x71\x00\x00\x00\x00\x01\x00\x00\x80"
    return ".".join(map(str, answer[12:18])) if answer[:12] == head else None


def damaged(rng):
    """A datagram that is random, or one of those above with damage; its invoke id is random where it is whole."""
    how = rng.randrange(8)
    if how == 0:
        return rng.randbytes(rng.randrange(80))
    given = bytearray(rng.choice((adslib_add, pyads_add, adslib_address, pyads_address))())
    given[4:8] = rng.randbytes(4)
    if how == 1:
        return bytes(given[:rng.randrange(len(given) + 1)])
    if how == 2:
        return bytes(given) + rng.randbytes(rng.randrange(2100))
    if how == 3:
        given[20:24] = struct.pack("<I", rng.choice((0, 1, 4, 6, 100, 65536, 2 ** 32 - 1)))
    elif how == 4:
        given[8:12] = struct.pack("<I", rng.choice((0, 1, 2, 3, 6, 7, 0x80000001, 0x80000006, 2 ** 32 - 1)))
    elif how == 5 and len(given) > 28:
        given[26:28] = struct.pack("<H", rng.choice((0, 1, 7, 9, 65535)))
    else:
        for _ in range(rng.randrange(1, 5)):
            given[rng.randrange(len(given))] = rng.randrange(256)
    return bytes(given)
