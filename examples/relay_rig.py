#!/usr/bin/env python3
"""A client of one's own behind `ads relay`: it owns a NetId and answers whoever asks for its state.

    python3 relay_rig.py ADDRESS:PORT NETID

The NetId must be a route of the relay's description. Any ADS client asks it through the relay:
    ads state --to ADDRESS:PORT --netid NETID --me 192.168.0.9.1.1
"""
import socket
import struct
import sys


def frame(target, source, command, flags, number, payload=b"", error=0):
    ams = target + source + struct.pack("<HHIII", command, flags, len(payload), error, number) + payload
    return struct.pack("<HI", 0, len(ams)) + ams


def whole(conn, count):
    given = conn.recv(count, socket.MSG_WAITALL)
    if len(given) < count:
        sys.exit("the relay closed the connection: the NetId is no route, or another's")
    return given


def packet(conn):
    """The next AMS packet."""
    _, length = struct.unpack("<HI", whole(conn, 6))
    return whole(conn, length)


def main(address, netid):
    host, port = address.rsplit(":", 1)
    me = bytes(int(it) for it in netid.split(".")) + struct.pack("<H", 851)
    with socket.create_connection((host, int(port))) as conn:
        # Whoever sends from a NetId owns it. A notification to oneself comes back, and then it is so.
        conn.sendall(frame(me, me, 8, 4, 0))
        packet(conn)
        print(f"{netid} is there", flush=True)
        while True:
            ams = packet(conn)
            target, source = ams[:8], ams[8:16]
            command, flags, _, _, number = struct.unpack("<HHIII", ams[16:32])
            if command == 8 or flags & 1:
                continue
            if command == 4:
                # the result 0, the ADS state 5 (run), the device state 0
                conn.sendall(frame(source, target, command, 5, number, struct.pack("<IHH", 0, 5, 0)))
            else:
                # AMS error 8: this command is not answered
                conn.sendall(frame(source, target, command, 5, number, error=8))


if __name__ == "__main__":
    main(*sys.argv[1:])
