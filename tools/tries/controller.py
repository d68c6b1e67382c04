"""A controller with what real ones tell: GUIDs, attributes and values behind the known fields, and much that a description can't hold."""
import struct

from tries.fake_server import data, symbol, told, type_entry, uploads

GUID = bytes(range(16))
ATTRIBUTES = struct.pack("<H", 1) + bytes([4, 2]) + b"pack\0" + b"on\0"
HAS_GUID, HAS_ATTRIBUTES, HAS_VALUES, HAS_METHODS = 0x80, 0x1000, 0x2000, 0x800


def value(name, number):
    return bytes([len(name)]) + name + b"\0" + struct.pack("<h", number)


METHOD = struct.pack("<I", 12) + b"\0" * 8
SUB = 2
TYPES = [
    type_entry(b"FB_Timer", b"", 40, flags=1 | HAS_GUID, rest=GUID, subs=[
        type_entry(b"IN", b"BOOL", 1, 8, 33, SUB), type_entry(b"PT", b"TIME", 4, 12, 19, SUB, b"how long"),
        type_entry(b"next", b"POINTER TO FB_Timer", 8, 16, 65, SUB), type_entry(b"Q", b"BOOL", 1, 24, 33, SUB | HAS_GUID, rest=GUID),
        type_entry(b"ET", b"TIME", 4, 28, 19, SUB)]),
    type_entry(b"E_Mode", b"INT", 2, type_id=2, flags=1 | HAS_GUID | HAS_ATTRIBUTES | HAS_VALUES | HAS_METHODS,
               rest=GUID + struct.pack("<H", 1) + METHOD + ATTRIBUTES + struct.pack("<H", 2) + value(b"Off", -1) + value(b"Auto", 7)),
    type_entry(b"E_Silent", b"INT", 2, type_id=2),
    type_entry(b"T_MaxString", b"STRING(255)", 256, type_id=30),
    type_entry(b"ARRAY [0..2] OF ST_Point", b"ST_Point", 24, ends=[(0, 2)]),
    type_entry(b"ST_Line", b"", 24, subs=[type_entry(b"ends", b"ARRAY [0..1] OF ST_Point", 16, 0, 65, SUB, ends=[(0, 1)]),
                                          type_entry(b"width", b"LREAL", 8, 16, 5, SUB)]),
    type_entry(b"ST_Point", b"", 8, subs=[type_entry(b"x", b"DINT", 4, 0, 3, SUB), type_entry(b"y", b"DINT", 4, 4, 3, SUB)]),
    type_entry(b"ST_Packed", b"", 5, subs=[type_entry(b"b", b"BYTE", 1, 0, 17, SUB), type_entry(b"d", b"DINT", 4, 1, 3, SUB)]),
    type_entry(b"ST_Self", b"", 8, subs=[type_entry(b"me", b"ST_Self", 8, 0, 65, SUB)]),
    type_entry(b"ST_Flags", b"", 4, subs=[type_entry(b"on", b"BIT", 1, 0, 33, SUB | 0x20), type_entry(b"n", b"INT", 2, 2, 2, SUB)]),
]
SYMBOLS = [
    symbol(b"MAIN.count", b"DINT", 0x4040, 1000, 4, 3, 0x9 | HAS_ATTRIBUTES, b"pieces", GUID + ATTRIBUTES),
    symbol(b"MAIN.timer", b"FB_Timer", 0x4040, 1008, 40),
    symbol(b"MAIN.mode", b"E_Mode", 0x4040, 1048, 2, 2),
    symbol(b"MAIN.silent", b"E_Silent", 0x4040, 1050, 2, 2, 0x20),
    symbol(b"MAIN.path", b"T_MaxString", 0x4040, 1052, 256, 30, 0, "für \"ä\"\\".encode("latin-1")),
    symbol(b"MAIN.lines", b"ARRAY [0..1,1..2] OF ST_Line", 0x4040, 1312, 96),
    symbol(b"MAIN.day", b"DATE", 0x4040, 1408, 4, 19),
    symbol(b"MAIN.flags", b"ST_Flags", 0x4040, 1412, 4),
    symbol(b"GVL.input", b"WORD", 0xF020, 2, 2, 18),
    symbol(b"MAIN.pointer", b"POINTER TO INT", 0x4040, 1416, 8),
    symbol(b"MAIN.wide", b"WSTRING(20)", 0x4040, 1424, 42),
    symbol(b"MAIN.reference", b"DINT", 0xF016, 5, 4, 3, 0x4),
    symbol(b"MAIN.retained", b"INT", 0x4030, 0, 2, 2),
    symbol(b".global", b"INT", 0x4040, 1470, 2, 2),
    symbol(b"MAIN.packed", b"ST_Packed", 0x4040, 1472, 5),
    symbol(b"MAIN.self", b"ST_Self", 0x4040, 1480, 8),
    symbol(b"MAIN.overlaps", b"BYTE", 0x4040, 1001, 1, 17),
    symbol(b"main.COUNT.x", b"BYTE", 0x4040, 1490, 1, 17),
    symbol(b"MAIN.far", b"BYTE", 0x4040, 4000000000, 1, 17),
]
VALUES = {1000: struct.pack("<i", -3), 1048: struct.pack("<h", 7)}


def value_reply(frame):
    """The sum of the present values: zeros where nothing else is said; one value can't be read."""
    count = struct.unpack("<I", frame.payload[4:8])[0]
    parts = [struct.unpack("<III", frame.payload[16 + 12 * place:28 + 12 * place]) for place in range(count)]
    results = [0x703 if part[1] == 1412 else 0 for part in parts]
    return data(frame, b"".join(struct.pack("<I", result) for result in results) + b"".join(VALUES.get(part[1], bytes(part[2])) for part in parts))


def controller():
    return told(uploads(SYMBOLS, TYPES, **{"0xF080": value_reply, "0xF025": struct.pack("<I", 128)}), b"Plc \xe4")


LEFT_OUT = {"MAIN.pointer", "MAIN.wide", "MAIN.reference", "MAIN.retained", ".global", "MAIN.packed", "MAIN.self", "MAIN.overlaps", "main.COUNT.x", "MAIN.far"}
WANTED = '''\
# Written by tools/describe.py from what a server tells. No server tells its routes, its writers and its signals.
# member next of type FB_Timer is left out, and bytes stand in its place: POINTER TO FB_Timer is no type of a description
# type E_Silent: the server tells no parts and no values of it; INT stands in its place
# type T_MaxString: the server tells no parts and no values of it; STRING(255) stands in its place
# type DATE: UDINT stands in its place
# member on of type ST_Flags is left out, and bytes stand in its place: a bit field
# member me of type ST_Self is left out, and bytes stand in its place: the type ST_Self can't be held: it contains itself
schema = 2
net = "5.1.2.3.1.1"

[[route]]
net = "192.168.0.9.1.1"
rights = "control"

[[type]]
name = "FB_Timer"
member = [
  { name = "fill_0", type = "ARRAY [0..7] OF BYTE" },
  { name = "IN", type = "BOOL" },
  { name = "PT", type = "TIME", comment = "how long" },
  { name = "fill_3", type = "ARRAY [0..7] OF BYTE" },
  { name = "Q", type = "BOOL" },
  { name = "ET", type = "TIME" },
  { name = "fill_6", type = "ARRAY [0..7] OF BYTE" },
]

[[type]]
name = "E_Mode"
base = "INT"
value = [
  { name = "Off", number = -1 },
  { name = "Auto", number = 7 },
]

[[type]]
name = "ST_Point"
member = [
  { name = "x", type = "DINT" },
  { name = "y", type = "DINT" },
]

[[type]]
name = "ST_Line"
member = [
  { name = "ends", type = "ARRAY [0..1] OF ST_Point" },
  { name = "width", type = "LREAL" },
]

[[type]]
name = "ST_Flags"
member = [
  { name = "fill_0", type = "ARRAY [0..1] OF BYTE" },
  { name = "n", type = "INT" },
]
'''
