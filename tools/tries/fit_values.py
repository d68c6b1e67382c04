"""What of a value a changed type takes."""
from lib.building import build
from lib.fits import Fit
from lib.value_json import json_of
from lib.value_parts import parts_of
from tries.running import see

TYPES = """net = "5.1.2.3.1.1"
[[type]]
name = "Mode"
base = "INT"
value = ["Off", "On", "Idle"]
[[type]]
name = "Other"
base = "DINT"
value = ["On", "Off", { name = "Rest", number = 2 }]
[[type]]
name = "Axis"
member = [{ name = "on", type = "BOOL" }, { name = "pos", type = "INT" }, { name = "label", type = "STRING(3)" }]
[[type]]
name = "Turned"
member = [{ name = "label", type = "STRING(3)" }, { name = "pos", type = "INT" }, { name = "ON", type = "BOOL" }]
[[type]]
name = "Grown"
member = [{ name = "x", type = "LREAL" }, { name = "pos", type = "DINT" }, { name = "on", type = "BOOL" }]
[[type]]
name = "Deep"
member = [{ name = "axes", type = "ARRAY [1..2] OF Axis" }, { name = "mode", type = "Mode" }]
[[type]]
name = "Deeper"
member = [{ name = "mode", type = "Other" }, { name = "axes", type = "ARRAY [0..3] OF Turned" }]
[[port]]
port = 851
name = "x"
"""
AXIS = {"on": True, "pos": -5, "label": "a"}
NONE = {"label": "", "pos": 0, "ON": False}
# A type, another one, a value, what it is then (zeros where nothing is taken), and the paths that stay behind.
CHANGES = [
    ("ARRAY [1..3] OF INT", "ARRAY [1..5] OF INT", [1, 2, 3], [1, 2, 3, 0, 0], []),
    ("ARRAY [1..3] OF INT", "ARRAY [2..3] OF DINT", [1, 2, 3], [2, 3], ["V[1]"]),
    ("ARRAY [0..1,1..2] OF INT", "ARRAY [0..1,1..3] OF INT", [[1, 2], [3, 4]], [[1, 2, 0], [3, 4, 0]], []),
    ("ARRAY [1..2] OF INT", "INT", [1, 2], 0, ["V"]),
    ("INT", "ARRAY [1..2] OF INT", 1, [0, 0], ["V"]),
    ("DINT", "INT", -5, -5, []),
    ("DINT", "INT", 70000, 0, ["V"]),
    ("INT", "UINT", -1, 0, ["V"]),
    ("UDINT", "ULINT", 2**32 - 1, 2**32 - 1, []),
    ("WORD", "BYTE", 255, 255, []),
    ("REAL", "LREAL", 0.1, 0.1, []),
    ("LREAL", "REAL", 0.123456789, 0.12345679, []),
    ("LREAL", "REAL", 1e300, 0.0, ["V"]),
    ("LREAL", "REAL", "NaN", "NaN", []),
    ("INT", "REAL", 5, 5.0, []),
    ("REAL", "INT", 5.0, 0, ["V"]),
    ("BOOL", "INT", True, 0, ["V"]),
    ("TIME", "UDINT", "T#1s500ms", 1500, []),
    ("UDINT", "TIME", 1500, "T#1s500ms", []),
    ("STRING(5)", "STRING(3)", "abc", "abc", []),
    ("STRING(5)", "STRING(3)", "abcd", "", ["V"]),
    ("STRING(20)", "STRING(4)", "abcdefabcd", "", ["V"]),
    ("STRING(8)", "REAL", "0000c03f", 0.0, ["V"]),
    ("STRING(3)", "Mode", "On", "Off", ["V"]),
    ("Mode", "Other", "Off", "Off", []),
    ("Mode", "Other", "Idle", "Rest", []),
    ("Mode", "INT", "On", 1, []),
    ("INT", "Mode", 2, "Idle", []),
    ("INT", "Mode", 9, "Off", ["V"]),
    ("Axis", "Turned", AXIS, {"label": "a", "pos": -5, "ON": True}, []),
    ("Axis", "Grown", AXIS, {"x": 0.0, "pos": -5, "on": True}, ["V.label"]),
    ("Axis", "INT", AXIS, 0, ["V"]),
    (
        "Deep",
        "Deeper",
        {"axes": [AXIS, AXIS], "mode": "On"},
        {"mode": "On", "axes": [NONE, *[{"label": "a", "pos": -5, "ON": True}] * 2, NONE]},
        [],
    ),
]


def image_of(shape, parts):
    data = bytearray(shape.size())
    for part in parts:
        data[part.at : part.at + len(part.data)] = part.data
    return bytes(data)


def fits():
    """How many changes of types do with values what they should."""
    names = list(dict.fromkeys(kind for row in CHANGES for kind in row[:2]))
    symbols = "".join(f'[[port.symbol]]\nname = "V{number}"\ntype = "{kind}"\n' for number, kind in enumerate(names))
    verdict = build((TYPES + symbols).encode(), "line.toml").verdict
    shapes = {kind: verdict.shapes[it] for kind, it in zip(names, verdict.document["port"][0]["symbol"])}
    for one, other, value, wanted, left in CHANGES:
        old, new = shapes[one], shapes[other]
        fit = Fit(image_of(old, parts_of("V", old, value))).take("V", old, new)
        came = json_of(new, image_of(new, fit.parts))
        see(came == wanted, f"{value} of {one} becomes {came} of {other} in place of {wanted}")
        see([path for path, _, _ in fit.left] == left, f"{value} of {one} as {other} leaves {fit.left} in place of {left}")
        see(not Fit(fit.data, fit.data).take("V", old, new).parts, f"{one}: what did not change is taken")
    return len(CHANGES)
