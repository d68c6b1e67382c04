"""A description of schema 2, and faults in it: a text of it, what stands in its place, and a part of each sentence that must come. All of them may stand there
together, and then each is told, and nothing else."""

PLAIN = """schema = 2
net = "5.1.2.3.1.1"
[[route]]
net = "192.168.0.9.1.1"
rights = "control"
[[route]]
net = "192.168.0.10.1.1"
rights = "read"
[[route]]
net = "192.168.0.11.1.1"
rights = "write"
[[type]]
name = "Mode"
base = "INT"
value = [
  { name = "Auto", number = 2 },
  { name = "Off", number = 0 },
]
[[type]]
name = "Speed"
base = "USINT"
value = [
  { name = "Slow", number = 1 },
  { name = "Fast", number = 2 },
  { name = "Idle", number = 3 },
]
[[type]]
name = "Axis"
member = [
  { name = "active", type = "BOOL" },
  { name = "pos", type = "DINT", comment = "in micrometres" },
]
[[type]]
name = "Pair"
member = [
  { name = "left", type = "Axis" },
  { name = "right", type = "Axis" },
]
[[type]]
name = "Lone"
member = [
  { name = "only", type = "ARRAY [1..24] OF INT" },
]
[[port]]
port = 851
name = "Plc30 App"
major = 3
minor = 1
build = 1711
data = 512
[[port.symbol]]
name = "Main.count"
type = "INT"
area = "data"
offset = 0
initial = "2a00"
[[port.symbol]]
name = "Main.level"
type = "REAL"
area = "data"
offset = 4
initial = "0000c03f"
[[port.symbol]]
name = "Main.mode"
type = "Mode"
area = "data"
offset = 8
initial = "0200"
[[port.symbol]]
name = "Main.grid"
type = "ARRAY [1..2,1..3] OF LREAL"
area = "data"
offset = 16
[[port.symbol]]
name = "Main.title"
type = "STRING(7)"
area = "data"
offset = 64
initial = "4d69780000000000"
[[port.symbol]]
name = "Main.run"
type = "BOOL"
area = "data"
offset = 72
read_only = false
initial = "01"
[[port.symbol]]
name = "Main.long"
type = "LINT"
area = "data"
offset = 80
initial = "0100000000000000"
[[port.symbol]]
name = "Main.wave"
type = "UINT"
area = "data"
offset = 88
signal = 2
[[port.symbol]]
name = "Main.axes"
type = "ARRAY [1..2] OF Axis"
area = "data"
offset = 96
comment = "both"
writers = ["192.168.0.9.1.1"]
[[port.symbol]]
name = "Main.last"
type = "DINT"
area = "data"
offset = 112
[[port]]
port = 852
name = "Inputs"
major = 3
minor = 2
build = 0
inputs = 16
memory = 16
symbol = [
  { name = "In.a", type = "INT", area = "inputs", offset = 0 },
  { name = "In.b", type = "INT", area = "inputs", offset = 2, persistent = true },
  { name = "In.c", type = "INT", area = "inputs", offset = 4 },
  { name = "Mem.a", type = "INT", area = "memory", offset = 0 },
]
"""

FAULTS = [
    ('net = "5.1.2.3.1.1"', 'net = "5.1.2.3.1.300"', ["the description, key `net`: '5.1.2.3.1.300' is no NetId"]),
    ('net = "192.168.0.10.1.1"', 'net = "192.168.0.10"', ["without superfluous zeros, joined by full stops; write 192.168.0.10.1.1"]),
    ('rights = "write"', 'rights = "wirte"', ["'wirte' is not read, write or control; is `write` meant?"]),
    ('name = "Idle"', 'name = "slow"', ['value "slow" of type "Speed", key `name`: an earlier value has the name']),
    ('name = "Fast", number = 2', 'name = "Fast", number = 300', ["300 is no number of USINT, 0 to 255; INT holds it"]),
    ('name = "active"', 'name = "is active"', ["'is active' is no identifier: a letter or _, and then letters, digits and _; as is_active"]),
    ('comment = "in micrometres"', 'comment = "in µm"', ["the comment has the character 'µ', which is not from a space to a tilde"]),
    ('name = "right", type = "Axis"', 'name = "right", type = "Axes"', ["key `type`: there is no type 'Axes' before it; is `Axis` meant?"]),
    ('type = "ARRAY [1..24] OF INT"', 'type = "ARRAY [1..24]OF INT"',
     ["an array is written ARRAY [l..u] OF T, with one space behind ARRAY, before OF and behind OF; write ARRAY [1..24] OF INT"]),
    ("major = 3\nminor = 2", "major = 300\nminor = 2", ["300 is not from 0 to 255"]),
    ("minor = 1\n", 'minor = "1"\n', ["key `minor`: a number without quotes or point is wanted, and a text stands there; write 1"]),
    ("build = 1711", "biuld = 1711", ["[[port]] has no such key; is `build` meant?", "key `build`: [[port]] must have it; as `build = 0`"]),
    ('name = "In.a", type = "INT"', 'name = "In.a", type = "INTEGER"', ["there is no type 'INTEGER' in this description; is `INT` meant?"]),
    ('offset = 2, persistent = true', 'offset = 2 persistent = true', [": in this inline table a comma or } is wanted here"]),
    ('name = "In.c"', 'name = "In..c"', ["'In..c' is no name: identifiers joined by full stops, at most 255 bytes; as In.c"]),
    ('name = "Mem.a", type = "INT", area = "memory"', 'name = "Mem.a", type = "INT", area = "Memory"',
     ["'Memory' is none of inputs, outputs, memory, data; is `memory` meant?"]),
    ('initial = "2a00"', "initial = -1", ['a text in quotes is wanted, and a number stands there; write "ffff"']),
    ('initial = "0000c03f"', 'initial = "1.5"', ["'1.5' is no hexadecimal text, two digits a byte; write \"0000c03f\""]),
    ('offset = 8\ninitial = "0200"', 'offset = 8\ninitial = "0700"', ['it is the number of no value of Mode; Auto is "0200", Off is "0000"']),
    ("ARRAY [1..2,1..3] OF LREAL", "ARRAY [1..2] OF ARRAY [1..3] OF LREAL",
     ["an array of arrays is no type here; an array has one to three dimensions; write ARRAY [1..2,1..3] OF LREAL"]),
    ('initial = "4d69780000000000"', 'initial = "Kühl"', ["'Kühl' is no hexadecimal text, two digits a byte; write \"4bfc686c00000000\""]),
    ('read_only = false', 'read_only = "no"', ["key `read_only`: true or false is wanted, and a text stands there"]),
    ('initial = "01"', "initial = true", ['a text in quotes is wanted, and true or false stands there; write "01"']),
    ('initial = "0100000000000000"', 'initial = "0100"', ['it has 2 bytes, and LINT has 8; write "0100000000000000" for 1']),
    ("signal = 2", "signal = 7", ["there is no signal 7; `ads` has 3, numbered from 0 (for `adsd` name its"]),
    ('writers = ["192.168.0.9.1.1"]', 'writers = ["192.168.0.9.1.1", "192.168.0.9.1.1"]', ["'192.168.0.9.1.1' stands there twice"]),
    ('name = "Main.axes"', 'name = "Main.mode.x"', ["it begins with the whole name 'Main.mode' of an earlier symbol (line "]),
    ("offset = 112", "offset = 510", ["it ends at byte 514, and data has 512 bytes; let it be data = 520"]),
]
# Faults that stand alone, since they hide others or are hidden by them.
ALONE = [
    ("schema = 2", "schema 2", [":1:8: behind the key 'schema' an equals sign is wanted"]),
    ('name = "Pair"', 'name = "Axis"', ["an earlier type has the name, ASCII case aside (line "]),
    ("offset = 112", "offset = 98",
     ['it has the bytes 98 to 101 of data, and 96 to 111 are those of symbol "Main.axes" of port 851 (line 99); 112 is free']),
    ("offset = 112", "offset = -4", ["-4 is below 0; 12 is free"]),
    ('type = "LINT"', 'type = "DATE"', ["there is no type 'DATE' in this description; UDINT has its bytes", ]),
    ('type = "STRING(7)"', 'type = "STRING[7]"', ["'STRING[7]' is no plain type, no STRING(n), no array and no name of a type; write STRING(7)"]),
    ("read_only = false", "read_only = False", ["'False' is no value: a text stands in quotes, a number has no superfluous zeros; write false"]),
    ('name = "right", type = "Axis"', 'name = "right", type = "Pair"', ["there is no type 'Pair' before it; a structure can't contain itself"]),
    ('name = "right", type = "Axis"', 'name = "right", type = "Lone"', ["there is no type 'Lone' before it; put type \"Lone\" before this one"]),
    ("[[port.symbol]]\nname = \"Main.last\"", "[[port.symbol]\nname = \"Main.last\"", ["this header wants ]] here"]),
    ('  { name = "Idle", number = 3 },\n]', '  { name = "Idle", number = 3 },',
     ["before this line the value that begins in line 22 wants its closing ] or }"]),
]
