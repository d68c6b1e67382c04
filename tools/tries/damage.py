"""Random descriptions of both schemas, and damage to them: to one value, so that a rule of its own is broken, or to the text."""
import copy
import random

from lib.layout import Named, NamedTypes
from lib.type_texts import BASES, PLAIN

AREAS = ("inputs", "outputs", "memory", "data")
NUMBERS = (-1, 0, 1, 2, 3, 16, 255, 256, 65535, 65536, 1048576, 1048577, 4194304, 4194305, 2147483648, 4294967296, 2 ** 63 - 1, -2 ** 63)
TEXTS = (
    "", "x", "9", "A b", "Axis", "BOOL", "of", "STRING", "String(3)", "STRING(65535)", "STRING(07)", "ARRAY [1..3] OF DINT", "array [0..1,-2..2,5..5] of int",
    "ARRAY [3..1] OF INT", "ARRAY [1..2000000] OF BOOL", "ARRAY [0..1] OF ARRAY [0..1] OF INT", "ARRAY[0..1] OF INT", "ARRAY [-0..1] OF INT", "T0", "t1",
    "1.2.3.4.5.6", "1.2.3.4.5", "1.2.3.4.5.256", "01.2.3.4.5.6", "read", "control", "data", "00", "0", "zz", "é", "\x7f", "a.b", "a..b", ".a", "G.s0", "g.S1", "G",
    "n" * 255, "n" * 256,
)
ODD = (
    "true", "false", "1.5", "1e3", "inf", "1979-05-27", "07:32:00", "[]", "[1]", "['a']", "[[]]", "{}", "{a = 1}", "0x10", "1_0", "'''\na'''",
    '"""\na"""', '"\\u0041"',
)
MARKS = ('"', "'", "[", "]", "{", "}", "=", "#", "\\", ".", ",", " ", "\t", "\n", "\r", "\r\n", "\0", "\x7f", "é", "\ufeff", "0", "-", "_", "a", '"""', "[[")


class Raw(str):
    """A value as it stands."""


def made(rng):
    """A description that is accepted, or nearly."""
    schema = rng.choice((1, 2))
    d = {"schema": schema, "net": "5.1.2.3.1.1", "route": [], "type": [], "port": []}
    for place in range(rng.randrange(4)):
        d["route"].append({"net": f"192.168.0.{place}.1.1", "rights": rng.choice(("read", "write", "control"))})
    types = NamedTypes()
    for place in range(rng.randrange(4)):
        add_type(rng, d, types, f"T{place}", schema == 2 and rng.random() < 0.5)
    for place in range(rng.choice((1, 1, 1, 2, 3))):
        d["port"].append(made_port(rng, types, 851 + place, schema))
    signals = [0, 1, 2]
    plain = [symbol for port in d["port"] for symbol in port["symbol"] if symbol["type"] in PLAIN]
    for symbol in rng.sample(plain, min(len(plain), rng.randrange(3))):
        symbol["signal"] = signals.pop(rng.randrange(len(signals)))
    return d


def add_type(rng, d, types, name, enumeration):
    if enumeration:
        base = rng.choice(list(BASES))
        values = [(f"V{at}", number) for at, number in enumerate(rng.sample(range(100), rng.randrange(1, 4)))]
        types.add(Named.enumeration(name, base, values))
        d["type"].append({"name": name, "base": rng.choice((base, base.lower())), "value": [{"name": own, "number": number} for own, number in values]})
        return
    members = [(f"m{at}", type_text(rng, types), rng.choice(("", "a comment"))) for at in range(rng.randrange(1, 5))]
    types.add(Named.structure(name, [(own, types.shape(text), comment) for own, text, comment in members]))
    d["type"].append({"name": name, "member": [{"name": own, "type": text, **({"comment": comment} if comment else {})} for own, text, comment in members]})


def type_text(rng, types):
    element = rng.choice([*PLAIN, "STRING(7)", "string", *(it.name for it in types.listed)])
    element = rng.choice((element, element.upper())) if element in PLAIN else element
    return element if rng.random() < 0.7 else f"ARRAY [{rng.choice(('0..2', '1..2,0..1', '-1..1'))}] OF {element}"


def made_port(rng, types, number, schema):
    port = {"port": number, "name": rng.choice(("Plc", "", "A name of 16 byt")), "major": 3, "minor": 1, "build": 7, "symbol": []}
    ends = dict.fromkeys(AREAS, 0)
    for place in range(rng.randrange(7)):
        text, area = type_text(rng, types), rng.choice(AREAS)
        shape, at = types.shape(text), ends[area] + rng.choice((0, 0, 3))
        symbol = {"name": f"G.s{place}", "type": text, "area": area, "offset": at}
        named = shape.named()
        if rng.random() < 0.4:
            data = named.number_bytes(rng.choice(named.values)[1]) if named and named.base else rng.randbytes(shape.size())
            symbol["initial"] = rng.choice((data.hex(), data.hex().upper()))
        if rng.random() < 0.2:
            symbol[rng.choice(("persistent", "read_only"))] = rng.choice((True, False))
        if schema == 2 and rng.random() < 0.2:
            symbol["writers"] = [f"10.0.0.{at}.1.1" for at in range(rng.randrange(1, 4))]
        ends[area] = at + shape.size()
        port["symbol"].append(symbol)
    port.update({area: end for area, end in ends.items() if end})
    return port


def written(value):
    if isinstance(value, Raw):
        return str(value)
    if isinstance(value, bool):
        return "true" if value else "false"
    if isinstance(value, int):
        return str(value)
    if isinstance(value, list):
        return "[" + ", ".join(written(one) for one in value) + "]"
    if isinstance(value, dict):
        return "{ " + ", ".join(f"{key} = {written(one)}" for key, one in value.items()) + " }"
    if any(letter < " " or letter in "\"\\\x7f" for letter in value):
        return '"' + "".join(f"\\u{ord(letter):04x}" if letter < " " or letter in "\"\\\x7f" else letter for letter in value) + '"'
    return f'"{value}"'


def rendered(rng, d):
    """The text, with tables as headers or inline."""
    lines = [f"{key} = {written(one)}" for key, one in d.items() if not is_tables(one)]
    for key, tables in d.items():
        if is_tables(tables):
            lines += header_lines(rng, key, tables)
    return "\n".join(lines) + "\n"


def is_tables(value):
    return isinstance(value, list) and bool(value) and all(isinstance(one, dict) for one in value)


def header_lines(rng, path, tables):
    lines = []
    for table in tables:
        inline = rng.random() < 0.5
        lines += ["", f"[[{path}]]", *(f"{key} = {written(one)}" for key, one in table.items() if not is_tables(one) or inline)]
        for key, inner in table.items():
            if is_tables(inner) and not inline:
                lines += header_lines(rng, f"{path}.{key}", inner)
    return lines


def tables_of(d):
    """All tables of a description."""
    found = [d]
    for value in d.values():
        for one in value if isinstance(value, list) else []:
            if isinstance(one, dict):
                found += tables_of(one)
    return found


def symbols_of(d):
    ports = d["port"] if is_tables(d.get("port")) else []
    return [symbol for port in ports if is_tables(port.get("symbol")) for symbol in port["symbol"]]


# Damage to one value.

def other_value(rng, d):
    table = rng.choice(tables_of(d))
    key = rng.choice(list(table))
    old = table[key]
    pool = NUMBERS if isinstance(old, int) and rng.random() < 0.8 else TEXTS if isinstance(old, str) and rng.random() < 0.8 else [Raw(one) for one in ODD]
    table[key] = rng.choice(pool)


def value_of_another(rng, d):
    """A value in place of another one under the same key: names, numbers and places that are taken."""
    key = rng.choice(("name", "net", "type", "offset", "area", "port", "number", "initial", "signal", "member", "rights"))
    having = [table for table in tables_of(d) if key in table]
    if having:
        one, other = rng.choice(having), rng.choice(having)
        value = copy.deepcopy(other[key])
        one[key] = value.swapcase() if key == "name" and isinstance(value, str) and rng.random() < 0.5 else value


def no_key(rng, d):
    table = rng.choice(tables_of(d))
    table.pop(rng.choice(list(table)), None)


def other_key(rng, d):
    table = rng.choice(tables_of(d))
    key = rng.choice(("nmae", "comment", "writers", "base", "value", "member", "signal", "initial", "persistent", "x"))
    table[key] = rng.choice((1, "a", True, ["1.1.1.1.1.1"], []))


def other_schema(rng, d):
    d["schema"] = rng.choice((1, 2, 2, 3, 0))


def another_table(rng, d):
    for _ in range(20):
        table = rng.choice(tables_of(d))
        lists = [one for one in table.values() if is_tables(one)]
        if lists:
            one = rng.choice(lists)
            one.insert(rng.randrange(len(one) + 1), copy.deepcopy(rng.choice(one)))
            return


def moved(rng, d):
    symbols = symbols_of(d)
    if symbols:
        symbol = rng.choice(symbols)
        symbol["offset"] = rng.choice((0, 1, 2, 4, 8, 100, -1))


def signal(rng, d):
    symbols = symbols_of(d)
    if symbols:
        rng.choice(symbols)["signal"] = rng.choice((0, 1, 2, 3, -1))


def symbol_key(rng, d):
    symbols = symbols_of(d)
    if symbols:
        key, values = rng.choice((
            ("initial", ("", "00", "0", "zz", "00" * 4)), ("comment", ("", "é", "c" * 255, "c" * 256, "\t")), ("area", ("data", "Data", "memory")),
            ("writers", ([], ["1.1.1.1.1.1"] * 2, ["1.1.1.1.1"], [f"1.1.1.1.{at}.1" for at in range(65)]))))
        rng.choice(symbols)[key] = rng.choice(values)


def deep(rng, d):
    """Structures in one another, around as deep as they may be."""
    count, last = rng.randrange(15, 19), "BOOL"
    if d.get("type") == [] or is_tables(d.get("type")):
        for place in range(count):
            d["type"].append({"name": f"D{place}", "member": [{"name": "x", "type": last}]})
            last = f"D{place}"


def great(rng, d):
    """Types around as great as they may be."""
    if d.get("type") == [] or is_tables(d.get("type")):
        text = f"ARRAY [1..{rng.choice((1048576, 1048577, 524289))}] OF {rng.choice(('BYTE', 'INT'))}"
        d["type"].append({"name": "Great", "member": [{"name": "x", "type": text}]})


def many_ports(rng, d):
    if is_tables(d.get("port")):
        d["port"] += [dict(d["port"][0], port=1000 + place, symbol=[]) for place in range(rng.choice((13, 14, 15, 16)))]


VALUES = (other_value, other_value, other_value, value_of_another, value_of_another, no_key, other_key, other_schema, another_table, moved, signal, symbol_key,
          symbol_key, deep, great, many_ports)


# Damage to the text.

def damaged_text(rng, text):
    at, lines = rng.randrange(len(text) + 1), text.split("\n")
    line = rng.randrange(len(lines))
    how = rng.randrange(8)
    if how == 0:
        return text[:at]
    if how == 1:
        return text[:at] + text[at + 1:]
    if how in (2, 3):
        return text[:at] + rng.choice(MARKS) + text[at + (how == 3):]
    if how == 4:
        return "\n".join(lines[:line] + lines[line + 1:])
    if how == 5:
        return "\n".join(lines[:line] + [lines[line]] * 2 + lines[line + 1:])
    if how == 6:
        other = rng.randrange(len(lines))
        lines[line], lines[other] = lines[other], lines[line]
        return "\n".join(lines)
    return text.replace("\n", "\r\n")


def damaged(number, seed):
    """The number-th damaged description of a seed, as bytes."""
    rng = random.Random(f"{seed} {number}")
    d = made(rng)
    for _ in range(rng.choice((0, 1, 1, 1, 2))):
        rng.choice(VALUES)(rng, d)
    text = rendered(rng, d)
    for _ in range(rng.choice((0, 0, 1, 1, 2))):
        text = damaged_text(rng, text)
    given = text.encode()
    return given.replace(b"\xc3", b"\xff", 1) if rng.random() < 0.01 else given
