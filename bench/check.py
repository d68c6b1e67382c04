#!/usr/bin/env python3
"""Time of `ads check` per symbol, for descriptions of many symbols, types, members and routes.

    python3 bench/check.py [PROGRAM]      crates/ads/out/ads where it is absent

One port of 1,000, 2,000, 5,000 and 10,000 symbols, and 16 ports of 10,000: the ratio of the greatest time per symbol to
the least is to be at most 1.6. The other descriptions tell what grows with what: their times per element are printed
for two sizes or more. Two of them rise: symbols in falling order of offset, which are put before those that came, and
first values, which are looked for among an enumeration's values one by one.

Times are processor times of the program, the least of five runs.
"""
import sys

sys.dont_write_bytecode = True
sys.path.insert(1, f"{sys.path[0]}/../tries")
from timed import program_of, seconds_of  # noqa: E402
from under_test import ADS  # noqa: E402

HEAD = 'schema = 1\nnet = "5.1.2.3.1.1"\n'


def port(number, symbols, data):
    head = f'[[port]]\nport = {number}\nname = "Plc"\nmajor = 1\nminor = 0\nbuild = 0\ndata = {data}\n'
    return head + "".join(symbols)


def symbol(name, kind, offset):
    return f'[[port.symbol]]\nname = "{name}"\ntype = "{kind}"\narea = "data"\noffset = {offset}\n'


def plain_port(number, count):
    return port(number, [symbol(f"Plant.Line.Station.v{i}", "INT", 2 * i) for i in range(count)], 2 * count)


def of_symbols(ports, count):
    return HEAD + "".join(plain_port(851 + p, count) for p in range(ports))


def of_falling_offsets(count):
    """Symbols that stand behind those that come later."""
    return HEAD + port(851, [symbol(f"v{i}", "INT", 2 * (count - 1 - i)) for i in range(count)], 2 * count)


def of_types(types, members):
    rows = []
    for t in range(types):
        inner = ", ".join(f'{{ name = "m{i}", type = "BOOL" }}' for i in range(members))
        rows.append(f'[[type]]\nname = "Type{t}"\nmember = [{inner}]\n')
    return HEAD + "".join(rows) + plain_port(851, 1)


def of_last_type(types, count):
    """Symbols of the last of so many types."""
    rows = [f'[[type]]\nname = "Type{t}"\nmember = [{{ name = "a", type = "INT" }}]\n' for t in range(types)]
    symbols = [symbol(f"v{i}", f"Type{types - 1}", 2 * i) for i in range(count)]
    return HEAD + "".join(rows) + port(851, symbols, 2 * count)


def of_enumerations(values, count):
    """Symbols of an enumeration of so many values that begin with its last value."""
    inner = ", ".join(f'{{ name = "v{i}", number = {i} }}' for i in range(values))
    kind = f'[[type]]\nname = "Mode"\nbase = "UINT"\nvalue = [{inner}]\n'
    initial = f'initial = "{(values - 1).to_bytes(2, "little").hex()}"\n'
    symbols = [symbol(f"v{i}", "Mode", 2 * i) + initial for i in range(count)]
    return HEAD.replace("schema = 1", "schema = 2") + kind + port(851, symbols, 2 * count)


def of_routes(count):
    rows = [f'[[route]]\nnet = "{i >> 16 & 255}.{i >> 8 & 255}.{i & 255}.1.1.1"\nrights = "read"\n'
            for i in range(count)]
    return HEAD + "".join(rows) + plain_port(851, 1)


def nested_at_zero(count):
    """Symbols that all stand at offset 0, of a type that nests 16 structures of two members each."""
    rows = ['[[type]]\nname = "T0"\nmember = [{ name = "a", type = "BOOL" }, { name = "b", type = "BOOL" }]\n']
    for t in range(1, 16):
        rows.append(f'[[type]]\nname = "T{t}"\nmember = [{{ name = "a", type = "T{t - 1}" }}, {{ name = "b", type = '
                    f'"T{t - 1}" }}]\n')
    return HEAD + "".join(rows) + port(851, [symbol(f"v{i}", "T15", 0) for i in range(count)], 1 << 16)


def main(words):
    program = program_of(words, ADS)

    def row(name, count, text):
        # (some are refused: what is too much is told too)
        taken, last = seconds_of([program, "check", "it.toml"], {"it.toml": text}, is_right=lambda *_: True)
        print(f"{name}  {len(text) / (1 << 20):.2f} MiB  {taken:.3f} s  {1e6 * taken / count:.2f} us each  {last}")
        return taken / count

    each = [row(f"{count} symbols", count, of_symbols(1, count)) for count in (1000, 2000, 5000, 10000)]
    each.append(row("16 ports of 10000 symbols", 160000, of_symbols(16, 10000)))
    print(f"ratio of the greatest to the least: {max(each) / min(each):.2f} (at most 1.6)")
    for members in (100, 1000):
        row(f"100 types of {members} members", 100 * members, of_types(100, members))
    for types in (100, 1000):
        row(f"{types} types of 100 members", 100 * types, of_types(types, 100))
    for routes in (10000, 100000, 250000):
        row(f"{routes} routes", routes, of_routes(routes))
    for types in (1, 100, 1000):
        row(f"10000 symbols of the last of {types} types", 10000, of_last_type(types, 10000))
    for count in (1000, 10000):
        row(f"{count} symbols in falling order of offset", count, of_falling_offsets(count))
    for values in (1, 100, 1000):
        row(f"10000 symbols that begin with the last of {values} values", 10000, of_enumerations(values, 10000))
    row("10000 symbols of nested structures, all at offset 0", 10000, nested_at_zero(10000))


if __name__ == "__main__":
    main(sys.argv[1:])
