"""Random lines for tools/plant.py, and what must be read of each symbol of the plant that they build: each plain part, as the program prints it."""
import random
import struct

NUMBERS = {"SINT": (-2 ** 7, 2 ** 7 - 1), "USINT": (0, 255), "BYTE": (0, 255), "INT": (-2 ** 15, 2 ** 15 - 1), "UINT": (0, 65535), "WORD": (0, 65535),
           "DINT": (-2 ** 31, 2 ** 31 - 1), "UDINT": (0, 2 ** 32 - 1), "DWORD": (0, 2 ** 32 - 1), "LINT": (-2 ** 63, 2 ** 63 - 1), "ULINT": (0, 2 ** 64 - 1),
           "LWORD": (0, 2 ** 64 - 1)}
BASES = ("SINT", "USINT", "INT", "UINT", "DINT", "UDINT", "LINT", "ULINT")
SIZES = {"SINT": 1, "USINT": 1, "BYTE": 1, "INT": 2, "UINT": 2, "WORD": 2, "DINT": 4, "UDINT": 4, "DWORD": 4, "LINT": 8, "ULINT": 8, "LWORD": 8}
LETTERS = "abc XYZ 019 ÄÖÜäöüß€ŽŒ°µ ' $ \\ \" # = [ ] { }"
AREAS = ("inputs", "outputs", "memory", "data")
REALS = (0.0, -0.0, 1.5, -2.25, 500.0, 1e10, -1e-10, 0.1, 3, -7, 16777216, 3.4028234e38)


def quoted(text):
    return '"' + text.replace("\\", "\\\\").replace('"', '\\"') + '"'


def said_text(data):
    """A text as the program prints it."""
    return "'" + "".join(chr(byte) if 0x20 <= byte <= 0x7E and byte not in b"'$" else f"${byte:02X}" for byte in data) + "'"


class Kind:
    """A type: its text, how a value is made (its TOML, and its tree of parts), and the tree with which it begins."""

    def __init__(self, text, made, begun):
        self.text, self.made, self.begun = text, made, begun


class Lines:
    def __init__(self, seed):
        self.rng, self.named, self.count = random.Random(seed), [], 0

    # Types.

    def number(self, word):
        low, high = NUMBERS[word]

        def made(rng):
            number = rng.choice((low, high, 0, 1, rng.randint(low, high)))
            if rng.random() < 0.15:
                return '"' + (number % 2 ** (8 * SIZES[word])).to_bytes(SIZES[word], "little").hex() + '"', str(number)
            return (f'"{number}"' if number >= 2 ** 63 else f"{number:#x}" if rng.random() < 0.2 and number >= 0 else str(number)), str(number)
        return Kind(word, made, lambda: "0")

    @staticmethod
    def real(word):
        code, size = ("<f", 4) if word == "REAL" else ("<d", 8)

        def made(rng):
            number = rng.choice((*REALS, rng.uniform(-1e6, 1e6)))
            return repr(number), "16#" + struct.pack(code, number).hex()
        return Kind(word, made, lambda: "16#" + "00" * size)

    @staticmethod
    def truth():
        return Kind("BOOL", lambda rng: rng.choice((("true", "TRUE"), ("false", "FALSE"), ("1", "TRUE"), ('"FALSE"', "FALSE"))), lambda: "FALSE")

    @staticmethod
    def time():
        def made(rng):
            d, h, m, s, ms = (rng.randrange(most) for most in (40, 24, 60, 60, 1000))
            total = (((d * 24 + h) * 60 + m) * 60 + s) * 1000 + ms
            return rng.choice((f'"T#{d}d{h}h{m}m{s}s{ms}ms"', str(total), f'"time#{d}d{h}h{m}m{s}.{ms:03}s"')), str(total)
        return Kind("TIME", made, lambda: "0")

    @staticmethod
    def text(most):
        def made(rng):
            said = "".join(rng.choice(LETTERS) for _ in range(rng.randrange(most + 1)))
            return quoted(said), said_text(said.encode("cp1252"))
        return Kind(f"STRING({most})", made, lambda: "''")

    def element(self):
        rng, word = self.rng, self.rng.choice([*NUMBERS, "REAL", "LREAL", "BOOL", "TIME", "STRING", "named", "named", "named"])
        if word == "named" and self.named:
            return rng.choice(self.named)
        if word == "STRING":
            return self.text(rng.choice((0, 1, 7, 20, 80)))
        return self.real(word) if word in ("REAL", "LREAL") else self.number(word) if word in NUMBERS else self.time() if word == "TIME" else self.truth()

    def kind(self):
        inner = self.element()
        if self.rng.random() < 0.7:
            return inner
        ends = [(low, low + self.rng.randrange(3)) for low in self.rng.sample((-1, 0, 1, 5), self.rng.choice((1, 1, 2)))]
        return array(inner, ends)

    def enumeration(self):
        rng, name, base = self.rng, f"E{len(self.named)}", self.rng.choice(BASES)
        low, high = NUMBERS[base]
        numbers = [rng.choice((None, None, rng.randint(max(low, -100), min(high, 100)))) for _ in range(rng.randrange(1, 6))]
        values, number = [], -1
        for place, own in enumerate(numbers):
            own = own if own is not None and own not in [it for _, it, _ in values] else None
            number = number + 1 if own is None else own
            if number in [it for _, it, _ in values] or not low <= number <= high:
                break
            values.append((f"Step_{place}", number, own))
        said = ", ".join((f'"{own}"' if rng.random() < 0.5 else f'{{ name = "{own}" }}') if told is None else f'{{ name = "{own}", number = {told} }}'
                         for own, _, told in values)

        def made(rng):
            own, number, _ = rng.choice(values)
            return rng.choice((f'"{own}"', f'"{own.upper()}"', f'"{name}.{own}"', str(number))), str(number)
        kind = Kind(name, made, lambda: "0")
        kind.first, kind.said = str(values[0][1]), f'name = "{name}"\nbase = "{base}"\nvalue = [{said}]'
        return kind

    def structure(self):
        rng, name, members, lines = self.rng, f"S{len(self.named)}", [], []
        for place in range(rng.randrange(1, 6)):
            kind, own = self.kind(), f"m{place}"
            many = rng.random() < 0.1
            literal, tree = kind.made(rng) if rng.random() < 0.3 else (None, None)
            begun = (lambda tree=tree: tree) if literal is not None else kind.begun
            members += [(f"{own}_{at}" if many else own, kind, begun) for at in range(1, 3 if many else 2)]
            lines.append(f'{{ name = "{own}{"_{1..2}" if many else ""}", type = "{kind.text}"{f", initial = {literal}" if literal is not None else ""} }}')

        def made(rng):
            given = {own: kind.made(rng) for own, kind, _ in members if rng.random() < 0.6}
            literal = "{ " + ", ".join(f"{rng.choice((own, own.upper()))} = {said}" for own, (said, _) in given.items()) + " }"
            return literal, {own: given[own][1] if own in given else begun() for own, _, begun in members}
        kind = Kind(name, made, lambda: {own: begun() for own, _, begun in members})
        kind.said = f'name = "{name}"\nmember = [{", ".join(lines)}]'
        return kind

    # The line.

    def line(self):
        """A line, and for each of its symbols what must be read: pairs of a path and a value."""
        rng, lines, wanted = self.rng, ["# a line", 'net = "5.1.2.3.1.1"', '[[route]]\nnet = "192.168.0.9.1.1"\nrights = "control"'], {}
        for _ in range(rng.randrange(5)):
            kind = rng.choice((self.enumeration, self.structure, self.structure))()
            self.named.append(kind)
            lines.append(f"[[type]]\n{kind.said}")
        lines.append('[[port]]\nport = 851\nname = "Random"')
        self.head, self.symbols = lines, [self.symbol(place, wanted) for place in range(rng.randrange(8))]
        return self.written(self.symbols), wanted

    def written(self, symbols):
        return "\n".join([*self.head, *(f"[[port.symbol]]\n{symbol}" for symbol in symbols)]) + "\n"

    def changed(self):
        """The same line with other symbols: some gone, some new, and in another order."""
        rng = self.rng
        symbols = rng.sample(self.symbols, rng.randrange(len(self.symbols) + 1)) + [self.symbol(place, {}) for place in range(8, 8 + rng.randrange(4))]
        rng.shuffle(symbols)
        return self.written(symbols)

    def symbol(self, place, wanted):
        rng, kind, many = self.rng, self.kind(), self.rng.choice(("", "", "", "{1..3}", "{08..10}", "{1..2}_{1..2}"))
        names = {"": [""], "{1..3}": ["1", "2", "3"], "{08..10}": ["08", "09", "10"], "{1..2}_{1..2}": ["1_1", "1_2", "2_1", "2_2"]}[many]
        literal, tree = kind.made(rng) if rng.random() < 0.7 else (None, kind.first if hasattr(kind, "first") else kind.begun())
        for own in names:
            wanted.update(leaves(f"G{place % 2}.s{place}_{own}", tree))
        lines = [f'name = "G{place % 2}.s{place}_{many}"  # of the line', f'type = "{kind.text}"']
        lines += [f'area = "{rng.choice(AREAS)}"'] if rng.random() < 0.5 else []
        lines += [f"offset = {10000 + 20000 * place + rng.randrange(9)}"] if rng.random() < 0.2 else []
        lines += [f"initial = {literal}"] if literal is not None else []
        lines += ["persistent = true"] if rng.random() < 0.2 else []
        return "\n".join(lines)


def array(inner, ends):
    counts = [high - low + 1 for low, high in ends]

    def filled(given, at=0):
        """The tree of an array whose first elements are given."""
        if at == len(ends):
            return next(given, None) or inner.begun()
        return [filled(given, at + 1) for _ in range(counts[at])]

    def made(rng):
        total = counts[0] * (counts[1] if len(counts) > 1 else 1)
        if rng.random() < 0.2:
            literal, tree = inner.made(rng)
            return f"{{ each = {literal} }}", indexed(filled(iter([tree] * total)), ends)
        given = [inner.made(rng) for _ in range(rng.randrange(total + 1))]
        literals, tree = [literal for literal, _ in given], indexed(filled(iter([tree for _, tree in given])), ends)
        if len(counts) > 1 and len(given) == total and rng.random() < 0.5:
            rows = [literals[at:at + counts[1]] for at in range(0, total, counts[1])]
            return "[" + ", ".join("[" + ", ".join(row) + "]" for row in rows) + "]", tree
        return "[" + ", ".join(literals) + "]", tree
    return Kind(f"ARRAY [{','.join(f'{low}..{high}' for low, high in ends)}] OF {inner.text}", made, lambda: indexed(filled(iter([])), ends))


def indexed(rows, ends):
    """An array's elements by their indexes."""
    if len(ends) == 1:
        return {f"[{ends[0][0] + at}]": one for at, one in enumerate(rows)}
    return {f"[{ends[0][0] + at},{ends[1][0] + by}]": one for at, row in enumerate(rows) for by, one in enumerate(row)}


def leaves(path, tree):
    if isinstance(tree, str):
        return {path: tree}
    found = {}
    for key, inner in tree.items():
        found.update(leaves(path + (key if key.startswith("[") else "." + key), inner))
    return found


def line_of(seed, number):
    return Lines(f"{seed} {number}").line()
