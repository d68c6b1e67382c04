"""Description rules 9 and 15: ports, and the size of their uploads. Each gives all broken items in order, with what is broken there."""
AREAS = ("inputs", "outputs", "memory", "data")
MOST_PORTS, MOST_SYMBOLS, MOST_NAME, MOST_UPLOAD, ENTRY = 16, 10000, 16, 2000000, 33
IMAGE_LIMITS = {1: 1048576, 2: 4194304}
GREATEST = {"major": 255, "minor": 255, "build": 65535}


def wrong_port(d):
    seen = {}
    for place, port in enumerate(d["port"][:MOST_PORTS]):
        for broken in port_faults(d, port, seen):
            yield place, broken
    count = len(d["port"])
    if "port" not in d.lost and not 1 <= count <= MOST_PORTS:
        yield MOST_PORTS, d.broken("port", f"there are {count} ports", None, "a description has at least one [[port]]" if not count else None)


def port_faults(d, port, seen):
    number, name = port["port"], port["name"]
    if number is not None and not 1 <= number <= 65535:
        yield port.broken("port", f"{number} is not from 1 to 65535", None, "851 is the first of TwinCAT 3, 801 of TwinCAT 2")
    elif number in seen:
        yield port.broken("port", "an earlier port has the number", seen[number])
    elif number is not None:
        seen[number] = port
    if name is not None and (len(name.encode()) > MOST_NAME or not all(" " <= letter <= "~" for letter in name)):
        why = f"{name[:80]!r} has {len(name.encode())} bytes; at most {MOST_NAME}, each from a space to a tilde, are a name"
        short = "".join(letter for letter in name if " " <= letter <= "~")[:MOST_NAME].strip()
        yield port.broken("name", why, None, f'"{short}" would fit' if short else None)
    for key, greatest in GREATEST.items():
        if port[key] is not None and not 0 <= port[key] <= greatest:
            yield port.broken(key, f"{port[key]} is not from 0 to {greatest}")
    yield from size_faults(d, port)


def size_faults(d, port):
    sizes, limit = {area: port[area] for area in AREAS if port[area] is not None}, IMAGE_LIMITS.get(d["schema"], IMAGE_LIMITS[2])
    for area, size in sizes.items():
        if size < 0:
            yield port.broken(area, f"{size} is below 0")
    image = sum(size for size in sizes.values() if size > 0)
    if image > limit and min(sizes.values()) >= 0:
        greatest = max(sizes, key=sizes.get)
        right = f"under schema = 2 they may have {IMAGE_LIMITS[2]}" if limit < image <= IMAGE_LIMITS[2] else None
        yield port.broken(greatest, f"the areas have {image} bytes together, more than {limit}", None, right)
    if len(port["symbol"]) > MOST_SYMBOLS:
        yield port.broken("symbol", f"there are {len(port['symbol'])} symbols", None, f"a port has at most {MOST_SYMBOLS}: arrays and structures need fewer")


def upload_size(port, shapes):
    return sum(ENTRY + len(symbol["name"]) + len(shapes[symbol].text()) + len(symbol["comment"]) for symbol in port["symbol"])


def wrong_upload(d, shapes):
    for place, port in enumerate(d["port"]):
        known = all(shapes.get(it) and it["name"] is not None and it["comment"] is not None for it in port["symbol"])
        size = upload_size(port, shapes) if known else 0
        if size > MOST_UPLOAD:
            yield place, port.broken("symbol", f"the upload has {size} bytes", None, f"at most {MOST_UPLOAD}: shorten comments and names")
