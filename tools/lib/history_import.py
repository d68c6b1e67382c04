"""Recordings of `ads record`, taken into a history: a sample that is there already is not taken again."""
import collections
import contextlib
import os
import sqlite3

from lib.files import read_plant, regular
from lib.flow_names import Known
from lib.flow_session import unix_ns
from lib.history_store import Batch
from lib.link import net_of
from lib.payloads import BadPayload
from lib.values import printed
from lib.words import Ended, number

AT_ONCE = 50000


def recording(path):
    """The samples of a recording: a name, a moment in 100 ns, and bytes."""
    if not os.path.exists(path):
        raise Ended(f"{path}: No such file or directory", 4)
    regular(path)
    name = path.replace("%", "%25").replace("?", "%3f").replace("#", "%23")
    try:
        with contextlib.closing(sqlite3.connect(f"file:{name}?mode=ro", uri=True)) as base:
            for name, moment, data in base.execute("SELECT name, time, bytes FROM sample ORDER BY number"):
                if not all(isinstance(it, bytes) for it in (name, moment, data)) or len(moment) != 8:
                    raise Ended(f"{path} is no recording of `ads record`: a row of it has other columns", 2)
                yield name, int.from_bytes(moment, "big"), data
    except sqlite3.Error as fault:
        raise Ended(f"{path} is no recording of `ads record`: {fault}", 2) from None


def known_of(name, data, port):
    """What a name is by the description; without one its bytes are an unsigned number, the low byte first."""
    part = port and port.find(printed(name))
    if part and part.shape.size() == len(data):
        return Known(part.path, name, part.shape.text(), part.shape.type_id(), len(data), part.shape)
    known = Known(printed(name), name, "", 0, len(data), None)
    known.stored = lambda data: int.from_bytes(data, "little") if len(data) <= 7 else None
    return known


def taken_in(paths, options, store):
    net, port = net_of(options["netid"], "--netid"), number(options["port"], "--port", 1, 65535)
    plant = read_plant(options["description"]).port(port) if options["description"] else None
    store.start(net, port, paths)
    names, taken, there, batches = {}, 0, 0, 0
    for path in paths:
        rows = []
        for name, moment, data in recording(path):
            key = name, len(data)
            if key not in names:
                known = known_of(name, data, plant)
                names[key] = store.symbols(net, port, [(known.name, known.type, known.size)])[0], known.stored
            symbol, stored = names[key]
            try:
                rows.append((symbol, unix_ns(moment), stored(data), data))
            except BadPayload:
                raise Ended(f"{path} has the moment {moment}, which is no date from 1970 to 2262: was it recorded with --local?", 2) from None
            if len(rows) >= AT_ONCE:
                batches, taken, there, rows = put(store, batches, taken, there, rows)
        batches, taken, there, rows = put(store, batches, taken, there, rows)
    store.stop()
    print(f"took {taken} samples of {len(names)} names; {there} were there")
    return 0


def put(store, batches, taken, there, rows):
    """Writes the rows that are not there."""
    known, ends = collections.Counter(), {}
    for symbol, ns, _, _ in rows:
        least, most = ends.get(symbol, (ns, ns))
        ends[symbol] = min(least, ns), max(most, ns)
    for symbol, (least, most) in ends.items():
        known.update((symbol, ns, data) for ns, _, _, data in store.present(symbol, least, most))
    fresh = []
    for row in rows:
        key = row[0], row[1], row[3]
        if known[key]:
            known[key] -= 1
        else:
            fresh.append(row)
    store.write(Batch(batches + 1, fresh, [], None))
    return batches + 1, taken + len(fresh), there + len(rows) - len(fresh), []
