"""The form of page.py: what is typed is checked, explained and written, by nobody but the page itself, and with the rights of its route."""
from tries.paged import PLANT, READER, Page, Rig
from tries.running import see

# What is typed for a value, the status, and the bytes that the server has then, or a part of the sentence.
TYPED = [
    ("Main.count", " -7 ", 200, "f9ffffff"), ("Main.count", "+8", 200, "08000000"), ("Main.count", "2147483648", 400, "from -2147483648 to 2147483647"),
    ("Main.count", "1.5", 400, "a whole number in decimal digits"), ("Main.count", "0x10", 400, "decimal digits"), ("Main.count", "", 400, "no value"),
    ("Main.count", "9" * 5000, 400, "a whole number"), ("Main.count", "٣", 400, "decimal digits"),
    ("Main.speed", "1.5", 200, "0000c03f"), ("Main.speed", "-2e-3", 200, "6f1203bb"), ("Main.speed", "1,5", 400, "write a full stop"),
    ("Main.speed", "1e39", 400, "3.4028235e38"), ("Main.speed", "nan", 400, "a number such as 1.5"), ("Main.flow", "1e309", 400, "beyond a LREAL"),
    ("Main.flow", "0.1", 200, "9a9999999999b93f"), ("Main.mode", "Auto", 200, "0200"), ("Main.mode", "-9", 200, "f7ff"), ("Main.mode", "fault", 200, "f7ff"),
    ("Main.mode", "1", 400, "one of Off (0), Auto (2), Fault (-9)"), ("Main.wait", "T#1m30s", 200, "905f0100"), ("Main.wait", "250", 200, "fa000000"),
    ("Main.wait", "t#49d17h2m47s295ms", 200, "ffffffff"), ("Main.wait", "T#50d", 400, "has more"), ("Main.wait", "T#", 400, "neither"),
    ("Main.title", "Öl 'x' $", 200, "d66c202778272024" + 13 * "00"), ("Main.title", "", 200, 21 * "00"), ("Main.title", "1" * 21, 400, "room for 20"),
    ("Main.title", "Ж", 400, "Windows-1252"), ("Main.title", "a\0b", 400, "Windows-1252"),
    ("In.door", "true", 200, "01"), ("In.door", "2", 400, "TRUE or FALSE"),
    ("Main.long", "-9223372036854775808", 200, "0000000000000080"), ("Main.bits", "65535", 200, "ffff"),
    ("Main.axes[1].pos", "2.5", 200, "0000000000000440"), ("main.AXES[2].label", "abc", 200, "616263000000"),
    ("Main.limit", "5", 409, "0x704 reading or writing not permitted"), ("Main.own", "5", 409, "its writers are others"),
    ("Main.table[1]", "5", 403, "none of the values that may be written"), ("Main.nothing", "5", 403, "none of the values"),
]
WRITTEN = sorted({name for name, _, status, _ in TYPED if status != 403})


def number_of(server):
    with Rig(server) as rig:
        return rig.bytes_of("Main.count").hex()


def form_writes(page, server):
    """What is typed is checked, explained and written."""
    token = page.token()
    with Rig(server) as rig:
        for name, text, wanted, part in TYPED:
            status, why = page.write(name, text, token)
            see(status == wanted and (status == 200 or part in why), f"{name} := {text[:30]!r}: status {status}, {why!r} in place of {wanted}, {part!r}")
            if status == 200:
                see(rig.bytes_of(name).hex() == part, f"{name} := {text!r}: {rig.bytes_of(name).hex()} in place of {part}")
    wanted = {"Main.mode": (-9, "Fault"), "Main.long": (-2 ** 63, None), "Main.speed": (-0.002, None), "Main.wait": (4294967295, None), "In.door": (True, None)}
    page.until(lambda: all((page.values()[851, name]["value"], page.values()[851, name].get("word")) == it for name, it in wanted.items()),
               f"what was written in /values.json: {wanted}")
    return len(TYPED)


def form_is_guarded(page, server):
    """Nothing is written but by the page itself."""
    token, before = page.token(), number_of(server)
    origin = f"http://127.0.0.1:{page.port}"
    tries = [
        ("no token", {"X_Token": None}, 403), ("another token", {"X_Token": token[:-1] + ("A" if token[-1] != "A" else "B")}, 403),
        ("an empty token", {"X_Token": ""}, 403),
        ("another origin", {"Origin": "http://evil.example"}, 403), ("this origin with another port", {"Origin": "http://127.0.0.1:1"}, 403),
        ("no origin, as of a sandbox", {"Origin": "null"}, 403), ("another site", {"Sec_Fetch_Site": "cross-site"}, 403),
        ("a site beside", {"Sec_Fetch_Site": "same-site"}, 403),
        ("another host", {"Host": "evil.example"}, 421), ("a form's own kind of body", {"Content_Type": "application/x-www-form-urlencoded"}, 415),
        ("text", {"Content_Type": "text/plain"}, 415), ("no kind of body", {"Content_Type": None}, 415),
    ]
    for what, headers, wanted in tries:
        status, why = page.write("Main.count", "666", token, **headers)
        see(status == wanted, f"a write with {what}: status {status}, {why!r} in place of {wanted}")
    for body in (b"", b"{", b"[]", b'{"name": 1, "value": "1"}', b'{"name": "Main.count"}', b"[" * 100000, b'{"name": "Main.count", "value": 666}', b"\xff",
                 b'{"name": "Main.count", "value": "666", "port": 1e400}', b'{"name": "Main.count", "value": "666", "port": true}'):
        status, _, said = page.ask("/write", "POST", body, Content_Type="application/json", X_Token=token, Origin=origin)
        see(status == 400, f"a write with the body {body[:40]!r}: status {status}, {said[:200]!r}")
    see(number_of(server) == before, f"Main.count is {number_of(server)} in place of {before}")
    with Page(PLANT, server.to, "--host", "plant.example") as silent:
        statuses = [silent.ask("/metrics", Host=name)[0] for name in ("Plant.Example:80", "x.plant.example")]
        see(statuses == [200, 421], f"the names of --host: {statuses}")
        see(silent.token() == "" and silent.write("Main.count", "666", "")[0] == 404, "a page without --write has a form")
        see(silent.token() != token and page.token() == token, "two starts have one token")
    return len(tries) + 10


def rights_refuse(server):
    """The route's rights stand behind the form."""
    with Page(PLANT, server.to, "--write", "Main.count", "--write", "Main.own", me=READER) as page:
        page.until(page.is_well, "the server")
        status, why = page.write("Main.count", "5", page.token())
        wanted = f"0x704 reading or writing not permitted: the route {READER} has no right to write"
        see(status == 409 and wanted in why, f"a route that may only read: {status} {why!r}")
    with Page(PLANT, server.to, me="1.1.1.1.1.1") as page:
        page.until(lambda: b"is 1.1.1.1.1.1 one of its routes?" in page.ask("/healthz")[2], "the sentence for a NetId that is no route")
    with Page(PLANT, server.to, "--netid", "9.9.9.9.9.9") as page:
        page.until(lambda: b"0x7 target machine not found, it has not the NetId 9.9.9.9.9.9" in page.ask("/healthz")[2], "the sentence for another NetId")
    with Page(PLANT, server.to, "--port", "852") as page:
        page.until(lambda: b"0x6 target port not found" in page.ask("/healthz")[2], "the sentence for another port")
