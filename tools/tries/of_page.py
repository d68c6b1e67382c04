"""page.py: values as `ads get` prints them, the stream of changes, the form with its guards, servers that go, come and lie, and hostile peers."""
import concurrent.futures
import os
import socket
import struct
import subprocess
import sys
import time

from lib.program import run as run_program
from tries import page_form, page_http, page_servers, page_told
from tries.counting import Counting
from tries.paged import PLANT, Page, Rig, Stream, leaves_of
from tries.running import EXAMPLES, ME, TOOLS, Served, refused, see

SHOWN = {"Main.count": 42, "Main.mode": 0, "Main.speed": 0.1, "Main.flow": "NaN", "Main.long": 9223372036854775807, "Main.bits": 0, "Main.wait": 1500,
         "Main.title": "Kühl'$\r", "Main.limit": 1000, "In.door": False, "Flags.on": True, "Main.grid": [0, 0, 0, 0, 0, 0],
         "Main.axes": [{"active": False, "mode": 0, "pos": 0.0, "label": ""}] * 3}


def get(server, name):
    return run_program(server.program, "get", name, *server.words())[0].strip()


def wrong_words():
    to = ("--to", "127.0.0.1:1", "--me", ME)
    refused(1, "PLANT and --to and --me are wanted", "page.py")
    refused(1, "--me is a NetId", "page.py", PLANT, "--to", "127.0.0.1:1", "--me", "5.1")
    refused(1, "--netid is a NetId", "page.py", PLANT, *to, "--netid", "x")
    for http in ("8080", "127.0.0.1:", ":8080", "127.0.0.1:0", "127.0.0.1:65536"):
        refused(1, "--http", "page.py", PLANT, *to, "--http", http)
    refused(1, "--cycle is a number from 10 to 60000", "page.py", PLANT, *to, "--cycle", "5")
    refused(1, "has no Main.nothing", "page.py", PLANT, *to, "--write", "Main.nothing")
    refused(1, "Main.axes[1] has parts: --write names a plain value in it, such as Main.axes[1].active", "page.py", PLANT, *to, "--write", "Main.axes[1]")
    refused(1, "is none", "page.py", PLANT, *to, "--write", "Main..x")
    refused(1, "there is no option --wrote", "page.py", PLANT, *to, "--wrote", "x")
    refused(4, "No such file", "page.py", "/nowhere.toml", *to)
    refused(2, "rule 12 item 1", "page.py", os.path.join(EXAMPLES, "overlap.toml"), *to)
    refused(6, "can't be had", "page.py", PLANT, *to, "--http", "nowhere.invalid:8080")
    with socket.create_server(("127.0.0.1", 0)) as it:
        refused(6, "can't be had", "page.py", PLANT, *to, "--http", "127.0.0.1:%d" % it.getsockname()[1])


def values_equal(page, server):
    """Each value as it must be, and each text as `ads get` prints it."""
    values = page.values()
    for name, value in SHOWN.items():
        see(values[851, name]["value"] == value, f"/values.json: {name} is {values[851, name]['value']!r} in place of {value!r}")
    see(values[851, "Main.mode"]["word"] == "Off" and values[851, "Main.table"]["left_out"] == 904, "/values.json: the name of an enumeration's value")
    for (_, name), it in values.items():
        if name not in ("Main.wave", "Main.table"):
            printed = get(server, name)
            see(it["text"] == printed, f"/values.json: {name} is {it['text'][:80]!r} in place of {printed[:80]!r}")
    page.until(lambda: page.values()[851, "Main.wave"]["changed"], "a change of a signal")
    see(page.values()[851, "Main.wave"]["value"] in (3, 1, 4, 5, 9, 2, 6), "/values.json: a signal")
    metrics = page.ask("/metrics")[2].decode()
    for line in ('ads_page_up 1', 'ads_page_value{name="Main.count",port="851"} 42', 'ads_page_value{name="Main.speed",port="851"} 0.1',
                 'ads_page_value{name="Main.flow",port="851"} NaN', 'ads_page_value{name="Flags.on",port="851"} 1', "# TYPE ads_page_requests_total counter"):
        see(line in metrics.splitlines(), f"/metrics has no line {line}")
    return len(values)


def stream_tells(page, server):
    """A change comes as an event, and stands in the past."""
    with Stream(page) as stream:
        table = stream.next("table")
        leaves = leaves_of(table)
        see(table["values"][leaves["Main.count"]] == 42 and table["values"][leaves["Main.long"]] == "9223372036854775807", "the table of the stream")
        with Rig(server) as rig:
            rig.put("Main.count", struct.pack("<i", 77))
            rig.put("Main.table[3000]", struct.pack("<i", 5))
        said = stream.next("values", lambda it: [leaves["Main.count"], 77] in it["c"])
        see(said["g"] == table["g"] and said["o"] > table["o"], "the order of the stream")
        page.until(lambda: page.values()[851, "Main.table"]["value"][2999] == 5, "a value in a piece of a long array")
        past = page.json("/history.json?name=main.COUNT")
        see(past["values"][-2:] == [42, 77] and past["times"] == sorted(past["times"]), f"/history.json: {past}")
        see(page.ask("/history.json?name=Main.nothing")[0] == 404 and page.ask("/history.json")[0] == 404, "/history.json of a name that is not there")


def one_connection(program):
    """Ten browsers cost the server what one does."""
    counts = []
    with Served(program, PLANT) as server, Counting(server.to) as between, Page(PLANT, between.to) as page:
        page.until(page.is_well, "the server")
        for count in (1, 10):
            streams = [Stream(page) for _ in range(count)]
            for stream in streams:
                stream.next("table")
            time.sleep(0.5)
            requests, sent, at = between.requests, between.sent, time.monotonic()
            while time.monotonic() < at + 3:
                page.values()
                page.ask("/metrics")
            counts.append((between.requests - requests, between.sent - sent))
            for stream in streams:
                stream.next("values")
                stream.socket.close()
        see(between.connections == 1, f"the page opened {between.connections} connections to the server")
        see(all(requests <= 5 for requests, _ in counts) and any(requests for requests, _ in counts), f"requests in three seconds with one browser and with ten: {counts}")
        see(counts[1][1] < 1.5 * counts[0][1] + 500, f"bytes of the server in three seconds with one browser and with ten: {counts}")
    return counts[0][0], counts[1][0]


def nobody_reads():
    """Lines of standard output that nobody reads hold nothing up."""
    words = "import os; from lib.routes import say; [say('x' * 100) for _ in range(5000)]; os._exit(7)"
    with subprocess.Popen([sys.executable, "-c", words], cwd=TOOLS, stdout=subprocess.PIPE) as it:
        see(it.wait(30) == 7, "lines that nobody reads hold the page up")


def one_page(program, size):
    with Served(program, PLANT) as server, Page(PLANT, server.to, *(word for name in page_form.WRITTEN for word in ("--write", name))) as page:
        page.until(page.is_well, "the server")
        equal = values_equal(page, server)
        stream_tells(page, server)
        guarded = page_form.form_is_guarded(page, server)
        typed = page_form.form_writes(page, server)
        page_form.rights_refuse(server)
        hostile = page_http.of_requests(page)
        if not size.quick:
            page_http.of_slow(page)
        page_http.of_many(page)
        page_http.of_lazy()
        see(page.is_well(), "the page after its hostile peers")
        return equal, typed, guarded, hostile


def full_page(program):
    with Served(program, PLANT) as server, Page(PLANT, server.to) as page:
        page.until(page.is_well, "the server")
        return page_http.of_full(page)


def tried(program, size):
    calls = [(one_page, program, size), (wrong_words,), (full_page, program), (page_servers.goes_and_comes, program), (page_servers.takes_descriptions, program),
             (page_servers.lying_servers,), (page_servers.two_ports, program), (page_told.tells, program)] + ([] if size.quick else [(page_servers.far_apart, program)])
    with concurrent.futures.ThreadPoolExecutor(3) as pool:
        parts = [pool.submit(call, *given) for call, *given in calls]
        (equal, typed, guarded, hostile), _, waited, _, _, lies, *_ = [part.result() for part in parts]
    nobody_reads()
    one, ten = one_connection(program)
    return (f"{equal} values as `ads get` prints them, {typed} typed, {guarded} writes of others kept out, {hostile} hostile requests, "
            f"{lies} servers that lie; a place for one more browser in {waited:.0f} s; gone and back three times; four descriptions; {one} requests in 3 s for one browser, {ten} for ten")
