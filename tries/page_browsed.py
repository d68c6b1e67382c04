#!/usr/bin/env python3
"""Tries tools/page.py in a real browser: a line a check, then a count; status 1 where one is wrong.

    python3 tries/page_browsed.py [PROGRAM] [--shots FOLDER] [--cost] [--operated]

PROGRAM is crates/ads/out/ads where it is absent. It needs Debian's chromium and chromium-driver, and nothing else.
`--shots` keeps pictures of the page. `--cost` prints instead what the page costs: 134 symbols of which all change ten
times a second, with no browser, one and ten. `--operated` looks only at what is for who operates a plant: alarms,
units, limits, bits, groups, several values in one plot.
"""
import argparse
import contextlib
import os
import pathlib
import re
import shutil
import struct
import sys
import tempfile
import time

ROOT = pathlib.Path(__file__).resolve().parent.parent
sys.dont_write_bytecode = True
sys.path.insert(1, f"{sys.path[0]}/../tools")
from browser import Driver, Failed  # noqa: E402
from lib.frames import READ_WRITE  # noqa: E402
from lib.payloads import Request  # noqa: E402
from page_operated import operated  # noqa: E402
from page_parts import ROW, SAID, Tried, filters, forms, hostile, keyboard, parts, plots, values, widths  # noqa: E402
from tries.counting import Counting  # noqa: E402
from tries.paged import PLANT, READER, Page, Rig, Stream, put  # noqa: E402
from tries.running import Served, Wrong  # noqa: E402
from under_test import ADS  # noqa: E402

WRITTEN = ("Main.count", "Main.mode", "Main.limit", "Main.title", "Main.axes[1].pos")
BAR = "return document.getElementById('bar').innerText.startsWith(arguments[0])"
HEAD = ('schema = 2\nnet = "5.1.2.3.1.1"\n[[route]]\nnet = "192.168.0.9.1.1"\nrights = "write"\n'
        '[[port]]\nport = 851\nname = "Many"\nmajor = 1\nminor = 0\nbuild = 0\n')


def many(folder, count):
    """A description of so many numbers."""
    place = os.path.join(folder, f"{count}.toml")
    symbols = "".join(f'[[port.symbol]]\nname = "Hall{at % 7}.value{at}"\ntype = "DINT"\narea = "data"\noffset = '
                      f'{4 * at}\n' for at in range(count))
    put(place, f"{HEAD}data = {4 * count}\n{symbols}")
    return place


def gone_and_back(it):
    """The server is gone and back."""
    it.filter("main")
    it.between.is_open = False
    it.between.cut_off()
    it.see(it.until(BAR, "The server has been gone since"), "a bar says that the server is gone", it.text("bar"))
    faint = it.browser.script("return document.body.classList.contains('stale')")
    it.see(faint and it.text("pill") == "no connection", "the values are faint", it.text("pill"))
    it.shot("gone")
    it.between.is_open = True
    it.see(it.until(BAR, "The server is back.", seconds=40), "the bar says that it is back", it.text("bar"))
    filtered = it.browser.script("return document.getElementById('filter').value") == "main"
    it.see(it.text("pill") == "live" and filtered, "values come again, and the filter stands")
    it.see(it.until("return document.getElementById('bar').hidden", seconds=15), "the bar goes")
    it.filter("")


def described_anew(it, place):
    """A new description, and the end of the page's own program."""
    it.click("Main.wave")
    with open(PLANT, encoding="utf-8") as file:
        put(place, file.read().replace('name = "Main.bits"',
                                       'name = "Main.fresh"').replace('name = "Auto"', 'name = "Running"'))
    it.see(it.until(ROW + "return Boolean(row('Main.fresh'))", seconds=40), "a new description builds the table anew",
           it.names())
    it.see("Main.bits" not in it.names(), "without what is gone")
    it.see(it.text("bar") == "The server has a new description, version 2: 1 symbol came, 1 symbol went.",
           "a bar says so", it.text("bar"))
    it.see(it.title() == "Main.wave", "the plot stays", it.title())
    it.browser.press("Escape")
    with Rig(it.server) as rig:
        rig.put("Main.mode", struct.pack("<h", 2))
    it.shows("Main.mode", "Running", "enumerations have their new names")
    it.page.end()
    it.see(it.until(BAR, "This page's own program does not answer"), "a bar says that the page's own program is gone",
           it.text("bar"))


def restarted(it, place):
    """The page's program is started again, at the same port: the browser loads the page with its new token."""
    token = it.browser.script("return document.querySelector('meta[name=token]').content")
    with Page(place, it.between.to, "--write", "Main.count", port=it.page.port):
        fresh = it.until("return document.querySelector('meta[name=token]').content !== arguments[0] && "
                         "document.getElementById('pill-text').textContent === 'live'", token, seconds=40)
        it.see(fresh, "the page loads itself again when its program is back, with its new token")
        it.see(it.browser.script("return document.querySelectorAll('.card').length") == 1,
               "and has the form of the new start")


def rights(it):
    with Page(PLANT, it.server.to, me=READER) as page:
        it.open(page)
        it.see(it.browser.script("return document.getElementById('forms').hidden && "
                                 "document.querySelectorAll('form').length === 0"),
               "without --write there is no form")
    with Page(PLANT, it.server.to, "--write", "Main.count", me=READER) as page:
        it.open(page)
        it.browser.script("document.querySelector('.card input').focus()")
        it.browser.press("5", "Enter")
        it.until("return document.querySelector('.said').textContent.startsWith('Not written')")
        told = it.browser.script(SAID, "Main.count")
        it.see("0x704 reading or writing not permitted: the route 192.168.0.10.1.1 has no right to write" in told,
               "a route without the right is refused in words", told)
        it.shot("refused")


def many_symbols(it, folder):
    """Ten thousand symbols."""
    place = many(folder, 10000)
    with Served(it.program, place) as server, Page(place, server.to, "--seconds", "30") as page:
        live = it.open(page)
        it.see(live and len(it.names()) == 500, "of 10,000 symbols 500 rows are shown at first", len(it.names()))
        took = it.browser.script("const began = performance.now(), it = document.getElementById('filter'); it.value = "
                                 "'hall3 99'; "
                                 "it.dispatchEvent(new Event('input')); document.body.offsetHeight; return "
                                 "performance.now() - began")
        it.see(took < 1000, f"the filter over them took {took:.0f} ms", took)
        it.filter("")
        it.see(it.text("more") == "Show 500 of 9,500 further rows", "the rest is told", it.text("more"))


def ten_browsers(it):
    """What ten cost the server beside what one does."""
    counts = []
    with contextlib.ExitStack() as stack:
        for more in (0, 9):
            for _ in range(more):
                stack.enter_context(Stream(it.page)).next("table")
            before, at = it.between.requests, time.monotonic()
            time.sleep(5)
            counts.append((it.between.requests - before) / (time.monotonic() - at))
        moved = it.main("Main.wave")
        it.see(max(counts) < 1.5 and it.between.connections == 1,
               f"requests a second at the server: {counts[0]:.1f} with this browser, {counts[1]:.1f} with nine more",
               counts)
        it.see(it.until(ROW + "return row('Main.wave').main.textContent !== arguments[0]", moved),
               "and all of them go on")


def ended(it):
    print(f"{it.right + it.wrong} checks, {it.wrong} wrong")
    return 1 if it.wrong else 0


def tried(program, shots, only_operated=False):
    with contextlib.ExitStack() as stack:
        folder = stack.enter_context(tempfile.TemporaryDirectory())
        place = os.path.join(folder, "plant.toml")
        shutil.copy(PLANT, place)
        it = Tried(program, stack.enter_context(Driver()), shots)
        it.browser.size(1200, 900)
        it.browser.dark(False)
        operated(it, folder)
        if only_operated:
            return ended(it)
        it.browser.size(1200, 900)
        it.server = stack.enter_context(Served(program, place))
        it.between = stack.enter_context(Counting(it.server.to))
        page = stack.enter_context(Page(place, it.between.to,
                                        *(word for name in WRITTEN for word in ("--write", name))))
        it.see(it.open(page), "the page opens, and is live")
        for part in (values, parts, filters, plots, keyboard, forms, hostile, widths, ten_browsers):
            part(it)
        said = [line for line in it.browser.log() if "requires 'Trusted" not in line and "status of 40" not in line]
        it.see(said == [], "the browser had nothing to complain of", said)
        gone_and_back(it)
        described_anew(it, place)
        restarted(it, place)
        rights(it)
        many_symbols(it, folder)
    return ended(it)


def cost(program, seconds=10):
    """Processor time of the page and requests at the server, with no browser, one and ten, while all of 134 values
    change each 100 ms."""
    with tempfile.TemporaryDirectory() as folder, contextlib.ExitStack() as stack:
        place, turn = many(folder, 134), 0
        server = stack.enter_context(Served(program, place))
        between = stack.enter_context(Counting(server.to))
        page = stack.enter_context(Page(place, between.to))
        rig = stack.enter_context(Rig(server))
        page.until(page.is_well, "the server")
        heads = b"".join(struct.pack("<III", 0x4040, 4 * at, 4) for at in range(134))
        for count, more in ((0, 0), (1, 1), (10, 9)):
            for _ in range(more):
                stack.enter_context(Stream(page)).next("table")
            before, requests, sent, at = measured(page), between.requests, between.sent, time.monotonic()
            while time.monotonic() < at + seconds:
                turn += 1
                rig.link.ask(851, Request(READ_WRITE, 0xF081, 134, 4 * 134, heads + struct.pack("<I", turn) * 134))
                time.sleep(max(0.0, 0.1 - (time.monotonic() - at) % 0.1))
            took, after = time.monotonic() - at, measured(page)
            print(f"{count} browsers: {100 * (after['cpu_seconds_total'] - before['cpu_seconds_total']) / took:.1f} % "
                  f"of a processor, "
                  f"{(after['changes_total'] - before['changes_total']) / took:.0f} changes/s, "
                  f"at the server {(between.requests - requests) / took:.1f} requests/s, "
                  f"{(between.sent - sent) / took / 1000:.1f} kB/s from it, "
                  f"{between.connections} connection(s)", flush=True)
    return 0


def measured(page):
    return {name: float(value) for name, value in re.findall(r"^ads_page_(\w+) ([\d.e+-]+)$",
                                                             page.ask("/metrics")[2].decode(), re.M)}


def main():
    it = argparse.ArgumentParser(description=__doc__, formatter_class=argparse.RawDescriptionHelpFormatter)
    it.add_argument("program", nargs="?", default=ADS, type=os.path.abspath)
    it.add_argument("--shots", type=os.path.abspath)
    it.add_argument("--cost", action="store_true")
    it.add_argument("--operated", action="store_true")
    given = it.parse_args()
    if not os.access(given.program, os.X_OK):
        print(f"there is no program at {given.program}: `rt run` in crates/ads builds it")
        return 2
    if given.shots:
        os.makedirs(given.shots, exist_ok=True)
    try:
        return cost(given.program) if given.cost else tried(given.program, given.shots, given.operated)
    except (Failed, Wrong) as fault:
        print(f"WRONG  {fault}")
        return 1


if __name__ == "__main__":
    sys.exit(main())
