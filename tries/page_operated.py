"""What tries/page_browsed.py looks at of who operates a plant: alarms, units, limits, bits, groups, several values in
one plot, and the page in German.
"""
import os
import re
import struct
import time

from page_parts import CONTRAST, ROW, SAID, set_value
from tries.counting import Counting
from tries.page_told import LINE
from tries.paged import Page, Rig
from tries.running import ME, Served, tool

ALARMS = "return [...document.querySelectorAll('#alarm-list .alarm-text')].map((it) => it.textContent)"
WIDE = "return [document.documentElement.scrollWidth, innerWidth]"


def alarms(it, rig):
    rig.put("Main.door", b"\1")
    rig.put("Main.pump2.state", b"\1\x80")
    rig.put("Main.pump1.flow", struct.pack("<f", 39.5))
    it.until("return document.querySelectorAll('#alarm-list li').length === 3")
    said = it.browser.script(ALARMS)
    it.see(
        sorted(said) == ["Door <b>open</b>", "Flow: above 38 l/min", "Hot"],
        "alarms of a BOOL, a limit and a bit are listed",
        said,
    )
    it.see(
        it.browser.script("return document.title") == "\U0001f514 3 · Told – live values",
        "the title counts them",
        it.browser.script("return document.title"),
    )
    it.shot("alarms")
    it.browser.script("document.querySelector('#alarm-list button').click()")
    it.see(it.until("return document.querySelectorAll('#alarm-list .seen').length === 1"), "a button acknowledges one")
    times = it.browser.script("return document.querySelector('#alarm-list .seen .alarm-times').textContent")
    it.see(
        re.fullmatch(r"came \d\d:\d\d:\d\d · acknowledged \d\d:\d\d:\d\d by 127\.0\.0\.1", times),
        "with when and by whom",
        times,
    )
    it.browser.script("document.getElementById('alarms-all').click()")
    rig.put("Main.door", b"\0")
    rig.put("Main.pump2.state", b"\3\0")
    gone = it.until(
        "return document.querySelectorAll('#alarm-list li').length === 1 && "
        "document.querySelectorAll('#past-list li').length === 2"
    )
    it.see(gone, "what is gone and acknowledged goes to the past ones", it.browser.script(ALARMS))


def shown_beside(it):
    it.browser.script(ROW + "row('Main.pump2').click()")
    unit = it.browser.script(ROW + "return row('Main.pump2.flow').querySelector('.unit').textContent")
    it.see(unit == "l/min", "a unit stands behind the value", unit)
    it.browser.script(ROW + "row('Main.pump2.state').click()")
    bits = it.browser.script(
        "return [...document.querySelectorAll('#rows tr')].filter((it) => it.of && it.of.bit !== undefined)"
        ".map((it) => it.of.name + ' ' + it.main.textContent)"
    )
    it.see(bits == ["Ready TRUE", "On TRUE", "Hot FALSE"], "a number unfolds into its bits by name", bits)
    groups = it.browser.script("return [...document.querySelectorAll('#rows .section')].map((it) => it.textContent)")
    it.see(groups == ["Line", "Pumps", "Recipes", "Others"], "symbols stand in their groups", groups)
    it.browser.click("#sections")
    it.see(
        it.browser.script("return document.querySelectorAll('#rows .section').length") == 0,
        "a button shows them in one list",
    )
    it.browser.click("#sections")
    it.shot("groups")


def limits(it, rig):
    told = set_value(it, "Main.count", "51")
    it.see(
        told == "Not written: 51 is above 50, the greatest that may be written to Main.count here.",
        "a value outside of its limits is refused",
        told,
    )
    told = set_value(it, "Main.count", "45")
    it.see(told == "Written: 45", "one inside is written", told)
    it.until(ROW + "return row('Main.count').main.textContent === '45'")
    rig.put("Main.count", struct.pack("<i", 46))
    it.see(
        it.until("const card = document.querySelector('.card .said'); return card.textContent === ''"),
        "what was written is said until another value comes",
        it.browser.script(SAID, "Main.count"),
    )
    log = it.browser.script(
        "return [...document.querySelectorAll('#log-rows tr')].map((it) => it.lastChild.textContent)"
    )
    it.see(log == ["45 (before: 42)"], "the log has what was written", log)
    it.browser.script(ROW + "row('Main.count').click()")
    lines = it.until(
        "const found = [...document.querySelectorAll('#plot .limit-text')].map((it) => it.textContent); "
        "return found.length === 2 && found"
    )
    it.see(lines == ["min 10", "max 50"], "the plot has the limits", lines)


def several(it, rig):
    for count in range(40):
        rig.put("Main.door", bytes([count % 2]))
        time.sleep(0.1)
    it.browser.script("document.querySelector('.compare').click()")
    for path in ("Main.door", "Main.pump1.flow"):
        it.browser.script(ROW + "if (!row(arguments[0])) row('Main.pump1').click(); row(arguments[0]).click()", path)
    names = it.browser.script("return [...document.querySelectorAll('.legend-name')].map((it) => it.textContent)")
    it.see(names == ["Main.count", "Main.door", "Main.pump1.flow"], "three values stand in one plot", names)
    it.see(it.until("return document.querySelectorAll('#plot path.line').length === 3"), "with a line each")
    it.see(
        it.until("return document.querySelectorAll('#plot path.band').length > 0"), "a fast toggle is drawn as a band"
    )
    it.shot("several")
    it.browser.script("document.querySelector('.legend .away').click()")
    it.see(
        it.browser.script("return document.querySelectorAll('#plot path.line').length") == 2, "a button takes one out"
    )


def recipe(it):
    """A recipe is filled from another, refused for one value, and written whole."""
    it.browser.script(
        "const other = document.querySelectorAll('.recipe select')[1], change = () => new Event('change');"
        "other.value = '[1]'; other.dispatchEvent(change());"
        "const one = document.querySelector('.recipe select'); one.value = '[2]'; one.dispatchEvent(change());"
        "document.querySelector('.recipe .small-button').click()"
    )
    typed = (
        "const field = document.querySelectorAll('.recipe tbody input')[1]; field.value = arguments[0]; "
        "field.dispatchEvent(new Event('input')); document.querySelector('.recipe .set').click(); "
        "const look = document.querySelector('.recipe-look .set'); if (look) look.click()"
    )
    it.browser.script(typed, "2000")
    wrong = it.until("return document.querySelectorAll('.recipe .wrong')[1].textContent")
    it.see(wrong.startswith("2000 ml is above 1000 ml"), "a value of a recipe outside of its limits is told", wrong)
    it.shot("recipe")
    it.browser.script(typed, "700")
    it.see(
        it.until("return document.querySelector('.recipe .said').textContent === 'Written: Main.recipes[2]'"),
        "a recipe is written",
    )
    title = it.until(
        "const it = document.querySelector('.recipe select'); return it.selectedOptions[0].textContent === '[2] Water'"
    )
    it.see(title, "and is there then")


def gone(it, between):
    between.is_open = False
    between.cut_off()
    it.see(
        it.until("return document.querySelector('.set').disabled && document.querySelector('.card input').disabled"),
        "nothing can be written where the server is gone",
    )
    old = it.browser.script(ROW + "return getComputedStyle(row('Main.count').main, '::after').content")
    it.see(old == '"old"', "values are marked as old ones", old)
    it.shot("old")
    between.is_open = True
    it.see(it.until("return !document.querySelector('.set').disabled", seconds=40), "and can be again when it is back")


def in_german(it):
    it.browser.go(f"http://127.0.0.1:{it.page.port}/?lang=de")
    it.until(
        "return document.querySelectorAll('#rows tr').length > 0 && "
        "document.querySelectorAll('#alarm-list li').length > 0"
    )
    words = it.browser.script(
        "return [document.documentElement.lang, document.getElementById('alarms-title').textContent, "
        "document.querySelector('.set').textContent]"
    )
    it.see(words == ["de", "Alarme", "Setzen"], "the page in German", words)
    for dark in (False, True):
        it.browser.dark(dark)
        for wide in (390, 1200):
            it.browser.size(wide, 900)
            time.sleep(0.3)
            scroll, inner = it.browser.script(WIDE)
            it.see(scroll <= inner, f"{wide} px wide: no scrolling sideways", (scroll, inner))
            faint = it.browser.script(CONTRAST)
            it.see(faint == [], f"{wide} px wide, {'dark' if dark else 'light'}: all texts are read well", faint)
            it.shot(f"german-{wide}-{'dark' if dark else 'light'}")
    it.browser.dark(False)


def operated(it, folder):
    """A page over a plant whose source says what a page shows."""
    plant = os.path.join(folder, "told.toml")
    out, err, status = tool("plant.py", "build", LINE, "--out", plant)
    it.see(status == 0, "plant.py builds the plant", out + err)
    with Served(it.program, plant) as server, Counting(server.to) as between, Rig(server) as rig:
        with Page(
            plant,
            between.to,
            "--write",
            "Main.count",
            "--write",
            "Main.wait",
            "--write",
            "Main.recipes",
            "--state",
            os.path.join(folder, "state.json"),
            me=ME,
        ) as page:
            it.browser.size(1200, 1000)
            it.open(page)
            alarms(it, rig)
            shown_beside(it)
            limits(it, rig)
            several(it, rig)
            recipe(it)
            gone(it, between)
            in_german(it)
