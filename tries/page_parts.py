"""What tries/page_browsed.py looks at, part by part: values, arrays, the filter, plots, keys, forms, hostile texts,
widths and colours."""
import os
import re
import struct
import time

from tries.paged import Rig

ROW = "const row = (path) => [...document.querySelectorAll('#rows tr')].find((it) => it.of && it.of.path === path);"
MAIN = ROW + " return row(arguments[0]) ? row(arguments[0]).main.textContent : null;"
SHOWS = ROW + " return Boolean(row(arguments[0])) && row(arguments[0]).main.textContent === arguments[1];"
ACTIVE = ("return document.activeElement.of ? document.activeElement.of.path : document.activeElement.id || "
          "document.activeElement.tagName")
CARD = ("const card = (name) => [...document.querySelectorAll('.card')].find((it) => "
        "it.querySelector('.name').textContent === name);")
SAID = CARD + "return card(arguments[0]).querySelector('.said').textContent"
CLOSED = "return document.getElementById('plot').hidden"
LIVE = ("return document.querySelectorAll('#rows tr').length > 0 && document.getElementById('pill-text').textContent "
        "=== 'live'")
SHOWN = {"Main.count": "42", "Main.mode": "Off", "Main.speed": "0.1", "Main.flow": "NaN",
         "Main.long": "9223372036854775807", "Main.wait": "T#1s500ms",
         "Main.title": "'Kühl$27$24$0D'", "In.door": "FALSE", "Flags.on": "TRUE"}
HOSTILE = b"<img src=x onerror='window.hacked=1'>"
MODES = ["Main.axes", "Main.axes[0]", "Main.axes[0].mode", "Main.axes[1]", "Main.axes[1].mode", "Main.axes[2]",
         "Main.axes[2].mode", "Main.mode"]
# The texts of the page whose colour and ground are too near each other (WCAG, level AA).
CONTRAST = """
const light = (text) => { const [r, g, b, a = 1] = text.match(/[\\d.]+/g).map(Number); return [r, g, b, a]; };
const weight = ([r, g, b]) => [r, g, b].map((it) => it / 255)
  .map((it) => it <= 0.03928 ? it / 12.92 : ((it + 0.055) / 1.055) ** 2.4)
  .reduce((sum, it, at) => sum + it * [0.2126, 0.7152, 0.0722][at], 0);
const ground = (it) => {
  for (let at = it; at; at = at.parentElement) {
    const own = light(getComputedStyle(at).backgroundColor);
    if (own[3] > 0.99) return own;
  }
  return [255, 255, 255];
};
const found = [], all = 'h1, h2, #where, .pill, .toggle, .count, .name, .comment, .main, .small, .type, .tag, '
  + 'td.age, th, .set, .said, kbd, dt, dd';
for (const it of document.querySelectorAll(all)) {
  if (!it.textContent || !it.offsetParent) continue;
  const one = weight(light(getComputedStyle(it).color)), other = weight(ground(it));
  const ratio = (Math.max(one, other) + 0.05) / (Math.min(one, other) + 0.05);
  if (ratio < 4.5) found.push(it.className + ' ' + it.textContent.slice(0, 20) + ' ' + ratio.toFixed(2));
}
return found.slice(0, 5);
"""


class Tried:
    """A browser at a page over a server, and how many checks came out right and wrong."""

    def __init__(self, program, driver, shots):
        self.program, self.shots, self.right, self.wrong = program, shots, 0, 0
        self.browser, self.page, self.server, self.between = driver.browser(), None, None, None

    def see(self, holds, what, came=""):
        self.right, self.wrong = self.right + bool(holds), self.wrong + (not holds)
        print(f"ok     {what}" if holds else f"WRONG  {what}: {came}", flush=True)

    def open(self, page):
        self.page = page
        self.browser.go(f"http://127.0.0.1:{page.port}/")
        return self.browser.wait(LIVE, seconds=40)

    def main(self, path):
        return self.browser.script(MAIN, path)

    def shows(self, path, text, what):
        """Sees that a value is shown within seconds."""
        self.see(self.until(SHOWS, path, text), what, self.main(path))

    def until(self, text, *given, seconds=20):
        return self.browser.wait(text, *given, seconds=seconds)

    def text(self, name):
        return self.browser.script("return document.getElementById(arguments[0]).innerText", name)

    def names(self):
        return self.browser.script("return [...document.querySelectorAll('#rows tr')].filter((it) => it.of).map((it) "
                                   "=> it.of.path)")

    def click(self, *paths):
        for path in paths:
            self.browser.script(ROW + "row(arguments[0]).click()", path)

    def active(self):
        return self.browser.script(ACTIVE)

    def title(self):
        return self.browser.script("return document.querySelector('#plot h2').innerText")

    def filter(self, text):
        self.browser.script("const it = document.getElementById('filter'); it.value = arguments[0]; "
                            "it.dispatchEvent(new Event('input'))", text)
        return self.names()

    def shot(self, name):
        if self.shots:
            self.browser.shot(os.path.join(self.shots, name + ".png"))


def values(it):
    """What is shown of the values, and that they move."""
    for path, text in SHOWN.items():
        it.see(it.main(path) == text, f"{path} is shown as {text}", it.main(path))
    small = it.browser.script(ROW + "return ['Main.mode', 'Main.bits', 'Main.axes'].map((it) => "
                              "row(it).small.textContent)")
    wanted = ["0", "16#0000", "[0].active FALSE, [0].mode Off, [0].pos 0, [0].label '', …"]
    it.see(small == wanted, "an enumeration has its number, a WORD its bits, an array its first values", small)
    seen = it.main("Main.wave")
    it.see(it.until(SHOWS.replace("=== arguments[1]", "!== arguments[1]"), "Main.wave", seen), "a signal moves", seen)
    it.see(it.until(ROW + "return row('Main.wave').classList.contains('lit') && row('Main.wave').ageCell.textContent "
                    "=== 'now'"),
           "what changed is lit, and its age is told")
    it.see(it.browser.script(ROW + "return !row('Main.count').classList.contains('lit') && "
                             "row('Main.count').ageCell.textContent === '–'"),
           "what did not change is not lit")
    with Rig(it.server) as rig:
        rig.put("Main.count", struct.pack("<i", -5))
        rig.put("Main.mode", struct.pack("<h", 2))
        rig.put("Main.table[3000]", struct.pack("<i", 3))
    it.shows("Main.count", "-5", "a value that another client writes is shown")
    it.shows("Main.mode", "Auto", "an enumeration changes by name")
    it.see(it.until(ROW + "return !row('Main.count').classList.contains('lit')", seconds=5),
           "and is lit for a moment only")


def parts(it):
    """Structures and arrays."""
    it.see("Main.axes[0]" not in it.names(), "parts are folded at first")
    it.click("Main.axes", "Main.axes[0]")
    wanted = ["Main.axes", "Main.axes[0]", "Main.axes[0].active", "Main.axes[0].mode", "Main.axes[0].pos",
              "Main.axes[0].label"]
    it.see(it.names()[1:7] == wanted, "a click unfolds them", it.names())
    levels = it.browser.script(ROW + "return ['Main.axes', 'Main.axes[0]', 'Main.axes[0].pos'].map((it) => "
                                     "row(it).getAttribute('aria-level') + row(it).getAttribute('aria-expanded'))")
    it.see(levels == ["1true", "2true", "3null"], "their levels are told", levels)
    it.click("Main.axes", "Main.table")
    count = len([name for name in it.names() if name.startswith("Main.table[")])
    rest = it.browser.script("return document.querySelector('td.rest').innerText")
    it.see(count == 100 and rest == "Show 100 of 4,900 further values",
           "of an array of 5,000 the first hundred are shown, and the rest is told", (count, rest))
    it.browser.script("document.querySelector('td.rest button').click()")
    count = len([name for name in it.names() if name.startswith("Main.table[")])
    it.see(count == 200, "and comes by hundreds", count)
    it.click("Main.table")


def filters(it):
    it.see(it.filter("mode") == MODES, "the filter finds names, with what they are parts of", it.names())
    it.see(it.text("count") == "2 of 16 symbols", "and tells how many", it.text("count"))
    it.see(it.filter("AXES 2 pos") == ["Main.axes", "Main.axes[2]", "Main.axes[2].pos"],
           "all of its words, in any case", it.names())
    it.see(it.filter("lreal")[:1] == ["Main.axes"] and "Main.flow" in it.names(), "types", it.names())
    it.see(it.filter("alert(1)") == ["Main.count"], "comments", it.names())
    it.see(it.filter("nothing of this") == [] and it.text("empty") == "Nothing fits the filter.", "or nothing",
           it.text("empty"))
    it.filter("")
    it.browser.click("#moving")
    it.see(it.until(ROW + "return Boolean(row('Main.wave'))") and "Main.limit" not in it.names(),
           "what has not changed can be left out", it.names())
    it.browser.click("#moving")
    it.browser.click("#unfold")
    it.see("Main.axes[2].label" in it.names() and "Main.grid[1,1]" in it.names(), "all parts can be unfolded at once",
           it.names())
    it.browser.click("#unfold")
    it.see(len(it.names()) == 16, "and folded again", len(it.names()))


def plots(it):
    path = "return (document.querySelector('#plot path.line') || {getAttribute: () => ''}).getAttribute('d')"
    it.click("Main.wave")
    opened = it.until("return !document.getElementById('plot').hidden && document.querySelectorAll('#plot svg "
                      "text').length > 4")
    it.see(opened, "a click opens a plot with its axes")
    first = it.until(path)
    time.sleep(1.2)
    it.see(first and it.browser.script(path) != first, "which is drawn on as values come")
    it.see(it.title() == "Main.wave", "its title is the name", it.title())
    label = it.browser.script("return document.querySelector('#plot svg').getAttribute('aria-label')")
    it.see(re.fullmatch(r"Main\.wave in the last (1|5) min: now \d, least \d, greatest \d, changes \d+", label),
           "it is told in words, too", label)
    it.browser.script("const it = document.querySelector('#plot svg'), box = it.getBoundingClientRect();"
                      "it.dispatchEvent(new PointerEvent('pointermove', {clientX: box.right - 30, clientY: box.top + "
                      "50}))")
    cross = it.browser.script("return (document.querySelector('.cross-text') || {}).textContent")
    it.see(cross and re.fullmatch(r"[1-9]  at \d\d:\d\d:\d\d", cross), "the value at the pointer is told", cross)
    it.click("Main.mode")
    named = it.until("return [...document.querySelectorAll('#plot svg text')].some((it) => it.textContent === 'Auto')")
    it.see(named, "a plot of an enumeration has its names")
    it.click("Main.title")
    it.see(it.title() == "Main.mode", "a text has no plot", it.title())
    asked = it.browser.script("return performance.getEntriesByType('resource').map((it) => new "
                              "URL(it.name).host).filter((it) => it !== location.host)")
    it.see(asked == [], "no other server was asked", asked)
    it.browser.script("document.querySelector('#plot .shut').click()")
    it.see(it.browser.script(CLOSED), "its button closes it")


def keyboard(it):
    """All of it without a mouse."""
    it.open(it.page)
    press = it.browser.press
    press("/")
    it.see(it.active() == "filter", "the key / goes to the filter", it.active())
    press(*"wave")
    it.see(it.names() == ["Main.wave"], "what is typed filters", it.names())
    press("Escape")
    it.see(len(it.names()) == 16, "Escape clears it")
    press("Down")
    it.see(it.active() == "Main.count", "an arrow goes to the rows", it.active())
    press("Down", "Right")
    it.see(it.active() == "Main.axes" and "Main.axes[0]" in it.names(), "an arrow unfolds", it.active())
    press("Right", "Right", "Down")
    it.see(it.active() == "Main.axes[0].active", "and goes in", it.active())
    outline = it.browser.script("const it = getComputedStyle(document.activeElement); return it.outlineStyle + ' ' + "
                                "it.outlineWidth")
    it.see(outline == "solid 2px", "the focus is seen", outline)
    for key in ("Enter", "Space"):
        press(key)
        it.see(it.until("return !document.getElementById('plot').hidden"), f"{key} opens a plot")
        press("Escape")
        it.see(it.browser.script(CLOSED) and it.active() == "Main.axes[0].active",
               "Escape closes it, and the focus is where it was", it.active())
    press("Left", "Left")
    it.see(it.active() == "Main.axes[0]" and "Main.axes[0].pos" not in it.names(), "an arrow folds and goes out",
           it.active())
    press("End")
    it.see(it.active() == "Flags.on", "End goes to the last row", it.active())
    press("Home", "Enter", "Tab")
    inside = it.browser.script("return document.getElementById('plot').contains(document.activeElement)")
    it.see(inside, "Home, Enter and Tab go into the first plot", it.active())
    press("Tab", "Right")
    minutes = it.browser.script("return document.querySelector('#plot [aria-checked=true]').innerText")
    it.see(minutes in ("5 min", "10 min"), "an arrow chooses how much is drawn", minutes)
    press("Escape")
    silent = [node["role"]["value"] for node in it.browser.cdp("Accessibility.getFullAXTree")["nodes"]
              if is_silent(node)]
    it.see(silent == [], "each button and field has a name for who can't see it", silent)


def is_silent(node):
    role = node.get("role", {}).get("value")
    return not node.get("ignored") and role in ("button", "searchbox", "textbox", "combobox", "treegrid",
                                                "radio") and not node.get("name", {}).get("value")


def set_value(it, name, text):
    """Types a value into its field and sends it, by keys; what the form says then."""
    it.browser.script(CARD + "const field = card(arguments[0]).querySelector('input, select'); field.focus(); if "
                      "(field.select) field.select();", name)
    it.browser.press(*text, "Enter")
    it.until(SAID.replace("return ", "const text = ", 1) + "; return text && text !== '…'", name)
    return it.browser.script(SAID, name)


def forms(it):
    it.see(it.browser.script("return document.querySelectorAll('.card').length") == 5,
           "a form for each name that may be written")
    told = set_value(it, "Main.count", "1234")
    it.see(told == "Written: 1234", "a number is written by keys alone", told)
    with Rig(it.server) as rig:
        it.see(rig.bytes_of("Main.count") == struct.pack("<i", 1234), "the server has it")
        it.shows("Main.count", "1234", "the table shows it")
        told = set_value(it, "Main.count", "12x")
        wanted = ("Not written: DINT is a whole number in decimal digits, from -2147483648 to 2147483647, and '12x' is "
                  "none.")
        it.see(told == wanted, "what is wrong is explained", told)
        it.see(rig.bytes_of("Main.count") == struct.pack("<i", 1234), "and not written")
        state = it.browser.script(CARD + "const it = card('Main.count').querySelector('input'); "
                                         "return [it.getAttribute('aria-invalid'), document.activeElement === it]")
        it.see(state == ["true", True], "the field is marked, and has the focus", state)
        options = it.browser.script(CARD + "return [...card('Main.mode').querySelectorAll('option')].map((it) => "
                                    "it.textContent)")
        it.see(options == ["Off (0)", "Auto (2)", "Fault (-9)"], "an enumeration is chosen by name", options)
        it.browser.script(CARD + "card('Main.mode').querySelector('select').value = 'Fault'; "
                          "card('Main.mode').querySelector('button').click()")
        it.see(it.until(CARD + "return card('Main.mode').querySelector('.said').textContent === 'Written: Fault'"),
               "and written")
        it.see(rig.bytes_of("Main.mode") == struct.pack("<h", -9), "the server has it")
    it.shot("form")
    told = set_value(it, "Main.limit", "5")
    it.see("the server refuses, 0x704 reading or writing not permitted" in told, "a refusal has its code in words",
           told)
    told = set_value(it, "Main.title", "<b>&")
    it.see(told == "Written: <b>&", "a text is written", told)
    it.shows("Main.title", "'<b>&'", "and shown as a text")


def hostile(it):
    """Names and texts that would run if they were not shown as text."""
    with Rig(it.server) as rig:
        rig.put("Main.title", HOSTILE[:20].ljust(21, b"\0"))
        rig.put("Main.axes[0].label", b"<b>\"'\0")
    it.shows("Main.title", "'<img src=x onerror=$27'", "a text with marks of HTML is shown as text")
    comment = it.browser.script(ROW + "return row('Main.count').querySelector('.comment').textContent")
    it.see(comment == "<script>alert(1)</script>", "a comment, too", comment)
    it.see(it.text("title") == "Tried <i>", "and the device's name", it.text("title"))
    strange = it.browser.script("return document.querySelectorAll('#rows img, #rows script, #rows b, h1 i').length + "
                                "(window.hacked ? 100 : 0)")
    it.see(strange == 0, "nothing of it became an element, and nothing ran", strange)
    fault = it.browser.script("try { document.body.insertAdjacentHTML('beforeend', '<b>x</b>'); return 'taken' } catch "
                              "(it) { return it.name }")
    it.see(fault == "TypeError", "the page's own guard takes no HTML from any script", fault)
    it.browser.script("const it = document.createElement('script'); try { it.text = 'window.hacked = 2' } catch { } "
                      "document.body.append(it);"
                      "const on = document.createElement('button'); try { on.setAttribute('onclick', 'window.hacked = "
                      "3') } catch { } on.click();")
    it.see(it.browser.script("return window.hacked === undefined"), "and runs no script that stands in it")


def widths(it):
    it.click("Main.axes")
    for dark in (False, True):
        it.browser.dark(dark)
        for wide in (320, 400, 768, 1200, 1600):
            it.browser.size(wide, 900)
            for plot in (False, True):
                if it.browser.script(CLOSED) == plot:
                    it.click("Main.wave")
                time.sleep(0.3)
                scroll, inner = it.browser.script("return [document.documentElement.scrollWidth, innerWidth]")
                colours = "dark" if dark else "light"
                it.see(scroll <= inner, f"{wide} px wide, {colours}{', with a plot' if plot else ''}: no scrolling "
                       f"sideways", (scroll, inner))
                it.shot(f"{colours}-{wide}{'-plot' if plot else ''}")
            faint = it.browser.script(CONTRAST)
            it.see(faint == [], f"{wide} px wide, {colours}: all texts are read well", faint)
            it.browser.script("document.querySelector('#plot .shut').click()")
    it.browser.dark(False)
    it.browser.size(1200, 900)
