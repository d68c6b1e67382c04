// The page: follows the stream of changes, and keeps the table, the plot and the form.

import { Alarms } from "/alarms.js";
import { Forms } from "/form.js";
import { language, t, translate } from "/lang.js";
import { Log } from "/log.js";
import { Plot } from "/plot.js";
import { Recipes } from "/recipe.js";
import { Rows } from "/rows.js";
import { ask, clock, counted } from "/words.js";

const $ = (id) => document.getElementById(id);
const meta = (name) => document.querySelector(`meta[name="${name}"]`).content;
const SILENT = 25000, THEMES = ["", "light", "dark"];

// How far the server's clock is ahead of this one: the least that any event took to come decides.
let ahead = 0, source = null, heard = Date.now(), table = { g: 0, o: 0 }, state = null, ours = true, wasLive = null, timer = null;
const moment = () => Date.now() + ahead;

const plot = new Plot($("plot"), moment, {
  chosen: (keys) => rows.choose(keys),
  full: (most) => tell(t("A plot has at most {0} values.", most), "news", 4000),
  closed: (it) => {
    rows.choose([]);
    if (it.row) it.row.focus(document.activeElement === document.body ? {} : { preventScroll: true });
  },
}, Boolean(meta("history")));
const rows = new Rows({ rows: $("rows"), count: $("count"), empty: $("empty"), more: $("more") }, (it, row, beside) => {
  if (row.classList.contains("plotted")) plot.choose(it, beside);
}, moment);
translate();
document.documentElement.style.setProperty("--old", JSON.stringify(t("old")));
let name = t("Live values"), alarmsThere = 0;
const alarms = new Alarms({
  section: $("alarms"), list: $("alarm-list"), all: $("alarms-all"), bell: $("bell"), count: $("bell-count"), rest: $("alarms-rest"),
  none: $("alarms-none"), old: $("past"), oldRows: $("past-list"), oldTitle: $("past-title"), fault: $("alarms-fault"),
}, meta("token"), moment, (there) => { alarmsThere = there; titled(); });
const log = new Log($("log"), $("log-rows"));
const recipes = new Recipes($("recipes"), $("recipe-list"), meta("token"));
const forms = new Forms($("forms"), $("form-list"), meta("token"));

// The stream.

function listen() {
  if (source) source.close();
  source = new EventSource("/events");
  heard = Date.now();
  const on = (kind, call) => source.addEventListener(kind, (event) => { heard = Date.now(); alone(false); call(JSON.parse(event.data)); });
  on("table", tabled);
  on("values", changed);
  on("state", stated);
  on("alarms", (said) => alarms.take(said));
  on("log", (said) => log.take(said));
  on("logged", (said) => log.add(said));
  on("beat", () => {});
  source.onerror = () => {
    alone(true);
    if (source.readyState === EventSource.CLOSED) { later(); known(); }
  };
}

// A session that is over leads to the form by which one logs in.
async function known() {
  try {
    if ((await fetch("/", { method: "HEAD" })).status === 401) location.reload();
  } catch { /* the bar says that the page's program is gone */ }
}

$("leave").hidden = !meta("user");
$("leave").textContent = t("Log out {0}", meta("user"));
$("leave").addEventListener("click", async () => {
  await ask("/logout", meta("token"), {});
  location.reload();
});

function later() {
  clearTimeout(timer);
  timer = setTimeout(() => { if (!document.hidden) listen(); }, 2000);
}

setInterval(() => {
  if (source && Date.now() - heard > SILENT) { alone(true); listen(); }
}, 5000);

// A page that nobody sees follows nothing: a browser has six connections to a server, for all its windows together.
document.addEventListener("visibilitychange", () => {
  if (!document.hidden) return listen();
  clearTimeout(timer);
  if (source) source.close();
  source = null;
});

function tabled(said) {
  if (said.start !== meta("start")) return location.reload();
  ahead = said.now - Date.now();
  const before = table;
  table = said;
  rows.take(said);
  forms.take(said, rows.leaves);
  recipes.take(said, rows.top);
  name = said.ports.map(([, own]) => own).filter(Boolean).join(", ") || t("Live values");
  $("title").textContent = name;
  $("sections").hidden = !rows.grouped;
  titled();
  if (before.g && said.g !== before.g) news(said, before);
  stated(said.state);
  plot.moved((key) => rows.find(key));
}

function titled() {
  document.title = (alarmsThere ? `\u{1F514} ${alarmsThere} · ` : "") + name + " – " + t("live values");
}

function news(said, before) {
  if (said.state.version === before.state.version || !before.state.live || !state || !state.live) return;
  const own = new Set(said.symbols.map((it) => it.port + " " + it.n)), old = new Set(before.symbols.map((it) => it.port + " " + it.n));
  const came = [...own].filter((key) => !old.has(key)).length, went = [...old].filter((key) => !own.has(key)).length;
  const moved = t("{0} came, {1} went.", counted(came, "symbol", "symbols"), counted(went, "symbol", "symbols"));
  tell(t("The server has a new description, version {0}: {1}", said.state.version, moved), "news", 10000);
}

function changed(said) {
  if (said.g !== table.g || said.o <= table.o) return;
  table.o = said.o;
  ahead = Math.max(ahead, said.m - Date.now());
  rows.change(said.c, said.m);
  if (plot.of) for (const [leaf, value] of said.c) plot.add(said.m, leaf, value);
  picture();
}

let waiting = false;
function picture() {
  if (waiting) return;
  waiting = true;
  requestAnimationFrame(() => {
    waiting = false;
    rows.paint(performance.now());
    plot.paint();
    forms.paint();
    recipes.paint();
  });
}
setInterval(picture, 250);
setInterval(() => rows.ages(), 1000);

// The state of the server and of the page's own program.

function stated(said) {
  state = said;
  $("where").textContent = t("{0} at {1}", said.net, said.to) + (said.version === null ? "" : " · " + t("version {0}", said.version));
  $("notices").hidden = !said.notices.length;
  $("notices").replaceChildren(...said.notices.map((text) => Object.assign(document.createElement("li"), { textContent: text })));
  if (wasLive && !said.live) plot.gap(moment());
  if (wasLive === false && said.live) tell(t("The server is back."), "good", 6000);
  if (said.live || table.g) wasLive = said.live;
  bar();
}

function alone(is) {
  if (ours === !is) return;
  ours = !is;
  bar();
}

let message = null;
function tell(text, kind, milliseconds) {
  message = { text, kind };
  setTimeout(() => { message = null; bar(); }, milliseconds);
  bar();
}

function bar() {
  const live = ours && state && state.live;
  let text = "", kind = "bad";
  if (!ours) text = t("This page's own program does not answer. The values below are the last ones; the page keeps trying.");
  else if (state && !state.live) {
    text = table.g ? t("The server has been gone since {0}: {1}. The values below are the last ones; the page keeps trying.", clock(state.since), state.why)
      : t("The server can't be asked: {0}. The page keeps trying.", state.why);
  } else if (message) ({ text, kind } = message);
  const it = $("bar");
  if (it.textContent !== text) it.textContent = text;
  it.className = "bar " + kind;
  it.hidden = !text;
  document.body.classList.toggle("stale", !live && Boolean(table.g));
  $("pill").className = "pill " + (live ? "live" : state || !ours ? "gone" : "wait");
  const word = t(live ? "live" : state || !ours ? "no connection" : "connecting");
  forms.enable(live);
  recipes.enable(live);
  if ($("pill-text").textContent !== word) $("pill-text").textContent = word;
}

// What is chosen with keys and buttons.

const isPressed = (id) => $(id).getAttribute("aria-pressed") === "true";
const filtered = () => rows.filter($("filter").value, isPressed("moving"), isPressed("unfold"), isPressed("sections"));
$("filter").addEventListener("input", filtered);
$("filter").addEventListener("keydown", (event) => {
  if (event.key === "Escape") {
    $("filter").value = "";
    filtered();
  } else if ((event.key === "ArrowDown" || event.key === "Enter") && rows.first()) {
    rows.first().focus();
    event.preventDefault();
  }
});
for (const id of ["moving", "unfold", "sections"]) {
  $(id).addEventListener("click", () => {
    $(id).setAttribute("aria-pressed", isPressed(id) ? "false" : "true");
    filtered();
  });
}
document.addEventListener("keydown", (event) => {
  const typing = event.target.closest("input, select, textarea");
  if (event.key === "/" && !typing && !event.ctrlKey && !event.metaKey && !event.altKey) {
    $("filter").focus();
    $("filter").select();
    event.preventDefault();
  }
  if (event.key === "Escape" && !typing) plot.close();
});

function themed(name) {
  if (name) document.documentElement.dataset.theme = name;
  else delete document.documentElement.dataset.theme;
  $("theme").setAttribute("aria-label", t({ "": "Colours: as the system has them", light: "Colours: light", dark: "Colours: dark" }[name]));
  $("theme").title = $("theme").getAttribute("aria-label");
}
function keptTheme(name) {
  try {
    if (name === undefined) return THEMES.includes(localStorage.getItem("theme")) ? localStorage.getItem("theme") : "";
    localStorage.setItem("theme", name);
  } catch { /* nothing is kept where the browser keeps nothing */ }
  return name || "";
}
$("theme").addEventListener("click", () => {
  const next = THEMES[(THEMES.indexOf(document.documentElement.dataset.theme || "") + 1) % THEMES.length];
  keptTheme(next);
  themed(next);
});
themed(keptTheme());
if (!document.hidden) listen();
