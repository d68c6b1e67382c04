// The plot of up to six values, drawn in this page.

import { axis, limitsOf, scaleOf, traced } from "/draw.js";
import { locale, t } from "/lang.js";
import { bitOf, clock, day, drawn, grouped, make, numeric, shown, withUnit } from "/words.js";

const ABOVE = 20, BELOW = 26, EDGE = 14, DRAW = 100, MOST = 6, MOST_POINTS = 20000;
// Minutes that are drawn: those that the page's program has itself, and those of a database; and the milliseconds between two of their marks.
const OWN = [1, 5, 10], KEPT = [60, 480, 1440, 10080];
const STEPS = { 1: 15000, 5: 60000, 10: 120000, 60: 600000, 480: 3600000, 1440: 14400000, 10080: 86400000 };

function spanText(minutes) {
  return minutes < 60 ? minutes + " min" : minutes < 1440 ? minutes / 60 + " h" : minutes / 1440 + " d";
}

// One value of the plot, with its points, its colour and its axis.
class Trend {
  constructor(of, colour, side) {
    this.of = of; this.colour = colour; this.side = side; this.times = []; this.values = []; this.asked = 0;
    this.why = "";
  }

  number(value) {
    return numeric(this.of.bit === undefined || value === null ? value : bitOf(value, this.of.bit));
  }

  add(moment, value) {
    this.times.push(moment);
    this.values.push(value === null ? null : this.number(value));
    if (this.times.length > MOST_POINTS) { this.times.splice(0, 5000); this.values.splice(0, 5000); }
  }

  async load(minutes) {
    const own = this.of, asked = this.asked += 1, fresh = this.times.length, name = own.bit === undefined ? own.path : own.parent.path;
    try {
      const more = minutes > 10 ? "&minutes=" + minutes : "";
      const answer = await fetch("/history.json?name=" + encodeURIComponent(name) + "&port=" + own.symbol.port + more);
      const said = answer.ok ? await answer.json() : { times: [], values: [] };
      if (asked !== this.asked || this.of !== own) return;
      this.why = said.why || "";
      const newer = this.times.slice(fresh), last = said.times.length ? said.times[said.times.length - 1] : 0;
      const rest = newer.findIndex((moment) => moment > last);
      this.values = said.values.map((value) => (value === null ? null : this.number(value))).concat(rest < 0 ? [] : this.values.slice(fresh + rest));
      this.times = said.times.concat(rest < 0 ? [] : newer.slice(rest));
    } catch { /* the bar says that the page's program is gone; what comes is drawn */ }
  }

  // What lies in the window: the points, with the value that stood at its beginning.
  inside(first, last) {
    let from = this.times.findIndex((moment) => moment >= first);
    if (from < 0) from = this.times.length;
    const points = from > 0 ? [[first, this.values[from - 1]]] : [];
    for (let at = from; at < this.times.length && this.times[at] <= last; at += 1) points.push([this.times[at], this.values[at]]);
    return points;
  }

  said(value, unit = true) {
    const typed = this.of.kind.k === "bool" ? Boolean(value) : value;
    return unit ? withUnit(this.of.kind, this.of.words, typed) : shown(this.of.kind, typed)[0];
  }
}

export class Plot {
  constructor(panel, moment, events, history) {
    this.panel = panel; this.moment = moment; this.events = events; this.spans = history ? [...OWN, ...KEPT] : OWN;
    this.trends = []; this.minutes = 5; this.picked = false; this.at = null; this.drawnAt = 0; this.comparing = false;
    panel.addEventListener("keydown", (event) => { if (event.key === "Escape") this.close(); });
    new ResizeObserver(() => this.draw()).observe(panel);
  }

  get of() {
    return this.trends.length ? this.trends[0].of : null;
  }

  keys() {
    return this.trends.map((trend) => trend.of.key);
  }

  // Shows a value alone, or beside those that are there; one that is there goes.
  async choose(it, beside) {
    const there = this.trends.find((trend) => trend.of.key === it.key);
    if (there) return this.remove(there);
    if (!beside && !this.comparing) this.trends = [];
    if (this.trends.length >= MOST) return this.events.full(MOST);
    const colour = [0, 1, 2, 3, 4, 5].find((one) => !this.trends.some((trend) => trend.colour === one));
    const trend = new Trend(it, colour, this.sideOf(it));
    this.trends.push(trend);
    this.at = null;
    this.build();
    await this.load([trend]);
    return null;
  }

  sideOf(it) {
    const unit = (one) => one.kind.k + " " + ((one.words && one.words.u) || "");
    return !this.trends.length || this.trends.some((trend) => trend.side === "left" && unit(trend.of) === unit(it)) ? "left" : "right";
  }

  async load(trends = this.trends) {
    await Promise.all(trends.map((trend) => trend.load(this.minutes)));
    this.note.textContent = trends.map((trend) => trend.why).find(Boolean) || "";
    this.said = null;
    const first = this.trends[0];
    if (!this.picked && first && first.times.length && this.minutes <= 10) {
      this.span(OWN.find((count) => count >= 5 || this.moment() - first.times[0] < 60000 * count));
    }
    this.draw();
  }

  // The same names in a new table, without those that are gone.
  moved(find) {
    if (!this.trends.length) return;
    const before = this.trends;
    this.trends = before.filter((trend) => {
      const it = find(trend.of.key);
      const same = it && it.type === trend.of.type;
      if (same) trend.of = it;
      return same;
    });
    if (!this.trends.length) return this.ended(before[0].of);
    this.build();
    this.load();
  }

  add(moment, leaf, value) {
    for (const trend of this.trends) if (trend.of.leaf === leaf) trend.add(moment, value);
  }

  // The values are not known from here on.
  gap(moment) {
    for (const trend of this.trends) trend.add(moment, null);
  }

  remove(trend) {
    if (this.trends.length === 1) return this.close();
    this.trends = this.trends.filter((it) => it !== trend);
    this.build();
    return null;
  }

  close() {
    if (!this.trends.length) return;
    const [first] = this.trends;
    this.trends = [];
    this.ended(first.of);
  }

  ended(it) {
    this.comparing = false;
    this.panel.hidden = true;
    this.panel.replaceChildren();
    document.body.classList.remove("plotting");
    this.events.closed(it);
  }

  build() {
    const one = this.trends.length === 1;
    const shut = make("button", { type: "button", class: "quiet shut", "aria-label": t("Close the plot") }, "×");
    shut.addEventListener("click", () => this.close());
    this.title = make("h2", { id: "plot-title", text: one ? this.of.path : t("{0} values", this.trends.length) });
    this.now = make("p", { class: "plot-now" });
    this.svg = drawn("svg", { role: "img", tabindex: "0", class: "chart", focusable: "true" });
    this.svg.addEventListener("pointermove", (event) => this.pointed(event.clientX));
    this.svg.addEventListener("pointerleave", () => this.point(null));
    this.svg.addEventListener("keydown", (event) => this.stepped(event));
    this.facts = make("dl", { class: "facts" });
    this.panel.setAttribute("aria-labelledby", "plot-title");
    const head = make("div", { class: "plot-head" }, make("div", { class: "plot-name" }, this.title, ...(one ? [this.now] : [])), shut);
    const tools = make("div", { class: "plot-tools" }, this.windows(), this.comparer());
    this.note = make("p", { class: "alarm-note bad", role: "status" });
    this.panel.replaceChildren(head, tools, this.svg, this.note, ...(one ? [this.facts, this.details(this.of)] : [this.legend()]));
    this.panel.hidden = false;
    document.body.classList.add("plotting");
    this.said = null;
    this.events.chosen(this.keys());
    this.draw();
  }

  windows() {
    this.choice = make("div", { class: "minutes", role: "radiogroup", "aria-label": t("How much is drawn") });
    for (const count of this.spans) {
      const is = count === this.minutes;
      const button = make("button", { type: "button", role: "radio", "aria-checked": String(is), tabindex: is ? "0" : "-1", text: spanText(count) });
      button.addEventListener("click", () => this.pick(count));
      button.addEventListener("keydown", (event) => this.step(event, count));
      this.choice.append(button);
    }
    return this.choice;
  }

  // While it is pressed, a row that is chosen comes beside the others.
  comparer() {
    const button = make("button", { type: "button", class: "small-button compare", "aria-pressed": String(this.comparing), text: t("Add values") });
    button.title = t("While this is pressed, a click on a value adds it to the plot, up to six");
    button.addEventListener("click", () => {
      this.comparing = !this.comparing;
      button.setAttribute("aria-pressed", String(this.comparing));
    });
    return button;
  }

  legend() {
    const list = make("ul", { class: "legend" });
    for (const trend of this.trends) {
      trend.now = make("span", { class: "legend-now" });
      const side = make("button", { type: "button", class: "small-button", text: t(trend.side === "left" ? "left axis" : "right axis") });
      side.addEventListener("click", () => { trend.side = trend.side === "left" ? "right" : "left"; this.build(); });
      const away = make("button", { type: "button", class: "quiet away", "aria-label": t("Take {0} out of the plot", trend.of.path) }, "×");
      away.addEventListener("click", () => this.remove(trend));
      const swatch = make("span", { class: `swatch colour${trend.colour}`, "aria-hidden": "true" });
      list.append(make("li", {}, swatch, make("span", { class: "legend-name", text: trend.of.path }), trend.now, side, away));
    }
    return list;
  }

  details(it) {
    const found = [[t("Type"), it.type], [t("Group, offset"), `${it.symbol.group}, ${it.symbol.at + it.at}`], [t("Bytes"), String(it.kind.s)]];
    if (it.comment) found.push([t("Comment"), it.comment]);
    return make("dl", { class: "details" }, ...found.map(([word, said]) => make("div", {}, make("dt", { text: word }), make("dd", { text: said }))));
  }

  span(count) {
    this.minutes = count;
    for (const button of this.choice.children) {
      const is = button.textContent === spanText(count);
      button.setAttribute("aria-checked", is ? "true" : "false");
      button.tabIndex = is ? 0 : -1;
      if (is && this.choice.contains(document.activeElement)) button.focus();
    }
    this.draw();
  }

  pick(count) {
    const more = count > 10 || this.minutes > 10;
    this.picked = true;
    this.span(count);
    if (more) this.load();
  }

  step(event, count) {
    const by = { ArrowRight: 1, ArrowDown: 1, ArrowLeft: -1, ArrowUp: -1 }[event.key];
    if (!by) return;
    event.preventDefault();
    this.pick(this.spans[(this.spans.indexOf(count) + by + this.spans.length) % this.spans.length]);
  }

  // The scales of the two axes, of which one may have no values.
  scales(first, last) {
    const found = {};
    for (const trend of this.trends) {
      trend.points = trend.inside(first, last);
      trend.known = trend.points.map(([, value]) => value).filter((value) => value !== null);
      trend.limits = limitsOf(trend.of.words, trend.known);
    }
    for (const side of ["left", "right"]) {
      const own = this.trends.filter((trend) => trend.side === side);
      const marks = this.trends.length === 1 ? own.flatMap((trend) => trend.limits.map(([, value]) => value)) : [];
      if (own.length) found[side] = scaleOf(own.map((trend) => trend.of.kind), own.flatMap((trend) => trend.known), marks);
    }
    return found;
  }

  draw() {
    if (!this.trends.length || this.panel.hidden) return;
    const wide = Math.max(240, this.svg.clientWidth || this.panel.clientWidth - 32), high = this.svg.clientHeight || 240;
    const last = this.moment(), first = last - this.minutes * 60000, scales = this.scales(first, last);
    const room = (side) => (scales[side] ? Math.min(120, 16 + 7 * Math.max(3, ...scales[side].ticks.map(([, text]) => text.length))) : EDGE);
    const left = room("left"), right = wide - room("right");
    const x = (moment) => left + (right - left) * (moment - first) / (last - first);
    const heights = Object.fromEntries(Object.entries(scales).map(([side, scale]) =>
      [side, (value) => ABOVE + (high - ABOVE - BELOW) * (scale.high - value) / (scale.high - scale.low)]));
    this.drawnAt = performance.now();
    this.frame = { heights, left, right, wide, high, first, last };
    this.svg.setAttribute("viewBox", `0 0 ${wide} ${high}`);
    const axes = Object.keys(scales).flatMap((side) => [...axis(scales[side], heights[side], [left, right], side), ...this.unitsAt(side, left, right)]);
    this.svg.replaceChildren(...axes, ...this.hours(first, last, x), ...this.trends.flatMap((trend) => this.traces(trend, x, heights[trend.side])));
    this.cross();
    this.tell();
  }

  // The unit of an axis, where its values have one and the same.
  unitsAt(side, left, right) {
    const units = new Set(this.trends.filter((trend) => trend.side === side).map((trend) => (trend.of.words && trend.of.words.u) || ""));
    const [unit] = units;
    if (units.size !== 1 || !unit) return [];
    const place = side === "left" ? { x: 2, "text-anchor": "start" } : { x: this.frame.wide - 2, "text-anchor": "end" };
    return [drawn("text", { ...place, y: 11, class: "tick unit-at" }, unit)];
  }

  traces(trend, x, y) {
    const { left, right, last } = this.frame, { line, band } = traced(trend.points, x, y, last);
    const end = trend.points.length ? trend.points[trend.points.length - 1][1] : null, colour = `colour${trend.colour}`;
    const limits = this.trends.length > 1 ? [] : trend.limits.flatMap(([name, value]) => [
      drawn("line", { x1: left, x2: right, y1: y(value), y2: y(value), class: `limit ${name}` }),
      drawn("text", { x: right - 4, y: y(value) - 4, "text-anchor": "end", class: "limit-text" }, `${name} ${trend.said(value)}`)]);
    return [...limits, ...(band ? [drawn("path", { d: band, class: `band ${colour}` })] : []), drawn("path", { d: line, class: `line ${colour}` }),
      ...(end === null ? [] : [drawn("circle", { cx: x(last), cy: y(end), r: 3.5, class: `end ${colour}` })])];
  }

  hours(first, last, x) {
    const step = STEPS[this.minutes], found = [], shift = new Date().getTimezoneOffset() * 60000;
    const said = (at) => (this.minutes <= 10 ? clock(at) : this.minutes <= 1440 ? new Date(at).toLocaleTimeString(locale, { hour: "2-digit", minute: "2-digit" }) : day(at));
    for (let at = Math.ceil((first - shift) / step) * step + shift; at <= last; at += step) {
      if (x(at) > this.frame.right - 20 || x(at) < this.frame.left + 20) continue;
      found.push(drawn("line", { x1: x(at), x2: x(at), y1: this.frame.high - BELOW, y2: this.frame.high - BELOW + 5, class: "grid" }),
        drawn("text", { x: x(at), y: this.frame.high - 6, "text-anchor": "middle", class: "tick" }, said(at)));
    }
    return found;
  }

  tell() {
    const now = (trend) => {
      const [main, small] = [withUnit(trend.of.kind, trend.of.words, trend.of.value), shown(trend.of.kind, trend.of.value)[1]];
      return main + (small ? "  " + small : "");
    };
    if (this.trends.length > 1) {
      for (const trend of this.trends) if (trend.now.textContent !== now(trend)) trend.now.textContent = now(trend);
      this.aria(t("{0} in the last {1}", this.trends.map((trend) => trend.of.path).join(", "), spanText(this.minutes)));
      return;
    }
    const [trend] = this.trends, { known, points } = trend;
    this.now.textContent = now(trend);
    const facts = known.length ? [[t("least"), trend.said(known.reduce((a, b) => Math.min(a, b)))],
      [t("greatest"), trend.said(known.reduce((a, b) => Math.max(a, b)))], [t("changes"), grouped(Math.max(0, points.length - 1))]] : [["", t("nothing known yet")]];
    this.facts.replaceChildren(...facts.map(([word, text]) => make("div", {}, make("dt", { text: word }), make("dd", { text }))));
    const behind = facts.map(([word, text]) => `, ${word} ${text}`).join("");
    this.aria(t("{0} in the last {1}: now {2}", trend.of.path, spanText(this.minutes), shown(trend.of.kind, trend.of.value)[0]) + behind);
  }

  // The plot in words, which are not said anew with each picture.
  aria(text) {
    if (this.said && performance.now() - this.said < 5000) return;
    this.said = performance.now();
    this.svg.setAttribute("aria-label", text);
  }

  pointed(clientX) {
    const box = this.svg.getBoundingClientRect();
    this.point((clientX - box.left) * this.frame.wide / box.width);
  }

  point(at) {
    this.at = at;
    this.draw();
  }

  stepped(event) {
    const by = { ArrowLeft: -10, ArrowRight: 10 }[event.key];
    if (!by || !this.frame) return;
    event.preventDefault();
    const from = this.at === null ? this.frame.right : this.at;
    this.point(Math.min(this.frame.right, Math.max(this.frame.left, from + by)));
  }

  // The values at the pointer.
  cross() {
    const { heights, left, right, wide, high, first, last } = this.frame;
    if (this.at === null || this.at < left || this.at > right) return;
    const moment = first + (last - first) * (this.at - left) / (right - left), found = [];
    for (const trend of this.trends) {
      const point = trend.points.findLast((it) => it[0] <= moment);
      if (point && point[1] !== null) found.push([trend, point[1]]);
    }
    if (!found.length) return;
    const [by, anchor] = this.at > wide / 2 ? [-8, "end"] : [8, "start"];
    const text = (trend, value) => (found.length === 1 ? t("{0}  at {1}", trend.said(value), this.when(moment)) : trend.said(value));
    this.svg.append(drawn("line", { x1: this.at, x2: this.at, y1: ABOVE, y2: high - BELOW, class: "cross" }),
      ...found.flatMap(([trend, value], row) => [drawn("circle", { cx: this.at, cy: heights[trend.side](value), r: 3.5, class: `end colour${trend.colour}` }),
        drawn("text", { x: this.at + by, y: ABOVE + 10 + 16 * row, "text-anchor": anchor, class: `cross-text colour${trend.colour}` }, text(trend, value))]),
      ...(found.length > 1 ? [drawn("text", { x: this.at + by, y: ABOVE + 10 + 16 * found.length, "text-anchor": anchor, class: "cross-text" }, this.when(moment))] : []));
  }

  when(moment) {
    return this.minutes > 1440 ? day(moment) + " " + clock(moment) : clock(moment);
  }

  // Called once a picture: drawn again ten times a second at most.
  paint() {
    if (this.trends.length && performance.now() - this.drawnAt > DRAW * (this.minutes > 10 ? 20 : 1)) this.draw();
  }
}
