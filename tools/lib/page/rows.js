// The table: symbols, their parts, and what of them is shown.

import { t } from "/lang.js";
import { age, bitOf, counted, grouped, isPlotted, make, shown } from "/words.js";

const MOST_ROWS = 500, MOST_PARTS = 100, LIT = 900, MOVING = 60000;

function node(said, path, parent, symbol, table, leaves) {
  const it = {
    name: said.n, path, parent, symbol, type: said.t, comment: said.c || "", leaf: said.l, at: said.a || 0, more: said.more || 0, parts: [],
    room: MOST_PARTS,
    depth: parent ? parent.depth + 1 : 0, key: symbol.port + " " + path, row: null, value: null, changed: 0, lit: 0, kind: null,
  };
  if (it.leaf !== undefined) {
    it.kind = table.types[it.type];
    leaves[it.leaf] = it;
  }
  it.words = said.w === undefined ? null : table.words[said.w];
  it.found = (path + " " + it.type + " " + it.comment + (it.words ? " " + (it.words.bits || []).map(([, name]) => name).join(" ") : "")).toLowerCase();
  it.parts = (said.p || []).map((part) => node(part, path + part.n, it, symbol, table, leaves));
  if (it.words && it.words.bits) it.parts = it.words.bits.map((bit) => bitNode(it, bit));
  return it;
}

// A bit of a number, as a part of it that has its name.
function bitNode(of, [number, name, isAlarm, at]) {
  return {
    ...of, name, bit: number, path: `${of.path} ${name}`, parent: of, type: t("bit {0}", number), comment: "", depth: of.depth + 1,
    key: `${of.key} ${number}`, kind: { k: "bool", s: of.kind.s }, words: isAlarm ? { alarm: name, at: [at] } : null, parts: [], row: null, value: null,
    found: `${of.path} ${name}`.toLowerCase(),
  };
}

function isAlarming(it) {
  const own = it.words;
  if (!own || !own.alarm || it.value === null) return false;
  if (it.kind.k === "bool") return it.value === (own.at ? own.at[0] : true);
  if (own.at) return own.at.includes(String(it.value));
  return it.kind.k === "text" ? it.value !== "" : Number(it.value) < own.low || Number(it.value) > own.high;
}

function firstLeaves(it, found, most) {
  if (it.leaf !== undefined) found.push(it);
  for (const part of it.leaf !== undefined ? [] : it.parts) {
    if (found.length > most) break;
    firstLeaves(part, found, most);
  }
  return found;
}

export class Rows {
  constructor(elements, opened, moment) {
    Object.assign(this, elements);
    this.opened = opened;          // what is called where a row is chosen
    this.moment = moment;
    this.top = []; this.leaves = []; this.open = new Set(); this.litRows = new Set(); this.dirty = new Set();
    this.words = []; this.moving = false; this.unfolded = false; this.room = MOST_ROWS; this.here = null; this.chosen = []; this.several = false; this.sectioned = true; this.sectionRows = new Map();
    this.rows.addEventListener("click", (event) => this.clicked(event));
    this.rows.addEventListener("keydown", (event) => this.pressed(event));
    this.rows.addEventListener("focusin", (event) => this.focused(event));
    this.more.addEventListener("click", () => { this.room += MOST_ROWS; this.render(); });
  }

  // A table that the server told.
  take(said) {
    this.leaves = [];
    this.several = said.ports.length > 1;
    this.top = said.symbols.map((it) => node(it, it.n, null, it, said, this.leaves));
    this.grouped = this.top.some((it) => it.symbol.section);
    said.values.forEach((value, leaf) => this.put(this.leaves[leaf], value, null));
    said.changed.forEach((changed, leaf) => { for (let at = this.leaves[leaf]; at; at = at.parent) at.changed = Math.max(at.changed, changed); });
    this.litRows.clear();
    this.render();
  }

  // Gives a value, and its bits theirs; those that changed at a moment are written with the next picture.
  put(it, value, moment) {
    it.value = value;
    if (it.bit !== undefined) return;
    for (const part of it.parts) {
      const bit = value === null ? null : bitOf(value, part.bit);
      if (moment !== null && part.value !== bit) { part.changed = moment; this.dirty.add(part); }
      part.value = bit;
    }
  }

  first() {
    return [...this.rows.children].find((row) => row.of);
  }

  find(key) {
    const found = this.leaves.find((it) => key === it.key || (it.parts.length && key.startsWith(it.key + " ")));
    return found ? [found, ...found.parts].find((it) => it.key === key) || null : null;
  }

  change(changes, now) {
    for (const [leaf, value] of changes) {
      const it = this.leaves[leaf];
      if (!it) continue;
      this.put(it, value, now);
      for (let at = it; at; at = at.parent) {
        at.changed = now;
        this.dirty.add(at);
      }
    }
  }

  // Writes what changed into the rows that are there; called once a picture.
  paint(now) {
    for (const it of this.dirty) {
      if (!it.row) continue;
      this.write(it);
      it.lit = now + LIT;
      it.row.classList.add("lit");
      this.litRows.add(it);
    }
    this.dirty.clear();
    for (const it of this.litRows) {
      if (it.lit > now) continue;
      if (it.row) it.row.classList.remove("lit");
      this.litRows.delete(it);
    }
  }

  ages() {
    const now = this.moment();
    for (const row of this.rows.children) if (row.of) row.ageCell.textContent = age(row.of.changed, now);
    if (this.moving) this.render();
  }

  write(it) {
    const row = it.row;
    const [main, small] = it.leaf === undefined ? ["", this.preview(it)] : shown(it.kind, it.value);
    if (row.main.textContent !== main) row.main.textContent = main;
    if (row.small.textContent !== small) row.small.textContent = small;
    row.classList.toggle("alarming", isAlarming(it));
    if (it.kind && it.kind.k === "bool") row.main.dataset.truth = main;
    row.ageCell.textContent = age(it.changed, this.moment());
  }

  // The first values of a symbol with parts.
  preview(it) {
    const some = firstLeaves(it, [], 4), isArray = it.parts.length && it.parts[0].name.startsWith("[");
    const flat = it.parts.every((part) => part.leaf !== undefined);
    const step = (leaf) => (isArray && flat ? "" : leaf.path.slice(it.path.length).replace(/^\./, "") + " ");
    return some.slice(0, 4).map((leaf) => step(leaf) + shown(leaf.kind, leaf.value)[0]).join(", ") + (some.length > 4 || it.more ? ", …" : "");
  }

  // What is shown: the rows that the filter leaves, in their order.
  visible() {
    const found = [], since = this.moment() - MOVING, filtered = this.words.length || this.moving;
    let total = 0, symbols = 0;
    const fits = (it) => this.words.every((word) => it.found.includes(word)) && (!this.moving || it.changed > since);
    const inside = (it) => fits(it) || it.parts.some(inside);
    const walk = (it, all) => {
      const own = all || !filtered || fits(it);
      if (!own && !it.parts.some(inside)) return;
      total += 1;
      symbols += !it.parent;
      if (total <= this.room) found.push(it);
      if (!it.parts.length) return;
      const through = filtered && !own;
      if (!(through || this.isOpen(it))) return;
      const parts = through ? it.parts.filter(inside) : this.moving ? it.parts.filter(inside) : it.parts;
      for (const part of parts.slice(0, it.room)) walk(part, own && !this.moving);
      const left = parts.length - it.room + it.more;
      if (parts.length > it.room || it.more) found.push({ rest: it, left: Math.max(left, it.more), more: parts.length > it.room, depth: it.depth + 1 });
    };
    let section = null;
    for (const it of this.ordered()) {
      const before = found.length, own = it.symbol.section || "";
      walk(it, false);
      if (!this.sectioned || !this.grouped || found.length === before || own === section) continue;
      section = own;
      found.splice(before, 0, { section: own });
    }
    return [found, total, symbols];
  }

  // The symbols in the order of their sections, in which those without one come last.
  ordered() {
    if (!this.sectioned) return this.top;
    if (this.inOrder && this.inOrder.of === this.top) return this.inOrder.found;
    const sections = new Map();
    for (const it of this.top) {
      const own = it.symbol.section || "";
      if (!sections.has(own)) sections.set(own, []);
      sections.get(own).push(it);
    }
    const last = sections.get("") || [];
    sections.delete("");
    this.inOrder = { of: this.top, found: sections.size ? [...sections.values(), last].flat() : last };
    return this.inOrder.found;
  }

  sectionRow(name) {
    if (!this.sectionRows.has(name)) {
      const cell = make("th", { role: "rowheader", scope: "rowgroup", colspan: 4, text: name || t("Others") });
      this.sectionRows.set(name, make("tr", { role: "row", class: "section" }, cell));
    }
    return this.sectionRows.get(name);
  }

  isOpen(it) {
    return this.unfolded !== this.open.has(it.key);
  }

  render() {
    const [found, total, symbols] = this.visible(), before = this.here, held = this.rows.contains(document.activeElement);
    const rows = found.map((it) => (it.section !== undefined ? this.sectionRow(it.section) : it.rest ? this.restRow(it) : it.row || this.row(it)));
    const kept = new Set(rows);
    for (const row of [...this.rows.children]) if (!kept.has(row) && row.of) row.of.row = null;
    if (rows.length !== this.rows.children.length || rows.some((row, at) => this.rows.children[at] !== row)) this.rows.replaceChildren(...rows);
    for (const row of rows) if (row.of) this.fold(row.of);
    this.tell(found, symbols, total);
    this.settle(before, held);
  }

  // How much is shown.
  tell(found, symbols, total) {
    const all = counted(this.top.length, "symbol", "symbols"), left = total - this.room;
    this.count.textContent = this.words.length || this.moving ? t("{0} of {1}", grouped(symbols), all) : all;
    this.empty.hidden = found.length > 0;
    const nothing = t(this.moving ? "Nothing that fits has changed in the last minute." : "Nothing fits the filter.");
    this.empty.textContent = this.top.length ? nothing : t("No values yet.");
    this.more.hidden = left <= 0;
    this.more.textContent = t("Show {0} of {1} further rows", grouped(Math.min(MOST_ROWS, left)), grouped(left));
  }

  // One row can be reached by Tab; it is the one that had the focus, or the first.
  settle(before, held) {
    const rows = [...this.rows.children].filter((row) => row.of);
    const row = rows.find((it) => it.of.key === before) || rows[0];
    for (const it of rows) it.tabIndex = it === row ? 0 : -1;
    this.here = row ? row.of.key : null;
    if (held && row && document.activeElement !== row) row.focus({ preventScroll: true });
  }

  fold(it) {
    if (!it.parts.length) return;
    const open = this.isOpen(it) || (this.words.length > 0 && !this.words.every((word) => it.found.includes(word)));
    it.row.setAttribute("aria-expanded", open ? "true" : "false");
  }

  row(it) {
    const kind = it.parts.length ? (it.leaf === undefined ? "whole" : "whole valued") : isPlotted(it.kind) ? "plotted" : "still";
    const row = make("tr", { role: "row", tabindex: "-1", "aria-level": it.depth + 1, class: kind });
    const label = make("span", { class: "label" }, make("span", { class: "name", text: it.parent ? it.name.replace(/^\./, "") : it.name }));
    if (it.comment) label.append(make("span", { class: "comment", text: it.comment }));
    const mark = make("span", { class: "mark", "aria-hidden": "true" });
    const name = make("td", { role: "gridcell", class: "cell-name" }, make("span", { class: "in" }, mark, label));
    row.style.setProperty("--depth", it.depth);
    row.main = make("span", { class: "main" });
    row.small = make("span", { class: "small" });
    const type = make("td", { role: "gridcell", class: "cell-type" }, make("span", { class: "type", text: it.type }));
    if (!it.parent && it.symbol.flags) type.append(make("span", { class: "tag", text: t(it.symbol.flags) }));
    if (!it.parent && this.several) type.append(make("span", { class: "tag", text: t("port {0}", it.symbol.port) }));
    row.ageCell = make("td", { role: "gridcell", class: "age" });
    const unit = it.words && it.words.u ? [make("span", { class: "unit", text: it.words.u })] : [];
    row.append(name, make("td", { role: "gridcell", class: "cell-value" }, row.main, ...unit, row.small), type, row.ageCell);
    row.of = it;
    it.row = row;
    row.classList.toggle("chosen", this.chosen.includes(it.key));
    this.write(it);
    return row;
  }

  restRow(it) {
    const said = counted(it.left, "further value", "further values");
    const cell = make("td", { role: "gridcell", colspan: 4, class: "rest" });
    if (it.more) {
      const button = make("button", { type: "button", class: "link", text: t("Show {0} of {1}", MOST_PARTS, said) });
      button.addEventListener("click", () => { it.rest.room += MOST_PARTS; this.render(); });
      cell.append(button);
    } else cell.append(t("{0} are not shown", said));
    const row = make("tr", { role: "row" }, cell);
    row.style.setProperty("--depth", it.depth);
    return row;
  }

  choose(keys) {
    this.chosen = keys;
    for (const row of this.rows.children) row.classList.toggle("chosen", Boolean(row.of) && keys.includes(row.of.key));
  }

  filter(text, moving, unfolded, sectioned = this.sectioned) {
    this.sectioned = sectioned;
    this.words = text.toLowerCase().split(/\s+/).filter(Boolean);
    if (unfolded !== this.unfolded) this.open.clear();
    this.moving = moving;
    this.unfolded = unfolded;
    this.room = MOST_ROWS;
    this.render();
  }

  toggle(it, open = !this.isOpen(it)) {
    if (open === this.unfolded) this.open.delete(it.key);
    else this.open.add(it.key);
    this.render();
  }

  act(row, beside) {
    const it = row.of;
    if (it.parts.length) this.toggle(it);
    else this.opened(it, row, beside);
  }

  clicked(event) {
    const row = event.target.closest("tr");
    if (!row || !row.of || window.getSelection().toString()) return;
    row.focus({ preventScroll: true });
    this.act(row, event.shiftKey);
  }

  focused(event) {
    const row = event.target.closest("tr");
    if (!row || !row.of) return;
    for (const other of this.rows.querySelectorAll('tr[tabindex="0"]')) other.tabIndex = -1;
    row.tabIndex = 0;
    this.here = row.of.key;
  }

  pressed(event) {
    const row = event.target.closest("tr");
    if (!row || !row.of || event.target !== row || event.altKey || event.ctrlKey || event.metaKey) return;
    const rows = [...this.rows.children].filter((it) => it.of), at = rows.indexOf(row), it = row.of;
    const steps = { ArrowDown: at + 1, ArrowUp: at - 1, Home: 0, End: rows.length - 1, PageDown: at + 15, PageUp: at - 15 };
    if (event.key in steps) rows[Math.min(rows.length - 1, Math.max(0, steps[event.key]))].focus();
    else if (event.key === "ArrowRight" && it.parts.length) {
      if (this.isOpen(it)) rows[Math.min(rows.length - 1, at + 1)].focus();
      else this.toggle(it, true);
    } else if (event.key === "ArrowLeft" && it.parts.length && this.isOpen(it)) this.toggle(it, false);
    else if (event.key === "ArrowLeft" && it.parent && it.parent.row) it.parent.row.focus();
    else if (event.key === "Enter" || event.key === " ") this.act(row, event.shiftKey);
    else return;
    event.preventDefault();
  }
}
