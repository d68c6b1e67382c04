// Recipes: an array of structures as a table, of which one is filled, compared with another, and written whole.

import { t } from "/lang.js";
import { ask, make, shown } from "/words.js";

// What stands in a field for a value: as it is typed.
function typed(leaf) {
  if (leaf.value === null) return "";
  return leaf.kind.k === "text" ? leaf.value : shown(leaf.kind, leaf.value)[0];
}

function leavesOf(it, path, found) {
  if (it.leaf !== undefined) found.push([path.replace(/^\./, ""), it]);
  else for (const part of it.parts) leavesOf(part, path + part.name, found);
  return found;
}

class Sheet {
  constructor(symbol, port, token) {
    this.symbol = symbol; this.port = port; this.token = token; this.fields = new Map(); this.live = true; this.titled = 0;
    const id = "recipe-" + symbol.key.replace(/[^A-Za-z0-9]/g, "-");
    this.one = make("select", { id });
    this.other = make("select", { id: id + "-other" });
    this.copy = make("button", { type: "button", class: "small-button", text: t("Take over") });
    this.copy.title = t("Fill the fields with the values of the other recipe");
    this.back = make("button", { type: "button", class: "small-button", text: t("Discard") });
    this.write = make("button", { type: "submit", class: "set", text: t("Write the recipe") });
    this.said = make("output", { class: "said", "aria-live": "polite" });
    this.body = make("tbody", {});
    this.differs = make("tbody", {});
    this.sure = make("button", { type: "submit", class: "set" });
    this.not = make("button", { type: "button", class: "small-button", text: t("Not yet") });
    this.look = make("div", { class: "recipe-look", role: "group", "aria-label": t("What will change"), hidden: true },
      make("h3", { text: t("What will change") }), make("table", {}, this.differs), make("div", { class: "form-row" }, this.sure, this.not));
    const head = make("thead", {}, make("tr", {}, ...[t("Name"), t("now"), t("to be written"), t("Compared")].map((text) => make("th", { scope: "col", text }))));
    this.form = make("form", { class: "card recipe", "aria-label": symbol.path, novalidate: true },
      make("div", { class: "recipe-head" }, make("span", { class: "name", text: symbol.path }), make("label", { for: id, text: t("Recipe") }), this.one,
        make("label", { for: id + "-other", text: t("compare with") }), this.other, this.copy),
      make("div", { class: "recipe-sheet" }, make("table", {}, head, this.body)),
      this.choice = make("div", { class: "form-row" }, this.write, this.back), this.look, this.said);
    this.one.addEventListener("change", () => this.build());
    this.other.addEventListener("change", () => this.paint());
    this.copy.addEventListener("click", () => this.take());
    this.back.addEventListener("click", () => this.build());
    this.not.addEventListener("click", () => { this.shut(); this.write.focus(); });
    this.look.addEventListener("keydown", (event) => { if (event.key === "Escape") { event.stopPropagation(); this.not.click(); } });
    this.form.addEventListener("submit", (event) => {
      event.preventDefault();
      if (this.look.hidden) this.open();
      else this.send();
    });
    this.options();
    this.build();
  }

  title(part) {
    const text = leavesOf(part, "", []).find(([, leaf]) => leaf.kind.k === "text");
    return part.name + (text && text[1].value ? " " + text[1].value : "");
  }

  options() {
    const own = this.one.value, other = this.other.value, parts = this.symbol.parts;
    this.one.replaceChildren(...parts.map((part) => make("option", { value: part.name, text: this.title(part), selected: part.name === own })));
    this.other.replaceChildren(make("option", { value: "", text: t("nothing") }),
      ...parts.map((part) => make("option", { value: part.name, text: this.title(part), selected: part.name === other })));
  }

  // The titles in the lists, as the values are now.
  titles() {
    if (performance.now() - this.titled < 500) return;
    this.titled = performance.now();
    this.symbol.parts.forEach((part, at) => {
      const text = this.title(part);
      for (const it of [this.one.options[at], this.other.options[at + 1]]) if (it && it.textContent !== text) it.textContent = text;
    });
  }

  part(name) {
    return this.symbol.parts.find((part) => part.name === name) || null;
  }

  // The rows of the chosen recipe, with its values in the fields.
  build() {
    this.fields = new Map();
    this.shut();
    this.body.replaceChildren(...leavesOf(this.part(this.one.value), "", []).map(([path, leaf]) => {
      const unit = leaf.words && leaf.words.u ? leaf.words.u : "";
      const field = leaf.kind.k === "bool" || leaf.kind.k === "enum"
        ? make("select", {}, ...(leaf.kind.k === "bool" ? ["FALSE", "TRUE"] : leaf.kind.v.map(([name]) => name)).map((text) => make("option", { value: text, text })))
        : make("input", { type: "text", autocomplete: "off", spellcheck: "false" });
      field.value = typed(leaf);
      field.setAttribute("aria-label", path + (unit ? ", " + unit : ""));
      field.addEventListener("input", () => this.paint());
      const now = make("td", { class: "now" }), compared = make("td", { class: "compared" }), wrong = make("span", { class: "wrong" });
      this.fields.set(path, { leaf, field, now, compared, wrong });
      return make("tr", {}, make("th", { scope: "row" }, path, make("span", { class: "unit", text: unit })), now, make("td", {}, field, wrong), compared);
    }));
    this.tell("", "");
    this.paint();
  }

  // A look at what differs, before it is written.
  open() {
    if (this.write.disabled) return;
    this.tell("", "");
    this.look.hidden = false;
    this.choice.hidden = true;
    this.paint();
    this.sure.focus();
  }

  shut() {
    this.look.hidden = true;
    this.choice.hidden = false;
  }

  // What differs, as it is at this moment.
  compare() {
    const rows = [...this.fields].filter(([, it]) => it.field.value !== typed(it.leaf));
    if (!rows.length && !this.busy) this.shut();
    const said = rows.map(([path, it]) => [path, typed(it.leaf) || "''", it.field.value || "''"]), key = JSON.stringify(said);
    if (this.compared === key) return;
    this.compared = key;
    this.sure.textContent = t(said.length === 1 ? "Write {0} value" : "Write {0} values", said.length);
    this.differs.replaceChildren(...said.map(([path, now, then]) => make("tr", {}, make("th", { scope: "row", text: path }),
      make("td", { class: "old", text: now }), make("td", { class: "arrow", "aria-label": t("becomes"), text: "→" }), make("td", { text: then }))));
  }

  // Another table of the server: the fields stay as they are where the recipe has the same values still.
  moved(symbol) {
    this.symbol = symbol;
    const own = this.part(this.one.value), leaves = own ? new Map(leavesOf(own, "", [])) : new Map();
    const same = leaves.size === this.fields.size && [...this.fields].every(([path, it]) => leaves.has(path) && leaves.get(path).type === it.leaf.type);
    this.options();
    if (same) for (const [path, it] of this.fields) it.leaf = leaves.get(path);
    else this.build();
  }

  paint() {
    const other = this.part(this.other.value), values = other ? new Map(leavesOf(other, "", [])) : new Map();
    let changed = false;
    this.titles();
    for (const [path, it] of this.fields) {
      const now = typed(it.leaf), compared = values.has(path) ? typed(values.get(path)) : "";
      if (it.now.textContent !== now) it.now.textContent = now;
      if (it.compared.textContent !== compared) it.compared.textContent = compared;
      it.compared.classList.toggle("differs", values.has(path) && compared !== it.field.value);
      it.field.classList.toggle("changed", it.field.value !== now);
      changed = changed || it.field.value !== now;
    }
    this.copy.disabled = !other || !this.live;
    this.write.disabled = !changed || !this.live || this.busy;
    this.back.disabled = !changed;
    this.sure.disabled = this.write.disabled;
    for (const it of [this.one, this.other, ...[...this.fields.values()].map((own) => own.field)]) it.disabled = !this.live;
    if (!this.look.hidden) this.compare();
  }

  take() {
    const values = new Map(leavesOf(this.part(this.other.value), "", []));
    for (const [path, it] of this.fields) if (values.has(path)) it.field.value = typed(values.get(path));
    this.paint();
  }

  tell(text, kind, parts = {}) {
    this.said.textContent = text;
    this.said.className = "said " + kind;
    for (const [path, it] of this.fields) {
      it.wrong.textContent = parts[path] || "";
      it.field.setAttribute("aria-invalid", parts[path] ? "true" : "false");
    }
  }

  async send() {
    if (this.write.disabled) return;
    this.busy = true;
    this.paint();
    const index = this.one.value, values = Object.fromEntries([...this.fields].map(([path, it]) => [path, it.field.value]));
    const said = await ask("/recipe", this.token, { name: this.symbol.path, port: this.port, index, values });
    this.busy = false;
    this.shut();
    if (said.ok) this.tell(t("Written: {0}", this.symbol.path + index), "good");
    else this.tell(said.known ? t("Not written: {0}.", said.why) : t("Not known whether it was written: {0}.", said.why), "bad", said.parts);
    this.options();
    this.paint();
  }
}

export class Recipes {
  constructor(section, list, token) {
    this.section = section; this.list = list; this.token = token; this.sheets = new Map();
  }

  take(said, top) {
    const found = said.recipes.map((own) => top.find((it) => it.path === own.n && it.symbol.port === own.port)).filter(Boolean);
    const before = this.sheets;
    this.sheets = new Map(found.map((it) => {
      const old = before.get(it.key);
      if (old) old.moved(it);
      return [it.key, old || new Sheet(it, it.symbol.port, this.token)];
    }));
    this.section.hidden = !found.length;
    this.list.replaceChildren(...[...this.sheets.values()].map((sheet) => sheet.form));
  }

  enable(live) {
    this.section.classList.toggle("off", !live);
    for (const sheet of this.sheets.values()) { sheet.live = live; sheet.paint(); }
  }

  paint() {
    for (const sheet of this.sheets.values()) sheet.paint();
  }
}
