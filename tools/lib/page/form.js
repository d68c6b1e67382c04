// The form for the values that may be written.

import { t } from "/lang.js";
import { ask, make, shown, withUnit } from "/words.js";

const WIDTHS = { 1: 8, 2: 16, 4: 32, 8: 64 };
// How long another value may stand before the one that was written comes.
const COMING = 2000;

// What may be written: the limits where there are some, else those of the type.
function hint(leaf) {
  const type = leaf.kind, own = leaf.words || {};
  const said = (value) => shown(type, value)[0];
  if (own.min !== undefined && own.max !== undefined) return t("{0} to {1}", said(own.min), said(own.max));
  if (own.min !== undefined) return t("at least {0}", said(own.min));
  if (own.max !== undefined) return t("at most {0}", said(own.max));
  switch (type.k) {
    case "real": return t("a number, as 1.5");
    case "time": return t("T#1m30s or milliseconds");
    case "text": return t("at most {0} letters", type.s - 1);
    default: {
      const bits = BigInt(WIDTHS[type.s]), signed = /^(S|D|L)?INT$/.test(leaf.type);
      const low = signed ? -(2n ** (bits - 1n)) : 0n;
      return t("{0} to {1}", low, low + 2n ** bits - 1n);
    }
  }
}

function choices(type) {
  if (type.k === "bool") return [["FALSE", "FALSE"], ["TRUE", "TRUE"]];
  return type.k === "enum" ? type.v.map(([name, number]) => [name, `${name} (${number})`]) : null;
}

export class Forms {
  constructor(section, list, token) {
    this.section = section; this.list = list; this.token = token; this.cards = []; this.live = true;
  }

  take(said, leaves) {
    this.section.hidden = !said.forms.length;
    const before = new Map(this.cards.map((card) => [card.key, card]));
    this.cards = said.forms.map((it) => {
      const key = (it.port || "") + " " + it.n, leaf = it.l === null ? null : leaves[it.l], old = before.get(key);
      const type = leaf ? leaf.type + JSON.stringify([leaf.kind, leaf.words]) : "";
      if (old && old.type === type) return Object.assign(old, { leaf });
      return this.card(key, it, leaf, type);
    });
    this.list.replaceChildren(...this.cards.map((card) => card.form));
    for (const card of this.cards) this.show(card);
    this.enable(this.live);
  }

  card(key, it, leaf, type) {
    const id = "set-" + key.replace(/[^A-Za-z0-9]/g, "-"), card = { key, leaf, type, name: it.n, port: it.port, id, wrote: null };
    card.now = make("span", { class: "main" });
    card.said = make("output", { class: "said", for: id, "aria-live": "polite" });
    const label = make("label", { for: id, class: "name", text: it.n }), kind = make("span", { class: "type", text: leaf ? leaf.type : "" });
    const head = make("div", { class: "form-head" }, label, kind, card.now);
    card.form = make("form", { novalidate: true, class: "card", "aria-label": t("Set {0}", it.n) }, head);
    if (leaf) {
      card.field = this.field(id, leaf);
      card.button = make("button", { type: "submit", class: "set", text: t("Set") });
      const unit = leaf.words && leaf.words.u ? [make("span", { class: "unit", text: leaf.words.u })] : [];
      card.form.append(make("div", { class: "form-row" }, card.field, ...unit, card.button));
    } else card.said.textContent = t("The server has no such value now.");
    card.form.append(card.said);
    card.form.addEventListener("submit", (event) => { event.preventDefault(); this.send(card); });
    return card;
  }

  field(id, leaf) {
    const some = choices(leaf.kind);
    if (!some) return make("input", { id, type: "text", autocomplete: "off", spellcheck: "false", placeholder: hint(leaf), title: hint(leaf) });
    const now = shown(leaf.kind, leaf.value)[0];
    return make("select", { id }, ...some.map(([value, text]) => make("option", { value, text, selected: value === now })));
  }

  show(card) {
    if (!card.leaf) return;
    const small = shown(card.leaf.kind, card.leaf.value)[1], main = withUnit(card.leaf.kind, card.leaf.words, card.leaf.value);
    const text = t("now {0}", main) + (small ? " (" + small + ")" : "");
    this.settle(card);
    if (card.now.textContent !== text) card.now.textContent = text;
  }

  // What was written is said until another value comes.
  settle(card) {
    if (!card.wrote) return;
    const same = card.leaf.value === card.wrote.value;
    if (same) card.wrote.came = true;
    else if (card.wrote.came || Date.now() > card.wrote.at + COMING) {
      card.wrote = null;
      this.tell(card, "", "");
    }
  }

  // Nothing is written where the server is gone.
  enable(live) {
    this.live = live;
    this.section.classList.toggle("off", !live);
    for (const card of this.cards) if (card.field) card.field.disabled = card.button.disabled = !live || card.busy;
  }

  paint() {
    for (const card of this.cards) this.show(card);
  }

  tell(card, text, kind) {
    card.said.textContent = text;
    card.said.className = "said " + kind;
    card.field.setAttribute("aria-invalid", kind === "bad" ? "true" : "false");
  }

  async send(card) {
    if (!card.field || card.button.disabled) return;
    const text = card.field.value, body = { name: card.name, value: text, ...(card.port ? { port: card.port } : {}) };
    card.busy = true; card.button.disabled = true; card.wrote = null;
    this.tell(card, "…", "");
    const said = await ask("/write", this.token, body);
    card.busy = false;
    this.enable(this.live);
    if (said.ok) {
      card.wrote = { value: said.value, at: Date.now(), came: false };
      return this.tell(card, t("Written: {0}", text || "''"), "good");
    }
    this.tell(card, said.known ? t("Not written: {0}.", said.why) : t("Not known whether it was written: {0}.", said.why), "bad");
    card.field.focus();
    return null;
  }
}
