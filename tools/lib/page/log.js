// The log: who wrote what, and when.

import { t } from "/lang.js";
import { clock, day, make } from "/words.js";

const MOST = 100;

export class Log {
  constructor(section, rows) {
    this.section = section; this.rows = rows; this.lines = [];
  }

  add(line) {
    this.take([line, ...this.lines]);
  }

  take(lines) {
    this.lines = lines.slice(0, MOST);
    this.section.hidden = !this.lines.length;
    this.rows.replaceChildren(...this.lines.map((it) => make("tr", { class: it.why ? "bad" : "" },
      make("td", { text: day(it.at) + " " + clock(it.at) }), make("td", { text: it.by }), make("td", { text: it.name }),
      make("td", { text: it.why ? t("{0}, not written: {1}", it.value, it.why) : t("{0} (before: {1})", it.value, it.was) }))));
  }
}
