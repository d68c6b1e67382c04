// The list of alarms: which are there, since when, when they went, and who has acknowledged them.

import { t } from "/lang.js";
import { ask, clock, day, make } from "/words.js";

export class Alarms {
  constructor(elements, token, moment, title) {
    Object.assign(this, elements);
    this.token = token; this.moment = moment; this.title = title; this.said = { rows: [], past: [], there: 0, open: 0, more: 0 };
    this.all.addEventListener("click", () => this.acknowledge(this.said.rows.filter((row) => row.ack === null).map((row) => row.id)));
    this.bell.addEventListener("click", () => this.section.scrollIntoView({ block: "start" }));
  }

  take(said) {
    this.said = said;
    const { rows, past, there, open, more } = said, held = document.activeElement && document.activeElement.dataset.alarm;
    this.section.hidden = !rows.length && !past.length;
    this.bell.hidden = this.section.hidden;
    this.bell.className = "bell" + (there ? " there" : "") + (open ? " open" : "");
    this.count.textContent = String(there);
    this.bell.setAttribute("aria-label", t("{0} alarms are there, {1} are not acknowledged", there, open));
    this.bell.title = this.bell.getAttribute("aria-label");
    this.all.hidden = open < 2;
    this.list.replaceChildren(...rows.map((row) => this.row(row)));
    this.rest.hidden = !more;
    this.rest.textContent = t("{0} further alarms are not shown", more);
    this.none.hidden = rows.length > 0;
    this.old.hidden = !past.length;
    this.oldRows.replaceChildren(...past.map((row) => this.row(row)));
    this.oldTitle.textContent = t("Past alarms ({0})", past.length);
    if (held) {
      const same = this.list.querySelector(`[data-alarm="${held}"]`) || this.list.querySelector("[data-alarm]") || this.bell;
      if (!same.hidden) same.focus({ preventScroll: true });
    }
    this.title(there);
  }

  when(moment) {
    return new Date(moment).toDateString() === new Date(this.moment()).toDateString() ? clock(moment) : day(moment) + " " + clock(moment);
  }

  row(it) {
    const state = it.went === null ? "there" : "went";
    const times = [t("came {0}", this.when(it.came)) + (it.count > 1 ? " " + t("(the {0}th time)", it.count) : "")];
    if (it.went !== null) times.push(t("went {0}", this.when(it.went)));
    if (it.ack !== null) times.push(t("acknowledged {0} by {1}", this.when(it.ack), it.by));
    const text = make("span", { class: "alarm-text", text: it.text + (it.detail ? ": " + it.detail : "") });
    const place = make("span", { class: "alarm-name", text: it.name });
    const mark = make("span", { class: "alarm-mark", role: "img", "aria-label": t(state === "there" ? "there" : "gone") });
    const row = make("li", { class: `alarm ${state} ${it.ack === null ? "open" : "seen"}` }, mark,
      make("div", { class: "alarm-what" }, text, place), make("span", { class: "alarm-times", text: times.join(" · ") }));
    if (it.ack === null) {
      const button = make("button", { type: "button", class: "small-button", "data-alarm": it.id, text: t("Acknowledge"),
        "aria-label": t("Acknowledge") + ": " + text.textContent });
      button.addEventListener("click", () => this.acknowledge([it.id]));
      row.append(button);
    }
    return row;
  }

  async acknowledge(alarms) {
    const { ok, why } = await ask("/acknowledge", this.token, { alarms });
    this.fault.hidden = ok;
    this.fault.textContent = ok ? "" : t("Not acknowledged: {0}.", why);
  }
}
