// How values, moments and counts are written.

import { locale, t } from "/lang.js";

const TEXT_ODD = /[\u0000-\u001f\u007f-\u009f$']/g;

export function make(tag, attributes = {}, ...inside) {
  const it = document.createElement(tag);
  for (const [name, value] of Object.entries(attributes)) {
    if (name === "text") it.textContent = value;
    else if (value === true) it.setAttribute(name, "");
    else if (value !== false && value !== null && value !== undefined) it.setAttribute(name, value);
  }
  it.append(...inside);
  return it;
}

export function drawn(tag, attributes = {}, text = null) {
  const it = document.createElementNS("http://www.w3.org/2000/svg", tag);
  for (const [name, value] of Object.entries(attributes)) it.setAttribute(name, value);
  if (text !== null) it.textContent = text;
  return it;
}

function hexByte(letter) {
  return "$" + letter.charCodeAt(0).toString(16).toUpperCase().padStart(2, "0");
}

// A number of milliseconds as a TIME is written.
export function span(count) {
  if (!count) return "T#0ms";
  let left = count, said = "T#";
  for (const [unit, size] of [["d", 86400000], ["h", 3600000], ["m", 60000], ["s", 1000], ["ms", 1]]) {
    const whole = Math.floor(left / size);
    if (whole) said += whole + unit;
    left -= whole * size;
  }
  return said;
}

// A value with its unit, as it is told in a sentence or at an axis.
export function withUnit(type, words, value) {
  return shown(type, value)[0] + (words && words.u ? "\u00a0" + words.u : "");
}

// A value as it is shown: what stands first, and what stands behind it in small letters.
export function shown(type, value) {
  if (value === null || value === undefined) return ["…", ""];
  switch (type.k) {
    case "bool": return [value ? "TRUE" : "FALSE", ""];
    case "text": return ["'" + value.replace(TEXT_ODD, hexByte) + "'", ""];
    case "time": return [span(value), ""];
    case "bits": return [String(value), "16#" + BigInt(value).toString(16).toUpperCase().padStart(2 * type.s, "0")];
    case "enum": {
      const found = type.v.find(([, number]) => String(number) === String(value));
      return found ? [found[0], String(value)] : [String(value), t("no value of it")];
    }
    default: return [String(value), ""];
  }
}

// A bit of a whole number.
export function bitOf(value, number) {
  return ((BigInt(value) >> BigInt(number)) & 1n) === 1n;
}

// A value as a number for a plot; null where it is none.
export function numeric(value) {
  if (typeof value === "boolean") return value ? 1 : 0;
  const number = Number(value);
  return value === null || !Number.isFinite(number) ? null : number;
}

export function isPlotted(type) {
  return type.k !== "text";
}

export function age(moment, now) {
  if (!moment) return "–";
  const seconds = Math.max(0, (now - moment) / 1000);
  if (seconds < 1) return t("now");
  if (seconds < 60) return Math.floor(seconds) + " s";
  if (seconds < 3600) return Math.floor(seconds / 60) + " min";
  if (seconds < 86400) return Math.floor(seconds / 3600) + " h";
  return Math.floor(seconds / 86400) + " d";
}

export function clock(moment) {
  return new Date(moment).toLocaleTimeString(locale);
}

export function day(moment) {
  return new Date(moment).toLocaleDateString(locale, { day: "numeric", month: "short" });
}

export function grouped(count) {
  return count.toLocaleString(locale);
}

export function counted(count, one, many) {
  return grouped(count) + " " + t(count === 1 ? one : many);
}

// What this page's own program answers to a request that changes something.
export async function ask(path, token, body) {
  try {
    const headers = { "Content-Type": "application/json", "X-Token": token };
    const answer = await fetch(path, { method: "POST", headers, body: JSON.stringify(body) });
    const text = (await answer.text()).trim();
    let said = { why: text };
    try { said = JSON.parse(text); } catch { /* a sentence stands there */ }
    return { ...said, ok: answer.ok, known: true };
  } catch {
    return { ok: false, known: false, why: t("this page's program did not answer") };
  }
}
