// The page's texts: English in its own code, and German by a table of words.

import { GERMAN } from "/german.js";

const asked = new URLSearchParams(location.search).get("lang");
export const language = (asked || navigator.language || "en").toLowerCase().startsWith("de") ? "de" : "en";
export const locale = language === "de" ? "de-DE" : "en-GB";

// A text in the page's language; {0}, {1} .. stand for what is given.
export function t(text, ...given) {
  const said = language === "de" && GERMAN[text] !== undefined ? GERMAN[text] : text;
  return given.length ? said.replace(/\{(\d)\}/g, (_, at) => String(given[at])) : said;
}

// The texts that stand in the page itself.
export function translate() {
  document.documentElement.lang = language;
  if (language === "en") return;
  for (const it of document.querySelectorAll("[data-t]")) it.textContent = t(it.textContent);
  for (const name of ["aria-label", "placeholder", "title"]) {
    for (const it of document.querySelectorAll(`[${name}]`)) it.setAttribute(name, t(it.getAttribute(name)));
  }
}
