// The form by which a user logs in.

import { t, translate } from "/lang.js";

const $ = (id) => document.getElementById(id);
try {
  const theme = localStorage.getItem("theme");
  if (theme) document.documentElement.dataset.theme = theme;
} catch { /* nothing is kept where the browser keeps nothing */ }
translate();

async function enter() {
  const body = JSON.stringify({ name: $("name").value, password: $("password").value });
  let text = "";
  try {
    const answer = await fetch("/login", { method: "POST", headers: { "Content-Type": "application/json" }, body });
    if (answer.ok) return location.assign("/" + location.search);
    text = answer.status === 403 ? t("This name and this password are not known.")
      : answer.status === 429 ? t("Too many wrong passwords: try again in a minute.") : (await answer.text()).trim();
  } catch {
    text = t("this page's program did not answer");
  }
  $("said").textContent = text;
  $("password").value = "";
  $("password").focus();
  return null;
}

$("form").addEventListener("submit", async (event) => {
  event.preventDefault();
  $("enter").disabled = true;
  await enter();
  $("enter").disabled = false;
});
