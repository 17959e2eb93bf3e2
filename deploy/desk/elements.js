// Elements of the page. A text becomes a text, never markup.

/** An element with attributes and children. An attribute that is null or false is left out; true stands for no value. */
export function element(name, attributes = {}, ...children) {
  const made = document.createElement(name);
  for (const [key, value] of Object.entries(attributes)) {
    if (value !== null && value !== undefined && value !== false) made.setAttribute(key, value === true ? "" : value);
  }
  made.append(...children);
  return made;
}

/** A line to copy, what it does, and a button that copies it. */
export function command(words, line) {
  const button = element("button", { type: "button", class: "copy", "aria-label": `Copy the command: ${words}` }, "Copy");
  button.addEventListener("click", async () => {
    try {
      await navigator.clipboard.writeText(line);
      say(`Copied: ${words}.`);
    } catch {
      say("The browser does not allow it to be copied: select the line.");
    }
  });
  const code = element("code", { class: "command" }, line);
  return element("div", { class: "next" }, element("p", {}, `${words}:`), code, button);
}

/** Says something once, to the eye and to a screen reader. */
export function say(text) {
  const place = document.querySelector("dialog[open] .said") ?? document.querySelector("#said");
  place.textContent = text;
}

const DATE = { day: "numeric", month: "long", year: "numeric", timeZone: "UTC" };
const LONG = new Intl.DateTimeFormat("en-GB", { weekday: "long", ...DATE });
const SHORT = new Intl.DateTimeFormat("en-GB", DATE);
const MONTH = new Intl.DateTimeFormat("en-GB", { month: "short", timeZone: "UTC" });

export const long = (day) => LONG.format(new Date(day));
export const short = (day) => SHORT.format(new Date(day));
export const month = (day) => MONTH.format(new Date(day));
/** A moment, to be read: `2026-08-02 10:05:00 UTC`. */
export const moment = (at) => at.replace("T", " ").replace("Z", " UTC");
export const number = (count) => count.toLocaleString("en");
export const several = (count, one, many = `${one}s`) => `${number(count)} ${count === 1 ? one : many}`;
/** The fragment of a day. */
export const link = (tld, day) => `#${tld}/${day}`;
