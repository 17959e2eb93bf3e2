// The calendar of a registry: a column a week, a row a weekday, a button a day.
import { element, long, month, short } from "./elements.js";
import { after, span, stateOf, weekday } from "./facts.js";
import { letters, words } from "./words.js";

const WEEKDAYS = ["Monday", "Tuesday", "Wednesday", "Thursday", "Friday", "Saturday", "Sunday"];

/** The button of a day. */
function button(entry, day) {
  const it = stateOf(entry, day, entry.registry.on(day).notices);
  const isHeld = entry.holds.some((hold) => hold.day === day && hold.lifted === null);
  const told = { "data-state": it.state, "data-failures": it.failures, "data-check": it.check, "data-hold": isHeld };
  const name = `${long(day)}: ${words(it)}${isHeld ? "; on hold" : ""}`;
  return element("button", { type: "button", tabindex: "-1", "data-day": day, ...told, "aria-label": name }, letters(it));
}

/** The heads of the columns: a week each, with the name of its month above each first Monday. */
function heads(mondays) {
  const cells = mondays.map((day) => element("th", { scope: "col", "aria-label": `week of ${short(day)}` },
    Number(day.slice(8)) <= 7 ? month(day) : ""));
  return element("thead", {}, element("tr", {}, element("td", {}), ...cells));
}

/** The table of a registry's days in a year, or in the last 53 weeks. */
export function calendar(entry, year, today) {
  const [from, to] = span(year, today), mondays = [];
  for (let day = after(from, -weekday(from)); day <= to; day = after(day, 7)) mondays.push(day);
  const isShown = (day) => day >= from && day <= to && day >= entry.first && day <= today;
  const rows = WEEKDAYS.map((name, place) => element("tr", {},
    element("th", { scope: "row", "aria-label": name }, name.slice(0, 3)),
    ...mondays.map((monday) => {
      const day = after(monday, place);
      return element("td", {}, ...(isShown(day) ? [button(entry, day)] : []));
    })));
  const name = `${entry.tld}, ${year || "the last 53 weeks"}, a column a week`;
  const table = element("table", { role: "grid" },
    element("caption", { class: "unseen" }, name), heads(mondays), element("tbody", {}, ...rows));
  byDay(table, to < today ? to : today)?.setAttribute("tabindex", "0");
  table.addEventListener("keydown", (event) => move(event, table));
  return table;
}

const byDay = (table, day) => table.querySelector(`button[data-day="${day}"]`);

/** The day that the focus goes to from a day by a key. */
function target(key, day, table) {
  const steps = { ArrowUp: -1, ArrowDown: 1, ArrowLeft: -7, ArrowRight: 7 };
  if (key in steps) return byDay(table, after(day, steps[key]));
  const row = byDay(table, day).closest("tr").querySelectorAll("button");
  return { Home: row[0], End: row[row.length - 1] }[key];
}

/** Moves the focus by a key, and with it the one stop of the tabulator. */
function move(event, table) {
  const { day } = event.target.dataset, to = day && target(event.key, day, table);
  if (!to || event.ctrlKey || event.altKey || event.metaKey) return;
  event.preventDefault();
  focusOn(to, table);
}

/** Puts the focus on a day of a calendar. */
export function focusOn(button, table = button.closest("table")) {
  for (const it of table.querySelectorAll('button[tabindex="0"]')) it.setAttribute("tabindex", "-1");
  button.setAttribute("tabindex", "0");
  button.focus();
}
