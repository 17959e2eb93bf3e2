// The desk's page: asks for the state and the days due, and shows them; asks again every minute.
import { StateReader, readDue } from "./answers.js";
import { AGENT, AskError, ask, askInPieces } from "./asking.js";
import { calendar, focusOn } from "./calendar.js";
import * as commands from "./commands.js";
import { closeDay, openDay } from "./day.js";
import { command, element, link, moment, number, say, several, short } from "./elements.js";
import { dayOf, overview, todo } from "./facts.js";

const MINUTE = 60_000;
const TEN_SECONDS = 10_000;
const MOST_DAYS = 100;
const page = document.documentElement;
const at = (id) => document.getElementById(id);
// What the page shows: the last answers, and what they say as of their moment.
let shown = null;
let timer = 0;

// ---- the registries

const fills = new IntersectionObserver((entries) => {
  for (const { isIntersecting, target } of entries) if (isIntersecting) fill(target);
}, { rootMargin: "300px" });

/** Puts the calendar of a registry into its section, where it is not yet there. */
function fill(section) {
  fills.unobserve(section);
  const place = section.querySelector(".calendar");
  if (place.childElementCount) return;
  try {
    const entry = shown.registries.find(({ tld }) => tld === section.dataset.tld);
    place.append(calendar(entry, at("year").value, dayOf(shown.now)));
  } catch (error) {
    place.append(element("p", { class: "trouble" }, error.message));
  }
}

function registry({ tld, lastReceipt, isLate }) {
  const title = element("h2", { id: `name-${tld}` }, tld), late = element("strong", { class: "late" }, "late");
  const last = lastReceipt ? `last receipt of ${short(lastReceipt)}` : "no receipt";
  const told = { "data-tld": tld, "data-last": lastReceipt ?? "", "data-late": isLate };
  return element("section", { class: "registry", ...told, "aria-labelledby": title.id },
    title, element("p", {}, ...(isLate ? [late, ", "] : []), last), element("div", { class: "calendar" }));
}

/** Shows the calendars anew, each when it comes near the window. */
function showCalendars() {
  const sections = shown.registries.map(registry);
  fills.disconnect();
  at("registries").replaceChildren(...(sections.length ? sections : [element("p", {}, "No registry is registered.")]));
  // The first ones are painted with the page.
  for (const it of sections.slice(0, 2)) fill(it);
  for (const it of sections.slice(2)) fills.observe(it);
}

// ---- above them

function showRoom({ free, total, blocks, days }) {
  const share = total ? Math.floor((1000 * free) / total) / 10 : 0;
  Object.assign(at("room").dataset, { free, total, days: days ?? "" });
  at("room").textContent = `${number(free)} of ${several(total, "block")} are free, ${share}%. ` + (days === null
    ? "No part came in the last thirty days."
    : `At the rate of the last thirty days (${several(blocks, "block")}) they last ${several(days, "day")}.`);
}

/** Puts items into a list, if they are others than those there, and shows what stands for none. */
function list(id, items) {
  const is = element("ul", {}, ...items).textContent;
  if (is !== at(id).textContent) at(id).replaceChildren(...items);
  at(`no-${id}`).hidden = items.length > 0;
}

function showTodo(registries) {
  const all = todo(registries), more = all.length - MOST_DAYS;
  const items = all.slice(0, MOST_DAYS).map(({ tld, day, state, revision }) => element("li", {},
    element("a", { href: link(tld, day), "data-state": state }, `${tld}, ${short(day)}`),
    state === "due" ? " is over without a notice" : `: parts of revision ${revision} wait for a statement`));
  list("todo", [...items, ...(more > 0 ? [element("li", {}, `and ${several(more, "more day", "more days")}`)] : [])]);
}

function showGrounds(registries) {
  const all = registries.flatMap(({ tld, grounds }) => grounds.map((it) => ({ tld, ...it })));
  list("grounds", all.map(({ tld, ground, why }) => element("li", { "data-tld": tld, "data-ground": ground },
    `${tld}: ${ground} (${why})`,
    element("details", {},
      element("summary", {}, "the command"), command(`To release ${tld}`, commands.release({ tld, ground }))))));
}

/** The years that the calendars may show. */
function showYears({ registries, now }) {
  const last = Number(now.slice(0, 4)), first = Math.min(last, ...registries.map((it) => Number(it.first.slice(0, 4))));
  const years = Array.from({ length: last - first + 1 }, (_, place) => String(last - place)), chosen = at("year").value;
  at("year").replaceChildren(new Option("the last 53 weeks", ""), ...years.map((it) => new Option(it)));
  at("year").value = years.includes(chosen) ? chosen : "";
}

// ---- answers

/** What reading an answer gives; if it is none, the error names its request. */
function reading(path, read) {
  try {
    return read();
  } catch (error) {
    throw new AskError(`GET /${path}: ${error.message}`);
  }
}

/** The state, read as it comes, and its moment. */
async function askState() {
  const reader = new StateReader();
  const moment = await askInPieces("state", (piece) => reading("state", () => reader.take(piece)));
  return { state: reading("state", () => reader.end()), moment };
}

/** The days due, with the text that they were read from. */
async function askDue() {
  const { text } = await ask("due");
  return { ...reading("due", () => readDue(text)), texts: [text] };
}

/** Whether two answers have the same texts. */
const isSame = (a, b) => a.texts.length === b.texts.length && a.texts.every((text, place) => text === b.texts[place]);

/** Shows answers. The calendars stay where the answers and the day are as before. */
function show(state, due, now) {
  const isAsBefore = shown && isSame(state, shown.state) && isSame(due, shown.due) && dayOf(now) === dayOf(shown.now);
  const answers = isAsBefore ? { state: shown.state, due: shown.due } : { state, due };
  shown = { ...answers, ...overview(answers.state, answers.due, now) };
  showRoom(shown);
  showTodo(shown.registries);
  showGrounds(shown.registries);
  if (!isAsBefore) {
    const focus = document.activeElement.closest(".registry button[data-day]");
    const [tld, day] = [focus?.closest(".registry").dataset.tld, focus?.dataset.day];
    showYears(shown);
    showCalendars();
    if (focus) focusDay(tld, day);
  }
  at("answered").dateTime = now;
  at("answered").textContent = moment(now);
  at("trouble").hidden = true;
  page.dataset.phase = "shown";
}

/** Says what failed. What was had stays. */
function keep(error) {
  const had = shown ? `The page shows the answers of ${moment(shown.now)}.` : "There is no answer to show yet.";
  at("trouble").textContent = `${error.message}. ${had}`;
  at("trouble").hidden = false;
  page.dataset.phase = "kept";
}

/** Asks for the state and the days due. The next time comes after a minute, or after twenty times as long as this took. */
async function refresh() {
  if (at("again").ariaBusy === "true") return;
  clearTimeout(timer);
  at("again").ariaBusy = "true";
  const began = performance.now();
  const slow = setTimeout(() => keep(new AskError("The agent has not answered for ten seconds")), TEN_SECONDS);
  try {
    // The days due first: if a notice comes between the two, the state has it.
    const due = await askDue(), { state, moment } = await askState();
    show(state, due, moment);
  } catch (error) {
    keep(error);
  }
  clearTimeout(slow);
  at("again").ariaBusy = null;
  timer = setTimeout(refresh, Math.max(MINUTE, 20 * (performance.now() - began)));
}

// ---- days

/** Puts the focus on a day, where the calendar shows it. */
function focusDay(tld, day) {
  const section = document.querySelector(`.registry[data-tld="${tld}"]`);
  if (!section) return;
  fill(section);
  const button = section.querySelector(`button[data-day="${day}"]`);
  if (button) focusOn(button);
}

/** Opens the day that the fragment names, or closes the day that is open. */
async function follow() {
  const [, tld, day] = /^#([a-z0-9-]+)\/(\d{4}-\d{2}-\d{2})$/.exec(location.hash) ?? [];
  const entry = shown?.registries.find((it) => it.tld === tld);
  if (!entry || day < entry.first || day > dayOf(shown.now)) return closeDay();
  try {
    const notices = await openDay(entry, day, shown);
    if (notices && notices.length !== entry.registry.notices().length) refresh();
  } catch (error) {
    say(error.message);
  }
}

at("registries").addEventListener("click", ({ target }) => {
  const day = target.closest("button[data-day]");
  if (!day) return;
  focusOn(day);
  location.hash = link(day.closest(".registry").dataset.tld, day.dataset.day);
});
at("close").addEventListener("click", closeDay);
at("again").addEventListener("click", refresh);
at("year").addEventListener("change", showCalendars);
addEventListener("hashchange", follow);
document.addEventListener("visibilitychange", () => document.hidden || refresh());
at("vault").textContent = /\/vaults\/([^/]+)\/$/.exec(AGENT)?.[1] ?? "";
await refresh();
follow();
