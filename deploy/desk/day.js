// What is known of a day: its parts, notices, reasons, holds and releases, each with the line that the desk would type next.
import { readNotices, readReason } from "./answers.js";
import { ask, lists } from "./asking.js";
import * as commands from "./commands.js";
import { command, element, link, long, moment, number, several } from "./elements.js";
import { after, dayOf, isInTime, isSunday, stateOf } from "./facts.js";
import { words } from "./words.js";

const dialog = document.querySelector("#day");
const place = (name) => dialog.querySelector(`[data-place="${name}"]`);
const none = (text) => element("p", {}, text);
// The day that is shown. What is answered after another one was opened is dropped.
let shown = null;

// ---- what the overview knows

function partsOf({ parts }) {
  if (!parts.length) return [none("No part came.")];
  const title = "The parts of the day";
  const heads = ["Part", "Bytes", "Received", "Kept"].map((text) => element("th", { scope: "col" }, text));
  const rows = parts.map(({ name, length, at, held }) => element("tr", { class: "part", "data-name": name },
    element("th", { scope: "row" }, name), element("td", { class: "number" }, number(length)),
    element("td", {}, moment(at)), element("td", {}, held ? "held" : "dropped")));
  const table = element("table", {},
    element("caption", { class: "unseen" }, title),
    element("thead", {}, element("tr", {}, ...heads)), element("tbody", {}, ...rows));
  return [element("div", { class: "wide", tabindex: "0", role: "region", "aria-label": title }, table)];
}

function noticesOf(notices) {
  if (!notices.length) return [none("No notice is recorded.")];
  return notices.map(({ line }) => element("pre", { class: "notice", tabindex: "0" }, line));
}

function holdOf(hold) {
  const { reference, at, lifted } = hold, isHeld = lifted === null;
  return element("li", { class: "hold", "data-reference": reference, "data-lifted": lifted ?? "" },
    `${reference}, since ${moment(at)}${isHeld ? "" : `, lifted ${moment(lifted)}`}`,
    ...(isHeld ? [command(`To lift ${reference}`, commands.lift(hold))] : []));
}

function holdsOf({ holds, tld }, day, { parts }) {
  const own = holds.filter((it) => it.day === day);
  const isOffered = parts.some(({ held }) => held) && !own.some(({ lifted }) => lifted === null);
  return [
    own.length ? element("ul", {}, ...own.map(holdOf)) : none("No hold."),
    ...(isOffered ? [command("To hold the day (a new reference for REF)", commands.hold({ tld, day }))] : []),
  ];
}

/** The name that the first part of the day's next revision has. */
function nextName({ tld }, day, { parts }, failures) {
  const kind = parts.at(-1)?.kind ?? (isSunday(day) ? "full" : "diff");
  return `${tld}_${day}_${kind}_S1_R${failures}.ryde`;
}

/** What the desk can do about a deposit that has no receipt. */
function nextOf(entry, day, known) {
  const { state, failures } = stateOf(entry, day, known.notices), { tld, waiting } = entry;
  if (state === "receipt") return [];
  const check = state === "due" ? [command("To record the absence", commands.check({ tld, day }))] : [];
  if (!isInTime(entry, day)) return [none("A later day has a receipt: a deposit of this day is too late (Q13)."), ...check];
  const send = commands.send(nextName(entry, day, known, failures));
  if (state !== "parts") return [command("When the next parts come", send), ...check];
  const revision = waiting.get(day), own = known.parts.filter((it) => it.revision === revision);
  const statement = { tld, day, revision, kind: own[0].kind, count: own.length };
  return [command("To state the deposit (its id for ID)", commands.state(statement))];
}

// ---- what it asks for

/** The reason of each failure, or why it is not there. */
async function reasonsOf(tld, day, notices) {
  const failures = notices.filter(({ kind }) => kind === "FAILURE"), made = [];
  for (const { revision } of failures) {
    const answer = ask(`reasons/${tld}/${day}/${revision}`).then(({ text }) => readReason(text).line);
    made.push(element("p", { class: "reason" }, await answer.catch(({ message }) => message)));
  }
  return made.length ? made : [none("No failure.")];
}

/** A release of the registry: which parts of the day it lists, and how to fetch those that are held. */
async function releaseOf({ reference, ground, at }, parts) {
  const found = [];
  for (const part of parts) found.push({ part, is: await lists(reference, part.name) });
  const listed = found.filter(({ is }) => is === "yes").map(({ part }) => part);
  const is = found.some((it) => it.is === "unknown") ? "unknown" : listed.length ? "yes" : "no";
  const text = is === "unknown" ? "the agent does not say which parts it lists"
    : `lists ${listed.length} of ${several(parts.length, "part")}`;
  const fetches = listed.filter(({ held }) => held).map(({ name, part, revision }) =>
    command(`To fetch part ${part} of revision ${revision}`, commands.fetchPart({ reference, name })));
  return element("li", { class: "release", "data-reference": reference, "data-lists": is },
    `${reference}, ${ground}, ${moment(at)}: ${text}`, ...fetches);
}

async function releasesOf(releases, { parts }) {
  const made = [];
  for (const it of releases) made.push(await releaseOf(it, parts));
  return [made.length ? element("ul", {}, ...made) : none("The registry has no release.")];
}

/** Asks for what the overview does not have, and shows it. Gives the registry's notices, or null without an answer. */
async function complete(entry, day, releases, known) {
  const { tld } = entry, isShown = () => shown === link(tld, day), isOfDay = (it) => it.day === day;
  const answer = await ask(`notices/${tld}`)
    .then(({ text }) => ({ notices: readNotices(text) })).catch((error) => ({ error }));
  const notices = answer.notices?.filter(isOfDay) ?? known.notices;
  if (isShown()) place("notices").replaceChildren(...noticesOf(notices));
  if (isShown() && answer.error) place("notices").append(element("p", { class: "trouble" }, answer.error.message));
  const reasons = isShown() && await reasonsOf(tld, day, notices);
  if (isShown()) place("reasons").replaceChildren(...reasons);
  const listed = isShown() && await releasesOf(releases, known);
  if (isShown()) place("releases").replaceChildren(...listed);
  if (isShown()) dialog.dataset.phase = "shown";
  return answer.notices ?? null;
}

// ---- the dialog

function showHead(entry, day, known, today) {
  const isHeld = entry.holds.some((it) => it.day === day && it.lifted === null);
  const [before, next] = [after(day, -1), after(day, 1)];
  place("title").textContent = `${entry.tld}, ${long(day)}`;
  place("words").textContent = `${words(stateOf(entry, day, known.notices))}${isHeld ? "; on hold" : ""}`;
  place("before").setAttribute("href", link(entry.tld, before));
  place("before").hidden = before < entry.first;
  place("after").setAttribute("href", link(entry.tld, next));
  place("after").hidden = next > today;
}

/** Opens a day of a registry. Gives the registry's notices as they are now, or null if the agent does not answer. */
export function openDay(entry, day, { now, releases }) {
  const known = entry.registry.on(day);
  shown = link(entry.tld, day);
  showHead(entry, day, known, dayOf(now));
  place("next").replaceChildren(...nextOf(entry, day, known));
  place("parts").replaceChildren(...partsOf(known));
  place("notices").replaceChildren(...noticesOf(known.notices));
  place("holds").replaceChildren(...holdsOf(entry, day, known));
  for (const name of ["reasons", "releases"]) place(name).replaceChildren(none("Asking .."));
  dialog.querySelector(".said").textContent = "";
  dialog.dataset.phase = "asking";
  if (!dialog.open) dialog.showModal();
  dialog.scrollTop = 0;
  return complete(entry, day, releases.filter((it) => it.tld === entry.tld), known);
}

export function closeDay() {
  dialog.close();
}

// The fragment of a day that was closed goes, unless another day is on its way.
dialog.addEventListener("close", () => {
  if (dialog.open) return;
  if (location.hash === shown) history.replaceState(null, "", location.pathname);
  shown = null;
});
