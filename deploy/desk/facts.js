// What the answers say of days, registries and room. Days are texts, `2026-08-02`; moments are texts in UTC.

const MILLISECONDS = 86_400_000;
const BLOCK = 4096;

/** The day so many days after a day. */
export function after(day, count) {
  return new Date(Date.parse(day) + count * MILLISECONDS).toISOString().slice(0, 10);
}

/** The days from one to another. */
export function between(from, to) {
  return (Date.parse(to) - Date.parse(from)) / MILLISECONDS;
}

/** The place of a day in its week: 0 for a Monday, 6 for a Sunday. */
export function weekday(day) {
  return (new Date(day).getUTCDay() + 6) % 7;
}

/** The day of a moment. */
export const dayOf = (at) => at.slice(0, 10);

export const isSunday = (day) => weekday(day) === 6;
/** The moment thirty days before a moment. */
const monthBefore = (now) => after(dayOf(now), -30) + now.slice(10);

/** The first and last day of a year, or of the last 53 weeks if none is named. */
export function span(year, today) {
  return year ? [`${year}-01-01`, `${year}-12-31`] : [after(today, -weekday(today) - 52 * 7), today];
}

/** A registry with what the overview shows of it. */
function surveyed(registry, due, holds, now) {
  const { lastReceipt, losses, lost, held, waiting } = registry.survey(), { tld, first } = registry;
  const from = monthBefore(now);
  const isLately = ({ at }) => from <= at && at <= now;
  return {
    registry, tld, first, lastReceipt, waiting, holds,
    isLate: lastReceipt === null || between(lastReceipt, dayOf(now)) > 2,
    grounds: groundsOf(losses.filter(isLately), lost),
    blocks: held.filter(isLately).reduce((sum, { length }) => sum + Math.ceil(length / BLOCK), 0),
    due: new Set(due.map(({ day }) => day)),
  };
}

/**
 * The grounds that stand by a registry's losses of the last thirty days and its lost days, each with why: the Sundays that
 * are lost, or how many losses of other days there are (Specification 2, Part B section 6).
 */
function groundsOf(lately, lost) {
  const sundays = [...lost].filter(isSunday), { length } = lately.filter(({ day }) => !isSunday(day));
  return [
    ...(sundays.length ? [{ ground: "sunday_failed", why: sundays.join(", ") }] : []),
    ...(length >= 5 ? [{ ground: "five_failed", why: `${length} in thirty days` }] : []),
  ];
}

/** Late registries first, those without a receipt before all, then by the day of the last one; the others by name. */
function inOrder(a, b) {
  if (a.isLate !== b.isLate) return a.isLate ? -1 : 1;
  const byDay = a.isLate ? (a.lastReceipt ?? "").localeCompare(b.lastReceipt ?? "") : 0;
  return byDay || (a.tld < b.tld ? -1 : 1);
}

/** What the page shows of a state and of the days due, as of a moment. */
export function overview(state, due, now) {
  const byRegistry = (list) => Map.groupBy(list, ({ tld }) => tld);
  const dueOf = byRegistry(due.due), holdsOf = byRegistry(state.holds);
  const registries = state.registries
    .map((it) => surveyed(it, dueOf.get(it.tld) ?? [], holdsOf.get(it.tld) ?? [], now)).sort(inOrder);
  const blocks = registries.reduce((sum, it) => sum + it.blocks, 0);
  return {
    now, registries, free: state.free, total: state.total, blocks, releases: state.releases,
    days: blocks ? Math.floor(state.free * 30 / blocks) : null,
  };
}

/** Whether a deposit of a day may still be stated: no later day has a receipt. */
export const isInTime = ({ lastReceipt }, day) => lastReceipt === null || day > lastReceipt;

/** The days for which the desk has something to do, the latest first: parts to state, and days due. */
export function todo(registries) {
  const days = registries.flatMap((entry) => {
    const { tld, waiting, due } = entry, toState = [...waiting.keys()].filter((day) => isInTime(entry, day));
    return [
      ...toState.map((day) => ({ tld, day, state: "parts", revision: waiting.get(day) })),
      ...[...due].filter((day) => !toState.includes(day)).map((day) => ({ tld, day, state: "due" })),
    ];
  });
  return days.sort((a, b) => (a.day === b.day ? (a.tld < b.tld ? -1 : 1) : a.day > b.day ? -1 : 1));
}

/** What a day came to: a receipt, parts without a statement, a failure, an absence; or it is due, or still open. */
export function stateOf({ waiting, due }, day, notices) {
  const failures = notices.filter(({ kind }) => kind === "FAILURE");
  const check = failures.at(-1)?.check;
  const is = (kind) => notices.some((it) => it.kind === kind);
  const state = is("RECEIPT") ? "receipt" : waiting.has(day) ? "parts" : check ? "failure" : is("ABSENCE") ? "absence"
    : due.has(day) ? "due" : "open";
  return { state, failures: failures.length, check };
}
