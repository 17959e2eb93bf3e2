// The agent's answers, read from their lines: docs/FORMATS.md, "Words and lines of the programs".
//
// The state of a large vault has a million lines. It is taken in pieces as they come: a registry surveys its lines for the
// overview as soon as it is whole, and reads a line when its day is shown.

const DAY = "\\d{4}-\\d{2}-\\d{2}";
const MOMENT = `${DAY}T\\d{2}:\\d{2}:\\d{2}Z`;
const TLD = "[a-z0-9-]{1,63}";
const REFERENCE = "[A-Za-z0-9-]{1,32}";
const NUMBER = "0|[1-9]\\d*";

const form = (text) => new RegExp(`^${text}$`);
const REGISTRY = form(`registry (?<tld>${TLD}) (?<first>${DAY})`);
const NAME = `(?<tld>${TLD})_(?<day>${DAY})_(?<kind>full|diff|incr)_S(?<part>[1-8])_R(?<revision>0|[1-9]\\d?)\\.ryde`;
const PART = form(`part (?<name>${NAME}) (?<length>[1-9]\\d*) (?<is>held|dropped) (?<at>${MOMENT})`);
// The number of a notice has 8 places or more, the id of its deposit 13.
const KINDS = "RECEIPT {3}|FAILURE-(?<check>\\d\\d)|ABSENCE {3}";
const NOTICE = form(`(?=[ \\d]{7,18}\\d ) *(?<number>[1-9]\\d*) (?<kind>${KINDS}) (?<day>${DAY})`
  + ` (?:R(?<revision>\\d\\d)|---) (?=.{13} \\d)(?<id>[A-Za-z0-9]+|-) +(?<at>${MOMENT}) (?<tld>${TLD})`);
const RELEASE = form(
  `release (?<reference>${REFERENCE}) (?<tld>${TLD}) (?<ground>[a-z_]+) (?<at>${MOMENT}) (?<count>${NUMBER})`);
const HOLD = form(
  `hold (?<reference>${REFERENCE}) (?<tld>${TLD}) (?<day>${DAY}) (?<at>${MOMENT})(?: lifted (?<lifted>${MOMENT}))?`);
const FREE = form(`free (?<free>${NUMBER}) of (?<total>${NUMBER})`);
const DUE = form(`due (?<tld>${TLD}) (?<day>${DAY})`);
const WAITING = form(`parts (?<tld>${TLD}) (?<day>${DAY}) (?<revision>${NUMBER}) (?<count>${NUMBER})`);
const REASON = form("FAILURE-(?<check>\\d\\d) (?<text>.+)");

/** A text that is no answer: what it lacks, or the line that is out of form. */
export class AnswerError extends Error {}

const outOfForm = (line) => new AnswerError(`a line is out of form: ${line.slice(0, 120)}`);

/** What a line of this form has, by the names of the form. */
function fields(form, line) {
  const found = form.exec(line);
  if (!found) throw outOfForm(line);
  return found.groups;
}

/** The lines of an answer, each of which ends with a line feed. */
function linesOf(text) {
  if (text === "") return [];
  if (!text.endsWith("\n")) throw new AnswerError("the answer ends within a line");
  return text.slice(0, -1).split("\n");
}

function readPart(line) {
  const { part, revision, length, is, ...others } = fields(PART, line);
  return { ...others, part: Number(part), revision: Number(revision), length: Number(length), held: is === "held" };
}

function readNotice(line) {
  const { number, kind, check, day, revision, id, at, tld } = fields(NOTICE, line);
  const isAbsence = kind.startsWith("ABSENCE");
  if (isAbsence !== (revision === undefined) || isAbsence !== (id === "-")) throw outOfForm(line);
  return {
    number: Number(number), kind: kind.slice(0, 7), check: check === undefined ? null : Number(check), day,
    revision: isAbsence ? null : Number(revision), id: isAbsence ? null : id, at, tld, line,
  };
}

/** The notices of an answer of GET /notices/{tld}. */
export function readNotices(text) {
  return linesOf(text).map(readNotice);
}

/** The days of an answer of GET /due, and the held parts of these days. */
export function readDue(text) {
  const due = [], parts = [];
  for (const line of linesOf(text)) {
    if (line.startsWith("parts ")) {
      const { tld, day, revision, count } = fields(WAITING, line);
      parts.push({ tld, day, revision: Number(revision), count: Number(count) });
    } else {
      due.push({ ...fields(DUE, line) });
    }
  }
  return { due, parts };
}

/** The check of an answer of GET /reasons/.., the text behind it, and the line of both. */
export function readReason(text) {
  const lines = linesOf(text);
  if (lines.length !== 1) throw new AnswerError(`a reason has one line, not ${lines.length}`);
  const { check, text: reason } = fields(REASON, lines[0]);
  return { check: Number(check), text: reason, line: lines[0] };
}

/** Whether a release lists a part, by the line that refuses its bytes: those of a part that it lists may be dropped. */
export function readListing(line) {
  return line.startsWith("Q6 ") ? "yes" : line.startsWith("Q18 ") ? "no" : "unknown";
}

// How far before the end of its line a part's `held` begins, and a notice's kind, without the top-level domain.
const HELD = "held 2026-08-02T10:05:00Z".length;
const KIND = "RECEIPT    2026-08-02 R00 20260802001   2026-08-02T10:05:00Z ".length;

/** What the overview needs of the line of a held part, by its places; its form is looked at when the part is shown. */
function glance(text, start, end, tld) {
  const day = start + "part _".length + tld.length, length = text.lastIndexOf(" ", end - HELD - 2) + 1;
  const name = length - ".ryde ".length, revision = text[name - 2] === "R" ? name - 1 : name - 2;
  return {
    day: text.slice(day, day + 10), revision: text.slice(revision, name),
    length: Number(text.slice(length, end - HELD - 1)), at: text.slice(end - HELD + "held ".length, end),
  };
}

/** A registry: the line that names it, those of its parts by day, and those of its notices by number. */
class Registry {
  #lines;
  #days;
  #survey;

  /** @param {string} text the lines, each with its line feed */
  constructor(text) {
    const end = text.indexOf("\n");
    Object.assign(this, fields(REGISTRY, text.slice(0, end)), { text });
    this.#lines = text.slice(end);
  }

  /** The parts and notices of a day. */
  on(day) {
    const { parts, notices } = this.#byDay().get(day) ?? { parts: [], notices: [] };
    const own = (read) => (line) => this.#own(read(line));
    return { parts: parts.map(own(readPart)), notices: notices.map(own(readNotice)) };
  }

  parts() {
    return [...this.#byDay().keys()].flatMap((day) => this.on(day).parts);
  }

  notices() {
    const all = [...this.#byDay().keys()].flatMap((day) => this.on(day).notices);
    return all.sort((a, b) => a.number - b.number);
  }

  /**
   * What the overview needs, by one pass that looks at a few places of each line: the day of the last receipt or null
   * (receipts are numbered in the order of their days); the losses, which are failures and absences, by number; the days of
   * losses that no later receipt made good; the length and moment of each held part; and the days with held parts of a
   * revision that no notice is about, with that revision.
   */
  survey() {
    return this.#survey ??= this.#glances();
  }

  #glances() {
    const text = this.#lines, losses = [], held = [], lost = new Set(), revisions = new Map();
    // The last receipt; the day of the first held part, and the last day that is lost: they spare most look-ups.
    let receipt = null, earliest = "~", latest = "";
    for (let start = 1, end; (end = text.indexOf("\n", start)) >= 0; start = end + 1) {
      if (text[start] === "p") {
        if (text[end - HELD] !== "h") continue;
        const { day, revision, length, at } = glance(text, start, end, this.tld);
        held.push({ length, at });
        revisions.set(`${day} R${revision.padStart(2, "0")}`, Number(revision));
        if (day < earliest) earliest = day;
        continue;
      }
      const kind = end - this.tld.length - KIND, day = text.slice(kind + 11, kind + 21);
      if (day >= earliest) revisions.delete(text.slice(kind + 11, kind + 25));
      if (text[kind] === "R") {
        receipt = day;
        if (day <= latest) lost.delete(day);
      } else {
        losses.push(readNotice(text.slice(start, end)));
        lost.add(day);
        if (day > latest) latest = day;
      }
    }
    const waiting = new Map([...revisions].map(([key, revision]) => [key.slice(0, 10), revision]));
    return { lastReceipt: receipt, losses, lost, held, waiting };
  }

  /** The lines of the parts and notices, by their days. */
  #byDay() {
    if (this.#days) return this.#days;
    this.#days = new Map();
    for (const line of linesOf(this.#lines.slice(1))) {
      const isPart = line.startsWith("part "), at = isPart ? "part _".length : line.length - KIND + "RECEIPT    ".length;
      const start = isPart ? at + this.tld.length : at - this.tld.length, day = line.slice(start, start + 10);
      if (!this.#days.has(day)) this.#days.set(day, { parts: [], notices: [] });
      this.#days.get(day)[isPart ? "parts" : "notices"].push(line);
    }
    return this.#days;
  }

  /** A part or notice, if it is of this registry. */
  #own(it) {
    if (it.tld !== this.tld) throw new AnswerError(`among the lines of ${this.tld} is one of ${it.tld}`);
    return it;
  }
}

/** The offset of the first line of a state that is of no registry. */
function tailOf(text) {
  for (let end = text.length; ;) {
    const start = text.lastIndexOf("\n", end - 2) + 1;
    if (!/^(?:release|hold|free) /.test(text.slice(start, start + 8))) return end;
    if (start === 0) return 0;
    end = start;
  }
}

/** The releases, the holds and the free blocks, by the lines behind the registries, of which the last has the blocks. */
function readTail(text) {
  const lines = linesOf(text);
  if (!lines.length || !lines.at(-1).startsWith("free ")) throw new AnswerError("the answer has been cut");
  const { free, total } = fields(FREE, lines.pop());
  const releases = lines.filter((line) => line.startsWith("release ")).map((line) => {
    const { count, ...release } = fields(RELEASE, line);
    return { ...release, count: Number(count) };
  });
  const holds = lines.slice(releases.length).map((line) => {
    const { lifted = null, ...hold } = fields(HOLD, line);
    return { ...hold, lifted };
  });
  return { releases, holds, free: Number(free), total: Number(total) };
}

// Where a registry ends, but for the first character.
const NEXT = "\nregistry ";

/** Reads the answer of GET /state from its pieces. Its last line has the free blocks: without it the answer was cut. */
export class StateReader {
  #registries = [];
  // The pieces of the registry that has not ended, and what may be the beginning of the end.
  #pieces = [];
  #carry = "";

  take(piece) {
    const text = this.#carry + piece;
    let from = 0;
    for (let at = text.indexOf(NEXT); at >= 0; at = text.indexOf(NEXT, at + 1)) {
      this.#end(text.slice(from, at + 1));
      from = at + 1;
    }
    const whole = Math.max(from, text.length - NEXT.length + 1);
    this.#pieces.push(text.slice(from, whole));
    this.#carry = text.slice(whole);
  }

  /** The state, with the texts that it was read from. */
  end() {
    const rest = this.#pieces.join("") + this.#carry, tail = tailOf(rest);
    this.#pieces = [];
    if (tail > 0) this.#end(rest.slice(0, tail));
    const registries = this.#registries, last = rest.slice(tail);
    return { registries, ...readTail(last), texts: [...registries.map(({ text }) => text), last] };
  }

  /** Ends a registry with the last piece of its text. */
  #end(piece) {
    const registry = new Registry(this.#pieces.join("") + piece);
    registry.survey();
    this.#registries.push(registry);
    this.#pieces = [];
  }
}

/** The answer of GET /state. */
export function readState(text) {
  const reader = new StateReader();
  reader.take(text);
  return reader.end();
}
