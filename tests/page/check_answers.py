"""The page's reader of answers, over those in the pages, transcripts and tests."""
from __future__ import annotations

import ast
import contextlib
import json
import re
from collections.abc import Iterator
from pathlib import Path
from typing import Any

import lib
from desks import Desk, check
from lib import TOP, Wrong, part_name

NOTICE_LINE = r" *[1-9]\d* (?:RECEIPT   |FAILURE-\d\d|ABSENCE   ) \d{4}-.* \S+ +[-0-9]+T[:0-9]+Z [a-z0-9-]+"
DUE_LINE = r"due [a-z0-9-]+ \d{4}-\d\d-\d\d|parts [a-z0-9-]+ \d{4}-\d\d-\d\d \d+ \d+"
STATE_LINE = rf"(?:registry|part|release|hold) [^$>\n]*|{NOTICE_LINE}"
# What answers of a kind look like among other lines.
ANSWERS = {
    "State": rf"^(?:registry .*\n(?:(?:{STATE_LINE})\n)*)?free \d+ of \d+\n", "Notices": rf"^(?:(?:{NOTICE_LINE})\n)+",
    "Due": rf"^(?:(?:{DUE_LINE})\n)+", "Reason": r"^FAILURE-\d\d .+\n"}
# Reads texts by the page's own module, each by the function for its kind; what is refused comes as the text of the error.
READING = """(async (texts) => {
    const read = await import("/desk/answers.js");
    const whole = (it) => it.registries ? {...it, registries: it.registries.map((one) =>
        ({tld: one.tld, first: one.first, parts: one.parts(), notices: one.notices()}))} : it;
    return texts.map(([kind, text]) => {
        try { return whole(read["read" + kind](text)); }
        catch (error) { return error instanceof Error ? String(error) : null; }
    });
})"""


def texts_of(path: Path) -> Iterator[str]:
    """The texts of a page or transcript; of a script those that its strings come to, as far as its module knows them."""
    if path.suffix != ".py":
        yield path.read_text()
        return
    names = {}
    with contextlib.suppress(Exception):
        names = vars(__import__(path.stem))
    for node in ast.walk(ast.parse(path.read_text())):
        if isinstance(node, ast.JoinedStr | ast.Constant):
            with contextlib.suppress(Exception):
                text = eval(compile(ast.Expression(node), str(path), "eval"), dict(names))
                yield text if isinstance(text, str) else ""


def answers_there() -> list[tuple[str, str]]:
    """The answers that stand in the pages and tests, each once, with its kind."""
    paths = [TOP / "README.md", *(TOP / "docs").glob("*.md"), TOP / "tests/demo/transcript",
             TOP / "crates/agent_script/stdout", *(TOP / "tests/cases").glob("*.py")]
    found = {}
    for path in sorted(paths):
        for text in texts_of(path):
            # In a transcript of a test a first line may stand behind an arrow, and others with a margin.
            text = re.sub(r"^ +(?=registry|part|due|free|release|hold|FAILURE)|^\$ .* -> ", "", text + "\n", flags=re.M)
            for kind, form in ANSWERS.items():
                found |= dict.fromkeys((kind, it) for it in re.findall(form, text, re.M))
    return list(found)


def spelled(kind: str, it: Any) -> str:
    """What was read, as the agent would print it."""
    if kind == "Reason":
        return f"FAILURE-{it['check']:02} {it['text']}\n"
    if kind == "Notices":
        return "".join(map(notice_line, it))
    if kind == "State":
        return state_text(it)
    lines = []
    for due in it["due"]:
        lines.append(f"due {due['tld']} {due['day']}\n")
        lines += [f"parts {part['tld']} {part['day']} {part['revision']} {part['count']}\n" for part in it["parts"]
                  if (part["tld"], part["day"]) == (due["tld"], due["day"])]
    return "".join(lines)


def notice_line(it: dict) -> str:
    """The line of a notice, which it also has to have as a whole."""
    verdict = f"FAILURE-{it['check']:02}" if it["kind"] == "FAILURE" else it["kind"]
    if it["kind"] == "ABSENCE" and (it["revision"], it["id"]) != (None, None) or (it["check"] is None) == ("-" in verdict):
        raise Wrong(f"null is not where a notice has nothing: {it}")
    line = lib.notice(it["number"], verdict, it["day"], it["at"], it["id"] or "-", it["revision"] or 0, it["tld"])
    return f"{line}\n" if line == it["line"] else f"{line} but its line is {it['line']}\n"


def part_line(it: dict) -> str:
    """The line of a part, which has what its name says."""
    named = part_name(it["day"], it["kind"], it["part"], it["revision"], it["tld"])
    name = it["name"] if it["name"] == named else f"{it['name']} but not {named}"
    return f"part {name} {it['length']} {'held' if it['held'] else 'dropped'} {it['at']}\n"


def state_text(it: dict) -> str:
    """A whole state."""
    lines = []
    for one in it["registries"]:
        lines.append(f"registry {one['tld']} {one['first']}\n")
        lines += [*map(part_line, one["parts"]), *map(notice_line, one["notices"])]
    for one in it["releases"]:
        lines.append(f"release {one['reference']} {one['tld']} {one['ground']} {one['at']} {one['count']}\n")
    for one in it["holds"]:
        lifted = f" lifted {one['lifted']}" if one["lifted"] is not None else ""
        lines.append(f"hold {one['reference']} {one['tld']} {one['day']} {one['at']}{lifted}\n")
    return "".join([*lines, f"free {it['free']} of {it['total']}\n"])


@check
def each_answer_in_the_pages_and_tests_is_read_as_it_is(desk: Desk) -> None:
    there = answers_there()
    there += [("State", desk.get("/state")), ("Due", desk.get("/due")), ("Notices", ""), ("Due", ""),
              *(("Notices", desk.get(f"/notices/{it}")) for it in ("alpha", "beta", "gamma"))]
    with desk.page() as page:
        came = page.evaluate(f"{READING}({json.dumps(there)})")
    for (kind, text), it in zip(there, came):
        if isinstance(it, str):
            raise Wrong(f"read{kind} refuses an answer: {it}\n{text[:2000]}")
        desk.room.equal(text.splitlines(), spelled(kind, it).splitlines(), f"what read{kind} makes of an answer")
    counts = {kind: sum(it == kind for it, _ in there) for kind in ANSWERS}
    for kind, count in counts.items():
        desk.room.true(count > 5, f"only {count} answers of the kind {kind} were found")
    lines = sum(text.count("\n") for _, text in there)
    print(f"{lines} lines of {len(there)} answers were read:", ", ".join(f"{count} of {it}" for it, count in counts.items()))


SMALL = """registry alpha 2026-08-02
part alpha_2026-08-02_full_S1_R0.ryde 1422 held 2026-08-02T10:00:00Z
part alpha_2026-08-03_diff_S1_R10.ryde 5 dropped 2026-08-03T10:00:00Z
       1 RECEIPT    2026-08-02 R00 20260802001   2026-08-02T10:05:00Z alpha
       2 FAILURE-13 2026-08-03 R10 X             2026-08-03T10:05:00Z alpha
       3 ABSENCE    2026-08-04 --- -             2026-08-05T00:05:00Z alpha
registry b-2 2026-08-04
release R-1 alpha five_failed 2026-08-04T12:00:00Z 2
hold H-1 alpha 2026-08-03 2026-08-04T12:00:00Z
hold H-2 alpha 2026-08-02 2026-08-04T12:00:00Z lifted 2026-08-05T12:00:00Z
free 5 of 7
"""
# What one column of a line of it may not be changed to.
CHANGED = (
    ("registry alpha 2026-08-02", "registry Alpha 2026-08-02", "registry alpha 2026-8-02", "registry alpha",
     "registri alpha 2026-08-02", "registry alpha 2026-08-02 "),
    ("part alpha_2026-08-02_full_S1_R0.ryde 1422 held 2026-08-02T10:00:00Z", *(
        f"part {it}" for it in (
            "alpha_2026-08-02_full_S9_R0.ryde 1422 held 2026-08-02T10:00:00Z",
            "alpha_2026-08-02_half_S1_R0.ryde 1422 held 2026-08-02T10:00:00Z",
            "alpha_2026-08-02_full_S1_R00.ryde 1422 held 2026-08-02T10:00:00Z",
            "alpha_2026-08-02_full_S1_R100.ryde 1422 held 2026-08-02T10:00:00Z",
            "alpha_2026-08-02_full_S1_R0.rydex 1422 held 2026-08-02T10:00:00Z",
            "beta_2026-08-02_full_S1_R0.ryde 1422 held 2026-08-02T10:00:00Z",
            "alpha_2026-08-02_full_S1_R0.ryde 14x2 held 2026-08-02T10:00:00Z",
            "alpha_2026-08-02_full_S1_R0.ryde -1 held 2026-08-02T10:00:00Z",
            "alpha_2026-08-02_full_S1_R0.ryde 1422 hold 2026-08-02T10:00:00Z",
            "alpha_2026-08-02_full_S1_R0.ryde 1422 held 2026-08-02 10:00:00Z",
            "alpha_2026-08-02_full_S1_R0.ryde 1422 held",
            "alpha_2026-08-02_full_S1_R0.ryde  1422 held 2026-08-02T10:00:00Z"))),
    ("       1 RECEIPT    2026-08-02 R00 20260802001   2026-08-02T10:05:00Z alpha", *(
        "      1 RECEIPT    2026-08-02 R00 20260802001   2026-08-02T10:05:00Z alpha",
        "       1 RECEIPT   2026-08-02 R00 20260802001   2026-08-02T10:05:00Z alpha",
        "       x RECEIPT    2026-08-02 R00 20260802001   2026-08-02T10:05:00Z alpha",
        "       1 RECIEPT    2026-08-02 R00 20260802001   2026-08-02T10:05:00Z alpha",
        "       1 RECEIPT    2026-08-02 R0  20260802001   2026-08-02T10:05:00Z alpha",
        "       1 RECEIPT    2026-08-02 --- 20260802001   2026-08-02T10:05:00Z alpha",
        "       1 RECEIPT    2026-08-02 R00 -             2026-08-02T10:05:00Z alpha",
        "       1 RECEIPT    2026-08-02 R00 20260802001  2026-08-02T10:05:00Z alpha",
        "       1 RECEIPT    2026-08-02 R00 20260802001   2026-08-02T10:05Z alpha",
        "       1 RECEIPT    2026-08-02 R00 20260802001   2026-08-02T10:05:00Z beta",
        "       1 RECEIPT    2026-08-02 R00 20260802001   2026-08-02T10:05:00Z")),
    ("       2 FAILURE-13 2026-08-03", "       2 FAILURE-1  2026-08-03", "       2 FAILURE    2026-08-03",
     "       2 FAILED-013 2026-08-03"),
    ("--- -             2026-08-05", "R00 -             2026-08-05", "--- X             2026-08-05"),
    ("release R-1 alpha five_failed 2026-08-04T12:00:00Z 2", "release R_1 alpha five_failed 2026-08-04T12:00:00Z 2",
     "release R-1 alpha five_failed 2026-08-04T12:00:00Z", "release R-1 alpha 2026-08-04T12:00:00Z 2",
     "release R-1 alpha five_failed 2026-08-04T12:00:00Z two", "released R-1 alpha five_failed 2026-08-04T12:00:00Z 2"),
    ("2026-08-04T12:00:00Z lifted 2026-08-05T12:00:00Z", "2026-08-04T12:00:00Z lifted",
     "2026-08-04T12:00:00Z 2026-08-05T12:00:00Z", "2026-08-04T12:00:00Z lifted 2026-08-05", "lifted 2026-08-05T12:00:00Z"),
    ("free 5 of 7", "free 5 of", "free five of 7", "free 5 of 7 blocks", "free  5 of 7", "free 5 of 7\nfree 5 of 7"),
    ("free 5 of 7\n", "free 5 of 7\n\n", "\nfree 5 of 7\n", "free 5 of 7", "free 5 of 7\r\n", "<p>free 5 of 7</p>\n"))
# Texts that are none of the other answers.
NO_ANSWERS = (
    ("Due", "due alpha 2026-8-02\n"), ("Due", "due alpha\n"), ("Due", "due alpha 2026-08-02"), ("Due", "<html>\n"),
    ("Due", "parts alpha 2026-08-02 0\n"), ("Due", "due alpha 2026-08-02 0\n"), ("Due", "Q2 registry unknown\n"),
    ("Notices", "Q2 registry unknown\n"), ("Notices", "\n"), ("Notices", SMALL), ("Reason", ""), ("Reason", "FAILURE-01\n"),
    ("Reason", "Q22 no failure\n"), ("Reason", "FAILURE-1 F1: x\n"), ("Reason", "FAILURE-01 F1: x"),
    ("Reason", "FAILURE-01 F1: x\nFAILURE-01 F1: x\n"), ("State", ""), ("State", "\n"), ("State", "C4 closed\n"))


@check
def an_answer_that_is_cut_or_changed_is_refused(desk: Desk) -> None:
    tried = [("State", SMALL[:length]) for length in range(len(SMALL))]
    tried += [("State", SMALL.replace(line, it)) for line, *others in CHANGED for it in others] + list(NO_ANSWERS)
    with desk.page() as page:
        whole, *came = page.evaluate(f"{READING}({json.dumps([('State', SMALL), *tried])})")
    desk.room.equal(SMALL, state_text(whole), "the whole answer")
    taken = [f"read{kind} takes {text[-300:]!r}" for (kind, text), it in zip(tried, came) if not isinstance(it, str)]
    desk.room.equal([], taken, "texts that are no answers")
    silent = [it for (_, text), it in zip(tried, came) if text.startswith("registry") and len(it) < 15]
    desk.room.equal([], silent, "errors that say nothing")


# Of which of these lengths are the pieces by which a state is read otherwise than as a whole.
PIECES = """(async (text, lengths) => {
    const { StateReader, readState } = await import("/desk/answers.js");
    const told = (it) => JSON.stringify([it, it.registries.map((one) =>
        [one.parts(), one.notices(), one.survey(), [...one.survey().waiting], [...one.survey().lost]])]);
    const whole = told(readState(text));
    return lengths.filter((length) => {
        const reader = new StateReader();
        for (let at = 0; at < text.length; at += length) reader.take(text.slice(at, at + length));
        return told(reader.end()) !== whole;
    });
})"""


@check
def a_state_is_read_alike_in_pieces_of_any_length(desk: Desk) -> None:
    lengths = [*range(1, 40), 1000, 4096, 65_536]
    with desk.page() as page:
        text = desk.get("/state")
        desk.room.equal(3, text.count("registry "), "the registries")
        differ = page.evaluate(f"{PIECES}({json.dumps(text)}, {lengths})")
        desk.room.equal([], differ, "the lengths of pieces by which the state is read otherwise")
