"""Deposits that are stated, and the verdict on each."""
import functools
import re

from lib import (
    DAY, FIVE, PART, PASSED, RECEIPT, TEN, Room, changed, each, explained, notice, number_of, packed, part_name, state, stated,
    transcripts)

R1, KEY = "R1,Example,292,ok\n", "R1\n"
DOMAIN = {"domain": "a.example,D1-EX,,R1,2020-01-01T00:00:00Z,2030-01-01T00:00:00Z\n", "registrar": R1}
MONDAY, TUESDAY, SUNDAY, AGAIN = "2026-08-03", "2026-08-04", "2026-08-09", part_name(revision=1)
FIRST, SECOND = map(number_of, (DAY, MONDAY))
ABSENCES = "\n".join(notice(count, "ABSENCE", day, "2026-08-05T00:00:00Z") for count, day in ((2, MONDAY), (3, TUESDAY)))
NO_FAILURE = "!1 Q22 no failure"
FAILURES = [notice(revision + 1, "FAILURE-01", DAY, FIVE, "X", revision) for revision in (0, 1)]

transcripts(__name__, f"""
== a statement of other parts is refused
$ vault d
$ escrow verify d {stated()} -> !1 Q12 parts differ
$ cp ../full {PART}; escrow put d {PART} --now {TEN} -> received {PART} 1422 {TEN}
$ escrow verify d {stated(parts=2)} -> !1 Q12 parts differ
$ escrow verify d {stated(kind="diff")} -> !1 Q9 type differs
$ escrow verify d {stated().replace("example", "other")} -> !1 Q2 registry unknown
$ escrow verify d {stated(MONDAY, at=FIVE)} -> !1 Q3 date out of range
$ escrow state d -> {state(6, f"part {PART} 1422 held {TEN}")}
== a deposit that passes has one receipt
{PASSED}
$ escrow verify d {stated()} -> {RECEIPT}
$ escrow verify d {stated(at="2026-08-03T00:00:00Z")} -> {RECEIPT}
$ escrow verify d {stated().replace(f" --now {FIVE}", "")} -> {RECEIPT}
$ escrow verify d {stated(number="X")} -> !1 Q8 already stated
$ escrow verify d {stated(revision=1)} -> !1 Q12 parts differ
$ cp {PART} {AGAIN}; escrow put d {AGAIN} --now {FIVE} -> !1 Q7 revision not due
$ escrow report d example -> {RECEIPT}
$ escrow report d other -> !1 Q2 registry unknown
$ escrow state d -> {state(6, f"part {PART} 1422 held {TEN}", RECEIPT)}
$ escrow audit d -> sound 1
== a deposit that fails is sent again as the next revision
$ vault d
$ echo -n hello > {PART}; escrow put d {PART} --now {TEN} -> received {PART} 5 {TEN}
$ escrow verify d {stated(number="X")} -> {FAILURES[0]}
$ escrow verify d {stated(number="X")} -> {FAILURES[0]}
$ name={part_name(part=2)}; cp {PART} $name; escrow put d $name --now {FIVE} -> !1 Q8 already stated
$ cp {PART} {AGAIN}; escrow put d {AGAIN} --now {FIVE} -> received {AGAIN} 5 {FIVE}
$ escrow verify d {stated(number="X", revision=1)} -> {FAILURES[1]}
$ escrow state d -> {state(5, f"part {PART} 5 held {TEN}", f"part {AGAIN} 5 held {FIVE}", *FAILURES)}
== a day without a deposit has one absence
{PASSED}
$ escrow sweep d --now 2026-08-05T00:00:00Z -> {ABSENCES}
$ escrow sweep d --now 2026-08-05T00:00:00Z
$ escrow register d later --first 2026-08-06 -> registered later 2026-08-06
$ escrow sweep d --now 2026-08-05T23:59:59Z
$ escrow report d example -> {RECEIPT}
{ABSENCES}
== a preview is of the statement and records nothing
$ vault d
$ escrow preview d {stated()} -> !1 Q12 parts differ
$ cp ../full {PART}; escrow put d {PART} --now {TEN} -> received {PART} 1422 {TEN}
$ escrow state d > before
$ escrow preview d {stated(number="X")} -> {notice(0, "FAILURE-04", DAY, FIVE, "X")}
$ escrow preview d {stated()} -> {RECEIPT.replace("1", "0", 1)}
$ escrow preview d {stated().replace("example", "other")} -> !1 Q2 registry unknown
$ escrow preview d {stated(kind="diff")} -> !1 Q9 type differs
$ escrow state d | cmp before -
$ escrow verify d {stated()} -> {RECEIPT}
$ escrow preview d {stated(at="2026-08-03T00:00:00Z")} -> {RECEIPT.replace("1", "0", 1)}
$ escrow preview d {stated(number="X")} -> !1 Q8 already stated
== the days that a sweep would record are listed with the parts that wait
$ vault d
$ escrow due d --now 2026-08-02T23:59:59Z
$ cp ../full {PART}; escrow put d {PART} --now {TEN} -> received {PART} 1422 {TEN}
$ escrow state d > before
$ escrow due d --now 2026-08-04T00:00:00Z -> due example {DAY}
parts example {DAY} 0 1
due example {MONDAY}
$ escrow state d | cmp before -
$ escrow verify d {stated()} -> {RECEIPT}
$ escrow register d a --first {TUESDAY} -> registered a {TUESDAY}
$ escrow due d --now 2026-08-05T00:00:00Z -> due a {TUESDAY}
due example {MONDAY}
due example {TUESDAY}
$ escrow sweep d --now 2026-08-05T00:00:00Z -> {notice(1, "ABSENCE", TUESDAY, "2026-08-05T00:00:00Z", tld="a")}
{ABSENCES}
$ escrow due d --now 2026-08-05T00:00:00Z
== a sweep of more absences than it may record records none
{PASSED}
$ escrow state d > before
$ escrow sweep d --at-most 1 --now 2026-08-05T00:00:00Z -> !1 Q23 too many absences: 2
$ escrow sweep d --at-most 0 --now 2036-01-01T00:00:00Z -> !1 Q23 too many absences: 3438
$ escrow state d | cmp before -
$ escrow sweep d --at-most 2 --now 2026-08-05T00:00:00Z -> {ABSENCES}
$ escrow sweep d --at-most 0 --now 2026-08-05T00:00:00Z""")


def sent(kind: str, verdict: str, day: str, previous: str = "", rows: str = "", keys: str = "", **others) -> tuple:
    """A deposit of `in_this_order` with these registrars and deleted keys, packed behind those that passed; where none did,
    behind one without rows. Then it has `others` (see `changed`)."""
    def make(passed: list[bytes]) -> bytes:
        after = {"full": [], "incr": passed[:1] or [packed()], "diff": passed or [packed()]}[kind]
        made = packed(kind, day, tables={"registrar": rows} if rows else {}, deletes={"registrar": keys} if keys else {},
                      after=after, previous=previous)
        return changed(made, **others) if others else made
    return kind, verdict, day, make


def on_a_sunday(kind: str) -> tuple:
    """One of `in_this_order` that was packed for a Monday."""
    return kind, "FAILURE-05", SUNDAY, lambda passed: changed(
        packed(kind, MONDAY, after=passed, previous=FIRST), watermark=f"{SUNDAY}T00:00:00Z", id=number_of(SUNDAY))


def of_a_domain(verdict: str, **others) -> tuple:
    """A full one with a domain and its registrar, and then with `others`."""
    return "full", verdict, DAY, lambda passed: changed(packed(tables=DOMAIN), **others)


full, diff, incr = (functools.partial(sent, kind) for kind in ("full", "diff", "incr"))
FULL, INCR, DIFF_R1 = full("RECEIPT", DAY), incr("RECEIPT", MONDAY), diff("RECEIPT", MONDAY, FIRST, R1)
LOST = diff("!3 C5 damaged H8", TUESDAY, SECOND)
SPOIL_FULL, SPOIL_DIFF = (f"$ printf x | dd of=d/vault.vol bs=4096 seek={it} conv=notrunc status=none" for it in (1, 2))
NONE, ONE = (0, 0, 0, 0), (0, 0, 0, 1)


@each((
    ("a deposit that is cut short fails", ("full", "FAILURE-01", DAY, lambda passed: packed()[:1000])),
    ("an envelope with a space fails", (
        "full", "FAILURE-02", DAY, lambda passed: packed().replace(b"1408\n{", b"1409\n{ "))),
    ("a deposit with a row without a line feed fails", of_a_domain("FAILURE-10", tables={"registrar": R1[:-1].encode()})),
    ("a deposit with a wrong count fails", of_a_domain("FAILURE-11", counts=(0, 2, 0, 1))),
    ("a deposit without registrars fails", of_a_domain("FAILURE-12", counts=(0, 1, 0, 0), tables={"registrar": b""})),
    ("a differential deposit names the one before it", FULL, diff("RECEIPT", MONDAY, FIRST)),
    ("a differential deposit that names another one fails", FULL, diff("FAILURE-06", MONDAY, "X")),
    ("a differential deposit on a Sunday fails", FULL, on_a_sunday("diff")),
    ("a differential deposit counts its rows", FULL, DIFF_R1),
    ("a differential deposit that does not count its rows fails", FULL, diff("FAILURE-11", MONDAY, FIRST, R1, counts=NONE)),
    ("an incremental deposit names the full one", FULL, incr("RECEIPT", MONDAY, FIRST)),
    ("an incremental deposit need not name the full one", FULL, INCR),
    ("an incremental deposit that names another one fails", FULL, incr("FAILURE-06", MONDAY, "X")),
    ("an incremental deposit on a Sunday fails", FULL, on_a_sunday("incr")),
    ("nothing follows where no full deposit passed", diff("FAILURE-06", MONDAY, "X"), incr("FAILURE-06", TUESDAY)),
    ("an incremental deposit does not follow another one", FULL, INCR, incr("FAILURE-06", TUESDAY, SECOND)),
    ("a differential deposit follows an incremental one", FULL, INCR,
     diff("RECEIPT", TUESDAY, SECOND), incr("RECEIPT", "2026-08-05", FIRST)),
    ("a differential deposit counts the keys before it", FULL, DIFF_R1, diff("RECEIPT", TUESDAY, SECOND)),
    ("a differential deposit that does not count them fails", FULL, DIFF_R1, diff("FAILURE-11", TUESDAY, SECOND, counts=NONE)),
    ("a differential deposit counts no deleted key", FULL, DIFF_R1, diff("RECEIPT", TUESDAY, SECOND, "", KEY)),
    ("a differential deposit that counts one fails", FULL, DIFF_R1, diff("FAILURE-11", TUESDAY, SECOND, "", KEY, counts=ONE)),
    ("a differential deposit counts a deleted key with a row", FULL, DIFF_R1, diff("RECEIPT", TUESDAY, SECOND, R1, KEY)),
    ("an incremental deposit counts no key of a differential one", FULL, DIFF_R1, incr("RECEIPT", TUESDAY, FIRST)),
    ("an incremental deposit that counts such a key fails", FULL, DIFF_R1, incr("FAILURE-11", TUESDAY, FIRST, counts=ONE)),
    ("a differential deposit behind a spoiled full one has no verdict", FULL, DIFF_R1, (*LOST, SPOIL_FULL)),
    ("a differential deposit behind a spoiled differential one has no verdict", FULL, DIFF_R1, (*LOST, SPOIL_DIFF)),
    ("an incremental deposit reads no differential one", FULL, DIFF_R1, (*incr("RECEIPT", TUESDAY, FIRST), SPOIL_DIFF)),
    ("no day before one that passed is verified", full("RECEIPT", MONDAY), (
        "full", "!1 Q13 later day passed", DAY, lambda passed: b"x"))))
def in_this_order(room: Room, *deposits: tuple) -> None:
    """Puts and states deposits: the kind, verdict or error and day of each, what makes its bytes, and commands between."""
    room.plays("$ vault d")
    notices, passed = [], []
    for kind, verdict, day, make, *commands in deposits:
        name, put, at, content = part_name(day, kind), f"{day}T10:00:00Z", f"{day}T10:05:00Z", make(passed)
        room.put("d", name, content, put)
        told = verdict
        if not verdict.startswith("!"):
            passed += [content] * (verdict == "RECEIPT")
            told, verdict = (notice(it, verdict, day, at, number_of(day)) for it in (0, len(notices) + 1))
        reported = ["$ escrow report d example", *notices]
        notices += [] if verdict.startswith("!") else [verdict]
        failure = re.search(r"FAILURE-\d\d", verdict)
        room.plays("\n".join((*commands, f"$ escrow state d | grep {name} -> part {name} {len(content)} held {put}",
                              f"$ escrow preview d {stated(day, kind, at)} -> {told}", *reported,
                              f"$ escrow verify d {stated(day, kind, at)} -> {verdict}",
                              f"$ escrow explain d {explained(day)} | cut -d ' ' -f 1 -> {failure[0] if failure else NO_FAILURE}",
                              "$ escrow report d example", *notices)))
