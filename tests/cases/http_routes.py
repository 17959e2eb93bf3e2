"""The routes, asked by curl: what each does, what it refuses, and its responses byte for byte."""
import hashlib
from pathlib import Path

from lib import DAY, DIGEST, EXPLAINED, PART, TEN, Room, case, each, explained, notice, part_name, state, stated, statement

EARLIER, LATER, FIFTH = part_name("2026-08-01", "diff"), part_name("2026-08-05"), "2026-08-05T00:00:00Z"
SECOND, REVISION = part_name(part=2), part_name(revision=1)
# Files that requests send and fetch: `routes` makes them.
HELLO, FULL, LARGE, LONGER = Path("hello"), Path("../full"), Path("large"), Path("longer")
GROUND, HOLD = '{"ground":"operator","tld":"example"}', f'{{"date":"{DAY}","tld":"example"}}'
OTHER_ORDER = f'{{"tld":"example","revision":0,"parts":1,"kind":"full","id":"X","date":"{DAY}"}}'
RECEIPT, FAILURE = notice(1, "RECEIPT", DAY, TEN, "20260802001"), notice(1, "FAILURE-01", DAY, TEN, "X")
RELEASED = f"released R-1 example operator {TEN} 2\n{EARLIER}\n{PART}"
KEPT = [f"part {EARLIER} 5 held {TEN}", f"part {PART} 1422 held {TEN}"]
ABSENCES = [notice(number, "ABSENCE", f"2026-08-0{day}", FIFTH) for number, day in ((2, 3), (3, 4), (4, 1))]
REPORT = "\n".join([RECEIPT, *ABSENCES])
DUE = "due example 2026-08-01\nparts example 2026-08-01 0 1\ndue example 2026-08-03\ndue example 2026-08-04"
DIGESTS = f"{hashlib.sha256(b'hello').hexdigest()}  {EARLIER}\n{DIGEST}  {PART}"

# A vault of a registry with a part of its first day and a deposit of the next; that nothing has changed in it; its receipt.
BEGUN = f"""$ vault d 8 2026-08-01
$ echo -n hello > {EARLIER}; escrow put d {EARLIER} --now {TEN} -> received {EARLIER} 5 {TEN}
$ cp ../full {PART}; escrow put d {PART} --now {TEN} -> received {PART} 1422 {TEN}
$ escrow state d > before"""
UNCHANGED = "$ escrow state d | diff before -"
STATED = f"""{BEGUN}
$ escrow verify d {stated(at=TEN)} -> {RECEIPT}"""

# The title of a case; what is played before; the moment and the requests; what is played then.
ROUTES = (
    ("a registry is made and parts are received", "$ vault d 8 2026-08-01", TEN, (
        ("PUT /registries/other", '{"first":"2026-08-01"}', 201, "registered other 2026-08-01"),
        ("PUT /registries/other", '{ "first" : "2026-08-03" }', 200, "registered other 2026-08-01"),
        (f"PUT /deposits/{EARLIER}", HELLO, 201, f"received {EARLIER} 5 {TEN}"),
        (f"PUT /deposits/{EARLIER}", "hello", 200, f"received {EARLIER} 5 {TEN}"),
        (f"PUT /deposits/{EARLIER}", "hellp", 409, "Q5 other bytes under this name"),
        (f"PUT /deposits/{PART}", FULL, 201, f"received {PART} 1422 {TEN}"),
        (f"PUT /deposits/{PART}", FULL, 200, f"received {PART} 1422 {TEN}"),
        (f"PUT /deposits/{PART}", FULL, 200, f"received {PART} 1422 {TEN}", "-0")),
        f"$ escrow state d -> {state(5, *KEPT, 'registry other 2026-08-01', first='2026-08-01')}"),
    ("a refusal names its reason and changes nothing", BEGUN, TEN, (
        ("PUT /deposits/x.txt", HELLO, 400, "Q1 N1 name refused"),
        ("PUT /deposits/-a_2026-08-02_full_S1_R0.ryde", HELLO, 400, "Q1 N2 name refused"),
        ("PUT /deposits/example_2026-02-29_full_S1_R0.ryde", HELLO, 400, "Q1 N3 name refused"),
        ("PUT /deposits/example_2026-08-02_part_S1_R0.ryde", HELLO, 400, "Q1 N4 name refused"),
        ("PUT /deposits/example_2026-08-02_full_S9_R0.ryde", HELLO, 400, "Q1 N5 name refused"),
        ("PUT /deposits/example_2026-08-02_full_S1_R01.ryde", HELLO, 400, "Q1 N6 name refused"),
        ("PUT /deposits/example_2026-08-02_full_S1.ryde", HELLO, 400, "Q1 N7 name refused"),
        ("PUT /deposits/other_2026-08-02_full_S1_R0.ryde", HELLO, 404, "Q2 registry unknown"),
        ("PUT /deposits/example_2026-08-03_full_S1_R0.ryde", HELLO, 409, "Q3 date out of range"),
        (f"PUT /deposits/{SECOND}", "", 413, "Q4 size"),
        (f"PUT /deposits/{PART}", HELLO, 409, "Q5 other bytes under this name"),
        (f"PUT /deposits/{REVISION}", HELLO, 409, "Q7 revision not due"),
        ("PUT /deposits/example_2026-08-02_diff_S2_R0.ryde", HELLO, 409, "Q9 type differs"),
        ("PUT /deposits/example_2026-08-02_full_S3_R0.ryde", HELLO, 409, "Q10 part out of order"),
        (f"PUT /deposits/{SECOND}", LARGE, 507, "Q11 volume full"),
        ("GET /notices/example", None, 200, ""),
        ("GET /notices/other", None, 404, "Q2 registry unknown"),
        ("POST /statements", statement(tld="other"), 404, "Q2 registry unknown"),
        ("POST /statements", statement(kind="diff"), 409, "Q9 type differs"),
        ("POST /statements", statement(parts=2), 409, "Q12 parts differ"),
        (f"POST /checks/example/{DAY}", "", 409, "Q14 not yet due"),
        ("PUT /releases/R-1", GROUND.replace("operator", "sunday_failed"), 409, "Q16 ground does not stand"),
        (f"GET /releases/R-1/{PART}", None, 404, "Q19 release unknown")), UNCHANGED),
    ("a deposit is stated and released", BEGUN, TEN, (
        ("POST /statements", statement(), 201, RECEIPT),
        ("POST /statements", statement(), 200, RECEIPT),
        ("POST /statements", statement(number="X"), 409, "Q8 already stated"),
        ("POST /statements", statement("2026-08-01", "X", "diff"), 409, "Q13 later day passed"),
        ("GET /notices/example", None, 200, RECEIPT),
        ("PUT /releases/R-1", GROUND.replace("example", "other"), 404, "Q2 registry unknown"),
        ("PUT /releases/R-1", GROUND, 201, RELEASED),
        ("PUT /releases/R-1", GROUND, 200, RELEASED),
        ("PUT /releases/R-1", GROUND.replace("operator", "audit"), 409, "Q17 reference used"),
        ("GET /releases/R-1/x", None, 404, "Q18 not in release"),
        (f"GET /releases/R-1/{PART}", None, 200, FULL),
        (f"GET /releases/R-1/{EARLIER}", None, 200, b"hello")), ""),
    ("a revision follows a failure", f"""$ vault d 300
$ echo -n hello > {PART}; escrow put d {PART} --now {TEN} -> received {PART} 5 {TEN}""", TEN, (
        ("POST /statements", OTHER_ORDER, 201, FAILURE),
        (f"PUT /deposits/{SECOND}", "hello", 409, "Q8 already stated"),
        ("GET /notices/example", None, 200, FAILURE),
        (f"GET /reasons/example/{DAY}/0", None, 200, EXPLAINED),
        (f"PUT /deposits/{REVISION}", LARGE, 201, f"received {REVISION} 1048576 {TEN}"),
        ("PUT /releases/R-1", GROUND, 201, f"released R-1 example operator {TEN} 2\n{PART}\n{REVISION}"),
        (f"GET /releases/R-1/{REVISION}", None, 200, b"a" * 1_048_576),
        (f"GET /reasons/example/{DAY}/1", None, 404, "Q22 no failure")), "$ escrow state d -> " + state(
            42, f"part {PART} 5 held {TEN}", f"part {REVISION} 1048576 held {TEN}", FAILURE,
            f"release R-1 example operator {TEN} 2", blocks=300)),
    ("a failure is explained", f"""$ vault d
$ echo -n hello > {PART}; escrow put d {PART} --now {TEN} -> received {PART} 5 {TEN}""", "2027-08-03T00:00:00Z", (
        (f"GET /reasons/example/{DAY}/0", None, 404, "Q22 no failure"),
        ("POST /statements", statement(number="X"), 201, notice(1, "FAILURE-01", DAY, "2027-08-03T00:00:00Z", "X")),
        (f"GET /reasons/example/{DAY}/0", None, 200, EXPLAINED),
        (f"GET /reasons/example/{DAY}/1", None, 404, "Q22 no failure"),
        (f"GET /reasons/example/{DAY}/99", None, 404, "Q22 no failure"),
        ("GET /reasons/example/2026-08-03/0", None, 404, "Q22 no failure"),
        (f"GET /reasons/other/{DAY}/0", None, 404, "Q2 registry unknown"),
        ("POST /purges", "", 200, "dropped 1"),
        (f"GET /reasons/other/{DAY}/0", None, 404, "Q2 registry unknown"),
        (f"GET /reasons/example/{DAY}/1", None, 404, "Q22 no failure"),
        (f"GET /reasons/example/{DAY}/0", None, 410, "Q6 dropped after keeping")),
        f"$ escrow explain d {explained()} -> !1 Q6 dropped after keeping"),
    ("a day is on hold until the hold is lifted", "$ vault d", TEN, (
        ("PUT /holds/H-1", HOLD, 201, f"held H-1 example {DAY} {TEN}"),
        ("PUT /holds/H-1", HOLD, 200, f"held H-1 example {DAY} {TEN}"),
        ("PUT /holds/H-1", HOLD.replace("08-02", "08-03"), 409, "Q3 date out of range"),
        ("POST /lifts/H-1", "", 201, f"lifted H-1 {TEN}"),
        ("POST /lifts/H-1", "", 200, f"lifted H-1 {TEN}"),
        ("POST /lifts/H-2", "", 404, "Q21 hold unknown")),
        f"$ escrow state d -> {state(7, f'hold H-1 example {DAY} {TEN} lifted {TEN}')}"),
    ("a day without a deposit gets an absence", STATED, FIFTH, (
        ("POST /checks/other/2026-08-03", "", 404, "Q2 registry unknown"),
        ("POST /checks/example/2026-07-31", "", 409, "Q3 date out of range"),
        ("POST /checks/example/2026-08-05", "", 409, "Q14 not yet due"),
        (f"POST /checks/example/{DAY}", "", 409, "Q15 day has a verdict"),
        ("POST /checks/example/2026-08-03", "", 201, ABSENCES[0]),
        ("POST /checks/example/2026-08-03", "", 200, ABSENCES[0]),
        ("POST /checks/example/2026-08-04", "", 201, ABSENCES[1]),
        ("POST /checks/example/2026-08-01", "", 201, ABSENCES[2]),
        ("GET /notices/example", None, 200, REPORT)), f"$ escrow report d example -> {REPORT}"),
    ("what is due and what was received is read", STATED, FIFTH, (
        ("GET /due", None, 200, DUE),
        ("GET /digests/example", None, 200, DIGESTS),
        ("GET /digests/other", None, 404, "Q2 registry unknown"),
        ("GET /state", None, 200, state(5, *KEPT, RECEIPT, first="2026-08-01")),
        ("POST /checks/example/2026-08-03", "", 201, ABSENCES[0]),
        ("GET /due", None, 200, DUE.replace("due example 2026-08-03\n", "")),
        ("GET /state", None, 200, state(5, *KEPT, RECEIPT, ABSENCES[0], first="2026-08-01"))), ""),
    ("a purge drops what was kept for a year", f"""{STATED}
$ escrow release d R-1 example operator --now {TEN} -> {RELEASED}
$ cp {EARLIER} {LATER}; escrow put d {LATER} --now {FIFTH} -> received {LATER} 5 {FIFTH}""", "2027-08-05T23:59:59Z", (
        ("POST /purges", "", 200, "dropped 2"),
        ("POST /purges", "", 200, "dropped 0"),
        (f"PUT /deposits/{PART}", FULL, 410, "Q6 dropped after keeping"),
        (f"GET /releases/R-1/{PART}", None, 410, "Q6 dropped after keeping"),
        ("POST /statements", statement("2026-08-01", "X", "diff"), 410, "Q6 dropped after keeping"),
        ("POST /statements", statement(), 200, RECEIPT),
        ("PUT /releases/R-1", GROUND, 200, RELEASED)), "$ escrow state d -> " + state(
            6, *(it.replace("held", "dropped") for it in KEPT), f"part {LATER} 5 held {FIFTH}", RECEIPT,
            f"release R-1 example operator {TEN} 2", first="2026-08-01")))


@each(ROUTES, "curl")
def routes(room: Room, before: str, now: str, rows: tuple[tuple, ...], after: str, **how) -> None:
    for path, size in ((LARGE, 1_048_576), (LONGER, 1_048_577)):
        room.file(str(path), b"a" * size)
    room.file(str(HELLO), "hello")
    room.plays(before)
    room.asks("d", rows, now, **how)
    room.plays(after)


@case("curl")
def what_is_read_is_what_the_program_prints(room: Room) -> None:
    room.plays(STATED)
    commands = {"/state": "state d", "/due": f"due d --now {FIFTH}", "/digests/example": "digests d example"}
    printed = {path: room.run(f"escrow {words}").out for path, words in commands.items()}
    room.asks("d", [(f"GET {path}", None, 200, text.decode().removesuffix("\n")) for path, text in printed.items()], FIFTH)
    room.equal(printed["/state"], room.run("escrow state d").out, "the state")
