"""Why a deposit has failed, as `explain` prints it: by its bytes, and by what was known when it was stated."""
import reasons
from lib import (
    DAY, EXPLAINED, FIVE, PART, PASSED, TEN, Room, case, changed, explained, notice, number_of, packed, part_name, request,
    response, stated, transcripts)

MONDAY, TUESDAY, YEAR_AFTER, FIRST = "2026-08-03", "2026-08-04", "2027-08-03T00:00:00Z", number_of(DAY)
FAILURE, ABSENCE = notice(1, "FAILURE-01", DAY, FIVE, "X"), notice(2, "ABSENCE", MONDAY, f"{TUESDAY}T00:00:00Z")
# Makes a vault whose first deposit has failed.
FAILED = f"""$ vault d
$ echo -n hello > {PART}; escrow put d {PART} --now {TEN} -> received {PART} 5 {TEN}
$ escrow verify d {stated(number="X")} -> {FAILURE}"""

transcripts(__name__, f"""
== a failure is explained by one line and nothing changes
{FAILED}
$ sha256sum d/vault.vol d/custody.db > digests
$ escrow explain d {explained()} -> {EXPLAINED}
$ escrow explain d {explained()} -> {EXPLAINED}
$ sha256sum -c --quiet digests
$ escrow report d example -> {FAILURE}
$ escrow audit d -> sound 1
== without a failure there is nothing to explain
{PASSED}
$ escrow sweep d --now {TUESDAY}T00:00:00Z -> {ABSENCE}
$ sha256sum d/vault.vol d/custody.db > digests
$ escrow explain d {explained(tld="other")} -> !1 Q2 registry unknown
$ escrow explain d {explained()} -> !1 Q22 no failure
$ escrow explain d {explained(MONDAY)} -> !1 Q22 no failure
$ escrow explain d {explained(TUESDAY)} -> !1 Q22 no failure
$ escrow explain d {explained(revision=1)} -> !1 Q22 no failure
$ escrow explain d {explained("1970-01-01", 99)} -> !1 Q22 no failure
$ sha256sum -c --quiet digests
== a deposit that is dropped is not explained
{FAILED}
$ escrow purge d --now {YEAR_AFTER} -> dropped 1
$ escrow explain d {explained(tld="other")} -> !1 Q2 registry unknown
$ escrow explain d {explained(revision=1)} -> !1 Q22 no failure
$ escrow explain d {explained()} -> !1 Q6 dropped after keeping
$ escrow report d example -> {FAILURE}
== a deposit whose bytes are changed is not explained
{FAILED}
$ sed -i s/hello/hellx/ d/vault.vol
$ escrow explain d {explained()} -> !3 C5 damaged H8
== the words of an explanation
$ escrow explain nowhere Example --date 2026-02-29 --revision 0 -> !2 bad value for TLD
$ escrow explain nowhere example --date 2026-02-29 --revision 0 -> !2 bad value for DATE
$ escrow explain nowhere {explained()} -> !3 file failed: nowhere: folder missing
$ escrow explain nowhere example --date {DAY} 2>> errors -> !2
$ escrow explain nowhere example --revision 0 2>> errors -> !2
$ escrow explain nowhere {explained()} --now {TEN} 2>> errors -> !2
$ for n in -1 100 x ''; do escrow explain nowhere example --date {DAY} --revision "$n" 2>> errors || echo $?; done -> 2
2
2
2
$ ls -> errors""")


def sends(room: Room, number: int, verdict: str, day: str, content: bytes, *, revision: int = 0, **words: str) -> None:
    """Puts and states a deposit of one part, which gets a notice of this number."""
    at = f"{day}T10:05:00Z"
    name, statement = part_name(day, revision=revision, **words), stated(day, at=at, revision=revision, **words)
    room.put("d", name, content, f"{day}T10:00:00Z")
    room.plays(f"$ escrow verify d {statement} -> {notice(number, verdict, day, at, number_of(day), revision)}")


def differential(day: str, previous: str, rows: str = "", revision: int = 0) -> bytes:
    """A deposit with these registrars, packed behind `packed()`."""
    tables = {"registrar": rows} if rows else {}
    return packed("diff", day, tables=tables, after=[packed()], previous=previous, revision=revision)


def explains(room: Room, line: str, *words: str | int) -> None:
    room.plays(f"$ escrow explain d {explained(*words)} -> {line}")


@case()
def later_notices_do_not_change_an_explanation(room: Room) -> None:
    line = f"FAILURE-06 prevId is {FIRST}, no deposit has passed"
    room.vault("d")
    sends(room, 1, "FAILURE-06", MONDAY, differential(MONDAY, FIRST), kind="diff")
    explains(room, line, MONDAY)
    sends(room, 2, "RECEIPT", DAY, packed())
    explains(room, line, MONDAY)
    sends(room, 3, "RECEIPT", MONDAY, differential(MONDAY, FIRST, revision=1), kind="diff", revision=1)
    explains(room, line, MONDAY)
    explains(room, "!1 Q22 no failure", MONDAY, 1)


@case()
def an_id_that_was_used_is_explained_with_its_day(room: Room) -> None:
    room.plays(PASSED)
    room.put("d", part_name(MONDAY), packed("full", MONDAY, number=FIRST), f"{MONDAY}T10:00:00Z")
    room.plays(f"""
        $ escrow verify d {stated(MONDAY, number=FIRST)} -> {notice(2, "FAILURE-07", MONDAY, f"{MONDAY}T10:05:00Z", FIRST)}
        $ escrow explain d {explained(MONDAY)} -> FAILURE-07 id {FIRST} has passed before, on {DAY}""")


@case()
def where_a_deposit_of_the_chain_is_dropped_a_count_is_not_known(room: Room) -> None:
    """Each reason that needs no key of that deposit is found as before."""
    rows, count = "R1,Example,292,ok\n", "urn:ietf:params:xml:ns:csvRegistrar-1.0 counts 0, 1 are there"
    room.plays(PASSED)
    sends(room, 2, "FAILURE-11", MONDAY, changed(differential(MONDAY, FIRST, rows), counts=(0, 0, 0, 0)), kind="diff")
    sends(room, 3, "FAILURE-06", TUESDAY, differential(TUESDAY, "X", rows), kind="diff")
    for dropped, line in ((0, f"FAILURE-11 {count}"), (1, "FAILURE-11 no longer known: a deposit that it follows was dropped")):
        if dropped:
            room.plays(f"$ escrow purge d --now {YEAR_AFTER} -> dropped 1")
        explains(room, line, MONDAY)
        explains(room, f"FAILURE-06 prevId is X, {FIRST} is wanted", TUESDAY)


def broken(count: int) -> list[tuple[reasons.Deposit, str]]:
    """The first of these cases of tests/reasons.py whose parts can be put into a vault, each with the line of its failure."""
    made = [reasons.case(1, number) for number in range(count)]
    return [(it, line) for it, line in made if line != "PASS" and it.name.startswith("example_") and "_R0" in it.name]


@case(seconds=5)
def a_broken_deposit_is_explained_by_its_place(room: Room) -> None:
    """Before a differential one comes an empty full one with the id that it may name."""
    checks = set()
    for made, line in broken(60):
        _, day, kind, *_ = made.name.split("_")
        passed = "" if made.latest == "-" or kind == "incr" else made.latest
        room.plays("$ rm -rf d; vault d 20")
        if passed:
            room.put("d", PART, packed(number=passed), TEN)
            room.plays(f"$ escrow verify d {stated(number=passed)} -> {notice(1, 'RECEIPT', DAY, FIVE, passed)}")
        room.put("d", made.name, made.joined, f"{day}T10:00:00Z")
        verdict, _, _ = line.partition(" ")
        told = notice(2 if passed else 1, verdict, day, f"{day}T10:05:00Z", made.stated)
        room.plays(f"$ escrow verify d {stated(day, kind, number=made.stated)} -> {told}")
        came = room.run(f"escrow explain d {explained(day)}").lines()
        room.equal([line], came, f"the explanation of {made.name}")
        checks.add(verdict)
    room.true(len(checks) > 8, f"only these checks fail: {checks}")


@case()
def a_server_explains_as_the_program_does(room: Room) -> None:
    """Damage has its status, and the server goes on."""
    room.plays(FAILED)
    with room.serve("d", 1) as server:
        room.equal(response(200, EXPLAINED), server.ask(request(f"GET /reasons/example/{DAY}/0")), "a failure")
    room.plays("$ sed -i s/hello/hellx/ d/vault.vol")
    with room.serve("d", 2) as server:
        room.equal(response(500, "C5 damaged H8"), server.ask(request(f"GET /reasons/example/{DAY}/0")), "a damaged part")
        room.equal(response(200, FAILURE), server.ask(request("GET /notices/example")), "the report")
