"""Deposits over HTTP: a part that comes short, and the verdicts of deposits that follow a full one."""
from lib import (
    PART, PASSED, TEN, Room, case, each, notice, number_of, packed, part_name, request, response, state, statement)

LATER, THIRD, FOURTH = "2026-08-04T10:05:00Z", "2026-08-03", "2026-08-04"
ON_SECOND, ON_THIRD = {"previous": "20260802001"}, {"previous": "20260803001"}
ADDS = {**ON_SECOND, "tables": {"registrar": "R1,Example,292,ok\n"}}
DELETES = {**ON_THIRD, "deletes": {"registrar": "R1\n"}}

# Deposits behind a full one of the second: the kind and day of each, what it holds, and its verdict. A differential one that
# fails is packed behind the full one alone.
FOLLOWING = (
    ("an incremental deposit need not name the full one", ("incr", THIRD, {}, "RECEIPT")),
    ("an incremental deposit may name the full one", ("incr", THIRD, ON_SECOND, "RECEIPT")),
    ("an incremental deposit may name nothing else", ("incr", THIRD, {"previous": "X"}, "FAILURE-06")),
    ("an incremental deposit follows no other", ("incr", THIRD, {}, "RECEIPT"), ("incr", FOURTH, ON_THIRD, "FAILURE-06")),
    ("a differential deposit follows the latest", ("incr", THIRD, {}, "RECEIPT"), ("diff", FOURTH, ON_THIRD, "RECEIPT")),
    ("a registrar that stays is counted", ("diff", THIRD, ADDS, "RECEIPT"), ("diff", FOURTH, ON_THIRD, "FAILURE-11")),
    ("a deleted registrar is not counted", ("diff", THIRD, ADDS, "RECEIPT"), ("diff", FOURTH, DELETES, "RECEIPT")))


def rows(number: int, kind: str, day: str, content: bytes, verdict: str) -> tuple[tuple, tuple]:
    """Two requests of curl: a deposit of one part, and its statement."""
    name, deposit_id = part_name(day, kind), number_of(day)
    return ((f"PUT /deposits/{name}", content.decode(), 201, f"received {name} {len(content)} {LATER}"),
            ("POST /statements", statement(day, deposit_id, kind), 201, notice(number, verdict, day, LATER, deposit_id)))


@each(FOLLOWING, "curl")
def deposits_that_follow(room: Room, *deposits: tuple) -> None:
    before, asked = [packed()], []
    for number, (kind, day, words, verdict) in enumerate(deposits, 2):
        content = packed(kind, day, after=before if kind == "diff" and verdict == "RECEIPT" else before[:1], **words)
        asked += rows(number, kind, day, content, verdict)
        before.append(content)
    room.plays(PASSED)
    room.asks("d", asked, LATER)


@case("curl")
def without_a_full_deposit_an_incremental_one_fails(room: Room) -> None:
    room.vault("d")
    room.asks("d", rows(1, "incr", THIRD, packed("incr", THIRD, after=[packed()]), "FAILURE-06"), LATER)


@case("curl")
def an_incremental_deposit_is_stated_as_one(room: Room) -> None:
    part, (line, body, status, receipt) = rows(2, "incr", THIRD, packed("incr", THIRD, after=[packed()]), "RECEIPT")
    room.plays(PASSED)
    room.asks("d", (part, (line, body.replace("incr", "diff"), 409, "Q9 type differs"),
                    (line, body.replace("incr", "INCR"), 400, "A10 form"),
                    (line, body, status, receipt), (line, body, 200, receipt)), LATER)


@case()
def a_part_that_came_short_is_sent_again(room: Room) -> None:
    sent, received = request(f"PUT /deposits/{PART}", "hello"), f"received {PART} 5 {TEN}"
    room.vault("d")
    with room.serve("d", 3) as server:
        for data, *wanted in (sent[:-2], 400, "A9 body short"), (sent, 201, received), (sent, 200, received):
            room.equal(response(*wanted), server.ask(data), repr(data))
    room.plays(f"$ escrow state d -> {state(6, f'part {PART} 5 held {TEN}')}")
