"""The rows of the database, and that a command changes its own rows alone, whatever else somebody made beside them."""
import hashlib
import re

from lib import DAY, FIVE, PART, RECEIPT, TEN, TOP, Room, each, notice, packed, part_name, state, stated, transcripts
from older import DIFF, KEPT, NOISE, NOTICES, ROWS, STATE, older_vault

INTEGRITY = "sqlite3 d/custody.db 'PRAGMA integrity_check' -> ok"
ROWS_OF_NOTICES = "sqlite3 d/custody.db 'SELECT tld, number, kind, day, rev, id, at FROM notice'"
RECEIVED = f"$ echo -n hello > {PART}; escrow put d {PART} --now {TEN} -> received {PART} 5 {TEN}"
AGAIN = part_name(revision=1)

transcripts(__name__, f"""
== a part is a row
{RECEIVED}
$ {INTEGRITY}
$ sqlite3 d/custody.db 'SELECT * FROM meta' -> 1|2|0000000000000001|8
$ sqlite3 d/custody.db 'SELECT * FROM registry' -> example|20667
$ sqlite3 d/custody.db 'SELECT tld, day, rev, part, kind, received, keep_day, len FROM part'
example|20667|0|1|full|1785664800|21032|5
$ sqlite3 d/custody.db 'SELECT lower(hex(sha)), hex(extents) FROM part'
{hashlib.sha256(b"hello").hexdigest()}|0000000100000001
$ sqlite3 d/custody.db 'SELECT (SELECT count(*) FROM notice), (SELECT count(*) FROM handover)' -> 0|0
$ escrow state d -> {state(6, f"part {PART} 5 held {TEN}")}
== the digests are those of the database and sha256sum reads them
$ cp ../full {PART}; escrow put d {PART} --now {TEN} -> received {PART} 1422 {TEN}
$ escrow digests d example > sums
$ sha256sum -c sums -> {PART}: OK
$ sqlite3 d/custody.db "SELECT lower(hex(sha)) || '  {PART}' FROM part" | cmp sums -
$ escrow purge d --now 2027-08-03T00:00:00Z -> dropped 1
$ escrow digests d example | cmp sums -
$ escrow digests d other -> !1 Q2 registry unknown
== a part of 256 blocks is one extent
$ vault many 300; truncate -s 1M {PART}; escrow put many {PART} --now {TEN} -> received {PART} 1048576 {TEN}
$ sqlite3 many/custody.db 'PRAGMA integrity_check' -> ok
$ sqlite3 many/custody.db 'SELECT len, hex(extents) FROM part' -> 1048576|0000000100000100
== a receipt is a row
$ cp ../full {PART}; escrow put d {PART} --now {TEN} -> received {PART} 1422 {TEN}
$ escrow verify d {stated()} -> {RECEIPT}
$ {INTEGRITY}
$ {ROWS_OF_NOTICES} -> example|1|0|20667|0|20260802001|1785665100
== failures are rows
{RECEIVED}
$ escrow verify d {stated(number="X")} -> {notice(1, "FAILURE-01", DAY, FIVE, "X")}
$ cp {PART} {AGAIN}; escrow put d {AGAIN} --now {TEN} -> received {AGAIN} 5 {TEN}
$ escrow verify d {stated(number="X", revision=1)} -> {notice(2, "FAILURE-01", DAY, FIVE, "X", 1)}
$ {INTEGRITY}
$ {ROWS_OF_NOTICES} -> example|1|1|20667|0|X|1785665100
example|2|1|20667|1|X|1785665100
== a part without extents is dropped
{RECEIVED}
$ sqlite3 d/custody.db 'UPDATE part SET extents = NULL'
$ escrow state d -> {state(7, f"part {PART} 5 dropped {TEN}")}
$ escrow put d {PART} --now {TEN} -> !1 Q6 dropped after keeping
""", "sqlite3", "$ vault d")


# ---- commands beside what somebody else made

# What makes schema 1 schema 2, and what somebody else makes before or behind the tables, and over them.
HOLDS_TABLE = re.search("^CREATE TABLE hold .*", (TOP / "docs/FORMATS.md").read_text(), re.M)[0]
FORTH = f"{HOLDS_TABLE}; UPDATE meta SET schema_no = 2;"
MORE = """CREATE TABLE more (one TEXT PRIMARY KEY NOT NULL, many INTEGER) STRICT; CREATE INDEX most ON more (many);
    INSERT INTO more VALUES ('b', 1), ('a', 2);"""
BESIDES = "CREATE INDEX least ON part (keep_day); CREATE VIEW every AS SELECT * FROM more, registry; ANALYZE;"

FIFTH_PART, FIFTH_DIGEST = part_name("2026-08-06", "diff"), "b7fee57f1c3b81e99bbdd8d0ff7d905e83a00be0c1566f1008f8cc4baf4ea38e"
FIFTH = notice(5, "RECEIPT", "2026-08-06", "2026-08-06T10:05:00Z", "20260806001")
HELD = f"{DIFF}\n{NOISE}\n{FIFTH_PART}"
HOLDS = {day: f"H-{day} example 2026-08-0{day} 2027-08-01T00:00:00Z" for day in (3, 4)}

# Commands in their order: the words, the lines, what it does to the database, and what it changes in the lines of `state`.
STEPS = (
    ("register d later --first 2027-01-01", "registered later 2027-01-01",
     "INSERT INTO registry VALUES ('later', 20819)", {NOTICES[-1]: f"{NOTICES[-1]}\nregistry later 2027-01-01"}),
    (f"put d in/{FIFTH_PART} --now 2026-08-06T10:00:00Z", f"received {FIFTH_PART} 583 2026-08-06T10:00:00Z",
     f"""INSERT INTO part VALUES ('example', 20671, 0, 1, 'diff', 1786010400, 21036, 583,
     x'{FIFTH_DIGEST}', x'0000000100000001')""",
     {KEPT[-1]: f"{KEPT[-1]}\npart {FIFTH_PART} 583 held 2026-08-06T10:00:00Z", "free 5": "free 4"}),
    (f"verify d {stated('2026-08-06', 'diff')}", FIFTH,
     "INSERT INTO notice VALUES ('example', 5, 0, 20671, 0, '20260806001', 1786010700)",
     {NOTICES[-1]: f"{NOTICES[-1]}\n{FIFTH}"}),
    ("release d R-2 example audit --now 2026-08-08T01:00:00Z", f"released R-2 example audit 2026-08-08T01:00:00Z 3\n{HELD}",
     f"INSERT INTO handover VALUES ('R-2', 'example', 'audit', 1786150800, '{HELD}' || char(10))",
     {"free": "release R-2 example audit 2026-08-08T01:00:00Z 3\nfree"}),
    *((f"hold d H-{day} example --date 2026-08-0{day} --now 2027-08-01T00:00:00Z", f"held {line}",
       f"INSERT INTO hold VALUES ('H-{day}', 'example', {20665 + day}, 1817078400, NULL)", {"free": f"hold {line}\nfree"})
      for day, line in HOLDS.items()),
    ("lift d H-3 --now 2027-08-02T00:00:00Z", "lifted H-3 2027-08-02T00:00:00Z",
     "UPDATE hold SET lifted = 1817164800 WHERE reference = 'H-3'", {HOLDS[3]: f"{HOLDS[3]} lifted 2027-08-02T00:00:00Z"}),
    # Of the three parts one is due: another is of a day on hold, and the third is kept a day longer.
    ("purge d --now 2027-08-05T00:00:00Z", "dropped 1", "UPDATE part SET extents = NULL WHERE day = 20668",
     {f"{DIFF} 583 held": f"{DIFF} 583 dropped", "free 4": "free 5"}))


@each((
    ("commands change their own rows alone over schema 1", ROWS + MORE + BESIDES, FORTH),
    ("commands change their own rows alone before another table", ROWS + FORTH + MORE + BESIDES, ""),
    ("commands change their own rows alone behind another table", MORE + ROWS + FORTH + BESIDES, "")), "sqlite3")
def commands_change_their_own_rows_alone(room: Room, rows: str, then: str) -> None:
    older_vault(room, "d", rows)
    older_vault(room, "twin", rows + then)
    room.file(f"in/{FIFTH_PART}", packed("diff", "2026-08-06", after=[packed()], previous="20260803001"))
    kept = STATE
    for command, lines, sql, changes in STEPS:
        for old, new in changes.items():
            kept = kept.replace(old, new)
        room.file("change", sql)
        room.plays(f"""
            $ escrow {command} -> {lines}
            $ rm -rf seen; cp -r d seen; sqlite3 twin/custody.db < change; sqlite3 twin/custody.db .dump > wanted
            $ sqlite3 seen/custody.db .dump | diff wanted -
            $ sqlite3 seen/custody.db 'PRAGMA integrity_check' -> ok
            $ escrow state d -> {kept}
            $ escrow audit d -> sound {kept.count(" held 2026")}""")
