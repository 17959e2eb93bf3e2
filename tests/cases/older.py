"""A vault of schema 1, which programs of before there were holds made: it opens, goes over to schema 2, and goes on.

The cases make it from its rows and the bytes of its volume. With OLDER=PROGRAM in the environment there are two cases more,
in which such a program, also one of before there were incremental deposits, makes this vault by its commands, and opens one
that went the way back.
"""
import os
from pathlib import Path

from lib import DAY, DIGEST, PART, RECEIPT, TEN, Room, notice, number_of, packed, part_name, state, stated, transcripts

DIFF, NOISE = part_name("2026-08-03", "diff"), part_name("2026-08-04", "diff")
PARTS = (PART, DIFF, NOISE)

# A table is one line: the database keeps the text.
ROWS = f"""
CREATE TABLE meta (one INTEGER PRIMARY KEY NOT NULL, schema_no INTEGER NOT NULL, number TEXT NOT NULL,
 blocks INTEGER NOT NULL) STRICT;
CREATE TABLE registry (tld TEXT PRIMARY KEY NOT NULL, first_day INTEGER NOT NULL) STRICT;
CREATE TABLE part (tld TEXT NOT NULL REFERENCES registry (tld), day INTEGER NOT NULL, rev INTEGER NOT NULL,
 part INTEGER NOT NULL, kind TEXT NOT NULL, received INTEGER NOT NULL, keep_day INTEGER NOT NULL, len INTEGER NOT NULL,
 sha BLOB NOT NULL, extents BLOB, PRIMARY KEY (tld, day, rev, part)) STRICT;
CREATE TABLE notice (tld TEXT NOT NULL REFERENCES registry (tld), number INTEGER NOT NULL, kind INTEGER NOT NULL,
 day INTEGER NOT NULL, rev INTEGER NOT NULL, id TEXT NOT NULL, at INTEGER NOT NULL, PRIMARY KEY (tld, number)) STRICT;
CREATE TABLE handover (reference TEXT PRIMARY KEY NOT NULL, tld TEXT NOT NULL REFERENCES registry (tld),
 ground TEXT NOT NULL, at INTEGER NOT NULL, names TEXT NOT NULL) STRICT;
INSERT INTO meta VALUES (1, 1, '0000000000000001', 8);
INSERT INTO registry VALUES ('example', 20667);
INSERT INTO part VALUES
 ('example', 20667, 0, 1, 'full', 1785664800, 21032, 1422,
 x'{DIGEST}', NULL),
 ('example', 20668, 0, 1, 'diff', 1785751200, 21033, 583,
 x'1b1149711d9ede474b82902ecfa322580a4890e321c472e422d23132a92ede61', x'0000000200000001'),
 ('example', 20669, 0, 1, 'diff', 1785837600, 21034, 5,
 x'2cf24dba5fb0a30e26e83b2ac5b9e29e1b161e5c1fa7425e73043362938b9824', x'0000000300000001');
INSERT INTO notice VALUES
 ('example', 1, 0, 20667, 0, '20260802001', 1785665100), ('example', 2, 0, 20668, 0, '20260803001', 1785751500),
 ('example', 3, 1, 20669, 0, 'X', 1785837900), ('example', 4, 20, 20670, 0, '', 1785974400);
INSERT INTO handover VALUES ('R-1', 'example', 'operator', 1785978000, replace('{' '.join(PARTS)} ', ' ', char(10)));
""".replace("\n ", " ")

# What `state` prints of it.
KEPT = [f"part {PART} 1422 dropped {TEN}",
        f"part {DIFF} 583 held 2026-08-03T10:00:00Z", f"part {NOISE} 5 held 2026-08-04T10:00:00Z"]
NOTICES = [RECEIPT, notice(2, "RECEIPT", "2026-08-03", "2026-08-03T10:05:00Z", "20260803001"),
           notice(3, "FAILURE-01", "2026-08-04", "2026-08-04T10:05:00Z", "X"),
           notice(4, "ABSENCE", "2026-08-05", "2026-08-06T00:00:00Z")]
RELEASE = "example operator 2026-08-06T01:00:00Z 3"
STATE, RELEASED = state(5, *KEPT, *NOTICES, f"release R-1 {RELEASE}"), "\n".join([f"released R-1 {RELEASE}", *PARTS])
SCHEMA = "sqlite3 -readonly d/custody.db 'SELECT schema_no FROM meta'"


def older_vault(room: Room, name: str = "d", rows: str = ROWS) -> None:
    """Makes a vault from its volume and these rows, and the files of its parts in the folder `in`."""
    contents = packed(), packed("diff", "2026-08-03", after=[packed()], previous=number_of(DAY)), b"hello"
    for part, content in zip(PARTS, contents):
        room.file(f"in/{part}", content)
    # The dropped part is still in its block.
    blocks = [b"RDEVAULT1\n0000000000000001\n", *contents, *[b""] * 4]
    room.file(f"{name}/vault.vol", b"".join(it.ljust(4096, b"\0") for it in blocks))
    room.sql(name, f"PRAGMA journal_mode = wal; {rows}")


def going_on(room: Room) -> None:
    """This vault, and further deposits: behind the full one, whose bytes are dropped, and behind the incremental one."""
    older_vault(room)
    for day, kind, previous in NEXT:
        room.file(f"in/{part_name(day, kind)}", packed(kind, day, after=[packed()], previous=previous))


NEXT = [("2027-08-03", "incr", "20260803001"), ("2027-08-04", "incr", "20260802001"), ("2027-08-05", "diff", "20270804001")]
VERDICTS = [notice(5 + at, "RECEIPT" if at else "FAILURE-06", day, f"{day}T10:05:00Z", number_of(day))
            for at, (day, _, _) in enumerate(NEXT)]
RECEIVED = [f"{part_name(day, kind)} 583 held {day}T10:00:00Z" for day, kind, _ in NEXT]

transcripts(__name__, f"""
== the first command over schema 1 makes schema 2
$ {SCHEMA} -> 1
$ escrow state d -> {STATE}
$ {SCHEMA} -> 2
$ escrow audit d -> sound 2
== what an older program acknowledged is answered as before
$ escrow put d in/{PART} -> !1 Q6 dropped after keeping
$ escrow put d in/{DIFF} -> received {DIFF} 583 2026-08-03T10:00:00Z
$ escrow verify d {stated()} -> {RECEIPT}
$ escrow release d R-1 example operator -> {RELEASED}
$ escrow fetch d R-1 {NOISE} | cmp - in/{NOISE}
$ {SCHEMA} -> 2
== a day in a vault of schema 1 is put on hold
$ escrow hold d H-1 example --date 2026-08-03 --now 2027-08-05T12:00:00Z -> held H-1 example 2026-08-03 2027-08-05T12:00:00Z
$ {SCHEMA} -> 2
$ escrow purge d --now 2027-08-06T00:00:00Z -> dropped 1
$ escrow put d in/{DIFF} -> received {DIFF} 583 2026-08-03T10:00:00Z
$ escrow put d in/{NOISE} -> !1 Q6 dropped after keeping
""", "sqlite3", older_vault)

transcripts(__name__, "== a vault of schema 1 goes on with incremental deposits\n" + "".join(f"""
$ escrow put d in/{part_name(day, kind)} --now {day}T10:00:00Z -> received {part_name(day, kind)} 583 {day}T10:00:00Z
$ escrow verify d {stated(day, kind)} -> {verdict}
""" for (day, kind, _), verdict in zip(NEXT, VERDICTS)) + f"""
$ escrow state d -> {state(2, *KEPT, *(f"part {it}" for it in RECEIVED), *NOTICES, *VERDICTS, f"release R-1 {RELEASE}")}
$ sqlite3 -readonly d/custody.db "SELECT schema_no, (SELECT count(*) FROM part WHERE kind = 'incr') FROM meta" -> 2|2
""", "sqlite3", going_on)


# ---- with an older program

OLDER = os.environ.get("OLDER")


def made_by_older(room: Room) -> None:
    """Makes the vault `rows`, and the same vault `d` by the commands of the older program, which is `older` from here on."""
    (room.folder.parent / "bin/older").symlink_to(Path(OLDER).resolve())
    older_vault(room, "rows")
    room.plays(f"""
        $ mkdir d
        $ older init d --blocks 8 --number 0000000000000001 -> ready 8 0000000000000001
        $ older register d example --first {DAY} -> registered example {DAY}
        $ older put d in/{PART} --now {TEN} -> received {PART} 1422 {TEN}
        $ older verify d {stated()} -> {NOTICES[0]}
        $ older put d in/{DIFF} --now 2026-08-03T10:00:00Z -> received {DIFF} 583 2026-08-03T10:00:00Z
        $ older verify d {stated("2026-08-03", "diff")} -> {NOTICES[1]}
        $ older put d in/{NOISE} --now 2026-08-04T10:00:00Z -> received {NOISE} 5 2026-08-04T10:00:00Z
        $ older verify d {stated("2026-08-04", "diff", number="X")} -> {NOTICES[2]}
        $ older sweep d --now 2026-08-06T00:00:00Z -> {NOTICES[3]}
        $ older release d R-1 example operator --now 2026-08-06T01:00:00Z -> {RELEASED}
        $ older purge d --now 2027-08-03T00:00:00Z -> dropped 1""")


transcripts(__name__, f"""
== an older program makes this vault
$ cmp d/vault.vol rows/vault.vol
$ sqlite3 rows/custody.db .dump > dump; sqlite3 d/custody.db .dump | diff dump -
== an older program opens a vault that went the way back
$ escrow state d -> {STATE}
$ escrow audit d -> sound 2
$ older state d -> !3 C5 damaged H3
$ sqlite3 d/custody.db 'SELECT count(*) FROM hold' -> 0
$ sqlite3 d/custody.db 'BEGIN; DROP TABLE hold; UPDATE meta SET schema_no = 1; COMMIT'
$ older state d -> {STATE}
""" if OLDER else "", "sqlite3", made_by_older)
