"""Vaults whose database somebody else has edited: what is reported, what docs/damage.sql lists, and that nothing changes."""
import hashlib

from lib import DAY, PART, PASSED, RECEIPT, TEN, TOP, Room, each, state

STATE = f"$ escrow state d -> {state(6, f'part {PART} 1422 held {TEN}', RECEIPT)}"
# What the page's questions to the records list. Of a table that is missing sqlite3 reports an error, and goes on.
LISTED = f"sqlite3 -readonly d/custody.db < '{TOP}/docs/damage.sql' 2> errors"
# The ways to open a vault, and to make one.
OPENINGS = ("escrow state d", "escrow audit d", "echo state | escrow batch d",
            "timeout 60 escrow serve d --port 20001 --requests 1")
INIT = "escrow init d --blocks 8 --number 0000000000000001"
SOUND = f"{STATE}\n$ escrow audit d -> sound 1\n$ {LISTED}"


def reported(number: str) -> str:
    """What is reported of this damage by an order, a batch and a server, and listed first."""
    listed = f"$ ({LISTED}; true) | sed '1!d; s/|.*//' -> {number}" if number not in ("H1", "H2") else ""
    return "".join(f"$ {words} -> !3 C5 damaged {number}\n" for words in OPENINGS) + listed


def damaged(number: str) -> str:
    """The same, and what `init` says: there is a record, or only tables without one."""
    return f"{reported(number)}\n$ {INIT} -> {'!3 C3 store failed' if number == 'H0' else '!1 I1 already initialised'}"


# ---- edits

NUMBER, SCHEMA = "UPDATE meta SET number = '0000000000000002'", "UPDATE meta SET schema_no = 3"
# As a program of before there were holds leaves it.
BACK = "DROP TABLE hold; UPDATE meta SET schema_no = 1"
TABLE = "CREATE TABLE more (text TEXT NOT NULL) STRICT"
BUT_META = "DROP TABLE hold; DROP TABLE handover; DROP TABLE notice; DROP TABLE part; DROP TABLE registry"


def extents(digits: str) -> str:
    """The part lies in these extents."""
    return f"UPDATE part SET extents = x'{digits}'"


def one_more(revision: int, part: int, block: int, content: bytes) -> str:
    """There is one part more, with the content with which this block begins."""
    return f"""INSERT INTO part SELECT tld, day, {revision}, {part}, kind, received, keep_day, {len(content)},
        x'{hashlib.sha256(content).hexdigest()}', x'{block:08x}00000001' FROM part"""


def hold(day: int, lifted: str) -> str:
    """There is a hold of this day with this lifting."""
    return f"INSERT INTO hold VALUES ('H-1', 'example', {day}, 1785665100, {lifted})"


DAMAGED = (
    ("H0 without a row of meta", "DELETE FROM meta"),
    ("H0 without meta", "DROP TABLE meta"),
    ("H0 with a table of somebody else alone", f"{BUT_META}; DROP TABLE meta; {TABLE}"),
    ("H1 of block 0 before the number", NUMBER, "printf '\\0' | dd of=d/vault.vol bs=1 conv=notrunc status=none"),
    ("H2 of the number", NUMBER),
    ("H2 of a number in capitals", "UPDATE meta SET number = '000000000000000A'"),
    ("H2 of the number before a missing table", f"DROP TABLE handover; {NUMBER}"),
    ("H3 of the schema before a length", "UPDATE meta SET schema_no = 9; UPDATE part SET len = 0"),
    ("H3 of the schema before a missing table", f"DROP TABLE handover; {SCHEMA}"),
    ("H4 of a length", "UPDATE part SET len = 0"),
    ("H4 of the kind of a part", "UPDATE part SET kind = 'Full'"),
    ("H4 of the kind of a notice", "UPDATE notice SET kind = 14"),
    ("H4 of extents of no bytes", extents("")),
    ("H4 of extents of 4 bytes", extents("00000001")),
    ("H4 of extents of 9 bytes", extents("000000010000000100")),
    ("H4 of extents of 12 bytes", extents("000000010000000100000002")),
    ("H4 without parts", "DROP TABLE part"),
    ("H4 without notices", "DROP TABLE notice"),
    ("H4 without releases", "DROP TABLE handover"),
    ("H4 without notices and releases", "DROP TABLE notice; DROP TABLE handover"),
    ("H4 without holds", "DROP TABLE hold"),
    ("H4 with meta alone", BUT_META),
    ("H4 of holds in schema 1", "UPDATE meta SET schema_no = 1"),
    ("H4 of the day of a hold", hold(-1, "NULL")),
    ("H4 of the lifting of a hold", hold(20667, "-1")),
    ("H4 of a length in schema 1", f"{BACK}; UPDATE part SET len = 0"),
    ("H5 of block 0 in a part", extents("0000000000000001")),
    ("H5 of a block behind the last", extents("0000000800000001")),
    ("H5 of two blocks of a part of one", extents("0000000100000002")),
    ("H6 of a block of two parts", one_more(0, 2, 1, b"RDE1 00001")),
    ("H7 without a first part", "UPDATE part SET part = 2"),
    ("H7 without a first notice", "UPDATE notice SET number = 2"),
    ("H7 without a first notice in schema 1", f"{BACK}; UPDATE notice SET number = 2"),
    ("H7 of a revision after the receipt", one_more(1, 1, 2, bytes(10))))
INDEX = "CREATE INDEX more ON meta (lower(number))"


@each((
    *((title, sql, damaged(title[:2]), *command) for title, sql, *command in DAMAGED),
    # (Here `init` makes a vault anew.)
    ("H0 without a table", f"{BUT_META}; DROP TABLE meta", reported("H0")),
    ("C3 as parts refer to no registry", "DROP TABLE registry", "$ escrow state d -> !3 C3 store failed"),
    ("C3 as notices refer to none", "DROP TABLE part; DROP TABLE registry", "$ escrow state d -> !3 C3 store failed"),
    ("init leaves a vault whose meta an index hides", INDEX, f"""$ escrow state d -> !3 C5 damaged H0
$ {INIT} -> !3 C3 store failed
$ sqlite3 d/custody.db 'DROP INDEX more'
$ escrow audit d -> sound 1
$ sqlite3 d/custody.db '{INDEX}'"""),
    ("opened as it is", "", SOUND),
    ("opened with statistics", "ANALYZE", SOUND),
    ("opened with an index more", "CREATE INDEX more ON part (day)", SOUND),
    ("opened with a table more", TABLE, SOUND),
    ("opened with a table and an index more", f"{TABLE}; CREATE INDEX most ON more (text)", SOUND),
    ("opened with the file made anew", "VACUUM", SOUND),
    ("opened with a number of its user", "PRAGMA user_version = 7", SOUND),
    ("opened with a view more", "CREATE VIEW more AS SELECT tld FROM registry", SOUND),
    *((title, sql, f"""{STATE}
$ sqlite3 d/custody.db 'SELECT schema_no, (SELECT count(*) FROM hold) FROM meta' -> 2|0
$ escrow hold d H-1 example --date {DAY} --now {TEN} -> held H-1 example {DAY} {TEN}
$ sqlite3 d/custody.db 'DELETE FROM hold; {BACK}'
$ sqlite3 d/custody.db 'PRAGMA integrity_check' -> ok""") for title, sql in (
        ("schema 1 becomes schema 2", BACK), ("schema 1 becomes schema 2 behind a table more", f"{BACK}; {TABLE}")))),
    needs="sqlite3")
def edited(room: Room, sql: str, transcript: str, command: str = "true") -> None:
    """A vault is edited. What the transcript does then changes neither its rows nor its volume."""
    room.plays(PASSED)
    room.sql("d", sql)
    room.plays(f"$ {command}\n$ sqlite3 d/custody.db .dump > rows; cp d/vault.vol image")
    room.plays(transcript)
    room.plays("$ sqlite3 d/custody.db .dump | diff rows -\n$ cmp d/vault.vol image")
