#!/usr/bin/env python3
"""Changes the files of vaults at random, runs the program on them, and compares its answers with the pages.

    tests/hostile.py [PROGRAM] [--cases N] [--seed S] [--seconds T] [--only N]

A case takes the files of a vault that the program made and changes them one to three times: bytes, the database by SQL, or
files for those of other vaults. Then it runs `state`, `report`, `explain`, `digests`, `due`, `audit`, `fetch` and `preview`
twice, and once over a copy of the files that may only be read; a `put`, a `sweep` or `verify`, and an `init`. It checks:

- Each call ends within 20 seconds, by no signal, with a status and lines of docs/CODES.md.
- A call that reads prints the same again. It leaves `vault.vol` as it was. It may write the head of the log `custody.db-wal`
  anew. It may write `custody.db` only if the log has more than a head, which it then copies, or if the file has at most one
  byte: that becomes a database without tables. sqlite3 finds the same objects and rows as before; if a database of schema 1
  opens, those of schema 2 that stand for the same.
- Over files that may only be read it prints the same too, and they stay as they are.
- If the vault does not open, each call prints the line of `state` and nothing else. Then nothing changes, nor by a refused
  call. The next `state` lists a part that was received. `init` makes no volume anew if sqlite3 finds a table, an index, a
  view or a trigger.
- `damages` finds the first of H0 to H7 by docs/CODES.md and docs/FORMATS.md, over what sqlite3 reads; docs/DECISIONS.md and
  `AreLinked` of custody_machine say what belongs together (H7). If the tables are those of the page, `state` reports just
  that. C3 must come in its place if a row breaks its reference. It may if sqlite3 finds the file broken, or would not write
  it so, and if there is a view, a trigger, or an index with a condition or an expression; then the program may also miss a
  table (H0, H4). If nothing is damaged, `state`, `digests`, `due` and `audit` print just the lines of docs/FORMATS.md for
  these rows and bytes, and `explain` names the check of the row.

A case depends on the seed and its number alone. `--only N` runs that one, and leaves its files, as the program finds
them, in `hostile.N`. 300 cases take minutes; TMPDIR=/dev/shm, where the vaults then stand, makes it fast. It needs
PROGRAM, which is crates/escrow/out/escrow unless named, that of crates/deposit (`rt run` builds them), and setpriv if root
runs it.
"""
import datetime
import hashlib
import os
import random
import re
import shutil
import sqlite3
import struct
import sys
import tempfile
import time
from collections import Counter, namedtuple
from collections.abc import Iterator, Sequence
from pathlib import Path

from lib import ESCROW, TOP, Answer, answer_of, built, notice, packed, parser, part_name, tell

Files = dict[str, bytes]
Rows = dict[str, list[tuple]]
CODES, FORMATS = ((TOP / "docs" / page).read_text() for page in ("CODES.md", "FORMATS.md"))
STATUSES = {f"{number} {text}": int(status)
            for number, text, status in re.findall(r"^\| ([IQC]\d+) \| `([^`]+)` \| (\d) ", CODES, re.M)}
TABLES = {text.split()[2]: text for text in re.findall(r"^CREATE TABLE .*", FORMATS, re.M)}
COLUMNS = {table: re.findall(r"(\w+) (INTEGER|TEXT|BLOB)", text) for table, text in TABLES.items()}
ROWS = {table: namedtuple(table, dict(columns)) for table, columns in COLUMNS.items()}
FILES = ("vault.vol", "custody.db", "custody.db-wal")
FAULTS = (sqlite3.Error, ValueError, OverflowError)
# Runs a program as a user to whom the modes of files apply.
NOBODY = () if os.getuid() else ("setpriv", "--reuid=65534", "--regid=65534", "--clear-groups")

# ---- the vaults

LATER, LATER_DAY = "--now 2027-08-04T10:00:00Z", 21_034
INIT = "init --blocks 8 --number 0000000000000001"
HELD = f"""{INIT}; register example --first 2026-08-02
put example_2026-08-02_full_S1_R0.ryde --now 2026-08-02T10:00:00Z"""
RICH = f"""init --blocks 20 --number 00000000000000a1; register example --first 2026-08-02; register other --first 2026-08-04
put example_2026-08-03_diff_S1_R0.ryde --now 2026-08-03T10:00:00Z; release R-0 other audit --now 2026-08-04T00:00:00Z
sweep --now 2026-08-06T00:00:00Z
put example_2026-08-02_full_S1_R0.ryde {LATER}; put example_2026-08-02_full_S2_R0.ryde {LATER}
verify example --date 2026-08-02 --kind full --revision 0 --parts 2 --id 20260802001 {LATER}
put example_2026-08-04_full_S1_R0.ryde {LATER}
verify example --date 2026-08-04 --kind full --revision 0 --parts 1 --id X {LATER}
put example_2026-08-04_full_S1_R1.ryde {LATER}; purge {LATER}
put example_2026-08-05_diff_S1_R0.ryde {LATER}; put other_2026-08-04_full_S1_R0.ryde {LATER}
release R-1 example operator {LATER}; release R-2 other order {LATER}
hold H-1 example --date 2026-08-05 {LATER}; hold H-0 other --date 2026-08-04 {LATER}; lift H-0 {LATER}"""
EXPLAIN, EXPLAINED_DAY = "explain example --date 2026-08-04 --revision 0", 20_669
READS = ("state", "report example", EXPLAIN, "digests example", f"due {LATER}", "audit",
         "fetch R-1 example_2026-08-05_diff_S1_R0.ryde",
         f"preview example --date 2026-08-05 --kind diff --revision 0 --parts 1 --id X {LATER}")
PUT = "put example_2026-08-06_full_S1_R0.ryde --now 2026-08-06T12:00:00Z"
VERIFY = f"verify example --date 2026-08-06 --kind full --revision 0 --parts 1 --id X {LATER}"
REFUSALS = {
    "report": "Q2", "explain": "Q2 Q6 Q22", "digests": "Q2", "fetch": "Q6 Q18 Q19",
    "put": "Q2 Q3 Q5 Q6 Q7 Q8 Q9 Q10 Q11"} | dict.fromkeys(("verify", "preview"), "Q2 Q3 Q6 Q8 Q9 Q12 Q13")


def read(folder: str) -> Files:
    return {name: path.read_bytes() for name in FILES if (path := Path(folder, name)).exists()}


def write(folder: str | Path, files: Files) -> None:
    shutil.rmtree(folder, ignore_errors=True)
    os.mkdir(folder)
    for name, content in files.items():
        Path(folder, name).write_bytes(content)


def open_database(files: Files) -> sqlite3.Connection:
    """A connection of sqlite3 to a copy of the database, in which texts are bytes."""
    write("scratch", {name: files[name] for name in FILES[1:] if name in files})
    db = sqlite3.connect("scratch/custody.db", isolation_level=None)
    db.text_factory = bytes
    return db


def closed(db: sqlite3.Connection, in_log: bool) -> Files:
    """The files of the copy, with what was changed in the log, or, behind the end of the connection, in the database."""
    left = read("scratch")
    db.close()
    return left if in_log else read("scratch")


def run(line: str, folder: str = ".", under: Sequence[str] = ()) -> Answer:
    """What a call on the vault in a folder comes to."""
    command, *words = line.split()
    return answer_of([*under, Path("escrow").resolve(), command, "vault", *words], Path(folder), seconds=20)


def make_vaults() -> dict[str, Files]:
    """The vaults that are changed. The last two are the rich one with a log that sqlite3 wrote, and one of schema 1."""
    noise, made = random.Random(1).randbytes(50_000), {}
    for name, content in (
            (part_name(), packed()[:700]), (part_name(part=2), packed()[700:]),
            (part_name("2026-08-03", "diff"), noise[:12_288]), (part_name("2026-08-05", "diff"), noise),
            (part_name("2026-08-04"), b"none"), (part_name("2026-08-04", revision=1), b"none"),
            (part_name("2026-08-04", tld="other"), b"5"), (part_name("2026-08-06"), b"hello")):
        Path(name).write_bytes(content)
    for vault, lines in ("bare", INIT), ("held", HELD), ("rich", RICH):
        write("vault", {})
        for line in re.split("; |\n", lines):
            answer = run(line)
            assert answer.status == 0, (line, answer)
        made[vault] = read("vault")
    logged = "; ".join(f"INSERT INTO registry VALUES ('logged{day}', {day})" for day in range(20_700, 20_706))
    for vault, text in ("logged", logged), ("earlier", "DROP TABLE hold; UPDATE meta SET schema_no = 1"):
        db = open_database(made["rich"])
        db.executescript(text)
        made[vault] = made["rich"] | closed(db, vault == "logged")
    return made


# ---- changes

NUMBERS = (-2**63, -1, 0, 1, 2, 8, 9, 13, 14, 20, 21, 99, 100, 4096, 10_956, 10_957, 20_667, 262_144, 262_145, 1_048_576,
           1_048_577, 2_932_531, 2_932_532, 2**31, 2**32, 2**53, 86_400 * 2_932_532 - 1, 86_400 * 2_932_532, 2**63 - 1)
TEXTS = (b"", b"a", b"example", b"Example", b"-a", b"a-", b"a" * 63, b"a" * 64, b"a" * 70_000, b"a\0b", b"\0", b"\xc3\xa9",
         b"\xff", b"example\n", b"\n", b"full", b"diff", b"incr", b"FULL", b"order", b"five_failed", b"A" * 13, b"A" * 14,
         b"A" * 32, b"A" * 33, b"0000000000000001", b"00000000000000A1", b"example_2026-08-02_full_S1_R0.ryde\nx\n",
         b"example_2026-08-02_diff_S1_R0.ryde\n", b"other_2026-08-04_full_S1_R0.ryde\n")
EDGES = (0, 1, 1, 2, 3, 4, 6, 7, 8, 18, 19, 20, 2**31, 2**32 - 1)
# {t} and {o} are two of the six tables, {c} a column of {t}. A colon begins an edit of the schema.
SCHEMAS = """DROP TABLE {t}
DROP TABLE {t}; CREATE VIEW {t} AS SELECT 1 AS one
DROP TABLE hold; UPDATE meta SET schema_no = 1
DROP TABLE hold; UPDATE meta SET schema_no = 1; CREATE TABLE extra AS SELECT * FROM {t}
ALTER TABLE {t} RENAME TO extra
ALTER TABLE {t} RENAME TO extra; ALTER TABLE {o} RENAME TO {t}
ALTER TABLE {t} RENAME COLUMN {c} TO extra
ALTER TABLE {t} ADD COLUMN extra INTEGER
ALTER TABLE {t} DROP COLUMN {c}
CREATE TABLE extra (a, b); INSERT INTO extra VALUES (1, NULL)
CREATE TABLE extra AS SELECT * FROM {t}
CREATE TABLE extra (a TEXT PRIMARY KEY, b) WITHOUT ROWID; INSERT INTO extra VALUES ('a', 1)
CREATE TABLE extra (a INTEGER PRIMARY KEY AUTOINCREMENT); INSERT INTO extra VALUES (7)
CREATE INDEX extra ON {t} ({c})
CREATE UNIQUE INDEX extra ON {t} ({c})
CREATE INDEX extra ON {t} ({c} DESC) WHERE {c} > 1
CREATE INDEX extra ON {t} (lower({c}))
CREATE VIEW extra AS SELECT * FROM {t}
CREATE TRIGGER extra AFTER INSERT ON {t} BEGIN DELETE FROM {t}; END
ANALYZE
VACUUM
REINDEX
PRAGMA journal_mode = DELETE
PRAGMA user_version = 7; PRAGMA application_id = 7
PRAGMA journal_mode = DELETE; PRAGMA page_size = 1024; VACUUM
PRAGMA journal_mode = DELETE; PRAGMA page_size = 65536; VACUUM; PRAGMA journal_mode = WAL
: SET sql = replace(sql, ' REFERENCES registry (tld)', '')
: SET sql = replace(sql, ' REFERENCES registry (tld)', '') WHERE name = '{t}'
: SET sql = replace(sql, ' NOT NULL', '')
: SET sql = replace(sql, ' STRICT', '') WHERE name = '{t}'
: SET sql = sql || ' ' WHERE name = '{t}'
: SET sql = replace(sql, '{c}', 'extra') WHERE name = '{t}'
: SET sql = 'CREATE TABLE' WHERE name = '{t}'
: SET rootpage = rootpage % 5 + 2 WHERE name = '{t}'
: SET rootpage = 1000000 WHERE name = '{t}'
: SET name = upper(name), tbl_name = upper(tbl_name) WHERE name = '{t}'
: SET type = 'view' WHERE name = '{t}'
: SET tbl_name = '{o}' WHERE name = '{t}'
: SET name = 'extra' WHERE name = '{t}'
: SET name = name; DELETE FROM sqlite_schema WHERE tbl_name = '{t}'""".replace(
    ":", "PRAGMA writable_schema = ON; UPDATE sqlite_schema").splitlines()


def edit(r: random.Random, data: bytes) -> tuple[str, bytes]:
    """What one edit of bytes was, and the bytes after it."""
    size = max(1, len(data))
    places = (r.randrange(size), r.randrange(min(size, 128)), r.randrange(0, size, 4096))
    at, other, length = r.choice(places), r.choice(places), 1 << r.randrange(14)
    end, (first, second) = min(len(data), at + length), sorted((at, other))
    third, fourth = min(second, first + length), second + min(length, second - first)
    flipped = bytes(byte ^ 1 << r.randrange(8) for byte in data[at:at + 1])
    edits = {"flip a bit": data[:at] + flipped + data[at + 1:],
             "zeros": data[:at] + bytes(length) + data[end:],
             "ones": data[:at] + b"\xff" * length + data[end:],
             "noise": data[:at] + r.randbytes(length) + data[end:],
             "cut": data[:at], "cut to blocks": data[:at - at % 4096],
             "append noise": data + r.randbytes(length), "append a block": data + bytes(4096),
             "swap": data[:first] + data[second:fourth] + data[third:second] + data[first:third] + data[fourth:]}
    kind = r.choice(list(edits))
    return f"{kind}, {at} to {end}, {other}, {length} of {size}", edits[kind]


def some_value(r: random.Random, kind: str, known: list) -> int | bytes | None:
    """A value for a column of this kind: one that stands in it, or beside that, or any."""
    if known and r.random() < 0.7:
        value = r.choice(known)
        return value + r.choice((-1, 0, 1)) if isinstance(value, int) else value
    if kind != "BLOB":
        return r.choice(NUMBERS if kind == "INTEGER" else TEXTS)
    extents = (struct.pack(">II", r.choice(EDGES), r.choice((1, r.choice(EDGES))))
               for _ in range(r.choice((1, 1, 1, 2, 3, 257))))
    return r.choice((None, b"".join(extents), r.randbytes(r.choice((*range(18), 31, 32, 33)))))


def change_of_rows(r: random.Random, db: sqlite3.Connection) -> tuple[str, list]:
    """A statement that changes rows of one table, and its values."""
    table = r.choice(("meta", "registry", "part", "part", "part", "notice", "notice", "handover", "hold"))
    names, kinds = zip(*COLUMNS[table])
    rows = db.execute(f"SELECT rowid, {', '.join(names)} FROM {table} ORDER BY rowid").fetchall()
    known = [list(column) for column in zip(*rows)][1:] or [[] for _ in names]
    marks = ["CAST(? AS TEXT)" if kind == "TEXT" else "?" for kind in kinds]
    i = r.choice((r.randrange(len(names)), r.randrange(min(4, len(names))), len(names) - 1))
    fresh = [some_value(r, kind, column) for kind, column in zip(kinds, known)]
    (a, *old), (b, *_) = (r.choice(rows or [(1, *fresh)]) for _ in range(2))
    copied = [fresh[j] if j == i or r.random() < 0.1 else old[j] for j in range(len(names))]
    where = r.choice((f" WHERE rowid = {a}", f" WHERE rowid = {a}", ""))
    insert = f"INSERT OR REPLACE INTO {table} VALUES ({', '.join(marks)})"
    update = f"UPDATE OR REPLACE {table} AS t SET {names[i]} = "
    swapped = f"(SELECT {names[i]} FROM {table} WHERE rowid = {a} + {b} - t.rowid) WHERE rowid IN ({a}, {b})"
    return r.choices(((insert, copied), (insert, fresh), (update + marks[i] + where, [fresh[i]]), (update + swapped, []),
                      (f"DELETE FROM {table}{where}", [])), (40, 8, 30, 10, 12))[0]


def change_by_sql(r: random.Random, files: Files) -> tuple[str, Files]:
    """What was changed in the database, and the files then. The change may stay in the log."""
    db, in_log = open_database(files), r.random() < 0.3
    try:
        if r.random() < 0.75:
            text = change_of_rows(r, db)
            db.execute(*text)
        else:
            table, other = r.sample(list(TABLES), 2)
            text = r.choice(SCHEMAS).format(t=table, o=other, c=r.choice(COLUMNS[table])[0])
            db.executescript(text)
    except FAULTS as fault:
        text, in_log = f"SQL that fails: {fault}", False
    return f"{text}"[:400] + " in the log" * in_log, {it: files[it] for it in FILES[:1] if it in files} | closed(db, in_log)


def change(r: random.Random, files: Files, made: dict[str, Files]) -> tuple[str, Files]:
    """What one change was, and the files after it."""
    name, other = r.choice(FILES), r.choice(list(made))
    kind = r.choices(("sql", "edit", "exchange", "exchange two", "remove"), (60, 28, 6, 2, 4))[0]
    if kind == "sql":
        return change_by_sql(r, files)
    if kind == "edit":
        text, data = edit(r, files.get(name, b""))
        return f"{name}: {text}", files | {name: data}
    if kind == "exchange" and name in made[other]:
        return f"{name} of {other}", files | {name: made[other][name]}
    if kind == "exchange two" and {"vault.vol", "custody.db"} <= set(files):
        return kind, files | {"vault.vol": files["custody.db"], "custody.db": files["vault.vol"]}
    return f"no {name}", {key: files[key] for key in files if key != name}


def changed(r: random.Random, made: dict[str, Files]) -> tuple[list[str], Files]:
    """A vault and its changes in words, and the files after them."""
    texts = [r.choice(list(made))]
    files = made[texts[0]]
    for _ in range(r.choice((1, 1, 2, 3))):
        text, files = change(r, files, made)
        texts.append(text)
    return texts, files


# ---- what the pages say

Look = namedtuple("Look", "objects rows is_sound is_referred")
REFERENCE = " REFERENCES registry (tld)"
TLD, LAST = rb"(?!-)[a-z0-9-]{1,63}(?<!-)", 2_932_531
MOMENT, ANY = (0, 86_400 * (LAST + 1) - 1), (-2**63, 2**63 - 1)
GROUNDS = b"operator|termination|no_notices|sunday_failed|five_failed|insolvency|critical|order|audit"
# The form of each column by itself: a number from one to another, or a text. (A NULL is apart.)
FORMS = {
    "meta": {"one": (1, 1), "schema_no": ANY, "number": rb"[0-9a-f]{16}", "blocks": (2, 262_144)},
    "registry": {"tld": TLD, "first_day": (0, LAST)},
    "part": {"tld": TLD, "day": (10_957, LAST), "rev": (0, 99), "part": (1, 8), "kind": b"full|diff|incr",
             "received": MOMENT, "keep_day": ANY, "len": (1, 1_048_576), "sha": rb"(?s:.{32})", "extents": rb"(?s:.{8})+"},
    "notice": {"tld": TLD, "number": (1, 2**63 - 1), "kind": (0, 20), "day": (0, LAST), "rev": (0, 99),
               "id": rb"[A-Za-z0-9]{0,13}", "at": MOMENT},
    "handover": {"reference": rb"[A-Za-z0-9-]{1,32}", "tld": TLD, "ground": GROUNDS, "at": MOMENT, "names": rb"(?s:.*\n)?"},
    "hold": {"reference": rb"[A-Za-z0-9-]{1,32}", "tld": TLD, "day": (0, LAST), "at": MOMENT, "lifted": MOMENT}}
NULLS = (("extents", None), ("lifted", None))


def look(files: Files) -> Look | None:
    """What sqlite3 finds in the database, or None where it does not open it or cannot read it."""
    db, data = open_database(files), files.get("custody.db", b"")
    try:
        objects = db.execute("SELECT type, name, sql FROM sqlite_schema ORDER BY 1, 2").fetchall()
        tables = {name.decode() for kind, name, _ in objects if kind == b"table"} & set(TABLES)
        rows = {table: [ROWS[table](*row) for row in db.execute(
            f"SELECT {', '.join(FORMS[table])} FROM {table} ORDER BY rowid")] for table in tables}
        found, size, count, broken = (db.execute(f"PRAGMA {check}").fetchall() for check in (
            "integrity_check", "page_size", "page_count", "foreign_key_check"))
        # As sqlite3 writes a file: whole pages, none behind the last, and these fields of the header.
        is_usual = len(data) <= size[0][0] * count[0][0] and not len(data) % size[0][0] and data[24:28] == data[92:96] \
            and not any(data[44:47] + data[52:59] + data[72:92]) and data[59:60] <= b"\1" and (not data or any(data[28:32]))
        return Look(objects, rows, found == [(b"ok",)] and is_usual, not broken)
    except FAULTS:
        return None
    finally:
        db.close()


def date_of(day: int) -> datetime.date:
    return datetime.date(1970, 1, 1) + datetime.timedelta(days=day)


def moment_of(seconds: int) -> str:
    return (datetime.datetime(1970, 1, 1) + datetime.timedelta(seconds=seconds)).isoformat() + "Z"


def keep_day_of(part: tuple) -> int:
    """The same date of the year after it was received, of 29 February the 28th."""
    date = date_of(part.received // 86_400)
    return (date.replace(date.year + 1, day=min(date.day, 28 if date.month == 2 else 31)) - date_of(0)).days


def is_form(form: tuple[int, int] | bytes, value: object) -> bool:
    if isinstance(form, tuple):
        return isinstance(value, int) and form[0] <= value <= form[1]
    return isinstance(value, bytes) and re.fullmatch(form, value) is not None


def is_row(table: str, row: tuple) -> bool:
    """Whether each column has its form, and those that go by one another too."""
    if not all(is_form(form, value) or (name, value) in NULLS for (name, form), value in zip(FORMS[table].items(), row)):
        return False
    if table == "notice":
        return row.kind <= 13 and row.id != b"" or (row.kind, row.rev, row.id) == (20, 0, b"")
    return table != "part" or row.keep_day == keep_day_of(row)


def runs_of(part: tuple) -> list[tuple[int, int]]:
    """First block and number of blocks of each extent; none where the bytes are dropped."""
    return list(struct.iter_unpack(">II", part.extents or b""))


def name_of(part: tuple) -> bytes:
    return part_name(str(date_of(part.day)), part.kind.decode(), part.part, part.rev, part.tld.decode()).encode()


def are_linked(rows: Rows) -> bool:
    """Whether the rules among the records hold."""
    parts, notices = rows["part"], rows["notice"]
    known = {registry.tld for registry in rows["registry"]}
    kinds = {part[:4]: part.kind for part in parts}
    names = {(part.tld, name_of(part)) for part in parts}
    numbers = {(n.tld, n.number) for n in notices}
    verdicts = [(n.tld, n.day, n.rev) for n in notices if n.kind != 20]
    failures = {(n.tld, n.day, n.rev) for n in notices if n.kind not in (0, 20)}
    return (
        all(row.tld in known for row in (*parts, *notices, *rows["handover"], *rows.get("hold", ())))
        # The parts of a revision are 1 to k, of one kind. One above 0 follows a failure.
        and all(p.part == 1 or kinds.get((*p[:3], p.part - 1)) == p.kind for p in parts)
        and all(p.rev == 0 or (p.tld, p.day, p.rev - 1) in failures for p in parts)
        # The notices of a registry are 1 to n. A verdict is of a part that is recorded.
        and all(number == 1 or (tld, number - 1) in numbers for tld, number in numbers)
        and all((*verdict, 1) in kinds for verdict in verdicts)
        # A revision has one verdict at most, and a day one receipt and one absence.
        and all(len(keys) == len(set(keys)) for keys in (
            verdicts, *([n[0:4:3] for n in notices if n.kind == kind] for kind in (0, 20))))
        # The names of a release are those of parts of its registry.
        and all((release.tld, name) in names for release in rows["handover"] for name in release.names.split(b"\n")[:-1]))


def damages(rows: Rows, volume: bytes) -> Iterator[bool]:
    """Whether H0 is so, and then each up to H7. Each takes those before it as not so."""
    yield not rows.get("meta")
    yield not re.fullmatch(rb"RDEVAULT1\n[0-9a-f]{16}\n\0{4069}", volume[:4096])
    meta = rows["meta"][0]
    yield meta[2:] != (volume[10:26], len(volume) // 4096)
    yield meta.schema_no not in (1, 2)
    yield (set(rows) != set(TABLES) - ({"hold"} if meta.schema_no == 1 else set())
           or not all(is_row(table, row) for table in rows for row in rows[table]))
    runs = [(part, runs_of(part)) for part in rows["part"] if part.extents is not None]
    yield any(sum(count for _, count in extents) != -(-part.len // 4096)
              or any(start < 1 or count < 1 or start + count > meta.blocks for start, count in extents)
              for part, extents in runs)
    blocks = [block for _, extents in runs for start, count in extents for block in range(start, start + count)]
    yield len(blocks) > len(set(blocks))
    yield not are_linked(rows)


def allowed(files: Files, found: Look | None) -> list[str] | None:
    """What `state` may report, or None where the pages cannot say."""
    volume = files.get("vault.vol")
    if volume is None or len(volume) % 4096 or "custody.db" not in files:
        return ["file failed"]
    if found is None:
        return None
    texts = {name.decode(): sql.decode() for kind, name, sql in found.objects
             if kind == b"table" and name.lower().decode() in TABLES}
    if any(text.replace(REFERENCE, "") != TABLES.get(table, "").replace(REFERENCE, "") for table, text in texts.items()):
        return None
    if not found.is_referred:
        return ["C3"]
    # For what others added a database may be refused, or a table not be seen.
    is_plain = not any(kind in (b"view", b"trigger") or kind == b"index" and sql and re.search(b"WHERE|lower", sql)
                       for kind, _, sql in found.objects)
    others = [] if is_plain and found.is_sound else ["C3"] if is_plain else ["C3", "H0", "H4"]
    return [next((f"H{n}" for n, is_so in enumerate(damages(found.rows, volume)) if is_so), "opens"), *others]


def line_of(row: tuple) -> str:
    verdict, tld = {0: "RECEIPT", 20: "ABSENCE"}.get(row.kind, f"FAILURE-{row.kind:02}"), row.tld.decode()
    return notice(row.number, verdict, str(date_of(row.day)), moment_of(row.at), row.id.decode() or "-", row.rev, tld)


def answers(rows: Rows, volume: bytes) -> dict[str, bytes]:
    """The output of the calls that read records, where nothing is damaged."""
    lines, damaged, free, held = [], "", rows["meta"][0].blocks - 1, 0
    for tld, first in sorted(rows["registry"]):
        lines.append(f"registry {tld.decode()} {date_of(first)}")
        for part in sorted((row for row in rows["part"] if row.tld == tld), key=lambda p: p[:4]):
            name, is_held = name_of(part).decode(), part.extents is not None
            lines.append(f"part {name} {part.len} {'held' if is_held else 'dropped'} {moment_of(part.received)}")
            data = b"".join(volume[4096 * start:4096 * (start + count)] for start, count in runs_of(part))
            if is_held and hashlib.sha256(data[:part.len]).digest() != part.sha:
                damaged += f"damaged {name}\n"
            held, free = held + is_held, free - len(data) // 4096
        lines += map(line_of, sorted(row for row in rows["notice"] if row.tld == tld))
    for reference, tld, ground, at, names in sorted(rows["handover"]):
        lines.append(f"release {reference.decode()} {tld.decode()} {ground.decode()} {moment_of(at)} {names.count(10)}")
    for reference, tld, day, at, lifted in sorted(rows.get("hold", ())):
        end = "" if lifted is None else f" lifted {moment_of(lifted)}"
        lines.append(f"hold {reference.decode()} {tld.decode()} {date_of(day)} {moment_of(at)}{end}")
    lines.append(f"free {free} of {rows['meta'][0].blocks - 1}\n")
    return {"state": "\n".join(lines).encode(), "audit": (damaged or f"sound {held}\n").encode(),
            "digests example": digests(rows), f"due {LATER}": due(rows)}


def digests(rows: Rows) -> bytes:
    """The output of `digests example`, which is nothing where there is no such registry."""
    parts = sorted((row for row in rows["part"] if row.tld == b"example"), key=lambda part: part[:4])
    return b"".join(b"%s  %s\n" % (part.sha.hex().encode(), name_of(part)) for part in parts)


def is_explained(rows: Rows, answer: Answer) -> bool:
    """Whether the answer of EXPLAIN is a line with the check of the notice, or Q22 where there is no failure."""
    checks = [row.kind for row in rows["notice"]
              if (row.tld, row.day, row.rev) == (b"example", EXPLAINED_DAY, 0) and 1 <= row.kind <= 13]
    if not checks:
        return answer.err in (b"Q2 registry unknown\n", b"Q22 no failure\n")
    line = rb"FAILURE-%02d [ -~]+\n" % checks[0]
    return re.fullmatch(line, answer.out) is not None or answer.err in (b"Q6 dropped after keeping\n", b"C5 damaged H8\n")


def due(rows: Rows) -> bytes:
    """The output of `due` at the later moment."""
    noticed = {(row.tld, row.day) for row in rows["notice"]}
    held = Counter((row.tld, row.day, row.rev) for row in rows["part"] if row.extents is not None)
    lines = []
    for tld, first in sorted(rows["registry"]):
        for day in range(first, LATER_DAY):
            if (tld, day) not in noticed:
                name = f"{tld.decode()} {date_of(day)}"
                lines.append(f"due {name}\n")
                lines += [f"parts {name} {rev} {held[tld, day, rev]}\n" for rev in range(100) if held[tld, day, rev]]
    return "".join(lines).encode()


# ---- a case

def label_of(state: Answer) -> str:
    """What an opening came to, in short."""
    line = state.err.decode(errors="replace").strip()
    found = re.match(r"C5 damaged (H[0-7])$|(C\d) |(file failed): ", line)
    return "opens" if state.status == 0 else found[found.lastindex] if found else f"{state.status} {line}"


def is_on_page(command: str, answer: Answer) -> bool:
    """Whether status and lines are as docs/CODES.md has them for the command."""
    line = answer.err.decode(errors="replace").removesuffix("\n")
    if answer.status == 0:
        return not answer.err
    if command == "audit" and answer.status == 1:
        return not answer.err and re.fullmatch(rb"(damaged [^\n]+\n)+", answer.out) is not None
    if not answer.err.endswith(b"\n") or answer.out and (command, answer.status) != ("sweep", 3):
        return False
    if re.fullmatch("file failed: .+: .+", line):
        return answer.status == 3
    return (answer.status == STATUSES.get(re.sub("H[0-8]$", "Hn", line))
            and (line[0] == "C" or line.split()[0] in REFUSALS.get(command, "").split())
            and (line != "C5 damaged H8" or command in ("explain", "fetch", "put", "verify", "preview")))


def gone_over(objects: list[tuple], rows: Rows) -> tuple[list[tuple], Rows]:
    """What sqlite3 finds in a database of schema 1 after an opening has made it one of schema 2."""
    added = (b"table", b"hold", TABLES["hold"].encode()), (b"index", b"sqlite_autoindex_hold_1", None)
    return (sorted((*objects, *added), key=lambda it: it[:2]),
            rows | {"meta": [row._replace(schema_no=2) for row in rows["meta"]], "hold": []})


def changes(old: Files, new: Files, may_copy: bool, goes_over: bool = False) -> list[str]:
    """What of the files is not as it was. The log may be copied into the database where it may."""
    named = [name for name in FILES if old.get(name) != new.get(name)]
    wrong = [f"{name} changed" for name in named if name == "vault.vol" or name == "custody.db" and not may_copy]
    if named and named != ["vault.vol"]:
        before, after = ((look(files) or ())[:2] for files in (old, new))
        before = gone_over(*before) if goes_over else before
        wrong += [f"the rows changed from {before} to {after}"] * (before != after)
    return wrong


def call(line: str, state: Answer | None, wrong: list[str]) -> Answer:
    """Makes a call, and adds what is wrong with it. Its answer is that of `state` where that could not open the vault."""
    answer = run(line)
    if not is_on_page(line.split()[0], answer):
        wrong.append(f"{line} is not as the page has it: {answer}")
    if state and label_of(state) != "opens" and answer != state:
        wrong.append(f"{line} gives {answer}, but state {state}")
    return answer


def reads_only(files: Files, came: dict[str, Answer], wrong: list[str]) -> None:
    """Makes the calls that read where the files may only be read, and adds what is not as it came elsewhere.

    The two differ in what is not tried here. Only there a `custody.db` that is a link is refused, and a journal that begins
    with a zero. A log that is no file of one name has another line. A lock of another program on `custody.db` is not seen.
    """
    folder = Path("read-only/vault")
    write(folder, files)
    for path in folder.iterdir():
        path.chmod(0o444)
    for line, answer in came.items():
        if (found := run(line, "read-only", NOBODY)) != answer:
            wrong.append(f"{line} gives {answer}, but {found} where the files may only be read")
    left = {path.name: path.read_bytes() for path in folder.iterdir()}
    wrong += [f"{name} changed, which may only be read" for name in {*files, *left} if files.get(name) != left.get(name)]


def reads(files: Files, found: Look | None, wrong: list[str]) -> tuple[Answer, list[str] | None]:
    """Makes the calls that read, and adds what is wrong. Gives the answer of `state`, and what the pages allow it."""
    expected, came = allowed(files, found), {}
    for line in READS:
        came[line] = call(line, came.get("state"), wrong)
        if (again := run(line)) != came[line]:
            wrong.append(f"{line} gives {came[line]}, and then {again}")
    reads_only(files, came, wrong)
    label = label_of(came["state"])
    goes_over = bool(found) and label == "opens" and [row.schema_no for row in found.rows.get("meta", [])][:1] == [1]
    may_copy = goes_over or len(files.get("custody.db-wal", b"")) > 56 or len(files.get("custody.db", b"")) <= 1
    wrong += changes(files, read("vault"), may_copy, goes_over)
    if expected and label not in expected:
        wrong.append(f"state gives {label}, the pages {' or '.join(expected)}: {found and found.rows}")
    elif expected and label == "opens":
        if not is_explained(found.rows, came[EXPLAIN]):
            wrong.append(f"{EXPLAIN} gives {came[EXPLAIN]}, and the notices are {found.rows['notice']}")
        wrong += [f"{line} gives {came[line]}, the pages {text}"
                  for line, text in answers(found.rows, files["vault.vol"]).items() if came[line].out != text]
    return came["state"], expected


def run_case(r: random.Random, files: Files) -> tuple[str, bool, list[str]]:
    """What `state` came to, whether the pages say what, and all that is wrong."""
    found, wrong = look(files), []
    write("vault", files)
    state, expected = reads(files, found, wrong)
    # A sweep of many years takes long.
    is_short = found and all(row.first_day > 20_000 for row in found.rows.get("registry", []))
    for line in PUT, r.choice(("sweep --now 2026-08-08T00:00:00Z", VERIFY)) if is_short else VERIFY:
        old, answer = read("vault"), call(line, state, wrong)
        if state.status != 0 or answer.status == 1:
            wrong += [f"after {line}: {text}" for text in changes(old, read("vault"), True)]
        listed = answer.out.replace(b"received", b"part").replace(b" 5 ", b" 5 held ")
        if line == PUT and answer.status == 0 and listed not in run("state").out:
            wrong.append(f"{answer} is not in {run('state')}")
    old, answer = read("vault"), run(INIT)
    if found and found.objects and read("vault").get("vault.vol") != old.get("vault.vol"):
        wrong.append(f"init made the volume anew beside a table: {answer}")
    return label_of(state), expected is not None, wrong


def main() -> int:
    words = parser(__doc__)
    words.add_argument("program", nargs="?", default=ESCROW, type=Path)
    words.add_argument("--cases", type=int, default=300)
    words.add_argument("--seed", type=int, default=random.randrange(10**9))
    words.add_argument("--seconds", type=float, default=3600)
    words.add_argument("--only", type=int)
    asked = words.parse_args()
    print(f"seed {asked.seed}", flush=True)
    program, counts, failed, start = built(asked.program), (Counter(), Counter()), 0, time.monotonic()
    with tempfile.TemporaryDirectory() as folder:
        os.chdir(folder)
        os.umask(0o022)
        os.chmod(".", 0o755)
        os.mkdir("read-only")
        shutil.copy(program, "escrow")
        made = make_vaults()
        for number in range(asked.cases) if asked.only is None else [asked.only]:
            if time.monotonic() - start > asked.seconds:
                break
            r = random.Random(f"{asked.seed}:{number}")
            texts, files = changed(r, made)
            if asked.only is not None:
                write(TOP / f"hostile.{number}", files)
            came, is_said, wrong = run_case(r, files)
            counts[is_said][came] += 1
            failed += bool(wrong)
            if wrong:
                print(f"case {number}: " + "; ".join(texts), *wrong, sep="\n    ", flush=True)
        os.chdir(TOP)
    for count, text in zip(counts, ("do not say what of", "say what of")):
        shown = ", ".join(f"{came} {times}" for came, times in sorted(count.items()))
        print(f"the pages {text} {count.total()} cases: {shown or 'none'}")
    return tell(sum(count.total() for count in counts) - failed, failed)


if __name__ == "__main__":
    sys.exit(main())
