#!/usr/bin/env python3
"""Packs tables at random, and compares each part with the bytes that this script makes by itself.

    tests/packing.py [--cases N] [--chains N] [--broken N] [--seed S] [--only K] [--only-chain K] [--only-broken K]

A case is a registry of some rows and its deposits: a full one, and then differential and incremental ones after changes to
its tables. Each file is spelled at random: with needless quotes, CR LF, blank lines, a byte order mark, a header, or no line
end behind its last row. `deposit pack` has to write the parts that this script makes, `deposit check` to let them pass
with their rows, `deposit unpack` to give each table in its one spelling, and `deposit restore` to give the tables after all
of them.

A chain is a registry of some days, whose objects come, go, change and change back. `deposit pack --whole` gets its tables of
each day, and packs what has changed: the objects that are not as they were after the deposits before (and, where it is
incremental, as they were after the full one alone), and the keys that are gone. This script works them out by itself.
`deposit restore` has to give the tables of the day, from all parts so far; those of a full and an incremental deposit alone
give them too.

Broken files are those of a deposit with faults at random: other numbers of fields, fields out of form, keys that come again
or name nothing, and no headers. `deposit pack --all` has to print each fault that this script counts, with its line, and
`deposit pack` the first of them.

The script knows the formats from docs/FORMATS.md. A case depends on the seed and its number alone, and so do a chain and
broken files; `--only K` runs that case, and leaves its files in `packing.K`; `--only-chain K` and `--only-broken K` run those,
and leave them in `packing.chain.K` and `packing.broken.K`.

200 cases take ten seconds, 200 chains twenty, and 300 deposits of broken files as many. It needs the program that `rt run`
builds in crates/deposit.
"""
from __future__ import annotations

import csv
import datetime
import io
import random
import shutil
import subprocess
import sys
import tempfile
from collections.abc import Callable
from dataclasses import dataclass, field
from pathlib import Path

from lib import PACKER, TABLES, Wrong, built, number_of, parser, parts_of, taken_apart, tell
from reasons import COLUMNS, COUNTED, DELETED, FORMS, KEYS, MOMENT, ROID, Deposit, Rows, registry, shown, spelled

PROGRAM = PACKER


def any_spelling(dice: random.Random, rows: Rows, header: list[str] | None) -> bytes:
    """Rows in some spelling of CSV, behind a header."""
    return lined_spelling(dice, ([header] if header else []) + rows)[0]


def lined_spelling(dice: random.Random, rows: Rows) -> tuple[bytes, list[int]]:
    """Rows in some spelling of CSV, and the lines on which they begin."""
    end = dice.choice(["\n", "\r\n"])
    lines, places, line = [], [], 1
    for fields in rows:
        texts = [f'"{text.replace(chr(34), chr(34) * 2)}"' if dice.random() < 0.2 else spelled([text])[:-1] for text in fields]
        places.append(line)
        lines.append(",".join(texts) or '""')
        line += lines[-1].count("\n") + 1
        if dice.random() < 0.05:
            lines.append("")
            line += 1
    text = end.join(lines) + end * dice.randint(0, 2)
    return dice.choice([b"", b"", b"\xef\xbb\xbf"]) + text.encode(), places


def run(*words: str | Path) -> subprocess.CompletedProcess:
    return subprocess.run([PROGRAM, *map(str, words)], capture_output=True, timeout=120)


def ran(*words: str | Path) -> str:
    """What the program prints where it does what it is asked."""
    done = run(*words)
    if done.returncode or done.stderr:
        raise Wrong(f"deposit {' '.join(map(str, words))}: status {done.returncode}\n{done.stdout.decode()}{done.stderr.decode()}")
    return done.stdout.decode()


def same(wanted: object, got: object, what: str) -> None:
    if wanted != got:
        raise Wrong(f"{what}\n- {wanted!r}\n+ {got!r}"[:2000])


def rows_told(contents: dict[str, Rows], deletes: dict[str, Rows]) -> list[str]:
    """What `deposit` prints of tables and of deleted keys."""
    return [*(f"{table} {len(rows)}" for table, rows in contents.items()),
            *(f"deletes/{table} {len(rows)}" for table, rows in deletes.items())]


# Of each table, whose rows it has: those of the objects of this table.
OWNERS = {"domain": "domain", "domainContacts": "domain", "domainStatuses": "domain", "domainNameServers": "domain",
          "host": "host", "hostAddresses": "host", "contact": "contact", "registrar": "registrar"}
# The columns that name objects, and their tables.
NAMES = {"domain": {2: "contact", 3: "registrar"}, "host": {2: "registrar"}, "contact": {2: "registrar"},
         "domainContacts": {0: "domain", 2: "contact"}, "domainStatuses": {0: "domain"},
         "domainNameServers": {0: "domain", 1: "host"}, "hostAddresses": {0: "host"}, "registrar": {}}
# The tables and the deleted keys of a deposit.
Sent = tuple[dict[str, Rows], dict[str, Rows]]


def restored(chain: list[Sent]) -> dict[str, Rows]:
    """The tables after these deposits: the rows that each has, unless a later one renews their object's rows of the table."""
    found: dict[str, Rows] = {table: [] for table in TABLES}
    for place, (contents, _) in enumerate(chain):
        for table, rows in contents.items():
            found[table] += [row for row in rows if not any(renews(later, table, row[0]) for later in chain[place + 1:])]
    return {table: ascending(rows) for table, rows in found.items()}


def ascending(rows: Rows) -> Rows:
    """The rows by the bytes of their fields."""
    return sorted(rows, key=lambda row: [text.encode() for text in row])


def renews(sent: Sent, table: str, key: str) -> bool:
    contents, deletes = sent
    owner = OWNERS[table]
    return any(row[0] == key for rows in (contents.get(table, ()), contents.get(owner, ()), deletes.get(owner, ())) for row in rows)


def is_whole(tables: dict[str, Rows]) -> bool:
    """Whether each object that a row names is there."""
    keys = {table: {row[0] for row in tables[table]} for table in DELETED}
    return all(row[column] in keys[of] or (table, column, row[column]) == ("domain", 2, "")
               for table, rows in tables.items() for row in rows for column, of in NAMES[table].items())


def deposit_of(dice: random.Random, kind: str, sent: Sent, counts: dict[str, int], day: str, previous: str | None) -> bytes:
    """The deposit of these tables and deleted keys as this script makes it."""
    made = Deposit(dice, kind, day=day, number=number_of(day), previous=previous)
    contents, deletes = sent
    made.rows = {("contents", table): rows for table, rows in contents.items()}
    made.rows |= {("deletes", table): rows for table, rows in deletes.items()}
    for at in made.rows:
        made.spell(at)
    made.label()
    made.members["header"]["count"] = {uri: counts[table] for uri, table in COUNTED.items()}
    made.write()
    made.join()
    return made.joined


def compare(kind: str, wanted: bytes, out: Path, rows: list[str], day: str, printed: str) -> None:
    """Compares the parts of a deposit, and what is printed of them."""
    parts = parts_of(wanted)
    same(parts, {it.name: it.read_bytes() for it in out.iterdir()}, f"parts of {day}")
    lines = [f"{name} {len(part)}" for name, part in parts.items()]
    number = number_of(day)
    stated = f"example --date {day} --kind {kind} --revision 0 --parts {len(parts)} --id {number}"
    body = f'{{"date":"{day}","id":"{number}","kind":"{kind}","parts":{len(parts)},"revision":0,"tld":"example"}}'
    same([*rows, *lines, f"escrow verify VAULT {stated}", body], printed.splitlines(), "what pack prints")


def write(dice: random.Random, folder: Path, contents: dict[str, Rows], deletes: dict[str, Rows] | None,
          headers: bool) -> None:
    """The files of these tables and deleted keys; without such there is no folder for them."""
    for place, files, width in ((folder, contents, None), (folder / "deletes", deletes, 1)):
        if files is not None:
            place.mkdir()
            for table, rows in files.items():
                header = COLUMNS[table][:width] if headers else None
                (place / f"{table}.csv").write_bytes(any_spelling(dice, rows, header))


@dataclass
class Registry:
    """A registry: its rows, the keys after its last deposits, and the parts and ids that it has sent."""
    dice: random.Random
    folder: Path
    rows: dict[str, Rows]
    keys: dict[str, set[str]] = field(default_factory=dict)
    # The keys after the full deposit, for an incremental one.
    full_keys: dict[str, set[str]] = field(default_factory=dict)
    # The parts of the full deposit, and those of the differential ones since.
    full_parts: list[Path] = field(default_factory=list)
    later_parts: list[Path] = field(default_factory=list)
    # What they have.
    chain: list[Sent] = field(default_factory=list)
    ids: list[str] = field(default_factory=list)
    day: int = 1

    def send(self, kind: str, contents: dict[str, Rows], deletes: dict[str, Rows], counts: dict[str, int]) -> None:
        """Packs a deposit, and compares it."""
        self.day += 1
        day, headers = f"2026-08-{self.day:02}", self.dice.random() < 0.5
        number = number_of(day)
        previous = {"full": [], "diff": self.ids[-1:], "incr": self.dice.choice([[], self.ids[:1]])}[kind]
        wanted = deposit_of(self.dice, kind, (contents, deletes), counts, day, previous[0] if previous else None)
        tables, out = self.folder / f"tables{self.day}", self.folder / f"parts{self.day}"
        write(self.dice, tables, contents, deletes, headers)
        after = {"full": [], "diff": self.full_parts + self.later_parts, "incr": self.full_parts + self.dice.choice([[], self.later_parts])}[kind]
        words = ["--tld", "example", "--date", day, "--kind", kind, "--revision", "0", "--id", number,
                 *(["--previous", *previous] if previous else []), *(["--header"] if headers else []),
                 *(["--after", *self.dice.sample(after, len(after))] if after else [])]
        printed = ran("pack", tables, *words, "--out", out)
        rows = rows_told(contents, deletes)
        compare(kind, wanted, out, rows, day, printed)
        parts = sorted(out.iterdir())
        self.checks(kind, rows, parts, after, f"{kind.upper()} {number} {day}")
        self.unpacks(contents, deletes, parts)
        sent = contents, deletes
        if kind == "full":
            self.full_parts, self.chain = parts, [sent]
        elif kind == "diff":
            self.later_parts += parts
            self.chain.append(sent)
        # An incremental deposit follows the full one alone.
        others = [part for part in after if part not in self.full_parts] if kind == "incr" else []
        self.restores([self.chain[0], sent] if kind == "incr" else self.chain, [*after, *parts], len(others))
        if kind != "incr":
            self.ids.append(number)

    def checks(self, kind: str, rows: list[str], parts: list[Path], after: list[Path], line: str) -> None:
        left_out = ", without check 7" if kind == "full" else ", without checks 6, 7 and 11"
        same([f"PASS {line}{left_out}", *rows], ran("check", *parts).splitlines(), "check")
        if after:
            same([f"PASS {line}", *rows], ran("check", *parts, "--after", *after).splitlines(), "check --after")

    def unpacks(self, contents: dict[str, Rows], deletes: dict[str, Rows], parts: list[Path]) -> None:
        folder = self.folder / f"unpacked{self.day}"
        ran("unpack", *parts, "--out", folder)
        wanted = {f"{table}.csv": rows for table, rows in contents.items()}
        wanted |= {f"deletes/{table}.csv": rows for table, rows in deletes.items()}
        found = {str(it.relative_to(folder)): it.read_bytes() for it in folder.rglob("*") if it.is_file()}
        text = found.pop("envelope.json")
        same({name: "".join(map(spelled, rows)).encode() for name, rows in wanted.items()}, found, "unpack")
        same(True, text in b"".join(it.read_bytes() for it in parts), "envelope.json")

    def restores(self, chain: list[Sent], parts: list[Path], others: int) -> None:
        folder, wanted, headers = self.folder / f"restored{self.day}", restored(chain), self.dice.random() < 0.5
        parts = self.dice.sample(parts, len(parts))
        done = run("restore", *parts, *(["--header"] if headers else []), "--out", folder)
        files = {table: "".join(map(spelled, [*([COLUMNS[table]] if headers else []), *rows])).encode() for table, rows in wanted.items()}
        told = [*(f"{table} {len(rows)}" for table, rows in wanted.items()),
                *(f"{folder}/{table}.csv {len(text)}" for table, text in files.items())]
        printed = done.stdout.decode().splitlines()
        same((0, len(chain), told), (done.returncode, sum(line.startswith("PASS ") for line in printed), printed[-len(told):]), "restore")
        same({f"{table}.csv": text for table, text in files.items()}, {it.name: it.read_bytes() for it in folder.iterdir()}, "the tables")
        notes, noun = done.stderr.decode().splitlines(), "part" if others == 1 else "parts"
        left = [f"note: left out {others} {noun} of deposits between the full and the incremental one"] if others else []
        same((left, is_whole(wanted)), (notes[:len(left)], len(notes) == len(left)), f"the notes {notes}")

    def full(self) -> None:
        self.keys = {table: {row[0] for row in self.rows[table]} for table in DELETED}
        self.full_keys = {table: set(keys) for table, keys in self.keys.items()}
        self.send("full", self.rows, {}, {table: len(self.rows[table]) for table in DELETED})

    def later(self, kind: str) -> None:
        """A deposit of some changes: new and changed rows, and deleted keys, which need not be there."""
        fresh = registry(self.dice)
        contents = {table: self.renamed(table, fresh[table]) for table in TABLES if self.dice.random() < 0.5}
        deletes = {table: self.deleted(table) for table in DELETED if self.dice.random() < 0.5}
        before = self.keys if kind == "diff" else self.full_keys
        after = {}
        for table in DELETED:
            contained = {row[0] for row in contents.get(table, ())}
            named = contained | {row[0] for row in deletes.get(table, ())}
            after[table] = before[table] - named | contained
        self.send(kind, contents, deletes, {table: len(keys) for table, keys in after.items()})
        if kind == "diff":
            self.keys = after

    def renamed(self, table: str, rows: Rows) -> Rows:
        """Some of the rows, a part of them under keys of their own."""
        if KEYS[table] > 1:
            return rows
        return [[f"n{self.day}" + row[0] if self.dice.random() < 0.5 else row[0], *row[1:]] for row in rows]

    def deleted(self, table: str) -> Rows:
        keys = sorted(self.keys[table])
        some = self.dice.sample(keys, self.dice.randint(0, len(keys)))
        return [[key] for key in some + [f"x{self.day}"] * self.dice.randint(0, 1)]


def case(number: int, seed: int, folder: Path) -> None:
    dice = random.Random(f"{seed}.{number}")
    rows = registry(dice)
    for table in TABLES:
        # Some registries are large enough for two parts.
        if table == "domain" and dice.random() < 0.03:
            rows[table] += [[f"l{i}.example", *rows[table][0][1:]] for i in range(18_000)]
    made = Registry(dice, folder, rows)
    made.full()
    for _ in range(dice.randint(0, 3)):
        made.later(dice.choice(["diff", "diff", "incr"]))


# ---- chains of whole tables

# Keys that stand in another order by the bytes of their rows than by those of their fields, or have to be quoted. Contacts and
# registrars share theirs, as domains and hosts do.
IDS = ["A", "A!", 'A"', "A,", "A1", "AB"]
NAMES_OF = ["a", "a-", "a.", "a0.example", "b.example"]
POOLS = {"registrar": IDS[:4], "contact": IDS, "host": NAMES_OF, "domain": NAMES_OF}
TITLES = ["Plain", "plain", "Example, Inc.", 'Ex"ample', '"', "Exämple", "one\ntwo", "one\r\ntwo", " Plain", "\ufeff"]
ADDRESSES = [["192.0.2.1", "v4"], ["192.0.2.10", "v4"], ["2001:db8::1", "v6"]]
STATUSES = ["ok", "Ok", "o", "inactive"]


class World:
    """A small registry, whose objects come, go, change and change back, night by night."""

    def __init__(self, dice: random.Random):
        self.dice, self.salt = dice, dice.random()
        # Of each object that is there, in which of its forms it is.
        self.forms: dict[str, dict[str, int]] = {kind: {} for kind in POOLS}
        self.pass_night(1)

    def pass_night(self, share: float) -> None:
        """Such a share of all objects comes, goes, or takes another form or the same."""
        for kind, keys in POOLS.items():
            for key in keys:
                if self.dice.random() < share:
                    self.forms[kind].pop(key, None)
                    if self.dice.random() < 0.75:
                        self.forms[kind][key] = self.dice.randrange(3)
        # Without a registrar, or in a rare night, there is nothing.
        if not self.forms["registrar"] or share and self.dice.random() < 0.02:
            self.forms = {kind: {} for kind in POOLS}

    def tables(self) -> dict[str, Rows]:
        """Its tables, their rows in any order."""
        tables: dict[str, Rows] = {table: [] for table in TABLES}
        for kind, forms in self.forms.items():
            for key, form in forms.items():
                for table, rows in self.rows_of(kind, key, form).items():
                    tables[table] += rows
        for rows in tables.values():
            self.dice.shuffle(rows)
        return tables

    def rows_of(self, kind: str, key: str, form: int) -> dict[str, Rows]:
        """The rows of an object. They name objects that are there: if others are there, the rows may be others too."""
        dice = random.Random(f"{self.salt} {kind} {key} {form}")
        registrars, contacts, hosts = (sorted(self.forms[it]) for it in ("registrar", "contact", "host"))

        def some(of: list) -> list:
            return dice.sample(of, dice.randint(0, min(2, len(of))))

        if kind == "registrar":
            return {kind: [[key, dice.choice(TITLES), dice.choice(["", "292"]), "ok"]]}
        made = {kind: [[key, ROID, dice.choice(registrars), MOMENT]]}
        if kind == "host":
            made["hostAddresses"] = [[key, *it] for it in some(ADDRESSES)]
        if kind == "domain":
            made[kind] = [[key, ROID, dice.choice(["", *contacts]), dice.choice(registrars), MOMENT, MOMENT]]
            made["domainContacts"] = [[key, role, it] for role in ("admin", "tech") for it in some(contacts)]
            made["domainStatuses"] = [[key, it] for it in some(STATUSES)]
            made["domainNameServers"] = [[key, it] for it in some(hosts)]
        return made


def objects_in(tables: dict[str, Rows]) -> dict[tuple[str, str], set[tuple[str, ...]]]:
    """The rows of each object, behind the names of their tables. Its own table and its key name the object."""
    found: dict[tuple[str, str], set[tuple[str, ...]]] = {}
    for table, rows in tables.items():
        for row in rows:
            found.setdefault((OWNERS[table], row[0]), set()).add((table, *row))
    return found


def changes(bases: list[dict[str, Rows]], now: dict[str, Rows]) -> Sent:
    """What a deposit has that takes each of these tables to those of now: the objects that are new or changed, whole, and the
    keys of those that are gone."""
    objects, before = objects_in(now), [objects_in(it) for it in bases]
    changed = {it for it, rows in objects.items() if any(base.get(it) != rows for base in before)}
    gone = {it for base in before for it in base if it not in objects}
    contents = {table: ascending([row for row in now[table] if (OWNERS[table], row[0]) in changed]) for table in TABLES}
    deletes = {table: ascending([[key] for of, key in gone if of == table]) for table in DELETED}
    return tuple({table: rows for table, rows in it.items() if rows} for it in (contents, deletes))


def rows_in(deposit: bytes) -> Sent:
    """The tables and deleted keys of a deposit."""
    envelope, rest = taken_apart(deposit)
    found: Sent = {}, {}
    for entries, tables in zip((envelope["contents"], envelope.get("deletes", [])), found):
        for entry in entries:
            text, rest = rest[:entry["length"]].decode(), rest[entry["length"]:]
            tables[entry["name"]] = list(csv.reader(io.StringIO(text, newline="")))
    return found


@dataclass
class Packed:
    """A deposit of a chain: its kind and day, its parts, and what it has."""
    kind: str
    day: str
    parts: list[Path]
    sent: Sent


def parts_in(deposits: list[Packed]) -> list[Path]:
    return [part for it in deposits for part in it.parts]


def left_out(count: int, why: str) -> list[str]:
    """What is noted of parts that are not read."""
    return [f"note: left out {count} part{'s' if count > 1 else ''} of {why}"] if count else []


@dataclass
class Chain:
    """The days of a registry, and all deposits of its tables."""
    dice: random.Random
    folder: Path
    world: World
    day: datetime.date
    deposits: list[Packed] = field(default_factory=list)

    def since_full(self) -> list[Packed]:
        """The last full deposit and those since."""
        first = max((place for place, it in enumerate(self.deposits) if it.kind == "full"), default=0)
        return self.deposits[first:]

    def past(self) -> list[str]:
        """What is noted of the deposits before the last full one."""
        count = len(parts_in(self.deposits)) - len(parts_in(self.since_full()))
        return left_out(count, "days before the latest full deposit")

    def any_kind(self) -> str:
        if not self.deposits or self.day.weekday() == 6:
            return "full"
        return self.dice.choices(["diff", "incr", "full"], [12, 7, 1])[0]

    def play(self) -> None:
        """Sends the deposits of some days."""
        for _ in range(self.dice.randint(2, 6)):
            kind = self.any_kind()
            if kind != "full" and self.dice.random() < 0.15:
                self.send_by_hand(kind)
            else:
                self.send_whole(kind)
            self.day += datetime.timedelta(days=1)
            self.world.pass_night(self.dice.choice([0, 0.1, 0.2, 0.2, 0.4, 1]))

    def pack(self, kind: str, tables: dict[str, Rows], deletes: dict[str, Rows] | None, *words: str) -> tuple[Path, str]:
        """Packs a folder of these tables and deleted keys behind all parts: the folder of its parts, and what is printed."""
        source, out, headers = self.folder / f"tables.{self.day}", self.folder / f"parts.{self.day}", self.dice.random() < 0.5
        write(self.dice, source, tables, deletes, headers)
        after = [] if kind == "full" else parts_in(self.deposits)
        done = run("pack", source, *words, "--tld", "example", "--date", str(self.day), "--kind", kind, "--revision", "0",
                   "--id", number_of(str(self.day)), *["--header"] * headers,
                   *(["--after", *self.dice.sample(after, len(after))] if after else []), "--out", out)
        notes = self.past() if after else []
        same((0, notes), (done.returncode, done.stderr.decode().splitlines()), f"pack {kind} {self.day}")
        return out, done.stdout.decode()

    def send_by_hand(self, kind: str) -> None:
        """Packs rows and keys as they come, without a thought of the registry: some of objects that are not there."""
        other = World(self.dice).tables()
        contents = {table: rows for table, rows in other.items() if self.dice.random() < 0.4}
        keys = {table: self.dice.sample(POOLS[table], 2) for table in DELETED if self.dice.random() < 0.4}
        deletes = {table: [[key] for key in some] for table, some in keys.items()}
        out, _ = self.pack(kind, contents, deletes)
        self.deposits.append(Packed(kind, str(self.day), sorted(out.iterdir()), (contents, deletes)))

    def send_whole(self, kind: str) -> None:
        """Packs the tables of the day: the deposit has what changed, and all deposits together give the tables."""
        now, day, chain = self.world.tables(), str(self.day), self.since_full()
        before = [it.sent for it in chain]
        bases = {"full": [], "diff": [before], "incr": [before, before[:1]]}[kind]
        wanted: Sent = changes([*map(restored, bases)], now) if bases else (now, {})
        previous, words = self.previous(kind, chain)
        whole = ["--whole"] if kind != "full" or self.dice.random() < 0.5 else []
        out, printed = self.pack(kind, now, None, *whole, *words)
        self.deposits.append(Packed(kind, day, sorted(out.iterdir()), wanted))
        same(wanted, rows_in(b"".join(it.read_bytes() for it in self.deposits[-1].parts)), f"what the {kind} of {day} has")
        counts = {table: len(now[table]) for table in DELETED}
        compare(kind, deposit_of(self.dice, kind, wanted, counts, day, previous), out, rows_told(*wanted), day, printed)
        self.check(kind, wanted, chain)
        self.restores({table: ascending(rows) for table, rows in now.items()})

    def previous(self, kind: str, chain: list[Packed]) -> tuple[str | None, list[str]]:
        """The id that a deposit names as the one before it, and the words that sometimes name it too. An incremental one
        names it where the words do."""
        if kind == "full":
            return None, []
        number = number_of(chain[-1 if kind == "diff" else 0].day)
        words = ["--previous", number] if self.dice.random() < 0.2 else []
        return number if kind == "diff" or words else None, words

    def check(self, kind: str, sent: Sent, chain: list[Packed]) -> None:
        """Sometimes: the deposit passes behind those before it."""
        if self.dice.random() < 0.2 and kind != "full":
            printed = ran("check", *self.deposits[-1].parts, "--after", *parts_in(chain))
            told = [f"PASS {kind.upper()} {number_of(str(self.day))} {self.day}", *rows_told(*sent)]
            same(told, printed.splitlines(), "check")

    def restores(self, now: dict[str, Rows]) -> None:
        """All parts give the tables of the day. An incremental deposit gives them behind the full one alone, and by the rule
        of this script behind all in between too."""
        chain = self.since_full()
        if chain[-1].kind != "incr":
            return self.restore(self.deposits, now, self.past())
        between = left_out(len(parts_in(chain[1:-1])), "deposits between the full and the incremental one")
        self.restore(self.deposits, now, self.past() + between)
        self.restore([chain[0], chain[-1]], now, [])
        same(now, restored([it.sent for it in chain]), f"the tables of {self.day} after the deposits in between too")

    def restore(self, deposits: list[Packed], now: dict[str, Rows], notes: list[str]) -> None:
        out, headers = Path(tempfile.mkdtemp(prefix="restored", dir=self.folder)), self.dice.random() < 0.5
        parts = parts_in(deposits)
        done = run("restore", *self.dice.sample(parts, len(parts)), *["--header"] * headers, "--out", out)
        same((0, notes), (done.returncode, done.stderr.decode().splitlines()), f"restore {self.day}")
        wanted = {f"{table}.csv": [COLUMNS[table]] * headers + rows for table, rows in now.items()}
        texts = {name: "".join(map(spelled, rows)).encode() for name, rows in wanted.items()}
        found = {it.name: it.read_bytes() for it in out.iterdir()}
        same(texts, found, f"the tables of {self.day}, restored of {len(deposits)} deposits")


def chain(number: int, seed: int, folder: Path) -> None:
    dice = random.Random(f"{seed}.chain.{number}")
    first = datetime.date(2026, 8, 2) + datetime.timedelta(days=dice.randrange(7))
    Chain(dice, folder, World(dice), first).play()


# ---- tables with faults

# What no key of a column is, in its form.
NOBODY = {"domain": "nobody.example", "host": "nobody.example", "contact": "Nobody", "registrar": "Nobody"}


@dataclass
class BrokenFile:
    """A file with faults: its list and table, its rows, and whether their first is wanted to be a header and is none."""
    place: str
    table: str
    rows: Rows
    lacks_header: bool = False
    lines: list[int] = field(default_factory=list)

    @property
    def width(self) -> int:
        return 1 if self.place == "deletes" else len(COLUMNS[self.table])

    @property
    def path(self) -> str:
        return f"{self.place}/{self.table}.csv".removeprefix("contents/")

    def break_row(self, dice: random.Random) -> None:
        """Breaks a row, or adds one that repeats the key of another."""
        rows = [row for row in self.rows if len(row) == self.width]
        if not rows:
            return
        row, column = dice.choice(rows), dice.randrange(self.width)
        match dice.randrange(5):
            case 0:
                row.append("x")
            case 1 if len(row) > 1:
                row.pop()
            case 2 | 3:
                of = NAMES[self.table].get(column)
                row[column] = NOBODY[of] if of and dice.random() < 0.7 else dice.choice(FORMS[self.table][column][1])
            case _:
                self.rows.insert(dice.randint(0, len(self.rows)), list(row))

    def faults(self, known: dict[str, set[str]] | None, no_key: str) -> list[tuple[int, str]]:
        """Each fault in order: its rank among those of a file, and what is printed. Without `known` a row may name any key."""
        at = "1" if self.lacks_header else ""
        told = [(0, f"{self.path}:1: U4 {self.path}: the first row is not the names of its columns")] if at else []
        firsts: dict[tuple, int] = {}
        for number, (row, line) in enumerate(zip(self.rows, self.lines), 1):
            told += [(rank, f"{self.path}:{line}: {no_key if rank == 4 else 'U5'} {self.path} row {number}{text}")
                     for rank, text in self.row_faults(row, number, firsts, known)]
        return told

    def row_faults(self, row: list[str], number: int, firsts: dict[tuple, int], known: dict[str, set[str]] | None) -> list[tuple[int, str]]:
        if len(row) != self.width:
            return [(1, f": {len(row)} fields, {self.width} are wanted")]
        told: list[tuple[int, str]] = []
        for column, text in enumerate(row):
            form, others = FORMS[self.table][column]
            of = NAMES[self.table].get(column)
            if text in others:
                told.append((2, f" {COLUMNS[self.table][column]}: not {form}: {shown(text)}"))
            elif known is not None and of and text and text not in known[of]:
                told.append((4, f" {COLUMNS[self.table][column]}: no {of}: {shown(text)}"))
        key = tuple(row[:min(KEYS[self.table], self.width)])
        first = firsts.setdefault(key, number)
        if first < number and all(rank == 4 for rank, _ in told):
            told.insert(0, (3, f": the key of row {first}"))
        return told


def broken_files(dice: random.Random, kind: str, whole: bool) -> list[BrokenFile]:
    """The files of a deposit of a kind, in its order, some of them with faults."""
    rows = registry(dice)
    files = [BrokenFile("contents", table, rows[table]) for table in TABLES if whole or dice.random() < 0.7]
    if not whole:
        files += [BrokenFile("deletes", table, [[row[0]] for row in rows[table]]) for table in DELETED if dice.random() < 0.5]
    for _ in range(dice.choice([0, 1, 2, 5, 20])):
        if files:
            dice.choice(files).break_row(dice)
    return files


def write_broken(dice: random.Random, files: list[BrokenFile], tables: Path, headers: bool) -> dict[str, set[str]]:
    """Writes files, some without their headers, and gives the keys that their rows have."""
    known: dict[str, set[str]] = {table: set() for table in DELETED}
    for file in files:
        header = COLUMNS[file.table][:file.width]
        file.lacks_header = headers and dice.random() < 0.05
        front = [dice.choice([header[:-1] + ["x"], header + [""]])] if file.lacks_header and dice.random() < 0.5 or not file.rows else []
        rows = front + file.rows if file.lacks_header else [header] * headers + file.rows
        text, lines = lined_spelling(dice, rows)
        (tables / file.path).parent.mkdir(parents=True, exist_ok=True)
        (tables / file.path).write_bytes(text)
        if file.place == "contents" and file.table in known:
            known[file.table] |= {row[0] for row in rows[headers and not file.lacks_header:]}
        file.rows, file.lines = rows[headers:], lines[headers:]
    return known


def base_part(dice: random.Random, folder: Path) -> Path:
    """The part of a full deposit."""
    write(dice, folder / "base", registry(dice), None, False)
    ran("pack", folder / "base", "--tld", "example", "--date", "2026-08-30", "--kind", "full", "--revision", "0", "--id", "20260830001",
        "--out", folder / "parts")
    return folder / "parts" / "example_2026-08-30_full_S1_R0.ryde"


def broken(number: int, seed: int, folder: Path) -> None:
    dice = random.Random(f"{seed}.broken.{number}")
    kind = dice.choice(["full", "diff", "whole"])
    files = broken_files(dice, kind, kind != "diff")
    headers, tables = dice.random() < 0.5, folder / "broken"
    tables.mkdir()
    known = write_broken(dice, files, tables, headers)
    of_files = [file.faults(None if kind == "diff" else known, "U7" if kind == "full" else "U12") for file in files]
    words = ["--tld", "example", "--date", "2026-08-31", "--kind", "full" if kind == "full" else "diff", "--revision", "0", "--id", "20260831001",
             *(["--header"] if headers else []), *({"full": [], "diff": ["--previous", "X1"], "whole": ["--whole"]}[kind])]
    if kind == "whole":
        words += ["--after", base_part(dice, folder)]
    told = [f"{tables}/{line}" for one in of_files for _, line in one]
    done, first = run("pack", tables, *words, "--all", "--out", folder / "all"), run("pack", tables, *words, "--out", folder / "first")
    if not told:
        same((first.returncode, first.stdout, first.stderr), (done.returncode, done.stdout, done.stderr), "files without a fault")
        return
    same([*told, f"{len(told)} fault{'s' if len(told) > 1 else ''}"], done.stderr.decode().splitlines(), "pack --all")
    same((1, b"", 1, b"", False), (done.returncode, done.stdout, first.returncode, first.stdout, (folder / "all").exists()), "a refusal")
    refused = [min(one, key=lambda it: it[0]) for one in of_files if any(rank < 4 for rank, _ in one)] or [one[0] for one in of_files if one]
    same(refused[0][1].split(": ", 1)[1] + "\n", first.stderr.decode(), "pack without --all")


# ---- the script

def tried(one: Callable[[int, int, Path], None], name: str, number: int, seed: int, kept: str) -> int:
    """Runs a case or a chain in a new folder, which is kept under this name if there is one. Gives how many failed."""
    folder, failed = Path(tempfile.mkdtemp(prefix="packing")), 0
    try:
        one(number, seed, folder)
    except Wrong as wrong:
        failed = 1
        print(f"{name} {number}: {wrong}", flush=True)
    if kept:
        shutil.move(folder, kept)
    else:
        shutil.rmtree(folder)
    return failed


def main() -> int:
    words = parser(__doc__)
    words.add_argument("--cases", type=int, default=200, metavar="N")
    words.add_argument("--chains", type=int, default=200, metavar="N")
    words.add_argument("--broken", type=int, default=400, metavar="N")
    words.add_argument("--seed", type=int, default=1, metavar="S")
    words.add_argument("--only", type=int, metavar="K")
    words.add_argument("--only-chain", type=int, metavar="K")
    words.add_argument("--only-broken", type=int, metavar="K")
    words.add_argument("--program", type=Path, default=PROGRAM)
    asked = words.parse_args()
    globals()["PROGRAM"] = built(asked.program)
    runs = [(case, "case", asked.only, "packing."), (chain, "chain", asked.only_chain, "packing.chain."),
            (broken, "broken", asked.only_broken, "packing.broken.")]
    runs = [(one, name, number, f"{kept}{number}") for one, name, number, kept in runs if number is not None]
    if not runs:
        counts = (case, "case", asked.cases), (chain, "chain", asked.chains), (broken, "broken", asked.broken)
        runs = [(one, name, number, "") for one, name, count in counts for number in range(count)]
    failed = sum(tried(one, name, number, asked.seed, kept) for one, name, number, kept in runs)
    return tell(len(runs) - failed, failed)


if __name__ == "__main__":
    sys.exit(main())
