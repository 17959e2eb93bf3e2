#!/usr/bin/env python3
"""Plays the month of a registry from its tables to the agent and back: packs, sends, releases and unpacks its deposits.

    tests/registry.py [--domains N] [--days N] [--seed S] [--packer PROGRAM] [--program ESCROW]

A registry has N domains (100,000) with their contacts, hosts and registrars, in tables as a database exports them: header
rows, CR LF, needless quotes. Each day its objects change, come and go, and names are given again. On Sundays, the first day
among them, it packs a full deposit, on other days a differential one of what differs from yesterday: `deposit pack --whole`
gets all tables, and finds it; on Wednesdays this script does, and hands over the changed rows. A server of that day takes the
parts by curl and then the line that `deposit pack` printed last: the answer has to be a receipt.

After so many days (30) the agent releases the parts. The last full deposit and those since are fetched and unpacked: each
file has to have the bytes that this script spells with Python's csv module. `deposit restore` has to make up the tables of
the last day, byte for byte, and `deposit check` to pass the last deposit behind those before it.

What the registry does depends on the seed. A domain takes some 80 bytes, so that 100,000 fit into the 8 MiB of a deposit.
It needs curl, and the programs that `rt run` builds in crates/deposit and crates/escrow. The last line counts the days and,
as one more, what follows them; it ends with the first that fails. A month takes a minute or two, of 2,000 domains seconds.
"""
from __future__ import annotations

import argparse
import csv
import datetime
import io
import json
import random
import shutil
import signal
import statistics
import sys
import tempfile
import time
from collections.abc import Iterable, Sequence
from pathlib import Path

from lib import ESCROW, PACKER, TABLES, Room, Wrong, answer_of, built, lines_of, notice, parser, part_name, response, tell
from reasons import COLUMNS, COUNTED, DELETED

TLD, FIRST, WEDNESDAY, SUNDAY = "zz", datetime.date(2026, 8, 2), 2, 6
# The tables that have rows of an object of a kind, that with its key first.
TABLES_OF = {"registrar": ["registrar"], "contact": ["contact"], "host": ["host", "hostAddresses"],
             "domain": ["domain", "domainContacts", "domainStatuses", "domainNameServers"]}
# The columns that have keys of objects.
REFERENCES = {"contact": {2: "registrar"}, "host": {2: "registrar"}, "domain": {2: "contact", 3: "registrar"},
              "domainContacts": {2: "contact"}, "domainNameServers": {1: "host"}}
# How many objects of a kind there are for each domain, and which share of them comes, goes and changes in a day.
SHARES = {"registrar": (0.0005, 0.005), "contact": (0.02, 0.004), "host": (0.005, 0.004), "domain": (1, 0.004)}
LEAST = {"registrar": 4, "contact": 20, "host": 20, "domain": 20}
SYLLABLES = [first + second for first in "bdfgklmnprstvwz" for second in "aeiou"]
STATUSES = [["ok"], ["inactive"], ["clientHold"], ["pendingDelete", "serverHold"]]
Row = Sequence[str]
Rows = list[Row]
# The rows of an object in each of its tables. They are not changed: another object takes its place.
Object = tuple[Rows, ...]
Objects = dict[str, dict[str, Object]]


class Registry:
    """The objects of a registry, by their kinds and keys."""

    def __init__(self, dice: random.Random, domains: int):
        self.dice, self.serial, self.today = dice, 0, FIRST
        self.objects: Objects = {kind: {} for kind in TABLES_OF}
        # The keys that are there to be picked, and those that were deleted.
        self.keys: dict[str, list[str]] = {}
        self.deleted: dict[str, list[str]] = {kind: [] for kind in TABLES_OF}
        for kind, (share, _) in SHARES.items():
            for _ in range(max(LEAST[kind], int(domains * share))):
                self.add(kind)
            self.keys[kind] = list(self.objects[kind])

    def word(self, length: int = 3) -> str:
        return "".join(self.dice.choices(SYLLABLES, k=length))

    def label(self) -> str:
        """A label of a domain name; some are internationalized."""
        chance = self.dice.random()
        if chance < 0.03:
            return "xn--" + f"{self.word()}é".translate(str.maketrans("aou", "äöü")).encode("punycode").decode()
        return self.word() if chance < 0.8 else f"{self.word(2)}{self.dice.choice(['-', ''])}{self.dice.randrange(1000)}"

    def number(self) -> str:
        """Another number at each call, in letters and digits."""
        self.serial, rest, text = self.serial + 1, self.serial, ""
        while rest or not text:
            rest, digit = divmod(rest, 36)
            text = "0123456789ABCDEFGHIJKLMNOPQRSTUVWXYZ"[digit] + text
        return text

    def moment(self, first: int, last: int) -> str:
        """A moment in one of these years."""
        pick = self.dice.randint
        return (f"{pick(first, last)}-{pick(1, 12):02}-{pick(1, 28):02}"
                f"T{pick(0, 23):02}:{pick(0, 59):02}:{pick(0, 59):02}Z")

    def key(self, kind: str) -> str:
        """A key that no object of this kind has: some have had objects before."""
        past, there = self.deleted[kind], self.objects[kind]
        if past and self.dice.random() < 0.3:
            return past.pop(self.dice.randrange(len(past)))
        make = {"registrar": lambda: f"R{self.number()}", "contact": lambda: f"C{self.number()}",
                "host": lambda: f"ns{self.dice.randint(1, 2)}.{self.word()}.{self.dice.choice([TLD, 'net'])}",
                "domain": lambda: f"{self.label()}.{TLD}"}[kind]
        while (key := make()) in there or key in past:
            pass
        return key

    def made(self, kind: str, key: str) -> Object:
        """A new object."""
        return {"registrar": self.registrar, "contact": self.contact, "host": self.host, "domain": self.domain}[kind](key)

    def registrar(self, key: str) -> Object:
        one, other = self.word().title(), self.word().title()
        names = [f"{one} Domains", f"{one}, {other} & Co.", f'{one} "{other}", Inc.', f"Gebrüder {one}", f"{one}\n{other}"]
        return ([[key, self.dice.choice(names), self.dice.choice(["", str(self.dice.randint(1, 9999))]), "ok"]],)

    def contact(self, key: str) -> Object:
        return ([[key, f"{self.number()}-ZZ", self.pick("registrar"), self.moment(2001, 2025)]],)

    def host(self, key: str) -> Object:
        addresses = [[key, f"192.0.2.{self.dice.randrange(256)}", "v4"],
                     [key, f"2001:db8::{self.dice.randrange(65_536):x}", "v6"]]
        main = [key, f"{self.number()}-ZZ", self.pick("registrar"), self.moment(2001, 2025)]
        return [main], self.dice.sample(addresses, self.dice.randint(0, 2))

    def domain(self, key: str) -> Object:
        chance = self.dice.random
        registrant = self.pick("contact") if chance() < 0.1 else ""
        main = [key, f"{self.number()}-ZZ", registrant, self.pick("registrar"), self.moment(2001, 2025),
                self.moment(2027, 2035)]
        kinds = [kind for kind in ("admin", "billing", "tech") if chance() < 0.02]
        statuses = self.dice.choice(STATUSES) if chance() < 0.15 else []
        hosts = [self.pick("host") for _ in range(2)] if chance() < 0.15 else []
        return ([main], [[key, kind, self.pick("contact")] for kind in kinds], [[key, status] for status in statuses],
                [[key, host] for host in sorted(set(hosts))])

    def pick(self, kind: str) -> str:
        """The key of an object that is there."""
        while (key := self.dice.choice(self.keys[kind])) not in self.objects[kind]:
            pass
        return key

    def add(self, kind: str) -> None:
        key = self.key(kind)
        self.objects[kind][key] = self.made(kind, key)

    def change(self, kind: str) -> None:
        """Changes an object in some of its tables. It stays the same object: it was made when it was made."""
        key = self.pick(kind)
        was, new = self.objects[kind][key], self.made(kind, key)
        kept = [[a if column in ("fRoid", "fCrDate") else b for column, a, b in zip(COLUMNS[kind], was[0][0], new[0][0])]]
        self.objects[kind][key] = tuple(map(self.dice.choice, zip(was, (kept, *new[1:]))))

    def delete(self, kind: str) -> None:
        key = self.pick(kind)
        del self.objects[kind][key]
        self.deleted[kind].append(key)

    def mended(self, table: str, row: Row) -> Row:
        """The row, with other keys in place of those that are gone."""
        for column, kind in REFERENCES.get(table, {}).items():
            if row[column] and row[column] not in self.objects[kind]:
                row = [*row[:column], self.pick(kind), *row[column + 1:]]
        return row

    def mend(self, kind: str) -> None:
        """Sees to it that no object of this kind refers to one that is gone."""
        for key, made in self.objects[kind].items():
            rows = tuple([self.mended(table, row) for row in rows] for table, rows in zip(TABLES_OF[kind], made))
            if rows != made:
                self.objects[kind][key] = tuple([list(row) for row in dict.fromkeys(map(tuple, it))] for it in rows)

    def pass_night(self) -> None:
        """The next day comes, and some of everything goes, comes and changes."""
        self.today += datetime.timedelta(days=1)
        for kind, (_, share) in SHARES.items():
            count = int(len(self.objects[kind]) * share) or self.dice.randint(0, 1)
            for change in (self.delete, self.add, self.change, self.change):
                for _ in range(count):
                    change(kind)
            self.keys[kind] = list(self.objects[kind])
        for kind in TABLES_OF:
            self.mend(kind)


def tables_of(objects: Objects) -> dict[str, Rows]:
    """All tables of these objects."""
    tables: dict[str, Rows] = {table: [] for table in TABLES}
    for kind, made in objects.items():
        for it in made.values():
            for table, rows in zip(TABLES_OF[kind], it):
                tables[table] += rows
    return tables


def ascending(rows: Rows) -> Rows:
    """The rows by the bytes of their fields."""
    return sorted(rows, key=lambda row: [field.encode() for field in row])


def are_same(one: Object | None, other: Object) -> bool:
    """Whether an object has the same rows, in any order."""
    return one == other or one is not None and [*map(ascending, one)] == [*map(ascending, other)]


def differences(before: Objects, now: Objects) -> tuple[dict[str, Rows], dict[str, Rows]]:
    """The rows of the objects that are new or changed, and the keys of those that are gone, ascending, where there are any."""
    new = {kind: {key: it for key, it in made.items() if not are_same(before[kind].get(key), it)}
           for kind, made in now.items()}
    gone = {kind: [[key] for key in before[kind] if key not in now[kind]] for kind in DELETED}
    return tuple({name: ascending(rows) for name, rows in tables.items() if rows} for tables in (tables_of(new), gone))


# ---- spelling

def exported(dice: random.Random, header: Row, rows: Rows) -> bytes:
    """A table as a database exports it."""
    text = io.StringIO(newline="")
    plain, quoting = (csv.writer(text, lineterminator="\r\n", quoting=how) for how in (csv.QUOTE_MINIMAL, csv.QUOTE_ALL))
    for row in [header, *rows]:
        (quoting if dice.random() < 0.1 else plain).writerow(row)
    return text.getvalue().encode()


def spelled(rows: Iterable[Row]) -> bytes:
    """Rows in their one spelling."""
    text = io.StringIO(newline="")
    csv.writer(text, lineterminator="\n").writerows(rows)
    return text.getvalue().encode()


def ran(*words: str | Path, notes: Sequence[str] = ()) -> list[str]:
    """The lines that a program prints where it does what it is asked, with these notes."""
    done = answer_of(words, seconds=600)
    if done.status or lines_of(done.err) != [*notes]:
        raise Wrong("\n".join([" ".join(map(str, words))[:400], *done.lines()[:20]]))
    return lines_of(done.out)


# ---- the month

def number_of(day: datetime.date) -> str:
    """The id of the deposit of a day."""
    return f"{day:%Y%m%d}001"


class Month:
    """The days of a registry, what it has sent since the last Sunday, and how long it took."""

    def __init__(self, room: Room, packer: Path, registry: Registry, days: int):
        self.room, self.packer, self.registry = room, packer, registry
        self.notices, self.names = 0, []
        # All parts, those of the last full deposit and of those since, and the tables and deleted keys of each of these.
        self.parts: list[Path] = []
        self.chain: list[list[Path]] = []
        self.sent: list[tuple[dict[str, Rows], dict[str, Rows]]] = []
        self.seconds: dict[str, list[tuple[int, float, float]]] = {"full": [], "diff": [], "diff by --whole": []}
        vault, blocks = room.folder / "vault", min(262_144, 2048 * (days + 1))
        vault.mkdir()
        ran(room.program, "init", vault, "--blocks", str(blocks), "--number", "0000000000000001")
        ran(room.program, "register", vault, TLD, "--first", str(FIRST))

    def day(self, before: Objects) -> None:
        """Sends the deposit of a day, before which these objects were there."""
        today, now = self.registry.today.weekday(), self.registry.objects
        kind, whole = "full" if today == SUNDAY else "diff", today not in (SUNDAY, WEDNESDAY)
        if kind == "full":
            self.chain, self.sent = [], []
        contents, deletes = (tables_of(now), {}) if kind == "full" else differences(before, now)
        self.write(*((tables_of(now), {}) if whole else (contents, deletes)))
        began = time.monotonic()
        parts, body = self.pack(kind, whole)
        packed = time.monotonic()
        self.send(parts, body)
        length, sent = sum(part.stat().st_size for part in parts), time.monotonic()
        self.seconds[f"{kind} by --whole" if whole else kind].append((length, packed - began, sent - packed))
        self.parts += parts
        self.chain.append(parts)
        self.sent.append((contents, deletes))
        self.counts(parts[0])

    def folder(self) -> Path:
        return self.room.folder / f"{self.registry.today}"

    def write(self, contents: dict[str, Rows], deletes: dict[str, Rows]) -> None:
        for folder, tables, width in ((self.folder(), contents, None), (self.folder() / "deletes", deletes, 1)):
            if tables or width is None:
                folder.mkdir()
            for table, rows in tables.items():
                (folder / f"{table}.csv").write_bytes(exported(self.registry.dice, COLUMNS[table][:width], rows))

    def pack(self, kind: str, whole: bool) -> tuple[list[Path], str]:
        """The parts of a deposit, and what states it."""
        today, out = str(self.registry.today), self.folder() / "parts"
        behind = ["--after", *self.parts] if kind == "diff" else []
        past = len(self.parts) - sum(map(len, self.chain))
        notes = [f"note: left out {past} parts of days before the latest full deposit"] if behind and past else []
        *lines, _, body = ran(self.packer, "pack", self.folder(), "--tld", TLD, "--date", today, "--kind", kind,
                              "--revision", "0", "--id", number_of(self.registry.today), "--header", *["--whole"] * whole,
                              *behind, "--out", out, notes=notes)
        lines = [line for line in lines if ".ryde " in line]
        parts = [out / part_name(today, kind, place + 1, tld=TLD) for place in range(len(lines))]
        self.room.equal([f"{part.name} {part.stat().st_size}" for part in parts], lines, f"the parts of {today}")
        return parts, body

    def send(self, parts: list[Path], body: str) -> None:
        """Puts the parts, and states the deposit: it has a receipt."""
        today, room = str(self.registry.today), self.room
        now = f"{today}T23:00:00Z"
        self.notices += 1
        with room.serve("vault", len(parts) + 1, now, until_closed=True) as server:
            for part in parts:
                received = f"received {part.name} {part.stat().st_size} {now}"
                # Nobody answers an Expect: curl would wait for a second.
                put = room.curl(server, "PUT", f"/deposits/{part.name}", part, "-H", "Expect:")
                room.equal(response(201, received), put, f"put {part.name}")
                self.names.append(part.name)
            receipt = notice(self.notices, "RECEIPT", today, now, number_of(self.registry.today), tld=TLD)
            room.equal(response(201, receipt), room.curl(server, "POST", "/statements", body), f"the statement of {today}")

    def counts(self, part: Path) -> None:
        """The envelope counts the objects of the registry."""
        data = part.read_bytes()
        counted = json.loads(data[14:14 + int(data[5:13])])["header"]["count"]
        wanted = {uri: len(self.registry.objects[kind]) for uri, kind in COUNTED.items()}
        self.room.equal(wanted, counted, f"the counts of {part.name}")

    def release(self) -> list[list[Path]]:
        """The parts of the last full deposit and of those since, as the agent releases them."""
        room, now, folder = self.room, f"{self.registry.today}T23:30:00Z", self.room.folder / "released"
        wanted = "\n".join([f"released R-1 {TLD} operator {now} {len(self.names)}", *self.names])
        folder.mkdir()
        with room.serve("vault", 1 + sum(map(len, self.chain)), now, until_closed=True) as server:
            released = room.curl(server, "PUT", "/releases/R-1", json.dumps({"ground": "operator", "tld": TLD}))
            room.equal(response(201, wanted), released, "the release")
            for part in (part for parts in self.chain for part in parts):
                head, _, data = room.curl(server, "GET", f"/releases/R-1/{part.name}").partition(b"\r\n\r\n")
                room.true(head.startswith(b"HTTP/1.1 200 OK\r\n"), f"fetching {part.name} is answered {head!r}")
                (folder / part.name).write_bytes(data)
        return [[folder / part.name for part in parts] for parts in self.chain]

    def rebuild(self, released: list[list[Path]]) -> None:
        """Unpacks these deposits, and restores the tables of the registry from all of them."""
        for parts, (contents, deletes) in zip(released, self.sent):
            out = self.room.folder / "unpacked" / parts[0].stem
            ran(self.packer, "unpack", *parts, "--out", out)
            wanted = {f"{table}.csv": rows for table, rows in contents.items()}
            wanted |= {f"deletes/{table}.csv": rows for table, rows in deletes.items()}
            found = {str(it.relative_to(out)) for it in out.rglob("*.csv")}
            self.room.equal(sorted(wanted), sorted(found), f"the files of {parts[0].name}")
            for name, rows in wanted.items():
                self.room.equal(spelled(rows), (out / name).read_bytes(), f"{name} of {parts[0].name}")
        restored = self.room.folder / "restored"
        ran(self.packer, "restore", *(part for parts in released for part in parts), "--out", restored)
        for table, rows in tables_of(self.registry.objects).items():
            self.room.equal(spelled(ascending(rows)), (restored / f"{table}.csv").read_bytes(), f"{table} of the last day")

    def check(self, released: list[list[Path]]) -> None:
        """The last deposit passes behind those before it."""
        *before, last = released
        earlier = [part for parts in before for part in parts]
        line, *_ = ran(self.packer, "check", *last, *(["--after", *earlier] if earlier else []))
        kind, rest = ("DIFF", "") if earlier else ("FULL", ", without check 7")
        self.room.equal(f"PASS {kind} {number_of(self.registry.today)} {self.registry.today}{rest}", line, "check")

    def show(self) -> None:
        """Prints how long the deposits were, and took."""
        for kind, rows in self.seconds.items():
            if rows:
                length, packed, sent = map(statistics.median, zip(*rows))
                print(f"{len(rows)} {kind}: {length:,.0f} bytes, {packed:.2f} seconds to pack, {sent:.2f} to put and state")


def play(month: Month, days: int) -> int:
    """Plays the days and what follows. Gives how many of them passed."""
    passed, before = 0, {}
    try:
        for _ in range(days):
            if before:
                month.registry.pass_night()
            month.day(before)
            before = {kind: dict(made) for kind, made in month.registry.objects.items()}
            passed += 1
        released = month.release()
        month.rebuild(released)
        month.check(released)
        return passed + 1
    except Wrong as wrong:
        print(f"FAILED: {month.registry.today}: {wrong}"[:4000], flush=True)
        return passed


def words_of(text: str, domains: int) -> argparse.Namespace:
    """The words of a call that plays the days of a registry of so many domains, and its programs, which are built."""
    words = parser(text)
    words.add_argument("--domains", type=int, default=domains, metavar="N")
    words.add_argument("--days", type=int, default=30, metavar="N")
    words.add_argument("--seed", type=int, default=1, metavar="S")
    words.add_argument("--packer", type=Path, default=PACKER)
    words.add_argument("--program", type=Path, default=ESCROW)
    asked = words.parse_args()
    asked.packer, asked.program = built(asked.packer), built(asked.program)
    # So that the server that runs is ended, and the folder taken away.
    signal.signal(signal.SIGTERM, lambda *_: sys.exit(1))
    return asked


def main() -> int:
    asked = words_of(__doc__, 100_000)
    if not shutil.which("curl"):
        print("skipped: no curl")
        return tell(0, 0, 1)
    with tempfile.TemporaryDirectory(prefix="registry") as folder:
        registry = Registry(random.Random(asked.seed), asked.domains)
        month = Month(Room(asked.program, Path(folder)), asked.packer, registry, asked.days)
        passed = play(month, asked.days)
        month.show()
    return tell(passed, int(passed <= asked.days))


if __name__ == "__main__":
    sys.exit(main())
