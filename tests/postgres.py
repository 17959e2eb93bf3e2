#!/usr/bin/env python3
"""Plays the month of a registry that stands in a PostgreSQL: exports it, packs what has changed, and restores it.

    tests/postgres.py [--domains N] [--days N] [--seed S] [--packer PROGRAM] [--program ESCROW]

A server of its own has a registry of N domains (20,000) with their contacts, hosts and registrars, in tables as databases
have them: keys that nobody outside knows, statuses and name servers in tables beside, moments in the time of a far place,
names in any case, and no registrant where there is none. Each night SQL changes it: objects come and go, change and change
back, lose a status or a name server, and names are given again.

Each day the commands of docs/REGISTRY.md ("From a database") export the registry by the SELECTs that stand there, and
`deposit pack --whole` packs the tables behind all parts that are there: a full deposit on Sundays, the first day among them,
an incremental one on Thursdays, else a differential one. `deposit check` has to pass each, and the agent to give a receipt.
On each fifth day and the last `deposit restore` restores the tables of all parts. The database reads them, and has to find in
them all rows that the SELECTs give, and no other.

What the registry does depends on the seed. A domain takes some 270 bytes, so that 30,000 fit into the 8 MiB of a deposit. It
needs Debian's `postgresql`, and the programs that `rt run` builds in crates/deposit and crates/escrow. Run by root, it begins
the server as the user `postgres`. The last line counts the days; it ends with the first that fails. A month takes a minute,
of 2,000 domains some ten seconds.
"""
from __future__ import annotations

import contextlib
import datetime
import os
import pwd
import re
import shutil
import signal
import statistics
import subprocess
import sys
import tempfile
import time
from collections.abc import Iterator, Sequence
from dataclasses import dataclass
from pathlib import Path

from lib import LIMIT, TABLES, TOP, Wrong, answer_of, begin, lines_of, notice, part_name, tell
from packing import left_out, same
from reasons import COLUMNS
from registry import FIRST, ran, words_of

TLD, PAGE = "example", TOP / "docs" / "REGISTRY.md"
# The user who runs the server where root runs this script: the server does nothing for root.
OWNER = "postgres"
# What the server is told: it listens in its folder alone, and need not keep anything. Its time is 5:45 ahead of UTC.
SETTINGS = {"listen_addresses": "", "fsync": "off", "full_page_writes": "off", "synchronous_commit": "off",
            "autovacuum": "off", "max_parallel_workers_per_gather": "0", "timezone": "Asia/Kathmandu"}

# ---- the registry in SQL

SCHEMA = """
CREATE TABLE registrar (id int GENERATED ALWAYS AS IDENTITY PRIMARY KEY, handle text NOT NULL UNIQUE, name text NOT NULL,
    iana_id int, status text NOT NULL);
CREATE TABLE contact (id int GENERATED ALWAYS AS IDENTITY PRIMARY KEY, handle text NOT NULL UNIQUE,
    registrar_id int NOT NULL REFERENCES registrar, created_at timestamptz NOT NULL);
CREATE TABLE host (id int GENERATED ALWAYS AS IDENTITY PRIMARY KEY, name text NOT NULL,
    registrar_id int NOT NULL REFERENCES registrar, created_at timestamptz NOT NULL);
CREATE TABLE host_address (host_id int REFERENCES host ON DELETE CASCADE, address inet, PRIMARY KEY (host_id, address));
CREATE TABLE domain (id int GENERATED ALWAYS AS IDENTITY PRIMARY KEY, name text NOT NULL,
    registrar_id int NOT NULL REFERENCES registrar, registrant_id int REFERENCES contact ON DELETE SET NULL,
    created_at timestamptz NOT NULL, expires_at timestamptz NOT NULL);
CREATE TABLE domain_contact (domain_id int REFERENCES domain ON DELETE CASCADE, role text,
    contact_id int REFERENCES contact ON DELETE CASCADE, PRIMARY KEY (domain_id, role, contact_id));
CREATE TABLE domain_status (domain_id int REFERENCES domain ON DELETE CASCADE, status text, PRIMARY KEY (domain_id, status));
CREATE TABLE domain_host (domain_id int REFERENCES domain ON DELETE CASCADE, host_id int REFERENCES host ON DELETE CASCADE,
    PRIMARY KEY (domain_id, host_id));
CREATE UNIQUE INDEX ON host (lower(name));
CREATE UNIQUE INDEX ON domain (lower(name));
CREATE INDEX ON contact (registrar_id);
CREATE INDEX ON host (registrar_id);
CREATE INDEX ON domain (registrar_id);
CREATE INDEX ON domain (registrant_id);
CREATE INDEX ON domain_contact (contact_id);
CREATE INDEX ON domain_host (host_id);
-- The names of objects that are gone, and may be given again.
CREATE TABLE free_name (kind text, name text);

CREATE SEQUENCE serial;
CREATE FUNCTION any_id(kind regclass) RETURNS int LANGUAGE plpgsql AS $$
DECLARE found int;
BEGIN
    EXECUTE format('SELECT id FROM %1$s WHERE id >= (SELECT floor(random() * max(id))::int FROM %1$s) ORDER BY id LIMIT 1',
        kind) INTO found;
    RETURN found;
END $$;
CREATE FUNCTION one_of(texts text[]) RETURNS text LANGUAGE sql
    AS 'SELECT texts[1 + floor(random() * cardinality(texts))::int]';
-- Names for new objects: some that others had, and so many new ones.
CREATE FUNCTION names(wanted text, count bigint, prefix text, suffix text) RETURNS SETOF text LANGUAGE sql AS $$
    WITH again AS (DELETE FROM free_name WHERE kind = wanted AND random() < 0.4 RETURNING name) SELECT name FROM again
    UNION ALL SELECT prefix || nextval('serial') || suffix FROM generate_series(1, count)
$$;
"""

# The registry of the first day. Some registrars have many objects, others few.
FILL = """
SELECT setseed(:seed);
INSERT INTO registrar (handle, name, iana_id, status)
    SELECT 'R' || n, 'Registrar ' || n, CASE WHEN n % 7 > 0 THEN n END, 'ok' FROM generate_series(1, :registrars) n;
INSERT INTO contact (handle, registrar_id, created_at)
    SELECT 'C' || nextval('serial'), 1 + floor(:registrars * random() ^ 2),
        :'now'::timestamptz - random() * interval '20 years'
    FROM generate_series(1, :contacts);
INSERT INTO host (name, registrar_id, created_at)
    SELECT 'ns' || n % 3 || '.Host' || n || '.example', 1 + floor(:registrars * random() ^ 2),
        :'now'::timestamptz - random() * interval '20 years'
    FROM generate_series(1, :hosts) n;
INSERT INTO domain (name, registrar_id, registrant_id, created_at, expires_at)
    SELECT one_of(ARRAY['name', 'Shop-', 'xn--d-']) || n || '.example', 1 + floor(:registrars * random() ^ 2),
        CASE WHEN random() < 0.8 THEN 1 + floor(:contacts * random()) END,
        :'now'::timestamptz - random() * interval '20 years', :'now'::timestamptz + random() * interval '9 years'
    FROM generate_series(1, :domains) n;
INSERT INTO host_address SELECT id, inet '192.0.2.0' + id % 256 FROM host;
INSERT INTO host_address SELECT id, inet '2001:db8::' + id FROM host WHERE random() < 0.5;
INSERT INTO domain_contact
    SELECT id, role, 1 + floor(:contacts * random()) FROM domain, unnest(ARRAY['admin', 'tech', 'billing']) role
    WHERE random() < 0.4;
INSERT INTO domain_status SELECT id, one_of(ARRAY['ok', 'inactive', 'serverHold']) FROM domain;
INSERT INTO domain_status SELECT id, 'clientTransferProhibited' FROM domain WHERE random() < 0.3;
INSERT INTO domain_host SELECT id, 1 + floor(:hosts * random()) FROM domain, generate_series(1, 2) ON CONFLICT DO NOTHING;
ANALYZE;
"""

# What a night changes: of most kinds of changes each object has the chance :few.
NIGHT = """
SELECT setseed(:seed);
-- What was held since the night before changes back, mostly, and others are held.
DELETE FROM domain_status WHERE status = 'clientHold' AND random() < 0.8;
INSERT INTO domain_status SELECT id, 'clientHold' FROM domain WHERE random() < :few ON CONFLICT DO NOTHING;

-- Objects go, with all that is theirs, and from all that names them.
WITH gone AS (DELETE FROM domain WHERE random() < :few RETURNING name) INSERT INTO free_name SELECT 'domain', name FROM gone;
WITH gone AS (DELETE FROM host WHERE random() < :few RETURNING name) INSERT INTO free_name SELECT 'host', name FROM gone;
WITH gone AS (DELETE FROM contact WHERE random() < :few RETURNING handle)
    INSERT INTO free_name SELECT 'contact', handle FROM gone;
-- The registrar of the fewest domains goes, and another one has its objects.
SELECT r.id AS leaving FROM registrar r LEFT JOIN domain d ON d.registrar_id = r.id
    GROUP BY r.id ORDER BY count(d.id), r.id LIMIT 1 \\gset
SELECT id AS heir FROM registrar WHERE id <> :leaving ORDER BY random() LIMIT 1 \\gset
UPDATE domain SET registrar_id = :heir WHERE registrar_id = :leaving;
UPDATE host SET registrar_id = :heir WHERE registrar_id = :leaving;
UPDATE contact SET registrar_id = :heir WHERE registrar_id = :leaving;
DELETE FROM registrar WHERE id = :leaving;

-- Objects come. Some have the name of one that is gone, even of one that went this night.
INSERT INTO registrar (handle, name, iana_id, status)
    SELECT 'R' || nextval('serial'), E'New "Names", Ltd.\\nZürich', NULL, 'ok';
INSERT INTO contact (handle, registrar_id, created_at)
    SELECT name, any_id('registrar'), :'now'::timestamptz - random() * interval '12 hours'
    FROM names('contact', 1 + (SELECT count(*) FROM contact WHERE random() < :few), 'C', '') name;
INSERT INTO host (name, registrar_id, created_at)
    SELECT name, any_id('registrar'), :'now'::timestamptz - random() * interval '12 hours'
    FROM names('host', 1 + (SELECT count(*) FROM host WHERE random() < :few), 'NS.new', '.Example') name;
INSERT INTO domain (name, registrar_id, registrant_id, created_at, expires_at)
    SELECT name, any_id('registrar'), CASE WHEN random() < 0.8 THEN any_id('contact') END,
        :'now'::timestamptz - random() * interval '12 hours', :'now'::timestamptz + interval '1 year'
    FROM names('domain', 1 + (SELECT count(*) FROM domain WHERE random() < :few), 'New', '.Example') name;
CREATE TEMP TABLE new_domain AS SELECT id FROM domain WHERE created_at > :'now'::timestamptz - interval '12 hours';
INSERT INTO host_address SELECT id, inet '198.51.100.0' + id % 256 FROM host
    WHERE created_at > :'now'::timestamptz - interval '12 hours';
INSERT INTO domain_contact SELECT id, 'admin', any_id('contact') FROM new_domain WHERE random() < 0.5;
INSERT INTO domain_status SELECT id, one_of(ARRAY['addPeriod', 'ok']) FROM new_domain WHERE random() < 0.8;
INSERT INTO domain_host SELECT id, any_id('host') FROM new_domain, generate_series(1, 2) ON CONFLICT DO NOTHING;

-- Objects change.
DELETE FROM domain_status WHERE random() < :few;
DELETE FROM domain_contact WHERE random() < :few;
DELETE FROM domain_host WHERE random() < :few;
DELETE FROM host_address WHERE random() < :few;
INSERT INTO domain_host SELECT id, any_id('host') FROM domain WHERE random() < :few ON CONFLICT DO NOTHING;
UPDATE domain SET expires_at = expires_at + interval '1 year' WHERE random() < :few;
UPDATE domain SET registrar_id = any_id('registrar') WHERE random() < :few;
UPDATE domain SET registrant_id = CASE WHEN random() < 0.7 THEN any_id('contact') END WHERE random() < :few;
UPDATE host_address SET address = address + 256 WHERE random() < :few;
UPDATE contact SET registrar_id = any_id('registrar') WHERE random() < :few;
UPDATE registrar SET iana_id = nextval('serial') WHERE random() < 0.05;
"""


# ---- the page

def page_block(language: str) -> str:
    """The one text of the section in this language."""
    section = PAGE.read_text().partition("\n## From a database\n")[2].partition("\n## ")[0]
    [text] = re.findall(rf"^```{language}\n(.*?)^```$", section, re.MULTILINE | re.DOTALL)
    return text


def selects() -> dict[str, str]:
    """The SELECT of each table in the text that exports a registry."""
    form = r"^\\o tables/(\w+)\.csv\nCOPY \((SELECT .*?)\)\nTO STDOUT WITH \(FORMAT csv, HEADER\);$"
    found = re.findall(form, page_block("sql"), re.MULTILINE | re.DOTALL)
    if [table for table, _ in found] != [*TABLES]:
        raise Wrong(f"{PAGE} has SELECTs of {[table for table, _ in found]}")
    return dict(found)


# ---- the server

def server_folder() -> Path | None:
    """Where the programs of the newest server are."""
    found = sorted(Path("/usr/lib/postgresql").glob("*/bin/initdb"), key=lambda it: int(it.parts[-3]))
    return found[-1].parent if found else None


def under_owner(folder: Path) -> list[str]:
    """What runs a program as the server's user, who is given the folder: nothing where root does not run this script."""
    if os.geteuid():
        return []
    owner = pwd.getpwnam(OWNER)
    os.chown(folder, owner.pw_uid, owner.pw_gid)
    return ["setpriv", f"--reuid={owner.pw_uid}", f"--regid={owner.pw_gid}", "--clear-groups"]


class Database:
    """A server of a registry in a folder, and `psql` as its client."""

    def __init__(self, programs: Path, folder: Path):
        self.programs, self.folder = programs, folder
        under, data = under_owner(folder), folder / "data"
        made = answer_of([*under, programs / "initdb", "-D", data, "-U", OWNER, "-A", "trust", "-E", "UTF8", "--no-locale",
                          "--no-sync"], folder)
        if made.status:
            raise Wrong("\n".join(["initdb", *made.lines()[-20:]]))
        told = [word for name, value in SETTINGS.items() for word in ("-c", f"{name}={value}")]
        with open(folder.with_name("server.log"), "wb") as log:
            self.process = begin([*under, programs / "postgres", "-D", data, "-k", folder, *told], cwd=folder,
                                 stdin=subprocess.DEVNULL, stdout=log, stderr=subprocess.STDOUT)

    def listens(self) -> bool:
        """Whether it answers before long."""
        end = time.monotonic() + LIMIT
        while time.monotonic() < end and self.process.poll() is None:
            if answer_of([self.programs / "pg_isready", "-q", "-h", self.folder]).status == 0:
                return True
            time.sleep(0.05)
        return False

    def called(self, words: Sequence[str | Path], folder: Path) -> list[str]:
        """Runs a client in a folder, and gives what it prints. It may print no errors."""
        environment = {**os.environ, "PATH": f"{self.programs}:{os.environ['PATH']}", "PGHOST": str(self.folder), "PGUSER": OWNER}
        done = answer_of(words, folder, seconds=600, environment=environment)
        if done.status or done.err:
            raise Wrong("\n".join([" ".join(map(str, words)), *done.lines()[-20:]]))
        return lines_of(done.out)

    def runs(self, text: str, folder: Path, database: str = "registry", **variables: object) -> list[str]:
        """Runs a text of SQL in a folder, and gives what psql prints. The first error ends it."""
        script = self.folder.with_name("script.sql")
        script.write_text(text)
        named = [word for name, value in variables.items() for word in ("-v", f"{name}={value}")]
        return self.called(["psql", "-X", "-q", "-A", "-t", "-v", "ON_ERROR_STOP=1", *named, "-f", script, database], folder)

    def close(self) -> None:
        """Ends the server: at once, where it does not end soon."""
        for way in signal.SIGINT, signal.SIGQUIT, signal.SIGKILL:
            self.process.send_signal(way)
            with contextlib.suppress(subprocess.TimeoutExpired):
                self.process.wait(20)
                return


@contextlib.contextmanager
def database(programs: Path, folder: Path) -> Iterator[Database]:
    """A server with an empty database `registry`. It is ended, whatever comes."""
    (folder / "server").mkdir(mode=0o700)
    with contextlib.closing(Database(programs, folder / "server")) as server:
        if not server.listens():
            raise Wrong(f"the server does not listen\n{(folder / 'server.log').read_text()[-2000:]}")
        server.runs("CREATE DATABASE registry", folder, "postgres")
        yield server


# ---- the month

def kind_of(day: datetime.date) -> str:
    """The kind of the deposit of a day."""
    return {6: "full", 3: "incr"}.get(day.weekday(), "diff")


@dataclass
class Sent:
    """A deposit that the agent has, and its parts."""
    kind: str
    parts: list[Path]


def parts_in(deposits: Sequence[Sent]) -> list[Path]:
    """The parts of some deposits, by day."""
    return [part for it in deposits for part in it.parts]


class Month:
    """The days of a registry in a database, what it has sent, and how long each step took."""

    def __init__(self, room: Path, server: Database, packer: Path, program: Path, days: int):
        self.room, self.server, self.packer, self.program = room, server, packer, program
        self.today, self.selects = FIRST, selects()
        self.sent: list[Sent] = []
        self.seconds: dict[str, list[float]] = {}
        # The commands of the page before `deposit pack`. They read the text that stands below them.
        self.export = page_block("sh").partition("deposit pack ")[0]
        (room / "export.sql").write_text(page_block("sql"))
        (room / "vault").mkdir()
        blocks = min(262_144, 2048 * (days + 1))
        ran(program, "init", room / "vault", "--blocks", str(blocks), "--number", "0000000000000001")
        ran(program, "register", room / "vault", TLD, "--first", str(FIRST))

    @contextlib.contextmanager
    def timed(self, step: str) -> Iterator[None]:
        """Adds the seconds of what is done to those of a step."""
        began = time.monotonic()
        yield
        self.seconds.setdefault(step, []).append(time.monotonic() - began)

    def day(self) -> None:
        """Exports the tables of a day, packs what has changed, and sends it."""
        kind = kind_of(self.today)
        with self.timed("export"):
            self.server.called(["bash", "-c", self.export], self.room)
        with self.timed(f"pack, {kind}"):
            parts, stated = self.pack(kind)
        with self.timed("check"):
            self.check(kind, parts)
        self.sent.append(Sent(kind, parts))
        with self.timed("put and verify"):
            self.send(parts, stated)

    def id(self) -> str:
        """The id of the deposit of this day."""
        return f"{self.today:%Y%m%d}001"

    def since_full(self) -> list[Sent]:
        """The last full deposit and those since."""
        first = max((place for place, it in enumerate(self.sent) if it.kind == "full"), default=0)
        return self.sent[first:]

    def past(self) -> list[str]:
        """What is noted of the parts before the last full deposit."""
        return left_out(len(parts_in(self.sent)) - len(parts_in(self.since_full())), "days before the latest full deposit")

    def behind(self) -> list[str | Path]:
        """The words that name all parts that are there."""
        return ["--after", *parts_in(self.sent)] if self.sent else []

    def pack(self, kind: str) -> tuple[list[Path], str]:
        """The parts of the deposit of this day, and the words that state it."""
        out, today = self.room / "parts", str(self.today)
        *lines, words, _ = ran(self.packer, "pack", self.room / "tables", "--whole", "--header", "--tld", TLD, "--date", today,
                               "--kind", kind, "--revision", "0", "--id", self.id(), *self.behind(), "--out", out,
                               notes=self.past())
        lines = [line for line in lines if ".ryde " in line]
        parts = [out / part_name(today, kind, place + 1) for place in range(len(lines))]
        same([f"{part.name} {part.stat().st_size}" for part in parts], lines, "the parts")
        return parts, words.removeprefix("escrow verify VAULT ")

    def check(self, kind: str, parts: list[Path]) -> None:
        """The deposit passes behind those before it."""
        line, *_ = ran(self.packer, "check", *parts, *self.behind(), notes=self.past())
        same(f"PASS {kind.upper()} {self.id()} {self.today}{'' if self.sent else ', without check 7'}", line, "check")

    def send(self, parts: list[Path], stated: str) -> None:
        """Puts the parts and states the deposit: it has a receipt."""
        now, lines = f"{self.today}T23:00:00Z", self.room / "lines"
        lines.write_text("\n".join([*(f"put {part} --now {now}" for part in parts), f"verify {stated} --now {now}", ""]))
        with open(lines, "rb") as given:
            done = subprocess.run([self.program, "batch", self.room / "vault"], stdin=given, capture_output=True, timeout=600)
        received = [f"received {part.name} {part.stat().st_size} {now}" for part in parts]
        receipt = notice(len(self.sent), "RECEIPT", str(self.today), now, self.id())
        same((0, [*received, receipt], b""), (done.returncode, lines_of(done.stdout), done.stderr), "what the agent answers")

    def restore(self) -> None:
        """Restores the tables of this day from all parts, and compares them with the registry."""
        folder, chain = self.room / "restored", self.since_full()
        shutil.rmtree(folder, ignore_errors=True)
        # An incremental deposit follows the full one alone.
        others = len(parts_in(chain[1:-1])) if chain[-1].kind == "incr" else 0
        notes = self.past() + left_out(others, "deposits between the full and the incremental one")
        with self.timed("restore"):
            ran(self.packer, "restore", *parts_in(self.sent), "--header", "--out", folder, notes=notes)
        with self.timed("compare"):
            differ = self.server.runs("\n".join(["SET TimeZone = 'UTC';", *map(self.comparison, TABLES)]), self.room)
        if differ:
            raise Wrong("\n".join(["the restored tables", *differ]))

    def comparison(self, table: str) -> str:
        """SQL that reads a restored table, and prints rows that only the registry has, and some that only the table has."""
        columns = COLUMNS[table]
        now = f"""SELECT {', '.join(f'"{it}"::text' for it in columns)} FROM ({self.selects[table]}) it"""
        return f"""CREATE TEMP TABLE "restored {table}" ({', '.join(f'"{it}" text' for it in columns)});
\\copy "restored {table}" FROM 'restored/{table}.csv' WITH (FORMAT csv, HEADER)
SELECT '{table} lacks', it FROM ({now} EXCEPT ALL TABLE "restored {table}") it LIMIT 3;
SELECT '{table} still has', it FROM (TABLE "restored {table}" EXCEPT ALL {now}) it LIMIT 3;"""

    def show(self) -> None:
        """Prints how long the deposits were, and how long each step took."""
        for kind in ("full", "diff", "incr"):
            if lengths := [sum(part.stat().st_size for part in it.parts) for it in self.sent if it.kind == kind]:
                print(f"{len(lengths)} {kind}: {statistics.median(lengths):,.0f} bytes")
        for step, taken in self.seconds.items():
            print(f"{step}: {len(taken)} times, {statistics.median(taken):.2f} seconds, {sum(taken):.1f} in all")


def change(month: Month, domains: int, seed: int) -> None:
    """Makes the registry, or lets a night of it pass."""
    place = (month.today - FIRST).days
    how = {"seed": (seed * 1009 + place) % 20_011 / 20_011, "now": f"{month.today}T20:00:00.123456Z"}
    counts = {"registrars": 10 + domains // 500, "contacts": 20 + domains // 2, "hosts": 20 + domains // 5, "domains": domains}
    with month.timed("change"):
        if place:
            month.server.runs(NIGHT, month.room, few=0.005, **how)
        else:
            month.server.runs(SCHEMA + FILL, month.room, **counts, **how)


def play(month: Month, domains: int, days: int, seed: int) -> int:
    """Plays the days. Gives how many of them passed."""
    passed = 0
    try:
        for place in range(days):
            month.today = FIRST + datetime.timedelta(place)
            change(month, domains, seed)
            month.day()
            if place % 5 == 4 or place == days - 1:
                month.restore()
            passed += 1
    except Wrong as wrong:
        print(f"FAILED: {month.today}: {wrong}"[:4000], flush=True)
    return passed


def main() -> int:
    asked = words_of(__doc__, 20_000)
    programs = server_folder()
    if not programs:
        print("skipped: no server of PostgreSQL")
        return tell(0, 0, 1)
    # The path of a socket has to be short.
    with tempfile.TemporaryDirectory(prefix="postgres", dir="/tmp") as name:
        folder, passed = Path(name), 0
        folder.chmod(0o755)
        try:
            with database(programs, folder) as server:
                month = Month(folder, server, asked.packer, asked.program, asked.days)
                passed = play(month, asked.domains, asked.days, asked.seed)
                month.show()
        except Wrong as wrong:
            print(f"FAILED: {wrong}"[:4000], flush=True)
    return tell(passed, int(passed < asked.days))


if __name__ == "__main__":
    sys.exit(main())
