#!/usr/bin/env python3
"""Lets each system call of the program on the files of a vault fail, and kills the program at each, by strace.

    tests/faults.py [PROGRAM] [--only COMMAND ..] [--lanes N]

It takes the commands of the life of a deposit, each over a copy of the vault as it stands then. Each call of a command on
the folder, `vault.vol`, `custody.db` and the log `custody.db-wal` fails in turn with EIO, with ENOSPC and with EINTR, and in
a fourth run the program is killed as it makes the call. It checks:

- Unless it was killed, the program ends by itself, with a status and a line of docs/CODES.md, behind `C2` with the line of
  the cause. It reports a failed sync of the folder.
- The vault opens, in the state before or after the command; after it, if the command printed its line.
- The same command again prints its record (a purge or a sweep that was done says what it does then), and the state is that
  after it.
- The database is one of schema 1 without a table of holds, or one of schema 2 with it. Before the last command the script
  makes it one of schema 1, as a program of before there were holds leaves it.

The calls are those that strace shows of a run without a fault. That run syncs the folder after it makes the last file in it
and before it prints its line, so that the files' names are settled; `init` makes all three files. The script also tries
this, with the calls on the folder in between, if `--only` leaves `init` out.

All take four minutes, `--only register` seconds. It needs strace, Python's sqlite3, and PROGRAM, which is
crates/escrow/out/escrow unless named (`rt run` builds it). Without the tools it says so, and tries nothing.
"""
import concurrent.futures
import contextlib
import os
import re
import shutil
import signal
import sys
import tempfile
from collections import Counter
from collections.abc import Iterator
from pathlib import Path
from typing import NamedTuple

from lib import ESCROW, Answer, answer_of, built, parser, part_name, tell

try:
    import sqlite3
except ImportError:
    sqlite3 = None

FAULTS = ("error=EIO", "error=ENOSPC", "error=EINTR", "signal=KILL")
FULL, DIFF, LATE = part_name(), part_name("2026-08-03", "diff"), part_name("2026-08-04", "diff")
SENT = {FULL: b"full" * 1500, DIFF: b"diff" * 3000, LATE: b"late" * 3000}

# The commands, in their order.
LIFE = {
    "init": "init d --blocks 16 --number 0000000000000001", "register": "register d example --first 2026-08-02",
    "put": f"put d in/{FULL} --now 2026-08-02T10:00:00Z",
    "verify": "verify d example --date 2026-08-02 --kind full --revision 0 --parts 1 --id X --now 2026-08-02T10:05:00Z",
    "sweep": "sweep d --now 2026-08-04T00:00:00Z", "release": "release d R-1 example operator --now 2026-08-04T12:00:00Z",
    "fetch": f"fetch d R-1 {FULL}", "audit": "audit d",
    "hold": "hold d H-1 example --date 2026-08-02 --now 2026-08-04T13:00:00Z",
    "lift": "lift d H-1 --now 2026-08-04T14:00:00Z",
    "purge": "purge d --now 2027-08-03T00:00:00Z", "put again": f"put d in/{DIFF} --now 2027-08-03T01:00:00Z",
    "go over": f"put d in/{LATE} --now 2027-08-03T02:00:00Z"}
# What one that was done prints when it comes again, where that is something else.
AGAIN = {"init": "I1 already initialised\n", "sweep": "", "purge": "dropped 0\n"}
# What is printed where a call fails.
FAILURES = re.compile(
    r"(C2 [^\n]+\nfile failed: d/vault\.vol: [^\n]+|C[1345] [^\n]+|[^\n]*file failed[^\n]*|[^\n]*: [^\n]+)\n\Z")
# The arguments of a call on one of the files, and on the folder.
ON_FILE = re.compile(r'.*(?:vault\.vol|custody\.db(?:-wal)?)[">]')
ON_FOLDER = re.compile(r'(?:AT_FDCWD(?:<[^>]*>)?, )?"(?:[^"]*/)?d"|\d+<[^>]*/d>')


class Call(NamedTuple):
    """A call: its name, its number among those of this name, and what strace shows behind that."""
    name: str
    number: int
    shown: str

    def makes(self, files: set[str]) -> bool:
        """Whether it makes one of these files in the folder."""
        made = re.search(r"= \d+<[^>]*/d/([^/>]*)>", self.shown)
        return "O_CREAT" in self.shown and made is not None and made[1] in files

    def is_folder_sync(self) -> bool:
        return self.name == "fsync" and ON_FOLDER.match(self.shown) is not None


def run(program: Path, folder: Path, words: str, *tracer: str) -> Answer:
    return answer_of([*tracer, program, *words.split()], folder, 60)


def calls_of(program: Path, folder: Path, words: str) -> list[Call]:
    """The calls of a run on files."""
    trace, counts, calls = folder / "trace", Counter(), []
    run(program, folder, words, "strace", "-f", "-y", "-qq", "-o", str(trace), "-e", "trace=%file,%desc")
    for name, shown in re.findall(r"^\d+\s+(\w+)\((.*)", trace.read_text(errors="replace"), re.M):
        counts[name] += 1
        calls.append(Call(name, counts[name], shown))
    trace.unlink()
    return calls


@contextlib.contextmanager
def copied(folder: Path) -> Iterator[Path]:
    """A folder with a copy of the vault and of what is sent."""
    with tempfile.TemporaryDirectory() as room:
        for name in ("d", "in"):
            shutil.copytree(folder / name, Path(room, name))
        yield Path(room)


def database(folder: Path) -> contextlib.closing:
    """A connection of sqlite3 to the database of the vault, which it closes in the end."""
    return contextlib.closing(sqlite3.connect(folder / "d" / "custody.db", isolation_level=None))


def schema_of(folder: Path) -> tuple[int, int] | None:
    """The number of the schema, and how many tables of holds there are; none where there is no record."""
    with copied(folder) as room, database(room) as db, contextlib.suppress(sqlite3.Error):
        return db.execute("SELECT schema_no, (SELECT count(*) FROM sqlite_schema WHERE name = 'hold') FROM meta").fetchone()
    return None


class Case:
    """A command over a vault, without a fault: what it prints, and the states before and after it."""

    def __init__(self, program: Path, start: Path, name: str):
        self.program, self.start, self.name, self.words = program, start, name, LIFE[name]
        with copied(start) as folder:
            before = set(os.listdir(folder / "d"))
            calls = calls_of(program, folder, self.words)
            self.made = set(os.listdir(folder / "d")) - before
        self.calls = [call for call in calls if ON_FILE.match(call.shown) or ON_FOLDER.match(call.shown)]
        # The calls on the folder between the making of the last file and the line; none where no file is made.
        makes = [place for place, call in enumerate(calls) if call.makes(self.made)]
        lines = [place for place, call in enumerate(calls) if call.name == "write" and call.shown.startswith("1<")]
        between = calls[makes[-1]:lines[0]] if makes and lines else []
        self.settling = [call for call in between if ON_FOLDER.match(call.shown)]
        with copied(start) as folder:
            self.before, self.whole, self.after = (run(program, folder, it) for it in ("state d", self.words, "state d"))
        self.again = AGAIN[name].encode() if name in AGAIN else self.whole.out

    def without_fault(self) -> Iterator[str]:
        """What is wrong of the run without a fault: the files that it makes, and whether their names are settled."""
        if self.name == "init" and self.made != {"vault.vol", "custody.db", "custody.db-wal"}:
            yield f"makes {sorted(self.made)}"
        if self.made and not any(call.is_folder_sync() and call.shown.endswith("= 0") for call in self.settling):
            yield f"makes {sorted(self.made)}, and does not sync the folder between that and its line"

    def faults(self, call: Call, fault: str) -> tuple[int | None, list[str]]:
        """How the program ends where this call meets the fault, and what is wrong."""
        with copied(self.start) as folder:
            inject = f"inject={call.name}:{fault}:when={call.number}"
            tracer = ("strace", "-f", "-qqq", "-o", "/dev/null", "-e", f"trace={call.name}", "-e", inject)
            broken = run(self.program, folder, self.words, *tracer)
            schema = schema_of(folder)
            found, again, last = (run(self.program, folder, it) for it in ("state d", self.words, "state d"))
            wrong = [*self.ends(broken, call, fault), *self.opens(broken, found), *self.repeats(found, again)]
            wrong += [f"is of schema {schema}"] * (schema not in ((1, 0), (2, 1), None))
            return broken.status, wrong + ["another state in the end"] * (last != self.after)

    def ends(self, broken: Answer, call: Call, fault: str) -> Iterator[str]:
        if fault == "signal=KILL" and broken.status in (-signal.SIGKILL, 128 + signal.SIGKILL):
            return
        if broken.status == self.whole.status:
            if broken != self.whole:
                yield f"prints {broken.out!r} {broken.err!r}"
            elif call.is_folder_sync() and fault != "error=EINTR":  # an interrupted one may be made again
                yield "does not report that the folder was not synced"
        elif broken.status != 3 or not FAILURES.match(broken.err.decode(errors="replace")):
            yield f"ends with {broken.status}: {broken.err!r}"

    def opens(self, broken: Answer, found: Answer) -> Iterator[str]:
        if self.name == "init":
            return
        is_acknowledged = broken.status == 0 or broken.out == self.whole.out != b""
        if found not in (self.before, self.after):
            yield f"opens as {found.out!r} {found.err!r}"
        elif is_acknowledged and found != self.after:
            yield "what was acknowledged is not there"

    def repeats(self, found: Answer, again: Answer) -> Iterator[str]:
        is_done = found == self.after != self.before
        if self.again not in (again.out, again.err) if is_done else again != self.whole:
            yield f"again prints {again.out!r} {again.err!r}" + f" in place of {self.whole.out!r}" * (not is_done)


def try_command(case: Case, calls: list[Call], lanes: int) -> Counter:
    """Tries these calls of a command, prints what is wrong and how the runs ended, and counts which passed."""
    runs = [(call, fault) for call in calls for fault in FAULTS]
    with concurrent.futures.ThreadPoolExecutor(lanes) as pool:
        came = list(pool.map(lambda it: case.faults(*it), runs))
    found = [("no fault", [*case.without_fault()]), *(
        (f"{call.name} {call.number}, {fault}", wrong) for (call, fault), (_, wrong) in zip(runs, came))]
    print(*(f"FAILED: {case.name}, {title}: {line}\n" for title, wrong in found for line in wrong), sep="", end="")
    ends = Counter(status for status, _ in came)
    done, failed = ends.pop(case.whole.status, 0), ends.pop(3, 0)
    counted = f"{done} done, {failed} failed, {ends.total()} killed"
    print(f"{case.name}: {len(calls)} calls, {len(runs)} runs: {counted}", flush=True)
    return Counter(not wrong for _, wrong in found)


def lacking() -> str:
    """What this machine lacks for all of it, or nothing."""
    if sqlite3 is None:
        return "no python3 with sqlite3"
    if not shutil.which("strace"):
        return "no strace"
    return "strace may not be used" if answer_of(["strace", "-o", "/dev/null", "true"]).status else ""


def main() -> int:
    words = parser(__doc__)
    words.add_argument("program", nargs="?", default=ESCROW, type=Path)
    words.add_argument("--only", nargs="+", metavar="COMMAND")
    words.add_argument("--lanes", type=int, default=os.cpu_count())
    asked, counts = words.parse_args(), Counter()
    program = built(asked.program)
    if why := lacking():
        print(f"skipped: calls that fail: {why}")
        return tell(0, 0, 1)
    with tempfile.TemporaryDirectory() as room:
        start = Path(room)
        for name in ("d", "in"):
            (start / name).mkdir()
        for name, content in SENT.items():
            (start / "in" / name).write_bytes(content)
        for name, line in LIFE.items():
            if name == "go over":
                with database(start) as db:
                    db.executescript("DROP TABLE hold; UPDATE meta SET schema_no = 1")
            is_asked = asked.only is None or name in asked.only
            if is_asked or name == "init":
                case = Case(program, start, name)
                counts += try_command(case, case.calls if is_asked else case.settling, asked.lanes)
            run(program, start, line)
    return tell(counts[True], counts[False])


if __name__ == "__main__":
    sys.exit(main())
