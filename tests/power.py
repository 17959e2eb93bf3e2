#!/usr/bin/env python3
"""Cuts the power at the calls of the program on the files of a vault, as a model has it, and opens what may be left.

    tests/power.py [--program PROGRAM] [--only COMMAND ..] [--seed S] [--ways N] [--most N] [--forged N] [--lanes N]

Each command of a vault's life runs under strace, over the vault as it stands then; the last ones are a `batch`, in which the
log is begun anew, and a `put` behind a batch that was stopped. From the calls on `vault.vol`, `custody.db`, `custody.db-wal`
and the folder, with their bytes, the script makes what a power cut may leave behind each of them:

- A byte that was written since the last sync of its file may be anything. By sectors of 512 bytes, or write by write, it is
  what it was, what was written, zero, noise, or what stands elsewhere in the file. All other bytes stay.
- The length is any that the file has had since then, or one between. A file whose name is not settled may be missing.
- Behind calls of the batch the unsynced bytes of the log are forged: frames with the right salts and checksums, which make a
  commit that takes back the last records, or gives the last part another digest.

The program opens each of these vaults. It must list the records of the acknowledged commands, whose lines were printed before
the cut, and of none or all of the running one, as a run without a cut lists them, and find each held part whole, with the
digest of what was sent. Then it must receive one more part, and list the same records and that part. Before `init` is
acknowledged, a vault that does not open must be made by another `init`.

Where something is unsynced a call has N ways (`--ways`, 6). A command has at most N calls (`--most`, 64), of the batch half of
them near the copying of the log. `--forged` is behind how many writes to the log it is forged (150), where the running commit
has room. The choices depend on the seed (1), the salts of the logs do not. All take two minutes. It needs strace, and PROGRAM,
which is crates/escrow/out/escrow unless named (`rt run` builds it). Without strace it says so, and tries nothing.
TMPDIR=/dev/shm makes it faster.
"""
import argparse
import concurrent.futures
import contextlib
import datetime
import hashlib
import itertools
import os
import random
import re
import shutil
import struct
import sys
import tempfile
from collections import Counter
from collections.abc import Iterable, Iterator
from pathlib import Path
from typing import NamedTuple

from lib import ESCROW, Answer, Wrong, answer_of, built, parser, part_name, tell

Files = dict[str, bytes]
SECTOR = 512

# ---- the life of a vault

FIRST, LATE = datetime.date(2027, 9, 1), part_name("2029-12-31")
# How many lines the batch has. Its log is copied and begun anew once it has 1,000 frames.
LINES = 700


def day_of(number: int) -> str:
    return str(FIRST + datetime.timedelta(number))


def line_of(number: int) -> str:
    """A line of the batch: it puts, registers or holds."""
    if number % 3 == 1:
        return f"register r{number:03} --first {day_of(number)}"
    if number % 3 == 2:
        return f"hold H-{number} example --date {day_of(number)} --now {day_of(number)}T12:00:00Z"
    return f"put in/{part_name(day_of(number))} --now {day_of(number)}T12:00:00Z"


BATCH = [line_of(number) for number in range(LINES)]
# The parts that are sent. In the batch every tenth line's takes several blocks.
SENT = {part_name(): b"full" * 1500, part_name("2026-08-03", "diff"): b"diff" * 3000, LATE: b"late",
        part_name("2027-08-20", "diff"): b"more" * 3000} | {
    part_name(day_of(number)): day_of(number).encode() * (1000 if number % 10 == 0 else 1) for number in range(LINES)}
# The commands, in their order.
LIFE = {
    "init": "init d --blocks 320 --number 0000000000000001", "register": "register d example --first 2026-08-02",
    "put": f"put d in/{part_name()} --now 2026-08-02T10:00:00Z",
    "hold": "hold d H-1 example --date 2026-08-03 --now 2026-08-03T09:00:00Z",
    "put again": f"put d in/{part_name('2026-08-03', 'diff')} --now 2026-08-03T10:00:00Z",
    "sweep": "sweep d --now 2026-08-05T00:00:00Z", "purge": "purge d --now 2027-08-05T00:00:00Z", "batch": "batch d",
    "stopped": f"put d in/{part_name('2027-08-20', 'diff')} --now 2027-08-20T10:00:00Z"}
# The lines that open what is left, and the line of the part that is received then.
LOOKS = f"state\naudit\ndigests example\nput in/{LATE} --now 2029-12-31T12:00:00Z\n"
RECEIVED = f"{LATE} {len(SENT[LATE])} held 2029-12-31T12:00:00Z"

# ---- the calls

LINE = re.compile(rb"(\w+)\((.*)\) += (-?\d+)(?:<([^>]*)>)?.*")
ON_OPEN_FILE = re.compile(rb"(\d+)<([^>]*)>")
STRING = re.compile(rb'"([^"]*)"')
# The calls that may change a file or a folder.
TRACED = ("open,openat,openat2,creat,write,writev,pwrite64,pwritev,pwritev2,truncate,ftruncate,fallocate,fsync,fdatasync,"
          "sync_file_range,unlink,unlinkat,rename,renameat,renameat2,link,linkat,sendfile,copy_file_range,splice")


class Call(NamedTuple):
    """A call that makes, writes, cuts or syncs a file of this name (the folder has none), or that prints."""
    does: str
    name: str
    at: int = 0
    data: bytes = b""


def plain(shown: bytes) -> bytes:
    """The bytes that strace shows by their digits."""
    return bytes.fromhex(shown.replace(b"\\x", b"").decode())


def calls_of(trace: bytes, vault: Path) -> Iterator[Call]:
    """The calls of a trace on the files of a vault, and on the output. One that is not known is an error."""
    for line in trace.splitlines():
        found = LINE.fullmatch(line)
        if not found or found[3].startswith(b"-"):
            continue
        call, words, done, opened = found.groups()
        of = ON_OPEN_FILE.match(words)
        if call == b"write" and of and of[1] == b"1":
            yield Call("prints", "", 0, plain(STRING.search(words)[1]))
            continue
        shown = opened if opened is not None else of[2] if of else (STRING.search(words) or [b"", b""])[1]
        path = vault.parent / os.fsdecode(plain(shown) if shown.startswith(b"\\x") else b"")
        if path == vault or path.parent == vault:
            yield from known(call.decode(), "" if path == vault else path.name, words, int(done))


def known(call: str, name: str, words: bytes, done: int) -> Iterator[Call]:
    """What a call on the folder or a file in it does."""
    if call == "openat":
        yield from [Call("makes", name)] * (b"O_CREAT" in words)
        yield from [Call("cuts", name, 0)] * (b"O_TRUNC" in words)
    elif call in ("fsync", "fdatasync"):
        yield Call("syncs", name)
    elif call == "ftruncate":
        yield Call("cuts", name, int(words.rsplit(b",", 1)[1]))
    elif call == "pwrite64":
        yield Call("writes", name, int(words.rsplit(b",", 1)[1]), plain(STRING.search(words)[1])[:done])
    else:
        raise Wrong(f"the script does not know {call} on {name}")


# ---- the disk

class File:
    """A file: its bytes on the disk, its bytes as they are read, and what was done to it since the last sync."""

    def __init__(self, settled: bytes = b""):
        self.settled, self.seen = bytearray(settled), bytearray(settled)
        self.writes: list[tuple[int, bytes]] = []
        self.lengths, self.syncs = {len(settled)}, 0

    def write(self, at: int, data: bytes) -> None:
        self.writes.append((at, data))
        self.seen.extend(bytes(max(0, at - len(self.seen))))
        self.seen[at:at + len(data)] = data
        self.lengths.add(len(self.seen))

    def cut(self, length: int) -> None:
        del self.seen[length:]
        self.seen.extend(bytes(length - len(self.seen)))
        self.lengths.add(length)

    def sync(self) -> None:
        for start, end in self.unsettled():
            self.settled.extend(bytes(max(0, end - len(self.settled))))
            self.settled[start:end] = self.seen[start:end].ljust(end - start, b"\0")
        del self.settled[len(self.seen):]
        self.syncs += bool(self.unsettled())
        self.writes, self.lengths = [], {len(self.seen)}

    def unsettled(self) -> list[tuple[int, int]]:
        """The ranges that may hold anything, in order, each apart from the next."""
        ranges = [(at, at + len(data)) for at, data in self.writes] + [(min(self.lengths), max(self.lengths))]
        joined: list[tuple[int, int]] = []
        for start, end in sorted(it for it in ranges if it[0] < it[1]):
            if joined and start <= joined[-1][1]:
                start, end = joined[-1][0], max(end, joined.pop()[1])
            joined.append((start, end))
        return joined

    def longest(self) -> bytearray:
        """What is synced, as long as the file may be."""
        return self.settled.ljust(max(self.lengths), b"\0")

    def kept(self, writes: Iterable[tuple[int, bytes]]) -> bytearray:
        """What is on the disk if just these writes came there."""
        content = self.longest()
        for at, data in writes:
            content[at:at + len(data)] = data
        return content[:max(self.lengths)]

    def left(self, r: random.Random) -> bytes:
        """What a power cut may leave."""
        length = r.choice((min(self.lengths), max(self.lengths), len(self.seen), len(self.settled),
                           r.randint(min(self.lengths), max(self.lengths))))
        if r.random() < 0.25:
            return bytes(self.kept(it for it in self.writes if r.random() < 0.5)[:length])
        content, kinds = self.longest(), r.choice(("os", "os", "osz", "on", "sn", "ot", "st", "osznt"))
        for start, end in self.unsettled():
            edges = [start, *range(start - start % SECTOR + SECTOR, end, SECTOR), end]
            for a, b in zip(edges, edges[1:]):
                content[a:b] = self.sector(r, r.choice(kinds), a, b)
        return bytes(content[:length])

    def sector(self, r: random.Random, kind: str, start: int, end: int) -> bytes:
        """What may be left in a range: the old bytes, those that are seen, zeros, noise, or what stands elsewhere in the file."""
        count = end - start
        if kind == "z":
            return bytes(count)
        if kind == "n":
            return r.randbytes(count)
        at = r.randrange(len(self.seen) // SECTOR + 1) * SECTOR if kind == "t" else start
        return (self.settled if kind == "o" else self.seen)[at:at + count].ljust(count, b"\0")

    def mark(self, content: bytes) -> bytes:
        """What tells this content from others that may be left: where it is not as it was synced, and what is there."""
        digest = hashlib.blake2b(b"%d %d" % (self.syncs, len(content)))
        for start, end in self.unsettled():
            for at in range(start - start % SECTOR, end, SECTOR):
                if content[at:at + SECTOR] != self.settled[at:at + SECTOR]:
                    digest.update(b"%d" % at + content[at:at + SECTOR])
        return digest.digest()


class Disk:
    """The files of a vault, and the names that are not settled."""

    def __init__(self, files: Files):
        self.files, self.unsettled_names = {name: File(content) for name, content in files.items()}, set()

    def take(self, call: Call) -> None:
        """Does what a call does."""
        name = call.name
        if call.does == "makes" and name not in self.files:
            self.files[name] = File()
            self.unsettled_names.add(name)
        elif call.does == "syncs" and not name:
            self.unsettled_names.clear()
        elif call.does == "syncs":
            self.files[name].sync()
        elif call.does == "cuts":
            self.files[name].cut(call.at)
        elif call.does == "writes":
            self.files[name].write(call.at, call.data)

    def seen(self) -> Files:
        return {name: bytes(it.seen) for name, it in self.files.items()}

    def settled(self) -> Files:
        """What a power cut leaves at least."""
        return {name: bytes(it.settled) for name, it in self.files.items() if name not in self.unsettled_names}

    def is_settled(self) -> bool:
        return not self.unsettled_names and not any(it.unsettled() for it in self.files.values())

    def left(self, r: random.Random, way: int) -> Files:
        """What a power cut may leave: in the first way what is synced, in the second one all, and then something."""
        if way == 0:
            return self.settled()
        if way == 1:
            return self.seen()
        lost = {name for name in self.unsettled_names if r.random() < 0.3}
        return {name: it.left(r) for name, it in self.files.items() if name not in lost}

    def mark(self, files: Files) -> frozenset[tuple[str, bytes]]:
        """What tells files from others that may be left."""
        return frozenset((name, self.files[name].mark(content)) for name, content in files.items())


# ---- forged logs

HEAD, FRAME, PAGE = 32, 24, 4096
# The number of a page that no database has: a frame of that number counts what a commit has.
COUNT_PAGE = 0xFF00_0000
Sum = tuple[int, int]


def checksum(data: bytes, start: Sum) -> Sum:
    """SQLite's checksum of a log."""
    first, second = start
    for one, other in struct.iter_unpack("<II", data):
        first = first + one + second & 0xFFFF_FFFF
        second = second + other + first & 0xFFFF_FFFF
    return first, second


class Commit(NamedTuple):
    """A commit of a log: where each of its pages stands, and how many pages the database has then."""
    pages: dict[int, int]
    size: int


class Log:
    """What a log has, by the salts of its frames: its commits, where the next one begins, and the checksum up to there."""

    def __init__(self, log: bytes):
        self.log, self.salts, self.commits, self.end = log, log[16:24], [], HEAD
        self.sum: Sum = struct.unpack(">II", log[24:32]) if len(log) >= HEAD else (0, 0)
        pages, at = {}, HEAD
        while at + FRAME + PAGE <= len(log) and log[at + 8:at + 16] == self.salts:
            page, size = struct.unpack_from(">II", log, at)
            if page != COUNT_PAGE:
                pages[page] = at + FRAME
            at += FRAME + PAGE
            if size:
                self.commits.append(Commit(pages, size))
                self.end, self.sum, pages = at, struct.unpack_from(">II", log, at - PAGE - 8), {}

    def content(self, place: int) -> bytes:
        return bytes(self.log[place:place + PAGE])

    def before(self, count: int, db: bytes) -> tuple[dict[int, bytes], int]:
        """The pages that the last commits have written, as they were before these, and how many pages there were."""
        earlier, pages = self.commits[:-count], {}
        for page in {it for commit in self.commits[-count:] for it in commit.pages}:
            found = next((it.pages[page] for it in reversed(earlier) if page in it.pages), None)
            if found is not None or PAGE * page <= len(db):
                pages[page] = db[PAGE * (page - 1):PAGE * page] if found is None else self.content(found)
        return pages, earlier[-1].size if earlier else len(db) // PAGE

    def with_digest(self, digest: bytes, other: bytes) -> tuple[dict[int, bytes], int]:
        """The pages of the last commit that have a digest, with another one, and how many pages there are."""
        contents = {page: self.content(place) for page, place in self.commits[-1].pages.items()}
        pages = {page: it.replace(digest, other) for page, it in contents.items() if digest and digest in it}
        return pages, self.commits[-1].size

    def frames(self, pages: dict[int, bytes], size: int) -> bytes:
        """The frames of a commit behind the last one."""
        frames, total = [], self.sum
        for page, content in pages.items():
            front = struct.pack(">II", page, size if page == [*pages][-1] else 0)
            total = checksum(content, checksum(front, total))
            frames.append(front + self.salts + struct.pack(">II", *total) + content)
        return b"".join(frames)


def forgeries(disk: Disk, digest: bytes) -> Iterator[tuple[Files, bool]]:
    """Vaults with a forged commit in the unsynced bytes of the log, and whether it is whole; else one byte of it is missing,
    since another one is synced there. It takes back the last commits, or gives the last part another digest."""
    file, db = disk.files["custody.db-wal"], bytes(disk.files["custody.db"].settled)
    log = Log(bytes(file.settled))
    if not log.commits:
        return
    makes = [log.before(count, db) for count in (1, 2, 4) if count <= len(log.commits)]
    for pages, size in [*makes, log.with_digest(digest, hashlib.sha256(digest).digest())]:
        frames, content = log.frames(pages, size), file.longest()
        for start, end in file.unsettled():
            start, end = max(start, log.end), min(end, log.end + len(frames))
            content[start:max(start, end)] = frames[start - log.end:max(start, end) - log.end]
        placed = content[log.end:log.end + len(frames)]
        if frames and len(placed) == len(frames) and (lacks := sum(map(int.__ne__, placed, frames))) < 2:
            yield disk.seen() | {"custody.db-wal": bytes(content)}, not lacks


# ---- what the program says

def run(program: Path, folder: Path, words: str, lines: str = "", tracer: Iterable[str] = ()) -> Answer:
    """Runs a command in a folder, with these lines to read."""
    (folder / "lines").write_text(lines)
    return answer_of(["bash", "-c", 'exec "$@" < lines', "bash", *tracer, program, *words.split()], folder, 600)


@contextlib.contextmanager
def folder_with(files: Files, sent: Path) -> Iterator[Path]:
    """A folder with a vault of these files and with what is sent, which is taken away in the end."""
    with tempfile.TemporaryDirectory() as name:
        folder = Path(name).resolve()
        (folder / "d").mkdir()
        (folder / "in").symlink_to(sent)
        for file, content in files.items():
            (folder / "d" / file).write_bytes(content)
        yield folder


def files_in(folder: Path) -> Files:
    return {it.name: it.read_bytes() for it in (folder / "d").iterdir()}


class Records:
    """The records that `state` lists, and all that the program has to print over them."""

    def __init__(self, state: bytes):
        self.state, held = state, len(re.findall(rb"^part .* held ", state, re.M))
        names = re.findall(rb"^part (example_\S+) ", state, re.M)
        digests = b"".join(f"{hashlib.sha256(SENT[it.decode()]).hexdigest()}  {it.decode()}\n".encode() for it in names)
        lines, received = state + b"sound %d\n" % held, f"received {RECEIVED.replace('held ', '')}\n".encode()
        if re.search(rb"^registry example ", state, re.M):
            self.looked = Answer(0, lines + digests + received, b"")
            free = re.sub(rb"(?m)^free (\d+)", lambda it: b"free %d" % (int(it[1]) - 1), state)
            self.then = sorted([*free.splitlines(), f"part {RECEIVED}".encode()])
        else:
            self.looked = Answer(1, lines, b"Q2 registry unknown\n" * 2)
            self.then = sorted(state.splitlines())


def wrong_of(program: Path, sent: Path, files: Files, allowed: list[Records | None]) -> str:
    """What is wrong where the program opens these files. None stands for a vault that is still to be made."""
    with folder_with(files, sent) as folder:
        looked = run(program, folder, "batch d", LOOKS)
        if None in allowed and looked.status == 3 and not looked.out:
            made = run(program, folder, LIFE["init"])
            if made.out + made.err not in (b"ready 320 0000000000000001\n", b"I1 already initialised\n"):
                return f"init prints {made}"
            looked = run(program, folder, "batch d", LOOKS)
        found = next((it for it in allowed if it and it.looked == looked), None)
        if not found:
            return f"opens as {shown(looked)}, not as {' or '.join(shown(it.looked) for it in allowed if it)}"
        then = run(program, folder, "state d")
        return "" if sorted(then.out.splitlines()) == found.then else f"then opens as {shown(then)}"


def shown(answer: Answer) -> str:
    """The end of an answer."""
    return f"{answer.status} .. {answer.out[-400:].decode(errors='replace')!r} {answer.err[-200:].decode(errors='replace')!r}"


# ---- a command

class Case:
    """A command over a vault, without a cut: its calls, and the records before it and behind each line that it prints."""

    def __init__(self, program: Path, sent: Path, name: str, start: Files):
        self.program, self.sent, self.name, self.start = program, sent, name, start
        lines = "".join(f"{it}\n" for it in BATCH) if name == "batch" else ""
        with folder_with(start, sent) as folder:
            tracer = ("strace", "-y", "-qq", "-xx", "-s", "4000000", "-o", "trace", "-e", f"trace={TRACED}")
            self.whole = run(program, folder, LIFE[name], lines, tracer)
            self.calls = [*calls_of((folder / "trace").read_bytes(), folder / "d")]
            self.files, after = files_in(folder), run(program, folder, "state d").out
        if self.whole.status or b"".join(it.data for it in self.calls if it.does == "prints") != self.whole.out:
            raise Wrong(f"{name} prints {shown(self.whole)}")
        self.records = [it and Records(it) for it in self.states(after)]
        if self.records[-1].state != after:
            raise Wrong(f"the records behind {name} are not those of its last line")

    def states(self, after: bytes) -> list[bytes | None]:
        """What `state` prints before the command, and behind each line that it prints."""
        printed = self.whole.out.splitlines(True)
        if self.name == "init":
            return [None, after]
        with folder_with(self.start, self.sent) as folder:
            if self.name == "batch":
                lines = "".join(f"{it}\nstate\n" for it in BATCH)
                texts = re.split(rb"(?<=\n)(?=r\w+ed |held )", run(self.program, folder, "batch d", f"state\n{lines}").out)
                return [texts[0], *(it.split(b"\n", 1)[1] for it in texts[1:])]
            before = run(self.program, folder, "state d").out
        # Of a sweep each line is one of the state.
        lacking = [printed[count:] for count in range(1, len(printed))]
        return [before, *(b"".join(it for it in after.splitlines(True) if it not in lines) for lines in lacking), after]

    def allowed(self, printed: int) -> list[Records | None]:
        """The records that may be found where so many lines were printed."""
        return self.records[printed:printed + 2]

    def cut_behind(self, r: random.Random, most: int) -> set[int]:
        """The numbers of the calls behind which the power is cut: all, or so many, half of them near those on the database's
        own file, into which the log is copied."""
        numbers = range(len(self.calls) + 1)
        if len(numbers) <= most:
            return set(numbers)
        copying = [number for number, it in enumerate(self.calls, 1) if it.name == "custody.db"]
        near = {number + more for number in copying for more in range(-6, 7)} & set(numbers)
        return {*r.sample(sorted(near), min(len(near), most // 2)), *r.sample(numbers, most // 2)}

    def forged_behind(self, r: random.Random, most: int) -> set[int]:
        """The numbers of the calls behind which the log is forged: so many of those that write to it."""
        writes = [number for number, it in enumerate(self.calls, 1) if (it.does, it.name) == ("writes", "custody.db-wal")]
        return set(r.sample(writes, min(len(writes), most))) if self.name == "batch" else set()


class Cut(NamedTuple):
    """A power cut: where it comes, what it leaves, how many lines were printed, and whether a forged log is whole."""
    title: str
    files: Files
    printed: int
    is_whole: bool | None = None


def cuts_of(case: Case, asked: argparse.Namespace) -> Iterator[Cut]:
    """The power cuts of a command, each of which leaves something else."""
    r, disk, printed, digest, known = random.Random(f"{asked.seed}:{case.name}"), Disk(case.start), 0, b"", set()
    behind, forged_behind = case.cut_behind(r, asked.most), case.forged_behind(r, asked.forged)
    for number, call in enumerate([Call("begins", case.name), *case.calls]):
        disk.take(call)
        printed += call.data.count(b"\n") if call.does == "prints" else 0
        if call.does == "prints" and call.data.startswith(b"received"):
            digest = hashlib.sha256(SENT[call.data.split()[1].decode()]).digest()
        title = f"{case.name}, behind call {number} ({call.does} {call.name})"
        if number in behind:
            for way in range(1 if disk.is_settled() else asked.ways):
                files = disk.left(r, way)
                if (key := (printed, disk.mark(files))) not in known:
                    known.add(key)
                    yield Cut(f"{title}, way {way}", files, printed)
        if number in forged_behind:
            for place, (files, is_whole) in enumerate(forgeries(disk, digest)):
                yield Cut(f"{title}, forged log {place}, {'whole' if is_whole else 'but for a byte'}", files, printed, is_whole)


def try_case(case: Case, asked: argparse.Namespace) -> Counter:
    """Cuts the power at a command, prints what is wrong and how many cuts there were, and counts which passed."""
    counts, forged, cuts = Counter(), Counter(), cuts_of(case, asked)
    with concurrent.futures.ThreadPoolExecutor(asked.lanes) as pool:
        while group := [*itertools.islice(cuts, 4 * asked.lanes)]:
            came = pool.map(lambda it: wrong_of(case.program, case.sent, it.files, case.allowed(it.printed)), group)
            for cut, wrong in zip(group, came):
                counts[not wrong] += 1
                forged[cut.is_whole] += 1
                if wrong:
                    print(f"FAILED: {cut.title}: {wrong}", flush=True)
    logs = f", {forged[True]} with a forged log, {forged[False]} with one but for a byte" if case.name == "batch" else ""
    print(f"{case.name}: {len(case.calls)} calls, {counts.total()} vaults left{logs}", flush=True)
    return counts


def stopped(batch: Case) -> Files:
    """What a kill in the midst of a batch leaves, while its log has commits."""
    disk = Disk(batch.start)
    for call in batch.calls[:len(batch.calls) // 3]:
        disk.take(call)
    return disk.seen()


def main() -> int:
    words = parser(__doc__)
    words.add_argument("--program", default=ESCROW, type=Path)
    words.add_argument("--only", nargs="+", metavar="COMMAND", choices=LIFE)
    words.add_argument("--seed", type=int, default=1)
    words.add_argument("--ways", type=int, default=6)
    words.add_argument("--most", type=int, default=64)
    words.add_argument("--forged", type=int, default=150)
    words.add_argument("--lanes", type=int, default=os.cpu_count())
    asked, counts, files = words.parse_args(), Counter(), {}
    program, wanted = built(asked.program), asked.only or [*LIFE]
    if not shutil.which("strace") or answer_of(["strace", "-o", "/dev/null", "true"]).status:
        print("skipped: power cuts: no strace that may be used")
        return tell(0, 0, 1)
    with tempfile.TemporaryDirectory() as sent:
        for name, content in SENT.items():
            Path(sent, name).write_bytes(content)
        for name in [*LIFE][:1 + max(map([*LIFE].index, wanted))]:
            try:
                case = Case(program, Path(sent), name, files)
            except Wrong as wrong:
                print(f"FAILED: {name} without a cut: {wrong}")
                return tell(counts[True], counts[False] + 1)
            if name in wanted:
                counts += try_case(case, asked)
            files = stopped(case) if name == "batch" else case.files
    return tell(counts[True], counts[False])


if __name__ == "__main__":
    sys.exit(main())
