"""A batch: lines of standard input, each the words of a command, which are done in turn on a vault that is open."""
import contextlib
import datetime
import os
import random
import re
import select
import shutil
import sqlite3
import subprocess
import tempfile
import time
from collections.abc import Iterable, Iterator
from pathlib import Path

from lib import (
    DAY, FIVE, LIMIT, PART, TEN, Answer, Room, Wrong, answer_of, begin, case, each, explained, part_name, stated, transcripts)

# The most bytes of a line.
LONGEST = 65_536
A, B = f"register a --first {DAY}", f"register b --first {DAY}"


def batch(room: Room, sent: bytes | str, vault: str = "d") -> Answer:
    """What a batch of lines comes to."""
    room.file("sent", sent)
    return room.run(f"escrow batch {vault} < sent")


def alone(room: Room, line: str, vault: str = "d") -> Answer:
    """What the command of a line comes to, as a call of its own."""
    first, rest = line.split()[:1], line.split()[1:]
    return answer_of([room.program, *first, *([vault] if first else []), *rest], room.folder, environment=room.environment)


def lines(texts: Iterable[str]) -> str:
    return "".join(f"{it}\n" for it in texts)


def registries(room: Room) -> list[str]:
    """The registries of the vault, but for the first one's."""
    found = [line.split()[1] for line in room.run("escrow state d").lines() if line.startswith("registry ")]
    return [it for it in found if it != "example"]


def records(vault: Path) -> dict[str, list[tuple]]:
    """The rows of each table that are committed, by a copy of the database and its log."""
    with tempfile.TemporaryDirectory() as copy:
        for file in vault.glob("custody.db*"):
            shutil.copy(file, copy)
        with contextlib.closing(sqlite3.connect(Path(copy, "custody.db"))) as db:
            names = [it for it, in db.execute("SELECT name FROM sqlite_schema WHERE type = 'table' ORDER BY name")]
            return {name: db.execute(f"SELECT * FROM {name}").fetchall() for name in names}


# ---- a batch does what its commands do one by one

NEXT, LAST = (part_name(day, "diff") for day in ("2026-08-03", "2026-08-04"))
FIFTH, YEAR_AFTER, LATER = "2026-08-05T00:00:00Z", "2027-08-03T00:00:00Z", "2029-01-01T00:00:00Z"
PUT, PUT_NEXT = f"put in/{PART} --now {TEN}", f"put in/{NEXT} --now 2026-08-03T10:00:00Z"
HOLD = f"hold H-1 example --date {DAY} --now {FIVE}"
LIFE = [
    f"register other --first {FIFTH[:10]}", PUT, f"put in/{PART} --now {FIVE}", f"preview {stated()}", f"verify {stated()}",
    f"verify {stated()}", f"explain {explained()}", PUT_NEXT, f"due --now {FIFTH}", f"sweep --at-most 0 --now {FIFTH}",
    f"sweep --now {FIFTH}", f"sweep --now {FIFTH}", HOLD, "report example", "digests example", "state",
    f"release R-1 example operator --now {FIFTH}", f"fetch R-1 {PART}", f"fetch R-1 {NEXT}", f"fetch R-1 {LAST}",
    f"purge --now {YEAR_AFTER}", "audit", f"lift H-1 --now {YEAR_AFTER}", f"purge --now {YEAR_AFTER}", "state",
    f"put in/{PART} --now {YEAR_AFTER}", f"put in/{LAST} --now {LATER}", "audit", "digests example", "state"]
POOL = [
    *LIFE, A, f"register a --first {FIFTH[:10]}", "register other --first 2026-08-02", f"put nofile --now {TEN}", "put in",
    f"put --now {TEN} in/{LAST}", f"put in/other --now {TEN}", f"put --now {TEN} -- in/{PART}", f"preview {stated(parts=2)}",
    f"verify {stated('2026-08-03', 'diff')}", f"explain {explained('2026-08-03')}", f"due --now {LATER}",
    "due --now 2000-01-01T00:00:00Z", f"sweep --now {TEN}", f"hold H-2 example --date 2026-08-03 --now {TEN}",
    f"hold H-1 other --date {DAY} --now {TEN}", f"lift H-2 --now {FIVE}", "lift H-9",
    f"release R-2 example five_failed --now {LATER}", f"release R-2 other audit --now {FIFTH}", "fetch R-9 x",
    "report other", "report none", "digests none", f"purge --now {LATER}", "init --blocks 8 --number 0000000000000002"]


def drawn(seed: int) -> list[str]:
    """So many lines at random; the last shows the state."""
    return [*random.Random(seed).choices(POOL, k=30), "state"]


@each((("the life of a deposit by lines is that by commands", LIFE),
       *((f"lines at random do what their commands do {seed}", drawn(seed)) for seed in range(1, 7))), seconds=5)
def as_one_by_one(room: Room, life: list[str]) -> None:
    room.file(f"in/{PART}", (room.folder.parent / "full").read_bytes())
    for name in (NEXT, LAST, "other"):
        room.file(f"in/{name}", name * 200)
    for vault in ("d", "other"):
        room.vault(vault, 16)
    came = [alone(room, line, "other") for line in life]
    done = batch(room, lines(life))
    room.equal(b"".join(it.out for it in came), done.out, "the output")
    room.equal(b"".join(it.err for it in came), done.err, "the errors")
    room.equal(max(it.status for it in came), done.status, "the status")
    room.equal(*(records(room.folder / vault) for vault in ("other", "d")), "the rows of the tables")
    room.plays("$ cmp d/vault.vol other/vault.vol")


# ---- a line at a time


class Talk:
    """A batch to which lines are sent while it runs. What it prints is its output and its errors, as they come."""

    def __init__(self, process: subprocess.Popen):
        self.process = process

    def send(self, text: str) -> None:
        self.process.stdin.write(text.encode())

    def prints(self, seconds: float) -> bool:
        """Whether something comes in this time."""
        return bool(select.select([self.process.stdout], [], [], seconds)[0])

    def line(self) -> str:
        """The next line, which has to come by itself."""
        line, end = b"", time.monotonic() + LIMIT
        while not line.endswith(b"\n"):
            piece = os.read(self.process.stdout.fileno(), 1) if self.prints(max(0.0, end - time.monotonic())) else b""
            if not piece:
                raise Wrong(f"no whole line comes: {line!r}")
            line += piece
        return line.decode().removesuffix("\n")

    def end(self) -> tuple[int, bytes]:
        """Sends no more lines. Gives the status, and what else is printed."""
        printed, _ = self.process.communicate(timeout=LIMIT)
        return self.process.returncode, printed


@contextlib.contextmanager
def talk(room: Room) -> Iterator[Talk]:
    """A batch on the vault."""
    pipes = {"stdin": subprocess.PIPE, "stdout": subprocess.PIPE, "stderr": subprocess.STDOUT}
    with begin([room.program, "batch", "d"], cwd=room.folder, bufsize=0, **pipes) as process:
        try:
            yield Talk(process)
        finally:
            process.kill()


def day_of(number: int) -> str:
    return str(datetime.date.fromisoformat(DAY) + datetime.timedelta(number))


def put_line(number: int) -> tuple[str, str]:
    """The line that puts the part of a day, and its answer."""
    name, moment = part_name(day_of(number)), f"{day_of(number)}T12:00:00Z"
    return f"put in/{name} --now {moment}", f"received {name} 10 {moment}"


@case()
def an_answer_comes_once_its_record_is_kept_and_before_the_next_line(room: Room) -> None:
    room.vault("d", 40)
    with talk(room) as sent, open(room.folder / "d/vault.vol", "rb") as volume:
        for number in range(16):
            content, (line, answer) = day_of(number).encode(), put_line(number)
            # The file is read when its line comes.
            room.file(line.split()[1], content)
            sent.send(f"{line}\n")
            room.equal(answer, sent.line(), line)
            rows = records(room.folder / "d")["part"]
            room.equal(number + 1, len(rows), "how many parts are committed")
            place = 4096 * int.from_bytes(rows[-1][-1][:4], "big")
            room.equal(content, os.pread(volume.fileno(), 10, place), "the bytes of the part")
        sent.send("lift H-9\n")
        room.equal("Q21 hold unknown", sent.line(), "a refusal")
        sent.send("put nofile\n")
        room.equal("file failed: nofile: file missing", sent.line(), "a file that is missing")
        room.plays("$ escrow state d -> !3 file failed: d/vault.vol: file in use")
        room.equal((3, b""), sent.end(), "the end")
    room.plays("$ escrow audit d -> sound 16")


@case()
def a_line_that_comes_in_pieces_is_done_once_it_is_whole(room: Room) -> None:
    room.vault("d")
    with talk(room) as sent:
        for piece in A:
            sent.send(piece)
            time.sleep(0.002)
        room.true(not sent.prints(0.3), "an answer comes before the line ends")
        sent.send(f"\n{B}\nlift")
        room.equal([f"registered a {DAY}", f"registered b {DAY}"], [sent.line(), sent.line()], "two lines")
        room.true(not sent.prints(0.3), "an answer comes before the third line ends")
        sent.send(" H-9")
        room.equal((1, b"Q21 hold unknown\n"), sent.end(), "the end of the third line")


# ---- what ends a batch

# Lines that are no command: the command itself says why, or gives help.
NO_COMMANDS = {
    "an unknown command": "frob", "a word that is missing": "put", "a folder": "state d", "the program": "escrow state",
    "a word out of form": f"register B --first {DAY}", "a moment out of form": "lift H-1 --now 10:00",
    "a mistyped option": f"register b --frist {DAY}", "a quoted space": "put 'a b'", "a comment": "# put",
    "an empty line": "", "white space": " \t\v\f\r", "help": "help", "help of a command": "put --help", "a short help": "-h",
    "help with a word": "help put", "the version": "--version", "a batch that is no call": "batch d",
    "a server that is no call": "serve --port x --requests 1"}
# Other lines, and why each ends a batch.
NO_TEXT = "error: a line is no text"
OTHERS = {
    "a batch": (b"batch", "error: batch and serve are no lines of a batch"),
    "a server": (b"serve --port 8080 --requests 1", "error: batch and serve are no lines of a batch"),
    "a byte that is no text": (b"\xff", NO_TEXT), "a word that is no text": (b"put \xc3", NO_TEXT),
    "a surrogate": (b"report \xed\xa0\x80", NO_TEXT),
    "a line that is too long": (b"state" + bytes(LONGEST), "error: a line has more than 65536 bytes"),
    "a long line that is no text": (b"\xff" * (LONGEST + 1), "error: a line has more than 65536 bytes")}


def ends(room: Room, line: bytes, why: bytes) -> None:
    """A batch ends at this line with status 2. The line before it is done, and the one behind it is not."""
    done = batch(room, b"\n".join((A.encode(), line, B.encode(), b"")))
    room.equal(Answer(2, f"registered a {DAY}\n".encode(), why + b"batch ended at line 2\n"), done, f"the line {line[:80]!r}")
    room.equal(["a"], registries(room), "the registries")


@each((f"a batch ends at {title}", line) for title, line in NO_COMMANDS.items())
def no_command(room: Room, line: str) -> None:
    room.vault("d")
    came = alone(room, line)
    ends(room, line.encode(), came.err or came.out)


@each((f"a batch ends at {title}", *row) for title, row in OTHERS.items())
def no_order(room: Room, line: bytes, why: str) -> None:
    room.vault("d")
    ends(room, line, f"{why}\n".encode())


ENDED = "! error: batch and serve are no lines of a batch\n! batch ended at line"
transcripts(__name__, rf"""
== refusals and files that are missing do not end a batch
$ printf 'lift H-9\n{A}\nput nofile\nput .\n{B}\nlift H-9\n' | escrow batch d -> registered a {DAY}
registered b {DAY}
!3 Q21 hold unknown
! file failed: nofile: file missing
! file failed: .: Is a directory (os error 21)
! Q21 hold unknown
== the status is the highest of the commands
$ printf '{A}\nlift H-9\n{B}\n' | escrow batch d -> registered a {DAY}
registered b {DAY}
!1 Q21 hold unknown
$ printf 'put nofile\nlift H-9\n{B}\n' | escrow batch d -> registered b {DAY}
!3 file failed: nofile: file missing
! Q21 hold unknown
$ printf '{A}\n{B}\n' | escrow batch d -> registered a {DAY}
registered b {DAY}
== a line that is no command gives its status whatever came before
$ printf '{A}\nlift H-9\nbatch\n{B}\n' | escrow batch d -> registered a {DAY}
!2 Q21 hold unknown
{ENDED} 3
$ printf 'put nofile\nbatch' | escrow batch d -> !2 file failed: nofile: file missing
{ENDED} 2
$ printf 'batch\n{B}\n' | escrow batch d -> !2 {ENDED[2:]} 1
$ escrow state d | grep -c '^registry [ab]' -> 1
== damage that is found does not end a batch
$ echo -n hello > {PART}; escrow put d {PART} --now {TEN} -> received {PART} 5 {TEN}
$ sed -i s/hello/hellx/ d/vault.vol
$ printf 'audit\nput {PART}\n{A}\naudit\n' | escrow batch d -> damaged {PART}
registered a {DAY}
damaged {PART}
!3 C5 damaged H8
$ printf 'audit\n{A}\n' | escrow batch d -> damaged {PART}
registered a {DAY}
!1
== a batch without lines does nothing
$ escrow batch d
$ escrow batch d <&-
$ printf '' | escrow batch d
$ escrow batch d <&- >&- 2>&-
$ escrow batch d > /dev/full
== the last line may lack its line feed
$ printf '{A}' | escrow batch d -> registered a {DAY}
$ printf '{A}\n{B}' | escrow batch d -> registered a {DAY}
registered b {DAY}
$ printf '{A}\nlift' | escrow batch d 2> errors -> registered a {DAY}
!2
$ tail -n 1 errors -> batch ended at line 2
== white space parts the words and may stand around them
$ printf '{A}\r\n\t register  b\t--first\v{DAY} \f\r\n{A}\r' | escrow batch d -> registered a {DAY}
registered b {DAY}
registered a {DAY}
$ printf '\343\200\200register\302\240c\342\200\203--first %s\302\205\n' {DAY} | escrow batch d -> registered c {DAY}
$ printf 'state\rstate\n' | escrow batch d 2> errors -> !2
$ grep -c . errors > count; tail -n 1 errors -> batch ended at line 1
== a batch has no words beside its folder
$ escrow batch d --now {TEN} 2> errors -> !2
$ escrow batch d sent 2> errors -> !2
$ escrow batch 2> errors -> !2
$ grep Usage errors -> Usage: escrow batch <DIR>
== lines that cannot be read are a failure
$ escrow batch d < . -> !3 file failed: standard input: Is a directory (os error 21)
$ escrow batch d 0> written -> !3 file failed: standard input: Bad file descriptor (os error 9)
""", before="$ vault d")

transcripts(__name__, f"""
== of a vault that does not open no line is read
$ (escrow batch nowhere; echo $?; cat) < sent -> 3
{A}
frob
!0 file failed: nowhere: folder missing
$ mkdir bare; (escrow batch bare; echo $?; cat) < sent -> 3
{A}
frob
!0 file failed: bare/vault.vol: file missing
$ vault d; (flock d/vault.vol escrow batch d; echo $?; cat) < sent -> 3
{A}
frob
!0 file failed: d/vault.vol: file in use
$ truncate -s 0 d/vault.vol; (escrow batch d; echo $?; cat) < sent -> 3
{A}
frob
!0 C5 damaged H1
""", "flock", before=f"$ printf '%s\\n' '{A}' frob > sent")

# Ways for the output to be lost; the last is a pipe whose reader has gone.
LOST = {"on a full device": "escrow batch d < sent > /dev/full", "that is closed": "escrow batch d < sent >&-",
        "without a reader": "exec 3> >(:); wait $!; escrow batch d < sent >&3"}
transcripts(__name__, "".join(rf"""
== with an output {title} all lines are done
$ printf '{A}\nlift H-9\nstate\n{B}' > sent; {way} -> !3 Q21 hold unknown
! output failed
$ escrow state d | grep '^registry [ab]' -> registry a {DAY}
registry b {DAY}
$ printf 'register c --first {DAY}\nbatch\n' > sent; {way} -> !2 {ENDED[2:]} 2
! output failed
$ printf 'report example\nlift H-9' > sent; {way} -> !1 Q21 hold unknown
$ escrow state d | grep -c '^registry [abc]' -> 3
""" for title, way in LOST.items()) + rf"""
== with errors that are lost all lines are done
$ printf 'lift H-9\n{A}\nput nofile\n{B}' > sent
$ escrow batch d < sent 2> /dev/full -> registered a {DAY}
registered b {DAY}
!3
$ escrow batch d < sent 2>&- -> registered a {DAY}
registered b {DAY}
!3
$ escrow batch d < sent > /dev/full 2>&- -> !3
$ printf '{A}\nbatch\n{B}' | escrow batch d 2> /dev/full -> registered a {DAY}
!3
""", before="$ vault d")


@case()
def a_volume_that_fails_ends_a_batch(room: Room) -> None:
    room.vault("d", 300)
    room.file(PART, bytes(1 << 20))
    room.file("sent", lines(("lift H-9", A, f"put {PART} --now {TEN}", B)))
    room.plays(f"""
        $ trap '' XFSZ; ulimit -f 400; escrow batch d < sent -> registered a {DAY}
        !3 Q21 hold unknown
        ! C2 volume failed
        ! file failed: d/vault.vol: File too large (os error 27)
        $ escrow batch d < sent -> registered a {DAY}
        received {PART} 1048576 {TEN}
        registered b {DAY}
        !1 Q21 hold unknown""")


@case()
def a_database_that_fails_ends_a_batch(room: Room) -> None:
    names = [f"r{number:03}" for number in range(600)]
    room.vault("d")
    room.file("sent", lines(["put nofile", *(f"register {it} --first {DAY}" for it in names)]))
    done = room.run("trap '' XFSZ; ulimit -f 400; escrow batch d < sent")
    room.equal((3, b"file failed: nofile: file missing\nC3 store failed\n"), (done.status, done.err), "the end")
    count = done.out.count(b"\n")
    room.equal(lines(f"registered {it} {DAY}" for it in names[:count]).encode(), done.out, "the answers")
    room.true(0 < count < len(names), f"{count} registries are answered")
    found = registries(room)
    room.equal(names[:len(found)], found, "the registries")
    room.true(len(found) - count in (0, 1), f"{count} registries are answered, and {len(found)} are there")


# ---- many lines, long ones, and noise


@case(seconds=10)
def ten_thousand_lines_are_done(room: Room) -> None:
    """Every tenth makes a record, and every hundredth is refused."""
    count, wanted, sent, refused = 10_000, [], [], 0
    for number in range(count):
        name = f"r{number // 10:04}"
        if number % 100 == 99:
            sent.append("lift H-9")
            refused += 1
        else:
            sent.append(f"register {name} --first {DAY}")
            wanted.append(f"registered {name} {DAY}")
    room.vault("d")
    done = batch(room, lines([*sent, "batch", "state"]))
    room.equal(wanted, done.out.decode().splitlines(), "the output")
    end = f"error: batch and serve are no lines of a batch\nbatch ended at line {count + 1}\n"
    room.equal(Answer(2, b"", b"Q21 hold unknown\n" * refused + end.encode()), Answer(done.status, b"", done.err), "the end")
    room.equal(count // 10, len(registries(room)), "how many registries there are")


@case()
def a_line_has_at_most_65536_bytes(room: Room) -> None:
    room.vault("d")
    whole, why = f"registered a {DAY}\n".encode(), b"error: a line has more than 65536 bytes\nbatch ended at line 2\n"
    after = f"registered b {DAY}\n".encode()
    for title, fill in {"behind": A + " " * (LONGEST - len(A)), "before": "\t" * (LONGEST - len(A)) + A}.items():
        room.equal(Answer(0, whole, b""), batch(room, fill), f"{title}: such a line without line feed")
        room.equal(Answer(0, whole + after, b""), batch(room, f"{fill}\n{B}"), f"{title}: such a line")
        room.equal(Answer(2, after, why), batch(room, f"{B}\n{fill}\r\n{A}"), f"{title}: one with a CR more")
        room.equal(Answer(2, after, why), batch(room, f"{B}\n {fill}"), f"{title}: one with a space more")
    room.plays("$ vault e; escrow batch e < /dev/zero -> !2 error: a line has more than 65536 bytes\n! batch ended at line 1")


@case()
def words_that_are_too_long_are_refused_or_named(room: Room) -> None:
    word, answer = "a" * 60_000, f"registered a {DAY}\n".encode()
    too_long = f"file failed: {word}: File name too long (os error 36)"
    room.vault("d")
    room.plays(f"$ escrow release d R-1 example audit --now {TEN} -> released R-1 example audit {TEN} 0")
    for line, status, why in (f"put {word}", 3, too_long), (f"fetch R-1 {word}", 1, "Q18 not in release"):
        came = Answer(status, b"", f"{why}\n".encode())
        room.equal(came, alone(room, line), line[:80])
        room.equal(Answer(status, answer, came.err), batch(room, lines((line, A))), line[:80])
    for line in (word, f"register {word} --first {DAY}", f"lift {word}", f"lift H-1 --now {word}", f"state --{word}",
                 f"state {word}"):
        came = alone(room, line)
        room.equal(Answer(2, answer, came.err + b"batch ended at line 2\n"), batch(room, lines((A, line, B))), line[:80])
    room.equal(["a"], registries(room), "the registries")


READS = [b"state", b"report example", b"digests example", b"due", b"audit", b"explain example --date 2026-08-02 --revision 0",
         b"fetch R-1 x", b"lift H-9", b"put nofile", b"batch", b"help"]


def noise(r: random.Random) -> bytes:
    """Bytes at random, or lines of which some bytes are changed. None of them makes a record."""
    kind = r.randrange(3)
    if kind == 0:
        return r.randbytes(r.randrange(1, 100_000))
    if kind == 1:
        return bytes(r.choices(b" \t\r\n\n\0-='\"\\aestu\xc3\xa9\xff", k=r.randrange(1, 400)))
    sent = bytearray(b"\n".join(r.choices(READS, k=40)))
    for _ in range(r.randrange(1, 4)):
        sent[r.randrange(len(sent))] = r.randrange(256)
    return bytes(sent)


@case()
def noise_does_no_harm(room: Room) -> None:
    room.vault("d")
    room.put("d", PART, "hello", TEN)
    before, rows = room.run("escrow state d"), records(room.folder / "d")
    for seed in range(40):
        sent = noise(random.Random(seed))
        done = batch(room, sent)
        room.true(done.status in (0, 1, 2, 3), f"seed {seed}: status {done.status}, {done.err[-300:]!r}")
        is_ended = re.search(rb"^batch ended at line ([0-9]+)\n\Z", done.err, re.M)
        room.equal(done.status == 2, is_ended is not None, f"seed {seed}: whether it ends at a line")
        room.true(not is_ended or int(is_ended[1]) <= sent.count(b"\n") + 1, f"seed {seed}: {done.err[-300:]!r}")
        room.equal(before, room.run("escrow state d"), f"seed {seed}: the state")
    room.equal(rows, records(room.folder / "d"), "the rows")
    room.plays("$ escrow audit d -> sound 1")


# ---- a batch that is killed

PUTS, KILLS = 200, 6


def killed(room: Room, r: random.Random) -> list[str]:
    """What a batch prints that is killed in the midst of its lines. They do not end before, so that it is still there."""
    printed, wanted = b"", r.randrange(PUTS * 3 // 4)
    with begin([room.program, "batch", "d"], cwd=room.folder, stdin=subprocess.PIPE, stdout=subprocess.PIPE) as process:
        process.stdin.write((room.folder / "sent").read_bytes())
        process.stdin.flush()
        while printed.count(b"\n") < wanted and (piece := os.read(process.stdout.fileno(), 4096)):
            printed += piece
        time.sleep(r.uniform(0, 0.004))
        process.kill()
        while piece := os.read(process.stdout.fileno(), 4096):
            printed += piece
    room.equal(-9, process.returncode, "the end of a batch that is killed")
    return printed.decode().splitlines()


@case(seconds=10)
def a_batch_that_is_killed_has_done_what_it_answered_and_at_most_one_line_more(room: Room) -> None:
    puts = [put_line(number) for number in range(PUTS)]
    for number, (line, _) in enumerate(puts):
        room.file(line.split()[1], day_of(number))
    room.file("sent", lines(line for line, _ in puts))
    for _ in range(KILLS):
        room.plays("$ rm -rf d")
        room.vault("d", PUTS + 1)
        printed = killed(room, random.Random())
        room.equal([answer for _, answer in puts[:len(printed)]], printed, "the answers")
        state = room.run("escrow state d").lines()
        found = [f"received {it.split()[1]} {it.split()[2]} {it.split()[4]}" for it in state if it.startswith("part ")]
        room.equal([answer for _, answer in puts[:len(found)]], found, "the parts that are there")
        room.true(len(found) - len(printed) in (0, 1), f"{len(printed)} parts are answered, and {len(found)} are there")
        room.plays(f"$ escrow audit d -> sound {len(found)}")
        # The same lines again give the same answers, with few files open at once.
        done = room.run("ulimit -n 20; escrow batch d < sent")
        room.equal(Answer(0, lines(answer for _, answer in puts).encode(), b""), done, "the same batch again")
