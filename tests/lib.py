"""The library of the tests: deposits, vaults, commands, servers, a client that cuts and stalls, and cases.

A case is a section of `transcripts`, a function with the decorator `case`, or a row of a table with the decorator `each`,
in a file of tests/cases. It has a `Room`: a folder of its own in which it runs the program. `tests/run` runs the cases.
"""
from __future__ import annotations

import argparse
import contextlib
import difflib
import functools
import hashlib
import json
import os
import random
import re
import select
import shutil
import socket
import struct
import subprocess
import sys
import tempfile
import threading
import time
import traceback
from collections.abc import Callable, Iterable, Iterator, Mapping, Sequence
from dataclasses import dataclass, field
from pathlib import Path

TOP = Path(__file__).resolve().parent.parent
ESCROW = TOP / "crates/escrow/out/escrow"
PACKER = TOP / "crates/deposit/out/deposit"
# Seconds for a command to end, or a server to listen.
LIMIT = 120
# The tools that some tests need, each with its Debian package.
PACKAGES = {"chromium": "chromium", "curl": "curl", "fallocate": "util-linux", "flock": "util-linux", "groff": "groff-base",
            "ip": "iproute2", "nginx": "nginx", "nsenter": "util-linux", "openssl": "openssl", "pg_ctlcluster": "postgresql",
            "prlimit": "util-linux", "script": "bsdutils", "setpriv": "util-linux", "sqlite3": "sqlite3", "strace": "strace",
            "systemctl": "systemd", "systemd-analyze": "systemd", "unshare": "util-linux"}


class Wrong(Exception):
    """Something is not as it should be; the text says what."""


class Skip(Exception):
    """A case cannot be tried on this machine; the text says why."""


# ---- names, lines and deposits

DAY, TEN, FIVE = "2026-08-02", "2026-08-02T10:00:00Z", "2026-08-02T10:05:00Z"


def part_name(day: str = DAY, kind: str = "full", part: int = 1, revision: int = 0, tld: str = "example") -> str:
    """The name of the file of a part."""
    return f"{tld}_{day}_{kind}_S{part}_R{revision}.ryde"


def notice(number: int, verdict: str, day: str, at: str, deposit: str = "-", revision: int = 0, tld: str = "example") -> str:
    """The line of a notice. The verdict is RECEIPT, FAILURE-NN or ABSENCE."""
    place = "---" if verdict == "ABSENCE" else f"R{revision:02}"
    return f"{number:8} {verdict:10} {day} {place} {deposit:13} {at} {tld}"


def state(free: int, *lines: str, first: str = DAY, blocks: int = 8) -> str:
    """The state of a vault with the registry `example`: its lines between the registry's and that of the free blocks."""
    return "\n".join((f"registry example {first}", *lines, f"free {free} of {blocks - 1}"))


TABLES = ("domain", "domainContacts", "domainStatuses", "domainNameServers", "host", "hostAddresses", "contact", "registrar")
# The most bytes of a part.
PART_LENGTH = 1 << 20


def number_of(day: str) -> str:
    """The number (the id) of the deposit of a day: its digits and 001."""
    return day.replace("-", "") + "001"


def framed(text: bytes, files: bytes) -> bytes:
    """The deposit with this text of its envelope and these files, one behind the other."""
    return b"RDE1 %08d\n" % len(text) + text + files


def envelope_text(members: Mapping[str, object]) -> bytes:
    """The one spelling of an envelope."""
    return json.dumps(members, separators=(",", ":"), sort_keys=True).encode()


def taken_apart(deposit: bytes) -> tuple[dict, bytes]:
    """The envelope of a deposit, and its files."""
    end = 14 + int(deposit[5:13])
    return json.loads(deposit[14:end]), deposit[end:]


def changed(deposit: bytes, *, counts: Iterable[int] = (), tables: Mapping[str, bytes] = {}, **members: object) -> bytes:
    """A deposit with other members in its envelope, other counts (of contacts, domains, hosts and registrars), or other texts
    of tables, whose lengths and digests it then has."""
    envelope, rest = taken_apart(deposit)
    envelope |= members
    envelope["header"]["count"] |= zip(sorted(envelope["header"]["count"]), counts)
    files = []
    for entry in envelope["contents"] + envelope.get("deletes", []):
        text, rest = tables.get(entry["name"], rest[:entry["length"]]), rest[entry["length"]:]
        entry |= {"length": len(text), "sha256": hashlib.sha256(text).hexdigest()}
        files.append(text)
    return framed(envelope_text(envelope), b"".join(files))


def parts_of(deposit: bytes) -> dict[str, bytes]:
    """The parts of a deposit by their names, each as long as it may be."""
    envelope, _ = taken_apart(deposit)
    day, kind, revision = envelope["watermark"][:10], envelope["type"].lower(), envelope["resend"]
    return {part_name(day, kind, place + 1, revision): deposit[at:at + PART_LENGTH]
            for place, at in enumerate(range(0, len(deposit), PART_LENGTH))}


def packed(kind: str = "full", day: str = DAY, *, tables: Mapping[str, str] = {}, deletes: Mapping[str, str] = {},
           after: Iterable[bytes] = (), previous: str = "", number: str = "", revision: int = 0) -> bytes:
    """The bytes of a deposit of the registry `example`, packed by `deposit`.

    A `full` one has all eight tables, empty but for those that are given. A `diff` or `incr` one has just those, and the keys
    that it deletes; its counts are those behind the deposits that it follows, which come `after`. The number is that of the
    day, unless another one is given. What is given as `previous` need not be the deposit that it follows.
    """
    if kind == "full":
        tables = dict.fromkeys(TABLES, "") | dict(tables)
    files = {f"{table}.csv": text for table, text in tables.items()}
    files |= {f"deletes/{table}.csv": text for table, text in deletes.items()}
    words = ["--tld", "example", "--date", day, "--kind", kind, "--revision", str(revision), "--id", number or number_of(day)]
    if previous and not after:
        words += ["--previous", previous]
    made = _packed(tuple(words), tuple(files.items()), tuple(after))
    return changed(made, prevId=previous) if previous else made


@functools.cache
def _packed(words: tuple[str, ...], files: tuple[tuple[str, str], ...], after: tuple[bytes, ...]) -> bytes:
    """The deposit that `deposit pack` makes by these words of these files."""
    with tempfile.TemporaryDirectory() as room:
        tables, sent, out = (Path(room, name) for name in ("tables", "sent", "out"))
        for folder in tables / "deletes", sent:
            folder.mkdir(parents=True)
        for name, text in files:
            (tables / name).write_text(text, newline="")
        for name, content in (it for deposit in after for it in parts_of(deposit).items()):
            (sent / name).write_bytes(content)
        behind = ["--after", *sent.iterdir()] if after else []
        done = answer_of([built(PACKER), "pack", tables, *words, *behind, "--out", out])
        if done.status != 0:
            raise Wrong(f"deposit pack {' '.join(words)}: {' '.join(done.lines())}")
        return b"".join(it.read_bytes() for it in sorted(out.iterdir()))


def stated(day: str = DAY, kind: str = "full", at: str = "", number: str = "", parts: int = 1, revision: int = 0) -> str:
    """The words behind `escrow verify VAULT` that state a deposit, at five past ten unless another moment is given, with
    the number of its day unless another one is given."""
    number, at = number or number_of(day), at or f"{day}T10:05:00Z"
    return f"example --date {day} --kind {kind} --revision {revision} --parts {parts} --id {number} --now {at}"


def explained(day: str = DAY, revision: int = 0, tld: str = "example") -> str:
    """The words behind `escrow explain VAULT` that ask why a revision has failed."""
    return f"{tld} --date {day} --revision {revision}"


# Why a deposit has failed that is no frame.
EXPLAINED = "FAILURE-01 F1: it does not begin with RDE1 and a space"
# The first part of the day, the digest of the deposit `packed()` of that one part, and the notice of its statement at FIVE.
PART, RECEIPT = part_name(), notice(1, "RECEIPT", DAY, FIVE, number_of(DAY))
DIGEST = "34dd1dbe11d7bee7852604c3368fb3f29c1e0a05f81f330d28e32036cf208002"
# The transcript that makes a vault `d` with this deposit and its receipt.
PASSED = f"""$ vault d
$ cp ../full {PART}; escrow put d {PART} --now {TEN} -> received {PART} 1422 {TEN}
$ escrow verify d {stated()} -> {RECEIPT}"""


# ---- requests and responses

REASONS = {
    200: "OK", 201: "Created", 400: "Bad Request", 404: "Not Found", 405: "Method Not Allowed", 409: "Conflict", 410: "Gone",
    411: "Length Required", 413: "Content Too Large", 500: "Internal Server Error", 501: "Not Implemented",
    503: "Service Unavailable", 507: "Insufficient Storage"}


def request(line: str, body: bytes | str | None = None, *fields: str) -> bytes:
    """The bytes of a request with these fields. With a body it has a length too."""
    sent = body.encode() if isinstance(body, str) else body
    lengths = [] if sent is None else [f"Content-Length: {len(sent)}"]
    return "\r\n".join([f"{line} HTTP/1.1", *lengths, *fields, "", ""]).encode() + (sent or b"")


def statement(day: str = DAY, number: str = "20260802001", kind: str = "full", parts: int = 1, revision: int = 0,
              tld: str = "example") -> str:
    """The body of the request that states a deposit."""
    members = {"date": day, "id": number, "kind": kind, "parts": parts, "revision": revision, "tld": tld}
    return json.dumps(members, separators=(",", ":"))


def response(status: int, answer: str | bytes = "", *fields: str) -> bytes:
    """The bytes of a response. An answer of text ends with a line feed, unless it is empty; one of bytes is a part."""
    kind = "application/octet-stream" if isinstance(answer, bytes) else "text/plain"
    body = answer if isinstance(answer, bytes) else (answer and answer + "\n").encode()
    head = [f"HTTP/1.1 {status} {REASONS[status]}", f"Content-Type: {kind}", f"Content-Length: {len(body)}",
            "Connection: close", *fields, "", ""]
    return "\r\n".join(head).encode() + body


def volume_failed(cause: str) -> str:
    """The pattern of the errors of a server whose volume failed: that line, and at the end the line of the cause."""
    return rf"C2 volume failed\nfile failed: .*/vault\.vol: {re.escape(cause)}"


def exchange(port: int, data: bytes, *, piece: int = 1 << 30, pause: float = 0, wait: float = 0, end: str = "half",
             read: int = 0, narrow: bool = False) -> bytes:
    """Sends the data to a port of 127.0.0.1, and gives what comes back.

    The data goes out in pieces, with a pause of so many seconds behind each, which is over where the server answers or
    closes: then no more is sent. After a wait comes the end: `half` sends no more and reads all, `open` reads all and does
    nothing else, `close` reads nothing, and `reset` reads so many bytes and breaks the connection off. A narrow client takes
    little at a time, so that a large response does not fit into the buffers of the two ends.
    """
    answer = bytearray()
    with socket.socket() as client, contextlib.suppress(OSError):
        client.settimeout(70)
        client.setsockopt(socket.IPPROTO_TCP, socket.TCP_NODELAY, 1)
        if narrow:
            client.setsockopt(socket.SOL_SOCKET, socket.SO_RCVBUF, 4096)
            client.setsockopt(socket.IPPROTO_TCP, socket.TCP_MAXSEG, 536)
        client.connect(("127.0.0.1", port))
        for at in range(0, len(data), piece):
            client.sendall(data[at:at + piece])
            if select.select([client], [], [], pause)[0]:
                break
        time.sleep(wait)
        if end == "half":
            client.shutdown(socket.SHUT_WR)
        most = {"half": 1 << 30, "open": 1 << 30, "close": 0, "reset": read}[end]
        while len(answer) < most and (came := client.recv(min(65_536, most - len(answer)))):
            answer += came
        if end == "reset":
            client.setsockopt(socket.SOL_SOCKET, socket.SO_LINGER, struct.pack("ii", 1, 0))
    return bytes(answer)


# ---- processes

_beginning = threading.Lock()


def begin(words: Sequence[str | Path], **how) -> subprocess.Popen:
    """Begins a program, while no other thread writes a script: a process holds the files that are open until its program
    begins, and a script that is open to be written cannot be executed."""
    with _beginning:
        return subprocess.Popen(words, **how)


# ---- servers

_ports: set[int] = set()
_ports_lock = threading.Lock()


def free_port() -> int:
    """A port of 127.0.0.1 that nothing listens on, below those that clients are given; another one at each call."""
    with _ports_lock:
        for port in random.sample(range(20_000, 32_000), 200):
            if port not in _ports:
                with socket.socket() as probe, contextlib.suppress(OSError):
                    probe.setsockopt(socket.SOL_SOCKET, socket.SO_REUSEADDR, 1)
                    probe.bind(("127.0.0.1", port))
                    _ports.add(port)
                    return port
    raise Wrong("no port is free")


class Server:
    """A program that serves a vault, for so many requests, at a moment or by the clock."""

    def __init__(self, program: Path, vault: Path, requests: int = 1_000_000, now: str = "", port: int = 0,
                 under: Iterable[str] = (), until_closed: bool = False):
        self.vault, self.now, self.port, self.printed, self.is_killed = vault, now, port or free_port(), b"", False
        words = ["serve", vault, "--port", str(self.port), "--requests", str(requests), *(["--now", now] if now else []),
                 *(["--until-closed"] if until_closed else [])]
        self.errors = tempfile.TemporaryFile()
        self.process = begin([*under, program, *words], stdin=subprocess.DEVNULL, stdout=subprocess.PIPE, stderr=self.errors)

    def listens(self, seconds: float) -> bool:
        """Whether it says so in this time, and prints nothing else."""
        wanted, end = f"listening 127.0.0.1:{self.port}\n".encode(), time.monotonic() + seconds
        while self.printed != wanted:
            ready, _, _ = select.select([self.process.stdout], [], [], max(0.0, end - time.monotonic()))
            piece = os.read(self.process.stdout.fileno(), 100) if ready else b""
            self.printed += piece
            if not wanted.startswith(self.printed):
                raise Wrong(f"serve prints {self.printed!r}")
            if not piece:
                return False
        return True

    def told(self) -> list[str]:
        """The lines of its errors so far."""
        return lines_of(os.pread(self.errors.fileno(), 1 << 16, 0))

    def end(self, seconds: float = LIMIT) -> tuple[int | None, str]:
        """Waits for its end. Gives its status, none where it had to be ended, and the lines of its errors."""
        with contextlib.suppress(subprocess.TimeoutExpired):
            self.process.wait(seconds)
        status = self.process.poll()
        self.process.kill()
        self.process.wait()
        self.process.stdout.close()
        self.errors.seek(0)
        with self.errors:
            return status, self.errors.read().decode(errors="replace")

    def kill(self) -> tuple[int | None, str]:
        """Kills it, and gives what `end` does."""
        self.is_killed = True
        self.process.kill()
        return self.end()

    def close(self) -> None:
        """Ends it, whatever it does, where it was not ended."""
        if not self.errors.closed:
            self.kill()

    def ask(self, data: bytes, **how) -> bytes:
        """What is answered to these bytes: see `exchange`."""
        return exchange(self.port, data, **how)


# ---- transcripts

@dataclass
class Step:
    """A command of a transcript, the lines before it that are none, and the lines that it has to print."""
    command: str
    before: list[str] = field(default_factory=list)
    wanted: list[str] = field(default_factory=list)


def steps(lines: Iterable[str]) -> Iterator[Step]:
    """The commands of a transcript in their order: lines that begin with `$ `, each before the lines that it prints."""
    step, before = None, []
    for line in lines:
        if line.startswith("$ "):
            if step:
                yield step
            step, before = Step(line[2:], before), []
        elif line.startswith("#") or not line:
            before.append(line)
        elif step:
            step.wanted.append(line)
    if step:
        yield step


def difference(wanted: Sequence[str], got: Sequence[str]) -> str:
    """The lines that differ, those that are wanted with a minus and those that came with a plus."""
    lines = list(difflib.unified_diff(wanted, got, n=0, lineterm=""))[2:]
    return "\n".join(line[:400] for line in lines if line[0] in "-+")


def lines_of(data: bytes) -> list[str]:
    """The lines of what a command printed, each of which ends with a line feed."""
    *lines, rest = data.decode(errors="replace").split("\n")
    return [*lines, f"{rest} (and no line feed)"] if rest else lines


@dataclass(frozen=True)
class Answer:
    """What a command came to. The status is negative after a signal, and none if it did not end in time."""
    status: int | None
    out: bytes
    err: bytes

    def lines(self) -> list[str]:
        """The lines of its output. After a failure, or with errors, those of its errors follow: `!` and the status before
        the first one (None, if it did not end in time), `!` before each other."""
        first, *others = lines_of(self.err) or [""]
        failure = [f"!{self.status} {first}".rstrip(), *(f"! {it}" for it in others)] if self.status != 0 or first else []
        return lines_of(self.out) + failure


def answer_of(words: Sequence[str | Path], folder: Path | None = None, seconds: float = LIMIT,
              environment: Mapping[str, str] | None = None) -> Answer:
    """Runs a program in a folder, for so many seconds at most."""
    with begin(words, cwd=folder, env=environment, stdin=subprocess.DEVNULL, stdout=subprocess.PIPE,
               stderr=subprocess.PIPE) as process:
        try:
            out, err = process.communicate(timeout=seconds)
        except subprocess.TimeoutExpired:
            process.kill()
            return Answer(None, b"", b"")
    return Answer(process.returncode, out, err)


# A pipe fails if one of its commands fails. `vault NAME [BLOCKS [FIRST]]` makes a vault with the registry `example`.
PRELUDE = """set -o pipefail
vault() {
    mkdir "$1" && made=$(escrow init "$1" --blocks "${2-8}" --number 0000000000000001 &&
        escrow register "$1" example --first "${3-2026-08-02}") && test "$made" = "ready ${2-8} 0000000000000001
registered example ${3-2026-08-02}"
}
"""


class Room:
    """The folder of a case, in which `escrow` and `deposit` are the programs. It counts what the case checks.

    The folder above it has the file `full`, which is `packed()`.
    """

    def __init__(self, program: Path, folder: Path):
        self.program, self.folder, self.checks = program, folder, 0
        self.environment = {**os.environ, "PATH": f"{folder.parent / 'bin'}:{os.environ['PATH']}", "LC_ALL": "C"}

    def file(self, name: str, content: bytes | str) -> Path:
        """Writes a file, and makes the folders that it is in."""
        path = self.folder / name
        path.parent.mkdir(parents=True, exist_ok=True)
        with _beginning:
            path.write_bytes(content.encode() if isinstance(content, str) else content)
        return path

    def run(self, command: str) -> Answer:
        """Runs a command of bash in the folder."""
        return answer_of(["bash", "-c", PRELUDE + command], self.folder, environment=self.environment)

    def plays(self, transcript: str) -> None:
        """Runs the commands of a transcript, each of which has to print the lines below it, and nothing else.

        A line `!3 C3 store failed` says that the command ends with status 3 and that line among its errors; without such a
        line it ends with status 0 and no errors. The first of these lines may also stand behind the command and ` -> `. All
        lines may be indented as the first one is.
        """
        indent = re.match(r"\n*( *)", transcript)[1]
        lines = [line.removeprefix(indent) for line in transcript.splitlines()]
        if any(line.lstrip().startswith("$ ") and not line.startswith("$ ") for line in lines):
            raise Wrong("a command of the transcript does not stand at its margin")
        for step in steps(lines):
            command, arrow, line = step.command.partition(" -> ")
            self.equal([line, *step.wanted] if arrow else step.wanted, self.run(command).lines(), f"$ {command}")

    def equal(self, wanted: object, got: object, what: str) -> None:
        """Checks that what came is what is wanted."""
        self.checks += 1
        if wanted == got:
            return
        if not (isinstance(wanted, list) and isinstance(got, list)):
            texts = repr(wanted), repr(got)
            start = max(0, len(os.path.commonprefix(texts)) - 100)
            wanted, got = ([text[start:]] for text in texts)
        raise Wrong(f"{what}\n{difference(wanted, got)}")

    def true(self, holds: object, what: str) -> None:
        """Checks that something holds."""
        self.checks += 1
        if not holds:
            raise Wrong(what)

    def vault(self, name: str, blocks: int = 8, first: str = DAY) -> None:
        """Makes a vault with the registry `example`."""
        self.plays(f"$ vault {name} {blocks} {first}")

    def put(self, vault: str, name: str, content: bytes | str, now: str) -> None:
        """Has a vault receive a part, whose file is in the folder `in`."""
        length = self.file(f"in/{name}", content).stat().st_size
        self.plays(f"$ escrow put {vault} in/{name} --now {now} -> received {name} {length} {now}")

    def sql(self, vault: str, text: str) -> str:
        """What sqlite3 prints for this text in the database of a vault."""
        done = answer_of(["sqlite3", self.folder / vault / "custody.db", text])
        if done.status or done.err:
            raise Wrong(f"sqlite3 {text}: {done.err.decode()}")
        return done.out.decode().removesuffix("\n")

    @contextlib.contextmanager
    def serve(self, vault: str, requests: int, now: str = TEN, *, errors: str = "", status: int = 0, **how) -> Iterator[Server]:
        """A server of a vault for so many requests. Behind them it ends with this status and these errors (a pattern)."""
        with contextlib.closing(Server(self.program, self.folder / vault, requests, now, **how)) as server:
            self.true(server.listens(LIMIT), "serve does not listen")
            yield server
            ended, printed = server.end()
            is_so = ended == status and re.fullmatch(errors, printed.removesuffix("\n"))
            self.true(is_so, f"the server of {vault} ends with {ended} {printed!r}, not with {status} {errors!r}")

    def curl(self, server: Server, method: str, path: str, body: str | Path | None = None, *words: str | Path) -> bytes:
        """What curl is answered: text is sent as data, and a path is the path of a file."""
        sent = [] if body is None else ["-T", body] if isinstance(body, Path) else ["-d", body]
        url = f"http://127.0.0.1:{server.port}{path}"
        return answer_of(["curl", "-s", "-i", "-m", "60", "--path-as-is", "-X", method, *sent, *words, url], self.folder).out

    def asks(self, vault: str, rows: Sequence[tuple], now: str = TEN, **how) -> None:
        """Serves a vault for as many requests as there are rows, and has curl make them: each response is as its row says.

        A row is a method and path, what is sent, the status, the answer (a path is that of a file with it), and then what other
        words curl has.
        """
        with self.serve(vault, len(rows), now, **how) as server:
            for line, body, status, answer, *words in rows:
                answer = (self.folder / answer).read_bytes() if isinstance(answer, Path) else answer
                self.equal(response(status, answer), self.curl(server, *line.split(), body, *words), line)


@contextlib.contextmanager
def room_of(program: Path) -> Iterator[Room]:
    """A room below a folder of its own, which is taken away in the end."""
    with tempfile.TemporaryDirectory(ignore_cleanup_errors=True) as top:
        for name in ("bin", "work"):
            Path(top, name).mkdir()
        os.chmod(top, 0o755)
        Path(top, "bin/escrow").symlink_to(program)
        Path(top, "bin/deposit").symlink_to(PACKER)
        yield Room(program, Path(top, "work"))


# ---- cases

@dataclass(frozen=True)
class Case:
    """A case: its name, what it does, the tools that it needs, and about how many seconds it waits."""
    name: str
    run: Callable[[Room], None]
    needs: tuple[str, ...]
    seconds: float

    def __post_init__(self):
        if unknown := set(self.needs) - set(PACKAGES):
            raise ValueError(f"{self.name} needs {unknown}, whose package is not named")

    def try_once(self, program: Path) -> tuple[int, str, str]:
        """How many checks it made, what is wrong, and why it was skipped; the texts are empty where there is nothing."""
        lacking = [it for it in self.needs if not shutil.which(it)]
        if lacking:
            return 0, "", f"no {' and no '.join(lacking)}"
        with room_of(program) as room:
            try:
                (room.folder.parent / "full").write_bytes(packed())
                self.run(room)
                return room.checks, "", ""
            except Skip as why:
                return room.checks, "", str(why)
            except Wrong as wrong:
                return room.checks, str(wrong), ""
            except Exception:
                return room.checks, traceback.format_exc(), ""


CASES: list[Case] = []


def name_of(module: str, title: str) -> str:
    """The name of a case of a module with a title."""
    return f"{module}.{re.sub(r'[^A-Za-z0-9]+', '_', title).strip('_')}"


def case(needs: str = "", seconds: float = 0) -> Callable:
    """Makes a function of a `Room` a case, named by its file and itself."""
    def make(function: Callable) -> Callable:
        CASES.append(Case(f"{function.__module__}.{function.__name__}", function, tuple(needs.split()), seconds))
        return function
    return make


def each(rows: Iterable[tuple], needs: str = "", seconds: float = 0) -> Callable:
    """Makes a function a case for each row of a table, named by the row's first cell; it takes the others."""
    def make(function: Callable) -> Callable:
        for title, *cells in rows:
            run = lambda room, cells=cells: function(room, *cells)
            CASES.append(Case(name_of(function.__module__, title), run, tuple(needs.split()), seconds))
        return function
    return make


def transcripts(module: str, text: str, needs: str = "", before: str | Callable[[Room], None] = "",
                seconds: float = 0) -> None:
    """Makes each section of a text a case of a module (`__name__`): a line `== title`, and below it a transcript.

    Before each comes what `before` is: another transcript, or what a function does in the room.
    """
    for section in re.split(r"^== ", text, flags=re.M)[1:]:
        title, transcript = section.split("\n", 1)

        def run(room: Room, transcript: str = transcript) -> None:
            before(room) if callable(before) else room.plays(before)
            room.plays(transcript)
        CASES.append(Case(name_of(module, title), run, tuple(needs.split()), seconds))


# ---- scripts

def parser(text: str) -> argparse.ArgumentParser:
    """A parser of a script's words, whose help is the text at the head of the script."""
    return argparse.ArgumentParser(description=text, formatter_class=argparse.RawDescriptionHelpFormatter)


def built(program: Path) -> Path:
    """The path of a program that has to be there."""
    if not os.access(program, os.X_OK):
        print(f"no program at {program}: run ./demo --proved, or `rt run` in its crate", file=sys.stderr)
        sys.exit(2)
    return program.resolve()


def tell(passed: int, failed: int, skipped: int = 0) -> int:
    """Prints the last line of a script, and gives its status: 0 where nothing failed, nor, with NO_SKIPS, was skipped."""
    print(f"{passed} passed, {failed} failed, {skipped} skipped", flush=True)
    return 1 if failed or skipped and "NO_SKIPS" in os.environ else 0
