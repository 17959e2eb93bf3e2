#!/usr/bin/env python3
"""Sends the requests of a worked example to servers that it kills meanwhile, and compares with a run without kills.

    tests/clients.py [PROGRAM] [--rounds N] [--seconds S] [--seed N]

The requests come in steps, each at a moment of its own. First nobody disturbs the server, and each response must be that of
docs/HTTP.md and docs/CODES.md. Then come rounds, each over a new vault. A round kills the server while it opens the vault,
within a request or behind a response, and starts it again; or the client goes away within the request or the response, or
forgets the response; or no file may grow any more, and the server reports a failure. The client sends a request again until
its response is whole, by its bytes alone, and reports no failure (500 or 503). The script checks:

- The response is that of the run without kills. If an earlier try was sent to its end, it may be that of a repeat (200 in
  place of 201, `dropped 0` of a purge); if one was answered, or is recorded, it must be.
- `escrow state`, behind each step and some of the kills, prints what it prints there without kills: before the request or
  behind it, by the same rule. `escrow audit` finds each held part sound.
- The parts that are released at the end have the bytes that were sent.
- No server ends by itself, or prints anything but that a client went away, or a failure that closed its vault.

It ends after N rounds (40), or with the round that is on after S seconds (60). What befalls a try depends on the seed, the
numbers of round, request and try, and the time that the request takes without kills. PROGRAM is crates/escrow/out/escrow
unless named; it needs `rt run` in crates/escrow and crates/deposit before.
"""
import contextlib
import functools
import itertools
import json
import math
import random
import re
import resource
import select
import signal
import socket
import struct
import sys
import tempfile
import time
from collections import Counter
from pathlib import Path
from typing import NamedTuple

from lib import (ESCROW, EXPLAINED, FIVE, TEN, Server, Wrong, answer_of, built, difference, free_port, notice, packed, parser,
                 part_name, parts_of, request, response, statement, tell)

# How often a request is tried, the last time undisturbed; and the seconds for a server to listen, for a response to come,
# and for a command to end.
TRIES, LIMIT = 6, 30

# ---- the worked example

AT_1, AT_2, AT_3, AT_4, AT_5 = TEN, FIVE, "2026-08-05T12:00:00Z", "2027-08-03T00:00:00Z", "2027-08-06T00:00:00Z"
FULL_1, FULL_2, FULL_3, FULL_4 = (part_name(part=number) for number in (1, 2, 3, 4))
FAILS, DIFF = (part_name("2026-08-04", "diff", revision=revision) for revision in (0, 1))
LATE, OTHER = part_name("2026-08-05", "diff"), part_name(tld="other")
NOTICES = [
    notice(1, "RECEIPT", "2026-08-02", AT_2, "20260802001"), notice(2, "ABSENCE", "2026-08-01", AT_3),
    notice(3, "ABSENCE", "2026-08-03", AT_3), notice(4, "FAILURE-01", "2026-08-04", AT_3, "X"),
    notice(5, "RECEIPT", "2026-08-04", AT_3, "20260804001", revision=1)]


def domains(first: int, last: int) -> str:
    return "".join(f"d{n:05}.example,D{n}-EX,,R1,2020-01-01T00:00:00Z,2030-01-01T00:00:00Z\n" for n in range(first, last))


@functools.cache
def parts() -> dict[str, bytes]:
    """The parts that are sent. The full deposit has more than a part of the greatest size, and the differential one of
    revision 1 follows it; both pass. The others are noise."""
    whole = packed(tables={"domain": domains(0, 16_000), "registrar": "R1,Example,292,ok\n"})
    following = packed("diff", "2026-08-04", tables={"domain": domains(16_000, 16_003)}, after=[whole], previous="20260802001",
                       revision=1)
    noise = random.Random(1)
    return parts_of(whole) | parts_of(following) | {
        name: noise.randbytes(length) for name, length in ((FAILS, 300_000), (LATE, 1_048_576), (OTHER, 40_000))}


GONE = (410, "Q6 dropped after keeping")


class Request(NamedTuple):
    """A request, the response that the pages have for it, and the moment of its step."""
    line: str
    sent: bytes
    response: bytes
    now: str = ""


def ask(line: str, status: int, answer: str | bytes, body: bytes | str | None = None, *fields: str, **members) -> Request:
    """A request. Its body may be given by the members of its object; where none is, a POST has an empty one."""
    sent = json.dumps(members) if members else "" if body is None and line.startswith("POST ") else body
    return Request(line, request(line, sent), response(status, answer, *fields))


def part(name: str, now: str, status: int = 201) -> Request:
    """A part that is received, or was, at this moment."""
    sent = parts()[name]
    return ask(f"PUT /deposits/{name}", status, f"received {name} {len(sent)} {now}", sent)


def refused(name: str, status: int, answer: str, sent: bytes) -> Request:
    """A part that is not received."""
    return ask(f"PUT /deposits/{name}", status, answer, sent)


def states(day: str, kind: str, revision: int, parts: int, number: str, status: int, answer: str) -> Request:
    return ask("POST /statements", status, answer, statement(day, number, kind, parts, revision))


def release(reference: str, tld: str, ground: str, now: str, names: list[str]) -> Request:
    answer = "\n".join([f"released {reference} {tld} {ground} {now} {len(names)}", *names])
    return ask(f"PUT /releases/{reference}", 201, answer, ground=ground, tld=tld)


def fetch(reference: str, *names: str) -> list[Request]:
    return [ask(f"GET /releases/{reference}/{name}", 200, parts()[name]) for name in names]


def first_steps() -> dict[str, list[Request]]:
    """The requests up to the receipt of the full deposit, by their moments."""
    return {
        AT_1: [
            ask("GET /notices/example", 404, "Q2 registry unknown"),
            ask("PUT /registries/example", 201, "registered example 2026-08-01", first="2026-08-01"),
            ask("PUT /registries/example", 200, "registered example 2026-08-01", first="2026-09-01"),
            ask("PUT /registries/other", 201, "registered other 2026-08-02", first="2026-08-02"),
            part(FULL_1, AT_1), refused(FULL_4, 409, "Q10 part out of order", b"4"), part(FULL_2, AT_1), part(FULL_1, AT_1, 200),
            refused(FULL_2, 409, "Q5 other bytes under this name", parts()[FULL_1]),
            refused(part_name(tld="unknown"), 404, "Q2 registry unknown", b"hello"),
            ask("GET /x", 404, "A3 no route"), ask("DELETE /purges", 405, "A4 method", None, "Allow: POST"),
            ask("PUT /registries/third", 400, "A10 form", first="2026-8-2")],
        AT_2: [
            states("2026-08-02", "full", 0, 3, "20260802001", 409, "Q12 parts differ"),
            states("2026-08-02", "full", 0, 9, "20260802001", 400, "A10 form"),
            states("2026-08-02", "full", 0, 2, "20260802001", 201, NOTICES[0]),
            states("2026-08-02", "full", 0, 2, "20260802001", 200, NOTICES[0]),
            refused(FULL_3, 409, "Q7 revision not due", b"3"), ask("GET /notices/example", 200, NOTICES[0])]}


def releasing() -> list[Request]:
    """The releases and holds of the third step."""
    return [
        release("R-1", "example", "operator", AT_3, [FULL_1, FULL_2, FAILS, DIFF]),
        ask("PUT /releases/R-1", 409, "Q17 reference used", ground="audit", tld="example"),
        ask("PUT /releases/R-2", 409, "Q16 ground does not stand", ground="sunday_failed", tld="example"),
        *fetch("R-1", FULL_1, FULL_2, FAILS, DIFF), ask(f"GET /releases/R-1/{LATE}", 404, "Q18 not in release"),
        ask(f"GET /releases/R-9/{FULL_1}", 404, "Q19 release unknown"),
        ask("PUT /holds/H-1", 201, f"held H-1 example 2026-08-02 {AT_3}", date="2026-08-02", tld="example"),
        ask("PUT /holds/H-1", 409, "Q20 hold reference used", date="2026-08-03", tld="example"),
        ask("PUT /holds/H-2", 201, f"held H-2 other 2026-08-02 {AT_3}", date="2026-08-02", tld="other"),
        ask("POST /lifts/H-9", 404, "Q21 hold unknown")]


def later_steps() -> dict[str, list[Request]]:
    """The requests from then on."""
    return {
        AT_3: [
            ask("POST /checks/example/2026-08-01", 201, NOTICES[1]), ask("POST /checks/example/2026-08-03", 201, NOTICES[2]),
            ask("POST /checks/example/2026-08-02", 409, "Q15 day has a verdict"),
            ask("POST /checks/example/2026-08-05", 409, "Q14 not yet due"),
            part(FAILS, AT_3), states("2026-08-04", "diff", 0, 1, "X", 201, NOTICES[3]), part(DIFF, AT_3),
            states("2026-08-04", "diff", 1, 1, "20260804001", 201, NOTICES[4]),
            refused(LATE, 507, "Q11 volume full", parts()[LATE]), part(OTHER, AT_3),
            ask("GET /reasons/example/2026-08-04/0", 200, EXPLAINED),
            ask("GET /reasons/example/2026-08-04/1", 404, "Q22 no failure"), *releasing()],
        AT_4: [
            ask("POST /purges", 200, "dropped 0"), ask("POST /lifts/H-1", 201, f"lifted H-1 {AT_4}"),
            ask("POST /lifts/H-1", 200, f"lifted H-1 {AT_4}"), ask("POST /purges", 200, "dropped 2"),
            refused(FULL_1, *GONE, parts()[FULL_1]), ask(f"GET /releases/R-1/{FULL_1}", *GONE), part(LATE, AT_4),
            release("R-2", "example", "operator", AT_4, [FAILS, DIFF, LATE]), *fetch("R-2", FAILS, DIFF, LATE)],
        AT_5: [
            ask("POST /purges", 200, "dropped 2"), ask("GET /notices/example", 200, "\n".join(NOTICES)),
            ask("GET /notices/other", 200, ""), refused(FAILS, *GONE, parts()[FAILS]),
            ask("GET /reasons/example/2026-08-04/0", *GONE), part(LATE, AT_4, 200),
            release("R-3", "example", "order", AT_5, [LATE]), release("R-4", "other", "termination", AT_5, [OTHER]),
            *fetch("R-3", LATE), *fetch("R-4", OTHER)]}


@functools.cache
def example() -> list[Request]:
    """The requests in their order, each with the moment of its step."""
    return [it._replace(now=now) for now, step in (first_steps() | later_steps()).items() for it in step]


def call(program: Path, *words: str | Path) -> bytes:
    """What a command prints. It has to succeed."""
    answer = answer_of([program, *words], seconds=LIMIT)
    if answer.status != 0 or answer.err:
        raise Wrong(f"{words[0]} ends so: {answer}")
    return answer.out


def new_vault(program: Path, folder: str) -> Path:
    vault = Path(folder, "vault")
    vault.mkdir()
    call(program, "init", vault, "--blocks", "500", "--number", "0000000000000001")
    return vault


def serve(program: Path, vault: Path, now: str, requests: int = 1_000_000, port: int = 0) -> Server:
    """A server to which a file that may grow no further is an error, and not a signal."""
    return Server(program, vault, requests, now, port, under=["env", "--ignore-signal=XFSZ"])


def wait_for_line(server: Server) -> None:
    if not server.listens(LIMIT):
        raise Wrong(f"serve does not listen: {server.kill()}")


def log_moment(server: Server) -> int:
    """When the log of the database was written last."""
    return (server.vault / "custody.db-wal").stat().st_mtime_ns


def check_end(end: tuple[int | None, str], status: int, *lines: str) -> None:
    """Checks that a server has ended with this status, and has printed no other lines than these. A kill may cut the last."""
    *whole, rest = end[1].split("\n")
    is_cut = status == -signal.SIGKILL and any(line.startswith(rest) for line in lines)
    if end[0] != status or not set(whole) <= set(lines) or rest and not is_cut:
        raise Wrong(f"serve ends with {end}")


def kill(server: Server, *closing: str) -> None:
    """Kills a server. It may have written the failure that closed its vault."""
    check_end(server.kill(), -signal.SIGKILL, "read failed", "write failed", *closing)


# ---- the client

class Mishap(NamedTuple):
    """What befalls a try of a request."""
    kill: float | None = None  # the server is killed so many seconds after the beginning, or at the response
    commits: bool = False      # the seconds begin as the log of the database is written
    send: int | None = None    # the client goes away behind so many bytes of the request,
    take: int | None = None    # or behind so many of the response,
    resets: bool = False       # by a reset
    forgets: bool = False      # the client forgets the response
    room: int | None = None    # no file may grow beyond this length

    def __str__(self) -> str:
        shown = (f"{name}={value}" for name, value in self._asdict().items() if value is not None and value is not False)
        return " ".join(shown) or "undisturbed"


def response_in(data: bytes) -> bytes | None:
    """These bytes, where they begin with a whole response: its body has as many bytes as its field says."""
    head = re.match(rb"HTTP/1\.1 \d{3} [^\r\n]+(\r\n[A-Za-z-]+: [^\r\n]*)*\r\n\r\n", data)
    lengths = re.findall(rb"\r\nContent-Length: (\d+)\r", head[0]) if head else []
    return data if len(lengths) == 1 and len(data) - head.end() >= int(lengths[0]) else None


class Try:
    """One try of a request: how much was sent, what came back, and whether a kill came meanwhile."""

    def __init__(self, data: bytes, mishap: Mishap):
        self.data, self.mishap = memoryview(data), mishap
        self.stop = len(data) if mishap.send is None else mishap.send
        self.most = math.inf if mishap.take is None else mishap.take
        self.sent, self.got, self.response = 0, bytearray(), None
        self.moment, self.log, self.was_killed = math.inf, 0, False

    def is_sent(self) -> bool:
        return self.sent == len(self.data)

    def go(self, server: Server) -> None:
        """Makes it. A kill comes at its moment, also behind a client that has gone away."""
        began, self.log = time.monotonic(), log_moment(server)
        if self.mishap.kill is not None and not self.mishap.commits:
            self.moment = began + self.mishap.kill
        with socket.socket() as client, contextlib.suppress(OSError):
            # Little is sent that the server does not take.
            client.setsockopt(socket.SOL_SOCKET, socket.SO_SNDBUF, 65_536)
            client.settimeout(LIMIT)
            client.connect(("127.0.0.1", server.port))
            client.setblocking(False)
            while not self.is_over() and time.monotonic() < began + LIMIT and self.moves(client, self.wait(server)):
                pass
            if self.mishap.resets:
                client.setsockopt(socket.SOL_SOCKET, socket.SO_LINGER, struct.pack("ii", 1, 0))
        if self.mishap.kill is not None and not server.is_killed:
            if self.response is None and self.moment < math.inf:
                time.sleep(max(0.0, self.moment - time.monotonic()))
            kill(server)

    def wait(self, server: Server) -> float:
        """Kills the server where it is time to. Gives the seconds that may pass till the next look."""
        now = time.monotonic()
        if self.mishap.kill is None or server.is_killed:
            return 0.2
        if self.mishap.commits and self.moment == math.inf:
            if log_moment(server) == self.log:
                return 0
            self.moment = now + self.mishap.kill
        if now >= self.moment:
            self.was_killed = True
            kill(server)
        return min(0.2, max(0.0, self.moment - now))

    def is_over(self) -> bool:
        """Whether the client goes away, or has the response."""
        if (self.mishap.send is not None and self.sent >= self.stop
                or len(self.got) >= self.most and (self.most or self.is_sent())):
            return True
        self.response = response_in(bytes(self.got))
        return self.response is not None

    def moves(self, client: socket.socket, seconds: float) -> bool:
        """Takes or sends a piece, if it can in this time. Says whether the connection goes on."""
        readable, writable, _ = select.select([client], [client] * (self.sent < self.stop), [], seconds)
        if readable:
            piece = client.recv(min(65_536, max(1, self.most - len(self.got))))
            self.got += piece
            return bool(piece)
        if writable:
            try:
                self.sent += client.send(self.data[self.sent:self.stop])
            except ConnectionError:
                # What was answered before may still be there to take.
                self.stop = self.sent
        return True


# ---- the run without kills

class Plain(NamedTuple):
    """The responses, the states before and behind each, and how many seconds each request and start took."""
    responses: list[bytes | None]
    states: list[bytes]
    took: list[float]
    starts: list[float]


def shown(data: bytes | None) -> str:
    return "nothing" if data is None else f"{bytes(data[:400])!r}, {len(data)} bytes"


def state_of(program: Path, vault: Path) -> bytes:
    """What is recorded. Each held part has its bytes."""
    state, audit = call(program, "state", vault), call(program, "audit", vault)
    held = len(re.findall(rb"^part .* held ", state, re.M))
    if audit != b"sound %d\n" % held:
        raise Wrong(f"audit prints {audit!r}, and {held} parts are held")
    return state


def compare_state(state: bytes, wanted: list[bytes]) -> None:
    if state not in wanted:
        raise Wrong("state\n" + difference(wanted[-1].decode().splitlines(), state.decode().splitlines()))


def undisturbed(program: Path, groups: list[list[Request]]) -> Plain:
    """What servers answer that nobody disturbs, one for each group of requests."""
    plain = Plain([], [], [], [])
    with tempfile.TemporaryDirectory() as folder:
        vault = new_vault(program, folder)
        plain.states.append(state_of(program, vault))
        for group in groups:
            began = time.monotonic()
            with contextlib.closing(serve(program, vault, group[0].now, len(group))) as server:
                wait_for_line(server)
                plain.starts.append(time.monotonic() - began)
                for it in group:
                    began, tried = time.monotonic(), Try(it.sent, Mishap())
                    tried.go(server)
                    plain.took.append(time.monotonic() - began)
                    plain.responses.append(tried.response)
                check_end(server.end(LIMIT), 0)
            plain.states.append(state_of(program, vault))
    return plain


def run_plainly(program: Path) -> Plain:
    """The run without kills, with a server for each request, and with one for each step."""
    steps = [list(group) for _, group in itertools.groupby(example(), lambda it: it.now)]
    plain, again = undisturbed(program, [[it] for it in example()]), undisturbed(program, steps)
    for wanted, came in zip(example() * 2, plain.responses + again.responses):
        if came != wanted.response:
            raise Wrong(f"{wanted.line}: {shown(came)} in place of {shown(wanted.response)}")
    if again.states != [plain.states[end] for end in itertools.accumulate(map(len, steps), initial=0)]:
        raise Wrong("a server for each step keeps other records than one for each request")
    return plain._replace(took=[min(pair) for pair in zip(plain.took, again.took)])


# ---- rounds with kills

def mishap_of(r: random.Random, length: int, took: float) -> Mishap:
    """What befalls a try of a request of so many bytes that takes so many seconds."""
    kind = r.choices(("none", "kill", "send", "take", "forget", "room"), (36, 32, 10, 8, 9, 5))[0]
    is_killed = kind == "kill" or kind in ("send", "take", "forget") and r.random() < 0.5
    commits = kind == "kill" and r.random() < 0.4
    delays = (r.uniform(0, took), r.uniform(0, took), r.uniform(0.7 * took, 1.3 * took), r.uniform(0, 0.02))
    return Mishap(
        kill=delays[0] if commits else r.choice(delays) if is_killed else None, commits=commits,
        send=r.choice((r.randrange(length), length - 1)) if kind == "send" else None,
        take=r.choice((0, 0, 1, 20, 60, 140)) if kind == "take" else None,
        resets=r.random() < 0.3, forgets=kind == "forget",
        room=r.choice((100, 5_000, 20_000, 500_000)) if kind == "room" else None)


def repeated(wanted: bytes) -> bytes:
    """What is answered in place of this response where the request was done before."""
    done = wanted.replace(b"HTTP/1.1 201 Created\r", b"HTTP/1.1 200 OK\r", 1)
    return re.sub(rb"\ndropped \d+\n\Z", b"\ndropped 0\n", done)


class Asked:
    """A request as the run without kills has it, and what is known of its tries so far: whether one was sent to its end,
    whether one of these was not killed (`is_left`), and whether one was answered, or done."""

    def __init__(self, wanted: bytes, before: bytes, after: bytes):
        self.response, self.before, self.after = wanted, before, after
        self.is_sent = self.is_left = self.is_answered = self.is_done = False

    def pick(self, undone: bytes, done: bytes) -> list[bytes]:
        return [done] if self.is_done else [undone, done] if self.is_sent else [undone]

    def learn(self, state: bytes) -> None:
        """Compares what is recorded while no server runs. That shows whether a try was done."""
        compare_state(state, self.pick(self.before, self.after))
        if self.before != self.after:
            self.is_sent = self.is_done = state == self.after
            self.is_left &= self.is_done


class Round:
    """The worked example over a new vault, with mishaps."""

    def __init__(self, program: Path, plain: Plain, seed: str, counts: Counter, folder: str):
        self.program, self.plain, self.seed, self.counts = program, plain, seed, counts
        self.vault, self.port = new_vault(program, folder), free_port()
        self.server: Server | None = None

    def go(self) -> None:
        try:
            for index, it in enumerate(example()):
                if self.server and self.server.now != it.now:
                    self.end_step(index)
                self.ask(index, it)
            self.end_step(len(example()))
        finally:
            if self.server:
                self.server.close()

    def end_step(self, index: int) -> None:
        """Kills the server behind the requests before this one, and compares the records."""
        if not self.server.is_killed:
            self.kill()
        compare_state(state_of(self.program, self.vault), [self.plain.states[index]])
        self.server = None

    def kill(self, *closing: str) -> None:
        kill(self.server, *closing)
        self.counts["kills"] += 1

    def serve(self, now: str, r: random.Random) -> None:
        """Sees to it that a server listens. Some are killed before they do."""
        if self.server and not self.server.is_killed:
            return
        for _ in range(r.choices((0, 1, 2), (80, 15, 5))[0]):
            self.server = serve(self.program, self.vault, now, port=self.port)
            time.sleep(r.uniform(0, 1.1 * max(self.plain.starts)))
            self.counts["early"] += not self.server.listens(0)
            self.kill()
        self.server = serve(self.program, self.vault, now, port=self.port)
        wait_for_line(self.server)

    def ask(self, index: int, it: Request) -> None:
        """Tries a request until it is answered."""
        asked, history = Asked(self.plain.responses[index], *self.plain.states[index:index + 2]), []
        try:
            for number in range(TRIES):
                r, s = (random.Random(f"{self.seed}:{index}:{number}:{what}") for what in ("try", "start"))
                mishap = mishap_of(r, len(it.sent), self.plain.took[index]) if number < TRIES - 1 else Mishap()
                history.append(str(mishap))
                self.serve(it.now, s)
                is_done = self.one_try(asked, Try(it.sent, mishap)) and not mishap.forgets
                if self.server.is_killed and r.random() < 0.4:
                    asked.learn(call(self.program, "state", self.vault))
                if is_done:
                    return
        except Wrong as wrong:
            raise Wrong(f"request {index}, {it.line}, tries {', '.join(history)}: {wrong}") from None

    def one_try(self, asked: Asked, tried: Try) -> bool:
        """Makes a try, and compares its response. Says whether it is whole and reports no failure."""
        mishap = tried.mishap
        if mishap.room is not None:
            most = resource.getrlimit(resource.RLIMIT_FSIZE)[1]
            resource.prlimit(self.server.process.pid, resource.RLIMIT_FSIZE, (mishap.room, most))
        tried.go(self.server)
        self.counts.update(tries=1, kills=self.server.is_killed, open=tried.was_killed,
                           within=tried.was_killed and not tried.is_sent())
        came, wanted = tried.response, asked.pick(asked.response, repeated(asked.response))
        if came is None:
            if not tried.was_killed and mishap.send is None and mishap.take is None:
                raise Wrong(f"no whole response, but {shown(tried.got)}")
        elif came[9:12] in (b"500", b"503"):
            if mishap.room is None:
                raise Wrong(f"it reports {shown(came)}")
            self.counts["failures"] += 1
            came = None
        elif came not in wanted:
            raise Wrong(f"{shown(came)} in place of {' or '.join(map(shown, wanted))}")
        else:
            is_repeat = came != asked.response and not asked.is_answered
            self.counts.update(repeats=is_repeat, behind=is_repeat and not asked.is_left)
            asked.is_answered = asked.is_done = True
        asked.is_sent |= tried.is_sent()
        asked.is_left |= tried.is_sent() and not tried.was_killed
        if mishap.room is not None:
            # The failure may have answered the try before this one, whose client went away.
            self.kill("C2 volume failed", "C3 store failed")
        return came is not None


def run_rounds(program: Path, plain: Plain, rounds: int, seconds: float, seed: int, counts: Counter) -> None:
    """Makes the rounds, and counts."""
    began = time.monotonic()
    for number in range(rounds):
        if time.monotonic() - began > seconds:
            break
        with tempfile.TemporaryDirectory() as folder:
            try:
                Round(program, plain, f"{seed}:{number}", counts, folder).go()
                counts["passed"] += 1
            except Wrong as wrong:
                counts["failed"] += 1
                print(f"FAILED: round {number}: {wrong}", flush=True)
    counts.update(rounds=counts["passed"] + counts["failed"], seconds=round(time.monotonic() - began))
    print("""\
{rounds} rounds in {seconds} seconds: {tries} tries, of which {failures} were answered by a failure
{kills} kills: {early} before the server listened, {open} within a request, of these {within} within its body
{repeats} requests answered as a repeat, of which {behind} had lost their response by kills alone""".format_map(counts))
    for name, text in ("open", "no kill within a request"), ("repeats", "no request answered as a repeat"):
        counts["passed" if counts[name] else "failed"] += 1
        if not counts[name]:
            print(f"FAILED: {text}")


def main() -> int:
    words = parser(__doc__)
    words.add_argument("program", nargs="?", default=ESCROW, type=Path)
    words.add_argument("--rounds", type=int, default=40)
    words.add_argument("--seconds", type=float, default=60)
    words.add_argument("--seed", type=int, default=random.randrange(10**9))
    asked, counts = words.parse_args(), Counter()
    program = built(asked.program)
    # So that the server that runs is ended, too.
    signal.signal(signal.SIGTERM, lambda *_: sys.exit(1))
    print(f"seed {asked.seed}", flush=True)
    try:
        plain = run_plainly(program)
    except Wrong as wrong:
        print(f"FAILED: without kills: {wrong}")
        return tell(0, 1)
    print(f"{len(example())} requests, {sum(plain.took):.2f} seconds without kills", flush=True)
    run_rounds(program, plain, asked.rounds, asked.seconds, asked.seed, counts)
    return tell(counts["passed"] + 1, counts["failed"])


if __name__ == "__main__":
    sys.exit(main())
