"""deploy/check-health: what it finds of a service and of the last audit, its line for a monitor, and its status."""
import contextlib
import http.server
import os
import re
import shutil
import signal
import threading
import time
from collections.abc import Iterator

from lib import PART, TEN, TOP, Room, case, each, free_port, part_name, request, response, volume_failed

CHECK = TOP / "deploy/check-health"
WORDS = ("OK", "WARNING", "CRITICAL", "UNKNOWN")
NONE_DUE, LATE = "no day is due for more than an hour", "due for more than an hour"


def says(room: Room, port: int, status: int, text: str, data: str = "", words: str = "", shell: str = "") -> None:
    """Checks the status, and the line: a text, and the data behind it."""
    wanted = [f"ESCROW {WORDS[status]} - {text}{data and f'|{data}'}", *([f"!{status}"] if status else [])]
    room.equal(wanted, room.run(f"{shell} {CHECK} --port {port} {words}").lines(), words or text)


def curves(free: int, blocks: int, due: int = 0, audit: str = "") -> str:
    """The data of a vault, and of an audit of that age in seconds. A tenth of the blocks is to be free."""
    return f"free={free};{-(-blocks // 10)}:;;0;{blocks} due={due};0;;0{audit and f' audit={audit}s;3024000;;0'}"


def clock(room: Room, moment: str) -> None:
    """From now on that is the moment at which the script looks."""
    date = shutil.which("date")
    room.file("clock/date", f'#!/bin/sh\n[ "$*" != +%s ] || set -- -d {moment} +%s\nexec {date} "$@"\n').chmod(0o755)
    if "/clock:" not in room.environment["PATH"]:
        room.environment["PATH"] = f"{room.folder}/clock:{room.environment['PATH']}"


# ---- a service

@case("curl")
def less_than_a_tenth_of_free_blocks_is_a_warning(room: Room) -> None:
    second, few = part_name(part=2), f"free 1 of 20 blocks, less than 10 %; {NONE_DUE}"
    clock(room, TEN)
    room.vault("d", 21)
    with room.serve("d", 12) as server:
        says(room, server.port, 0, f"free 20 of 20 blocks; {NONE_DUE}", curves(20, 20))
        server.ask(request(f"PUT /deposits/{PART}", b"a" * 73_728))
        says(room, server.port, 0, f"free 2 of 20 blocks; {NONE_DUE}", curves(2, 20))
        server.ask(request(f"PUT /deposits/{second}", b"a"))
        for shell in ("", "bash"):
            says(room, server.port, 1, few, curves(1, 20), shell=shell)
        says(room, server.port, 0, f"free 1 of 20 blocks; {NONE_DUE}", curves(1, 20).replace("2:", "1:"), "--room 5")


@case("curl")
def a_day_that_is_due_for_an_hour_is_a_warning(room: Room) -> None:
    room.vault("d", first="2026-08-05")
    with room.serve("d", 4, "2026-08-06T01:00:00Z") as server:
        clock(room, "2026-08-06T00:59:59Z")
        says(room, server.port, 0, f"free 7 of 7 blocks; {NONE_DUE}", curves(7, 7))
        clock(room, "2026-08-06T01:00:00Z")
        says(room, server.port, 1, f"{LATE}: example 2026-08-05; free 7 of 7 blocks", curves(7, 7, 1))


@case("curl")
def parts_that_wait_for_a_statement_are_told(room: Room) -> None:
    clock(room, "2026-08-06T00:30:00Z")
    room.vault("d", first="2026-08-03")
    with room.serve("d", 5, "2026-08-06T00:30:00Z") as server:
        for name in (part_name("2026-08-04"), part_name("2026-08-04", part=2), part_name("2026-08-05")):
            server.ask(request(f"PUT /deposits/{name}", "hello"))
        says(room, server.port, 1, f"{LATE}: example 2026-08-03 and 1 more; parts wait for a statement: example 2026-08-04; "
             "free 4 of 7 blocks", curves(4, 7, 2))


@case("curl")
def a_day_is_due_by_the_clock(room: Room) -> None:
    """Of three days the last is due for an hour, unless it is early."""
    first = time.strftime("%F", time.gmtime(time.time() - 3 * 86_400))
    room.vault("d", first=first)
    with room.serve("d", 2, now="") as server:
        answer = room.run(f"{CHECK} --port {server.port}")
    form = rf"ESCROW WARNING - {LATE}: example {first} and (\d) more; free 7 of 7 blocks\|.* due=(\d);0;;0\n"
    found = re.fullmatch(form, answer.out.decode())
    room.true(answer.status == 1 and found and found.groups() in (("1", "2"), ("2", "3")), f"{answer}")


@case("curl prlimit")
def a_closed_service_is_critical(room: Room) -> None:
    room.vault("d")
    errors = volume_failed("File too large (os error 27)")
    with room.serve("d", 2, errors=errors, under=("env", "--ignore-signal=XFSZ")) as server:
        room.plays(f"$ prlimit --pid {server.process.pid} --fsize=4096")
        room.equal(response(503, "C2 volume failed"), server.ask(request(f"PUT /deposits/{PART}", "hello")), "a part")
        says(room, server.port, 2, "the service answers 503 C4 closed")


@case("curl")
def no_service_is_critical(room: Room) -> None:
    port = free_port()
    says(room, port, 2, f"the service on port {port} does not answer (status 7 of curl)")
    # A proxy of the user's is not asked.
    room.environment["http_proxy"] = "http://127.0.0.1:1"
    says(room, port, 2, f"the service on port {port} does not answer (status 7 of curl)")


@case("curl", seconds=12)
def a_service_that_does_not_answer_in_time_is_critical(room: Room) -> None:
    room.vault("d")
    with room.serve("d", 1, errors="(write failed)?") as server:
        os.kill(server.process.pid, signal.SIGSTOP)
        try:
            says(room, server.port, 2, f"the service on port {server.port} does not answer (status 28 of curl)")
        finally:
            os.kill(server.process.pid, signal.SIGCONT)


@contextlib.contextmanager
def answering(state: bytes, due: bytes) -> Iterator[int]:
    """The port of another server, with what it sends to those who ask for the state and for the days that are due."""
    class Handler(http.server.BaseHTTPRequestHandler):
        def do_GET(self) -> None:
            self.wfile.write({"/state": state, "/due": due}[self.path])

        def log_message(self, *_) -> None:
            pass

    with http.server.HTTPServer(("127.0.0.1", 0), Handler) as server:
        thread = threading.Thread(target=server.serve_forever)
        thread.start()
        try:
            yield server.server_port
        finally:
            server.shutdown()
            thread.join()


FREE, NONE, CUT = response(200, "free 7 of 7"), response(200), response(200, "free 7 of 7")[:-5]
LONG = response(200, f"part {PART} 5 held {TEN}\n" * 50_000 + "free 7 of 7")
NO_ROOM, NO_DAYS = "the state ends without the free blocks", "a line of the days that are due cannot be read"


@each((
    ("a state of megabytes is read in time", LONG, NONE, 0, f"free 7 of 7 blocks; {NONE_DUE}|{curves(7, 7)}"),
    ("a state that is empty is unknown", NONE, NONE, 3, f"{NO_ROOM}; {NONE_DUE}|due=0;0;;0"),
    ("a state without blocks is unknown", response(200, "free 0 of 0"), NONE, 3, f"{NO_ROOM}; {NONE_DUE}|due=0;0;;0"),
    ("a state that goes on is unknown", response(200, "free 7 of 7\nx"), NONE, 3, f"{NO_ROOM}; {NONE_DUE}|due=0;0;;0"),
    ("a state that is cut is critical", CUT, NONE, 2, "the service on port PORT does not answer (status 18 of curl)"),
    ("another status is unknown", response(404, "A3 no route"), NONE, 3, "the service answers GET /state with status 404"),
    ("damage is critical", response(500, "C5 damaged H8"), NONE, 2, "the service answers 500 C5 damaged H8"),
    ("other lines of days are unknown", FREE, FREE, 3, f"{NO_DAYS}; free 7 of 7 blocks|free=7;1:;;0;7"),
    ("an empty line of days is unknown", FREE, response(200, "\n"), 3, f"{NO_DAYS}; free 7 of 7 blocks|free=7;1:;;0;7"),
    ("days without memory are critical", FREE, response(503, "C1 no memory"), 2,
     "the service answers 503 C1 no memory; free 7 of 7 blocks|free=7;1:;;0;7")), "curl")
def another_answer(room: Room, state: bytes, due: bytes, status: int, line: str) -> None:
    with answering(state, due) as port:
        says(room, port, status, line.replace("PORT", str(port)))


# ---- the last audit

HELD, NOON = [part_name(part=number) for number in range(1, 4)], "2026-08-02T12:00:00Z"
FOUND, ALL = "the last audit found", "".join(f"damaged {name}\n" for name in HELD)
# The lines of an audit, its moment, other words, and the status and finding.
AUDITS = (
    ("sound 12\n", "2026-08-02T11:00:00Z", "", 0, f"{FOUND} sound 12"),
    ("sound 0\n", "2026-06-28T12:00:00Z", "", 0, f"{FOUND} sound 0"),
    ("sound 0\n", "2026-06-28T11:59:59Z", "", 1, "the last audit is 35 days old"),
    ("sound 0\n", "2026-08-01T11:59:59Z", "--audit-days 1", 1, "the last audit is 1 days old"),
    (f"damaged {PART}\n", NOON, "", 2, f"{FOUND} damaged {PART}"),
    (ALL, NOON, "", 2, f"{FOUND} damaged {PART} and 2 more"),
    ("C5 damaged H2\n", NOON, "", 2, f"{FOUND} C5 damaged H2"),
    ("", NOON, "", 3, "audit has no lines of an audit"),
    ("sound 1\nsound 2\n", NOON, "", 3, "audit has no lines of an audit"),
    ("C1 no memory\n", NOON, "", 3, "audit has no lines of an audit"))


@case("curl")
def the_last_audit_is_looked_at(room: Room) -> None:
    clock(room, NOON)
    room.vault("d")
    with room.serve("d", 2 * len(AUDITS) + 4) as server:
        says(room, server.port, 1, f"no audit: audit is missing; free 7 of 7 blocks; {NONE_DUE}", curves(7, 7), "--audit audit")
        room.plays("$ mkdir folder")
        says(room, server.port, 3, f"folder cannot be read; free 7 of 7 blocks; {NONE_DUE}", curves(7, 7), "--audit folder")
        for lines, moment, words, status, text in AUDITS:
            room.file("audit", lines)
            room.plays(f"$ touch -d {moment} audit")
            answer = room.run(f"{CHECK} --port {server.port} --audit audit {words}").lines()
            well = f"free 7 of 7 blocks; {NONE_DUE}"
            line = f"ESCROW {WORDS[status]} - {text}; {well}" if status else f"ESCROW OK - {well}; {text}"
            room.equal([line, status and f"!{status}"], [answer[0].split("|")[0], status and answer[-1]], f"{lines!r} {moment}")


@case("curl")
def the_worst_finding_gives_the_status_and_all_are_told(room: Room) -> None:
    """Room, days, damage and age; then the same without the damage; then without a service."""
    late = f"{LATE}: example 2026-08-02; parts wait for a statement: example 2026-08-02"
    warnings, data = f"free 0 of 1 blocks, less than 10 %; {late}; the last audit is 40 days old", curves(0, 1, 1, "3456000")
    clock(room, "2026-08-03T12:00:00Z")
    room.vault("d", 2)
    room.put("d", PART, "hello", TEN)
    lines = {f"damaged {PART}": (2, f"{FOUND} damaged {PART}; {warnings}"), "sound 1": (1, warnings)}
    with room.serve("d", 4, "2026-08-03T12:00:00Z") as server:
        for line, (status, text) in lines.items():
            room.plays(f"$ echo '{line}' > audit; touch -d 2026-06-24T12:00:00Z audit")
            says(room, server.port, status, text, data, "--audit audit")
    gone, data = f"the service on port {server.port} does not answer (status 7 of curl)", data.split()[-1]
    says(room, server.port, 2, f"{gone}; the last audit is 40 days old", data, "--audit audit")
    room.file("audit", "")
    says(room, server.port, 2, f"{gone}; audit has no lines of an audit", words="--audit audit")


# ---- words

WRONG = (
    ("no words", "", "no --port"),
    ("a port of 0", "--port 0", "--port takes a number from 1 to 65535"),
    ("a port out of range", "--port 65536", "--port takes a number from 1 to 65535"),
    ("a port that is no number", "--port x", "--port takes a number"),
    ("no port", "--port", "--port takes a number"),
    ("a port behind a zero", "--port 08080", "--port takes a number"),
    ("no file", "--port 1 --audit", "--audit takes a file"),
    ("days of no audit", "--port 1 --audit-days 3", "no --audit"),
    ("days below 0", "--port 1 --audit a --audit-days -1", "--audit-days takes a number"),
    ("room beyond all", "--port 1 --room 101", "--room takes a number from 0 to 100"),
    ("another word", "--port 1 d", "unknown word d"))


@each(((f"a check with {title} is unknown", *rest) for title, *rest in WRONG), "curl")
def wrong_words_are_unknown(room: Room, words: str, text: str) -> None:
    room.plays(f"$ {CHECK} {words} -> ESCROW UNKNOWN - {text}: see check-health --help\n!3")
