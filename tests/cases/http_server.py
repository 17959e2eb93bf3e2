"""The server: its address and port, the vault that it locks, the clock, its end, and the failures that close its vault."""
import os
import signal
import time

from lib import DAY, PART, TEN, Room, Server, case, each, free_port, part_name, request, response, state, volume_failed

UNKNOWN = request("GET /notices/other")


@case()
def a_server_listens_on_127_0_0_1_alone(room: Room) -> None:
    """Each address of 127.0.0.0/8 is this machine's, and it may have others."""
    room.vault("d")
    with room.serve("d", 1) as server:
        for address in ("127.0.0.2", *room.run("hostname -I").out.decode().split()):
            tried = room.run(f": < /dev/tcp/{address}/{server.port}")
            room.true(b"Connection refused" in tried.err, f"{address}: {tried}")
        room.equal(response(404, "Q2 registry unknown"), server.ask(UNKNOWN), "on 127.0.0.1")


@case()
def a_port_and_a_vault_have_one_server(room: Room) -> None:
    room.vault("d")
    room.plays("$ cp -r d copy")
    with room.serve("d", 1) as server:
        room.plays(f"""
            $ escrow serve copy --port {server.port} --requests 1
            !3 socket failed: 127.0.0.1:{server.port}: Address already in use (os error 98)
            $ escrow state d -> !3 file failed: d/vault.vol: file in use""")
        server.ask(UNKNOWN)


@case()
def a_part_has_the_moment_of_the_clock(room: Room) -> None:
    today, now = time.strftime("%F", time.gmtime()), lambda: time.strftime("%FT%TZ", time.gmtime())
    room.vault("d", first=today)
    with room.serve("d", 1, now="") as server:
        before = now()
        answer = server.ask(request(f"PUT /deposits/{part_name(today)}", "hello"))
        moment, after = answer.decode().split()[-1], now()
    room.equal(response(201, f"received {part_name(today)} 5 {moment}"), answer, "a part")
    room.true(before <= moment <= after, f"{moment} is not from {before} to {after}")


@case()
def a_vault_has_its_parts_after_the_server_is_killed(room: Room) -> None:
    room.vault("d")
    with room.serve("d", 9, status=-9) as server:
        answer = server.ask(request(f"PUT /deposits/{PART}", "hello"))
        room.equal(response(201, f"received {PART} 5 {TEN}"), answer, "a part")
        server.process.kill()
    room.plays(f"$ escrow state d -> {state(6, f'part {PART} 5 held {TEN}')}")


@case("prlimit")
def a_server_that_can_take_no_connection_ends(room: Room) -> None:
    """If it already waits for the first client, it may still serve it."""
    room.vault("d")
    errors = r"socket failed: 127\.0\.0\.1:\d+: Too many open files \(os error 24\)"
    with room.serve("d", 2, status=3, errors=errors) as server:
        room.plays(f"$ prlimit --pid {server.process.pid} --nofile=4:4")
        server.ask(UNKNOWN)


@case()
def a_server_that_cannot_print_its_line_ends(room: Room) -> None:
    room.vault("d")
    room.plays(f"$ escrow serve d --port {free_port()} --requests 1 --now {TEN} > /dev/full -> !3 output failed")


# ---- failures that close the vault

REPORT, CLOSED, DONE = request("GET /notices/example"), response(503, "C4 closed"), response(200, "")
FETCH, REGISTER = request(f"GET /releases/R-1/{PART}"), request("PUT /registries/other", f'{{"first":"{DAY}"}}')
# What is done to a server that then fails at a request, that request, the failure, its errors in the end, and the response of
# a new server to the request when this is undone.
FAILURES = (
    ("volume", "truncate -s 4096 d/vault.vol", FETCH, "C2 volume failed", volume_failed("failed to fill whole buffer"),
     response(200, b"hello")),
    ("store", "prlimit --pid {} --fsize=4096", REGISTER, "C3 store failed", "C3 store failed",
     response(201, f"registered other {DAY}")))
# A file that may grow no further is an error to the server, and not a signal.
UNDER = ("env", "--ignore-signal=XFSZ")


def each_failure(title: str):
    return each([(title.replace("FILE", file), *rest) for file, *rest in FAILURES], "prlimit")


def released(room: Room) -> None:
    """Makes a vault with a part of five bytes in the release R-1, and keeps its volume as it is."""
    room.vault("d")
    room.put("d", PART, "hello", TEN)
    room.plays(f"""
        $ escrow release d R-1 example operator --now {TEN} -> released R-1 example operator {TEN} 1
        {PART}
        $ cp d/vault.vol kept""")


def spoil(room: Room, server: Server, how: str) -> None:
    """Has the server answer a request, and then spoils what it works with."""
    room.equal(DONE, server.ask(REPORT), "before the failure")
    room.plays(f"$ {how.format(server.process.pid)}")


def answers_again(room: Room, sent: bytes, wanted: bytes) -> None:
    """With the volume as it was, a new server does what was asked."""
    room.plays("$ cp kept d/vault.vol")
    with room.serve("d", 1) as server:
        room.equal(wanted, server.ask(sent), "the response of a new server")


@each_failure("a server writes once that its FILE failed")
def told_once(room: Room, how: str, sent: bytes, failure: str, errors: str, again: bytes) -> None:
    released(room)
    with room.serve("d", 5, errors=errors, under=UNDER) as server:
        spoil(room, server, how)
        room.equal(response(503, failure), server.ask(sent), "the request that fails")
        for other in (sent, REPORT):
            room.equal(CLOSED, server.ask(other), "a later request")
            # The line is there as soon as the next connection is served.
            room.equal([failure], server.told(), "the errors so far")
        room.equal(response(404, "A3 no route"), server.ask(request("GET /x")), "a request with a fault")
    answers_again(room, sent, again)


@each_failure("a server until closed ends when its FILE fails")
def ends(room: Room, how: str, sent: bytes, failure: str, errors: str, again: bytes) -> None:
    released(room)
    with room.serve("d", 9, status=3, errors=errors, under=UNDER, until_closed=True) as server:
        spoil(room, server, how)
        room.equal(response(503, failure), server.ask(sent), "the request that fails")
    answers_again(room, sent, again)


@each_failure("a client that goes away keeps no failure of the FILE back")
def told_without_client(room: Room, how: str, sent: bytes, failure: str, errors: str, again: bytes) -> None:
    """The response may be lost without an error."""
    released(room)
    with room.serve("d", 9, status=3, errors=f"(write failed\n)?{errors}", under=UNDER, until_closed=True) as server:
        spoil(room, server, how)
        os.kill(server.process.pid, signal.SIGSTOP)
        server.ask(sent, end="reset")
        os.kill(server.process.pid, signal.SIGCONT)
    answers_again(room, sent, again)


@case("prlimit")
def a_failure_that_is_not_answered_is_written(room: Room) -> None:
    """The volume fails at a part that its client then cuts, so that the response is another."""
    room.vault("d", 300)
    sent, under = request(f"PUT /deposits/{PART}", b"a" * 1_048_576)[:-1], (*UNDER, "prlimit", "--fsize=700000")
    errors = volume_failed("File too large (os error 27)")
    for until_closed, status, later in ((False, 0, CLOSED), (True, 3, b"")):
        how = {"errors": errors, "status": status, "under": under, "until_closed": until_closed}
        with room.serve("d", 2, **how) as server:
            room.equal(response(400, "A9 body short"), server.ask(sent), "the part that is cut")
            room.equal(later, server.ask(REPORT), "a later request")
    room.plays(f"$ escrow state d -> {state(299, blocks=300)}")


@case()
def a_server_until_closed_goes_on_behind_faults_refusals_and_damage(room: Room) -> None:
    released(room)
    room.plays("$ sed -i s/hello/hellx/ d/vault.vol")
    with room.serve("d", 4, until_closed=True) as server:
        for sent, wanted in ((request("GET /x"), response(404, "A3 no route")), (UNKNOWN, response(404, "Q2 registry unknown")),
                             (FETCH, response(500, "C5 damaged H8")), (REPORT, DONE)):
            room.equal(wanted, server.ask(sent), f"{sent[:20]}")
