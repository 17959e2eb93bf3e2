"""What raw sockets are answered: requests in pieces, heads at their limits, parts that are cut, and clients that go away."""
import os
import signal

from lib import FIVE, PART, TEN, Room, case, each, notice, part_name, request, response, state, statement

FAILURE = notice(1, "FAILURE-01", "2026-08-02", FIVE, "X")
PUT, SECOND, LARGE = f"PUT /deposits/{PART}", part_name(part=2), b"a" * 1_048_576
HELLO, RECEIVED = request(PUT, "hello"), f"received {PART} 5 {TEN}"
# A request that is refused in any vault of these cases, and its response.
ASKED, UNKNOWN = request("GET /notices/other"), response(404, "Q2 registry unknown")
# A part of 100,000 bytes, of which 70,000 come.
WHOLE = request(PUT, b"a" * 100_000)
CUT = WHOLE[:-30_000]
# The first block of the volume behind that of the vault itself is as it came.
FIRST_BLOCK = "$ head -c 4096 /dev/zero | tr '\\0' a | cmp -n 4096 - d/vault.vol 0 4096"
# A part of the largest size, which `released` makes.
FETCH, FETCHED = request(f"GET /releases/R-1/{PART}"), response(200, LARGE)
NO_HEAD, CREATED, SHORT = response(400, "A1 head"), response(201, RECEIVED), response(400, "A9 body short")
HELD, LARGE_HELD, RELEASED = f"part {PART} 5 held {TEN}", f"part {PART} 1048576 held {TEN}", f"R-1 example operator {TEN} 1"


def kept(room: Room, free: int, *lines: str) -> None:
    """The vault has 300 blocks, of which so many are free, and these lines."""
    room.plays(f"$ escrow state d -> {state(free, *lines, blocks=300)}")


def released(room: Room) -> None:
    """Makes a vault with a part of the largest size in the release R-1."""
    room.vault("d", 300)
    room.put("d", PART, LARGE, TEN)
    room.plays(f"$ escrow release d R-1 example operator --now {TEN} -> released {RELEASED}\n{PART}")


# ---- requests in pieces

PIECES = (("pieces of 1 byte", 1), ("pieces of 2 bytes", 2), ("pieces of 7 bytes", 7), ("one piece", 1 << 30))


# What is asked at each moment, and its response, whatever the pieces are.
ASKED_IN_PIECES = (
    (TEN, ((HELLO[:-2], SHORT), (HELLO, CREATED), (HELLO, response(200, RECEIVED)), (ASKED, UNKNOWN))),
    (FIVE, (
        (b"", NO_HEAD),
        (request("GET /notices/a%20b"), response(400, "A2 target")),
        (request("GET /x"), response(404, "A3 no route")),
        (request("DELETE /purges"), response(405, "A4 method", "Allow: POST")),
        (request("POST /checks/example/2026-08-04"), response(411, "A6 no length")),
        (request(PUT, None, "Content-Length: 1048577"), response(413, "A8 too long")),
        (request(f"PUT /deposits/{SECOND}", ""), response(413, "Q4 size")),
        (request("POST /statements", statement(parts=9)), response(400, "A10 form")),
        (request("POST /statements", statement(number="X")), response(201, FAILURE)))))


@each([(f"requests in {pieces}", size) for pieces, size in PIECES])
def requests_in_pieces(room: Room, size: int) -> None:
    room.vault("d", 300)
    for now, rows in ASKED_IN_PIECES:
        with room.serve("d", len(rows), now) as server:
            for sent, wanted in rows:
                room.equal(wanted, server.ask(sent, piece=size, pause=0.001), f"the response to {sent[:100]}")
    kept(room, 298, HELD, FAILURE)


# ---- heads at their limits, and more than one request

SEVENS, OPEN = {"piece": 7, "pause": 0.0001}, {"end": "open"}


def padded(length: int) -> bytes:
    """A request with a head of so many bytes, and a body of 5."""
    return f"{PUT} HTTP/1.1\r\nContent-Length: 5\r\nX-Pad: ".encode().ljust(length - 4, b"a") + b"\r\n\r\nhello"


def fields(number: int) -> bytes:
    """A request with so many fields, and a body."""
    return request(PUT, None, "content-LENGTH: 5", *(f"X-{it}: a" for it in range(2, number + 1))) + b"hello"


@each([
    ("a head of 8192 bytes is taken", padded(8192), {}, CREATED),
    ("a head of 8192 bytes in pieces is taken", padded(8192), SEVENS, CREATED),
    ("a head of 8193 bytes is refused", padded(8193), {}, NO_HEAD),
    ("a head of 8193 bytes in pieces is refused", padded(8193), SEVENS, NO_HEAD),
    ("8192 bytes without the end of a head are refused", b"a" * 8192, OPEN, NO_HEAD),
    ("a head that ends early is refused", request("GET /notices/other", None, "X-Pad: a")[:-4], {}, NO_HEAD),
    ("HTTP 2 is refused", b"PRI * HTTP/2.0\r\n\r\nSM\r\n\r\n", OPEN, NO_HEAD),
    ("32 fields are taken", fields(32), {}, CREATED),
    ("33 fields are refused", fields(33), {}, NO_HEAD),
    ("33 fields in pieces are refused", fields(33), SEVENS, NO_HEAD),
    ("lines may end with a line feed alone, and empty ones may come first",
     f"\n\r\n{PUT} HTTP/1.1\ncontent-length: 0000000005 \n\nhello".encode(), {}, CREATED),
    ("of two requests the first is answered", ASKED + ASKED, {}, UNKNOWN),
    ("of two parts the first is kept", HELLO + request(f"PUT /deposits/{SECOND}", "hello"), {}, CREATED),
    ("a client that leaves its side open is answered", ASKED, OPEN, UNKNOWN),
])
def one_request(room: Room, sent: bytes, how: dict, wanted: bytes) -> None:
    room.vault("d", 300)
    with room.serve("d", 1) as server:
        room.equal(wanted, server.ask(sent, **how), "the response")
    kept(room, *((298, HELD) if wanted == CREATED else (299,)))


# ---- parts that are cut, and clients that go away

@each([
    ("a part that ends early takes no room", {}, SHORT, ""),
    ("a part that is broken off takes no room", {"wait": 0.5, "end": "reset"}, b"", "read failed"),
])
def cut_part(room: Room, how: dict, wanted: bytes, errors: str) -> None:
    room.vault("d", 300)
    with room.serve("d", 2, errors=errors) as server:
        room.equal(wanted, server.ask(CUT, **how), "the response to the part")
        room.equal(UNKNOWN, server.ask(ASKED), "the next client")
    room.plays(FIRST_BLOCK)
    kept(room, 299)
    with room.serve("d", 1) as server:
        room.equal(response(201, f"received {PART} 100000 {TEN}"), server.ask(WHOLE), "the whole part")
    kept(room, 274, f"part {PART} 100000 held {TEN}")


@case()
def after_clients_that_go_away_the_next_one_is_answered(room: Room) -> None:
    """The response to the third client may be lost without an error."""
    room.vault("d")
    with room.serve("d", 4, errors="read failed\nread failed(\nwrite failed)?") as server:
        for sent, end in ((ASKED[:-2], "reset"), (HELLO[:-2], "reset"), (ASKED, "close")):
            server.ask(sent, end=end)
        room.equal(UNKNOWN, server.ask(ASKED), "the next client")


@case()
def a_fetch_that_is_broken_off_is_repeated(room: Room) -> None:
    released(room)
    with room.serve("d", 2, FIVE, errors="write failed") as server:
        room.equal(b"HTTP/1.1 2", server.ask(FETCH, narrow=True, read=10, end="reset"), "the beginning of the response")
        room.equal(FETCHED, server.ask(FETCH + FETCH), "the response to two requests: one, and whole")


@case()
def a_part_is_kept_whose_sender_goes_away_before_the_response(room: Room) -> None:
    released(room)
    sent = request(f"PUT /deposits/{SECOND}", "hello")
    with room.serve("d", 2, FIVE, errors="write failed") as server:
        os.kill(server.process.pid, signal.SIGSTOP)
        server.ask(sent, end="reset")
        os.kill(server.process.pid, signal.SIGCONT)
        room.equal(response(200, f"received {SECOND} 5 {FIVE}"), server.ask(sent), "the response to a repeat")
    kept(room, 42, LARGE_HELD, f"part {SECOND} 5 held {FIVE}", f"release {RELEASED}")
