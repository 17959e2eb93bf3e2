"""Faults of requests, asked by curl; and a vault that is damaged or cannot be written."""
from pathlib import Path

from http_routes import BEGUN, GROUND, HELLO, LARGE, LONGER, UNCHANGED, routes
from lib import DAY, PART, TEN, Room, case, each, response, state, statement, volume_failed

PUT, REGISTRY, OTHER = f"PUT /deposits/{PART}", "PUT /registries/example", "GET /notices/other"
FIELDS = [word for at in range(33) for word in ("-H", f"X-{at}: a")]

HEADS = (
    (OTHER, None, 400, "A1 head", *FIELDS),
    (OTHER, None, 400, "A1 head", "-H", f"X-Pad: {'a' * 8192}"),
    ("GET /notices/a%20b", None, 400, "A2 target"),
    ("GET /notices/other?x=1", None, 400, "A2 target"),
    ("GET /notices/~other", None, 400, "A2 target"),
    ("GET /", None, 404, "A3 no route"),
    ("GET /x", None, 404, "A3 no route"),
    ("GET /notices/", None, 404, "A3 no route"),
    ("GET /notices/other/", None, 404, "A3 no route"),
    ("GET //notices/other", None, 404, "A3 no route"),
    (f"GET /reasons/example/{DAY}", None, 404, "A3 no route"),
    (f"GET /reasons/example/{DAY}/", None, 404, "A3 no route"),
    (f"GET /reasons/example/{DAY}/0/0", None, 404, "A3 no route"),
    (f"GET /reasons/example/{DAY}/+1", None, 400, "A2 target"),
    (f"PUT /deposits/../deposits/{PART}", HELLO, 404, "A3 no route"))

LENGTHS = (
    (PUT, HELLO, 501, "A5 transfer coding", "-H", "Transfer-Encoding: chunked"),
    (OTHER, None, 501, "A5 transfer coding", "-H", "tRANSFER-eNCODING: identity"),
    ("POST /purges", None, 411, "A6 no length"),
    ("POST /checks/example/2026-08-04", None, 411, "A6 no length"),
    (PUT, None, 411, "A6 no length"),
    ("POST /purges", None, 400, "A7 length", "-H", "Content-Length: 0", "-H", "Content-Length: 0"),
    ("POST /purges", None, 400, "A7 length", "-H", "Content-Length: +0"),
    ("POST /purges", None, 400, "A7 length", "-H", "Content-Length: 00000000000"),
    ("POST /purges", "x", 413, "A8 too long"),
    (REGISTRY, "a" * 4097, 413, "A8 too long"),
    (PUT, LONGER, 413, "A8 too long"),
    (PUT, Path("huge"), 413, "A8 too long"),
    (PUT, None, 413, "A8 too long", "-H", "Content-Length: 1048577"))

FORMS = (
    (REGISTRY, "", 400, "A10 form"),
    (REGISTRY, "{}", 400, "A10 form"),
    (REGISTRY, '{"first":"2026-02-29"}', 400, "A10 form"),
    (REGISTRY, f'{{"first":"{DAY}","x":1}}', 400, "A10 form"),
    (REGISTRY, f'["{DAY}"]', 400, "A10 form"),
    (REGISTRY, f'{{"first":"{DAY}"', 400, "A10 form"),
    ("PUT /registries/-a", f'{{"first":"{DAY}"}}', 400, "A10 form"),
    ("POST /checks/example/2026-02-29", "", 400, "A10 form"),
    ("PUT /releases/R-1", GROUND.replace("operator", "none"), 400, "A10 form"),
    ("PUT /releases/R_1", GROUND, 400, "A10 form"),
    ("GET /notices/Example", None, 400, "A10 form"),
    ("GET /reasons/Example/2026-08-02/0", None, 400, "A10 form"),
    *((f"GET /reasons/example/{it}/0", None, 400, "A10 form") for it in ("2026-02-29", "2026-8-2", "20260802", "0")),
    *((f"GET /reasons/example/{DAY}/{it}", None, 400, "A10 form") for it in ("00", "01", "100", "-1", "R00", "0.0", "1e1")),
    ("POST /statements", statement(kind="FULL"), 400, "A10 form"),
    ("POST /statements", statement(parts=9), 400, "A10 form"),
    ("POST /statements", statement(revision=100), 400, "A10 form"))

# Requests whose route has another method, and that method.
METHODS = (
    ("GET /registries/example", None, "PUT"),
    (f"GET /deposits/{PART}", None, "PUT"),
    ("GET /statements", None, "POST"),
    (f"GET /checks/example/{DAY}", None, "POST"),
    ("GET /releases/R-1", None, "PUT"),
    (f"PUT /releases/R-1/{PART}", HELLO, "GET"),
    ("DELETE /notices/example", None, "GET"),
    ("POST /state", "", "GET"),
    ("POST /due", "", "GET"),
    (f"POST /reasons/example/{DAY}/0", "", "GET"),
    (f"PUT /reasons/example/{DAY}/0", HELLO, "GET"),
    ("DELETE /reasons/example/x/00", None, "GET"),
    ("PUT /digests/example", HELLO, "GET"),
    ("DELETE /purges", None, "POST"),
    ("post /purges", None, "POST"))


@each((("a head or a target has a fault", HEADS), ("a length has a fault", LENGTHS), ("a body has a fault", FORMS)), "curl")
def faults(room: Room, rows: tuple[tuple, ...]) -> None:
    routes(room, f"{BEGUN}\n$ truncate -s 9G huge", TEN, rows, UNCHANGED)


@case("curl")
def a_response_names_the_method_of_the_route(room: Room) -> None:
    room.plays(BEGUN)
    room.file(str(HELLO), "hello")
    with room.serve("d", len(METHODS)) as server:
        for line, body, method in METHODS:
            room.equal(response(405, "A4 method", f"Allow: {method}"), room.curl(server, *line.split(), body), line)
    room.plays(UNCHANGED)


@case("curl")
def a_client_that_talks_TLS_or_says_nothing_gets_a_fault(room: Room) -> None:
    """The response is no TLS: curl leaves at its first bytes, perhaps before the server has written it all."""
    room.vault("d")
    with room.serve("d", 2, errors="(write failed)?") as server:
        room.equal(response(400, "A1 head"), server.ask(b""), "no byte")
        room.plays(f"$ curl -sk -m 60 https://127.0.0.1:{server.port}/ -> !35")


@case("curl")
def a_damaged_part_is_reported_and_the_rest_answers(room: Room) -> None:
    routes(room, f"""$ vault d 300
$ head -c 1M /dev/zero | tr '\\0' a > {PART}; escrow put d {PART} --now {TEN} -> received {PART} 1048576 {TEN}
$ escrow release d R-1 example operator --now {TEN} -> released R-1 example operator {TEN} 1
{PART}
$ printf b | dd of=d/vault.vol bs=1 seek=5000 conv=notrunc status=none""", TEN, (
        (f"GET /releases/R-1/{PART}", None, 500, "C5 damaged H8"),
        (PUT, LARGE, 500, "C5 damaged H8"),
        ("GET /notices/example", None, 200, "")), "")


@case("curl prlimit")
def a_volume_that_cannot_be_written_closes_the_vault(room: Room) -> None:
    """A limit on the length of files stands for a full disk."""
    routes(room, "$ vault d 300", TEN, (
        (PUT, LARGE, 503, "C2 volume failed"),
        (PUT, "hello", 503, "C4 closed"),
        *((f"GET /{path}", None, 503, "C4 closed") for path in (
            "notices/example", f"reasons/example/{DAY}/0", "state", "due", "digests/example"))),
        f"$ escrow state d -> {state(299, blocks=300)}", errors=volume_failed("File too large (os error 27)"),
        under=("env", "--ignore-signal=XFSZ", "prlimit", "--fsize=700000"))
