"""Clients that take their time. A request has to come within 30 seconds, and a client has 60 until it has its response."""
import time
from concurrent.futures import ThreadPoolExecutor

from http_sockets import ASKED, CUT, FETCH, FETCHED, FIRST_BLOCK, LARGE_HELD, RELEASED, UNKNOWN, kept, released
from lib import FIVE, Room, Server, case, each


def timed(server: Server, sent: bytes, **how) -> tuple[bytes, float]:
    """What is answered, and how many seconds that takes."""
    began = time.monotonic()
    return server.ask(sent, **how), time.monotonic() - began


def slow_client(room: Room, sent: bytes, how: dict, errors: str, waited: int, least: int, most: int) -> bytes:
    """What a slow client is answered, which is cut off between these seconds. The next one waits, and is answered."""
    with room.serve("d", 2, FIVE, errors=errors) as server, ThreadPoolExecutor(2) as pool:
        slow = pool.submit(timed, server, sent, end="open", **how)
        time.sleep(2)
        after, seconds = timed(server, ASKED)
        answer, took = slow.result()
    room.true(least <= took < most, f"the slow client is cut off after {took:.1f} seconds, not {least} to {most}")
    room.true(waited <= seconds < most, f"the next client waits {seconds:.1f} seconds, not {waited} to {most}")
    room.equal(UNKNOWN, after, "the response to the next client")
    return answer


@each([
    ("a silent client is cut off", b"", {}),
    ("a client that sends a byte a minute is cut off", ASKED, {"piece": 1, "pause": 60}),
    ("a client that sends a byte every four seconds is cut off", ASKED, {"piece": 1, "pause": 4}),
    ("an upload that stops is cut off", CUT, {}),
], seconds=35)
def slow_request(room: Room, sent: bytes, how: dict) -> None:
    room.vault("d", 300)
    room.equal(b"", slow_client(room, sent, how, "read failed", 20, 29, 35), "the response to the slow client")
    kept(room, 299)
    room.plays(FIRST_BLOCK if sent == CUT else "")


@case(seconds=70)
def a_client_that_does_not_read_its_response_is_cut_off(room: Room) -> None:
    released(room)
    answer = slow_client(room, FETCH, {"narrow": True, "wait": 66}, "write failed", 50, 60, 76)
    room.true(FETCHED.startswith(answer), "the answer is not the beginning of the response")
    room.true(0 < len(answer) < 1_048_576, f"{len(answer)} bytes of it came")
    kept(room, 43, LARGE_HELD, f"release {RELEASED}")
