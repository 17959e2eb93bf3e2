"""One program at a time in a vault, and programs that are killed at any moment.

With KILLS=N in the environment N puts are killed, and N/4 calls of init; otherwise 120 and 30.
"""
import concurrent.futures
import datetime
import os
import random
import re
import time

from lib import DAY, Room, case, part_name, transcripts

KILLS = int(os.environ.get("KILLS", "120"))

transcripts(__name__, """
== a program ends at once where another has the vault
$ vault d
$ flock d/vault.vol escrow state d -> !3 file failed: d/vault.vol: file in use
""", "flock")


def killed(room: Room, seconds: float, command: str) -> str:
    """What a command prints that is killed at a moment of its first seconds, unless it ends before."""
    return room.run(f"timeout -s KILL {random.uniform(0.001, seconds):.4f} {command}").out.decode()


def span(room: Room, command: str) -> float:
    """The seconds that a command takes, and more than half of that again."""
    began = time.monotonic()
    room.plays(f"$ {command} > out")
    return 1.6 * (time.monotonic() - began)


@case(needs="sqlite3")
def of_two_programs_at_once_each_works_or_finds_the_vault_in_use(room: Room) -> None:
    room.vault("d")
    names = [f"r{number}" for number in range(24)]
    with concurrent.futures.ThreadPoolExecutor(2) as pool:
        answers = pool.map(lambda it: room.run(f"escrow register d {it} --first {DAY}").lines(), names)
    for name, [answer] in zip(names, answers):
        is_done = answer == f"registered {name} {DAY}"
        room.true(is_done or re.fullmatch("!3 file failed: d/.*: file in use", answer), f"register {name}: {answer}")
        room.plays(f"$ escrow state d | grep -cx 'registry {name} {DAY}' || true -> {int(is_done)}")
    room.plays("$ sqlite3 d/custody.db 'PRAGMA integrity_check' -> ok")


@case(needs="sqlite3", seconds=10)
def a_part_whose_put_is_killed_is_there_whole_or_not_at_all(room: Room) -> None:
    room.vault("d", blocks=KILLS + 2)
    seconds, answered = span(room, "escrow state d"), set()
    days = [str(datetime.date.fromisoformat(DAY) + datetime.timedelta(number)) for number in range(KILLS)]
    for day in days:
        room.file(part_name(day), day)
        printed = killed(room, seconds, f"escrow put d {part_name(day)} --now {day}T12:00:00Z")
        room.true(printed in ("", f"received {part_name(day)} 10 {day}T12:00:00Z\n"), f"the put of {day} prints {printed!r}")
        answered |= {day} if printed else set()
    state = room.run("escrow state d").lines()
    found = [day for day in days if f"part {part_name(day)} 10 held {day}T12:00:00Z" in state]
    room.equal(len(found) + 2, len(state), "how many lines there are, beside two those of whole parts that were sent")
    room.equal(set(), answered - set(found), "the days of parts that were acknowledged, and are not there")
    for day in found:
        received = f"received {part_name(day)} 10 {day}T12:00:00Z"
        room.plays(f"$ escrow put d {part_name(day)} --now 2030-01-01T00:00:00Z -> {received}")
    room.plays("$ sqlite3 d/custody.db 'PRAGMA integrity_check' -> ok")


@case(seconds=5)
def an_init_that_is_killed_is_done_again_unless_it_was_done(room: Room) -> None:
    init = "escrow init d --blocks 8 --number 0000000000000001"
    seconds = span(room, f"mkdir d; {init}")
    for _ in range(KILLS // 4):
        room.plays("$ rm -r d; mkdir d")
        printed, again = killed(room, seconds, init), room.run(init).lines()
        is_made = not printed and again == ["ready 8 0000000000000001"]
        room.true(is_made or again == ["!1 I1 already initialised"], f"init prints {printed!r}, and then {again}")
        room.plays("$ escrow state d -> free 7 of 7")
