"""What an operator may count on: scripts side by side, room that is kept, permissions, and a service that is stopped."""
import socket
import time
from concurrent.futures import ThreadPoolExecutor

from backups import disk
from lib import DAY, PART, TEN, Room, case, request, state

FIRST = f'{{"first":"{DAY}"}}'


@case("flock")
def two_scripts_take_turns_by_a_lock_of_their_own(room: Room) -> None:
    """Without it the second finds the vault in use; with it the second waits for the first."""
    register = f"escrow register d other --first {DAY}"
    room.vault("d")
    with room.serve("d", 1) as server:
        room.plays(f"$ {register} -> !3 file failed: d/vault.vol: file in use")
        server.ask(request("GET /state"))
    with ThreadPoolExecutor(1) as pool, room.serve("d", 1, under=("flock", "-F", room.folder / "d.lock")) as server:
        second = pool.submit(room.run, f"flock d.lock {register}")
        time.sleep(1)
        room.true(not second.done(), "the second script does not wait")
        server.ask(request("GET /state"))
        room.equal([f"registered other {DAY}"], second.result().lines(), "the second script")


@case("flock")
def commands_at_once_are_all_done_with_a_lock_of_their_own(room: Room) -> None:
    names = [f"r{number}" for number in range(8)]
    room.vault("d")
    with ThreadPoolExecutor(4) as pool:
        answers = list(pool.map(lambda it: room.run(f"flock d.lock escrow register d {it} --first {DAY}").lines(), names))
    room.equal([[f"registered {name} {DAY}"] for name in names], answers, "the commands")


# What fills a disk, but for half a megabyte that the database and its log may take.
FILL = "head -c $(($(stat -f -c '%a * %S' small) - 524288)) /dev/zero > small/filler"
LARGE = f"received {PART} 1048576 {TEN}"


@case("fallocate")
def a_volume_that_has_its_room_takes_a_part_on_a_full_disk(room: Room) -> None:
    with disk(room, "small", "4m"):
        room.plays(f"""
            $ vault small/d 300; truncate -s 1M {PART}
            $ fallocate -l $(stat -c %s small/d/vault.vol) small/d/vault.vol; {FILL}
            $ escrow put small/d {PART} --now {TEN} -> {LARGE}
            $ escrow audit small/d -> sound 1""")


@case()
def a_volume_without_its_room_refuses_a_part_on_a_full_disk_and_loses_nothing(room: Room) -> None:
    with disk(room, "small", "4m"):
        room.plays(f"""
            $ vault small/d 300; truncate -s 1M {PART}
            $ {FILL}
            $ escrow put small/d {PART} --now {TEN} -> !3 C2 volume failed
            ! file failed: small/d/vault.vol: No space left on device (os error 28)
            $ escrow state small/d -> {state(299, blocks=300)}
            $ rm small/filler
            $ escrow put small/d {PART} --now {TEN} -> {LARGE}
            $ escrow audit small/d -> sound 1""")


@case()
def only_its_user_reads_a_vault_that_was_made_with_umask_077(room: Room) -> None:
    room.plays(f"""
        $ umask 077; mkdir d; escrow init d --blocks 8 --number 0000000000000001 -> ready 8 0000000000000001
        $ umask 077; escrow register d example --first {DAY} -> registered example {DAY}
        $ stat -c '%a %n' d d/* -> 700 d
        600 d/custody.db
        600 d/custody.db-wal
        600 d/vault.vol""")


# ---- a service that is stopped

def registries(room: Room) -> list[str]:
    """The registries of the vault, but for the first one's."""
    return [line.split()[1] for line in room.run("escrow state d").lines() if line.startswith("registry r")]


@case(seconds=10)
def a_log_of_megabytes_stays_behind_a_stop_and_the_next_command_reads_it(room: Room) -> None:
    names = [f"r{number:04}" for number in range(2000)]
    room.vault("d")
    with room.serve("d", 1_000_000, status=-15) as server:
        for name in names:
            room.true(b" 201 " in server.ask(request(f"PUT /registries/{name}", FIRST)), f"registry {name}")
        server.process.terminate()
    room.plays("$ test $(stat -c %s d/custody.db-wal) -gt 2000000 -a $(stat -c %s d/custody.db-wal) -lt 5000000")
    room.equal(names, registries(room), "the registries")
    room.plays("$ test $(stat -c %s d/custody.db-wal) -lt 4096; escrow audit d -> sound 0")


@case()
def a_stop_ends_a_service_at_once_and_loses_nothing(room: Room) -> None:
    """It comes in the midst of requests: the last one is recorded whole or not at all."""
    def ask() -> int:
        """How many requests are acknowledged, one after another."""
        number = 0
        while b" 201 " in server.ask(request(f"PUT /registries/r{number:05}", FIRST)):
            number += 1
        return number

    room.vault("d")
    with ThreadPoolExecutor(1) as pool, room.serve("d", 1_000_000, status=-15) as server:
        asked = pool.submit(ask)
        time.sleep(1)
        server.process.terminate()
        began = time.monotonic()
        server.process.wait(10)
        room.true(time.monotonic() - began < 5, "the service ends late")
        acknowledged = asked.result()
    found = registries(room)
    room.true(acknowledged > 0 and len(found) - acknowledged in (0, 1), f"{acknowledged} acknowledged, {len(found)} found")
    room.equal([f"r{number:05}" for number in range(len(found))], found, "the registries")


@case()
def a_slow_client_does_not_hold_a_stop_up(room: Room) -> None:
    room.vault("d")
    with room.serve("d", 9, status=-15) as server, socket.create_connection(("127.0.0.1", server.port)) as client:
        client.sendall(request(f"PUT /deposits/{PART}", "hello")[:-1])
        time.sleep(0.5)
        server.process.terminate()
        began = time.monotonic()
        server.process.wait(10)
        room.true(time.monotonic() - began < 5, "the service ends late")
    room.plays(f"$ escrow state d -> {state(7)}")
