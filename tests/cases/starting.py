"""deploy/check-start: which process has to listen before a service has started, how long it may take, and what is said."""
import contextlib
import os
import re
import subprocess
import sys
from collections.abc import Iterator

from deploy import DEPLOY, FIRST, REGISTER, SECOND, URL, VAULTS, here, serving, vault
from lib import Room, Server, Skip, begin, case, each, free_port, request, response, transcripts
from machine import TOOLS

CHECK, UNIT = DEPLOY / "check-start", DEPLOY / "escrow@.service"
ENDED = "!1 check-start: the service has ended"
ASKED, UNKNOWN = request("GET /notices/other"), response(404, "Q2 registry unknown")


def says(room: Room, process: int, port: int) -> list[str]:
    """Runs the start check of the unit, of the vault `d`, and gives the lines of its answer."""
    [command] = re.findall(r"^ExecStartPost=\+(.*)$", here(room, UNIT), re.MULTILINE)
    command = command.replace(f"{VAULTS}/archive", f"{room.folder}/d")
    return room.run(f"MAINPID={process} PORT={port}; {command}").lines()


def taken(port: int, process: int) -> list[str]:
    return [f"!1 check-start: port {port} belongs to process {process}"]


def count_pauses(room: Room) -> None:
    """From now on the check takes no pause, but counts it in the file `pauses`."""
    room.file("quick/sleep", f"#!/bin/sh\necho >> {room.folder}/pauses\n").chmod(0o755)
    room.environment["PATH"] = f"{room.folder}/quick:{room.environment['PATH']}"


def pauses(room: Room) -> int:
    file = room.folder / "pauses"
    return len(file.read_text()) if file.exists() else 0


@contextlib.contextmanager
def running(*words: str) -> Iterator[subprocess.Popen]:
    """A process that stands for a service. Without words it does not listen, and does not end."""
    with begin(words or ("sleep", "600"), stdin=subprocess.DEVNULL, stdout=subprocess.PIPE) as process:
        try:
            yield process
        finally:
            process.kill()


# ---- the process that listens

@case()
def a_service_that_listens_has_started(room: Room) -> None:
    room.vault("d")
    count_pauses(room)
    with room.serve("d", 1) as server:
        room.equal([], says(room, server.process.pid, server.port), "a service")
        room.equal(0, pauses(room), "pauses")
        server.ask(ASKED)


@case(seconds=2)
def a_service_is_waited_for_until_it_listens(room: Room) -> None:
    room.vault("d")
    later = ("sh", "-c", 'sleep 1; exec "$@"', "sh")
    with contextlib.closing(Server(room.program, room.folder / "d", 1, under=later)) as server:
        room.equal([], says(room, server.process.pid, server.port), "a service")
        room.equal(UNKNOWN, server.ask(ASKED), "a request")


@case()
def the_service_of_another_vault_is_not_taken_for_this_one(room: Room) -> None:
    """Whether the second one still opens its vault, or has ended because it cannot listen."""
    for name in ("d", "other"):
        room.vault(name)
    count_pauses(room)
    with room.serve("other", 1) as other:
        wanted = taken(other.port, other.process.pid)
        with running() as second:
            room.equal(wanted, says(room, second.pid, other.port), "while it opens the vault")
        with contextlib.closing(Server(room.program, room.folder / "d", port=other.port)) as second:
            room.true(not second.listens(60), "two services listen at one port")
            room.equal(wanted, says(room, second.process.pid, other.port), "when it has ended")
        room.equal(wanted, says(room, second.process.pid, other.port), "when it is gone")
        room.equal(0, pauses(room), "pauses")
        other.ask(ASKED)


def listener(address: str, port: int, both: bool) -> tuple[str, ...]:
    """The words of a process that listens at this port of an address, and then prints a line."""
    family = "AF_INET6" if ":" in address else "AF_INET"
    words = f"({address!r}, {port}), family=socket.{family}, dualstack_ipv6={both}"
    return sys.executable, "-c", f"import socket, time; it = socket.create_server({words}); print(flush=True); time.sleep(600)"


# Whether another process's socket takes the port of 127.0.0.1: one that also takes IPv4 is not told from one that does not.
YES, NO, UNKNOWN_YET = range(3)


@each((
    ("every address", "0.0.0.0", False, YES),
    ("another address", "127.0.0.2", False, NO),
    ("IPv6", "::", False, NO),
    ("IPv6 and IPv4", "::", True, UNKNOWN_YET)))
def another_process_listens_at(room: Room, address: str, both: bool, takes: int) -> None:
    port = free_port()
    room.vault("d")
    with running(*listener(address, port, both)) as other:
        if not other.stdout.readline():
            raise Skip(f"no process can listen at {address}")
        with contextlib.closing(Server(room.program, room.folder / "d", 1, port=port)) as server:
            room.equal(takes == NO, server.listens(60), "the service listens")
            wanted = {YES: taken(port, other.pid), NO: [], UNKNOWN_YET: [ENDED]}[takes]
            room.equal(wanted, says(room, server.process.pid, port), address)


# ---- the end of the process, and of the time

@case(seconds=1)
def a_process_that_ends_is_not_waited_for(room: Room) -> None:
    with running("sleep", "0.2") as process:
        room.equal([ENDED], says(room, process.pid, free_port()), "while it is waited for")
    count_pauses(room)
    room.equal([ENDED], says(room, process.pid, free_port()), "a process that is gone")
    room.plays(f"$ {CHECK} --process '' --port {free_port()} --vault d -> {ENDED}")
    room.equal(0, pauses(room), "pauses")


MIB = 1 << 20


@each((
    ("90 seconds without files", {}, 90),
    ("90 seconds for less than a MiB", {"custody.db": MIB - 2, "custody.db-wal": 1}, 90),
    ("a second more for each MiB", {"custody.db": 3 * MIB, "custody.db-wal": 2 * MIB}, 95)))
def a_service_has(room: Room, lengths: dict[str, int], seconds: int) -> None:
    for name, length in lengths.items():
        os.truncate(room.file(f"d/{name}", ""), length)
    count_pauses(room)
    port = free_port()
    with running() as process:
        line = f"!1 check-start: the service does not listen at port {port} after {seconds} seconds"
        room.equal([line], says(room, process.pid, port), "a service that does not listen")
    room.equal(2 * seconds, pauses(room), "pauses of half a second")


# ---- words

ALL = "--process 1 --port 1 --vault d"
WRONG = {
    "": "no --process",
    "--process 1": "no --port",
    "--process 1 --port 1": "no --vault",
    f"{ALL} --port": "--port takes a number",
    f"{ALL} --port 0": "--port takes a number",
    f"{ALL} --port 08": "--port takes a number",
    f"{ALL} --port 65536": "--port takes a number from 1 to 65535",
    f"{ALL} --process": "--process takes a value",
    f"{ALL} --process x": "--process takes a number",
    f"{ALL} --process 4194305": "--process takes a number from 1 to 4194304",
    f"{ALL} --vault": "--vault takes a value",
    f"{ALL} d": "unknown word d"}

transcripts(__name__, "== a start check names the word that is wrong" + "".join(f"""
$ {CHECK} {words} -> !2 check-start: {what}: see check-start --help""" for words, what in WRONG.items()))


@case()
def a_start_check_says_what_is_missing(room: Room) -> None:
    room.plays(f"$ mkdir none; PATH=none /bin/sh {CHECK} {ALL} -> !1 check-start: no awk")


# ---- on a machine of their own

@case(f"{TOOLS} curl", seconds=10)
def of_two_vaults_with_one_port_the_second_does_not_start(room: Room) -> None:
    """Until it has a port of its own."""
    with serving(room) as on:
        vault(on, "other", 8080)
        [process] = on.run("systemctl show -P MainPID escrow@archive").lines()
        on.plays("$ systemctl start escrow@other 2> said -> !1")
        on.comes("journalctl -qo cat -t check-start | head -n 1", f"check-start: port 8080 belongs to process {process}")
        on.plays(f"""
            $ systemctl status {process} | head -n 1 | cut -d ' ' -f 2 -> escrow@archive.service
            $ curl -s {URL}/due -> due example {FIRST}
            due example {SECOND}
            $ sed -i s/8080/8081/ /etc/escrow/other.env""")
        on.comes("systemctl is-active escrow@other", "active")
        on.plays(f"$ curl -s {URL.replace('8080', '8081')}/notices/example -> Q2 registry unknown")


@case(f"{TOOLS} curl", seconds=15)
def a_service_may_open_its_vault_for_longer_than_systemd_waits(room: Room) -> None:
    with serving(room) as on:
        late = "/etc/systemd/system/escrow@archive.service.d/late.conf"
        on.plays(f"""
            $ install -D /dev/stdin {late} <<< $'[Service]\\nExecStart='
            $ sed -n 's,^ExecStart=\\(.*\\),ExecStart=/bin/sh -c "sleep 3; exec \\1",p' {DEPLOY}/escrow@.service >> {late}
            $ install -D /dev/stdin /etc/systemd/system.conf.d/short.conf <<< $'[Manager]\\nDefaultTimeoutStartSec=1'
            $ systemctl daemon-reexec; systemctl show -P DefaultTimeoutStartUSec -> 1s
            $ systemctl restart --no-block escrow@archive; sleep 2; systemctl show -P SubState escrow@archive -> start-post""")
        on.comes("systemctl is-active escrow@archive", "active")
        on.plays(f"""
            $ systemctl show -P NRestarts escrow@archive -> 0
            $ {REGISTER} -> registered example {FIRST}""")
