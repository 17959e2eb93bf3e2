"""The files of deploy/: the units, the sweep and the installation, alone and on a machine of their own."""
import contextlib
import datetime
import re
import shlex
import socket
import sys
import threading
from collections.abc import Iterator
from pathlib import Path

from files import NOBODY
from http_server import UNDER
from lib import DAY, TEN, TOP, Room, case, each, free_port, notice, part_name, transcripts
from machine import TOOLS, Machine, machine

DEPLOY = TOP / "deploy"
UNITS = sorted([*DEPLOY.glob("*.service"), *DEPLOY.glob("*.timer")])
# What systemd-analyze may find of a service's exposure, in tenths: it has sockets on 127.0.0.1, and this machine's files.
EXPOSURE = 9


# ---- the units

def here(room: Room, unit: Path) -> str:
    """The text of the unit of a vault `archive`, with the paths of the program and of the scripts before they are installed."""
    text = unit.read_text().replace("/usr/local/bin/escrow", str(room.program))
    return text.replace("/usr/local/lib/escrow", str(DEPLOY)).replace("%i", "archive")


@each(((f"systemd takes each line of {it.name}", it) for it in UNITS), "systemd-analyze")
def unit_is_taken(room: Room, unit: Path) -> None:
    file = room.file(unit.name.replace("@", "@archive"), here(room, unit))
    room.plays(f"$ systemd-analyze verify --man=no ./{file.name}")


@each(((f"little is exposed to {it.name}", it) for it in UNITS if it.suffix == ".service"), "systemd-analyze")
def exposure_is_low(room: Room, unit: Path) -> None:
    room.plays(f"$ systemd-analyze security --offline=yes --threshold={EXPOSURE} {shlex.quote(str(unit))} > shown")


# ---- the sweep and the purge, as their units call them

SWEEP, PURGE = DEPLOY / "escrow-sweep@.service", DEPLOY / "escrow-purge@.service"
FOURTH, FIFTH = "2026-08-04T00:05:00Z", "2026-08-05T00:05:00Z"
# What a sweep says of a vault that is closed, and of one whose database cannot grow.
CLOSED = "sweep: /due: 503 C4 closed"
FAILED = f"sweep: /checks/example/{DAY}: 503 C3 store failed"


def calls(room: Room, unit: Path, port: int, at_most: int = 9) -> list[str]:
    """Runs the command of a unit for a port, and gives the lines of its answer."""
    [command] = [line.removeprefix("ExecStart=") for line in here(room, unit).splitlines() if line.startswith("ExecStart=")]
    return room.run(f"PORT={port} AT_MOST={at_most}; {command}").lines()


def absence(number: int, day: str, at: str) -> str:
    return notice(number, "ABSENCE", day, at)


@case("curl")
def a_sweep_records_each_due_day_once(room: Room) -> None:
    room.vault("d")
    absences = [absence(1, "2026-08-02", FOURTH), absence(2, "2026-08-03", FOURTH)]
    with room.serve("d", 4, FOURTH) as server:
        room.equal(absences, calls(room, SWEEP, server.port, 2), "two days")
        room.equal([], calls(room, SWEEP, server.port, 0), "again")
    room.plays("\n".join(["$ escrow report d example", *absences]))


@case("curl")
def a_sweep_of_too_many_days_records_none(room: Room) -> None:
    room.vault("d")
    with room.serve("d", 1, FOURTH) as server:
        line = "!1 sweep: 2 days are due, more than 1: no absence is recorded"
        room.equal([line], calls(room, SWEEP, server.port, 1), "two days")
    room.plays("$ escrow report d example")


@case("curl")
def a_sweep_leaves_a_day_alone_whose_parts_came(room: Room) -> None:
    room.vault("d")
    room.put("d", part_name("2026-08-03"), "hello", "2026-08-03T10:00:00Z")
    left = "!1 sweep: example 2026-08-03: parts came, and no statement: no absence is recorded"
    absences = [absence(1, "2026-08-02", FIFTH), absence(2, "2026-08-04", FIFTH)]
    with room.serve("d", 4, FIFTH) as server:
        room.equal([*absences, left], calls(room, SWEEP, server.port), "three days")
        room.equal([left], calls(room, SWEEP, server.port), "again")
    room.plays("\n".join(["$ escrow report d example", *absences]))


@case("curl prlimit")
def a_sweep_and_a_purge_tell_each_status_of_failure(room: Room) -> None:
    room.vault("d")
    with room.serve("d", 5, FOURTH, errors="C3 store failed", under=UNDER) as server:
        room.plays(f"$ prlimit --pid {server.process.pid} --fsize=4096")
        second = "! sweep: /checks/example/2026-08-03: 503 C4 closed"
        room.equal([f"!1 {FAILED}", second], calls(room, SWEEP, server.port), "a vault that fails")
        room.equal([f"!1 {CLOSED}"], calls(room, SWEEP, server.port), "a vault that is closed")
        purged = ["C4 closed", "!22 curl: (22) The requested URL returned error: 503"]
        room.equal(purged, calls(room, PURGE, server.port), "a purge")


@case("curl prlimit")
def a_sweep_ends_with_the_service(room: Room) -> None:
    room.vault("d")
    with room.serve("d", 9, FOURTH, status=3, errors="C3 store failed", under=UNDER, until_closed=True) as server:
        room.plays(f"$ prlimit --pid {server.process.pid} --fsize=4096")
        second = f"! sweep: /checks/example/2026-08-03: no response on port {server.port}"
        room.equal([f"!1 {FAILED}", second], calls(room, SWEEP, server.port), "a vault that fails")


@case("curl")
def a_sweep_and_a_purge_fail_without_a_service(room: Room) -> None:
    port = free_port()
    room.equal([f"!1 sweep: /due: no response on port {port}"], calls(room, SWEEP, port), "a sweep")
    [line] = calls(room, PURGE, port)
    room.true(line.startswith("!7 curl: (7) Failed to connect"), line)


@case()
def a_sweep_says_that_there_is_no_curl(room: Room) -> None:
    room.plays(f"$ mkdir none; PATH=none /bin/sh {DEPLOY}/sweep --port 8080 --at-most 9 -> !1 sweep: no curl")


@case("curl")
def a_sweep_takes_no_other_list_for_that_of_the_days(room: Room) -> None:
    with socket.create_server(("127.0.0.1", 0)) as listener:
        def answer() -> None:
            client, _ = listener.accept()
            with client:
                client.recv(8192)
                client.sendall(b"HTTP/1.1 200 OK\r\nContent-Length: 6\r\n\r\nhello\n")

        thread = threading.Thread(target=answer)
        thread.start()
        room.equal(["!1 sweep: /due: 200 hello"], calls(room, SWEEP, listener.getsockname()[1]), "another service")
        thread.join()


@case("curl")
def a_purge_drops_what_is_past_its_year(room: Room) -> None:
    room.vault("d")
    room.put("d", part_name(), "hello", TEN)
    with room.serve("d", 2, "2027-08-03T00:20:00Z") as server:
        for line in ("dropped 1", "dropped 0"):
            room.equal([line], calls(room, PURGE, server.port), "a purge")


transcripts(__name__, "== a sweep names the word that is wrong" + "".join(f"""
$ {DEPLOY}/sweep {words} -> !2 sweep: {what}: see sweep --help""" for words, what in {
    "": "no --port", "--port 8080": "no --at-most", "--at-most 9": "no --port", "--port": "--port takes a number",
    "--port 80a": "--port takes a number", "--port 8080 --at-most ''": "--at-most takes a number",
    "--now 9": "unknown word --now"}.items()))


# ---- the installation

# Each file that is installed, its mode, and where it is in the repository.
FILES = {
    "usr/local/bin/escrow": ("755", ""),
    **{f"usr/local/lib/escrow/{it}": ("755", f"deploy/{it}") for it in ("backup", "check-health", "check-start", "sweep")},
    "usr/local/share/man/man1/escrow.1": ("644", "docs/escrow.1"),
    "usr/share/bash-completion/completions/escrow": ("644", "docs/escrow.bash"),
    "usr/local/share/escrow/damage.sql": ("644", "docs/damage.sql"),
    "usr/local/share/escrow/nginx.conf": ("644", "deploy/nginx.conf"),
    **{f"usr/local/share/escrow/desk/{it.name}": ("644", f"deploy/desk/{it.name}") for it in (DEPLOY / "desk").iterdir()},
    "etc/sysusers.d/escrow.conf": ("644", "deploy/escrow.sysusers"),
    **{f"etc/systemd/system/{it.name}": ("644", f"deploy/{it.name}") for it in UNITS}}
FOLDERS = {"etc/escrow": "750", "var/lib/escrow": "755", "var/lib/escrow-audit": "755"}


@case()
def each_file_is_installed_in_its_place(room: Room) -> None:
    """A second time as the first, where the folders are kept as they are."""
    for folders in (FOLDERS, {}):
        done = room.run(f"umask 077; {DEPLOY}/install --program {room.program} --root root").lines()
        room.equal(sorted(f"root/{it}" for it in (*FILES, *folders)), sorted(done), "what is printed")
        for name, (mode, source) in FILES.items():
            room.plays(f"$ stat -c %a root/{name}; cmp root/{name} {TOP / source if source else room.program} -> {mode}")
        for name, mode in FOLDERS.items():
            room.plays(f"$ stat -c %a root/{name} -> {mode}")
        room.plays(f"$ find root -type f | wc -l -> {len(FILES)}")


@case()
def an_update_keeps_what_the_operator_wrote(room: Room) -> None:
    for name in ("etc/escrow/archive.env", "etc/nginx/conf.d/escrow.conf", "var/lib/escrow/archive/vault.vol",
                 "etc/systemd/system/escrow@.service.d/override.conf"):
        room.file(f"root/{name}", name)
    room.plays(f"""
        $ chmod 700 root/etc/escrow; find root -type f -exec sha256sum {{}} + > digests
        $ {DEPLOY}/install --program {room.program} --root root > printed
        $ sha256sum --quiet -c digests; stat -c %a root/etc/escrow -> 700""")


@case(NOBODY.split(" ")[0])
def nothing_is_installed_without_a_program_or_a_right(room: Room) -> None:
    room.plays(f"""
        $ mkdir deploy root; cp {DEPLOY}/install deploy
        $ deploy/install --root root
        !1 install: no program at {room.folder}/crates/escrow/out/escrow: run ./demo --proved
        $ deploy/install --root root --program deploy -> !1 install: no program at deploy: run ./demo --proved
        $ deploy/install --root -> !2 install: --root takes a path: see install --help
        $ deploy/install --prefix /usr -> !2 install: unknown word --prefix: see install --help
        $ cp /bin/true program; {NOBODY} deploy/install --program program -> !1 install: run it as root, or with --root
        $ ls root""")


@case()
def an_installation_that_fails_leaves_what_was_there(room: Room) -> None:
    room.file("root/usr/local/bin/escrow", "#!/bin/sh\n").chmod(0o755)
    room.plays(f"""
        $ ulimit -f 100; trap '' XFSZ; {DEPLOY}/install --program {room.program} --root root 2> said -> !1
        $ find root -type f -> root/usr/local/bin/escrow
        $ root/usr/local/bin/escrow""")


@case()
def an_installation_says_what_is_missing(room: Room) -> None:
    room.plays(f"""
        $ mkdir tools; for it in dirname install mv realpath rm; do ln -s $(command -v $it) tools; done
        $ PATH=$PWD/tools /bin/sh {DEPLOY}/install --program {room.program} --root root > written
        !0 install: no curl, which the units and scripts need
        ! install: no flock, which the units and scripts need""")


@each(((f"{it} has help", it) for it in ("check-start", "install", "sweep")))
def a_script_has_help(room: Room, script: str) -> None:
    done = room.run(f"{DEPLOY}/{script} --help")
    room.equal((0, b""), (done.status, done.err), script)
    for line in (rf"^  (deploy/)?{script} .*--", r"\bneeds \w+"):
        room.true(re.search(line, done.out.decode(), re.MULTILINE), f"the help of {script} has no {line}")


# ---- on a machine of their own

VAULTS, URL = "/var/lib/escrow", "http://127.0.0.1:8080"
# The program of ./demo would look for leaks when it ends, which a service may not.
UNPROVED = "ASAN_OPTIONS=detect_leaks=0"
# The day two days ago, and the day behind it.
FIRST, SECOND = (str(datetime.datetime.now(datetime.timezone.utc).date() - datetime.timedelta(it)) for it in (2, 1))
REGISTERED = f"registered example {FIRST}"
REGISTER = f"""curl -sX PUT -d '{{"first":"{FIRST}"}}' {URL}/registries/example"""
# What a sweep has printed into the journal, with `?` for each moment.
SWEPT = "journalctl -qo cat -t sweep | sed 's/20[0-9T:-]*Z/?/'"
ABSENCES = [absence(number, day, "?") for number, day in ((1, FIRST), (2, SECOND))]


def vault(on: Machine, name: str, port: int) -> None:
    """Makes a vault as the user `escrow`, and says on which port it is served."""
    escrow = "umask 077; setpriv --reuid=escrow --regid=escrow --init-groups escrow"
    on.plays(f"""
        $ install -d -o escrow -g escrow -m 700 {VAULTS}/{name}
        $ printf '%s\\n' PORT={port} {UNPROVED} > /etc/escrow/{name}.env
        $ {escrow} init {VAULTS}/{name} --blocks 8 --number 0000000000000001 -> ready 8 0000000000000001""")


@contextlib.contextmanager
def serving(room: Room) -> Iterator[Machine]:
    """A machine on which escrow is installed, and serves a vault `archive` with one registry."""
    with machine(room) as on:
        on.plays(f"$ {DEPLOY}/install --program {room.program} > written 2> said")
        vault(on, "archive", 8080)
        on.plays(f"$ systemctl start escrow@archive; {REGISTER} -> {REGISTERED}")
        yield on


@case(f"{TOOLS} curl")
def a_vault_is_served_by_the_user_escrow(room: Room) -> None:
    with serving(room) as on:
        on.plays(f"""
            $ stat -c %U /proc/$(systemctl show -P MainPID escrow@archive) -> escrow
            $ stat -c '%a %U %n' {VAULTS}/archive {VAULTS}/archive/*
            700 escrow {VAULTS}/archive
            600 escrow {VAULTS}/archive/custody.db
            600 escrow {VAULTS}/archive/custody.db-wal
            600 escrow {VAULTS}/archive/vault.vol
            $ curl -s {URL}/due -> due example {FIRST}
            due example {SECOND}
            $ systemctl stop escrow@archive
            $ escrow report {VAULTS}/archive example""")


@case(f"{TOOLS} curl")
def a_service_reaches_no_other_vault(room: Room) -> None:
    with serving(room) as on:
        vault(on, "other", 8081)
        inside = "nsenter --mount --target $(systemctl show -P MainPID escrow@archive)"
        on.plays(f"""
            $ systemctl start escrow@other
            $ curl -s {URL.replace("8080", "8081")}/notices/example -> Q2 registry unknown
            $ {inside} ls {VAULTS} -> archive
            $ {inside} touch {VAULTS}/other -> !1 touch: cannot touch '{VAULTS}/other': Read-only file system
            $ {inside} touch /etc/x -> !1 touch: cannot touch '/etc/x': Read-only file system
            $ {inside} touch {VAULTS}/archive/x; ls {VAULTS}/archive/x -> {VAULTS}/archive/x""")


@case(f"{TOOLS} curl ip")
def a_unit_reaches_127_0_0_1_alone(room: Room) -> None:
    """Not another address of the machine, which it reaches as soon as no line forbids it."""
    folder = "/etc/systemd/system/escrow-purge@archive.service.d"
    get = "curl -s -m 3 -o /dev/null http://10.9.9.9:9000/"
    with machine(room) as on:
        on.plays(f"""
            $ {DEPLOY}/install --program {room.program} > written 2> said; echo PORT=9000 > /etc/escrow/archive.env
            $ ip address add 10.9.9.9/32 dev lo; mkdir {folder}
            $ {sys.executable} -m http.server --bind 10.9.9.9 9000 < /dev/null > served 2>&1 &
            $ printf '%s\\n' '[Service]' ExecStartPre= ExecStart= 'ExecStart=/usr/bin/{get}' > {folder}/get.conf""")
        on.comes(f"{get}; echo $?", "0")
        on.plays(f"""
            $ systemctl daemon-reload; systemctl start escrow-purge@archive 2> said -> !1
            $ systemctl show -P ExecMainStatus escrow-purge@archive -> 28
            $ echo IPAddressDeny= >> {folder}/get.conf; systemctl daemon-reload
            $ systemctl start escrow-purge@archive""")


@case(f"{TOOLS} curl")
def a_service_that_is_killed_is_back(room: Room) -> None:
    with serving(room) as on:
        on.plays("$ systemctl kill -s KILL escrow@archive")
        on.comes(f"{REGISTER} -w '%{{http_code}}\\n'", REGISTERED, "200")
        on.plays("$ systemctl show -P NRestarts escrow@archive -> 1")


@case(f"{TOOLS} curl", seconds=20)
def a_service_outlives_a_full_disk(room: Room) -> None:
    with serving(room) as on:
        small, port = f"{VAULTS}/small", URL.replace("8080", "8081")
        put = f"curl -sT {room.folder.parent}/full {port}/deposits/{part_name(FIRST)}"
        on.plays(f"$ mkdir {small}; mount -t tmpfs -o size=1M tmpfs {small}")
        vault(on, "small", 8081)
        on.plays(f"""
            $ systemctl start escrow@small; {REGISTER.replace(URL, port)} -> {REGISTERED}
            $ cat /dev/zero > {small}/filler 2> said; {put} -> C2 volume failed""")
        # Started anew on the full disk, it fails at once or at the first part.
        on.comes(f"{put} | sed 's/C2 volume/C3 store/'", "C3 store failed")
        on.plays(f"$ rm {small}/filler")
        on.comes(f"{put} | cut -d ' ' -f -3", f"received {part_name(FIRST)} 1422")
        on.plays("""
            $ test $(systemctl show -P NRestarts escrow@small) -ge 2
            $ systemctl show -P StartLimitIntervalUSec escrow@small -> 0""")


@case(f"{TOOLS} curl")
def the_units_sweep_and_purge_and_say_so_in_the_journal(room: Room) -> None:
    with serving(room) as on:
        on.plays("""
            $ echo AT_MOST=1 >> /etc/escrow/archive.env; systemctl start escrow-sweep@archive 2> said -> !1
            $ systemctl is-failed escrow-sweep@archive -> failed""")
        on.comes(SWEPT, "sweep: 2 days are due, more than 1: no absence is recorded")
        on.plays("""
            $ sed -i s/AT_MOST=1/AT_MOST=2/ /etc/escrow/archive.env
            $ systemctl start escrow-sweep@archive escrow-purge@archive""")
        on.comes(f"{SWEPT} | tail -n 2", *ABSENCES)
        on.comes("journalctl -qo cat -t curl", "dropped 0")


@case(f"{TOOLS} curl", seconds=15)
def a_sweep_waits_for_a_service_that_was_stopped(room: Room) -> None:
    with serving(room) as on:
        on.plays("""
            $ systemctl stop escrow@archive; systemctl start --no-block escrow-sweep@archive; sleep 1
            $ systemctl is-active escrow-sweep@archive -> activating
            !3
            $ systemctl start escrow@archive""")
        on.comes(SWEPT, *ABSENCES)


@case(f"{TOOLS} curl")
def the_units_ask_no_proxy_of_systemd_s_environment(room: Room) -> None:
    with serving(room) as on:
        on.plays("""
            $ systemctl set-environment http_proxy=http://127.0.0.1:1
            $ timeout 60 systemctl restart escrow@archive
            $ timeout 60 systemctl start escrow-sweep@archive
            $ timeout 60 systemctl start escrow-purge@archive""")
        on.comes(SWEPT, *ABSENCES)
        on.comes("journalctl -qo cat -t curl", "dropped 0")


@case(f"{TOOLS} curl")
def a_service_that_does_not_start_says_why(room: Room) -> None:
    with serving(room) as on:
        on.plays("""
            $ systemctl stop escrow@archive; truncate -s 8192 /var/lib/escrow/archive/vault.vol
            $ systemctl start escrow@archive 2> said -> !1
            $ systemctl stop escrow@archive
            $ journalctl -qo cat -t escrow | tail -n 1 -> C5 damaged H2
            $ journalctl -qo cat -t check-start | uniq -> check-start: the service has ended""")


@case(f"{TOOLS} curl")
def a_timer_makes_up_for_the_day_that_it_missed(room: Room) -> None:
    with serving(room) as on:
        on.plays("""
            $ systemctl enable --now escrow-sweep@archive.timer escrow-purge@archive.timer 2> said
            $ TZ=UTC systemctl list-timers | awk '/escrow/ { print $3, $4, $(NF - 1), $NF }' | sort
            00:05:00 UTC escrow-sweep@archive.timer escrow-sweep@archive.service
            00:20:00 UTC escrow-purge@archive.timer escrow-purge@archive.service
            $ journalctl -qt sweep
            $ systemctl stop escrow-sweep@archive.timer
            $ touch -d '2 days ago' /var/lib/systemd/timers/stamp-escrow-sweep@archive.timer
            $ systemctl start escrow-sweep@archive.timer""")
        on.comes(SWEPT, *ABSENCES)


@case(f"{TOOLS} curl")
def an_update_is_installed_under_a_running_service(room: Room) -> None:
    with serving(room) as on:
        on.plays(f"""
            $ systemctl show -P MainPID escrow@archive > before; sha256sum /etc/escrow/* > digests
            $ {DEPLOY}/install --program {room.program} > written; sha256sum --quiet -c digests
            $ systemctl show -P MainPID escrow@archive | cmp - before
            $ systemctl restart 'escrow@*'; {REGISTER} -> {REGISTERED}
            $ systemctl show -P MainPID escrow@archive | cmp -s - before -> !1""")


@case(TOOLS)
def the_user_is_the_same_without_systemd_sysusers(room: Room) -> None:
    with machine(room) as on:
        for line in ("", "rm $(command -v systemd-sysusers); userdel escrow"):
            on.plays(f"""
                $ {line}{line and '; '}{DEPLOY}/install --program {room.program} > written 2> said
                $ getent passwd escrow | cut -d : -f 1,6,7 -> escrow:/var/lib/escrow:/usr/sbin/nologin
                $ id -gn escrow -> escrow
                $ {DEPLOY}/install --program {room.program} > written""")
