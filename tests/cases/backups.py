"""deploy/backup: copies of a vault that are whole and audited, what it refuses, the service that it stops, and restoring."""
import contextlib
import os
import re
import shlex
from collections.abc import Iterator

from lib import DAY, PART, TEN, TOP, Room, Skip, case, each, free_port, request, response, state

BACKUP, CHECK = f"{TOP}/deploy/backup --program escrow", TOP / "deploy/check-health"
HELLO, NO_COPY = f"part {PART} 5 held {TEN}", "backup: no copy is made"
# The owners, modes, times and bytes of a vault's files.
FILES = "stat -c '%n %U %G %a %s %y' {0} {0}/*; sha256sum {0}/*"


def copies(room: Room, words: str = "", status: int = 0, lines: list[str] = ["sound 1"], under: str = "") -> str:
    """Makes a backup of the vault `d` in the folder `to`, and gives its path. With status 0 the first line names it."""
    answer = room.run(f"mkdir -p to; {under} {BACKUP} {words} d to")
    [copy] = sorted(room.folder.glob("to/*"))[-1:] or [""]
    room.true(re.fullmatch(r"d-\d{8}T\d{6}Z", getattr(copy, "name", "")), f"the copy is {copy}: {answer}")
    first = [f"backup {copy}: {lines[0]}", *lines[1:]] if status == 0 else [f"!{status} backup: {copy} is damaged:", *lines]
    room.equal(first, answer.lines(), f"backup {words}")
    return f"to/{copy.name}"


def with_hello(room: Room) -> None:
    """Makes a vault `d` with one part."""
    room.vault("d")
    room.put("d", PART, "hello", TEN)


@case("flock")
def a_backup_can_be_put_back(room: Room) -> None:
    with_hello(room)
    before = room.run(FILES.format("d")).lines()
    copy = copies(room)
    room.equal(before, room.run(FILES.format("d")).lines(), "the vault, which nothing changes")
    room.plays(f"""
        $ stat -c '%a %n' to/* -> 700 {copy}
        $ mv d broken; cp -a {copy} d
        $ escrow state d -> {state(6, HELLO)}
        $ escrow audit d -> sound 1""")


@case("fallocate flock")
def a_copy_takes_no_room_for_blocks_that_are_empty(room: Room) -> None:
    room.vault("d", 300)
    room.plays("$ fallocate -l $(stat -c %s d/vault.vol) d/vault.vol; test $(du -k d/vault.vol | cut -f 1) -ge 1200")
    copy = copies(room, lines=["sound 0"])
    room.plays(f"$ cmp d/vault.vol {copy}/vault.vol; test $(du -k {copy}/vault.vol | cut -f 1) -lt 100")


@case("flock")
def a_copy_has_what_a_killed_service_acknowledged(room: Room) -> None:
    """The records are in the log alone: without it a copy opens, and lacks them."""
    others = [f"registry r{number} {DAY}" for number in range(3)]
    room.vault("d")
    with room.serve("d", 9, status=-9) as server:
        for line in others:
            body = f'{{"first":"{DAY}"}}'
            room.true(b" 201 " in server.ask(request(f"PUT /registries/{line.split()[1]}", body)), line)
        room.equal(response(201, f"received {PART} 5 {TEN}"), server.ask(request(f"PUT /deposits/{PART}", "hello")), "a part")
        server.process.kill()
    recorded = state(6, HELLO, *others)
    room.plays(f"""
        $ test $(stat -c %s d/custody.db-wal) -gt 4096
        $ cp -a d lacking; rm lacking/custody.db-wal
        $ escrow state lacking -> {state(7)}""")
    copy = copies(room)
    room.plays(f"""
        $ escrow state {copy} -> {recorded}
        $ escrow state d -> {recorded}""")


@case("flock")
def a_backup_and_a_command_keep_each_other_out(room: Room) -> None:
    """While a copy is made, a command finds the vault in use."""
    with_hello(room)
    in_use = f"!3 backup: {room.folder}/d is in use: --stop UNIT stops its service"
    room.file("fake/cp", "#!/bin/sh\nescrow state d 2> during\nexec /bin/cp \"$@\"\n").chmod(0o755)
    room.plays(f"""
        $ mkdir to; flock d/vault.vol {BACKUP} d to -> {in_use}
        $ ls -A to""")
    copies(room, under="PATH=$PWD/fake:$PATH")
    room.plays("$ cat during -> file failed: d/vault.vol: file in use")


# ---- a service that is stopped

def unit(room: Room, start: str = ":", stop: str = ":", is_active: str = "active") -> str:
    """A systemctl that does so and keeps its calls, and an audit that is kept as one: the words that put them on the path."""
    room.file("fake/systemctl", f"""#!/bin/sh
        echo "$*" >> calls
        case $1 in
            is-active) echo {is_active}; test {is_active} = active ;;
            start) {start} ;;
            stop) {stop} ;;
        esac""").chmod(0o755)
    room.file("fake/escrow", f'#!/bin/sh\necho "$1" >> calls\nexec {shlex.quote(str(room.program))} "$@"\n').chmod(0o755)
    return "PATH=$PWD/fake:$PATH"


def called(room: Room, *calls: str) -> None:
    """Checks the calls of systemctl and of the program."""
    wanted = [it.replace("UNIT", "-- escrow@d.service") for it in calls]
    room.equal(wanted, (room.folder / "calls").read_text().splitlines(), "the calls")


@case("curl flock")
def a_service_is_stopped_for_the_copy_and_runs_before_the_audit(room: Room) -> None:
    with_hello(room)
    port = free_port()
    again = f"""timeout 300 escrow serve d --port {port} --requests 1 > serves 2>&1 &
        until grep -qs listening serves; do sleep 0.1; done"""
    with room.serve("d", 9, status=-15) as server:
        under = unit(room, start=again, stop=f"kill {server.process.pid}")
        room.true(b" 201 " in server.ask(request("PUT /registries/other", f'{{"first":"{DAY}"}}')), "before the backup")
        copy = copies(room, "--stop escrow@d.service", under=under)
    called(room, "is-active UNIT", "stop UNIT", "start UNIT", "serve", "audit")
    recorded = state(6, HELLO, f"registry other {DAY}")
    room.plays(f"""
        $ curl -s http://127.0.0.1:{port}/state -> {recorded}
        $ escrow state {copy} -> {recorded}""")


@case("flock")
def a_service_that_did_not_run_is_not_started(room: Room) -> None:
    with_hello(room)
    copies(room, "--stop escrow@d.service", under=unit(room, is_active="inactive"))
    called(room, "is-active UNIT", "stop UNIT", "audit")


@case("flock")
def a_service_that_does_not_start_is_a_failure(room: Room) -> None:
    with_hello(room)
    answer = room.run(f"mkdir to; {unit(room, start='false')} {BACKUP} --stop escrow@d.service d to")
    room.equal((3, b"backup: escrow@d.service does not start\n"), (answer.status, answer.err), "the failure")
    room.true(re.fullmatch(rb"backup .*/to/d-\w+: sound 1\n", answer.out), f"the copy: {answer.out}")


def files_alone(room: Room) -> None:
    """Makes files as those of a vault, which nothing opens."""
    room.file("d/vault.vol", os.urandom(1_000_000))
    room.file("d/custody.db", "records")
    room.plays("$ mkdir to")


@case("flock")
def a_service_is_started_again_if_a_signal_ends_the_call(room: Room) -> None:
    """Both the backup and systemctl get the signal, as by Ctrl-C."""
    files_alone(room)
    start = "[ ! -e signalled ] || exit 0; touch signalled; kill -INT $PPID; exit 130"
    answer = room.run(f"{unit(room, start=start)} {BACKUP} --stop escrow@d.service d to")
    room.equal((3, b""), (answer.status, answer.err), "the end")
    called(room, "is-active UNIT", "stop UNIT", "start UNIT", "start UNIT")
    room.plays("$ ls -A to")


@case("flock")
def a_second_backup_at_once_is_refused_and_the_service_runs_again(room: Room) -> None:
    with_hello(room)
    under = unit(room)
    room.file("fake/cp", f"""#!/bin/sh
        [ -e during ] || {BACKUP} --stop escrow@d.service d to 2> during
        exec /bin/cp "$@\"""").chmod(0o755)
    copies(room, "--stop escrow@d.service", under=under)
    room.plays(f"$ cat during -> backup: another backup of {room.folder}/d runs")
    called(room, "is-active UNIT", "stop UNIT", "start UNIT", "audit")


@each((
    ("a service runs again when it could not be stopped", "stop", "", "backup: escrow@d.service does not stop"),
    ("a service runs again when the copy fails", "", "ulimit -f 100; trap '' XFSZ;", NO_COPY),
    ("a service runs again when the copy is killed", "", "", "")), "flock")
def the_service_runs_again(room: Room, failing: str, before: str, line: str) -> None:
    files_alone(room)
    under = unit(room, stop="false" if failing else ":")
    if not line:
        room.file("fake/cp", "#!/bin/sh\nexec sleep 60\n").chmod(0o755)
        under = f"{under} timeout 1"
    answer = room.run(f"{before} {under} {BACKUP} --stop escrow@d.service d to")
    room.equal((3 if line else 124, line), (answer.status, answer.err.decode().splitlines()[-1] if line else ""), "the end")
    called(room, "is-active UNIT", "stop UNIT", "start UNIT")
    room.plays("$ ls -A to")


# ---- audits

def checked(room: Room) -> list[str]:
    """What deploy/check-health says of a service of the vault and of the file `audit`, but for the data."""
    with room.serve("d", 2) as server:
        return [line.split("|")[0] for line in room.run(f"{CHECK} --port {server.port} --audit audit").lines()]


@case("curl flock")
def damage_is_critical_until_an_audit_is_sound(room: Room) -> None:
    well = "free 6 of 7 blocks; no day is due for more than an hour"
    with_hello(room)
    room.plays("$ sed -i s/hello/hellx/ d/vault.vol")
    copies(room, "--audit audit", 1, [f"! damaged {PART}"])
    room.plays(f"$ cat audit -> damaged {PART}\n$ stat -c %a audit -> 644")
    room.equal([f"ESCROW CRITICAL - the last audit found damaged {PART}; {well}", "!2"], checked(room), "with damage")
    room.plays("$ sed -i s/hellx/hello/ d/vault.vol; rm -r to")
    copies(room, "--audit audit")
    room.equal([f"ESCROW OK - {well}; the last audit found sound 1"], checked(room), "after the repair")
    room.plays("$ truncate -s 8192 d/vault.vol; rm -r to")
    copies(room, "--audit audit", 1, ["! C5 damaged H2"])
    room.plays("""
        $ cat audit -> C5 damaged H2
        $ ls -> audit
        d
        in
        to""")


@case("flock")
def an_audit_that_does_not_end_leaves_the_last_one(room: Room) -> None:
    files_alone(room)
    room.file("audit", "sound 9\n")
    room.file("no memory", "#!/bin/sh\necho 'C1 no memory' >&2\nexit 3\n").chmod(0o755)
    answer = room.run(f"{TOP}/deploy/backup --program './no memory' --audit audit d to")
    room.true(answer.status == 3 and answer.err.endswith(b" is not audited: C1 no memory\n") and not answer.out, f"{answer}")
    room.plays("$ cat audit -> sound 9\n$ ls to | wc -l -> 1")


@case("flock")
def damage_is_told_if_the_audit_cannot_be_kept(room: Room) -> None:
    with_hello(room)
    room.plays("$ sed -i s/hello/hellx/ d/vault.vol; mkdir audit")
    answer = room.run(f"mkdir to; {BACKUP} --audit audit d to")
    form = rf"backup: audit is not written\nbackup: .*/to/d-\w+ is damaged:\ndamaged {PART}\n"
    room.true(answer.status == 3 and re.search(form, answer.err.decode()), f"{answer}")
    room.plays("$ ls -A -> audit\nd\nin\nto")


# ---- refusals

@contextlib.contextmanager
def disk(room: Room, name: str, size: str) -> Iterator[None]:
    """A folder that is a disk of this size."""
    if room.run(f"mkdir {name} && mount -t tmpfs -o size={size} tmpfs {name}").status:
        raise Skip("no tmpfs can be mounted")
    try:
        yield
    finally:
        room.run(f"umount {name}")


@case("flock")
def nothing_is_left_on_a_disk_that_is_full(room: Room) -> None:
    files_alone(room)
    with disk(room, "small", "500k"):
        answer = room.run(f"{BACKUP} --audit audit d small")
        ends = answer.err.endswith(b"No space left on device\nbackup: no copy is made\n")
        room.true(answer.status == 3 and ends, f"{answer}")
        room.plays("$ ls -A small; ls -> d\nsmall\nto")


# What is done before, the words, the status and the line.
REFUSED = (
    ("no vault", "", "nothing to", 3, "nothing is no folder"),
    ("no folder", "", "d nowhere", 3, "nowhere is no folder"),
    ("no volume", "", "to to", 3, "FOLDER/to has no vault.vol"),
    ("no database", "rm d/custody.db", "d to", 3, "FOLDER/d has no custody.db"),
    ("a link", "mv d/vault.vol v; ln -s ../v d/vault.vol", "d to", 3, "FOLDER/d/vault.vol is a link: no copy is made"),
    ("a folder in the vault", "mkdir d/to", "d d/to", 3, "FOLDER/d/to is in the vault"),
    ("no program", "", "--program ./none d to", 3, "./none is no program"),
    ("no folder for the audit", "", "--audit no/audit d to", 3, "there is no folder for no/audit"),
    ("a word less", "", "d", 2, "it takes a vault and a folder: see backup --help"),
    ("a word more", "", "d to d", 2, "it takes a vault and a folder: see backup --help"),
    ("no unit", "", "--stop", 2, "--stop takes a value: see backup --help"),
    ("another option", "", "--start x d to", 2, "unknown word --start: see backup --help"))


@case("flock setpriv")
def nothing_is_stopped_if_the_copy_or_the_audit_could_not_be_written(room: Room) -> None:
    if os.geteuid():
        raise Skip("only root can become another user")
    files_alone(room)
    under = f"{unit(room)} setpriv --reuid=65534 --regid=65534 --clear-groups"
    room.plays("$ chown 65534 . d d/*; mkdir no; cp /bin/true program")
    for words, place in (("d no", f"{room.folder}/no"), ("--audit no/audit d to", "no")):
        room.plays("$ chown 65534 to")
        answer = room.run(f"{under} {TOP}/deploy/backup --program ./program --stop escrow@d.service {words}")
        room.equal([f"!3 backup: {place} cannot be written"], answer.lines(), words)
    room.plays("$ ls -A to; ls -A no; test ! -e calls")


@case()
def without_flock_no_vault_is_said_to_be_in_use(room: Room) -> None:
    files_alone(room)
    room.plays(f"$ PATH=none /bin/sh {TOP}/deploy/backup --program {room.program} d to -> !3 backup: no flock")


@each(((f"a backup with {title} is refused", *rest) for title, *rest in REFUSED), "flock")
def is_refused(room: Room, before: str, words: str, status: int, line: str) -> None:
    files_alone(room)
    answer = room.run(f"{before}\n{BACKUP} {words}")
    room.equal([f"!{status} backup: {line.replace('FOLDER', str(room.folder))}"], answer.lines(), words)
    room.plays("$ ls -A to")


@case("flock setpriv")
def a_copy_has_the_owner_of_the_vault(room: Room) -> None:
    """The vault has no log, so the audit makes one; then its own user makes a copy."""
    if os.geteuid():
        raise Skip("only root can change an owner")
    with_hello(room)
    room.plays("$ rm d/custody.db-wal; chmod 700 d; chmod 600 d/*; chown -R 65534:65534 d")
    own = "stat -c '%u %g %a'"
    copy = copies(room, "--audit audit")
    room.plays(f"""
        $ {own} {copy} {copy}/* -> 65534 65534 700
        65534 65534 600
        65534 65534 600
        65534 65534 600
        $ mv {copy} d2; mv d/* d2; mv d2/* d; rmdir d2; chown 65534 to""")
    by_user = "setpriv --reuid=65534 --regid=65534 --clear-groups"
    copy = copies(room, under=by_user)
    room.plays(f"$ {own} {copy} {copy}/custody.db -> 65534 65534 700\n65534 65534 600")
