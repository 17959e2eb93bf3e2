"""A vault in a folder that may not be written, as that of a snapshot: it is read, and nothing in it is changed."""
import random
import threading

from files import NOBODY
from lib import (
    DAY, EXPLAINED, FIVE, PART, RECEIPT, TEN, Room, Skip, case, explained, notice, part_name, request, state, stated,
    transcripts)
from older import STATE as OLDER_STATE, older_vault

SECOND = part_name("2026-08-03")
KEPT = state(5, f"part {PART} 1422 held {TEN}", f"part {SECOND} 5 held 2026-08-03T10:00:00Z", RECEIPT,
             "release R-1 example operator 2026-08-04T10:00:00Z 2")
# A vault with a receipt, a part that waits and a release; it has an empty log.
VAULT = f"""$ vault d
$ cp ../full {PART}; escrow put d {PART} --now {TEN} -> received {PART} 1422 {TEN}
$ escrow verify d {stated()} -> {RECEIPT}
$ echo -n hello > {SECOND}; escrow put d {SECOND} --now 2026-08-03T10:00:00Z -> received {SECOND} 5 2026-08-03T10:00:00Z
$ escrow release d R-1 example operator --now 2026-08-04T10:00:00Z -> released R-1 example operator 2026-08-04T10:00:00Z 2
{PART}
{SECOND}
$ sha256sum d/* > digests; stat -c '%n %s %y' d d/* > times"""
# The words that only read, each with what it prints.
READING = (
    ("state d", KEPT),
    ("report d example", RECEIPT),
    ("due d --now 2026-08-04T10:00:00Z", "due example 2026-08-03\nparts example 2026-08-03 0 1"),
    ("audit d", "sound 2"),
    (f"fetch d R-1 {SECOND} | sha256sum", "2cf24dba5fb0a30e26e83b2ac5b9e29e1b161e5c1fa7425e73043362938b9824  -"),
    (f"preview d {stated('2026-08-03', at='2026-08-04T10:00:00Z')}",
     "       0 FAILURE-01 2026-08-03 R00 20260803001   2026-08-04T10:00:00Z example"),
    (f"explain d {explained()}", "!1 Q22 no failure"),
    ("report d other", "!1 Q2 registry unknown"))
# Those that record something, or serve.
RECORDING = (f"register d other --first {DAY}", f"put d {PART}", "sweep d", "purge d", f"hold d H-1 example --date {DAY}",
             "lift d H-1", "release d R-2 example operator", f"verify d {stated()}", "serve d --port 20001 --requests 1")


def reads(room: Room, before: str, why: str) -> None:
    """Checks calls where the folder `d` may not be written; `before` is put before each. Nothing in it changes."""
    for words, printed in READING:
        room.equal(printed.splitlines(), room.run(f"{before} escrow {words}").lines(), words)
    for words in RECORDING:
        room.equal([f"!3 file failed: d/vault.vol: {why}"], room.run(f"{before} escrow {words}").lines(), words)
    room.plays(f"""
        $ {before} escrow init d --blocks 8 --number 0000000000000001
        !3 file failed: d/custody.db: unable to open database file
        $ sha256sum -c --quiet digests; stat -c '%n %s %y' d d/* | diff times -""")


@case(NOBODY.split(" ")[0])
def a_folder_whose_files_may_only_be_read(room: Room) -> None:
    room.plays(f"{VAULT}\n$ chmod 444 d/*; chmod 555 d; stat -c '%n %s %y' d d/* > times")
    reads(room, NOBODY, "Permission denied (os error 13)")


@case("unshare")
def a_folder_that_is_mounted_to_be_read(room: Room) -> None:
    room.file("read-only", "#!/bin/sh\nmount --bind d d && mount -o remount,bind,ro d && exec \"$@\"\n").chmod(0o755)
    if room.run("mkdir -p d && unshare -m ./read-only true && rmdir d").status:
        raise Skip("nothing can be mounted")
    room.plays(VAULT)
    reads(room, "unshare -m ./read-only", "Read-only file system (os error 30)")


@case(f"curl {NOBODY.split(' ')[0]}")
def the_log_of_a_killed_service_is_read(room: Room) -> None:
    room.vault("d")
    room.file(SECOND, "hello")
    with room.serve("d", 9, errors=".*", status=-9) as server:
        room.curl(server, "PUT", f"/deposits/{PART}", room.file("part", "hello"))
        server.process.kill()
    kept = state(6, f"part {PART} 5 held {TEN}")
    room.true((room.folder / "d/custody.db-wal").stat().st_size > 4096, "the log has records")
    room.plays(f"""
        $ chmod 444 d/*; chmod 555 d; sha256sum d/* > digests
        $ {NOBODY} escrow state d -> {kept}
        $ {NOBODY} escrow audit d -> sound 1
        $ sha256sum -c --quiet digests
        $ chmod 755 d; cp -r d without; rm -f without/custody.db-wal; chmod 555 without
        $ {NOBODY} escrow state without -> {state(7)}""")


@case(NOBODY.split(" ")[0], seconds=5)
def a_log_that_ends_anywhere_is_read_as_in_a_copy_that_may_be_written(room: Room) -> None:
    """A service is killed while it makes records, and its log is cut besides: in a commit, a frame or the head."""
    room.vault("d")
    with room.serve("d", 99, errors=".*", status=-9) as server:
        for number in range(random.randrange(8, 24)):
            server.ask(request(f"PUT /registries/r{number:02}", f'{{"first":"{DAY}"}}'))
        threading.Timer(random.uniform(0, 0.01), server.process.kill).start()
        server.ask(request(f"PUT /deposits/{PART}", "hello"))
        server.process.wait(10)
    size, found = (room.folder / "d/custody.db-wal").stat().st_size, set()
    for end in (size, *(random.randrange(size) for _ in range(24))):
        room.plays(f"""
            $ rm -rf written read; mkdir written read; cp -r d written; truncate -s {end} written/d/custody.db-wal
            $ cp -r written/d read; chmod 444 read/d/*; sha256sum read/d/* > digests""")
        read = room.run(f"cd read; {NOBODY} escrow state d && {NOBODY} escrow audit d")
        room.equal(room.run("cd written; escrow state d && escrow audit d"), read, f"the log ends at {end} of {size}")
        room.plays("$ sha256sum -c --quiet digests")
        found.add(read.out)
    room.true(len(found) > 2, f"of a log of {size} bytes, cut anywhere, {len(found)} states are read")


@case(NOBODY.split(" ")[0])
def a_vault_of_schema_1_is_read_and_stays_so(room: Room) -> None:
    older_vault(room)
    room.plays(f"""
        $ rm -f d/custody.db-*; chmod 444 d/*; chmod 555 d; sha256sum d/* > digests
        $ {NOBODY} escrow state d -> {OLDER_STATE}
        $ {NOBODY} escrow audit d -> sound 2
        $ sha256sum -c --quiet digests; ls d -> custody.db
        vault.vol""")


transcripts(__name__, f"""
== a failure is explained as elsewhere
$ vault d
$ echo -n hello > {PART}; escrow put d {PART} --now {TEN} -> received {PART} 5 {TEN}
$ escrow verify d {stated()} -> {notice(1, "FAILURE-01", DAY, FIVE, "20260802001")}
$ sha256sum d/* > digests; stat -c '%n %s %y' d/* > times; chmod 444 d/*
$ {NOBODY} escrow explain d {explained()} -> {EXPLAINED}
$ sha256sum -c --quiet digests; stat -c '%n %s %y' d/* | diff times -
== damage is found as elsewhere
{VAULT}
$ sed -i s/hello/hellx/ d/vault.vol; chmod 444 d/*
$ {NOBODY} escrow audit d
damaged {SECOND}
!1
$ chmod 644 d/*; truncate -s 16384 d/vault.vol; chmod 444 d/*
$ {NOBODY} escrow state d -> !3 C5 damaged H2
$ chmod 644 d/*; : > d/custody.db; : > d/custody.db-wal; chmod 444 d/*
$ {NOBODY} escrow state d -> !3 C5 damaged H0
$ chmod 644 d/*; head -c 8192 /dev/urandom > d/custody.db; chmod 444 d/*
$ {NOBODY} escrow state d -> !3 C3 store failed
== one file that may not be written is enough
{VAULT}
$ chmod 777 d; chmod 666 d/*; chmod 444 d/custody.db; {NOBODY} escrow audit d -> sound 2
$ chmod 666 d/*; chmod 444 d/custody.db-wal; {NOBODY} escrow audit d -> sound 2
$ chmod 666 d/*; chmod 444 d/vault.vol; {NOBODY} escrow audit d -> sound 2
$ sha256sum -c --quiet digests
== a file that may not be read, or is missing, is named
{VAULT}
$ chmod 444 d/*; chmod 000 d/vault.vol; {NOBODY} escrow state d -> !3 file failed: d/vault.vol: Permission denied (os error 13)
$ chmod 444 d/*; chmod 000 d/custody.db; {NOBODY} escrow state d
!3 file failed: d/custody.db: Permission denied (os error 13)
$ chmod 444 d/*; chmod 000 d/custody.db-wal; {NOBODY} escrow state d
!3 file failed: d/custody.db-wal: Permission denied (os error 13)
$ chmod 444 d/*; mv d/custody.db db; {NOBODY} escrow state d -> !3 file failed: d/custody.db: file missing
$ mv db d/custody.db; rm -f d/custody.db-wal; {NOBODY} escrow audit d -> sound 2
== a database that only SQLite can mend is refused
{VAULT}
$ echo x > d/custody.db-journal; chmod 444 d/*; {NOBODY} escrow state d
!3 file failed: d/custody.db: unable to open database file
== files that are links, have two names or are pipes are refused
{VAULT}
$ chmod 444 d/*; ln d/custody.db other; {NOBODY} escrow state d -> !3 file failed: d/custody.db: unable to open database file
$ rm other; mv d/custody.db other; ln -s ../other d/custody.db; {NOBODY} escrow state d
!3 file failed: d/custody.db: unable to open database file
$ mv other d/custody.db; mv d/custody.db-wal log; mkfifo -m 444 d/custody.db-wal; {NOBODY} escrow state d
!3 file failed: d/custody.db-wal: unable to open database file
$ rm d/custody.db-wal; mv d/vault.vol volume; mkfifo -m 444 d/vault.vol; {NOBODY} timeout 60 escrow state d
!3 file failed: d/vault.vol: Permission denied (os error 13)
$ rm d/vault.vol; mv volume d/vault.vol; {NOBODY} escrow audit d -> sound 2
== the lock is taken
{VAULT}
$ chmod 444 d/*; flock d/vault.vol {NOBODY} escrow state d -> !3 file failed: d/vault.vol: file in use
$ flock -s d/vault.vol {NOBODY} escrow state d -> !3 file failed: d/vault.vol: file in use
$ {NOBODY} escrow audit d -> sound 2""", needs=f"flock {NOBODY.split(' ')[0]}")
