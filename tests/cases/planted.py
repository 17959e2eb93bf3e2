"""A fault that is planted in the program is reported by the one case that shows the promise."""
import re

from lib import TOP, Room, each


@each((
    ("a wrong status", "keeping.a_hold_is_recorded_once",
     '"$program" "$@"; status=$?; [ "$1 $status" != "hold 1" ] || exit 2; exit $status'),
    ("a line too many", "deposits.the_days_that_a_sweep_would_record_are_listed_with_the_parts_that_wait",
     '"$program" "$@"; status=$?; [ "$1" != due ] || echo one more; exit $status'),
    ("a part without its last byte", "releases.a_part_of_a_release_is_fetched_as_it_was_sent",
     '[ "$1" = fetch -a -f /dev/stdout ] || exec "$program" "$@"; "$program" "$@" | head -c -1; exit ${PIPESTATUS[0]}'),
))
def planted(room: Room, wanted: str, script: str) -> None:
    program = room.file("planted", f"#!/bin/bash\nprogram={room.program}\n{script}\n")
    program.chmod(0o755)
    done = room.run(f"{TOP}/tests/run {wanted.split('.')[0]} --program ./planted")
    room.equal([wanted], re.findall(r"^FAILED: tests/run (\S+)$", done.out.decode(), re.M), "the cases that fail")
    room.equal(1, done.status, "the status")
