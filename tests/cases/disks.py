"""Disks that are full, and files that may not grow."""
from lib import DAY, PART, TEN, Room, Skip, case, part_name, state, transcripts

SWEEP = "escrow sweep d --now 2026-08-05T00:00:00Z"

transcripts(__name__, f"""
== an init without room is done again
$ mkdir d
$ trap '' XFSZ; ulimit -f 8; escrow init d --blocks 8 --number 0000000000000001 -> !3 C3 store failed
$ trap '' XFSZ; ulimit -f 600; escrow init d --blocks 262144 --number 0000000000000001
!3 file failed: d/vault.vol: File too large (os error 27)
$ escrow init d --blocks 8 --number 0000000000000001 -> ready 8 0000000000000001
== a sweep that fails has recorded what it printed and goes on
$ vault d 8 2020-01-01
$ trap '' XFSZ; ulimit -f 400; {SWEEP} > first -> !3 C3 store failed
$ escrow report d example > recorded
$ test $(wc -l < first) -gt 10 -a $(wc -l < recorded) -le $(($(wc -l < first) + 1))
$ head -n $(wc -l < first) recorded | cmp - first
$ {SWEEP} > rest
$ escrow report d example > all
$ cat recorded rest | cmp - all
$ wc -l < all -> 2408
$ {SWEEP}""", seconds=10)

SECOND, THIRD, HELD = part_name(part=2), part_name(part=3), f"part {PART} 5 held {TEN}"
# A file takes what is left of the disk, so that the log of the database cannot grow. The third part is kept or refused.
FULL = f"""$ vault small/d 100; echo -n hello > {PART}; truncate -s 390000 {SECOND}; echo -n world > {THIRD}
$ escrow put small/d {PART} --now {TEN} -> received {PART} 5 {TEN}
$ escrow put small/d {SECOND} --now {TEN} -> !3 C2 volume failed
! file failed: small/d/vault.vol: No space left on device (os error 28)
$ escrow state small/d -> {state(98, HELD, blocks=100)}
$ mount -o remount,size=1200k small
$ escrow put small/d {SECOND} --now {TEN} -> received {SECOND} 390000 {TEN}
$ cat /dev/zero > small/filler 2> /dev/null; escrow put small/d {THIRD} --now {TEN} > answer 2>&1; echo $? >> answer
$ tr '\\n' ' ' < answer | grep -cxE 'received {THIRD} 5 {TEN} 0 |((C2 volume failed )?file failed: .*|C3 store failed) 3 ' -> 1
$ rm small/filler
$ escrow state small/d | sed -n 1,3p -> registry example {DAY}
{HELD}
part {SECOND} 390000 held {TEN}
$ escrow put small/d {THIRD} --now {TEN} -> received {THIRD} 5 {TEN}"""


@case()
def a_full_disk_takes_nothing_from_what_was_acknowledged(room: Room) -> None:
    if room.run("mkdir small && mount -t tmpfs -o size=400k tmpfs small").status:
        raise Skip("no tmpfs can be mounted")
    try:
        room.plays(FULL)
    finally:
        room.run("umount small")
