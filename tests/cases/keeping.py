"""How long bytes are kept: for a year, and while a day is on hold. Blocks that are given back are used again."""
from lib import PART, TEN, part_name, state, stated, transcripts

LEAP_DAY, NOON, YEAR_AFTER = "2028-02-29", "2028-02-29T12:00:00Z", "2029-03-01T00:00:00Z"
HELD, LIFTED, LEAP = f"H-1 example {LEAP_DAY} 2029-02-01T00:00:00Z", "2029-03-02T00:00:00Z", part_name(LEAP_DAY)
# Makes a vault with a part of the leap day.
VAULT = f"""$ vault d
$ echo -n hello > {LEAP}; escrow put d {LEAP} --now {NOON} -> received {LEAP} 5 {NOON}"""
ON_HOLD = f"""{VAULT}
$ escrow lift d H-1 -> !1 Q21 hold unknown
$ escrow hold d H-1 example --date {LEAP_DAY} --now 2029-02-01T00:00:00Z -> held {HELD}"""
# The moment at which the year of PART is over, and two parts of that day; a part whose year is not over then.
OVER, NEW, NEXT = "2027-08-03T00:00:00Z", part_name("2027-08-03", "diff"), part_name("2027-08-03", "diff", 2)
KEPT, DAY_AFTER = part_name("2026-08-03", "diff"), "2026-08-03T10:00:00Z"
LINES = (f"part {PART} 12288 dropped {TEN}", f"part {KEPT} 8192 held {DAY_AFTER}")
# Makes a vault with a part of three blocks, which are given back, and one of two blocks.
DROPPED = f"""$ vault d
$ head -c 12288 /dev/urandom > {PART}; escrow put d {PART} --now {TEN} -> received {PART} 12288 {TEN}
$ head -c 8192 /dev/urandom > {KEPT}; escrow put d {KEPT} --now {DAY_AFTER} -> received {KEPT} 8192 {DAY_AFTER}
$ escrow state d -> {state(2, *LINES).replace("dropped", "held")}
$ escrow purge d --now {OVER} -> dropped 1"""

transcripts(__name__, f"""
== bytes are dropped when their year is over
{VAULT}
$ escrow purge d --now 2029-02-28T23:59:59Z -> dropped 0
$ escrow purge d --now {YEAR_AFTER} -> dropped 1
$ escrow put d {LEAP} --now {YEAR_AFTER} -> !1 Q6 dropped after keeping
$ escrow verify d {stated(LEAP_DAY, at=YEAR_AFTER)} -> !1 Q6 dropped after keeping
$ escrow purge d --now {YEAR_AFTER} -> dropped 0
$ escrow purge d -> dropped 0
$ escrow state d -> {state(7, f"part {LEAP} 5 dropped {NOON}")}
== a dropped block is used again
{DROPPED}
$ cp -r d stopped
$ head -c 20481 /dev/urandom > {NEW}; escrow put d {NEW} --now {OVER} -> !1 Q11 volume full
$ head -c 20480 /dev/urandom > {NEW}; escrow put d {NEW} --now {OVER} -> received {NEW} 20480 {OVER}
$ escrow state d -> {state(0, *LINES, f"part {NEW} 20480 held {OVER}")}
# A stop within that put leaves any bytes in the blocks, and the put is done again.
$ dd if=/dev/urandom of=stopped/vault.vol bs=4096 seek=1 count=3 conv=notrunc status=none
$ escrow state stopped -> {state(5, *LINES)}
$ escrow put stopped {NEW} --now {OVER} -> received {NEW} 20480 {OVER}
$ cmp d/vault.vol stopped/vault.vol
== a day on hold is kept until the hold is lifted
{ON_HOLD}
$ escrow purge d --now {YEAR_AFTER} -> dropped 0
$ escrow state d -> {state(6, f"part {LEAP} 5 held {NOON}", f"hold {HELD}")}
$ escrow lift d H-1 --now {LIFTED} -> lifted H-1 {LIFTED}
$ escrow lift d H-1 -> lifted H-1 {LIFTED}
$ escrow hold d H-1 example --date {LEAP_DAY} -> held {HELD}
$ escrow purge d --now {LIFTED} -> dropped 1
$ escrow state d -> {state(7, f"part {LEAP} 5 dropped {NOON}", f"hold {HELD} lifted {LIFTED}")}
== a hold is recorded once
{ON_HOLD}
$ escrow hold d H-1 example --date {LEAP_DAY} --now {YEAR_AFTER} -> held {HELD}
$ escrow hold d H-1 example --date 2028-02-28 --now {YEAR_AFTER} -> !1 Q20 hold reference used
$ escrow hold d H-2 example --date 2026-08-01 --now {YEAR_AFTER} -> !1 Q3 date out of range
$ escrow hold d H-2 other --date {LEAP_DAY} --now {YEAR_AFTER} -> !1 Q2 registry unknown
$ escrow hold d H_2 example --date 2029-02-29 -> !2 bad value for DATE
$ escrow hold d H_2 example --date {LEAP_DAY} -> !2 bad value for REF
$ escrow lift d H_2 --now x -> !2 bad value for REF
$ escrow lift d H-9 -> !1 Q21 hold unknown
$ escrow state d -> {state(6, f"part {LEAP} 5 held {NOON}", f"hold {HELD}")}""")

ROW = "'example',21243,0,1,'full',1835438400,21608,5,X'2cf24dba5fb0a30e26e83b2ac5b9e29e1b161e5c1fa7425e73043362938b9824'"
transcripts(__name__, f"""
== a part lies before and behind another one
{DROPPED}
$ head -c 16384 /dev/urandom > {NEW}; escrow put d {NEW} --now {OVER} -> received {NEW} 16384 {OVER}
$ sqlite3 d/custody.db 'SELECT hex(extents) FROM part WHERE len = 16384' -> 00000001000000030000000600000001
$ head -c 8192 /dev/urandom > {NEXT}; escrow put d {NEXT} --now {OVER} -> !1 Q11 volume full
$ head -c 4096 /dev/urandom > {NEXT}; escrow put d {NEXT} --now {OVER} -> received {NEXT} 4096 {OVER}
$ escrow state d -> {state(0, *LINES, f"part {NEW} 16384 held {OVER}", f"part {NEXT} 4096 held {OVER}")}
$ escrow audit d -> sound 3
== rows show what is dropped and on hold
{ON_HOLD}
$ sqlite3 -quote d/custody.db 'SELECT * FROM part' -> {ROW},X'0000000100000001'
$ sqlite3 -quote d/custody.db 'SELECT * FROM hold' -> 'H-1','example',21243,1864598400,NULL
$ escrow lift d H-1 --now {LIFTED} -> lifted H-1 {LIFTED}
$ escrow purge d --now {LIFTED} -> dropped 1
$ sqlite3 -quote d/custody.db 'SELECT * FROM part' -> {ROW},NULL
$ sqlite3 -quote d/custody.db 'SELECT * FROM hold' -> 'H-1','example',21243,1864598400,1867104000""", needs="sqlite3")
