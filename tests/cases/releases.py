"""Releases: when one is recorded, on which ground, what it lists, and its parts when they are fetched."""
from lib import DAY, PART, RECEIPT, TEN, notice, part_name, state, stated, transcripts

# Parts beside PART, the moment at which the year of the first is over, and one at which all years are.
OLD, NEW, NEXT = part_name("2026-08-01"), part_name("2027-08-02", "diff"), part_name("2027-08-02", "diff", 2)
EARLY, OVER, LATER = "2026-08-01T01:00:00Z", "2027-08-02T00:00:00Z", "2029-01-01T00:00:00Z"
RELEASED = f"released R-1 example operator {OVER} 3\n{PART}\n{NEW}\n{NEXT}"
# Makes a vault with a part that is dropped and three that are held, and releases these.
RELEASE = f"""$ vault d 8 2026-08-01
$ echo -n old > {OLD}; escrow put d {OLD} --now {EARLY} -> received {OLD} 3 {EARLY}
$ cp ../full {PART}; escrow put d {PART} --now {TEN} -> received {PART} 1422 {TEN}
$ escrow verify d {stated()} -> {RECEIPT}
$ echo -n hello > {NEW}; escrow put d {NEW} --now {OVER} -> received {NEW} 5 {OVER}
$ echo -n second > {NEXT}; escrow put d {NEXT} --now {OVER} -> received {NEXT} 6 {OVER}
$ escrow purge d --now {OVER} -> dropped 1
$ escrow release d R-1 example operator --now {OVER} -> {RELEASED}"""
# A release on the ground of five failed days and one of a failed Sunday, and the notices of a week without deposits.
FIVE_FAILED, SUNDAY = "R-5 example five_failed 2026-09-08T00:00:00Z 0", "R-7 example sunday_failed 2026-08-09T01:00:00Z 0"
WEEK = "\n".join(notice(count, "ABSENCE", f"2026-08-0{count + 1}", "2026-08-09T00:00:00Z") for count in range(1, 8))
LATE, LATE_RECEIPT = "2026-08-09T10:00:00Z", notice(8, "RECEIPT", DAY, "2026-08-09T10:00:00Z", "20260802001")

transcripts(__name__, f"""
== a release is recorded once and lists what was held
{RELEASE}
$ escrow release d R-1 example order --now {OVER} -> !1 Q17 reference used
$ escrow release d R-2 example sunday_failed --now {OVER} -> !1 Q16 ground does not stand
$ escrow purge d --now {LATER} -> dropped 3
$ escrow release d R-1 example operator --now {LATER} -> {RELEASED}
$ escrow release d R-2 example audit --now {LATER} -> released R-2 example audit {LATER} 0
$ escrow state d -> {state(7, f"part {OLD} 3 dropped {EARLY}", f"part {PART} 1422 dropped {TEN}",
    f"part {NEW} 5 dropped {OVER}", f"part {NEXT} 6 dropped {OVER}", RECEIPT,
    f"release R-1 example operator {OVER} 3", f"release R-2 example audit {LATER} 0", first="2026-08-01")}
== a release needs a ground
$ vault d
$ escrow release d R_1 example operator -> !2 bad value for REF
$ escrow release d R-1 example because -> !2 bad value for GROUND
$ escrow release d R-1 other five_failed --now {OVER} -> !1 Q2 registry unknown
$ escrow release d R-1 example five_failed --now {OVER} -> !1 Q16 ground does not stand
$ escrow release d R-1 example sunday_failed --now {OVER} -> !1 Q16 ground does not stand
== failed days are a ground for a while
$ vault d
$ escrow sweep d --now 2026-08-09T00:00:00Z -> {WEEK}
$ escrow release d R-5 example five_failed --now 2026-09-08T00:00:00Z -> released {FIVE_FAILED}
$ escrow release d R-6 example five_failed --now 2026-09-08T00:00:01Z -> !1 Q16 ground does not stand
$ escrow release d R-7 example sunday_failed --now 2026-08-09T01:00:00Z -> released {SUNDAY}
$ cp ../full {PART}; escrow put d {PART} --now {LATE} -> received {PART} 1422 {LATE}
$ escrow verify d {stated(at=LATE)} -> {LATE_RECEIPT}
$ escrow release d R-8 example sunday_failed --now {LATE} -> !1 Q16 ground does not stand
$ escrow release d R-7 example sunday_failed --now {LATE} -> released {SUNDAY}
$ escrow state d
{state(6, f"part {PART} 1422 held {LATE}", WEEK, LATE_RECEIPT, f"release {FIVE_FAILED}", f"release {SUNDAY}")}
== a part of a release is fetched as it was sent
{RELEASE}
$ escrow fetch d R-1 {PART} > fetched && cmp fetched {PART}
$ escrow fetch d R-1 {NEXT} > fetched && cmp fetched {NEXT}
$ escrow audit d -> sound 3
== nothing but a part of a release is fetched
{RELEASE}
$ escrow fetch d R-1 x -> !1 Q18 not in release
$ escrow fetch d R-1 '' -> !1 Q18 not in release
$ escrow fetch d R-9 {PART} -> !1 Q19 release unknown
$ escrow fetch d R_1 {PART} -> !2 bad value for REF
$ escrow fetch nowhere R-1 {PART} -> !3 file failed: nowhere: folder missing
== a part that cannot be written is a failure
{RELEASE}
$ escrow fetch d R-1 {PART} > /dev/full -> !3 output failed
$ escrow fetch d R-1 {PART} >&- -> !3 output failed
# The reader of the pipe has gone when the part is written.
$ exec 3> >(:); wait $!; escrow fetch d R-1 {PART} >&3 -> !3 output failed
$ trap '' PIPE; exec 3> >(:); wait $!; escrow fetch d R-1 {PART} >&3 -> !3 output failed
== a spoiled part is not fetched
{RELEASE}
$ printf x | dd of=d/vault.vol bs=4096 seek=2 conv=notrunc status=none
$ escrow fetch d R-1 {PART} -> !3 C5 damaged H8
$ escrow audit nowhere -> !3 file failed: nowhere: folder missing
$ escrow audit d -> damaged {PART}
!1
== a dropped part is not fetched
{RELEASE}
$ escrow purge d --now {LATER} -> dropped 3
$ escrow fetch d R-1 {PART} -> !1 Q6 dropped after keeping
$ escrow fetch d R-1 x -> !1 Q18 not in release
$ escrow audit d -> sound 0""")

transcripts(__name__, f"""
== a release whose names are no parts is damage
{RELEASE}
$ sqlite3 d/custody.db "UPDATE handover SET names = 'example_2026-08-05_diff_S1_R0.ryde' || char(10)"
$ escrow state d -> !3 C5 damaged H7
$ sqlite3 d/custody.db "UPDATE handover SET names = '{NEW}' || char(10) || 'x' || char(10)"
$ escrow fetch d R-1 x -> !3 C5 damaged H7
$ sqlite3 d/custody.db "UPDATE handover SET names = '{NEW}'"
$ escrow state d -> !3 C5 damaged H4""", needs="sqlite3")
