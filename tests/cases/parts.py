"""Parts that are received, and parts that are refused."""
from lib import DAY, FIVE, PART, TEN, part_name, state, transcripts

STATE = state(6, f"part {PART} 5 held {TEN}")
# Makes a vault with one part.
VAULT = f"""$ vault d
$ echo -n hello > {PART}; escrow put d {PART} --now {TEN} -> received {PART} 5 {TEN}"""

transcripts(__name__, f"""
== a part is received once
{VAULT}
$ escrow state d -> {STATE}
$ escrow put d {PART} --now 2026-08-02T11:00:00Z -> received {PART} 5 {TEN}
$ escrow put d {PART} -> received {PART} 5 {TEN}
$ echo -n hellp > {PART}; escrow put d {PART} --now {TEN} -> !1 Q5 other bytes under this name
$ escrow register d example --first 2027-01-01 -> registered example {DAY}
$ escrow state d -> {STATE}
== without a moment a part has that of the clock
$ vault d 8 $(date -u +%F)
$ cp ../full example_$(date -u +%F)_full_S1_R0.ryde
$ (date -u +%FT%TZ; escrow put d example_* | sed 's/received example_.* 1422 //'; date -u +%FT%TZ) > moments
$ sort -c moments
$ diff <(escrow state d | grep part) <(echo part example_* 1422 held $(sed -n 2p moments))
== a part that is not the next one is refused
{VAULT}
$ name={part_name(part=3)}; cp ../full $name; escrow put d $name --now {FIVE} -> !1 Q10 part out of order
$ name={part_name("2026-08-01")}; cp ../full $name; escrow put d $name --now {FIVE} -> !1 Q3 date out of range
$ name={part_name(revision=1)}; cp ../full $name; escrow put d $name --now {FIVE} -> !1 Q7 revision not due
$ name={part_name(tld="other")}; cp ../full $name; escrow put d $name --now {FIVE} -> !1 Q2 registry unknown
$ name={PART.replace("R0", "R01")}; cp ../full $name; escrow put d $name --now {FIVE} -> !1 Q1 N6 name refused
$ escrow report d example
$ escrow state d -> {STATE}
== a part has 1 to 1 048 576 bytes
$ vault d 300
$ truncate -s 0 {PART}; escrow put d {PART} --now {TEN} -> !1 Q4 size
$ truncate -s 1048577 {PART}; escrow put d {PART} --now {TEN} -> !1 Q4 size
$ truncate -s 20G {PART}; escrow put d {PART} --now {TEN} -> !1 Q4 size
$ head -c 1048576 /dev/urandom > {PART}; escrow put d {PART} --now {TEN} -> received {PART} 1048576 {TEN}
$ escrow put d {PART} --now {TEN} -> received {PART} 1048576 {TEN}
$ escrow state d -> {state(43, f"part {PART} 1048576 held {TEN}", blocks=300)}
$ cmp --ignore-initial=4096:0 --bytes=1048576 d/vault.vol {PART}""")
