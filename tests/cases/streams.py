"""Output that cannot be written, closed streams, and what is shown on a terminal."""
from lib import (
    DAY, DIGEST, EXPLAINED, FIVE, PART, RECEIPT, TEN, explained, notice, part_name, state, stated, transcripts)

INIT, FIFTH = "--blocks 8 --number 0000000000000001", "2026-08-05T00:00:00Z"

# No file of the vault is opened in the place of a stream that is closed, and each command is done.
STREAMS = {"a full device": ("> /dev/full", " output failed"), "a closed output": (">&-", " output failed"),
           "closed streams": ("<&- >&- 2>&-", "")}
transcripts(__name__, "".join(f"""
== with {title} each command is done
$ mkdir d; echo -n hello > {PART}
$ escrow init d {INIT} {streams} -> !3{line}
$ escrow register d example --first {DAY} {streams} -> !3{line}
$ escrow put d {PART} --now {TEN} {streams} -> !3{line}
$ escrow state d {streams} -> !3{line}
$ escrow report d other 2>&- -> !3
$ escrow state d <&- -> {state(6, f"part {PART} 5 held {TEN}")}
""" for title, (streams, line) in STREAMS.items()))

# Commands, and what each prints when it comes again, after a first time whose output was lost. (Two days are due, and a
# sweep that cannot print the first absence does not go on to the second.)
ABSENCES = [notice(number, "ABSENCE", f"2026-08-0{number + 1}", FIFTH) for number in (2, 3)]
HELD, RELEASED = f"H-1 example {DAY} {TEN}", f"R-1 example operator {FIFTH} 1"
RECORDED = (f"part {PART} 1422 held {TEN}", RECEIPT, *ABSENCES, f"release {RELEASED}", f"hold {HELD} lifted {FIVE}")
AGAIN = {
    f"init d {INIT}": "!1 I1 already initialised", f"register d example --first {DAY}": f"registered example {DAY}",
    f"put d {PART} --now {TEN}": f"received {PART} 1422 {TEN}",
    f"preview d {stated()}": RECEIPT.replace("1", "0", 1), f"verify d {stated()}": RECEIPT,
    f"hold d H-1 example --date {DAY} --now {TEN}": f"held {HELD}", f"lift d H-1 --now {FIVE}": f"lifted H-1 {FIVE}",
    f"due d --now {FIFTH}": "due example 2026-08-03\ndue example 2026-08-04", f"sweep d --now {FIFTH}": ABSENCES[1],
    f"release d R-1 example operator --now {FIFTH}": f"released {RELEASED}\n{PART}",
    "report d example": "\n".join([RECEIPT, *ABSENCES]), "state d": state(6, *RECORDED), "audit d": "sound 1",
    "digests d example": f"{DIGEST}  {PART}", f"purge d --now {FIFTH}": "dropped 0"}
LOST = "".join(f"$ escrow {words} > /dev/full -> !3 output failed\n$ escrow {words} -> {line}\n"
               for words, line in AGAIN.items())

# Ways for the output of a command to be lost; the last is a pipe whose reader has gone.
WAYS = ("{} > /dev/full", "{} >&-", "exec 3> >(:); wait $!; {} >&3")
HELP = "".join(f"$ {way.format('escrow ' + words)} -> !3 output failed\n" for way in WAYS
               for words in ("--help", "--version", "help", "help put", "put --help"))
REFUSED = "".join(f"$ {way.format('escrow ' + words)} -> !1 {refusal}\n" for way in WAYS for words, refusal in (
    ("report d other", "Q2 registry unknown"), (f"explain d {explained()}", "Q22 no failure")))
UNEXPLAINED = "".join(f"$ {way.format('escrow explain d ' + explained())} -> !3 output failed\n" for way in WAYS)

transcripts(__name__, f"""
== a command whose output is lost says so and can be made again
$ mkdir d; cp ../full {PART}
{LOST}
== a reply is in a file or a pipe once the command has ended
$ vault d; echo -n hello > {PART}
$ escrow put d {PART} --now {TEN} > printed; cat printed -> received {PART} 5 {TEN}
$ escrow put d {PART} --now {FIVE} | cat -> received {PART} 5 {TEN}
$ escrow hold d H-1 example --date {DAY} --now {TEN} > printed; cat printed -> held {HELD}
== help that is lost is a failure
{HELP}
== a refusal needs no output
$ vault d
{REFUSED}$ escrow state nowhere > /dev/full -> !3 file failed: nowhere: folder missing
$ escrow lift d H_1 > /dev/full -> !2 bad value for REF
$ escrow state > /dev/full 2> errors -> !2
$ grep -c 'output failed' errors -> 0
!1
== a command that prints nothing needs no output
$ vault d
$ escrow report d example > /dev/full
$ escrow due d --now {TEN} > /dev/full
$ escrow sweep d --now {TEN} >&-
== an explanation that is lost is a failure
$ vault d
$ echo -n hello > {PART}; escrow put d {PART} --now {TEN} -> received {PART} 5 {TEN}
$ escrow verify d {stated()} -> {notice(1, "FAILURE-01", DAY, FIVE, "20260802001")}
{UNEXPLAINED}$ escrow explain d {explained()} <&- -> {EXPLAINED}
== damage that cannot be listed is a failure
$ vault d
$ echo -n hello > {PART}; escrow put d {PART} --now {TEN} -> received {PART} 5 {TEN}
$ sed -i s/hello/hellx/ d/vault.vol
$ escrow audit d > /dev/full -> !3 output failed
== where the errors are lost too the status tells
$ vault d
$ escrow state d > /dev/full 2> /dev/full -> !3
$ escrow report d other 2> /dev/full -> !3
$ escrow --version > /dev/full 2>&- -> !3
== of an output that is cut there is the beginning
$ vault d 8 2026-01-01
$ escrow sweep d --now {FIFTH} > shown
$ trap '' XFSZ; ulimit -f 1; escrow report d example > cut -> !3 output failed
$ head -c 1024 shown | cmp - cut""")

MANY = " ".join(part_name(f"2026-08-0{2 + number // 8}", part=1 + number % 8) for number in range(17))
transcripts(__name__, f"""
== a sweep of many days shows on a terminal how far it is
$ vault d 8 2020-01-01
$ script -qec 'escrow sweep d --now 2026-08-05T00:00:00Z > shown' /dev/null | tr -d '\\r' -> swept 1000 of 2408 days
swept 2000 of 2408 days
$ wc -l < shown -> 2408
$ escrow report d example | cmp - shown
== an audit of many blocks shows on a terminal how far it is
$ vault d 4353
$ for name in {MANY}; do truncate -s 1M $name; escrow put d $name --now 2026-08-04T12:00:00Z; done | wc -l -> 17
$ escrow audit d -> sound 17
$ script -qec 'escrow audit d > shown' /dev/null | tr -d '\\r' -> audited 4096 of 4352 blocks
$ cat shown -> sound 17""", "script", seconds=20)
