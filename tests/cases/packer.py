"""What a registry packs with `deposit`: which tables, and which files."""
from lib import (
    DAY, DIGEST, PART, RECEIPT, TEN, Room, case, envelope_text, framed, notice, number_of, packed, part_name, stated,
    taken_apart, transcripts)

MONDAY, TUESDAY, WEDNESDAY = "2026-08-03", "2026-08-04", "2026-08-05"
ID, NEXT, LAST = map(number_of, (DAY, MONDAY, TUESDAY))
MADE = "for t in domain domainContacts domainStatuses domainNameServers host hostAddresses contact registrar; do : > $t.csv; done"
# A folder `tables` of eight tables without a row, and the words that pack it.
TABLES = f"$ mkdir tables; cd tables; {MADE}"
FULL = f"--tld example --date {DAY} --kind full --revision 0 --id {ID}"
DIFF = f"--tld example --date {MONDAY} --kind diff --revision 0 --id {NEXT} --previous {ID}"
INCR = f"--tld example --date {TUESDAY} --kind incr --revision 0 --id {LAST}"
# A revision that is sent again, the deposit of the next day, a full one a week later, and one of the day behind it.
AGAIN = f"--tld example --date {MONDAY} --kind diff --revision 1 --id {NEXT}"
NEXT_DAY = f"--tld example --date {TUESDAY} --kind diff --revision 0 --id {LAST}"
SUNDAY = f"--tld example --date 2026-08-09 --kind full --revision 0 --id {number_of('2026-08-09')}"
AFTER_SUNDAY = f"--tld example --date 2026-08-10 --kind diff --revision 0 --id {number_of('2026-08-10')}"
# The same of whole tables: of Monday and Tuesday, and of Wednesday.
WHOLE = f"--whole {DIFF.replace(f' --previous {ID}', '')}"
WHOLE_INCR = f"--whole {INCR}"
WHOLE_LAST = f"--whole --tld example --date {WEDNESDAY} --kind diff --revision 0 --id {number_of(WEDNESDAY)}"
# The tables of a registry with two domains and their statuses, and its full deposit.
REGISTRY = f"""{TABLES}
$ printf 'R1,Example,,ok\\nR2,Second,,ok\\n' > tables/registrar.csv
$ printf 'C1,C1-EX,R1,2020-01-01T00:00:00Z\\n' > tables/contact.csv
$ for it in b a; do echo $it.example,$it-EX,C1,R1,2020-01-01T00:00:00Z,2030-01-01T00:00:00Z; done > tables/domain.csv
$ printf 'a.example,ok\\nb.example,ok\\nb.example,clientHold\\n' > tables/domainStatuses.csv
$ deposit pack tables {FULL} --out parts > printed"""
BODY = f'{{"date":"{DAY}","id":"{ID}","kind":"full","parts":1,"revision":0,"tld":"example"}}'
VERIFY = f"escrow verify VAULT example --date {DAY} --kind full --revision 0 --parts 1 --id {ID}"
EMPTY = "\n".join(f"{name} 0" for name in ("domain", "domainContacts", "domainStatuses", "domainNameServers", "host",
                                           "hostAddresses", "contact", "registrar"))
PACKED = f"{EMPTY}\n{PART} 1422\n{VERIFY}\n{BODY}"

transcripts(__name__, f"""
== a full deposit is packed, received and unpacked
{TABLES}
$ deposit pack tables {FULL} --out parts -> {PACKED}
$ sha256sum < parts/{PART} -> {DIGEST}  -
$ vault d
$ escrow put d parts/{PART} --now {TEN} -> received {PART} 1422 {TEN}
$ escrow verify d {stated()} -> {RECEIPT}
$ deposit check parts/{PART} -> PASS FULL {ID} {DAY}, without check 7
{EMPTY}
$ deposit unpack parts/{PART} --out out | tail -n 1 | cut -d ' ' -f 1 -> out/envelope.json
$ diff -r tables out -> Only in out: envelope.json
!1
$ ls parts -> {PART}
== a file that is there already is not overwritten
{TABLES}
$ mkdir parts; echo other > parts/{PART}
$ deposit pack tables {FULL} --out parts -> !3 file failed: parts/{PART}: file is there already
$ cat parts/{PART} -> other
$ ls parts -> {PART}
$ mkdir out; echo other > out/host.csv; deposit unpack ../full --out out -> !2 error: ../full: N1 is no name of a part
$ cp ../full {PART}; deposit unpack {PART} --out out > printed 2>> errors -> !3
$ head -n 1 printed -> PASS FULL {ID} {DAY}, without check 7
$ cat errors; cat out/host.csv; ls out -> file failed: out/host.csv: file is there already
other
host.csv
== rows that cannot stand in a deposit are refused with their places
{TABLES}
$ printf '"R1",Example,,ok\\r\\nR2,Example,,ok' > tables/registrar.csv
$ printf 'a.example,D1-EX,,R1,2020-01-01T00:00:00Z,2020-13-01T00:00:00Z\\n' > tables/domain.csv
$ deposit pack tables {FULL} --out parts -> !1 U5 domain.csv row 1 fExDate: not a moment: 2020-13-01T00:00:00Z
$ printf 'a.example,D1-EX,,R9,2020-01-01T00:00:00Z,2030-01-01T00:00:00Z\\n' > tables/domain.csv
$ deposit pack tables {FULL} --out parts -> !1 U7 domain.csv row 1 fClID: no registrar: R9
$ printf 'R1,Example,,ok\\nR1,Example,,ok\\n' > tables/registrar.csv
$ deposit pack tables {FULL} --out parts -> !1 U5 registrar.csv row 2: the key of row 1
$ deposit pack tables {FULL} --out parts --header -> !1 U4 domain.csv: the first row is not the names of its columns
$ mkdir tables/deletes; printf 'a.example\\n' > tables/deletes/domain.csv
$ deposit pack tables {FULL} --out parts -> !1 U3 deletes/domain.csv: a full deposit deletes nothing
$ rm -r tables/deletes tables/host.csv
$ deposit pack tables {FULL} --out parts -> !3 file failed: tables/host.csv: file missing
$ ls -> tables
== all faults of the files are printed with their lines
{TABLES}
$ deposit pack tables {FULL} --all --out parts -> {PACKED}
$ rm -r parts; printf '\\xef\\xbb\\xbf\\r\\n"R1","Two\\nlines",,ok\\r\\n\\r\\nR2,Second\\r\\nR3,Third,01,o k\\r\\nR1,First,,ok' > tables/registrar.csv
$ printf 'a.example,A-EX,C1,R9,2020-01-01T00:00:00Z,2020-13-01T00:00:00Z\\nb.example,B-EX,,R2,2020-01-01T00:00:00Z,2030-01-01T00:00:00Z\\n' > tables/domain.csv
$ printf '\\n\\na.example,ok\\nb.example,ok\\na.example,ok\\nc.example,ok\\nc.example,ok\\n' > tables/domainStatuses.csv; printf 'A.example,ns.example\\n' > tables/domainNameServers.csv
$ deposit pack tables {FULL} --all --out parts -> !1 tables/domain.csv:1: U7 domain.csv row 1 fRegistrant: no contact: C1
! tables/domain.csv:1: U7 domain.csv row 1 fClID: no registrar: R9
! tables/domain.csv:1: U5 domain.csv row 1 fExDate: not a moment: 2020-13-01T00:00:00Z
! tables/domainStatuses.csv:5: U5 domainStatuses.csv row 3: the key of row 1
! tables/domainStatuses.csv:6: U7 domainStatuses.csv row 4 fName: no domain: c.example
! tables/domainStatuses.csv:7: U5 domainStatuses.csv row 5: the key of row 4
! tables/domainStatuses.csv:7: U7 domainStatuses.csv row 5 fName: no domain: c.example
! tables/domainNameServers.csv:1: U5 domainNameServers.csv row 1 fName: not a host name: A.example
! tables/domainNameServers.csv:1: U7 domainNameServers.csv row 1 fHostName: no host: ns.example
! tables/registrar.csv:5: U5 registrar.csv row 2: 2 fields, 4 are wanted
! tables/registrar.csv:6: U5 registrar.csv row 3 fGurid: not an IANA ID or empty: 01
! tables/registrar.csv:6: U5 registrar.csv row 3 fStatus: not a status: o k
! tables/registrar.csv:7: U5 registrar.csv row 4: the key of row 1
! 13 faults
$ deposit pack tables {FULL} --out parts -> !1 U5 domain.csv row 1 fExDate: not a moment: 2020-13-01T00:00:00Z
$ ls -> tables
== all faults of files with headers are printed
{TABLES}
$ for it in domain:fName,fRoid,fRegistrant,fClID,fCrDate,fExDate domainContacts:fName,fContactType,fId domainStatuses:fName,fStatus domainNameServers:fName,fHostName; do echo ${{it#*:}} > tables/${{it%:*}}.csv; done
$ for it in host:fName,fRoid,fClID,fCrDate hostAddresses:fName,fAddr,fAddrVersion contact:fId,fRoid,fClID,fCrDate registrar:fId,fName,fGurid,fStatus; do echo ${{it#*:}} > tables/${{it%:*}}.csv; done
$ deposit pack tables {FULL} --header --all --out parts -> {PACKED}
$ rm -r parts; printf '\\nhost.example,H-EX,R1,2020-01-01\\n' >> tables/host.csv; printf 'R1,Example,,ok\\nR2,Second,,2\\nR2,Second,,ok\\n' > tables/registrar.csv
$ deposit pack tables {FULL} --header --all --out parts -> !1 tables/host.csv:3: U5 host.csv row 1 fCrDate: not a moment: 2020-01-01
! tables/registrar.csv:1: U4 registrar.csv: the first row is not the names of its columns
! tables/registrar.csv:2: U5 registrar.csv row 1 fStatus: not a status: 2
! tables/registrar.csv:3: U5 registrar.csv row 2: the key of row 1
! 4 faults
$ : > tables/registrar.csv; printf 'fName,fRoid,fClID,fCrDate' > tables/host.csv; deposit pack tables {FULL} --header --all --out parts -> !1 tables/registrar.csv:1: U4 registrar.csv: the first row is not the names of its columns
! 1 fault
$ ls -> tables
== all faults of changes are printed
{TABLES}
$ deposit pack tables {FULL} --out parts > printed
$ mkdir -p changes/deletes; printf 'a.example,D1-EX,C9,R9,2020-01-01T00:00:00Z,2030-01-01\\n' > changes/domain.csv; printf 'a.example,ok\\na.example,ok,ok\\n' > changes/domainStatuses.csv
$ printf 'a.example\\nA.example\\n\\nb.example\\nb.example\\na.example,b.example\\n' > changes/deletes/domain.csv
$ deposit pack changes {DIFF} --after parts/{PART} --all --out later -> !1 changes/domain.csv:1: U5 domain.csv row 1 fExDate: not a moment: 2030-01-01
! changes/domainStatuses.csv:2: U5 domainStatuses.csv row 2: 3 fields, 2 are wanted
! changes/deletes/domain.csv:2: U5 deletes/domain.csv row 2 fName: not a host name: A.example
! changes/deletes/domain.csv:5: U5 deletes/domain.csv row 4: the key of row 3
! changes/deletes/domain.csv:6: U5 deletes/domain.csv row 5: 2 fields, 1 are wanted
! 5 faults
$ rm changes/domain.csv changes/domainStatuses.csv; mv changes/deletes/domain.csv changes/deletes/domainStatuses.csv
$ deposit pack changes {DIFF} --after parts/{PART} --all --out later -> !1 U3 deletes/domainStatuses.csv: only domains, hosts, contacts and registrars are deleted
$ mv changes/deletes/domainStatuses.csv changes/deletes/domain.csv; printf 'a.example\\n' > changes/deletes/domain.csv
$ deposit pack changes {DIFF} --all --out later -> !1 U8 the deposits that it follows are wanted
$ deposit pack changes {DIFF} --after parts/{PART} --all --out later > printed; head -n 1 printed -> deletes/domain 1
$ printf 'a.example,ok\\n' > tables/domainStatuses.csv; deposit pack tables {NEXT_DAY} --whole --after parts/{PART} --all --out whole -> !1 tables/domainStatuses.csv:1: U12 domainStatuses.csv row 1 fName: no domain: a.example
! 1 fault
$ ls -> changes
later
parts
printed
tables
== a differential deposit is packed after those it follows
{TABLES}
$ printf 'R1,Example,,ok\\n' > tables/registrar.csv; deposit pack tables {FULL} --out parts > printed
$ mkdir -p changes/deletes; printf 'R2,"Second, Inc.",,ok' > changes/registrar.csv; printf 'R1\\n' > changes/deletes/registrar.csv
$ deposit pack changes {DIFF} --out parts -> !1 U8 the deposits that it follows are wanted
$ deposit pack nowhere {DIFF} --after parts/{PART} --out parts -> !3 file failed: nowhere: folder missing
$ deposit pack changes {DIFF} --after parts/{PART} --out parts > printed
$ deposit check parts/{part_name(MONDAY, 'diff')} -> PASS DIFF {NEXT} {MONDAY}, without checks 6, 7 and 11
registrar 1
deletes/registrar 1
$ deposit check parts/{part_name(MONDAY, 'diff')} --after parts/{PART} -> PASS DIFF {NEXT} {MONDAY}
registrar 1
deletes/registrar 1
$ deposit pack changes {DIFF.replace(f"--id {NEXT}", f"--id {ID}")} --after parts/{PART} --out again > printed
$ deposit check again/{part_name(MONDAY, 'diff')} --after parts/{PART} -> FAILURE-07 id {ID} has passed before
!1
$ deposit pack changes {DIFF.replace(f" --previous {ID}", "")} --out other -> !1 U2 a differential deposit follows the latest that passed
$ deposit pack changes {DIFF.replace(f" --previous {ID}", " --previous X1")} --after parts/{PART} --out other -> !2 error: --previous X1: by --after it is {ID}
$ deposit pack changes {DIFF.replace(f" --previous {ID}", "")} --after parts/{PART} --out derived > printed; diff -r derived/{part_name(MONDAY, 'diff')} parts/{part_name(MONDAY, 'diff')}
$ deposit pack tables {FULL} --previous X1 --out other -> !1 U2 a full deposit follows none
$ deposit pack changes {DIFF.replace(MONDAY, "2026-08-09")} --after parts/{PART} --out other -> !1 U1 2026-08-09 is a Sunday, and the deposit is not full
$ deposit pack changes {DIFF} --after parts/{part_name(MONDAY, 'diff')} --out other -> !1 note: left out 1 part of the deposit itself
! U8 the deposits that it follows are wanted
$ deposit pack changes {DIFF.replace(MONDAY, TUESDAY)} --after parts/{part_name(MONDAY, 'diff')} --out other -> !1 {part_name(MONDAY, 'diff')}: it does not continue a full deposit and those since
$ test -e other -> !1
== behind --after stand all parts that are there
{TABLES}
$ printf 'R1,Example,,ok\\n' > tables/registrar.csv; deposit pack tables {FULL} --out parts > printed
$ mkdir changes; printf 'R2,Second,,ok\\n' > changes/registrar.csv; deposit pack changes {DIFF} --after parts/* --out parts > printed
$ deposit pack changes {AGAIN} --after parts/* --out parts -> registrar 1
{part_name(MONDAY, 'diff', revision=1)} 705
escrow verify VAULT example --date {MONDAY} --kind diff --revision 1 --parts 1 --id {NEXT}
{{"date":"{MONDAY}","id":"{NEXT}","kind":"diff","parts":1,"revision":1,"tld":"example"}}
!0 note: left out 1 part of {MONDAY} or later
$ deposit check parts/{part_name(MONDAY, 'diff', revision=1)} --after parts/* -> PASS DIFF {NEXT} {MONDAY}
registrar 1
!0 note: left out 1 part of the deposit itself
! note: left out 1 part of {MONDAY} or later
$ printf 'R3,Third,,ok\\n' > changes/registrar.csv; deposit pack changes {NEXT_DAY} --after parts/* --out parts > printed 2> notes; cat notes -> note: left out 1 part of revisions that were sent again
== a week later the parts before the full deposit are left out
{TABLES}
$ printf 'R1,Example,,ok\\n' > tables/registrar.csv; deposit pack tables {FULL} --out parts > printed
$ mkdir changes; printf 'R2,Second,,ok\\n' > changes/registrar.csv; deposit pack changes {DIFF} --after parts/* --out parts > printed
$ deposit pack tables {SUNDAY} --out parts > printed
$ deposit pack changes {AFTER_SUNDAY} --after parts/* --out parts > printed 2> notes; cat notes -> note: left out 2 parts of days before the latest full deposit
$ deposit check parts/*2026-08-10* --after parts/*2026-08-09* -> PASS DIFF {number_of("2026-08-10")} 2026-08-10
registrar 1
$ deposit check parts/*2026-08-09* --after parts/* -> PASS FULL {number_of("2026-08-09")} 2026-08-09
{EMPTY.replace("registrar 0", "registrar 1")}
!0 note: left out 1 part of the deposit itself
! note: left out 1 part of 2026-08-09 or later
== the tables after the latest deposit are restored
{TABLES}
$ printf 'R1,Example,,ok\\nR2,Second,,ok\\n' > tables/registrar.csv; printf 'C1,C1-EX,R1,2020-01-01T00:00:00Z\\n' > tables/contact.csv
$ for it in b a; do echo $it.example,$it-EX,C1,R1,2020-01-01T00:00:00Z,2030-01-01T00:00:00Z; done > tables/domain.csv
$ printf 'a.example,ok\\nb.example,ok\\nb.example,clientHold\\n' > tables/domainStatuses.csv; deposit pack tables {FULL} --out parts > printed
$ mkdir -p changes/deletes; printf 'b.example,inactive\\n' > changes/domainStatuses.csv; printf 'C1\\n' > changes/deletes/contact.csv
$ printf 'a.example\\n' > changes/deletes/domain.csv; deposit pack changes {DIFF} --after parts/* --out parts > printed
$ deposit restore parts/* --header --out restored | tail -n 16 -> domain 1
domainContacts 0
domainStatuses 1
domainNameServers 0
host 0
hostAddresses 0
contact 0
registrar 2
restored/domain.csv 109
restored/domainContacts.csv 23
restored/domainStatuses.csv 33
restored/domainNameServers.csv 16
restored/host.csv 26
restored/hostAddresses.csv 25
restored/contact.csv 24
restored/registrar.csv 54
!0 note: domain.csv row 1 fRegistrant: no contact: C1
$ cat restored/domain.csv restored/domainStatuses.csv -> fName,fRoid,fRegistrant,fClID,fCrDate,fExDate
b.example,b-EX,C1,R1,2020-01-01T00:00:00Z,2030-01-01T00:00:00Z
fName,fStatus
b.example,inactive
$ deposit restore parts/*full* --out full > printed; head -n 1 printed -> PASS FULL {ID} {DAY}, without check 7
$ cat full/domain.csv | cut -d , -f 1 -> a.example
b.example
$ deposit restore parts/* --out restored > printed 2> errors -> !3
$ cat errors -> file failed: restored/domain.csv: file is there already
$ cp parts/{part_name(MONDAY, 'diff')} kept; printf x >> parts/{part_name(MONDAY, 'diff')}
$ deposit restore parts/* --out other > printed -> !1
$ tail -n 1 printed; ls -d other -> FAILURE-09 the files have 32 bytes, says the envelope, and 33 are there
!2 ls: cannot access 'other': No such file or directory
$ mv kept parts/{part_name(MONDAY, 'diff')}; deposit restore parts/*diff* --out other > printed -> !1 {part_name(MONDAY, 'diff')}: it does not continue a full deposit and those since
== of whole tables an object is packed that has changed, and the key of one that is gone
{REGISTRY}
$ cp -r tables sunday; for it in c b; do echo $it.example,$it-EX,C1,R1,2020-01-01T00:00:00Z,2030-01-01T00:00:00Z; done > tables/domain.csv
$ printf 'b.example,ok\\n' > tables/domainStatuses.csv; printf 'R2,"Second",,"ok"\\r\\nR1,First,,ok' > tables/registrar.csv
$ deposit pack tables {WHOLE} --after parts/* --out parts -> domain 2
domainStatuses 1
registrar 1
deletes/domain 1
{part_name(MONDAY, 'diff')} 1179
escrow verify VAULT example --date {MONDAY} --kind diff --revision 0 --parts 1 --id {NEXT}
{{"date":"{MONDAY}","id":"{NEXT}","kind":"diff","parts":1,"revision":0,"tld":"example"}}
$ deposit unpack parts/*diff* --out monday > printed; rm monday/envelope.json; ls monday -> deletes
domain.csv
domainStatuses.csv
registrar.csv
$ cat monday/*.csv monday/deletes/*.csv -> b.example,b-EX,C1,R1,2020-01-01T00:00:00Z,2030-01-01T00:00:00Z
c.example,c-EX,C1,R1,2020-01-01T00:00:00Z,2030-01-01T00:00:00Z
b.example,ok
R1,First,,ok
a.example
$ deposit pack monday {DIFF} --after parts/*full* --out same > printed; diff -r same/{part_name(MONDAY, 'diff')} parts/{part_name(MONDAY, 'diff')}
# An incremental deposit takes the tables after the full one alone to those of the day, and so those after all since.
$ deposit pack sunday {WHOLE_INCR} --after parts/* --out parts > printed; head -n 4 printed -> domain 2
domainStatuses 3
registrar 1
deletes/domain 1
$ deposit unpack parts/*incr* --out tuesday > printed; cat tuesday/domainStatuses.csv tuesday/deletes/domain.csv -> a.example,ok
b.example,clientHold
b.example,ok
c.example
$ deposit pack tables {WHOLE_LAST} --after parts/* --out parts > printed; head -n 4 printed -> domain 2
domainStatuses 1
registrar 1
deletes/domain 1
$ deposit check parts/*{WEDNESDAY}* --after parts/*full* parts/*{MONDAY}* parts/*{TUESDAY}* > printed; head -n 1 printed -> PASS DIFF {number_of(WEDNESDAY)} {WEDNESDAY}
$ vault d; for it in full {MONDAY} {TUESDAY} {WEDNESDAY}; do escrow put d parts/*$it* --now {WEDNESDAY}T10:00:00Z; done > printed
$ escrow verify d {stated()} -> {RECEIPT}
$ escrow verify d {stated(MONDAY, 'diff')} -> {notice(2, "RECEIPT", MONDAY, f"{MONDAY}T10:05:00Z", NEXT)}
$ escrow verify d {stated(TUESDAY, 'incr')} -> {notice(3, "RECEIPT", TUESDAY, f"{TUESDAY}T10:05:00Z", LAST)}
$ escrow verify d {stated(WEDNESDAY, 'diff')} -> {notice(4, "RECEIPT", WEDNESDAY, f"{WEDNESDAY}T10:05:00Z", number_of(WEDNESDAY))}
== of whole tables nothing is packed where nothing has changed
{REGISTRY}
$ tac tables/domainStatuses.csv > other; mv other tables/domainStatuses.csv
$ deposit pack tables {WHOLE} --after parts/* --out diff -> {part_name(MONDAY, 'diff')} 583
escrow verify VAULT example --date {MONDAY} --kind diff --revision 0 --parts 1 --id {NEXT}
{{"date":"{MONDAY}","id":"{NEXT}","kind":"diff","parts":1,"revision":0,"tld":"example"}}
$ deposit check diff/* --after parts/* -> PASS DIFF {NEXT} {MONDAY}
$ deposit pack tables {WHOLE} --previous {ID} --after parts/* --out named > printed; diff -r diff named
$ deposit pack tables {FULL} --whole --out full > printed; deposit pack tables {FULL} --out tables_alone > printed; diff -r full tables_alone
== whole tables that are none are refused
{REGISTRY}
$ deposit pack tables {WHOLE} --out other -> !1 U8 the deposits that it follows are wanted
$ deposit pack tables {WHOLE} --previous {ID} --out other -> !1 U8 the deposits that it follows are wanted
$ deposit pack tables {WHOLE} --previous X1 --after parts/* --out other -> !2 error: --previous X1: by --after it is {ID}
$ deposit pack tables {WHOLE} --header --after parts/* --out other -> !1 U4 domain.csv: the first row is not the names of its columns
$ deposit pack tables {WHOLE.replace(MONDAY, "2026-08-09")} --after parts/* --out other -> !1 U1 2026-08-09 is a Sunday, and the deposit is not full
$ mkdir tables/deletes; deposit pack tables {WHOLE} --after parts/* --out other -> !2 error: tables/deletes: no folder of this name is read
$ deposit pack tables {FULL} --whole --out other -> !2 error: tables/deletes: no folder of this name is read
$ rmdir tables/deletes; mv tables/host.csv kept; deposit pack tables {WHOLE} --after parts/* --out other -> !3 file failed: tables/host.csv: file missing
$ mv kept tables/host.csv; printf 'b.example,ok\\nc.example,ok\\n' > tables/domainStatuses.csv
$ deposit pack tables {WHOLE} --after parts/* --out other -> !1 U12 domainStatuses.csv row 2 fName: no domain: c.example
$ printf 'C2,C2-EX,R3,2020-01-01T00:00:00Z\\n' > tables/contact.csv
$ deposit pack tables {WHOLE} --after parts/* --out other -> !1 U12 domain.csv row 1 fRegistrant: no contact: C1
$ printf 'C1,C1-EX,R1,2020-01-01\\n' > tables/contact.csv
$ deposit pack tables {WHOLE} --after parts/* --out other -> !1 U5 contact.csv row 1 fCrDate: not a moment: 2020-01-01
$ printf 'R1,Example,,ok\\nR1,Example,,ok\\n' > tables/registrar.csv; : > tables/contact.csv
$ deposit pack tables {WHOLE} --after parts/* --out other -> !1 U5 registrar.csv row 2: the key of row 1
$ ls -d other -> !2 ls: cannot access 'other': No such file or directory
== parts that do not belong together are refused
$ cp ../full {PART}; mkdir other; cp ../full other/{PART}; cp ../full other_{DAY}_full_S1_R0.ryde; cp ../full {part_name(DAY, "diff")}
$ deposit check {PART} other/{PART} -> !2 error: other/{PART}: this part is named twice
$ deposit check {part_name(MONDAY)} --after {PART} other/{PART} -> !3 file failed: {part_name(MONDAY)}: file missing
$ cp ../full {part_name(MONDAY)}; deposit check {part_name(MONDAY)} --after {PART} other/{PART} -> !2 error: other/{PART}: this part is named twice
$ deposit check {part_name(MONDAY)} --after {PART} other_{DAY}_full_S1_R0.ryde -> !2 error: other_{DAY}_full_S1_R0.ryde: not of the top-level domain example
$ deposit check {part_name(MONDAY)} --after {PART} {part_name(DAY, "diff")} -> !2 error: {part_name(DAY, "diff")}: the revision has parts of another kind
$ cp ../full {part_name("2026-08-01")}; deposit check {PART} --after {part_name("2026-08-01")} -> !1 {part_name("2026-08-01")}: it does not continue a full deposit and those since
== what is broken is not unpacked
$ cp ../full {PART}; printf x >> {PART}
$ deposit unpack {PART} --out out -> FAILURE-09 the files have 0 bytes, says the envelope, and 1 are there
!1
$ ls -> {PART}
== a part of a size that the agent refuses is refused
$ vault d
$ : > {PART}; escrow put d {PART} --now {TEN} -> !1 Q4 size
$ deposit check {PART} -> !1 Q4 {PART}: 0 bytes, 1 to 1048576 are wanted
$ deposit unpack {PART} --out out -> !1 Q4 {PART}: 0 bytes, 1 to 1048576 are wanted
$ cp ../full {part_name(MONDAY)}; deposit check {part_name(MONDAY)} --after {PART} -> !1 Q4 {PART}: 0 bytes, 1 to 1048576 are wanted
$ truncate -s 1048577 {PART}; escrow put d {PART} --now {TEN} -> !1 Q4 size
$ deposit check {PART} -> !1 Q4 {PART}: 1048577 bytes, 1 to 1048576 are wanted
$ truncate -s 1048576 {PART}; escrow put d {PART} --now {TEN} -> !1 Q11 volume full
$ deposit check {PART} -> FAILURE-01 F1: it does not begin with RDE1 and a space
!1
$ cp ../full {PART}; : > {part_name(part=2)}; deposit check {PART} {part_name(part=2)} -> !1 Q4 {part_name(part=2)}: 0 bytes, 1 to 1048576 are wanted
$ ls -> d
{PART}
{part_name(part=2)}
{part_name(MONDAY)}
== broken quotes are packed as they are read
{TABLES}
$ printf 'R1,"Bob" Smith,292,ok\\nR2,"Exa"mple,292,ok\\nR3,Bob "B" Smith,292,ok\\nR4,Four,292,"ok' > tables/registrar.csv
$ deposit pack tables {FULL} --out parts > printed; deposit unpack parts/{PART} --out out > printed
$ cat out/registrar.csv -> R1,Bob Smith,292,ok
R2,Example,292,ok
R3,"Bob ""B"" Smith",292,ok
R4,Four,292,ok
$ printf 'R1,"Bob,292,ok\\nR2,Two,292,ok\\n' > tables/registrar.csv
$ deposit pack tables {FULL} --out other -> !1 U5 registrar.csv row 1: 2 fields, 4 are wanted
== a disk that takes no more leaves no part
{TABLES}
$ mkdir parts; trap '' XFSZ; ulimit -f 1; deposit pack tables {FULL} --out parts
!3 file failed: parts/{PART}.tmp: File too large (os error 27)
$ ls parts
== an incremental deposit adds to the keys of the full one alone
{TABLES}
$ printf 'R1,Example,,ok\\n' > tables/registrar.csv; deposit pack tables {FULL} --out parts > printed
$ mkdir changes; printf 'R2,Second,,ok\\n' > changes/registrar.csv; deposit pack changes {DIFF} --after parts/{PART} --out parts > printed
$ printf 'R3,Third,,ok\\n' > changes/registrar.csv; deposit pack changes {INCR} --after parts/* --out parts > printed
$ deposit check parts/{part_name(TUESDAY, 'incr')} --after parts/*full* parts/*diff* -> PASS INCR {LAST} {TUESDAY}
registrar 1
$ deposit restore parts/* --out restored > printed 2> notes; cat notes -> note: left out 1 part of deposits between the full and the incremental one
$ cat restored/registrar.csv -> R1,Example,,ok
R3,Third,,ok
$ vault d; for it in parts/*; do escrow put d $it --now {TUESDAY}T10:00:00Z; done > printed
$ escrow verify d {stated()} -> {RECEIPT}
$ escrow verify d {stated(MONDAY, 'diff')} -> {notice(2, "RECEIPT", MONDAY, f"{MONDAY}T10:05:00Z", NEXT)}
$ escrow verify d {stated(TUESDAY, 'incr')} -> {notice(3, "RECEIPT", TUESDAY, f"{TUESDAY}T10:05:00Z", LAST)}
== a file of another name is refused
{TABLES}
$ touch tables/domains.csv
$ deposit pack tables {FULL} --out parts -> !2 error: tables/domains.csv: no table has this name
$ mv tables/domains.csv tables/domain.CSV; deposit pack tables {FULL} --out parts -> !2 error: tables/domain.CSV: no table has this name
$ rm tables/domain.CSV; mkdir tables/delete; deposit pack tables {FULL} --out parts -> !2 error: tables/delete: no folder of this name is read
$ mv tables/delete tables/deletes; touch tables/README; deposit pack tables {FULL} --out parts -> {PACKED}
== the words of deposit
$ deposit pack tables {FULL.replace("example", "Example")} --out parts -> !2 bad value for --tld
$ deposit pack tables {FULL.replace(DAY, "2026-02-29")} --out parts -> !2 bad value for --date
$ deposit pack tables {FULL.replace("full", "whole")} --out parts -> !2 bad value for --kind
$ deposit check {part_name(part=2)} -> !2 error: {part_name(part=2)}: part 1 is wanted
$ deposit check {PART} {part_name(MONDAY)} -> !3 file failed: {PART}: file missing
$ deposit check nothing -> !2 error: nothing: N1 is no name of a part
$ deposit help > help; deposit > help 2>> errors -> !2
""")

transcripts(__name__, f"""
== a terminal shows what deposit is at
{TABLES}
$ script -qec 'deposit pack tables {FULL} --out parts > printed' /dev/null | tr -d '\\r' | sed 's/\\x1b\\[K/|/g'; echo -> |packing|writing {PART} (1 of 1)|
$ script -qec 'deposit check parts/{PART} > printed' /dev/null | tr -d '\\r' | sed 's/\\x1b\\[K/|/g'; echo -> |reading {PART} (1 of 1)|checking|
$ script -qec 'deposit check nothing' /dev/null | tr -d '\\r' | sed 's/\\x1b\\[K/|/g' -> |error: nothing: N1 is no name of a part
!2
""", "script")


@case()
def a_differential_deposit_that_names_no_other_fails(room: Room) -> None:
    """Whatever is known of other deposits."""
    envelope, files = taken_apart(packed("diff", MONDAY, after=[packed()], previous=ID))
    del envelope["prevId"]
    name = part_name(MONDAY, "diff")
    room.file(name, framed(envelope_text(envelope), files))
    room.plays(f"""
        $ deposit check {name} -> FAILURE-06 prevId is nothing, no deposit has passed
        !1
        $ cp ../full {PART}; deposit check {name} --after {PART} -> FAILURE-06 prevId is nothing, {ID} is wanted
        !1""")
