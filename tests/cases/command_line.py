"""The words of a call, the order in which faults are found, and the help."""
from lib import DAY, PART, TEN, transcripts

VERIFY, INIT = "escrow verify nowhere example --revision 0 --parts 1", "--blocks 8 --number 0000000000000001"
# Words with a mistyped option, and the option that is suggested.
MISTYPED = {
    "serve d --prot 8080 --requests 1": "--port", "serve d --port 8080 --request 1": "--requests",
    "serve d --port 8080 --requests 1 --until-close": "--until-closed", "sweep d --atmost 1": "--at-most",
    f"verify d example --date {DAY} --kind full --revison 0 --parts 1 --id X": "--revision",
    f"register d example --frist {DAY}": "--first", "init d --block 8": "--blocks", "--versoin": "--version"}
SUGGESTED = "".join(f"$ escrow {words} 2> errors -> !2\n$ grep tip: errors ->   tip: a similar argument exists: '{option}'\n"
                    for words, option in MISTYPED.items())

transcripts(__name__, rf"""
== of the words the first that has a fault is reported
$ escrow put nowhere nofile --now 10:00 -> !2 bad value for NOW
$ {VERIFY} --date 2026-02-30 --kind f --id a-b --now 0 -> !2 bad value for DATE
$ {VERIFY} --date {DAY} --kind f --id a-b --now 0 -> !2 bad value for KIND
$ {VERIFY} --date {DAY} --kind full --id a-b --now 0 -> !2 bad value for ID
$ {VERIFY} --date {DAY} --kind full --id X --now 0 -> !2 bad value for NOW
$ escrow $'\xff' -> !2 error: an argument is no text
== a limit of absences is a number from 0 to a million
$ mkdir d
$ for n in -1 1000001 x ''; do escrow sweep d --at-most "$n" 2>> errors || echo $?; done -> 2
2
2
2
$ grep -c "invalid value '.*' for '--at-most <N>'" errors -> 3
$ escrow sweep d --at-most 1 --at-most 2 2> errors -> !2
$ escrow sweep d --at-most 1000000 -> !3 file failed: d/vault.vol: file missing
== a mistyped option suggests the one that is like it
{SUGGESTED}$ ls -> errors
== after the words come the file of a part and the folder which is not made
$ mkdir in; touch in/{PART}
$ {VERIFY} --date {DAY} --kind full --id X -> !3 file failed: nowhere: folder missing
$ escrow put nowhere nofile -> !3 file failed: nofile: file missing
$ escrow put nowhere in -> !3 file failed: in: Is a directory (os error 21)
$ escrow put nowhere in/{PART} --now {TEN} -> !3 file failed: nowhere: folder missing
$ escrow state nowhere -> !3 file failed: nowhere: folder missing
$ escrow state in/{PART} -> !3 file failed: in/{PART}: folder missing
$ escrow state '' -> !3 file failed: : folder missing
$ escrow init '' {INIT} -> !3 file failed: : folder missing
$ escrow init nowhere {INIT} -> !3 file failed: nowhere: folder missing
$ ls -> in
== help is output and a wrong call prints its usage as an error
$ escrow --version -> escrow 0.1.0
$ escrow --help > help
$ head -n 1 help -> Keeps escrow deposits of registries in a vault: a folder with vault.vol and custody.db
$ escrow help | cmp - help
$ escrow state 2> errors -> !2
$ grep Usage errors -> Usage: escrow state <DIR>""")
