"""The files of a vault: not made yet, made twice, those of another vault, and those that cannot be opened."""
import os

from lib import DAY, PART, TEN, state, transcripts

INIT, STATE = "--blocks 8 --number 0000000000000001", state(6, f"part {PART} 5 held {TEN}")
# Makes a vault with one part, and the digests of its files.
VAULT = f"""$ vault d
$ echo -n hello > {PART}; escrow put d {PART} --now {TEN} -> received {PART} 5 {TEN}
$ sha256sum d/vault.vol d/custody.db > digests"""
LOG = "!3 file failed: d/custody.db-wal:"
# Runs a program as a user to whom the modes of files apply.
NOBODY = "" if os.getuid() else "setpriv --reuid=65534 --regid=65534 --clear-groups"

transcripts(__name__, f"""
== a folder without files is no vault and stays empty
$ mkdir bare; touch {PART}
$ escrow state bare -> !3 file failed: bare/vault.vol: file missing
$ escrow register bare example --first {DAY} -> !3 file failed: bare/vault.vol: file missing
$ escrow put bare {PART} --now {TEN} -> !3 file failed: bare/vault.vol: file missing
$ ls -A bare
== a volume alone gets no database
$ vault d
$ rm d/custody.db*
$ escrow state d -> !3 file failed: d/custody.db: file missing
$ ls -A d -> vault.vol
== a database alone gets no volume
{VAULT}
$ mv d/vault.vol kept
$ escrow state d -> !3 file failed: d/vault.vol: file missing
$ escrow init d {INIT} -> !3 file failed: d/vault.vol: file missing
$ test ! -e d/vault.vol; mv kept d/vault.vol
$ sha256sum -c --quiet digests
$ escrow state d -> {STATE}
== a second init changes nothing
{VAULT}
$ escrow init d --blocks 8 --number 0000000000000002 -> !1 I1 already initialised
$ escrow init d --blocks 9 --number 0000000000000001 -> !1 I1 already initialised
$ escrow init d {INIT} > printed -> !1 I1 already initialised
$ test ! -s printed; sha256sum -c --quiet digests
$ escrow state d -> {STATE}
$ escrow audit d -> sound 1
== an init that was cut short is done again
$ mkdir cut; touch cut/custody.db; head -c 5000 /dev/urandom > cut/vault.vol
$ escrow state cut -> !3 file failed: cut/vault.vol: 5000 bytes are no whole number of blocks
$ escrow init cut {INIT} -> ready 8 0000000000000001
$ escrow state cut -> free 7 of 7
$ mkdir sooner; touch sooner/custody.db; escrow state sooner -> !3 file failed: sooner/vault.vol: file missing
$ escrow init sooner {INIT} -> ready 8 0000000000000001
$ mkdir later; touch later/custody.db; truncate -s 32768 later/vault.vol; escrow state later -> !3 C5 damaged H0
$ escrow init later {INIT} -> ready 8 0000000000000001
== a volume of another length is refused
{VAULT}
$ truncate -s 16384 d/vault.vol
$ escrow state d -> !3 C5 damaged H2
$ truncate -s 100 d/vault.vol
$ escrow state d -> !3 file failed: d/vault.vol: 100 bytes are no whole number of blocks
$ truncate -s 0 d/vault.vol
$ escrow put d {PART} --now {TEN} -> !3 C5 damaged H1
== a volume of another vault is refused
{VAULT}
$ sed -i 2s/0000000000000001/0000000000000002/ d/vault.vol
$ escrow state d -> !3 C5 damaged H2
$ sed -i 1s/RDEVAULT1/RDEVAULT2/ d/vault.vol
$ escrow state d -> !3 C5 damaged H1
== a changed byte of a part is found where it is read
{VAULT}
$ sed -i s/hello/hellx/ d/vault.vol
$ escrow state d -> {STATE}
$ escrow put d {PART} --now {TEN} -> !3 C5 damaged H8
$ escrow verify d example --date {DAY} --kind full --revision 0 --parts 1 --id X --now {TEN} -> !3 C5 damaged H8
$ escrow audit d -> damaged {PART}
!1
$ escrow state d -> {STATE}
$ escrow release d R-1 example operator --now {TEN} -> released R-1 example operator {TEN} 1
{PART}
$ escrow fetch d R-1 {PART} -> !3 C5 damaged H8
== a file that is no database stays as it is
{VAULT}
$ rm -f d/custody.db-wal; echo no database > d/custody.db; sha256sum d/vault.vol d/custody.db > digests
$ escrow state d -> !3 C3 store failed
$ escrow init d {INIT} -> !3 C3 store failed
$ sha256sum -c --quiet digests
== a folder is no database
$ vault d
$ rm d/custody.db*; mkdir d/custody.db
$ escrow state d -> !3 file failed: d/custody.db: unable to open database file
== a log that is a folder is named
{VAULT}
$ rm d/custody.db-wal; mkdir d/custody.db-wal
$ escrow state d -> {LOG} Is a directory (os error 21)
$ escrow put d {PART} --now {TEN} -> {LOG} Is a directory (os error 21)
$ escrow init d {INIT} -> {LOG} Is a directory (os error 21)
$ sha256sum -c --quiet digests; rmdir d/custody.db-wal
$ escrow state d -> {STATE}
== a journal beside the database is not named
{VAULT}
$ echo x > d/custody.db-journal
$ escrow state d -> !3 file failed: d/custody.db: unable to open database file
$ sha256sum -c --quiet digests; rm d/custody.db-journal
$ escrow state d -> {STATE}""")
# Commands where the log has each of these modes.
DENIED = "".join(f"$ chmod {mode} d/custody.db-wal; {NOBODY} escrow {words} -> {LOG} Permission denied (os error 13)\n"
                 for mode, words in (("000", "state d"), ("222", f"put d {PART}"), ("444", f"init d {INIT}")))

transcripts(__name__, f"""
== nothing is made in a folder that may not be written
$ mkdir -m 555 closed
$ {NOBODY} escrow init closed {INIT} -> !3 file failed: closed/custody.db: unable to open database file
$ ls -A closed
== a log that may not be read and written is named
{VAULT}
$ chmod 777 d; chmod 666 d/*; {NOBODY} escrow state d -> {STATE}
$ sha256sum d/* > digests
{DENIED}$ chmod 666 d/custody.db-wal; sha256sum -c --quiet digests
$ {NOBODY} escrow state d -> {STATE}
== a log that is missing and may not be made is not named
{VAULT}
$ rm d/custody.db-wal; chmod 666 d/*; chmod 555 d
$ {NOBODY} escrow state d -> !3 file failed: d/custody.db: unable to open database file
$ sha256sum -c --quiet digests; ls d -> custody.db
vault.vol
$ chmod 777 d; {NOBODY} escrow state d -> {STATE}""", needs=NOBODY.split(" ")[0])
