"""Each call of `deposit` on files fails in turn: then it prints which file failed, and makes all files or none."""
import re
import shutil
from pathlib import Path

from faults import Call, calls_of
from lib import DAY, PACKER, PART, TABLES, Answer, Room, answer_of, each

PACK = f"pack tables --tld example --date {DAY} --kind full --revision 0 --id 20260802001 --out out"
UNPACK = f"unpack {PART} --out out"
# A call on what the program reads or writes: a path of the folder, or a descriptor of a file in it.
ON_FILE = re.compile(rf'.*(?:"(?:tables|out|{re.escape(PART)})[/"]|<[^>]*/(?:tables|out|{re.escape(PART)})[/>])')
FAILURES = re.compile(r"(file failed: (?:tables|out|example)[^\n]*: [^\n]+|output failed)\n")


def files_in(folder: Path) -> dict[str, bytes]:
    """The files below a folder."""
    return {str(it.relative_to(folder)): it.read_bytes() for it in folder.rglob("*") if it.is_file()}


def run(room: Room, words: str, *tracer: str) -> tuple[Answer, dict[str, bytes]]:
    """What a command prints, and the files that it makes in a new folder."""
    shutil.rmtree(room.folder / "out", ignore_errors=True)
    return answer_of([*tracer, PACKER, *words.split()], room.folder, 60), files_in(room.folder / "out")


def fails(room: Room, words: str, call: Call, fault: str) -> tuple[Answer, dict[str, bytes]]:
    """The same where a call fails."""
    inject = f"inject={call.name}:error={fault}:when={call.number}"
    return run(room, words, "strace", "-f", "-qqq", "-o", "trace", "-e", f"trace={call.name}", "-e", inject)


@each((("a call of pack fails", PACK), ("a call of unpack fails", UNPACK)), needs="strace", seconds=20)
def all_files_or_none(room: Room, words: str) -> None:
    for table in TABLES:
        room.file(f"tables/{table}.csv", "")
    shutil.copy(room.folder.parent / "full", room.folder / PART)
    whole, made = run(room, words)
    room.equal(0, whole.status, words)
    shutil.rmtree(room.folder / "out")
    calls = [call for call in calls_of(PACKER, room.folder, words) if ON_FILE.match(call.shown)]
    room.true(len(calls) > 20, f"{words} has {len(calls)} calls on files")
    for call in calls:
        for fault in ("EIO", "ENOSPC"):
            came, files = fails(room, words, call, fault)
            title = f"{call.name} {call.number}, {fault}: {call.shown}"
            room.true(files in ({}, made), f"{title} leaves {sorted(files)}")
            if came.status == 0:
                room.equal((whole, made), (came, files), title)
            else:
                room.true(came.status == 3 and FAILURES.fullmatch(came.err.decode()), f"{title}: {came}")
