"""The worked example of agent_script, broken off at each place, and then at each place once more."""
import os
import re
from concurrent.futures import ThreadPoolExecutor

from lib import TOP, Room, Wrong, each

SCRIPT, PROGRAM = TOP / "crates/agent_script/stdin", TOP / "crates/agent_script/out/agent_script"
# The runs that break off twice are made in so many shares, side by side.
SHARES = 4
TALLY = r"^broken off once: (\d+) runs; twice: (\d+) of (\d+) runs; (\d+) end otherwise$"


@each([
    ("runs that stop at any two places end alike", "stops"),
    ("runs in which any two calls fail end alike", "fails"),
], seconds=10)
def all_runs(room: Room, cause: str) -> None:
    if not os.access(PROGRAM, os.X_OK):
        raise Wrong(f"no program at {PROGRAM}: run `rt run` in crates/agent_script")
    script = SCRIPT.read_text()
    files = re.findall(r"^! lettered (?:4096|12288) .*\n", script, re.MULTILINE)
    example = re.search(r"^! each stops .*\n! each fails .*\n! %\n((?:.+\n)+)", script, re.MULTILINE)[1]

    def share(number: int) -> list[int]:
        room.file(f"in.{number}", f"{''.join(files)}\n! {cause} {number} {SHARES}\n{example}")
        done = room.run(f"{PROGRAM} < in.{number}")
        found = re.search(TALLY, done.out.decode(), re.MULTILINE)
        if done.status or not found:
            raise Wrong(f"share {number}: status {done.status} {done.err.decode()}")
        return [int(it) for it in found.groups()]

    with ThreadPoolExecutor(SHARES) as pool:
        once, made, every, otherwise = zip(*pool.map(share, range(1, SHARES + 1)))
    room.true(once[0] > 0 and every[0] > 0, "no runs are broken off")
    room.equal((every[0], 0), (sum(made), sum(otherwise)), "how many runs are made, and how many of them end otherwise")
