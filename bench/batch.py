#!/usr/bin/env python3
"""Times `escrow batch`: a thousand puts of 5 bytes by one process, against the same work by calls within one process.

    bench/batch.py [PROGRAM [FOLDER]]      (it makes its vaults in FOLDER, or else in the current folder)

It takes some two minutes. It needs the program that `rt run` builds in crates/escrow.

First all lines are sent at once, from a file. The time is then that of the whole process, its opening included. It is
compared with a process for each put, and with lines that are refused, which are read and answered and do nothing. Then each
line is sent when the one before it is answered. What is compared is done by turns, in one run, on one disk. The parts'
files are made before. Each answer is checked, and that the vaults are alike.
"""
import subprocess
import tempfile
import time

from serve import NOW, OneProcess, milliseconds, new_vault, part_name, rates
from vaults import program_and_folder, seconds

CONTENT = b"bytes"
MOMENT = f"{NOW}T00:00:00Z"
PUTS = 1_000
ROUNDS = 3
CALLS = "write, sync, insert"
LIFT = f"lift H-1 --now {MOMENT}\n".encode()


def put_line(i):
    return f"put {part_name(i)} --now {MOMENT}\n".encode()


def answer(i):
    return f"received {part_name(i)} {len(CONTENT)} {MOMENT}\n".encode()


def lines(line):
    """The file of the lines of all puts, or of all answers."""
    return b"".join(map(line, range(PUTS)))


# ---- the ways: each puts all parts into a vault, and answers the seconds


def batch(escrow, vault):
    with tempfile.TemporaryFile(dir=vault.parent) as sent, tempfile.TemporaryFile(dir=vault.parent) as printed:
        sent.write(lines(put_line))
        sent.seek(0)
        start = time.perf_counter()
        subprocess.run([escrow, "batch", vault], cwd=vault.parent, stdin=sent, stdout=printed, check=True)
        taken = time.perf_counter() - start
        printed.seek(0)
        assert printed.read() == lines(answer)
    return taken


def refused(escrow, vault):
    """As many lines that change nothing: each lifts a hold that is not there."""
    with tempfile.TemporaryFile(dir=vault.parent) as sent:
        sent.write(LIFT * PUTS)
        sent.seek(0)
        start = time.perf_counter()
        done = subprocess.run([escrow, "batch", vault], stdin=sent, stderr=subprocess.PIPE)
        taken = time.perf_counter() - start
        assert (done.returncode, done.stderr) == (1, b"Q21 hold unknown\n" * PUTS), done
    return taken


def calls(_, vault):
    start = time.perf_counter()
    process = OneProcess(vault, True)
    for i in range(PUTS):
        process.put(i, CONTENT)
    process.close()
    return time.perf_counter() - start


def processes(escrow, vault):
    taken = 0
    for i in range(PUTS):
        time_of_put, printed = seconds(escrow, "put", vault, vault.parent / part_name(i), "--now", MOMENT)
        assert printed == answer(i), printed
        taken += time_of_put
    return taken


# ---- the tables


def records(escrow, vault):
    """What is printed of the parts of a vault and of their bytes. All of them are there."""
    state, audit = (seconds(escrow, word, vault)[1] for word in ("state", "audit"))
    assert (state.count(b"\npart "), audit) == (PUTS, b"sound %d\n" % PUTS), (state, audit)
    return state


def new_vaults(escrow, top, *names):
    vaults = [top / name for name in names]
    for vault in vaults:
        new_vault(escrow, vault)
    return vaults


def heading(unit):
    print(f"| `batch` | against | {unit}: median, least | the other | rate | by the least |")
    print("|---|---|---|---|---|---|")


def row(name, other, ours, theirs):
    print(f"| {name} | {other} | {milliseconds(ours)} | {milliseconds(theirs)} | {rates(ours, theirs)} |", flush=True)


def at_once(escrow, top):
    """The times of all puts by each way, round by round, divided by how many they are."""
    ways = batch, calls, processes, refused
    taken = [[] for _ in ways]
    for number in range(ROUNDS):
        vaults = new_vaults(escrow, top, *(f"{way.__name__}{number}" for way in ways))
        for way, vault, times in zip(ways, vaults, taken):
            times.append(way(escrow, vault) / PUTS)
        assert len({records(escrow, vault) for vault in vaults[:3]}) == 1
    ours, plain, each, told = taken
    heading("ms a put")
    row("all lines at once", CALLS, ours, plain)
    row("all lines at once", "a process each", ours, each)
    row("refused lines at once", "puts at once", told, ours)


def in_turn(escrow, top):
    """The times of the puts, each by a line of a batch, and by calls in turn with it."""
    taken = [], []
    for number in range(ROUNDS):
        vaults = new_vaults(escrow, top, f"lines{number}", f"beside{number}")
        beside = OneProcess(vaults[1], True)
        words = [escrow, "batch", vaults[0]]
        with subprocess.Popen(words, cwd=top, stdin=subprocess.PIPE, stdout=subprocess.PIPE) as process:
            for i in range(PUTS):
                line = put_line(i)
                start = time.perf_counter()
                process.stdin.write(line)
                process.stdin.flush()
                printed = process.stdout.readline()
                taken[0].append(time.perf_counter() - start)
                assert printed == answer(i), printed
                taken[1].append(beside.put(i, CONTENT))
            process.stdin.close()
            assert (process.stdout.read(), process.wait()) == (b"", 0)
        beside.close()
        assert len({records(escrow, vault) for vault in vaults}) == 1
    print()
    heading("ms")
    row("a line at a time", CALLS, *taken)


def main():
    with program_and_folder(__doc__) as (escrow, top):
        for i in range(PUTS):
            (top / part_name(i)).write_bytes(CONTENT)
        at_once(escrow, top)
        in_turn(escrow, top)


if __name__ == "__main__":
    main()
