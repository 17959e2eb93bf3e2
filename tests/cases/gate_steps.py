"""The gate over stubs of `rt` and of the scripts: what begins, what fails, and what a stop ends."""
import os
import re
import shlex
import shutil
import signal
import subprocess
import time
from collections.abc import Callable
from pathlib import Path

from gate import SCRIPTS
from lib import LIMIT, TOP, Room, Skip, case, each

CRATES = ("deposit", "bench_tools", "escrow", "agent_script")


def stub(room: Room, name: str, text: str) -> None:
    room.file(name, f"#!/bin/sh\n{text}\n").chmod(0o755)


def prepare(room: Room, rt: str, broken: str = "", below: str = "") -> None:
    """Makes a repository of the gate and stubs, in the folder `below`. The script `broken` fails."""
    for it in ("tests/gate.py", "tests/blocks.py", "tests/lib.py", "crates.txt"):
        shutil.copy(TOP / it, room.file(below + it, ""))
    stub(room, f"{below}rt", rt)
    for name in {shlex.split(it.command)[0] for it in SCRIPTS}:
        stub(room, below + name, "echo it broke; exit 1" if name == broken else "echo it ran")


def commands(*crates: str) -> list[str]:
    """The commands of the scripts that run the programs of these crates."""
    return [it.command for it in SCRIPTS if set(crates) & set(it.needs.split())]


def comes(holds: Callable[[], bool]) -> bool:
    """Whether something holds before long."""
    end = time.monotonic() + LIMIT
    while not holds() and time.monotonic() < end:
        time.sleep(0.05)
    return holds()


@each([
    ("passes", "", "", []),
    ("fails with a script", "", "tests/power.py", ["tests/power.py"]),
    ("fails with each script whose program is not there", "agent_script", "", ["rt ci", *commands("agent_script")]),
    ("fails with a crate below", "escrow agent_script", "", ["rt ci", *commands("escrow", "agent_script")]),
], seconds=10)
def the_gate(room: Room, lost: str, broken: str, failed: list[str]) -> None:
    says = [f"echo 'rt: {it} {'NOT PROVED' if it in lost.split() else 'proved'}'" for it in CRATES]
    prepare(room, "\n".join([*says, f"exit {len(lost.split())}"]), broken)
    done = room.run("PATH=$PWD:$PATH python3 tests/gate.py")
    said = done.out.decode()
    room.equal(failed, re.findall(r"^FAILED: ([^:]*):", said, re.MULTILINE), f"what failed in\n{said}")
    room.equal(bool(failed), bool(done.status), "the status")
    end = said[said.rindex("| crate |"):]
    room.equal({*failed}, {*re.findall(r"^(\S.*) (?:failed \(status \d+\):|did not begin)$", end, re.MULTILINE)}, end)
    room.equal(bool(broken), "\n    it broke\n" in end, end)
    room.true(f"\n{len(SCRIPTS) + 1 - len(failed)} passed, {len(failed)} failed, 0 skipped\n" in said, said)
    room.equal(len(SCRIPTS) - len({*failed} - {"rt ci"}), said.count("\nit ran\n"), f"the scripts that ran in\n{said}")


@case(seconds=2)
def the_gate_ends_what_it_began(room: Room) -> None:
    prepare(room, "sleep 1000 & echo $! > began; setsid sleep 1000 & echo $! >> began; echo > whole; wait")
    path = f"{room.folder}:{os.environ['PATH']}"
    how = {"cwd": room.folder, "env": os.environ | {"PATH": path}, "stdout": subprocess.DEVNULL}
    gate = subprocess.Popen(["python3", "tests/gate.py"], **how)
    room.true(comes(lambda: (room.folder / "whole").exists()), "`rt ci` does not begin")
    gate.send_signal(signal.SIGTERM)
    room.equal(128 + signal.SIGTERM, gate.wait(LIMIT), "the status")
    began = (room.folder / "began").read_text().split()
    room.true(comes(lambda: not any(Path(f"/proc/{it}").exists() for it in began)), "what it began still runs")


@each([
    ("before it begins", "1M", "", {""}),
    ("while it runs", "1100M", "head -c 200M /dev/zero > filler; sleep 1000", {"rt ci", "tests/run"}),
], seconds=5)
def a_full_disk_ends_the_gate(room: Room, size: str, rt: str, failed: set[str]) -> None:
    if room.run(f"mkdir small && mount -t tmpfs -o size={size} tmpfs small").status:
        raise Skip("no tmpfs can be mounted")
    try:
        prepare(room, rt, below="small/")
        done = room.run("cd small && PATH=$PWD:$PATH python3 tests/gate.py 2>&1")
    finally:
        room.run("umount small")
    said = done.out.decode()
    full = re.findall(r"^FAILED: (?:(.*): )?the disk is full ", said, re.MULTILINE)
    room.true(failed <= {*full}, f"what failed in\n{said}")
    room.equal(1, done.status, "the status")
