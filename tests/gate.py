#!/usr/bin/env python3
"""Runs the gate: all that a change must pass. No step skips a check.

    .ci/run           an hour or two, where nothing is proved yet
    .ci/run --list    its steps, each with the crates whose programs it runs

The first step, `rt ci`, proves the crates, tries their edits and runs their programs. The others are scripts, one at a
time; `--help` of each says what it shows. A script begins as soon as its programs are built, beside the proofs that are
left. `tests/run` alone waits for the end of `rt ci`, since some of its cases measure time. A script whose programs are not
built by then fails.

The output of a step stands in out/gate/N.log while it runs, and is printed when it ends. Then come two tables, which
`bench/keep.py --gate` keeps: the minutes of each step, and the minute at which `rt ci` had proved each crate. The last
lines say how much memory and disk stayed free, show again how each step that failed ended, and count the steps.

If less than 1 GB of disk is free, the gate ends all steps and says so. By itself `rt ci` would blame a contract.

It needs rt and git. As root on Debian it installs the tools that tests/run needs; else they have to be there.
"""
import contextlib
import os
import re
import shutil
import signal
import subprocess
import sys
import tempfile
import time
from dataclasses import dataclass
from pathlib import Path

from blocks import columns
from lib import TOP, parser, tell

LOGS = TOP / "out" / "gate"
# The seconds between two looks at what runs, and those that a step has to end when it is asked to.
TICK, GRACE = 0.2, 10
# The disk that has to stay free, in GB.
LEAST_DISK = 1
# The lines of a failed step that are shown again at the end.
LAST = 10
# What ends the gate, and all that it has started.
SIGNALS = (signal.SIGINT, signal.SIGTERM, signal.SIGHUP)


@dataclass(frozen=True)
class Step:
    """A command, the crates whose programs it runs, whether it begins only when `rt ci` has ended, and the most minutes that
    it may take."""
    command: str
    needs: str = ""
    waits: bool = False
    minutes: float = 20


PROOFS = Step("rt ci", minutes=170)
# The next script to run is the first whose programs stand.
SCRIPTS = [
    Step("tests/run --install --list pages"),
    Step("tests/made.py --check"),
    Step("tests/packing.py", "deposit"),
    Step("tests/memory.py packing", "deposit"),
    Step("tests/reasons.py", "bench_tools"),
    Step("tests/memory.py texts", "bench_tools"),
    Step("tests/hostile.py --cases 300 --seed 1 --seconds 600", "deposit escrow"),
    Step("tests/clients.py --seconds 120", "deposit escrow"),
    Step("tests/registry.py", "deposit escrow"),
    Step("tests/postgres.py", "deposit escrow"),
    Step("tests/desk.py", "deposit escrow"),
    Step("tests/faults.py --only put purge 'go over'", "escrow"),
    Step("tests/power.py", "escrow"),
    Step("tests/memory.py calls --every 3", "agent_script"),
    Step("tests/run", "agent_script deposit escrow", waits=True),
]


def minutes(seconds: float) -> str:
    return f"{seconds / 60:.1f}"


def free_memory() -> float:
    """The memory that is free, in GB."""
    return int(re.search(r"MemAvailable:\s+(\d+)", Path("/proc/meminfo").read_text())[1]) / 1e6


def free_disk() -> float:
    """The disk that is free, in GB, for the checkout and for temporary files."""
    return min(shutil.disk_usage(it).free for it in (TOP, tempfile.gettempdir())) / 1e9


def full_disk(free: float) -> str:
    return f"the disk is full ({free:.1f} GB are free): remove crates/*/out of other checkouts"


def table(heads: tuple[str, ...], rows: list[tuple[str, ...]]) -> str:
    """A table as the benches print it."""
    return "".join(f"| {' | '.join(row)} |\n" for row in (heads, ["---"] * len(heads), *rows))


# ---- a step that runs


def known(process: str) -> tuple[int, int, str]:
    """The parent and the session of a process, and when it began; zeros if it is gone."""
    with contextlib.suppress(OSError):
        fields = Path(f"/proc/{process}/stat").read_text(errors="replace").rpartition(")")[2].split()
        return int(fields[1]), int(fields[3]), fields[19]
    return 0, 0, ""


def family(leader: int) -> dict[int, str]:
    """The processes of the session that a process leads, and all that these have started; and when each began."""
    rows = [(int(it), *known(it)) for it in os.listdir("/proc") if it.isdigit()]
    found, before = {leader}, 0
    while len(found) > before:
        before = len(found)
        found |= {pid for pid, parent, session, _ in rows if parent in found or session in found}
    return {pid: began for pid, _, _, began in rows if pid in found}


def end_all(processes: dict[int, str]) -> None:
    """Ends these processes, but none that has taken the number of one that is gone."""
    for pid, began in processes.items():
        with contextlib.suppress(ProcessLookupError):
            if known(str(pid))[2] == began:
                os.kill(pid, signal.SIGKILL)


class Running:
    """A step that runs, as the leader of a session, and the file of its output."""

    def __init__(self, step: Step, number: int):
        self.step, self.log, self.since = step, LOGS / f"{number}.log", time.monotonic()
        self.took, self.worked, self.why = 0.0, 0.0, ""
        with open(self.log, "wb") as log:
            self.process = subprocess.Popen(
                ["bash", "-c", f"exec {step.command}"], cwd=TOP, env=os.environ | {"NO_SKIPS": "1"},
                start_new_session=True, stdin=subprocess.DEVNULL, stdout=log, stderr=subprocess.STDOUT)

    def has_ended(self, how: int = os.WNOHANG) -> bool:
        """Whether the step has ended. If so, its seconds are known, by the clock and of the processor, and why it failed."""
        if self.process.returncode is None:
            pid, status, usage = os.wait4(self.process.pid, how)
            if not pid:
                return False
            self.process.returncode = os.waitstatus_to_exitcode(status)
            self.took, self.worked = time.monotonic() - self.since, usage.ru_utime + usage.ru_stime
            self.why = self.why or (f"status {self.process.returncode}" if self.process.returncode else "")
        return True

    def stop(self, why: str) -> None:
        """Ends the step and all that it has started."""
        self.why, started, end = why, family(self.process.pid), time.monotonic() + GRACE
        os.killpg(self.process.pid, signal.SIGTERM)
        while not self.has_ended() and time.monotonic() < end:
            time.sleep(0.1)
        end_all(started | family(self.process.pid))
        self.has_ended(how=0)

    def stop_if_late(self) -> None:
        if not self.has_ended() and time.monotonic() - self.since > 60 * self.step.minutes:
            self.stop(f"no end after {self.step.minutes:g} minutes")

    def show(self) -> None:
        """Prints the step's output, and that it failed if it did."""
        print(f"== {self.step.command}", flush=True)
        text = self.log.read_bytes()
        sys.stdout.buffer.write(text + b"\n" * (not text.endswith(b"\n")))
        print(*([f"FAILED: {self.step.command}: {self.why}"] if self.why else []), sep="\n", flush=True)

    def show_end(self) -> None:
        """Prints why the step failed, and the last lines of its output."""
        last = self.log.read_text(errors="replace").splitlines()[-LAST:]
        print(f"{self.step.command} failed ({self.why}):", *(f"    {it}" for it in last), sep="\n")


# ---- what `rt ci` says


class Crates:
    """When `rt ci` had proved each crate and its tests, and began to try its edits, by the lines of its output."""

    PROVED = re.compile(r"rt: (\w+)(: its tests are)? (?:proved|is kept: .*)\n")
    TRIES = re.compile(r"rt: (\w+): trying its must-fail edits \((\d+)\)\n")

    def __init__(self, log: Path, since: float):
        self.file, self.since, self.part = open(log, encoding="utf-8", errors="replace"), since, ""
        self.proved, self.tested, self.tries = {}, {}, {}

    def read(self) -> None:
        """Reads the lines that have come since the last look."""
        lines = (self.part + self.file.read()).splitlines(keepends=True)
        self.part = lines.pop() if lines and not lines[-1].endswith("\n") else ""
        after = time.monotonic() - self.since
        for line in lines:
            if it := self.PROVED.fullmatch(line):
                (self.tested if it[2] else self.proved)[it[1]] = after
            elif it := self.TRIES.fullmatch(line):
                self.tries[it[1]] = f"{it[2]} from {minutes(after)}"

    def rows(self) -> list[tuple[str, ...]]:
        """A row for each crate. Its second number is that of the minutes since the last crate below it was proved."""
        listed = re.findall(r"^(\w+)[^:#\n]*:([^#\n]*)", (TOP / "crates.txt").read_text(), re.MULTILINE)
        below, rows = {name: names.split() for name, names in listed}, []
        for name, at in sorted(self.proved.items(), key=lambda it: it[1]):
            start = max((self.proved[it] for it in below.get(name, []) if it in self.proved), default=0.0)
            tested = minutes(self.tested[name]) if name in self.tested else ""
            rows.append((name, minutes(at), minutes(at - start), tested, self.tries.get(name, "")))
        return rows


# ---- the whole


class Gate:
    """One run: the steps that run, those that are left, and those that have ended."""

    def __init__(self) -> None:
        self.since, self.left, self.running, self.ended = time.monotonic(), [*SCRIPTS], [], []
        self.memory, self.disk = free_memory(), free_disk()

    def say(self, text: str) -> None:
        print(f"{minutes(time.monotonic() - self.since)} min  {text}", flush=True)

    def begin(self, step: Step) -> Running:
        self.running.append(Running(step, len(self.running) + len(self.ended)))
        self.say(f"{step.command} begins; its output is in {self.running[-1].log}")
        return self.running[-1]

    def is_proving(self) -> bool:
        return self.proofs in self.running

    def lacks(self, step: Step) -> list[str]:
        """The programs of a script that are not known to be built. If `rt ci` has passed, all are."""
        if self.proofs in self.ended and not self.proofs.why:
            return []
        return [it for it in step.needs.split() if it not in self.crates.proved]

    def begin_script(self) -> None:
        """Begins the next script, if none runs. When `rt ci` has ended, those that lack a program fail."""
        if any(it is not self.proofs for it in self.running):
            return
        ready = [it for it in self.left if not self.lacks(it) and not (self.is_proving() and it.waits)]
        if ready:
            self.left.remove(ready[0])
            self.begin(ready[0])
        elif not self.is_proving():
            for it in self.left:
                print(f"FAILED: {it.command}: rt ci built no {', no '.join(self.lacks(it))}", flush=True)

    def end_steps(self) -> None:
        for it in self.running:
            it.stop_if_late()
        for it in [it for it in self.running if it.has_ended()]:
            end_all(family(it.process.pid))
            self.running.remove(it)
            self.ended.append(it)
            it.show()

    def tell(self) -> int:
        """Prints the tables and the last line, and gives the status."""
        steps = [(it.step.command, minutes(it.took), minutes(it.worked)) for it in self.ended]
        every = "all", minutes(time.monotonic() - self.since), minutes(sum(it.worked for it in self.ended))
        print()
        print(table(("step", "minutes by the clock", "of the processor"), [*steps, every]))
        print(table(("crate", "proved at minute", "after those below", "its tests", "edits"), self.crates.rows()))
        print(f"At least {self.memory:.1f} GB of memory and {self.disk:.1f} GB of disk stayed free.")
        failed = [it for it in self.ended if it.why]
        for it in failed:
            it.show_end()
        for it in self.left:
            print(f"{it.command} did not begin")
        return tell(len(self.ended) - len(failed), len(failed) + len(self.left))

    def run(self) -> int:
        shutil.rmtree(LOGS, ignore_errors=True)
        LOGS.mkdir(parents=True)
        self.proofs = self.begin(PROOFS)
        self.crates = Crates(self.proofs.log, self.since)
        while self.running or self.left:
            self.end_steps()
            self.crates.read()
            self.begin_script()
            self.memory, self.disk = min(self.memory, free_memory()), min(self.disk, free_disk())
            if not self.running:
                break
            if self.disk < LEAST_DISK:
                self.give_up(full_disk(self.disk))
                break
            time.sleep(TICK)
        return self.tell()

    def give_up(self, why: str) -> None:
        """Ends the steps that run. They and those that are left have failed."""
        for it in self.running:
            it.stop(why)
        self.end_steps()
        for it in self.left:
            print(f"FAILED: {it.command}: {why}", flush=True)

    def close(self) -> None:
        """Ends what runs, if the gate is stopped."""
        for it in SIGNALS:
            signal.signal(it, signal.SIG_IGN)
        for it in self.running:
            it.stop("stopped")
        for it in self.running:
            it.show()


def stopped(number: int, _: object) -> None:
    sys.exit(128 + number)


def main() -> int:
    words = parser(__doc__)
    words.add_argument("--list", action="store_true")
    asked = words.parse_args()
    if asked.list:
        print(columns([("step", "needs"), *((it.command, it.needs) for it in [PROOFS, *SCRIPTS])]), end="")
        return 0
    if (free := free_disk()) < LEAST_DISK:
        sys.exit(f"FAILED: {full_disk(free)}")
    for it in SIGNALS:
        signal.signal(it, stopped)
    gate = Gate()
    try:
        return gate.run()
    finally:
        gate.close()


if __name__ == "__main__":
    sys.exit(main())
