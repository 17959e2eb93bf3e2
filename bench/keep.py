#!/usr/bin/env python3
"""Keeps measurements in bench/results/NAME.txt. tests/made.py copies them into the pages.

    bench/keep.py [--gate LOG] [NAME ..]

A NAME is a script of this folder (`agent`, `audit`, ..) or `runs`, which times `tests/run stops`, tests/faults.py and
tests/memory.py; `all` makes them all, in about half an hour. `--gate LOG` reads the output of `.ci/run`, which must have
begun with nothing proved, and keeps `gate`.

It needs the programs that `rt run` builds in crates/escrow, deposit, bench_tools and agent_script, and GNU time, nginx,
sqlite3 and strace. If one measurement fails, its result stays as it was, the others go on, and the status is 1.
Run tests/made.py afterwards.
"""
import datetime
import os
import re
import shutil
import signal
import subprocess
import sys
import time
from pathlib import Path

TOP = Path(__file__).resolve().parent.parent
sys.path.insert(0, str(TOP / "tests"))
from blocks import columns, fenced
from lib import parser

RESULTS = TOP / "bench" / "results"
# Where the scripts run: a folder on the disk of the repository, ignored by git. Most make their vaults here; `chain`,
# `pack`, `statement` and the tests make theirs in the folder for temporary files.
WORK = TOP / "bench" / "out"
# The most seconds that one script may take.
PATIENCE = 1800

# What each measurement needs: programs of crates, and tools.
NEEDS = {
    "agent": (("escrow",), ("cp", "sync", "sqlite3", "/usr/bin/time")),
    "audit": (("escrow",), ("sha256sum", "/usr/bin/time")),
    "batch": (("escrow",), ()),
    "chain": (("escrow", "deposit"), ()),
    "map": (("bench_tools",), ()),
    "notices": (("escrow", "deposit"), ()),
    "pack": (("escrow", "deposit"), ()),
    "purge": (("escrow",), ()),
    "release": (("escrow",), ("/usr/bin/time",)),
    "serve": (("escrow",), ("strace", "nginx")),
    "statement": (("escrow", "deposit"), ("sha256sum", "sqlite3")),
    "sweep": (("escrow",), ()),
    "tables": (("bench_tools",), ()),
    "verify": (("bench_tools", "deposit"), ()),
    "runs": (("escrow", "bench_tools", "agent_script"), ("strace",)),
}


class NotMeasured(Exception):
    """Why there is no result."""


def program(crate):
    return TOP / "crates" / crate / "out" / crate


def lacking(name):
    """The programs and tools that a measurement needs and this machine lacks."""
    crates, tools = NEEDS[name]
    programs = [f"{program(it).relative_to(TOP)}" for it in crates if not os.access(program(it), os.X_OK)]
    return programs + [it for it in tools if not shutil.which(it)]


# ---- the first line of a result


def machine():
    """The processors: how many, their model and their clock."""
    text = Path("/proc/cpuinfo").read_text()
    model = re.search(r"^model name\s*: (.*)$", text, re.MULTILINE)[1]
    plain = " ".join(re.sub(r"\((?:R|TM)\)|\bProcessor\b|\bCPU\b|@.*", "", model).split())
    clocks = [float(it) for it in re.findall(r"^cpu MHz\s*: ([\d.]+)$", text, re.MULTILINE)]
    return f"{os.cpu_count()} × {plain}, {max(clocks) / 1000:.1f} GHz"


def heading(day, beside):
    """The first line of a result; `beside` says what else mattered."""
    return f"{day}, {machine()}, {beside}:"


def today():
    return heading(datetime.date.today(), f"load {os.getloadavg()[0]:.1f}")


# ---- tables


# A Markdown table.
TABLE = r"(?:^\|.*\n)+"


def rows_of(table):
    """The cells of a Markdown table, row by row."""
    lines = [line.strip().removeprefix("|").removesuffix("|").replace("`", "") for line in table.splitlines()]
    head, _, *rest = [[cell.strip() for cell in line.split("|")] for line in lines]
    return [head, *rest]


def keep(name, first, *tables):
    """Writes a result: its first line, and the tables in columns."""
    RESULTS.mkdir(exist_ok=True)
    (RESULTS / f"{name}.txt").write_text(f"{first}\n\n{fenced(*map(columns, tables))}")


# ---- scripts


def output(*words):
    """What a script prints, and its seconds. It must end with status 0, and in time."""
    start = time.perf_counter()
    pipes = {"stdin": subprocess.DEVNULL, "stdout": subprocess.PIPE, "stderr": subprocess.PIPE}
    process = subprocess.Popen(words, cwd=WORK, text=True, errors="replace", start_new_session=True, **pipes)
    try:
        text, errors = process.communicate(timeout=PATIENCE)
    except subprocess.TimeoutExpired:
        raise NotMeasured(f"no end after {PATIENCE} s") from None
    finally:
        if process.poll() is None:
            os.killpg(process.pid, signal.SIGKILL)
            process.communicate()
    if process.returncode:
        raise NotMeasured(f"status {process.returncode}\n{text[-500:]}{errors[-2000:]}")
    return text, time.perf_counter() - start


def bench(name):
    """The tables that a bench prints."""
    text, _ = output(sys.executable, TOP / "bench" / f"{name}.py")
    tables = re.findall(TABLE, text, re.MULTILINE)
    if not tables:
        raise NotMeasured(f"it prints no table\n{text[-500:]}")
    return list(map(rows_of, tables))


# ---- runs of tests


def tested(*words):
    """What a test prints, and its time. Nothing may fail or be skipped."""
    text, taken = output(TOP / "tests" / words[0], *words[1:])
    if not re.search(r"^[1-9]\d* passed, 0 failed(?:, 0 skipped)?\s*\Z", text, re.MULTILINE):
        raise NotMeasured(f"tests/{' '.join(words)}\n{text[-500:]}")
    return text, f"{taken:.0f} s"


def numbers(form, text):
    """The numbers of the lines of this form, added up column by column."""
    found = [list(map(int, it)) for it in re.findall(form, text, re.MULTILINE)]
    if not found:
        raise NotMeasured(f"nothing is printed like {form}\n{text[-500:]}")
    return [sum(column) for column in zip(*found)]


def stops():
    """The cases make all runs that the script of agent_script counts: of stops, then of failures."""
    _, taken = tested("run", "stops")
    script = (TOP / "crates/agent_script/stdout").read_text()
    form = r"^broken off once: (\d+) runs; twice: \d+ of (\d+) runs"
    ways, failures = (int(once) for once, _ in re.findall(form, script, re.MULTILINE))
    return f"tests/run stops: {ways} stops, {failures} failures, each again", f"{sum(numbers(form, script)):,}", taken


def faults():
    text, taken = tested("faults.py")
    calls, runs = numbers(r"^[\w ]+: (\d+) calls, (\d+) runs: ", text)
    return f"tests/faults.py: {calls:,} calls, three errors and a kill", f"{runs:,}", taken


def texts():
    text, taken = tested("memory.py", "texts")
    _, runs = numbers(r": (\d+) allocations, (\d+) runs ", text)
    return "tests/memory.py texts", f"{runs:,}", taken


def calls():
    text, taken = tested("memory.py", "calls")
    _, runs = numbers(r": (\d+) allocations, (\d+) runs ", text)
    _, ended = numbers(r"as without in (\d+) runs, ended by the script itself in (\d+)", text)
    return f"tests/memory.py calls; {ended:,} ended by the script", f"{runs:,}", taken


def runs():
    """The table of the runs that tests make."""
    return [("what", "runs", "time"), *(it() for it in (stops, faults, texts, calls))]


# ---- logs


# The minutes from which on a crate's proof is a row of its own, and a step of the gate.
SHOWN, SHOWN_STEP = 5, 1


def gate(log):
    """Keeps the minutes of the longest steps and proofs of the gate, from a log of `.ci/run`."""
    text = log.read_text(errors="replace")
    tables = re.findall(TABLE, text, re.MULTILINE)[-2:]
    if len(tables) < 2 or not re.search(r"^[1-9]\d* passed, 0 failed, 0 skipped\s*\Z", text, re.MULTILINE):
        raise NotMeasured(f"{log} does not end with a gate that has passed")
    ok = r"^rt: ok;.* must-fail edits: (\d+) refused.*; every proof and must-fail edit was done"
    edits = re.search(ok, text, re.MULTILINE)
    if not edits:
        raise NotMeasured(f"{log} is of a gate that began with proofs of earlier runs")
    (heads, *steps), (others, *crates) = map(rows_of, tables)
    steps = [it for it in steps if float(it[1]) >= SHOWN_STEP or it[0] == "all"]
    crates = [it[:3] for it in crates if float(it[2]) >= SHOWN]
    first = heading(datetime.date.fromtimestamp(log.stat().st_mtime), f"the whole gate, of {edits[1]} edits")
    keep("gate", first, [heads, *steps], [others[:3], *crates])


# ---- the call


def measure(name):
    """Makes one measurement and keeps it."""
    if lacks := lacking(name):
        raise NotMeasured(f"there is no {', no '.join(lacks)}")
    first = today()
    keep(name, first, *([runs()] if name == "runs" else bench(name)))


def is_kept(name, make, *words):
    """Makes a result and says whether that succeeded."""
    start = time.perf_counter()
    try:
        make(*words)
    except (NotMeasured, OSError) as why:
        print(f"{name}: NOT KEPT: {why}", flush=True)
        return False
    print(f"{name}: kept, after {time.perf_counter() - start:.0f} s", flush=True)
    return True


def main():
    words = parser(__doc__)
    words.add_argument("--gate", type=Path, metavar="LOG")
    words.add_argument("names", nargs="*", metavar="NAME")
    asked = words.parse_args()
    names = list(NEEDS) if "all" in asked.names else asked.names
    if not set(names) <= set(NEEDS):
        words.error(f"a NAME is all, {', '.join(NEEDS)}")
    if not names and not asked.gate:
        words.error("name a measurement or a log")
    for name in names:
        if lacks := lacking(name):
            print(f"{name} will not be measured: there is no {', no '.join(lacks)}", flush=True)
    WORK.mkdir(exist_ok=True)
    kept = [is_kept("gate", gate, asked.gate)] if asked.gate else []
    kept += [is_kept(name, measure, name) for name in names]
    shutil.rmtree(WORK, ignore_errors=True)
    return not all(kept)


if __name__ == "__main__":
    sys.exit(main())
