#!/usr/bin/env python3
"""Runs a program once for each of its allocations, refuses that one, and compares what it prints.

    tests/memory.py [texts | packing | calls] [--every N] [--only K]

- `texts` runs `bench_tools texts`, each line of which is an answer. If an allocation is refused, each line has to be the one
  that is printed if none is; but one line may end in a want of memory. It does not refuse the allocations for the program's
  own words, as many as a run makes that only prints its usage.
- `packing` runs `deposit` over a small deposit: `pack`, `check`, `unpack` and `restore`. It has to print what it prints, and
  to make the files that it makes, if none is refused; or it ends with status 3, and makes all files or none.
- `calls` runs `agent_script` over each of its worked examples that repeats a call after a want of memory (`! insist`,
  `! resend`). It has to print what it prints if none is refused; or the script itself, and not the agent, finds no memory,
  and the program ends with status 1 and the beginning of that.

Without a word it runs all: seconds for `texts` and `packing`, two minutes for `calls`. `--every N` refuses each Nth
allocation alone, `--only K` tries the Kth example of `calls` alone. The last line counts runs. It needs the programs that
`rt run` builds in crates/bench_tools, crates/deposit and crates/agent_script, and counts their allocations where they are
made (tests/allocations.py); `rt try --fail-alloc` would build a program anew for each. If the machine is no Linux on x86-64,
or lets no program be traced (`ptrace`), it says so, and tries nothing.
"""
import multiprocessing
import re
import sys
import tempfile
from collections import Counter
from collections.abc import Callable, Iterator
from pathlib import Path
from typing import NamedTuple

from allocations import Program, Run, lacking
from demo.console import write_tables
from lib import DAY, PART, TOP, built, number_of, parser, tell

# The day behind the first deposit.
NEXT_DAY = "2026-08-03"
CRATES, WANTS = TOP / "crates", (": K6", ": E2")


class Came(NamedTuple):
    """The status and the output of a run, and the files that it made."""
    status: int
    text: str
    files: dict[str, bytes]


def run_once(program: Program, given: str, counts: dict[str, int], is_counted: bool = False) -> tuple[dict[str, int], Came]:
    """One run in a new folder: how often it made each call, if that is wanted, and what it came to."""
    with tempfile.TemporaryFile() as lines, tempfile.TemporaryFile() as output, tempfile.TemporaryDirectory() as folder:
        lines.write(given.encode())
        lines.seek(0)
        run = Run(program, lines, output, counts, folder)
        made, status = run.counts() if is_counted else {}, run.end()
        output.seek(0)
        files = {str(it.relative_to(folder)): it.read_bytes() for it in Path(folder).rglob("*") if it.is_file()}
        return made, Came(status, output.read().decode(errors="replace"), files)


def faults_of_texts(base: Came, came: Came) -> tuple[int, list[str]]:
    """How many answers of a run are for want of memory, and what is wrong with it."""
    lines, others = base.text.splitlines(), came.text.splitlines()
    if (base.status, len(lines)) != (came.status, len(others)):
        return 0, [f"status {came.status}, {len(others)} lines"]
    differ = [(line, other) for line, other in zip(lines, others) if line != other]
    wrong = [f"`{other}` in place of `{line}`" for line, other in differ if not other.endswith(WANTS)]
    wants = len(differ) - len(wrong)
    return wants, wrong + [f"{wants} answers for want of memory"] * (wants > 1)


def faults_of_packing(base: Came, came: Came) -> tuple[int, list[str]]:
    """Whether the program has found no memory, and what is wrong with a run."""
    if came == base:
        return 0, []
    if came.status == 3 and base.text.startswith(came.text) and came.files in ({}, base.files):
        return 1, []
    return 0, [f"status {came.status}, files {sorted(came.files)}: {came.text!r}"]


def faults_of_calls(base: Came, came: Came) -> tuple[int, list[str]]:
    """Whether the script itself has found no memory, and what is wrong with a run."""
    if came == base:
        return 0, []
    if came.status == 1 and base.text.startswith(came.text):
        return 1, []
    pairs = zip(base.text.splitlines(), came.text.splitlines())
    first = next((f"`{other}` in place of `{line}`" for line, other in pairs if line != other), "cut")
    return 0, [f"status {came.status}; {first}"]


def examples() -> Iterator[str]:
    """The examples of calls that are repeated, each with the files that it names."""
    script = (CRATES / "agent_script/stdin").read_text()
    files, name = {}, ""
    for line in re.findall(r"^! (?:file|more|rows|lettered) .*$", script, re.M):
        name = name if line.startswith("! more ") else line.split(" ")[2]
        files.setdefault(name, []).append(line)
    for example in script.split("\n\n"):
        if re.search(r"^! (?:insist|resend) ", example, re.M):
            named = dict.fromkeys(re.findall(r" < (\S+)$", example, re.M))
            yield "\n".join(line for name in named for line in files[name]) + "\n\n" + example + "\n"


def program_of(name: str, *words: str) -> Program:
    return Program.of(built(CRATES / name / "out" / name), *words)


def try_all(title: str, program: Program, given: str, every: int, judge: Callable, form: str, before: Counter) -> Counter:
    """Makes the runs over these lines, prints what they came to, and counts which passed.

    So many of each call as `before` has come before the first line, and are neither counted nor refused.
    """
    made, base = run_once(program, given, {}, is_counted=True)
    refused = [(call, n) for call, count in made.items() for n in range(before[call] + 1, count + 1, every)]
    with multiprocessing.Pool() as lanes:
        runs = lanes.starmap(run_once, [(program, given, {call: n}) for call, n in refused], chunksize=16)
    judged = [judge(base, came) for _, came in runs]
    faults = [f"{call} {n}: {fault}\n" for (call, n), (_, wrong) in zip(refused, judged) for fault in wrong]
    allocations = sum(made.values()) - before.total()
    print(*faults, f"{title}: {allocations} allocations, {len(runs)} runs with one refused, {len(faults)} faults", sep="")
    # One run more is that with none refused, which has to make allocations, and to end well.
    is_sound = base.status == 0 and bool(judged)
    if not is_sound:
        print(f"{title}: status {base.status} with none refused")
    wants = Counter(count for count, _ in judged)
    print("   ", form.format(wants[0], wants[1]), flush=True)
    return Counter(not wrong for _, wrong in judged) + Counter([is_sound])


def try_packing(every: int) -> Counter:
    """Packs, checks, unpacks and restores the deposit of a registry of some rows."""
    counts = Counter()
    with tempfile.TemporaryDirectory() as folder:
        write_tables(Path(folder))
        words = ["--tld", "example", "--date", DAY, "--kind", "full", "--revision", "0", "--id", number_of(DAY)]
        _, packed = run_once(program_of("deposit", "pack", f"{folder}/tables", *words, "--out", "out"), "", {})
        part = Path(folder, PART)
        part.write_bytes(packed.files[f"out/{PART}"])
        later = ["--tld", "example", "--date", NEXT_DAY, "--kind", "diff", "--revision", "0", "--id", number_of(NEXT_DAY)]
        for call in (("pack", f"{folder}/tables", *words, "--out", "out"),
                     ("pack", f"{folder}/tables", *words, "--all", "--out", "out"),
                     ("pack", f"{folder}/tables", *later, "--whole", "--after", str(part), "--out", "out"),
                     ("check", str(part)), ("unpack", str(part), "--out", "out"), ("restore", str(part), "--out", "out")):
            counts += try_all(f"deposit {call[0]}", program_of("deposit", *call), "", every, faults_of_packing,
                              "as without in {} runs, ended with status 3 in {}", Counter())
    return counts


def main() -> int:
    words = parser(__doc__)
    words.add_argument("what", nargs="?", choices=("texts", "packing", "calls"))
    words.add_argument("--every", type=int, default=1)
    words.add_argument("--only", type=int)
    asked, counts = words.parse_args(), Counter()
    if why := lacking():
        print(f"skipped: memory that is refused: {why}")
        return tell(0, 0, 1)
    if asked.what in (None, "texts"):
        before, _ = run_once(program_of("bench_tools", "usage"), "", {}, is_counted=True)
        counts += try_all("texts", program_of("bench_tools", "texts"), "", asked.every, faults_of_texts,
                          "answers for want of memory: none in {} runs, one in {}", Counter(before))
    if asked.what in (None, "packing"):
        counts += try_packing(asked.every)
    if asked.what in (None, "calls"):
        program = program_of("agent_script")
        for number, given in enumerate(examples(), 1):
            if asked.only in (None, number):
                counts += try_all(re.search(r"^# (.*)$", given, re.M)[1], program, given, asked.every, faults_of_calls,
                                  "as without in {} runs, ended by the script itself in {}", Counter())
    return tell(counts[True], counts[False])


if __name__ == "__main__":
    sys.exit(main())
