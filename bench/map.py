#!/usr/bin/env python3
"""Times the map of a volume of 262,144 blocks: making it, and placing 256 blocks in it.

    bench/map.py

It takes some ten seconds. It needs the program that `rt run` builds in crates/bench_tools.
"""
import pathlib
import subprocess
import sys
import time

from vaults import parser

PROGRAM = pathlib.Path(__file__).resolve().parent.parent / "crates/bench_tools/out/bench_tools"
RUNS = 5

# What is timed, the program's word, how often, and what it prints at once.
ROWS = [
    ("the map from 100,000 extents", "build", 100, "162143"),
    ("`place(256)`, the last 256 free", "end", 20_000, "261888"),
    ("`place(256)`, each second block used", "holes", 5_000, "261886"),
    ("`place_all(256)`, each second block used", "runs", 500, "130815"),
]


def seconds(kind, times):
    """The seconds of a run, and what it prints."""
    start = time.perf_counter()
    answer = subprocess.run([PROGRAM, "map", kind, str(times)], capture_output=True, text=True, check=True).stdout.strip()
    return time.perf_counter() - start, answer


def microseconds(kind, times, wanted):
    """Microseconds of one call, without the start of the program and the making of the map."""
    best = []
    for _ in range(RUNS):
        once, answer = seconds(kind, 1)
        if answer != wanted:
            sys.exit(f"{kind}: {answer} and not {wanted}")
        best.append((seconds(kind, 1 + times)[0] - once) / times * 1e6)
    return min(best)


def main():
    parser(__doc__).parse_args()
    print("| call | time |")
    print("|---|---|")
    for text, kind, times, wanted in ROWS:
        print(f"| {text} | {microseconds(kind, times, wanted):,.1f} µs |", flush=True)


if __name__ == "__main__":
    main()
