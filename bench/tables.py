#!/usr/bin/env python3
"""Times the reading of tables against Python's csv module, and measures the memory that a reading takes.

    bench/tables.py

It takes a minute or two. It needs the program that `rt run` builds in crates/bench_tools.
"""
import csv
import io
import os
import pathlib
import random
import resource
import subprocess
import tempfile
import time

from vaults import parser

PROGRAM = pathlib.Path(__file__).resolve().parent.parent / "crates/bench_tools/out/bench_tools"
SIZE = 8 * 1024 * 1024
TIMES = 20
RUNS = 5


def filled(row):
    """As many rows as fit into SIZE bytes."""
    rows, size = [], 0
    while size + len(text := row(len(rows)).encode()) <= SIZE:
        rows.append(text)
        size += len(text)
    return rows


def registrar(i):
    if i % 2:
        return f'R{i:06},"Registrar ""{i:06}"", Example Names and Numbers, Inc., of Somewhere",{i + 1},ok\n'
    return f"R{i:06},Registrar {i:06} Example Names and Numbers Limited of Somewhere,{i + 1},ok\n"


def domain(i):
    return f"name-{i:06}.example,D{i:06}-EX,C{i % 5000:05},R{i % 97:03},2020-01-01T00:00:00Z,2027-01-01T00:00:00Z\n"


def repeated(text):
    return text * (SIZE // len(text))


def run(table, path, times, limit=None):
    """What the program prints, its seconds, and its peak memory in bytes."""

    def limited():
        if limit is not None:
            resource.setrlimit(resource.RLIMIT_AS, (limit, limit))

    start = time.perf_counter()
    child = subprocess.Popen([PROGRAM, "table", table, path, str(times)], stdout=subprocess.PIPE, stderr=subprocess.DEVNULL, preexec_fn=limited)
    answer = child.stdout.read().decode().strip()
    _, _, used = os.wait4(child.pid, 0)
    child.returncode = 0
    return answer, time.perf_counter() - start, used.ru_maxrss * 1024


def program_seconds(table, path):
    """Seconds of one reading, without the start of the program and the reading of the file."""
    best = []
    for _ in range(RUNS):
        once = run(table, path, 1)[1]
        often = run(table, path, 1 + TIMES)[1]
        best.append((often - once) / TIMES)
    return min(best)


def python_seconds(data):
    best = []
    for _ in range(RUNS):
        start = time.perf_counter()
        rows = list(csv.reader(io.StringIO(data.decode(), newline="")))
        best.append(time.perf_counter() - start)
        del rows
    return min(best)


def times(folder):
    rng = random.Random(1)
    print("| table, keys | time | Python | ratio |")
    print("|---|---|---|---|")
    for table, row in (("registrar", registrar), ("domain", domain)):
        for order in ("in order", "shuffled"):
            rows = filled(row)
            if order == "shuffled":
                rng.shuffle(rows)
            data = b"".join(rows)
            path = folder / f"{table}.csv"
            path.write_bytes(data)
            answer = run(table, path, 1)[0]
            assert answer == f"{len(rows)} rows", answer
            ours, theirs = program_seconds(table, path), python_seconds(data)
            print(f"| {table}, {order} | {ours * 1000:.0f} ms | {theirs * 1000:.0f} ms | {theirs / ours:.1f} |")


def memory(folder):
    base_path = folder / "empty.csv"
    base_path.write_bytes(b"")
    base = run("registrar", base_path, 1)[2]
    texts = {
        "commas alone": ("registrar", repeated(b",")),
        "quotes alone": ("registrar", repeated(b'"')),
        "line feeds alone": ("registrar", repeated(b"\n")),
        "one row of commas": ("registrar", repeated(b",")[1:] + b"\n"),
        "rows `a,b`, all alike": ("domainNameServers", repeated(b"a,b\n")),
        "rows `a,b` but for the last, one short": ("domainNameServers", repeated(b"a,b\n") + b"a\n"),
        "short rows out of order, the last one twice": (
            "domainNameServers",
            (shuffled := b"".join(short_rows())) + shuffled[shuffled.rfind(b"\n", 0, -1) + 1 :],
        ),
    }
    found = []
    for name, (table, data) in texts.items():
        path = folder / "text.csv"
        path.write_bytes(data)
        answer, _, used = run(table, path, 1)
        found.append(((used - base) / len(data), name, answer))
        for limit in range(4, 1 + used // 1048576 + 64, 8):
            short = run(table, path, 1, limit * 1048576)[0]
            assert short in (answer, "K6", ""), (name, limit, short)
    times, name, answer = max(found)
    print("\n| hostile text, most memory | answer | memory / text |")
    print("|---|---|---|")
    print(f"| {name} | {answer} | {times:.1f} |")


def short_rows():
    letters = "abcdefghijklmnopqrstuvwxyz0123456789"
    rows, size = [], 0
    for i in range(SIZE):
        text = f"{letters[i % 36]}{letters[i // 36 % 36]},{letters[i // 1296 % 36]}{letters[i // 46656 % 36]}\n".encode()
        if size + len(text) > SIZE:
            break
        rows.append(text)
        size += len(text)
    random.Random(2).shuffle(rows)
    return rows


if __name__ == "__main__":
    parser(__doc__).parse_args()
    with tempfile.TemporaryDirectory() as name:
        times(pathlib.Path(name))
        memory(pathlib.Path(name))
