#!/usr/bin/env python3
"""Times the program `escrow`: putting parts, opening vaults of many registries, and a thousand puts through a server.

    bench/agent.py [PROGRAM]

It takes about two minutes. It needs the program that `rt run` builds in crates/escrow, cp, sync, sqlite3 and GNU time.

The rows of the vaults stand in the order in which deposits come, day by day. `by day / in order` compares an opening with
that of the same rows in the order of their keys, and `the database alone` compares what of the two is the database's. Time
and memory of a part are those above the first opening; memory is a peak. What is compared is done by turns, and each number
is the least of several, since whatever else the machine does only adds to it.
"""
import contextlib
import datetime
import hashlib
import os
import pathlib
import shutil
import sqlite3
import statistics
import subprocess
import tempfile
import time

import vaults
from release import call
from serve import answered, milliseconds, new_buffer, put_request, serving
from vaults import OTHER, YEAR, deposits, number

PROGRAM = vaults.program(__doc__)
FIRST_DAY = datetime.date(2000, 1, 1)
NOW = datetime.date(2400, 1, 1)
BLOCKS = vaults.BLOCKS
PUTS = 100
# Registries and days.
SIZES = ((1, 10), (50, 20), (500, 20), (500, 200), (500, 800))
UNIT = 10_000
BUSY = (500, 200)
MANY = 1_000


def seconds(work, *words):
    start = time.perf_counter()
    work(*words)
    return time.perf_counter() - start


def run(*words, status=0):
    done = subprocess.run(words, stdout=subprocess.PIPE, stderr=subprocess.PIPE)
    assert done.returncode == status, (words, done)


# ---- putting


def part_file(folder, i, content):
    """The file of a part, of the ith day."""
    day = FIRST_DAY + datetime.timedelta(days=i)
    path = folder / f"example_{day.isoformat()}_full_S1_R0.ryde"
    path.write_bytes(content)
    return path


def put(folder, path):
    run(PROGRAM, "put", folder, path, "--now", f"{NOW.isoformat()}T00:00:00Z")


def row(i, content):
    *values, _, _, extents = vaults.part_row("example", FIRST_DAY + datetime.timedelta(i), 0, 1, "full", NOW, 1 + i)
    return *values, len(content), hashlib.sha256(content).digest(), extents


def copy_by_commands(folder, path, i):
    """What `put` does, by commands: a copy that is synced, and one committed row."""
    copy = folder / "copies" / path.name
    run("cp", path, copy)
    run("sync", copy)
    *values, sha, extents = row(i, b"")
    shown = ", ".join(repr(value) for value in values)
    insert = f"INSERT INTO part VALUES ({shown}, x'{sha.hex()}', x'{extents.hex()}')"
    run("sqlite3", folder / "custody.db", insert)


def copy_by_calls(folder, path, i):
    """The same by calls within this process."""
    copy = open(folder / "copies" / path.name, "wb")
    copy.write(path.read_bytes())
    copy.flush()
    os.fsync(copy.fileno())
    copy.close()
    vaults.insert(folder, part=[row(i, b"")])


def times_of_puts(top, name, content):
    folders = [top / f"{kind}-{name.replace(' ', '-')}" for kind in ("vault", "commands", "calls")]
    for folder in folders:
        vaults.new_vault(PROGRAM, folder, ["example"], FIRST_DAY)
        (folder / "copies").mkdir()
    taken = ([], [], [])
    for i in range(PUTS):
        path = part_file(top, i, content)
        taken[0].append(seconds(put, folders[0], path))
        taken[1].append(seconds(copy_by_commands, folders[1], path, i))
        taken[2].append(seconds(copy_by_calls, folders[2], path, i))
    ours, commands, calls = map(min, taken)
    print(f"| {name} | {ours / commands:.2f} | {ours / calls:.2f} |", flush=True)


def puts(top):
    print("| part | `put` / commands | `put` / one process |")
    print("|---|---|---|")
    times_of_puts(top, "5 bytes", b"bytes")
    times_of_puts(top, "1 MiB", os.urandom(1 << 20))


# ---- opening


def opening(folder):
    """An opening: its seconds and its peak memory in MiB."""
    measured, out = call(PROGRAM, "report", folder, OTHER)
    assert out == b"", out
    return measured


def look(folder):
    """Opens the database, which is checked whole, and finds that there is a vault. No part is read."""
    run(PROGRAM, "init", folder, "--blocks", BLOCKS, "--number", "0000000000000001", status=1)


def check_by_sqlite(folder):
    """What an opening asks of the database, by the sqlite3 of this machine."""
    run("sqlite3", folder / "custody.db", "PRAGMA integrity_check; PRAGMA foreign_key_check; SELECT * FROM part")


def runs(rows):
    """How often a vault of so many rows is opened."""
    return max(3, min(25, 400_000 // rows))


@contextlib.contextmanager
def two_orders(top, registries, days):
    """A vault whose parts came day by day, and one with the same rows in the order of their keys."""
    by_day, in_order = top / "by-day", top / "in-order"
    rows = list(vaults.part_rows(registries, days))
    vaults.lived_vault(PROGRAM, by_day, registries, part=rows)
    vaults.lived_vault(PROGRAM, in_order, registries, part=sorted(rows, key=lambda it: it[:4]))
    yield by_day, in_order
    shutil.rmtree(by_day)
    shutil.rmtree(in_order)


def measured(by_day, in_order):
    """The seconds of an opening and its peak memory, and the seconds of the same rows in order, of the database with each
    of the two, and of sqlite3."""
    alone = seconds(look, by_day), seconds(look, in_order)
    return *opening(by_day), opening(in_order)[0], *alone, seconds(check_by_sqlite, by_day)


def openings(top):
    heads = "parts", "registries", "ms", "by day / in order", "the database alone", "of it the database", "/ `sqlite3`"
    print(f"\n| {' | '.join(heads)} | a part (×) | MiB | bytes a part |")
    print("|---|---|---|---|---|---|---|---|---|---|")
    first = unit = None
    for registries, days in SIZES:
        count = registries * days
        with two_orders(top, registries, days) as (by_day, in_order):
            taken = [measured(by_day, in_order) for _ in range(runs(count))]
        ours, peak, sorted_rows, database, sorted_database, check = map(min, zip(*taken))
        first = first or (ours, peak, count)
        each = (ours - first[0]) / (count - first[2]) if count > first[2] else 0
        unit = each if count == UNIT else unit
        memory = f"{(peak - first[1]) * 1048576 / (count - first[2]):,.0f}" if each else ""
        orders = f"{ours / sorted_rows:.2f} | {database / sorted_database:.2f}"
        shown = f"{orders} | {database / ours:.0%} | {ours / check:.1f} | {f'{each / unit:.2f}' if unit else ''}"
        print(f"| {count:,} | {registries} | {ours * 1000:,.0f} | {shown} | {peak:.1f} | {memory} |", flush=True)


def years(top):
    """Openings after a year: a part and a receipt each day of each registry."""
    print("\n| registries, a year | parts, notices | opening | (×) | of it the database |")
    print("|---|---|---|---|---|")
    first = None
    for registries in (1, BUSY[0]):
        folder, count = top / f"year-{registries}", registries * YEAR
        rows = {"part": vaults.part_rows(registries, YEAR), "notice": vaults.receipt_rows(registries, YEAR)}
        vaults.lived_vault(PROGRAM, folder, registries, **rows)
        taken = [(opening(folder)[0], seconds(look, folder)) for _ in range(runs(2 * count))]
        ours, database = map(min, zip(*taken))
        first = first or ours
        print(f"| {registries} | {count:,} each | {ours:.3f} s | {ours / first:.1f} | {database / ours:.0%} |", flush=True)
        shutil.rmtree(folder)


# ---- a thousand puts


def served_puts(top):
    """A thousand puts by turns: into a vault of many parts, and into one of the same registries without parts. They are the
    next deposits of each registry."""
    registries, days = BUSY
    before = registries * days
    names = [f"{tld}_{day}_{kind}_S1_R0.ryde" for tld, day, kind in deposits(registries, days + MANY // registries)][before:]
    folders, buffer, taken = (top / "none", top / "many"), new_buffer(), ([], [])
    for folder, rows in zip(folders, ([], vaults.part_rows(registries, days))):
        vaults.lived_vault(PROGRAM, folder, registries, part=rows)
    with contextlib.ExitStack() as stack:
        ports = [stack.enter_context(serving(PROGRAM, it, len(names)))[0] for it in folders]
        for name in names:
            for port, times in zip(ports, taken):
                times.append(answered(port, put_request(name, b"bytes"), buffer, 201))
    print(f"\n| {len(names):,} `PUT`s: parts before | ms: median, least | (×) | by the least |")
    print("|---|---|---|---|")
    for count, times in zip((0, before), taken):
        shown = " | ".join(f"{work(times) / work(taken[0]):.2f}" for work in (statistics.median, min))
        print(f"| {count:,} | {milliseconds(times)} | {shown} |", flush=True)


if __name__ == "__main__":
    with tempfile.TemporaryDirectory(dir=".") as name:
        folder = pathlib.Path(name).resolve()
        puts(folder)
        openings(folder)
        years(folder)
        served_puts(folder)
