#!/usr/bin/env python3
"""Times a sweep of many registries that missed ten days, with and without a year of parts and receipts before; and a second
sweep, which finds nothing: it opens the vault and looks at each day.

    bench/sweep.py [PROGRAM]

It takes about two minutes. It needs the program that `rt run` builds in crates/escrow.

A sweep without the second is the work for the absences. It is compared with as many rows that sqlite3 commits one by one.
What is compared is done by turns, and each number is the least of several.
"""
import datetime
import pathlib
import shutil
import sqlite3
import tempfile
import time

from vaults import FIRST_DAY, YEAR, copied, lived_vault, part_rows, program, receipt_rows, seconds

MISSED = 10
# Registries, and days that they sent their deposits.
SIZES = ((50, 0), (500, 0), (500, YEAR))
RUNS = 3


def sweep(escrow, vault, days):
    """How long a sweep takes at the end of so many days, and how many notices it prints."""
    moment = FIRST_DAY + datetime.timedelta(days)
    taken, out = seconds(escrow, "sweep", vault, "--now", f"{moment}T00:00:00Z")
    return taken, out.count(b"\n")


def inserts(path, registries):
    """How long as many notices take, each committed by itself, by the sqlite3 of this machine."""
    start = time.perf_counter()
    db = sqlite3.connect(path, isolation_level=None)
    db.execute("PRAGMA journal_mode = WAL")
    db.execute("PRAGMA synchronous = FULL")
    db.execute("CREATE TABLE notice (tld TEXT, number INTEGER, day INTEGER, at INTEGER, PRIMARY KEY (tld, number)) STRICT")
    for i in range(registries):
        for day in range(MISSED):
            db.execute("INSERT INTO notice VALUES (?, ?, ?, ?)", (f"r{i:03}", day + 1, day, 0))
    db.close()
    return time.perf_counter() - start


def measured(escrow, vault, registries, days):
    """The seconds of a sweep of a copy of the vault, of a second one, and of the inserts."""
    copy = copied(vault)
    taken, lines = sweep(escrow, copy, days + MISSED)
    assert lines == registries * MISSED, lines
    again, lines = sweep(escrow, copy, days + MISSED)
    assert lines == 0, lines
    database = vault.with_name("plain.db")
    plain = inserts(database, registries)
    database.unlink()
    return taken, again, plain


def main():
    escrow = program(__doc__)
    print("| registries | receipts before | absences | `sweep` | second | without the second / inserts |")
    print("|---|---|---|---|---|---|")
    with tempfile.TemporaryDirectory(dir=".") as name:
        vault = pathlib.Path(name).resolve() / "vault"
        for registries, days in SIZES:
            lived_vault(escrow, vault, registries, part=part_rows(registries, days), notice=receipt_rows(registries, days))
            taken, again, plain = map(min, zip(*(measured(escrow, vault, registries, days) for _ in range(RUNS))))
            shutil.rmtree(vault)
            counts = f"{registries} | {registries * days:,} | {registries * MISSED:,}"
            print(f"| {counts} | {taken:.2f} s | {again:.2f} s | {(taken - again) / plain:.1f} |", flush=True)


if __name__ == "__main__":
    main()
