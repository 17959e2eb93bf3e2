"""What the benches share: the words of a call, days as numbers, a call with its time, vaults of many registries, and tables
that are packed.

The vaults are as in life: each day each registry sends a deposit of one part, a FULL on Sundays, else a DIFF. So the rows
stand in the order of days, and those of a registry far apart. sqlite3 writes them.
"""
import argparse
import contextlib
import datetime
import hashlib
import os
import pathlib
import shutil
import sqlite3
import subprocess
import tempfile
import time

CRATES = pathlib.Path(__file__).resolve().parent.parent / "crates"
ESCROW, DEPOSIT = CRATES / "escrow/out/escrow", CRATES / "deposit/out/deposit"
EPOCH = datetime.date(1970, 1, 1)
FIRST_DAY = datetime.date(2025, 1, 1)
YEAR = 365
BLOCKS = "262144"
COLUMNS = {"registry": 2, "part": 10, "notice": 7, "hold": 5}
# The parts' bytes are the volume's zeros.
LENGTH = 5
DIGEST = hashlib.sha256(bytes(LENGTH)).digest()
# A registry that begins much later. A report of it only opens its vault.
OTHER, LATER = "other", datetime.date(2500, 1, 1)


def parser(text):
    """A parser of a script's words, whose help is the text at the head of the script."""
    return argparse.ArgumentParser(description=text, formatter_class=argparse.RawDescriptionHelpFormatter)


def with_program(text):
    """Such a parser, which takes a PROGRAM: if none is named, the one that `rt run` has built."""
    words = parser(text)
    words.add_argument("program", nargs="?", type=pathlib.Path, default=ESCROW, metavar="PROGRAM")
    return words


def program(text):
    """The program that is named in the call of a script with this text at its head."""
    return with_program(text).parse_args().program.resolve()


@contextlib.contextmanager
def program_and_folder(text):
    """Such a program, and a new folder in the one that is named behind it, or else in the current folder."""
    words = with_program(text)
    words.add_argument("folder", nargs="?", type=pathlib.Path, default=".", metavar="FOLDER")
    asked = words.parse_args()
    with tempfile.TemporaryDirectory(dir=asked.folder.resolve()) as name:
        yield asked.program.resolve(), pathlib.Path(name)


def number(day):
    return (day - EPOCH).days


def seconds(*words):
    """How long a call took, and what it printed."""
    start = time.perf_counter()
    done = subprocess.run(words, stdout=subprocess.PIPE, stderr=subprocess.PIPE)
    taken = time.perf_counter() - start
    assert done.returncode == 0, (words, done.stderr)
    return taken, done.stdout


# ---- vaults of many registries


def deposits(registries, days):
    """The deposits in the order in which they come: the registry, the day and the kind."""
    for day in (FIRST_DAY + datetime.timedelta(i) for i in range(days)):
        kind = "full" if day.isoweekday() == 7 else "diff"
        for i in range(registries):
            yield f"r{i:03}", day, kind


def kept_to(day):
    """The keeping day of a part that was received on a day."""
    last = 28 if (day.month, day.day) == (2, 29) else day.day
    return day.replace(year=day.year + 1, day=last)


def part_row(tld, day, rev, place, kind, received, block):
    """The row of a part that lies in this block; if there is none, its bytes are dropped."""
    extents = block and block.to_bytes(4, "big") + (1).to_bytes(4, "big")
    moments = number(received) * 86400, number(kept_to(received))
    return tld, number(day), rev, place, kind, *moments, LENGTH, DIGEST, extents


def part_rows(registries, days):
    """The rows of the parts, received on their days. Those of the last year are held."""
    dropped = registries * max(0, days - YEAR)
    for i, (tld, day, kind) in enumerate(deposits(registries, days)):
        yield part_row(tld, day, 0, 1, kind, day, 1 + i - dropped if i >= dropped else None)


def receipt_rows(registries, days):
    """The rows of the receipts of the deposits."""
    for i, (tld, day, _) in enumerate(deposits(registries, days)):
        yield tld, 1 + i // registries, 0, number(day), 0, identifier(day), number(day) * 86400


def insert(vault, **tables):
    """Writes rows of tables into a vault, in their order."""
    with contextlib.closing(sqlite3.connect(vault / "custody.db")) as db, db:
        for table, rows in tables.items():
            db.executemany(f"INSERT INTO {table} VALUES ({','.join('?' * COLUMNS[table])})", rows)


def new_vault(escrow, folder, tlds, first, **tables):
    """A vault of the largest size, with these registries, that other one and these rows."""
    folder.mkdir()
    seconds(escrow, "init", folder, "--blocks", BLOCKS, "--number", "0000000000000001")
    insert(folder, registry=[*((tld, number(first)) for tld in tlds), (OTHER, number(LATER))], **tables)


def lived_vault(escrow, folder, registries, **tables):
    """Such a vault of so many registries."""
    new_vault(escrow, folder, (tld for tld, *_ in deposits(registries, 1)), FIRST_DAY, **tables)


def copied(folder):
    """A copy of a vault for a command that does not write its volume: the records, and the same volume."""
    copy = folder.with_name("copy")
    shutil.rmtree(copy, ignore_errors=True)
    copy.mkdir()
    shutil.copy(folder / "custody.db", copy)
    os.link(folder / "vault.vol", copy / "vault.vol")
    return copy


# ---- tables that are packed


def write_tables(folder, contents, deletes={}):
    """Writes the files of tables, and those of deleted keys: each is a list of lines."""
    (folder / "deletes").mkdir(parents=True)
    for place, tables in ((folder, contents), (folder / "deletes", deletes)):
        for table, lines in tables.items():
            (place / f"{table}.csv").write_text("".join(lines))


def identifier(day):
    return f"{day:%Y%m%d}001"


def packing(day, kind, *rest):
    """The words that describe a deposit of `example` to `deposit pack`."""
    return ["--tld", "example", "--date", str(day), "--kind", kind, "--revision", "0", "--id", identifier(day), *rest]


def packed(tables, words, out):
    """Packs the tables of a folder: the paths of the parts, and the words that state the deposit."""
    *lines, call, _ = seconds(DEPOSIT, "pack", tables, *words, "--out", out)[1].decode().splitlines()
    return [out / line.split()[0] for line in lines if ".ryde " in line], call.split()[3:]
