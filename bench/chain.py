#!/usr/bin/env python3
"""Times the statement of a differential deposit that follows a full one of 8 MiB and thirty differential ones of 100 KiB,
through the program `escrow`, against a Python program that reads the same files and makes the same sets of keys; and an
audit of the same vault, which reads and compares the same bytes, and no keys. It also measures the peak memory of each.

    bench/chain.py [PROGRAM]

It takes about half a minute. It needs the programs that `rt run` builds in crates/escrow and crates/deposit.
"""
import dataclasses
import datetime
import hashlib
import json
import pathlib
import shutil
import subprocess
import sys
import tempfile
import time

import vaults
import verify

LATER = 30
RUNS = 5


def days():
    """The days of the differential deposits: none is a Sunday."""
    all_days = (verify.DAY + datetime.timedelta(i) for i in range(1, 100))
    return [day for day in all_days if day.isoweekday() != 7][: LATER + 1]


@dataclasses.dataclass
class Deposit:
    """A deposit: its day and tables, the words that pack it, the last of them `after`, its parts, and what states it."""
    day: datetime.date
    tables: pathlib.Path
    packing: list
    after: list
    parts: list[pathlib.Path]
    stated: list[str]


def tables():
    """The tables of each deposit of the chain: its day and kind, and its rows and deleted keys as lists of lines."""
    yield verify.DAY, "full", verify.registry(False), {}
    for turn, day in enumerate(days()):
        new = [f"new-{turn:02}-{i:04}.example" for i in range(1020)]
        changed = [f"name-{turn * 500 + i:06}.example" for i in range(200)]
        gone = [f"name-{turn * 500 + 200 + i:06}.example\n" for i in range(200)]
        rows = [f"{name},D-EX,C00001,R001,2020-01-01T00:00:00Z,2028-01-01T00:00:00Z\n" for name in sorted(new + changed)]
        yield day, "diff", {"domain": rows}, {"domain": gone}


def packed(top):
    """The deposits of the chain, as `deposit pack` makes them: the parts of each in a folder, with their digests."""
    earlier, previous, behind = [], [], []
    for day, kind, contents, deletes in tables():
        folder, words = top / "tables" / str(day), vaults.packing(day, kind, *previous, *behind)
        vaults.write_tables(folder, contents, deletes)
        parts, stated = vaults.packed(folder, words, top / "parts" / str(day))
        (parts[0].parent / "digests").write_text(" ".join(hashlib.sha256(part.read_bytes()).hexdigest() for part in parts))
        yield Deposit(day, folder, words, behind, parts, stated)
        earlier += parts
        previous, behind = ["--previous", vaults.identifier(day)], ["--after", *earlier]


def after(keys, data):
    """Brings the keys to those after a deposit; its envelope."""
    length = int(data[5:13])
    said, at = json.loads(data[14 : 14 + length]), 14 + length
    brought, named = {}, {}
    for list_of, entries in (("contents", said["contents"]), ("deletes", said.get("deletes", []))):
        for file in entries:
            text, at, table = data[at : at + file["length"]], at + file["length"], file["name"]
            assert hashlib.sha256(text).hexdigest() == file["sha256"]
            if list_of == "contents":
                rows = [row[0] for row in verify.read_table(table, text)]
                brought[table] = set(rows)
            else:
                rows = text.decode().splitlines()
                assert len(set(rows)) == len(rows)
            named.setdefault(table, set()).update(rows)
    for table in verify.COUNTED:
        keys[table] -= named.get(table, set())
        keys[table] |= brought.get(table, set())
    return said


def counts_of(folder):
    """Whether the counts of the last deposit of a folder are the numbers of the keys after all."""
    keys = {table: set() for table in verify.COUNTED}
    for deposit in sorted(pathlib.Path(folder).iterdir()):
        parts = [part.read_bytes() for part in sorted(deposit.iterdir()) if part.suffix == ".ryde"]
        for part, digest in zip(parts, (deposit / "digests").read_text().split()):
            assert hashlib.sha256(part).hexdigest() == digest
        said = after(keys, b"".join(parts))
    return list(said["header"]["count"].values()) == [len(keys[table]) for table in verify.COUNTED]


def fill(program, vault, deposits):
    """Makes a vault that has received these deposits, and has stated all but the last: the words that state that."""
    vaults.seconds(program, "init", vault, "--blocks", "4096", "--number", "0000000000000001")
    vaults.seconds(program, "register", vault, "example", "--first", str(verify.DAY))
    for deposit in deposits:
        for part in deposit.parts:
            vaults.seconds(program, "put", vault, part, "--now", f"{deposit.day}T10:00:00Z")
        words = [*deposit.stated, "--now", f"{deposit.day}T11:00:00Z"]
        if deposit is deposits[-1]:
            return words
        assert b" RECEIPT " in vaults.seconds(program, "verify", vault, *words)[1], deposit.day


def peak(*words):
    """The peak memory of a call, in MiB."""
    launch = [sys.executable, "-S", "-c", verify.LAUNCH, *words]
    return int(subprocess.run(launch, capture_output=True, check=True).stdout) / 1024


def copied(vault):
    copy = vault.with_name("copy")
    shutil.rmtree(copy, ignore_errors=True)
    shutil.copytree(vault, copy)
    return copy


def main():
    program = vaults.program(__doc__)
    with tempfile.TemporaryDirectory() as folder:
        top = pathlib.Path(folder)
        deposits, vault = list(packed(top)), top / "vault"
        vault.mkdir()
        words = fill(program, vault, deposits)
        ours, audits, theirs = [], [], []
        for _ in range(RUNS):
            took, printed = vaults.seconds(program, "verify", copied(vault), *words)
            assert b" RECEIPT " in printed, printed
            ours.append(took)
            took, printed = vaults.seconds(program, "audit", vault)
            assert printed.startswith(b"sound "), printed
            audits.append(took)
            start = time.perf_counter()
            assert counts_of(top / "parts")
            theirs.append(time.perf_counter() - start)
        memory = peak(program, "verify", copied(vault), *words)
        reading = peak(program, "audit", vault)
        other = peak(sys.executable, __file__, "--counts", top / "parts")
        size = sum(part.stat().st_size for part in deposits[0].parts)
        print("| program | time | memory | / full deposit |")
        print("|---|---|---|---|")
        for name, taken, mib in (("`verify`", min(ours), memory), ("`audit`", min(audits), reading), ("Python", min(theirs), other)):
            print(f"| {name} | {taken * 1000:,.0f} ms | {mib:.0f} MiB | {mib * 1024 * 1024 / size:.1f} |")


if __name__ == "__main__":
    if sys.argv[1:2] == ["--counts"]:
        assert counts_of(sys.argv[2])
    else:
        main()
