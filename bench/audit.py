#!/usr/bin/env python3
"""Times an audit of a vault whose volume is full, against `sha256sum` of files with the bytes of its parts. It also measures
the peak memory, and that of the opening of the same vault (`state`).

    bench/audit.py [PROGRAM]

It takes about two minutes. It needs the program that `rt run` builds in crates/escrow, GNU time and sha256sum.

The volume has 250 MiB of parts: 250 of 1 MiB, and then the same bytes as 64,000 of 4 KiB. Each is a file too, and all are
in the page cache. The three are done by turns, and each number is the least of several.
"""
import datetime
import hashlib
import os
import pathlib
import random
import sqlite3
import tempfile

from release import call
from vaults import number, program, seconds

FIRST_DAY = datetime.date(2000, 1, 1)
RECEIVED = datetime.date(2400, 1, 1)
KEEP_DAY = datetime.date(2401, 1, 1)
BLOCK = 4096
BLOCKS = 64_000
SIZES = (256, 1)
RUNS = 7


def row(i, blocks, content):
    """The ith part, of so many blocks: eight of a day."""
    extent = (1 + i * blocks).to_bytes(4, "big") + blocks.to_bytes(4, "big")
    moments = number(RECEIVED) * 86400, number(KEEP_DAY)
    sha = hashlib.sha256(content).digest()
    key = "example", number(FIRST_DAY) + i // 8, 0, 1 + i % 8
    return *key, "full", *moments, len(content), sha, extent


def contents(blocks):
    """The bytes of each part, of so many blocks. Joined they are the same, whatever their size."""
    source = random.Random(1)
    for _ in range(BLOCKS // SIZES[0]):
        piece = source.randbytes(SIZES[0] * BLOCK)
        for start in range(0, len(piece), blocks * BLOCK):
            yield piece[start : start + blocks * BLOCK]


def new_vault(escrow, folder, files, blocks):
    """A full vault of parts of so many blocks, with a file of each part. It answers their names."""
    folder.mkdir()
    files.mkdir()
    seconds(escrow, "init", folder, "--blocks", str(1 + BLOCKS), "--number", "0000000000000001")
    seconds(escrow, "register", folder, "example", "--first", FIRST_DAY.isoformat())
    rows = []
    with open(folder / "vault.vol", "r+b") as volume:
        volume.seek(BLOCK)
        for i, content in enumerate(contents(blocks)):
            volume.write(content)
            (files / f"{i:x}").write_bytes(content)
            rows.append(row(i, blocks, content))
    db = sqlite3.connect(folder / "custody.db")
    db.executemany(f"INSERT INTO part VALUES ({','.join('?' * 10)})", rows)
    db.commit()
    db.close()
    os.sync()
    return [f"{i:x}" for i in range(len(rows))]


def sums(files, names):
    """A `sha256sum` of all files, in their folder."""
    taken, out = call("env", "-C", files, "sha256sum", "--", *names)
    assert out.count(b"\n") == len(names), out[:100]
    return taken


def opening(escrow, folder, count):
    """A `state`, which opens the vault and lists its parts."""
    taken, out = call(escrow, "state", folder)
    assert out.count(b"\n") == count + 2 and out.endswith(b"\nfree 0 of %d\n" % BLOCKS), out[-100:]
    return taken


def audit(escrow, folder, count):
    taken, out = call(escrow, "audit", folder)
    assert out == b"sound %d\n" % count, out[:100]
    return taken


def measured(escrow, folder, files, names):
    """The seconds and the peak memory of each of the three."""
    count = len(names)
    return sums(files, names), opening(escrow, folder, count), audit(escrow, folder, count)


def main():
    escrow = program(__doc__)
    print("| parts | `sha256sum` | `audit` | `state` | memory of `state` | of `audit` |")
    print("|---|---|---|---|---|---|")
    with tempfile.TemporaryDirectory(dir=".") as name:
        top = pathlib.Path(name).resolve()
        for blocks in SIZES:
            folder, files = top / f"v{blocks}", top / f"f{blocks}"
            names = new_vault(escrow, folder, files, blocks)
            runs = [measured(escrow, folder, files, names) for _ in range(RUNS)]
            least = [list(map(min, zip(*column))) for column in zip(*runs)]
            (plain, _), (opened, before), (audited, peak) = least
            print(
                f"| {len(names):,} of {blocks * 4:,} KiB"
                f" | {plain * 1000:,.0f} ms | {audited * 1000:,.0f} ms | {opened * 1000:,.0f} ms"
                f" | {before:.1f} MiB | {peak:.1f} MiB |",
                flush=True,
            )


if __name__ == "__main__":
    main()
