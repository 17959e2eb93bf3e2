#!/usr/bin/env python3
"""Times a release of a registry of many held parts, and a fetch of the last of them, beside the opening of the same vault.
It also measures the peak memory of each.

    bench/release.py [PROGRAM]

It takes about half a minute. It needs the program that `rt run` builds in crates/escrow, and GNU time.

Each number is the least of several.
"""
import datetime
import hashlib
import pathlib
import sqlite3
import subprocess
import tempfile
import time

from vaults import copied, number, program, seconds

FIRST_DAY = datetime.date(2000, 1, 1)
RECEIVED = datetime.date(2400, 1, 1)
KEEP_DAY = datetime.date(2401, 1, 1)
SIZES = (25_000, 100_000)
RUNS = 5
BLOCK = 4096
LAST = b"bytes"


def name(i):
    """The name of the ith part: eight of a day."""
    return f"example_{FIRST_DAY + datetime.timedelta(days=i // 8)}_full_S{1 + i % 8}_R0.ryde"


def row(i, content):
    extent = (1 + i).to_bytes(4, "big") + (1).to_bytes(4, "big")
    moments = number(RECEIVED) * 86400, number(KEEP_DAY)
    sha = hashlib.sha256(content).digest()
    return "example", number(FIRST_DAY) + i // 8, 0, 1 + i % 8, "full", *moments, len(content), sha, extent


def new_vault(escrow, folder, count):
    """A vault of so many parts of 5 bytes. The bytes of the last stand in its block; those of the others are zeros."""
    folder.mkdir()
    seconds(escrow, "init", folder, "--blocks", "262144", "--number", "0000000000000001")
    seconds(escrow, "register", folder, "example", "--first", FIRST_DAY.isoformat())
    with open(folder / "vault.vol", "r+b") as volume:
        volume.seek(BLOCK * count)
        volume.write(LAST)
    db = sqlite3.connect(folder / "custody.db")
    rows = (row(i, LAST if i == count - 1 else bytes(5)) for i in range(count))
    db.executemany(f"INSERT INTO part VALUES ({','.join('?' * 10)})", rows)
    db.commit()
    db.close()


def call(*words):
    """The seconds of a call and its peak memory in MiB, and what it printed."""
    start = time.perf_counter()
    done = subprocess.run(["/usr/bin/time", "-f", "%M", *words], stdout=subprocess.PIPE, stderr=subprocess.PIPE)
    taken = time.perf_counter() - start
    assert done.returncode == 0, (words, done.stderr)
    return (taken, int(done.stderr) / 1024), done.stdout


def opening(escrow, folder):
    """A report of a registry without notices, which is the opening of its vault."""
    taken, out = call(escrow, "report", folder, "example")
    assert out == b"", out
    return taken


def release(escrow, folder, count):
    """A release of all parts."""
    taken, out = call(escrow, "release", folder, "R-1", "example", "operator", "--now", f"{RECEIVED}T00:00:00Z")
    assert out.count(b"\n") == 1 + count and out.endswith(f"\n{name(count - 1)}\n".encode()), out[:100]
    return taken


def fetch(escrow, folder, count):
    """A fetch of the last part."""
    taken, out = call(escrow, "fetch", folder, "R-1", name(count - 1))
    assert out == LAST, out
    return taken


def measured(escrow, folder, count):
    """The opening of a copy of a vault, a release in it, and a fetch."""
    copy = copied(folder)
    return opening(escrow, copy), release(escrow, copy, count), fetch(escrow, copy, count)


def main():
    escrow = program(__doc__)
    print("| parts | opening | `release` | `fetch` |")
    print("|---|---|---|---|")
    with tempfile.TemporaryDirectory(dir=".") as top:
        for count in SIZES:
            vault = pathlib.Path(top).resolve() / f"v{count}"
            new_vault(escrow, vault, count)
            runs = [measured(escrow, vault, count) for _ in range(RUNS)]
            least = [map(min, zip(*column)) for column in zip(*runs)]
            shown = " | ".join(f"{taken * 1000:,.0f} ms, {peak:.0f} MiB" for taken, peak in least)
            print(f"| {count:,} | {shown} |", flush=True)


if __name__ == "__main__":
    main()
