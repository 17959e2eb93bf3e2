#!/usr/bin/env python3
"""Times a statement through the program `escrow`: a full deposit of 8 MiB in eight parts is verified and its notice
recorded, against `sha256sum` of the same files and one committed insert by `sqlite3`. And `explain` of one whose last
contact has no registrar, against `preview` of the same, with the peak memory of both.

    bench/statement.py [PROGRAM]

It takes some ten seconds. It needs the programs that `rt run` builds in crates/escrow and crates/deposit, sha256sum and sqlite3.
"""
import os
import pathlib
import shutil
import subprocess
import tempfile
import time

import vaults
import verify

PROGRAM = vaults.program(__doc__)
PART = 1024 * 1024
PARTS = 8
RUNS = 15
NOTICE = "CREATE TABLE notice (tld TEXT NOT NULL, number INTEGER NOT NULL, at INTEGER NOT NULL, PRIMARY KEY (tld, number)) STRICT;"


def run(*words):
    done = subprocess.run(words, capture_output=True)
    assert done.returncode == 0, (words, done)
    return done.stdout.decode()


def seconds(*words):
    start = time.perf_counter()
    printed = run(*words)
    return time.perf_counter() - start, printed


def part_files(folder, deposit):
    """The deposit cut into eight part files of at most 1 MiB each."""
    paths = []
    for i in range(PARTS):
        path = folder / f"example_2026-08-02_full_S{i + 1}_R0.ryde"
        path.write_bytes(deposit[i * PART : (i + 1) * PART])
        paths.append(path)
    return paths


def filled_vault(folder, paths):
    """A vault that has received the parts."""
    folder.mkdir()
    run(PROGRAM, "init", folder, "--blocks", "4096", "--number", "0000000000000001")
    run(PROGRAM, "register", folder, "example", "--first", "2026-08-02")
    for path in paths:
        run(PROGRAM, "put", folder, path, "--now", "2026-08-02T10:00:00Z")


def statement(top, vault):
    """The time of one statement, in a copy of the vault."""
    copy = top / "copy"
    shutil.rmtree(copy, ignore_errors=True)
    shutil.copytree(vault, copy)
    words = ["--date", "2026-08-02", "--kind", "full", "--revision", "0", "--parts", str(PARTS), "--id", verify.ID]
    took, printed = seconds(PROGRAM, "verify", copy, "example", *words, "--now", "2026-08-02T10:05:00Z")
    assert " RECEIPT " in printed, printed
    return took


def reading(*words):
    """The seconds, the peak memory in MiB and the first word of what a call prints."""
    start = time.perf_counter()
    with subprocess.Popen(words, stdout=subprocess.PIPE) as call:
        printed = call.stdout.read().decode()
        _, status, used = os.wait4(call.pid, 0)
        call.returncode = os.waitstatus_to_exitcode(status)
    assert call.returncode == 0, (words, printed)
    return time.perf_counter() - start, used.ru_maxrss / 1024, printed


def explained(top, deposit):
    """The least seconds and the most MiB of `preview` and of `explain`, over a deposit that fails at its end."""
    vault, stated = top / "failing", top / "stated"
    words = ["--date", "2026-08-02", "--revision", "0"]
    told = [*words, "--kind", "full", "--parts", str(PARTS), "--id", verify.ID, "--now", "2026-08-02T10:05:00Z"]
    filled_vault(vault, part_files(top, deposit))
    shutil.copytree(vault, stated)
    run(PROGRAM, "verify", stated, "example", *told)
    previews, explanations = [], []
    for _ in range(RUNS):
        previews.append(reading(PROGRAM, "preview", vault, "example", *told))
        explanations.append(reading(PROGRAM, "explain", stated, "example", *words))
    assert " FAILURE-12 " in previews[0][2], previews[0]
    assert explanations[0][2].startswith("FAILURE-12 contact row "), explanations[0]
    return [(min(one[0] for one in runs), max(one[1] for one in runs)) for runs in (previews, explanations)]


def by_commands(top, paths, i):
    """The time of sha256sum of the parts, and of one committed insert."""
    database = top / "notices.db"
    if not database.exists():
        run("sqlite3", database, f"PRAGMA journal_mode = WAL; {NOTICE}")
    digests, _ = seconds("sha256sum", *paths)
    insert, _ = seconds("sqlite3", database, f"PRAGMA synchronous = FULL; INSERT INTO notice VALUES ('example', {i}, 0);")
    return digests, insert


def main():
    rows = verify.registry(False)
    deposit = verify.packed(rows)
    assert 7 * PART < len(deposit) <= PARTS * PART, len(deposit)
    with tempfile.TemporaryDirectory() as folder:
        top = pathlib.Path(folder)
        paths = part_files(top, deposit)
        vault = top / "vault"
        filled_vault(vault, paths)
        ours = min(statement(top, vault) for _ in range(RUNS))
        pairs = [by_commands(top, paths, i) for i in range(RUNS)]
        digests = min(pair[0] for pair in pairs)
        insert = min(pair[1] for pair in pairs)
        print("| `verify` | `sha256sum` | insert | ratio |")
        print("|---|---|---|---|")
        times = " | ".join(f"{taken * 1000:.0f} ms" for taken in (ours, digests, insert))
        print(f"| {times} | {ours / (digests + insert):.1f} |")
        rows["contact"][-1] = "C19999,C19999-EX,R999,2020-01-01T00:00:00Z\n"
        (preview, before), (explanation, then) = explained(top, verify.changed(deposit, verify.files_of(rows)))
        print("\n| `preview` | `explain` | ratio | memory of both |")
        print("|---|---|---|---|")
        print(f"| {preview * 1000:.0f} ms | {explanation * 1000:.0f} ms | {explanation / preview:.2f} | {before:.0f} and {then:.0f} MiB |")


if __name__ == "__main__":
    main()
