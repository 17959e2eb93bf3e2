#!/usr/bin/env python3
"""Times `deposit pack`, `check`, `unpack` and `restore` of a full deposit of 8 MiB, and `pack`, `check` and `restore` of a
differential one of 100 KiB behind it and thirty others. `pack --whole` makes that one of all tables as they are after it,
their rows in any order. They are compared with `escrow preview` of the same deposits, and with Python programs that pack the
same tables, restore the same deposits and find the same changes, and check nothing: they have to make the same bytes. The
peak memory of each call is a multiple of the full deposit.

    bench/pack.py [PROGRAM]

PROGRAM is `escrow`. It takes two or three minutes. It needs the programs that `rt run` builds in crates/escrow and
crates/deposit.
"""
import argparse
import csv
import hashlib
import io
import json
import pathlib
import random
import shutil
import sys
import tempfile

import chain
import vaults
from verify import COUNTED, TABLES, URIS

PART = 1024 * 1024
RUNS = 7


# ---- packing by hand


def rows_in(data):
    return list(csv.reader(io.StringIO(data.decode(), newline="")))


def spelled(rows):
    text = io.StringIO()
    csv.writer(text, lineterminator="\n").writerows(rows)
    return text.getvalue().encode()


def entry(table, data):
    return {"length": len(data), "name": table, "sha256": hashlib.sha256(data).hexdigest()}


def tables_in(folder):
    """The rows of the tables of a folder."""
    paths = {table: folder / f"{table}.csv" for table in TABLES}
    return {table: rows_in(path.read_bytes()) for table, path in paths.items() if path.exists()}


def deposits_in(data):
    """The rows and the deleted keys of each deposit in these bytes, where they stand one behind the other."""
    while data:
        end = 14 + int(data[5:13])
        said, found = json.loads(data[14:end]), ({}, {})
        for entries, tables in zip((said["contents"], said.get("deletes", [])), found):
            for file in entries:
                tables[file["name"]] = rows_in(data[end : end + file["length"]])
                end += file["length"]
        yield found
        data = data[end:]


def counts_after(deposits):
    """How many keys of each kind there are after deposits of these rows and deleted keys."""
    keys = {table: set() for table in COUNTED}
    for contents, deletes in deposits:
        for table, known in keys.items():
            known.difference_update(row[0] for row in deletes.get(table, ()))
            known.update(row[0] for row in contents.get(table, ()))
    return dict(zip(URIS, map(len, keys.values())))


def pack_by_hand(words):
    """Does what `deposit pack` does with these words, and checks nothing."""
    asked = asked_in(words)
    folder = pathlib.Path(asked.tables)
    contents, deletes = tables_in(folder), tables_in(folder / "deletes")
    before = deposits_in(b"".join(path.read_bytes() for path in asked.after))
    write_deposit(asked, contents, deletes, counts_after([*before, (contents, deletes)]))


def asked_in(words):
    parser = argparse.ArgumentParser()
    for word in ("tables", "--tld", "--date", "--kind", "--revision", "--id", "--previous", "--out"):
        parser.add_argument(word)
    parser.add_argument("--after", nargs="*", type=pathlib.Path, default=[])
    return parser.parse_args(words)


def write_deposit(asked, contents, deletes, counts):
    """Writes the parts of the deposit of these rows and deleted keys."""
    out = pathlib.Path(asked.out)
    files, gone = ([(table, spelled(rows)) for table, rows in it.items()] for it in (contents, deletes))
    envelope = {
        "contents": [entry(*file) for file in files],
        "header": {"count": counts, "tld": asked.tld},
        "id": asked.id,
        "rdeMenu": {"objURI": URIS, "version": "1.0"},
        "resend": int(asked.revision),
        "type": asked.kind.upper(),
        "watermark": f"{asked.date}T00:00:00Z",
    }
    if asked.kind != "full":
        envelope |= {"deletes": [entry(*file) for file in gone], "prevId": asked.previous}
    head = json.dumps(envelope, separators=(",", ":"), sort_keys=True).encode()
    data = b"RDE1 %08d\n" % len(head) + head + b"".join(text for _, text in files + gone)
    out.mkdir()
    for place, at in enumerate(range(0, len(data), PART)):
        name = f"{asked.tld}_{asked.date}_{asked.kind}_S{place + 1}_R{asked.revision}.ryde"
        (out / name).write_bytes(data[at : at + PART])


# ---- restoring by hand

OWNERS = {"domainContacts": "domain", "domainStatuses": "domain", "domainNameServers": "domain", "hostAddresses": "host"}


def ascending(rows):
    return sorted(rows, key=lambda row: [field.encode() for field in row])


def tables_after(paths):
    """The rows of each table after the deposits of these parts, by day: those of each object by its key."""
    tables = {table: {} for table in TABLES}
    for contents, deletes in deposits_in(b"".join(pathlib.Path(path).read_bytes() for path in paths)):
        for table, found in tables.items():
            owner = OWNERS.get(table, table)
            for rows in contents.get(table, ()), contents.get(owner, ()), deletes.get(owner, ()):
                for row in rows:
                    found.pop(row[0], None)
        for table, rows in contents.items():
            for row in rows:
                tables[table].setdefault(row[0], []).append(row)
    return tables


def restore_by_hand(out, *parts):
    """Does what `deposit restore` does with these parts, by day, and checks nothing."""
    pathlib.Path(out).mkdir()
    for table, found in tables_after(parts).items():
        rows = ascending(row for rows in found.values() for row in rows)
        pathlib.Path(out, f"{table}.csv").write_bytes(spelled(rows))


# ---- finding changes by hand


def pack_whole_by_hand(words):
    """Does what `deposit pack --whole` does with these words of a differential deposit, and checks nothing."""
    asked = asked_in(words)
    before, tables = tables_after(asked.after), tables_in(pathlib.Path(asked.tables))
    now, changed = {table: {} for table in TABLES}, {table: set() for table in TABLES}
    for table, rows in tables.items():
        old, new = before[table], now[table]
        for row in rows:
            new.setdefault(row[0], []).append(row)
        different = (key for key in old.keys() | new.keys() if sorted(old.get(key, ())) != sorted(new.get(key, ())))
        changed[OWNERS.get(table, table)].update(different)
    contents, deletes = {}, {}
    for table, rows in tables.items():
        keys = changed[OWNERS.get(table, table)]
        contents[table] = ascending(row for row in rows if row[0] in keys)
        deletes[table] = ascending([key] for key in changed[table] if key not in now[table])
    counts = dict(zip(URIS, (len(now[table]) for table in COUNTED)))
    write_deposit(asked, *({table: rows for table, rows in it.items() if rows} for it in (contents, deletes)), counts)


# ---- the comparison


def write_shuffled(folder, parts):
    """Writes the tables after the deposits of these parts, their rows as a database gives them: in any order."""
    folder.mkdir()
    dice = random.Random(7)
    for table, found in tables_after(parts).items():
        rows = [row for rows in found.values() for row in rows]
        dice.shuffle(rows)
        (folder / f"{table}.csv").write_bytes(spelled(rows))


def calls_for(program, vault, deposits, out):
    """What is timed for the last of these deposits, by names: the words of each call."""
    vault.mkdir()
    stated, last = chain.fill(program, vault, deposits), deposits[-1]
    parts = [part for deposit in deposits for part in deposit.parts]
    whole = vault.with_name(f"whole-{vault.name}")
    write_shuffled(whole, parts)
    calls = {
        "`preview`": [program, "preview", vault, *stated],
        "`pack`": [vaults.DEPOSIT, "pack", last.tables, *last.packing, "--out", out],
        "`check`": [vaults.DEPOSIT, "check", *last.parts, *last.after],
        "`unpack`": [vaults.DEPOSIT, "unpack", *last.parts, "--out", out],
        "Python": [sys.executable, __file__, "--by-hand", last.tables, *last.packing, "--out", out],
        "`restore`": [vaults.DEPOSIT, "restore", *parts, "--out", out],
        "Python's": [sys.executable, __file__, "--restore-by-hand", out, *parts],
        "`pack --whole`": [vaults.DEPOSIT, "pack", whole, "--whole", *last.packing, "--out", out],
        "Python, whole": [sys.executable, __file__, "--whole-by-hand", whole, *last.packing, "--out", out],
    }
    left_out = ("`unpack`",) if last.after else ("`pack --whole`", "Python, whole")
    return {name: words for name, words in calls.items() if name not in left_out}


def files_of(folder):
    return {path.relative_to(folder): path.read_bytes() for path in folder.rglob("*.*")}


def done(words, out):
    """The seconds of a call, what it prints, and the files that it makes."""
    shutil.rmtree(out, ignore_errors=True)
    taken, printed = vaults.seconds(*words)
    return taken, printed.decode(), files_of(out)


def agree(calls, deposit, out):
    """Sees that the deposit passes, is what the Python programs make, and is unpacked as its tables."""
    printed, made = {}, {}
    for name, words in calls.items():
        _, printed[name], made[name] = done(words, out)
    assert " RECEIPT " in printed["`preview`"], printed
    assert printed["`check`"].startswith("PASS "), printed
    assert made["`pack`"] == made["Python"] == {pathlib.Path(it.name): it.read_bytes() for it in deposit.parts}
    assert made["`restore`"] == made["Python's"]
    if "`pack --whole`" in made:
        assert made["`pack --whole`"] == made["Python, whole"] == made["`pack`"]
    if "`unpack`" in made:
        del made["`unpack`"][pathlib.Path("envelope.json")]
        assert made["`unpack`"] == files_of(deposit.tables)


def measured(calls, out):
    """The least seconds and the peak MiB of each call."""
    taken, peaks = {name: [] for name in calls}, {}
    for name, words in [*calls.items()] * RUNS:
        taken[name].append(done(words, out)[0])
    for name, words in calls.items():
        shutil.rmtree(out, ignore_errors=True)
        peaks[name] = chain.peak(*words)
    return {name: (min(taken[name]), peaks[name]) for name in calls}


def cells(found, name, size):
    """The cells of a call: its time, alone and as a multiple of that of `preview`, and its memory."""
    if name not in found:
        return " |  | "
    seconds, mib = found[name]
    return f"{seconds * 1000:,.0f} | {seconds / found['`preview`'][0]:.1f} | {mib * 1024 * 1024 / size:.1f}"


def main():
    program = vaults.program(__doc__)
    with tempfile.TemporaryDirectory() as folder:
        top = pathlib.Path(folder)
        out, deposits, found = top / "out", list(chain.packed(top)), []
        for name, those in (("first", deposits[:1]), ("all", deposits)):
            calls = calls_for(program, top / name, those, out)
            agree(calls, those[-1], out)
            found.append(measured(calls, out))
        size = sum(part.stat().st_size for part in deposits[0].parts)
    print("| call | FULL, ms | (×) | memory / FULL | DIFF, ms | (×) | memory / FULL |")
    print("|---|---|---|---|---|---|---|")
    for name in found[0] | found[1]:
        print(f"| {name} | {' | '.join(cells(it, name, size) for it in found)} |")


if __name__ == "__main__":
    if sys.argv[1:2] == ["--by-hand"]:
        pack_by_hand(sys.argv[2:])
    elif sys.argv[1:2] == ["--whole-by-hand"]:
        pack_whole_by_hand(sys.argv[2:])
    elif sys.argv[1:2] == ["--restore-by-hand"]:
        restore_by_hand(*sys.argv[2:])
    else:
        main()
