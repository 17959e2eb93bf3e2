#!/usr/bin/env python3
"""Times what looks through the notices of a registry of many years, and of one among many of a year: a release that the
ground `sunday_failed` is tested for, one that `five_failed` is tested for, and a preview of a DIFF deposit, which looks for
those that it follows.

    bench/notices.py [PROGRAM]

It takes about two minutes. It needs the programs that `rt run` builds in crates/escrow and crates/deposit.

Each day of each registry has a receipt; a Sunday's deposit failed first, and its second revision came a week later. So
neither ground stands, and both releases are refused (Q16), by a server that has the vault open. The rows stand in the order
of their moments. A preview is a process, which opens the vault; so is a report of another registry, which does nothing but
that. Each number is the least of several.
"""
import collections
import datetime
import json
import pathlib
import tempfile

import vaults
import verify
from serve import answered, new_buffer, serving
from vaults import OTHER, identifier, number, part_row, program, seconds

# Registries and years.
SIZES = ((1, 20), (1, 40), (500, 1))
RUNS = 9
REFUSALS = 50
LAST = datetime.date(2060, 1, 4)  # a Sunday
NOW = f"{LAST + datetime.timedelta(2)}T12:00:00Z"
RECEIPT, FAILURE = 0, 1
TABLES = {"full": dict.fromkeys(verify.TABLES, []), "diff": {}}


def days(years):
    """The days before the last Sunday, and of each, its revisions that were stated: the moment's day, and the kind."""
    for back in range(7 * (years * 365 // 7), 0, -1):
        day = LAST - datetime.timedelta(back)
        yield day, ([(day, FAILURE), (day + datetime.timedelta(7), RECEIPT)] if day.isoweekday() == 7 else [(day, RECEIPT)])


def rows(tlds, years):
    """The rows of parts and those of notices, in the order of their moments."""
    stated = [(moment, day, revision, kind) for day, verdicts in days(years) for revision, (moment, kind) in enumerate(verdicts)]
    parts, notices, told = [], [], collections.Counter()
    for moment, day, revision, kind in sorted(stated, key=lambda it: it[0]):
        for tld in tlds:
            told[tld] += 1
            parts.append(part_row(tld, day, revision, 1, "full", moment, 1 + len(parts)))
            id = f"{day:%Y%m%d}00{revision}"
            notices.append((tld, told[tld], kind, number(day), revision, id, number(moment) * 86400))
    return {"part": parts, "notice": notices}


def new_vault(escrow, top, registries, years):
    """A vault of so many registries and years, where `example` has a FULL deposit that passed and a DIFF one that waits for
    its statement: the words that state that, and the number of notices."""
    vault = top / "vault"
    tlds = ["example", *(f"r{i:03}" for i in range(1, registries))]
    tables = rows(tlds, years)
    vaults.new_vault(escrow, vault, tlds, LAST - datetime.timedelta(years * 366), **tables)
    stated, after = None, []
    for kind, day in (("full", LAST), ("diff", LAST + datetime.timedelta(1))):
        contents = top / f"tables-{kind}"
        vaults.write_tables(contents, TABLES[kind])
        files, stated = vaults.packed(contents, vaults.packing(day, kind, *after), top / f"parts-{kind}")
        for file in files:
            seconds(escrow, "put", vault, file, "--now", f"{day}T10:00:00Z")
        if kind == "full":
            assert b" RECEIPT " in seconds(escrow, "verify", vault, *stated, "--now", f"{day}T11:00:00Z")[1]
        after = ["--previous", identifier(day), "--after", *files]
    return vault, stated, len(tables["notice"]) + 1


def refused(port, ground):
    """How long a release on this ground takes that is refused."""
    body = json.dumps({"ground": ground, "tld": "example"}, separators=(",", ":"))
    request = f"PUT /releases/R-1 HTTP/1.1\r\nHost: 127.0.0.1\r\nContent-Length: {len(body)}\r\n\r\n{body}".encode()
    return min(answered(port, request, new_buffer(), 409, b"Q16 ground does not stand\n") for _ in range(REFUSALS))


def least(runs, *words):
    """The least time of a call, and what it printed."""
    taken = [seconds(*words) for _ in range(runs)]
    return min(it for it, _ in taken), taken[0][1]


def show(escrow, top, registries, years):
    """The row of so many registries and years."""
    vault, stated, count = new_vault(escrow, top, registries, years)
    with serving(escrow, vault, 2 * REFUSALS) as (port, _):
        sunday, five = refused(port, "sunday_failed"), refused(port, "five_failed")
    runs = RUNS if registries == 1 else 3
    preview, line = least(runs, escrow, "preview", vault, *stated, "--now", NOW)
    assert b" RECEIPT " in line, line
    opening, _ = least(runs, escrow, "report", vault, OTHER)
    shown = " | ".join(f"{taken * 1000:,.{places}f} ms" for taken, places in ((sunday, 2), (five, 2), (preview, 0), (opening, 0)))
    print(f"| {registries} | {count:,} | {shown} | {preview / opening:.2f} |", flush=True)


def main():
    escrow = program(__doc__)
    print("| registries | notices | `sunday_failed` | `five_failed` | `preview` | opening | `preview` / opening |")
    print("|---|---|---|---|---|---|---|")
    for registries, years in SIZES:
        with tempfile.TemporaryDirectory(dir=".") as name:
            show(escrow, pathlib.Path(name).resolve(), registries, years)


if __name__ == "__main__":
    main()
