#!/usr/bin/env python3
"""Times a purge of half the parts of a vault of many registries, and of those of a day, beside the opening of the same vault;
then purges of half with more and more holds: those that stand are of days behind all parts, and those that were lifted are
of days of the parts.

    bench/purge.py [PROGRAM]

It takes about two minutes. It needs the program that `rt run` builds in crates/escrow.

The rows of parts stand in the order in which deposits come, day by day. Each number is the least of several.
"""
import datetime
import pathlib
import shutil
import tempfile

from vaults import FIRST_DAY, OTHER, copied, deposits, insert, kept_to, lived_vault, number, part_row, program, seconds

REGISTRIES = 500
# Days, all held.
SIZES = (100, 400)
# How many holds stand, and how many were lifted.
HOLDS = ((0, 0), (1_000, 0), (1_000, 10_000), (10_000, 10_000))
RUNS = 5
LATE = datetime.date(2400, 1, 1)


def parts(days):
    """The rows of the parts of so many days, each in its block."""
    for i, (tld, day, kind) in enumerate(deposits(REGISTRIES, days)):
        yield part_row(tld, day, 0, 1, kind, day, 1 + i)


def with_holds(vault, days, standing, lifted):
    """A copy of the vault with so many holds, by turns of the registries."""
    copy = copied(vault).rename(vault.with_name(f"h{standing}-{lifted}"))
    moment = number(LATE) * 86400
    late, early = number(LATE), number(FIRST_DAY)
    rows = [(f"H-{i}", f"r{i % REGISTRIES:03}", late + i, moment, None) for i in range(standing)]
    rows += [(f"L-{i}", f"r{i % REGISTRIES:03}", early + i % days, moment, moment) for i in range(lifted)]
    insert(copy, hold=rows)
    return copy


def purged(escrow, vault, days):
    """How long a purge of a copy of the vault takes that drops the parts of so many days."""
    after = kept_to(FIRST_DAY + datetime.timedelta(days))
    taken, out = seconds(escrow, "purge", copied(vault), "--now", f"{after}T00:00:00Z")
    assert out == b"dropped %d\n" % (days * REGISTRIES), out
    return taken


def measured(escrow, vault, days):
    """The seconds of an opening of the vault of so many days, of a purge of half, and of one of a day."""
    opening, _ = seconds(escrow, "report", vault, OTHER)
    return opening, purged(escrow, vault, days // 2), purged(escrow, vault, 1)


def show_sizes(escrow, top):
    """What purges take by the size of the vault."""
    print("| parts | opening | `purge` of half | / opening | `purge` of a day | / opening |")
    print("|---|---|---|---|---|---|")
    for days in SIZES:
        vault = top / f"v{days}"
        lived_vault(escrow, vault, REGISTRIES, part=parts(days))
        opening, half, one = map(min, zip(*(measured(escrow, vault, days) for _ in range(RUNS))))
        shown = " | ".join(f"{it * 1000:,.0f} ms | {it / opening:.2f}" for it in (half, one))
        print(f"| {days * REGISTRIES:,} | {opening * 1000:,.0f} ms | {shown} |", flush=True)


def show_holds(escrow, vault, days):
    """What a purge of half the vault takes with more and more holds."""
    print("\n| holds | lifted | time (×) |")
    print("|---|---|---|")
    first = None
    for standing, lifted in HOLDS:
        held = with_holds(vault, days, standing, lifted)
        time = min(purged(escrow, held, days // 2) for _ in range(RUNS))
        shutil.rmtree(held)
        first = first or time
        print(f"| {standing:,} | {lifted:,} | {time / first:.2f} |", flush=True)


def main():
    escrow = program(__doc__)
    with tempfile.TemporaryDirectory(dir=".") as name:
        top = pathlib.Path(name).resolve()
        show_sizes(escrow, top)
        show_holds(escrow, top / f"v{SIZES[0]}", SIZES[0])


if __name__ == "__main__":
    main()
