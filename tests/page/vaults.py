"""The vaults that the desk's page shows in tests: three registries of four hundred days."""
from __future__ import annotations

import datetime
import shutil
from collections.abc import Iterable, Mapping

import lib
from lib import Room, Wrong, part_name

SUNDAY = 6


# The last day of the vault: the day on which the script runs.
TODAY = datetime.datetime.now(datetime.UTC).date()
# How many days the vault has.
DAYS = 400


def back(count: int, day: datetime.date | None = None) -> datetime.date:
    """The day so many days before today, or before another one."""
    return (day or TODAY) - datetime.timedelta(count)


def weekday(count: int) -> int:
    """Of the day so many days before today, or else of the one before it, the one that is no Sunday: as a count."""
    return count + (back(count).weekday() == SUNDAY)


def sunday(count: int) -> int:
    """The Sunday so many days before today, or the last one before that: as a count."""
    return count + (back(count).weekday() - SUNDAY) % 7


class Making:
    """What a vault is told, as lines of a batch by their moments, and the files of the parts."""

    def __init__(self, room: Room):
        self.room, self.lines = room, []
        self.base = lib.packed()
        self.header = lib.taken_apart(self.base)[0]["header"]

    def tell(self, count: int, hour: str, line: str) -> None:
        """Has the vault told a line so many days ago, at an hour; what was today is over already."""
        moment = f"{back(count)}T{hour if count else '00:00:01'}Z"
        self.lines.append((moment, f"{line} --now {moment}"))

    def put(self, tld: str, count: int, revision: int, pieces: list[bytes], hour: str = "10:00:00", later: int = 0) -> None:
        """Sends the parts of a day's revision, on that day or so many days later."""
        for place, piece in enumerate(pieces):
            name = part_name(str(back(count)), part=place + 1, revision=revision, tld=tld)
            self.room.file(f"in/{name}", piece)
            self.tell(count - later, hour, f"put in/{name}")

    def deposit(self, tld: str, count: int, broken: str = "", revision: int = 0, parts: int = 1, later: int = 0) -> None:
        """Sends a day's deposit in so many parts, and states it, so many days later. It is broken by `noise`, `id`, `domain`
        or `envelope`."""
        day, hour = back(count), "01" if later else f"{10 + revision}"
        number = f"{day:%Y%m%d}{revision + 1:03}"
        header = self.header | {"tld": "other" if broken == "domain" else tld}
        whole = lib.changed(self.base, watermark=f"{day}T00:00:00Z", id=number, header=header, resend=revision)
        content = {"noise": b"noise", "envelope": whole.replace(b'"FULL"', b'"HALF"')}.get(broken, whole)
        cuts = [len(content) * it // parts for it in range(parts + 1)]
        self.put(tld, count, revision, [content[a:b] for a, b in zip(cuts, cuts[1:])], f"{hour}:00:00", later)
        stated = f"--date {day} --kind full --revision {revision} --parts {parts} --id {'X' if broken == 'id' else number}"
        self.tell(count - later, f"{hour}:05:00", f"verify {tld} {stated}")

    def deposits(self, tld: str, first: int, last: int, but: Mapping[int, Iterable[str]]) -> None:
        """Sends the deposits of these days. The last one of a day passes, but for the days that are given: those are sent
        as their words say."""
        for count in range(first, last - 1, -1):
            for revision, broken in enumerate(but.get(count, [""])):
                word, _, parts = broken.partition("*")
                self.deposit(tld, count, word, revision, int(parts or 1))

    def do(self, vault: str, blocks: int, number: int, first: Iterable[tuple[str, int]]) -> None:
        """Makes a vault with these registries, each with the count of its first day, and tells it the lines in order."""
        lines = [f"register {tld} --first {back(count)}" for tld, count in first]
        lines += [line for _, line in sorted(self.lines, key=lambda it: it[0])]
        self.room.file("lines", "".join(f"{it}\n" for it in lines))
        if not (self.room.folder / vault).exists():
            (self.room.folder / vault).mkdir()
            self.room.plays(f"$ escrow init {vault} --blocks {blocks} --number {number:016} -> ready {blocks} {number:016}")
        # A program that is not optimised takes minutes.
        done = lib.answer_of(["bash", "-c", f"escrow batch {vault} < lines"], self.room.folder, 1800, self.room.environment)
        if done.status != 0 or done.err:
            raise Wrong("\n".join(["the vault is not made", *done.lines()[-20:]]))
        self.lines = []


def make_alpha(making: Making) -> None:
    """A registry of which nearly every day has a receipt. In thirty days it has four losses that are not of Sundays, and the
    losses of two Sundays that were made good."""
    absent, waits, failed, passed, good = weekday(80), weekday(60), weekday(140), weekday(150), sunday(20)
    late = absent, waits, failed, passed, good
    making.deposits("alpha", DAYS - 1, 0, dict.fromkeys(late, ()) | {
        350: ["noise", ""], 300: ["id", ""], 251: ["domain", ""], 210: ["envelope", "id", ""], sunday(9): ["noise", ""],
        weekday(28): ["id", ""], weekday(16): ["noise", "id", "domain", ""], weekday(120): ["noise"],
        weekday(130): ["noise", "id"], 90: ["*3"], 30: ["*3"]})
    for count in late:
        making.tell(count - 1, "00:05:00", "sweep")
    making.put("alpha", waits, 0, [b"late"], "09:00:00", later=1)
    making.deposit("alpha", failed, "noise", later=1)
    for count in passed, good:
        making.deposit("alpha", count, later=1)
    for reference, count, lifted in (("KEPT", 385, 0), ("COURT-1", 45, 0), ("COURT-2", 50, 40), ("COURT-3", 70, 35),
                                     ("COURT-4", 70, 0)):
        making.tell(count - 1, "12:00:00", f"hold {reference} alpha --date {back(count)}")
        if lifted:
            making.tell(lifted, "12:00:00", f"lift {reference}")
    making.tell(100, "12:00:00", "release HANDED-1 alpha operator")
    making.tell(1, "12:00:00", "release HANDED-2 alpha audit")
    # The keeping day of the first thirty is over.
    making.tell(4, "00:20:00", "purge")


def make_beta(making: Making) -> None:
    """A registry of which nothing has passed for twelve days. Yesterday is due."""
    making.deposits("beta", DAYS - 1, 12, {})
    for count in range(11, 1, -1):
        if count % 2 and back(count).weekday() != SUNDAY:
            making.deposit("beta", count, "noise")
        else:
            making.tell(count - 1, "00:05:00", "sweep")


def make_gamma(making: Making) -> None:
    """A registry that began ten days later. Three days are due, and the parts of two wait."""
    waits = weekday(41)
    making.deposits("gamma", 390, 3, {200: [], 33: [], waits: ["noise"]})
    making.put("gamma", waits, 1, [b"again", b"and again"], "12:00:00")
    making.put("gamma", 1, 0, [b"not stated"])


def make_vaults(room: Room) -> None:
    """Makes the vault `archive` with three registries, and `second` with one of ten days. Nothing sweeps `gamma`."""
    making = Making(room)
    make_alpha(making)
    make_beta(making)
    making.do("archive", 1600, 1, (("alpha", DAYS - 1), ("beta", DAYS - 1)))
    make_gamma(making)
    making.do("archive", 1600, 1, [("gamma", 390)])
    making.deposits("other", 9, 1, {weekday(4): ["noise", ""]})
    making.do("second", 40, 2, [("other", 9)])
    shutil.copytree(room.folder / "archive", room.folder / "copy")
