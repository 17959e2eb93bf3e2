"""What the desk's page has to show, worked out from the answers of /state and /due alone."""
from __future__ import annotations

import datetime
from dataclasses import dataclass

from vaults import SUNDAY, back

THIRTY_DAYS = 2_592_000
MOMENT = "%Y-%m-%dT%H:%M:%SZ"


@dataclass(frozen=True)
class Day:
    """What a day is: its state, how many failures it has, the check of the last one, and whether it is on hold."""
    state: str
    failures: int
    check: int
    is_held: bool

    def shown(self, day: datetime.date) -> list:
        """Its button: day, state, failures, check (of a failure alone), hold and text."""
        letters = {"receipt": f"R{self.failures or ''}", "failure": f"F{self.check}", "absence": "A", "parts": "P",
                   "due": "D", "open": "·"}
        check = str(self.check) if self.state == "failure" else ""
        return [str(day), self.state, str(self.failures), check, self.is_held, letters[self.state]]


class Told:
    """What the agent answers to /state and /due at a moment, split at its blanks."""

    def __init__(self, state: str, due: str, now: str):
        self.now, self.today = moment_of(now), datetime.date.fromisoformat(now[:10])
        self.first: dict[str, datetime.date] = {}
        self.parts: dict[tuple[str, str], list[dict]] = {}
        self.notices: dict[str, list[dict]] = {}
        self.holds: dict[str, dict] = {}
        self.releases: dict[str, str] = {}
        for words in map(str.split, state.splitlines()):
            self.take(words)
        self.due = {(words[1], words[2]) for words in map(str.split, due.splitlines()) if words[0] == "due"}

    def take(self, words: list[str]) -> None:
        """Reads a line of the state."""
        if words[0] == "registry":
            self.first[words[1]] = datetime.date.fromisoformat(words[2])
            self.notices[words[1]] = []
        elif words[0] == "part":
            tld, day, _, _, revision = words[1].removesuffix(".ryde").split("_")
            self.parts.setdefault((tld, day), []).append({
                "name": words[1], "revision": int(revision[1:]), "length": int(words[2]), "is_held": words[3] == "held",
                "at": words[4]})
        elif words[0] == "release":
            self.releases[words[1]] = words[2]
        elif words[0] == "hold":
            self.holds[words[1]] = {"tld": words[2], "day": words[3], "is_lifted": len(words) > 5}
        elif words[0] == "free":
            self.free, self.total = int(words[1]), int(words[3])
        else:
            number, kind, day, revision, _, at, tld = words
            self.notices[tld].append({"number": int(number), "kind": kind[:7], "check": int(kind[8:] or 0), "day": day,
                                      "revision": revision, "at": at})

    def day(self, tld: str, day: datetime.date) -> Day:
        """What a day is."""
        of_day = [it for it in self.notices[tld] if it["day"] == str(day)]
        failures = [it for it in of_day if it["kind"] == "FAILURE"]
        noticed = {int(it["revision"][1:]) for it in of_day if it["kind"] != "ABSENCE"}
        parts = self.parts.get((tld, str(day)), [])
        is_held = any(it["tld"] == tld and it["day"] == str(day) and not it["is_lifted"] for it in self.holds.values())
        if any(it["kind"] == "RECEIPT" for it in of_day):
            state = "receipt"
        elif any(it["is_held"] and it["revision"] not in noticed for it in parts):
            state = "parts"
        elif failures:
            state = "failure"
        elif of_day:
            state = "absence"
        else:
            state = "due" if (tld, str(day)) in self.due else "open"
        return Day(state, len(failures), failures[-1]["check"] if failures else 0, is_held)

    def days(self, tld: str, year: str = "") -> dict[datetime.date, Day]:
        """The days of a registry that are shown: those of a year, or of the last 53 weeks, which begin with a Monday."""
        start = datetime.date(int(year), 1, 1) if year else back(self.today.weekday() + 52 * 7, self.today)
        end = min(self.today, datetime.date(int(year), 12, 31)) if year else self.today
        start = max(start, self.first[tld])
        return {it: self.day(tld, it) for it in (start + datetime.timedelta(at) for at in range((end - start).days + 1))}

    def last(self, tld: str) -> str:
        """The day of the last receipt of a registry."""
        return max((it["day"] for it in self.notices[tld] if it["kind"] == "RECEIPT"), default="")

    def is_late(self, tld: str) -> bool:
        last = self.last(tld)
        return not last or (self.today - datetime.date.fromisoformat(last)).days > 2

    def order(self) -> list[list]:
        """The registries in their order: each its name, the day of its last receipt, and whether it is late."""
        late = sorted((it for it in self.first if self.is_late(it)), key=lambda it: (self.last(it), it))
        return [[it, self.last(it), self.is_late(it)] for it in late + sorted(set(self.first) - set(late))]

    def waiting(self) -> list[list[str]]:
        """The days for which something is to be done: each its registry, day and state. Parts of a day before that of the last
        receipt are too late to be stated."""
        return sorted([tld, str(day), state] for tld, first in self.first.items()
                      for day in (first + datetime.timedelta(at) for at in range((self.today - first).days + 1))
                      if (state := self.todo(tld, day)))

    def todo(self, tld: str, day: datetime.date) -> str:
        """What is to be done for a day: it is `due`, or has `parts`; or nothing."""
        if self.day(tld, day).state == "parts" and str(day) > self.last(tld):
            return "parts"
        return "due" if (tld, str(day)) in self.due else ""

    def is_lately(self, at: str) -> bool:
        """Whether a moment is of the thirty days up to now."""
        return 0 <= (self.now - moment_of(at)).total_seconds() <= THIRTY_DAYS

    def grounds(self) -> list[list[str]]:
        """Which of the two grounds stand that are looked for among the notices, by Standing.antt."""
        found = []
        for tld, notices in self.notices.items():
            losses = [it for it in notices if it["kind"] != "RECEIPT"]
            sundays = [it for it in losses if datetime.date.fromisoformat(it["day"]).weekday() == SUNDAY]
            good = [it for it in notices if it["kind"] == "RECEIPT"]
            if any(not any(it["day"] == loss["day"] and it["number"] > loss["number"] for it in good) for loss in sundays):
                found.append([tld, "sunday_failed"])
            if sum(self.is_lately(it["at"]) for it in losses if it not in sundays) >= 5:
                found.append([tld, "five_failed"])
        return sorted(found)

    def room(self) -> list[str]:
        """The free blocks, all blocks, and how many days the free ones last."""
        lately = [it for parts in self.parts.values() for it in parts if it["is_held"] and self.is_lately(it["at"])]
        blocks = sum(-(-it["length"] // 4096) for it in lately)
        return [str(self.free), str(self.total), str(self.free * 30 // blocks) if blocks else ""]


def moment_of(text: str) -> datetime.datetime:
    return datetime.datetime.strptime(text, MOMENT)
