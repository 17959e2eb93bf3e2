"""How a check looks at the desk's page, and what it does to it."""
from __future__ import annotations

import datetime
import json
import time
from collections.abc import Iterable

from browser import Page
from desks import Desk, is_in_phase
from shown import Told, moment_of

# Of a registry the button of each day: day, state, failures, check of a failure, hold and text.
BUTTONS = """[...document.querySelectorAll(`section.registry[data-tld="%s"] button[data-day]`)].map((it) => [
    it.dataset.day, it.dataset.state, it.dataset.failures ?? "0", it.dataset.state === "failure" ? it.dataset.check : "",
    "hold" in it.dataset, it.textContent.trim()])"""
ORDER = """[...document.querySelectorAll("section.registry")].map((it) =>
    [it.dataset.tld, it.dataset.last, "late" in it.dataset])"""


def answered(page: Page) -> str:
    """The moment of the answers that the page shows."""
    return page.evaluate("document.querySelector('#answered').dateTime")


def shown_days(page: Page, tld: str, wanted: list[list]) -> list[list]:
    """The days of a registry as the page shows them, once they are as they should be, or after some seconds."""
    page.evaluate(f"document.querySelector('section.registry[data-tld=\"{tld}\"]').scrollIntoView()")
    end = time.monotonic() + 5
    while (came := sorted(page.evaluate(BUTTONS % tld))) != wanted and time.monotonic() < end:
        time.sleep(0.05)
    return came


def choose(page: Page, year: str) -> None:
    """Chooses a year."""
    page.evaluate(f"""(() => {{
        const it = document.querySelector("#year");
        it.value = {json.dumps(year)};
        for (const name of ["input", "change"]) it.dispatchEvent(new Event(name, {{bubbles: true}}));
    }})()""")


def days_are_as_told(desk: Desk, page: Page, told: Told, years: Iterable[str]) -> None:
    """Checks each day of each registry in each of these years."""
    for year in years:
        choose(page, year)
        for tld in told.first:
            wanted = [it.shown(day) for day, it in told.days(tld, year).items()]
            came = shown_days(page, tld, wanted)
            desk.same(wanted, came, f"the days of {tld} in {year or 'the last 53 weeks'}")


TODO = """[...document.querySelectorAll('#todo li > a')].map((it) =>
    [...it.getAttribute('href').slice(1).split('/'), it.dataset.state])"""
GROUNDS = "[...document.querySelectorAll('#grounds li')].map((it) => [it.dataset.tld, it.dataset.ground])"


def again(page: Page, phase: str = "shown") -> None:
    """Has the page ask again, and waits for what comes of it: newer answers, or, where there were answers, that it fails."""
    if phase == "shown":
        next_moment(page)
        page.click("#again")
        page.wait(f"{is_in_phase(phase)} && {IS_NEW}", "newer answers")
    else:
        page.click("#again")
        page.wait(is_in_phase(phase), "asking again fails")


# Whether the answers are newer than those that `next_moment` saw.
IS_NEW = "document.querySelector('#answered').dateTime !== window.before"


def next_moment(page: Page) -> None:
    """Waits until newer answers have another moment: it has whole seconds."""
    if before := page.evaluate("window.before = document.querySelector('#answered').dateTime"):
        time.sleep(max(0.0, moment_of(before).replace(tzinfo=datetime.UTC).timestamp() + 1.1 - time.time()))


TROUBLE = "(() => { const it = document.querySelector('#trouble'); return it.checkVisibility() ? it.textContent : null; })()"
OPENED = "(() => { const it = document.querySelector('dialog#day'); return it.open && it.dataset.phase === 'shown'; })()"
DAY_SHOWN = """(() => {
    const all = (what) => [...document.querySelectorAll(`dialog#day ${what}`)], text = (it) => it.textContent.trim();
    return {
        parts: all("tr.part").map((it) => [it.dataset.name, ...[...it.cells].map(text)]),
        notices: all(".notice").map((it) => it.textContent),
        reasons: all(".reason").map(text),
        holds: all("li.hold").map((it) => [it.dataset.reference, it.dataset.lifted ?? ""]),
        releases: all("li.release").map((it) => [it.dataset.reference, it.dataset.lists]),
    };
})()"""


def button_of(tld: str, day: str) -> str:
    return f'section.registry[data-tld="{tld}"] button[data-day="{day}"]'


def open_by_fragment(page: Page, tld: str, day: datetime.date) -> None:
    page.evaluate(f"location.hash = '#{tld}/{day}'")


def close_day(page: Page) -> None:
    """Has Escape close the day, where one is open, and waits until the fragment is gone too."""
    page.key("Escape")
    page.wait("!document.querySelector('dialog#day').open && !location.hash", "Escape closes the day", 10)


def show_day(page: Page, tld: str, day: datetime.date) -> None:
    """Opens a day by the fragment, and waits until all of it is shown."""
    open_by_fragment(page, tld, day)
    page.wait(f"{OPENED} && location.hash === '#{tld}/{day}'", f"{tld} {day} is shown", 30)


def sorts(told: Told) -> list[tuple[str, datetime.date]]:
    """Of each registry a day of each sort: by its state, failures, hold, parts, and holds and revisions of any time."""
    found = {}
    for tld in told.first:
        for day, it in told.days(tld).items():
            parts = told.parts.get((tld, str(day)), [])
            holds = [hold["is_lifted"] for hold in told.holds.values() if (hold["tld"], hold["day"]) == (tld, str(day))]
            revisions = tuple((part["revision"], part["is_held"]) for part in parts)
            found.setdefault((tld, it, tuple(holds), revisions), (tld, day))
    return list(found.values())


def whole_page(desk: Desk, page: Page) -> Told:
    """Waits until the calendar of each registry is there. Gives what is shown."""
    told = desk.told(answered(page))
    for tld in told.first:
        shown_days(page, tld, [it.shown(day) for day, it in told.days(tld).items()])
    page.evaluate("scrollTo(0, 0)")
    return told
