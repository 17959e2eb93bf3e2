"""A day that is opened."""
from __future__ import annotations

import datetime
import json

import lib
from browser import Page
from desks import Desk, check
from lib import part_name, response
from looks import DAY_SHOWN, OPENED, answered, button_of, close_day, open_by_fragment, show_day, shown_days, sorts
from shown import Told
from vaults import back


def open_by_click(page: Page, tld: str, day: datetime.date) -> None:
    page.click(button_of(tld, str(day)))


def open_by_keys(page: Page, tld: str, day: datetime.date) -> None:
    """From the one day of the calendar that Tab comes to, goes by weeks and days."""
    at = page.evaluate(f"""(() => {{
        const it = document.querySelector('section.registry[data-tld="{tld}"] button[data-day][tabindex="0"]');
        it.focus();
        return it.dataset.day;
    }})()""")
    count = (day - datetime.date.fromisoformat(at)).days
    weeks = (count - day.weekday() + datetime.date.fromisoformat(at).weekday()) // 7
    for key, times in (("ArrowDown", count - 7 * weeks), ("ArrowRight", weeks)):
        for _ in range(abs(times)):
            page.key(key if times > 0 else {"ArrowDown": "ArrowUp", "ArrowRight": "ArrowLeft"}[key])
    page.key("Enter")


WAYS = open_by_click, open_by_keys, open_by_fragment


# Of each release the registry and the names that it lists.
Listed = dict[str, tuple[str, set[str]]]


def wanted_of(desk: Desk, told: Told, tld: str, day: datetime.date, listed: Listed) -> dict[str, list]:
    """What is to be shown of a day, as curl gets it; of parts as words that have to be in the cells."""
    parts = told.parts.get((tld, str(day)), [])
    notices = [it for it in desk.get(f"/notices/{tld}").splitlines() if it.split()[2] == str(day)]
    failed = [it.split()[3][1:] for it in notices if "FAILURE" in it]
    reasons = [desk.curl(f"$url/reasons/{tld}/{day}/{int(it)}")[1] for it in failed]
    names = {it["name"] for it in parts}
    holds = [line.split() for line in desk.get("/state").splitlines() if line.startswith("hold ")]
    return {
        "parts": [[it["name"], str(it["length"]), it["at"][:10], it["at"][11:19], "held" if it["is_held"] else "dropped"]
                  for it in parts],
        "notices": notices, "reasons": reasons,
        "holds": [[it[1], it[6] if len(it) > 5 else ""] for it in holds if it[2:4] == [tld, str(day)]],
        "releases": [[it, "yes" if names & of else "no"] for it, (owner, of) in listed.items() if owner == tld]}


def releases_of(desk: Desk) -> Listed:
    """The registry of each release, and the names that it lists, by the answer to a repeat of the request that made it."""
    found = {}
    for line in (it.split() for it in desk.get("/state").splitlines() if it.startswith("release ")):
        desk.room.file("again", json.dumps({"ground": line[3], "tld": line[2]}))
        status, body = desk.curl(f"-X PUT -d @again $url/releases/{line[1]}")
        desk.room.equal(200, status, f"a repeat of {line[1]}")
        found[line[1]] = line[2], set(body.splitlines()[1:])
    return found


def parts_are_shown(desk: Desk, wanted: list[list[str]], rows: list[list[str]], title: str) -> None:
    """Checks the rows of parts: name, length (with or without commas), day and time of receipt, and whether it is held."""
    desk.room.equal([it[0] for it in wanted], [it[0] for it in rows], f"{title}: the parts")
    for words, (_, *cells) in zip(wanted, rows):
        text = " ".join([cells[0], cells[1].replace(",", ""), *cells[2:]])
        desk.room.true(all(it in text for it in words), f"{title}: the row {text} lacks some of {words}")


@check
def a_day_shows_what_the_agent_knows_of_it_however_it_is_opened(desk: Desk) -> None:
    with desk.page() as page:
        told = desk.told(answered(page))
        days, listed = sorts(told), releases_of(desk)
        desk.room.true(len(days) > 15 and len(listed) == 2, f"only {len(days)} sorts of days, and {len(listed)} releases")
        for tld in told.first:
            shown_days(page, tld, [it.shown(day) for day, it in told.days(tld).items()])
        for place, (tld, day) in enumerate(days):
            way = WAYS[place % 3]
            title = f"{tld} {day}, {way.__name__}"
            way(page, tld, day)
            page.wait(OPENED, f"{title}: the day is shown", 30)
            desk.room.equal(f"#{tld}/{day}", page.evaluate("location.hash"), f"{title}: the fragment")
            shown, wanted = page.evaluate(DAY_SHOWN), wanted_of(desk, told, tld, day, listed)
            parts_are_shown(desk, wanted.pop("parts"), shown.pop("parts"), title)
            for name, it in wanted.items():
                desk.same(it, shown[name], f"{title}: {name}")
            close_day(page)


@check
def the_fragment_opens_the_day_and_going_back_closes_it(desk: Desk) -> None:
    day, other = back(30), back(31)
    nowhere = "", "#alpha", "#none/2026-01-01", "#alpha/2026-13-01", "#alpha/1999-01-01", f"#alpha/{back(-1)}", "#%"
    with desk.page(f"/desk/#alpha/{day}") as page:
        page.wait(OPENED, "the day of the fragment is shown")
        names = "[...document.querySelectorAll('dialog#day tr.part')].map((it) => it.dataset.name)"
        wanted = [part_name(str(day), part=it, tld="alpha") for it in (1, 2, 3)]
        desk.room.equal(wanted, page.evaluate(names), "the parts")
        open_by_fragment(page, "alpha", other)
        name = part_name(str(other), tld="alpha")
        page.wait(f"{OPENED} && {names}.join() === {json.dumps(name)}", "another fragment shows its day", 10)
        for fragment in nowhere:
            page.evaluate(f"location.hash = {json.dumps(fragment)}")
            page.wait("!document.querySelector('dialog#day').open", f"the fragment {fragment!r} opens no day", 5)
        show_day(page, "alpha", day)
    with desk.page() as page:
        open_by_click(page, "alpha", day)
        page.wait(OPENED, "the day is shown", 10)
        page.evaluate("history.back()")
        page.wait("!document.querySelector('dialog#day').open", "going back closes the day", 10)


@check
def what_a_day_cannot_ask_is_said(desk: Desk) -> None:
    day = back(9)
    lines = [f"registry a {day}", f"part {part_name(str(day), tld='a')} 5 held {day}T10:00:00Z",
             lib.notice(1, "FAILURE-01", str(day), f"{day}T10:05:00Z", "X", tld="a"),
             f"release R-1 a operator {day}T11:00:00Z 1", "free 5 of 7"]
    desk.standin.tell("\n".join(lines))
    for path in (f"/reasons/a/{day}/0", "/notices/a"):
        desk.standin.responses[path] = response(503, "C1 no memory")
    with desk.page("/vaults/standin/desk/", complains=True) as page:
        show_day(page, "a", day)
        shown = page.evaluate(DAY_SHOWN)
        desk.room.equal([lines[2]], shown["notices"], "the notices, by the state")
        desk.room.true(len(shown["reasons"]) == 1 and "503" in shown["reasons"][0], f"the reason: {shown['reasons']}")
        desk.same([["R-1", "unknown"]], shown["releases"], "whether the release lists the part")
        text = page.evaluate("document.querySelector('dialog#day').innerText")
        desk.room.true(text.count("503") >= 2, f"the page does not say that /notices failed: {text}")
