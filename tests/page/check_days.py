"""The days, the registries, the room, what waits, and the grounds, as the page shows them."""
from __future__ import annotations

import contextlib
import datetime
import json

import lib
from desks import Desk, check
from lib import LIMIT, Server
from looks import GROUNDS, ORDER, TODO, again, answered, days_are_as_told, shown_days
from shown import MOMENT, THIRTY_DAYS
from vaults import SUNDAY, back


@check
def each_day_is_shown_as_the_agent_records_it(desk: Desk) -> None:
    with desk.page() as page:
        told = desk.told(answered(page))
        years = page.evaluate("[...document.querySelectorAll('#year option')].map((it) => it.value)")
        wanted = {"", *(str(it) for it in range(min(told.first.values()).year, told.today.year + 1))}
        desk.room.equal(sorted(wanted), sorted(years), "the years")
        desk.room.equal("", page.evaluate("document.querySelector('#year').value"), "the year at first")
        days_are_as_told(desk, page, told, years)
        states = {it.state for tld in told.first for it in told.days(tld).values()}
        desk.room.equal({"receipt", "parts", "failure", "absence", "due", "open"}, states, "the states of the vault's days")


@check
def a_day_stands_in_the_row_of_its_weekday_and_the_column_of_its_week(desk: Desk) -> None:
    script = """(tld) =>
        [...document.querySelectorAll(`section.registry[data-tld="${tld}"] table[role=grid] button[data-day]`)].map((it) => {
            const row = it.closest("tr"), box = it.getBoundingClientRect();
            const place = [...row.children].indexOf(it.closest("td"));
            return [it.dataset.day, row.querySelector("th").textContent.trim(), place, box.x, box.y, it.ariaLabel ?? ""];
        })"""
    with desk.page() as page:
        for tld in ("alpha", "beta", "gamma"):
            told = desk.told(answered(page))
            shown_days(page, tld, [it.shown(day) for day, it in told.days(tld).items()])
            rows = sorted(page.evaluate(f"({script})('{tld}')"))
            days = [datetime.date.fromisoformat(it[0]) for it in rows]
            desk.room.equal([f"{it:%a}" for it in days], [it[1] for it in rows], f"{tld}: the heads of the rows")
            weeks = [(it - days[0] + datetime.timedelta(days[0].weekday())).days // 7 for it in days]
            first = rows[0][2]
            desk.same(weeks, [it[2] - first for it in rows], f"{tld}: the columns of the cells")
            for a, b in zip(rows, rows[1:]):
                is_below = a[4] < b[4] and a[3] == b[3] if b[1] != "Mon" else a[3] < b[3] and a[4] > b[4]
                desk.room.true(is_below, f"{tld}: {b[0]} is not where it follows {a[0]}")
            for day, label in zip(days, (it[5] for it in rows)):
                it = told.day(tld, day)
                word = {"open": "due", "parts": "part"}.get(it.state, it.state)
                desk.room.true(word in label and ("hold" in label) == it.is_held, f"{tld} {day}, {it}, is called {label}")
            labels = [it[5] for it in rows]
            desk.room.equal(len(labels), len(set(labels)), f"{tld}: labels that differ")
            bare = [label for label, day in zip(labels, days) if str(day.day) not in label or str(day.year) not in label]
            desk.room.equal([], bare, f"{tld}: labels without their day")


@check
def registries_come_in_order_the_late_ones_first(desk: Desk) -> None:
    with desk.page() as page:
        told = desk.told(answered(page))
        desk.same(told.order(), page.evaluate(ORDER), "the registries")
        heads = page.evaluate("[...document.querySelectorAll('section.registry h2')].map((it) => it.textContent.trim())")
        desk.room.equal([it[0] for it in told.order()], heads, "the headings (h2) of the registries")
    # So many days ago was the last receipt of each; of some there was none.
    last = {"a": 3, "b": 2, "c": None, "d": 4, "e": 3, "f": 0, "g": None, "h": 400, "i": 1}
    lines = []
    for tld, count in last.items():
        lines.append(f"registry {tld} {back(500)}")
        if count is not None:
            lines.append(lib.notice(1, "RECEIPT", str(back(count)), f"{back(count)}T00:00:01Z", "X", tld=tld))
    desk.standin.tell("\n".join([*lines, "free 5 of 7"]))
    with desk.page("/vaults/standin/desk/") as page:
        names = [it[0] for it in page.evaluate(ORDER)]
        desk.room.equal("c g h d a e b f i".split(), names, "the registries that were made up")
        desk.same(desk.told(answered(page), "/vaults/standin").order(), page.evaluate(ORDER), "them, with their days")


@check
def the_room_and_how_long_it_lasts_are_shown(desk: Desk) -> None:
    script = "(() => { const it = document.querySelector('#room').dataset; return [it.free, it.total, it.days]; })()"
    with desk.page() as page:
        told = desk.told(answered(page))
        desk.same(told.room(), page.evaluate(script), "free, total and days")
        text = page.evaluate("document.querySelector('#room').innerText").replace(",", "")
        desk.room.true(all(it in text for it in told.room()), f"the text of the room lacks a number: {text}")
    now = datetime.datetime.now(datetime.UTC)
    part = "part a_2000-01-01_full_S{}_R0.ryde {} {} {:%Y-%m-%dT%H:%M:%SZ}"
    ago = [now - datetime.timedelta(seconds=it) for it in (5, THIRTY_DAYS - 60, THIRTY_DAYS + 1, -600)]
    for title, parts in (
            ("a part of 4,097 bytes", [(4097, "held", ago[0])]),
            ("two parts of the thirty days", [(4096, "held", ago[0]), (1, "held", ago[1])]),
            ("parts before the thirty days and in the future", [(4096, "held", ago[2]), (4096, "held", ago[3])]),
            ("a part that is dropped already", [(40_960, "dropped", ago[0])]), ("no part", [])):
        lines = [part.format(at + 1, *it) for at, it in enumerate(parts)]
        desk.standin.tell("\n".join(["registry a 2000-01-01", *lines, "free 100 of 1000"]))
        with desk.page("/vaults/standin/desk/") as page:
            wanted = desk.told(answered(page), "/vaults/standin").room()
            desk.same(wanted, page.evaluate(script), f"free, total and days: {title}")


@check
def each_day_that_waits_is_listed(desk: Desk) -> None:
    with desk.page() as page:
        told = desk.told(answered(page))
        desk.same(told.waiting(), sorted(page.evaluate(TODO)), "the days that wait")
        desk.room.equal({"due", "parts"}, {it[2] for it in told.waiting()}, "what they wait for")


@check
def the_grounds_that_are_listed_are_those_that_the_agent_accepts(desk: Desk) -> None:
    with desk.page() as page:
        now = answered(page)
        told, listed = desk.told(now), sorted(page.evaluate(GROUNDS))
    desk.same(told.grounds(), listed, "the grounds")
    accepted = []
    with contextlib.closing(Server(desk.room.program, desk.room.folder / "copy", now=now)) as server:
        desk.room.true(server.listens(LIMIT), "serve does not listen")
        for tld in told.first:
            for ground in ("sunday_failed", "five_failed"):
                asked = lib.request(f"PUT /releases/{tld}-{ground[0]}", json.dumps({"ground": ground, "tld": tld}))
                status = int(server.ask(asked)[9:12])
                desk.room.true(status in (201, 409), f"a release on {ground} is answered {status}")
                accepted += [[tld, ground]] if status == 201 else []
    desk.same(listed, sorted(accepted), "the grounds that the agent accepts")


@check
def a_ground_goes_when_its_thirty_days_are_over(desk: Desk) -> None:
    """Of five losses the first gets older than thirty days while the page is open."""
    now = datetime.datetime.now(datetime.UTC).replace(microsecond=0)
    at = [now + datetime.timedelta(seconds=8 - THIRTY_DAYS)] + [now - datetime.timedelta(1)] * 4
    days = [it for it in (back(count) for count in range(9, 1, -1)) if it.weekday() != SUNDAY]
    lines = [lib.notice(place, "ABSENCE", str(day), f"{moment:{MOMENT}}", tld="a")
             for place, (day, moment) in enumerate(zip(days, at), 1)]
    desk.standin.tell("\n".join([f"registry a {days[0]}", *lines, "free 5 of 7"]))
    with desk.page("/vaults/standin/desk/") as page:
        desk.same([["a", "five_failed"]], page.evaluate(GROUNDS), "the grounds before")
        page.wait(f"Date.now() > {(at[0].timestamp() + THIRTY_DAYS + 2) * 1000}", "the time comes")
        again(page)
        desk.same([], page.evaluate(GROUNDS), f"the grounds at {answered(page)}; one of five losses is of {at[0]}")
