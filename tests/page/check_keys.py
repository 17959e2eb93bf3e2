"""The page by the keyboard."""
from __future__ import annotations

import datetime
import json

from desks import Desk, check, is_in_phase
from lib import response
from looks import (
    GROUNDS, IS_NEW, OPENED, TODO, answered, button_of, choose, close_day, days_are_as_told, next_moment,
    whole_page)
from shown import moment_of
from vaults import back


# What Tab comes to, in the order of the page.
STOPS = """[...document.querySelectorAll("a[href], button, select, input, textarea, summary, [tabindex]")].filter((it) =>
    it.tabIndex >= 0 && !it.disabled && it.checkVisibility({visibilityProperty: true}))"""
FOCUS = "(() => { const it = document.activeElement; return it.dataset.day ?? it.id ?? it.tagName; })()"


@check
def tab_comes_to_each_control_in_order_and_once_to_a_calendar(desk: Desk) -> None:
    with desk.page() as page:
        told = whole_page(desk, page)
        count = page.evaluate(f"(window.stops = {STOPS}).length")
        grids = page.evaluate("""[...document.querySelectorAll("table[role=grid]")].map((it) =>
            window.stops.filter((one) => it.contains(one)).length)""")
        desk.same([1] * len(told.first), grids, "the stops in each calendar")
        came = []
        for _ in range(count):
            page.key("Tab")
            came.append(page.evaluate("window.stops.indexOf(document.activeElement)"))
            seen = page.evaluate("""(() => {
                const it = document.activeElement, style = getComputedStyle(it);
                const is = style.outlineStyle !== "none" && parseFloat(style.outlineWidth) >= 2;
                return is ? "" : it.outerHTML.slice(0, 200);
            })()""")
            desk.room.equal("", seen, "a control whose focus is not outlined")
        desk.same([*range(count)], came, "the controls that Tab comes to")
        for place in range(count - 2, -1, -1):
            page.key("Tab", shift=True)
            at = page.evaluate("window.stops.indexOf(document.activeElement)")
            desk.room.equal(place, at, "the control before, by Shift and Tab")


@check
def keys_move_in_a_calendar_open_a_day_and_come_back(desk: Desk) -> None:
    with desk.page() as page:
        today = whole_page(desk, page).today
        page.evaluate("document.querySelector('section.registry[data-tld=alpha] button[data-day][tabindex=\"0\"]').focus()")
        first = datetime.date.fromisoformat(page.evaluate(FOCUS))
        steps = [*["ArrowLeft"] * 3, "ArrowUp", "ArrowUp", "ArrowDown", "ArrowRight", *["ArrowUp"] * 8, *["ArrowDown"] * 3]
        at = first
        for key in steps:
            page.key(key)
            at += datetime.timedelta({"ArrowLeft": -7, "ArrowRight": 7, "ArrowUp": -1, "ArrowDown": 1}[key])
            desk.room.equal(str(at), page.evaluate(FOCUS), f"the day by {key}")
        days = "[...%s.querySelectorAll('button%s')].map((it) => it.dataset.day)"
        stops = page.evaluate(days % ("document.activeElement.closest('table')", '[tabindex="0"]'))
        desk.room.equal([str(at)], stops, "the stop of the calendar")
        for key in "Home", "End":
            page.key(key)
            row = page.evaluate(days % ("document.activeElement.closest('tr')", ""))
            desk.room.equal(row[0 if key == "Home" else -1], page.evaluate(FOCUS), f"the day by {key}")
            desk.room.equal({at.weekday()}, {datetime.date.fromisoformat(it).weekday() for it in row}, "the days of a row")
        for key, back_key in (("ArrowRight", "ArrowLeft"), ("ArrowDown", "ArrowUp")):
            for _ in range(8):
                page.key(key)
            last = datetime.date.fromisoformat(page.evaluate(FOCUS))
            desk.room.true(last <= today, f"the focus is on {last}, which is not there")
        for key in "Enter", "Space":
            page.key(key)
            page.wait(OPENED, f"{key} opens the day", 10)
            for _ in range(30):
                page.key("Tab")
                inside = "document.activeElement === document.body || document.activeElement.closest('dialog#day') !== null"
                desk.room.true(page.evaluate(inside), "the focus leaves the day that is open")
            close_day(page)
            desk.room.equal(str(last), page.evaluate(FOCUS), f"where the focus is, once the day that {key} opened is closed")
        page.evaluate("document.querySelector('#todo a').focus()")
        page.key("Enter")
        page.wait(OPENED, "Enter opens the day of a link", 10)
        close_day(page)
        page.wait("document.activeElement === document.querySelector('#todo a')", "the focus is on the link again", 5)


@check
def focus_year_and_day_stay_when_answers_come(desk: Desk) -> None:
    """What asks is the page's own button, without the focus that a click on it would take."""
    day, text = back(9), f"registry a {back(500)}\nfree %s of 7"
    button = f"document.querySelector({json.dumps(button_of('a', str(day)))})"
    desk.standin.tell(text % 5, f"due a {back(5)}", notices_a=response(200))
    with desk.page("/vaults/standin/desk/") as page:
        choose(page, str(day.year))
        page.wait(f"{button} !== null", "the calendar is there")
        page.evaluate(f"{button}.focus()")
        for title, count in ("a day", 6), ("a day that is open", 7):
            desk.standin.tell(text % count, f"due a {back(count)}", notices_a=response(200))
            next_moment(page)
            page.evaluate("document.querySelector('#again').dispatchEvent(new MouseEvent('click', {bubbles: true}))")
            page.wait(IS_NEW, f"{title}: newer answers")
            desk.same([["a", str(back(count)), "due"]], page.evaluate(TODO), f"{title}: the days that wait")
            desk.room.equal(str(day.year), page.evaluate("document.querySelector('#year').value"), f"{title}: the year")
            if count == 6:
                page.wait(f"({FOCUS}) === {json.dumps(str(day))}", f"{title}: the focus is on it", 5)
                page.key("Enter")
                page.wait(OPENED, f"{title}: Enter opens it", 10)
        desk.room.true(page.evaluate(OPENED), "the day that was open is closed")
        desk.room.equal(f"#a/{day}", page.evaluate("location.hash"), "the fragment")


# In the page it is some days before.
SLOW_CLOCK = """const Real = Date, shift = 3 * 86400000 + 7777000;
window.Date = class extends Real {
    constructor(...words) { super(...(words.length ? words : [Real.now() - shift])); }
    static now() { return Real.now() - shift; }
};"""


@check
def the_clock_and_the_zone_of_the_browser_change_nothing(desk: Desk) -> None:
    for zone in "Pacific/Kiritimati", "America/Los_Angeles":
        with desk.page("about:blank", "") as page:
            page.call("Emulation.setTimezoneOverride", timezoneId=zone)
            page.call("Page.addScriptToEvaluateOnNewDocument", source=SLOW_CLOCK)
            page.go(f"{desk.origin}/desk/")
            page.wait(is_in_phase("shown"), "the page is shown")
            seconds = (datetime.datetime.now(datetime.UTC).replace(tzinfo=None) - moment_of(answered(page))).total_seconds()
            desk.room.true(0 <= seconds < 30, f"{zone}: the moment of the answers is {answered(page)}")
            told = desk.told(answered(page))
            days_are_as_told(desk, page, told, ["", str(told.today.year)])
            desk.same(told.waiting(), sorted(page.evaluate(TODO)), f"{zone}: the days that wait")
            desk.same(told.grounds(), sorted(page.evaluate(GROUNDS)), f"{zone}: the grounds")
            bare = page.evaluate("""[...document.querySelectorAll("button[data-day]")].filter((it) =>
                !it.ariaLabel.includes(String(Number(it.dataset.day.slice(8))))).map((it) => it.outerHTML)""")
            desk.room.equal([], bare, f"{zone}: labels without the number of their day")
