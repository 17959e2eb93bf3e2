"""The page beside a service that is stopped, or that answers wrongly."""
from __future__ import annotations

import contextlib
import threading
from collections.abc import Iterator

from browser import Page
from desks import Desk, check, is_in_phase
from lib import part_name, response
from looks import OPENED, TODO, TROUBLE, again, answered, close_day, days_are_as_told
from vaults import back

ALL_DAYS = "[...document.querySelectorAll('section.registry button[data-day]')].map((it) => it.outerHTML)"


def stays(desk: Desk, page: Page, title: str, *words: str) -> None:
    """Has the page ask, which fails: it says so with the words and the moment of what it has, and keeps that."""
    before, days = answered(page), page.evaluate(ALL_DAYS)
    desk.room.equal(None, page.evaluate(TROUBLE), f"{title}: the trouble before")
    again(page, "kept")
    said = page.evaluate(TROUBLE) or ""
    for word in (*words, before[:10], before[11:19]):
        desk.room.true(word in said, f"{title}: what is said of it lacks {word}: {said!r}")
    desk.room.equal(before, answered(page), f"{title}: the moment of the answers")
    desk.room.equal(days, page.evaluate(ALL_DAYS), f"{title}: the days")


@check
def what_was_had_stays_while_the_service_is_stopped(desk: Desk) -> None:
    with desk.page(complains=True) as page:
        told = desk.told(answered(page))
        days_are_as_told(desk, page, told, [""])
        desk.server.kill()
        try:
            stays(desk, page, "a service that is stopped", "502")
        finally:
            desk.restart()
        again(page)
        desk.room.equal(None, page.evaluate(TROUBLE), "the trouble, once the service is back")
        days_are_as_told(desk, page, told, ["", str(told.today.year)])


def broken_answers(text: str) -> dict[str, bytes]:
    """Responses that do not tell what was asked for, instead of that text."""
    whole = response(200, text)
    return {
        "a vault that is closed": response(503, "C4 closed"), "no memory": response(503, "C1 no memory"),
        "damage": response(500, "C5 damaged H8"), "a route that is not there": response(404, "A3 no route"),
        "an answer that is cut": whole[:-len(text) // 2], "a connection that is closed": b"",
        "HTML in place of text": whole.replace(b"text/plain", b"text/html"),
        "a page in place of lines": response(200, "<!doctype html>\n<title>Sign in</title>"),
        "lines of something else": response(200, "C4 closed")}


@check
def what_was_had_stays_when_an_answer_fails(desk: Desk) -> None:
    part = f"part {part_name(str(back(8)), tld='a')} 5 held {back(8)}T10:00:00Z"
    state, due = f"registry a {back(9)}\n{part}\nfree 5 of 7", f"due a {back(9)}"
    cases = [(path, *it) for path, text in (("/state", state), ("/due", due)) for it in broken_answers(text).items()]
    cases += [("/state", "an answer without its last line", response(200, state.rpartition("\n")[0])),
              ("/state", "no text at all", response(200))]
    desk.standin.tell(state, due)
    with desk.page("/vaults/standin/desk/", complains=True) as page:
        for path, title, content in cases:
            desk.standin.tell(state, due)
            desk.standin.responses[path] = content
            number = content[9:12].decode() if content[9:12] not in (b"200", b"") else ""
            stays(desk, page, f"{path}: {title}", number)
            desk.standin.tell(state, due)
            again(page)


@check
def a_service_that_never_answered_is_said_and_asked_again(desk: Desk) -> None:
    desk.standin.responses = {"/state": b"", "/due": b""}
    with desk.page("/vaults/standin/desk/", "", complains=True) as page:
        said = page.wait(TROUBLE, "the trouble is said")
        desk.room.true("502" in said, f"what is said: {said}")
        desk.room.true(not page.evaluate(is_in_phase("shown")), "the page says that it shows answers")
        desk.room.equal([], page.evaluate(ALL_DAYS), "days without an answer")
        desk.standin.tell(f"registry a {back(9)}\nfree 5 of 7", f"due a {back(9)}")
        again(page)
        desk.room.equal(None, page.evaluate(TROUBLE), "the trouble, once there are answers")
        desk.same([["a", str(back(9)), "due"]], page.evaluate(TODO), "the days that wait")


# Makes a minute of the page two seconds, and its ten seconds a third of one.
FASTER = """for (const name of ["setTimeout", "setInterval"]) {
    const real = window[name];
    window[name] = (what, wait, ...more) => {
        (window.waits ??= []).push(wait);
        return real(what, wait >= 10000 ? wait / 30 : wait, ...more);
    };
}"""


@contextlib.contextmanager
def fast_page(desk: Desk) -> Iterator[Page]:
    """The page of the stand-in, whose time goes by faster."""
    with desk.page("about:blank", "", complains=True) as page:
        page.call("Page.addScriptToEvaluateOnNewDocument", source=FASTER)
        page.go(f"{desk.origin}/vaults/standin/desk/")
        page.wait(is_in_phase("shown"), "the page is shown")
        yield page


@check
def it_asks_again_by_itself_each_minute_also_after_a_failure(desk: Desk) -> None:
    text = f"registry a {back(9)}\nfree %d of 7"
    desk.standin.tell(text % 5)
    with fast_page(desk) as page:
        desk.standin.tell(text % 4)
        page.wait("document.querySelector('#room').dataset.free === '4'", "newer answers come by themselves", 15)
        desk.standin.responses = {}
        page.wait(is_in_phase("kept"), "it asks by itself while the service fails", 15)
        desk.standin.tell(text % 3)
        page.wait(is_in_phase("shown"), "it asks by itself after a failure", 15)
        page.wait("window.waits.filter((it) => it === 60000).length > 3", "it waits for a minute each time", 15)


@check
def an_answer_that_is_long_in_coming_is_said_and_shown_when_it_comes(desk: Desk) -> None:
    text, is_coming = f"registry a {back(9)}\nfree %d of 7", threading.Event()

    def late() -> bytes:
        is_coming.wait(30)
        return response(200, text % 4)

    desk.standin.tell(text % 5)
    with fast_page(desk) as page:
        before = answered(page)
        desk.standin.responses["/state"] = late
        page.wait(is_in_phase("kept"), "it says that no answer comes", 15)
        desk.room.true(before[11:19] in (page.evaluate(TROUBLE) or ""), f"what is said: {page.evaluate(TROUBLE)}")
        desk.room.equal(before, answered(page), "the moment of the answers")
        is_coming.set()
        page.wait(f"{is_in_phase('shown')} && document.querySelector('#room').dataset.free === '4'", "the answer is shown", 15)


@check
def it_sends_nothing_but_get_and_nothing_to_another_host(desk: Desk) -> None:
    with desk.page() as page:
        told = desk.told(answered(page))
        for tld in told.first:
            page.go(f"{desk.origin}/desk/#{tld}/{told.today}")
            page.wait(OPENED, "the day is shown")
        close_day(page)
        again(page)
        sent = [*page.requests]
    paths = {url.removeprefix(desk.origin) for _, url in sent}
    desk.room.true({"/desk/", "/state", "/due", "/notices/alpha"} <= paths, f"requests are missing among {sorted(paths)}")
    own = (f"{desk.origin}/", "about:", "data:")
    others = [f"{method} {url}" for method, url in [*sent, *desk.requests] if method != "GET" or not url.startswith(own)]
    desk.room.equal([], others, "requests of the page")
