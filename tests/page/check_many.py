"""Two hundred registries of ten years, and the pictures."""
from __future__ import annotations

from browser import Page
from desks import Desk, check
from lib import TOP
from looks import GROUNDS, ORDER, answered, shown_days, whole_page
from shown import Told
from vaults import back

REGISTRIES, YEARS = 200, 10


def large_state() -> tuple[str, str]:
    """The state of many registries over years, and what is due: a part and a receipt each day, most parts dropped, some
    days lost."""
    days = [str(back(it)) for it in range(365 * YEARS, -1, -1)]
    lines = []
    for place in range(REGISTRIES):
        tld = f"registry-{place:03}"
        lines.append(f"registry {tld} {days[0]}")
        notices, last = [], len(days) - (12 if place % 20 == 0 else 1 + place % 2)
        for at, day in enumerate(days[:last]):
            is_held = "held" if at > len(days) - 366 else "dropped"
            lines.append(f"part {tld}_{day}_full_S1_R0.ryde 40000 {is_held} {day}T00:00:01Z")
            kind = "FAILURE-09" if (at + place) % 97 == 0 else "RECEIPT   "
            notices.append(f"{at + 1:8} {kind} {day} R00 {day.replace('-', '')}001   {day}T00:00:02Z {tld}")
        lines += notices
    due = [f"due registry-{place:03} {days[-2]}" for place in range(1, REGISTRIES, 2)]
    lines += ["hold H-1 registry-007 2026-01-01 2026-02-01T00:00:00Z", "free 100000 of 262143"]
    return "\n".join(lines), "\n".join(due)


# When the calendars that are in the window have been painted.
PAINTED = """new MutationObserver((_, it) => {
    if (document.documentElement?.dataset.phase !== "shown" || !document.querySelector(".registry table")) return;
    it.disconnect();
    const { port1, port2 } = new MessageChannel();
    port1.onmessage = () => { window.painted = performance.now(); };
    requestAnimationFrame(() => port2.postMessage(0));
}).observe(document, {childList: true, subtree: true});
performance.setResourceTimingBufferSize(1000);"""


def seconds_until_painted(page: Page, url: str) -> float:
    """How long a page takes to show the state, from its last byte to the screen."""
    page.call("Page.addScriptToEvaluateOnNewDocument", source=PAINTED)
    page.go(url)
    painted = page.wait("window.painted", "the large answer is shown", 120)
    asked = "performance.getEntriesByType('resource').find((it) => it.name.endsWith('/state'))"
    return (painted - page.evaluate(f"{asked}.responseEnd")) / 1000


@check
def ten_years_of_two_hundred_registries_are_shown_within_a_second(desk: Desk) -> None:
    """It is the best time of five that counts."""
    state, due = large_state()
    desk.standin.tell(state, due)
    seconds = []
    for _ in range(5):
        with desk.page("about:blank", "") as page:
            page.size(1280, 900)
            seconds.append(seconds_until_painted(page, f"{desk.origin}/vaults/standin/desk/"))
            if len(seconds) == 1:
                told = Told(state, due, answered(page))
                desk.same(told.order(), page.evaluate(ORDER), "the registries")
                desk.same(told.grounds(), sorted(page.evaluate(GROUNDS)), "the grounds")
                tld = told.order()[-1][0]
                wanted = [it.shown(day) for day, it in told.days(tld).items()]
                desk.same(wanted, shown_days(page, tld, wanted), "the days of the last one")
    lines, length = state.count("\n") + 1, len(state) / 1e6
    print(f"{lines:,} lines of {length:.0f} MB were shown {min(seconds):.2f} seconds after they had come")
    desk.room.true(min(seconds) < 1, f"the large answer is shown after {min(seconds):.2f} seconds")


@check
def it_can_be_looked_at_in_three_widths(desk: Desk) -> None:
    with desk.page() as page:
        whole_page(desk, page)
        for width, height, scheme in ((320, 1200, "light"), (1280, 900, "light"), (2560, 1440, "dark")):
            page.size(width, height)
            page.scheme(scheme)
            page.evaluate("scrollTo(0, 0)")
            # The picture is of what was painted after the window changed.
            page.evaluate("new Promise((done) => requestAnimationFrame(() => requestAnimationFrame(() => done(1))))")
            path = (TOP / "docs" if desk.pictures else desk.room.folder) / f"desk-{width}.png"
            page.picture(path)
            size = [int.from_bytes(path.read_bytes()[at:at + 4], "big") for at in (16, 20)]
            desk.same([width, height], size, f"the size of {path.name}")
