"""The page for those who cannot see, or see little."""
from __future__ import annotations

from browser import Page
from desks import Desk, check
from looks import TROUBLE, close_day, show_day, sorts, whole_page

CONTRASTS = """(() => {
    const canvas = Object.assign(document.createElement("canvas"), {width: 1, height: 1});
    const pen = canvas.getContext("2d", {willReadFrequently: true}), known = new Map();
    const pixel = (colour) => {
        if (!known.has(colour)) {
            pen.clearRect(0, 0, 1, 1);
            pen.fillStyle = colour;
            pen.fillRect(0, 0, 1, 1);
            const [r, g, b, a] = pen.getImageData(0, 0, 1, 1).data;
            known.set(colour, [r, g, b, a / 255]);
        }
        return known.get(colour);
    };
    const over = ([r, g, b, a], under) => [r, g, b].map((it, at) => it * a + under[at] * (1 - a));
    const behind = (it) => {
        if (!it) return pixel("Canvas").slice(0, 3);
        const style = getComputedStyle(it);
        if (style.backgroundImage !== "none") throw new Error("a picture is behind a text: " + it.outerHTML.slice(0, 200));
        const colour = pixel(style.backgroundColor);
        // A dialog is above the page.
        return colour[3] === 1 ? colour.slice(0, 3) : over(colour, behind(it.parentElement));
    };
    const linear = (it) => it <= 0.04045 ? it / 12.92 : ((it + 0.055) / 1.055) ** 2.4;
    const light = (colour) => colour.reduce((sum, it, at) => sum + linear(it / 255) * [0.2126, 0.7152, 0.0722][at], 0);
    const opaque = (it) => !it || (getComputedStyle(it).opacity === "1" && opaque(it.parentElement));
    const found = new Map();
    const walk = document.createTreeWalker(document.body, NodeFilter.SHOW_TEXT);
    while (walk.nextNode()) {
        const it = walk.currentNode.parentElement, text = walk.currentNode.data.trim(), box = it.getBoundingClientRect();
        const seen = it.closest("select") ?? it;
        if (!text || !seen.checkVisibility({visibilityProperty: true}) || (box.width <= 1 && seen === it)) continue;
        if (!opaque(seen)) throw new Error("a text lets through what is behind it: " + seen.outerHTML.slice(0, 200));
        const back = behind(seen), front = over(pixel(getComputedStyle(seen).color), back);
        const [low, high] = [light(back), light(front)].sort((a, b) => a - b), ratio = (high + 0.05) / (low + 0.05);
        const key = [front, back].join();
        if (!found.has(key)) found.set(key, [Math.round(ratio * 100) / 100, text.slice(0, 40), seen.outerHTML.slice(0, 80)]);
    }
    return {texts: [...found.values()], page: light(behind(document.body))};
})()"""
TARGETS = """[...document.querySelectorAll("a[href], button, select, summary")].filter((it) => it.checkVisibility())
    .map((it) => [it.getBoundingClientRect(), it]).filter(([box]) => box.width < 23.9 || box.height < 23.9)
    .map(([box, it]) => `${Math.round(box.width)} by ${Math.round(box.height)}: ${it.outerHTML.slice(0, 99)}`).slice(0, 5)"""
HEADINGS = """[...document.querySelectorAll("h1, h2, h3, h4, h5, h6")].filter((it) => it.checkVisibility())
    .map((it) => Number(it.tagName[1]))"""
NAMED = {"button", "link", "combobox", "dialog", "grid", "table", "region", "navigation", "heading", "img", "image"}
TABLES = """[...document.querySelectorAll("table")].filter((it) => it.checkVisibility()).filter((it) =>
    !(it.caption?.textContent.trim() || it.ariaLabel || it.hasAttribute("aria-labelledby"))
    || ![...it.rows].some((row) => row.querySelector("th"))).map((it) => it.outerHTML.slice(0, 200))"""
MOVING = """[...document.querySelectorAll("*")].filter((it) => {
    const style = getComputedStyle(it), moves = (text) => text.split(",").some((one) => parseFloat(one) > 0.01);
    return (style.animationName !== "none" && moves(style.animationDuration)) || moves(style.transitionDuration)
        || style.scrollBehavior === "smooth";
}).map((it) => it.outerHTML.slice(0, 100)).slice(0, 3)"""


def is_accessible(desk: Desk, page: Page, title: str) -> None:
    """Checks what is shown now: headings, names, tables and the size of targets."""
    levels = page.evaluate(HEADINGS)
    desk.room.true(levels.count(1) == 1 and levels[0] == 1, f"{title}: the levels of headings: {levels}")
    skipped = [(a, b) for a, b in zip(levels, levels[1:]) if b > a + 1]
    desk.same([], skipped, f"{title}: levels of headings that are skipped")
    nameless = [role for role, name in page.tree() if role in NAMED and not name.strip()]
    desk.room.equal([], nameless, f"{title}: what has no name")
    desk.room.equal([], page.evaluate(TABLES), f"{title}: tables without a caption or heads")
    desk.room.equal([], page.evaluate(TARGETS), f"{title}: targets that are small")
    ids = page.evaluate("[...document.querySelectorAll('[id]')].map((it) => it.id)")
    desk.room.equal(len(set(ids)), len(ids), f"{title}: the ids that differ")


@check
def the_page_tells_its_parts_by_name_and_order(desk: Desk) -> None:
    with desk.page() as page:
        told = whole_page(desk, page)
        desk.room.equal("en", page.evaluate("document.documentElement.lang"), "the language")
        desk.room.true(page.evaluate("document.title.trim()"), "the page has no title")
        roles = [role for role, _ in page.tree()]
        for role in "banner", "main":
            desk.room.equal(1, roles.count(role), f"how often the page has the landmark {role}")
        desk.room.equal(len(told.first), roles.count("grid"), "the calendars")
        desk.room.true(roles.count("rowheader") == 7 * len(told.first), "a calendar does not have seven rows with heads")
        is_accessible(desk, page, "the page")
        for tld, day in sorts(told):
            show_day(page, tld, day)
            is_accessible(desk, page, f"{tld} {day}")
            close_day(page)
    desk.standin.responses = {}
    with desk.page("/vaults/standin/desk/", "", complains=True) as page:
        page.wait(TROUBLE, "the trouble is said")
        desk.room.true("alert" in [role for role, _ in page.tree()], "the trouble is no alert")
        is_accessible(desk, page, "the page without answers")


@check
def each_text_can_be_read_in_light_and_in_dark(desk: Desk) -> None:
    with desk.page() as page:
        told, lights = whole_page(desk, page), {}
        for scheme in "light", "dark":
            page.scheme(scheme)
            for tld, day in [("", told.today), *sorts(told)]:
                if tld:
                    show_day(page, tld, day)
                came = page.evaluate(CONTRASTS)
                low = [it for it in came["texts"] if it[0] < 4.5]
                desk.same([], low, f"{scheme}, {tld and f'{tld} {day}'}: texts of little contrast")
                lights[scheme] = came["page"]
                close_day(page)
        desk.room.true(lights["light"] > 0.5 > 0.2 > lights["dark"], f"how light the page is: {lights}")
    desk.standin.responses = {}
    with desk.page("/vaults/standin/desk/", "", complains=True) as page:
        page.wait(TROUBLE, "the trouble is said")
        for scheme in "light", "dark":
            page.scheme(scheme)
            low = [it for it in page.evaluate(CONTRASTS)["texts"] if it[0] < 4.5]
            desk.same([], low, f"{scheme}, the page without answers: texts of little contrast")


WIDE = """[document.documentElement, document.querySelector("dialog#day[open]")].filter((it) =>
    it && it.scrollWidth > it.clientWidth).map((it) => `${it.tagName}: ${it.scrollWidth} of ${it.clientWidth}`)"""


@check
def nothing_is_wider_than_the_window_and_nothing_moves_unasked(desk: Desk) -> None:
    with desk.page() as page:
        told = whole_page(desk, page)
        widest = max((it for it in sorts(told)), key=lambda it: len(told.parts.get((it[0], str(it[1])), [])))
        for width, size in ((320, "100%"), (768, "100%"), (1280, "100%"), (2560, "100%"), (1280, "200%"), (640, "100%")):
            page.size(width, 900)
            page.evaluate(f"document.documentElement.style.fontSize = '{size}'")
            for tld, day in (None, None), widest:
                if tld:
                    show_day(page, tld, day)
                desk.room.equal([], page.evaluate(WIDE), f"what is too wide at {width} with text of {size}")
                close_day(page)
        page.evaluate("document.documentElement.style.fontSize = ''")
        page.prefer(reduced_motion="reduce")
        desk.room.equal([], page.evaluate(MOVING), "what moves, though the reader wants none of it")
