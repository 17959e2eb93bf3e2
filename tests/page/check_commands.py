"""The commands that the page offers, typed."""
from __future__ import annotations

import datetime
import json
import re

from browser import Page
from desks import Desk, check
from lib import Wrong, part_name
from looks import GROUNDS, again, answered, close_day, days_are_as_told, show_day, sorts
from vaults import back

COMMANDS = "[...document.querySelectorAll('%s code.command')].map((it) => it.textContent)"


def kind_of(command: str) -> str:
    """What a command asks: the method, and the first word of the path."""
    method = "PUT" if "-X PUT" in command or " -T " in command else "POST" if " -d " in command else "GET"
    return f"{method} {re.search(r'https?://[^/]*(?:/vaults/[^/]*)?/([a-z]+)', command)[1]}"


def copied(page: Page, place: str, at: int) -> str:
    """The command at a place, as the button beside it puts it on the clipboard."""
    text = page.evaluate(COMMANDS % place)[at]
    page.evaluate(f"""(() => {{
        const it = document.querySelectorAll("{place} code.command")[{at}];
        it.closest("details")?.setAttribute("open", "");
        it.parentElement.querySelector("button.copy").id = "the-one";
    }})()""")
    page.evaluate("navigator.clipboard.writeText('')")
    page.click("#the-one")
    page.wait(f"navigator.clipboard.readText().then((it) => it === {json.dumps(text)})", f"the clipboard has {text}", 10)
    page.evaluate("document.querySelector('#the-one').removeAttribute('id')")
    return text


def run_command(desk: Desk, command: str, **words: str) -> str:
    """Runs a command in the folder of certificates, by way of nginx. Gives what it prints, once it has succeeded."""
    fitted = command.replace(desk.origin, desk.gate)
    for name, value in words.items():
        fitted = re.sub(rf"\b{name}\b", value, fitted)
    fitted = re.sub(r"^curl ", "curl -s --cacert server.pem -w '%{http_code}' ", fitted)
    done = desk.room.run(f"cd pki && {fitted}")
    printed = done.out.decode()
    desk.room.true(done.status == 0 and re.search(r"20[01]$", printed), f"{fitted}\nprints {printed!r} {done.err.decode()}")
    return printed[:-3]


def offered(page: Page, tld: str, day: datetime.date, kind: str) -> str:
    """The command of a kind that is offered for a day, as it is copied."""
    show_day(page, tld, day)
    commands = page.evaluate(COMMANDS % "dialog#day")
    places = [at for at, it in enumerate(commands) if kind_of(it) == kind]
    if not places:
        raise Wrong(f"{tld} {day} has no command {kind}: {commands}")
    text = copied(page, "dialog#day", places[0])
    close_day(page)
    return text


@check
def each_kind_of_command_that_is_offered_does_what_it_says(desk: Desk) -> None:
    desk.browser.allow_clipboard(desk.origin)
    kinds: set[str] = set()
    with desk.page() as page:
        told = desk.told(answered(page))
        for tld, day in sorts(told):
            show_day(page, tld, day)
            kinds |= {kind_of(it) for it in page.evaluate(COMMANDS % "dialog#day")}
            close_day(page)
        kinds |= {kind_of(it) for it in page.evaluate(COMMANDS % "#grounds")}
        tried = {"GET releases", "POST checks", "POST lifts", "POST statements", "PUT deposits", "PUT holds", "PUT releases"}
        desk.room.equal(sorted(tried), sorted(kinds), "the kinds of commands")
        for tld, count, kind, words, line in (
                ("alpha", 110, "GET releases", {}, ""),
                ("gamma", 200, "POST checks", {}, rf" *\d+ ABSENCE    {back(200)} --- - .* gamma"),
                ("alpha", 45, "POST lifts", {}, rf"hold COURT-1 alpha {back(45)} \S+ lifted \S+"),
                ("gamma", 1, "POST statements", {"ID": "Y1"}, rf" *\d+ FAILURE-01 {back(1)} R00 Y1 .* gamma"),
                ("gamma", 2, "PUT deposits", {}, rf"part gamma_{back(2)}_\w+_S1_R0.ryde 4 held \S+"),
                ("alpha", 110, "PUT holds", {"REF": "NEW-1"}, rf"hold NEW-1 alpha {back(110)} \S+")):
            command = offered(page, tld, back(count), kind)
            if kind == "PUT deposits":
                desk.room.file(f"pki/{re.search(r'-T (.*?) ', command)[1]}", "some")
            run_command(desk, command, **words)
            is_there = any(re.fullmatch(line, it) for it in desk.get("/state").splitlines())
            desk.room.true(is_there or not line, f"{command}\nThe state has no line {line}")
        name = part_name(str(back(110)), tld="alpha")
        fetched, sent = (desk.room.folder / folder / name for folder in ("pki", "in"))
        desk.room.true(fetched.read_bytes() == sent.read_bytes(), "the part that is fetched is not as it was sent")
        place = [it[0] for it in page.evaluate(GROUNDS)].index("beta")
        run_command(desk, copied(page, f"#grounds li:nth-child({place + 1})", 0), REF="NEW-2")
        desk.room.true(re.search(r"\nrelease NEW-2 beta \w+_failed ", desk.get("/state")), "the state has no release NEW-2")
        again(page)
        days_are_as_told(desk, page, desk.told(answered(page)), [""])
