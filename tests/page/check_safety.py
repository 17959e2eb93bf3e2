"""What comes in as text, and what may not come in or go out."""
from __future__ import annotations

import json
import re
import time

import gateway
import lib
from desks import PAGES, Desk, check
from lib import response
from looks import DAY_SHOWN, OPENED, ORDER, again, answered, close_day, days_are_as_told, open_by_fragment, show_day
from vaults import back, weekday

EVIL = "<img src=x onerror=window.evil=1><script>window.evil=1</script>"


@check
def texts_of_the_agent_are_shown_as_texts(desk: Desk) -> None:
    day = back(9)
    loss = lib.notice(1, "FAILURE-01", str(day), f"{day}T10:05:00Z", "X", tld="a")
    good = f"registry a {day}\n{loss}\nfree 5 of 7"
    harmless = """(() => window.evil === undefined && !document.querySelector("img, main script, dialog script")
        && document.body.innerText.includes("<img"))()"""
    desk.standin.tell(good, **{f"reasons_a_{day}_0": response(200, f"FAILURE-01 {EVIL}"), "notices_a": response(200, loss)})
    with desk.page("/vaults/standin/desk/", complains=True) as page:
        open_by_fragment(page, "a", day)
        page.wait(f"{OPENED} && {harmless}", "a reason is a text", 10)
        desk.room.equal([f"FAILURE-01 {EVIL}"], page.evaluate(DAY_SHOWN)["reasons"], "the reason")
        close_day(page)
        for path, content in (
                (f"/reasons/a/{day}/0", response(404, f"Q22 {EVIL}")), (f"/reasons/a/{day}/0", response(200, EVIL)),
                ("/notices/a", response(200, f"{loss} {EVIL}")), ("/notices/a", response(404, f"Q2 {EVIL}"))):
            desk.standin.responses[path] = content
            open_by_fragment(page, "a", day)
            page.wait(f"{OPENED} && {harmless}", f"what {path} answers is a text: {content}", 10)
            close_day(page)
        for content in (response(200, f"registry a {day}\n{EVIL}\nfree 5 of 7"), response(200, f"{good}{EVIL}"),
                        response(404, EVIL), response(200, f"registry {EVIL} {day}\nfree 5 of 7")):
            desk.standin.responses["/state"] = content
            again(page, "kept")
            page.wait(harmless, f"what /state answers is a text: {content}", 10)
            desk.standin.responses["/state"] = response(200, good)
            again(page)
        page.evaluate(f"location.hash = {json.dumps(f'#{EVIL}/{day}')}")
        time.sleep(0.2)
        desk.room.true(page.evaluate("window.evil === undefined && !document.querySelector('img')"), "a fragment runs")


# Each tries something that the page's policy forbids, and tells whether it was done.
FORBIDDEN = {
    "fetch of another origin": "fetch('%s/x').then(() => true, () => false)",
    "fetch of another host": "fetch('http://127.0.0.2:%d/x').then(() => true, () => false)",
    "an inline script": """(() => {
        const it = document.createElement('script');
        it.textContent = 'window.ran = 1';
        document.body.append(it);
        return window.ran === 1;
    })()""",
    "a script of another origin": """new Promise((done) => {
        const it = document.createElement('script');
        Object.assign(it, {src: '%s/x', onload: () => done(true), onerror: () => done(false)});
        document.body.append(it);
    })""",
    "an image of another host": """new Promise((done) => {
        const it = new Image();
        Object.assign(it, {src: '%s/x', onload: () => done(true), onerror: () => done(false)});
    })""",
    "a handler in an attribute": """(() => {
        document.body.insertAdjacentHTML('beforeend', '<button id=tried onclick="window.ran = 2">x</button>');
        document.querySelector('#tried').click();
        return window.ran === 2;
    })()""",
    "a request that changes something": "fetch('/purges', {method: 'POST', body: ''}).then((it) => it.status !== 403)",
    "eval": "(() => { try { return eval('true'); } catch { return false; } })()",
    "a function of a text": "(() => { try { return new Function('return true')(); } catch { return false; } })()",
    "a frame of another origin": """new Promise((done) => {
        const it = document.createElement('iframe');
        document.addEventListener('securitypolicyviolation', () => done(false));
        it.src = '%s/x';
        it.onload = () => done(false);
        document.body.append(it);
    })""",
    "a form that is sent": """new Promise((done) => {
        document.addEventListener('securitypolicyviolation', () => done(false));
        document.body.insertAdjacentHTML('beforeend', '<form id=sent action="%s/x" target="_blank" method="post"></form>');
        document.querySelector('#sent').submit();
        setTimeout(() => done(true), 1000);
    })""",
    "a style of another origin": """new Promise((done) => {
        const it = document.createElement('link');
        Object.assign(it, {rel: 'stylesheet', href: '%s/x', onload: () => done(true), onerror: () => done(false)});
        document.head.append(it);
    })"""}


@check
def the_policy_of_the_page_lets_nothing_else_in_or_out(desk: Desk) -> None:
    _, head = desk.curl("-i $url/desk/")
    policy = re.search(r"(?im)^content-security-policy: (.*?)\r?$", head)
    desk.room.true(policy and "unsafe" not in policy[1], f"the policy: {policy and policy[1]}")
    for name in ("x-content-type-options: nosniff", "referrer-policy: no-referrer"):
        desk.room.true(name in head.lower(), f"the head of the page lacks {name}")
    _, head = desk.curl("-i $url/state")
    desk.room.true("x-content-type-options: nosniff" in head.lower(), "an answer of the agent may be taken for a script")
    other = f"http://127.0.0.1:{desk.standin.port}"
    desk.standin.asked.clear()
    with desk.page(complains=True) as page:
        for title, script in FORBIDDEN.items():
            script = script.replace("%s", other).replace("%d", str(desk.standin.port))
            tried = f"Promise.resolve().then(() => {script}).catch(() => false)"
            desk.room.equal(False, page.evaluate(tried), f"the page may do this: {title}")
        page.requests = [it for it in page.requests if not it[1].endswith(("/x", "/purges"))]
    desk.room.equal([], desk.standin.asked, "what came to another origin")


@check
def only_the_operator_gets_the_page_and_each_vault_has_its_own(desk: Desk) -> None:
    names = ["", *(it.name for it in sorted(PAGES.iterdir()))]
    for name in names:
        desk.room.equal(200, desk.curl(f"$url/desk/{name}")[0], f"the operator asks for {name or 'the page'}")
        for caller in ("example", "other", *gateway.NOBODY):
            for vault in ("", "/vaults/archive", "/vaults/second") if caller == "example" else ("",):
                status, _ = desk.curl(f"$url{vault}/desk/{name}", caller)
                desk.room.equal(403, status, f"{caller} asks for {vault}/desk/{name}")
        for caller in ("", "stranger", "expired"):
            desk.room.equal(400, desk.curl(f"$url/desk/{name}", caller)[0], f"{caller or 'nobody'} asks for /desk/{name}")
        desk.room.equal(404, desk.curl(f"$url/vaults/third/desk/{name}")[0], f"a vault that is not there: {name}")
        for words in ("-d x", "-X PUT -d x", "-X DELETE"):
            desk.room.true(desk.curl(f"{words} $url/desk/{name}")[0] in (403, 404, 405), f"{words} {name} is not refused")
    for path in ("/desk/../escrow.conf", "/desk/none.js", "/desk/desk/", "/desk/..%2f..%2fetc/passwd", "/desk/.git"):
        status, body = desk.curl(f"$url{path}")
        desk.room.true(status in (400, 403, 404), f"{path} is answered {status} {body[:100]}")
    with desk.page("/vaults/second/desk/") as page:
        told = desk.told(answered(page), "/vaults/second")
        desk.same([["other", told.last("other"), False]], page.evaluate(ORDER), "the second vault")
        days_are_as_told(desk, page, told, [""])
        show_day(page, "other", back(weekday(4)))
        notices = [it for it in desk.get("/vaults/second/notices/other").splitlines() if f" {back(weekday(4))} R" in it]
        desk.room.equal(notices, page.evaluate(DAY_SHOWN)["notices"], "its notices")
    with desk.page("/vaults/archive/desk/") as page:
        desk.same(desk.told(answered(page)).order(), page.evaluate(ORDER), "the first vault by its name")
