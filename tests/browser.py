"""A browser for tests: chromium without a window, driven by the messages of DevTools over two pipes."""
from __future__ import annotations

import base64
import contextlib
import json
import os
import shutil
import signal
import subprocess
import tempfile
import threading
import time
from pathlib import Path
from typing import Any

from lib import Wrong, begin

# Seconds for the browser to answer a message, or a page to load.
LIMIT = 60
WORDS = """--headless=new --remote-debugging-pipe --no-sandbox --disable-gpu --disable-dev-shm-usage --no-first-run
    --no-default-browser-check --disable-background-networking --disable-component-update --disable-default-apps
    --disable-sync --disable-extensions --disable-breakpad --disable-background-timer-throttling --mute-audio
    --disable-renderer-backgrounding --force-color-profile=srgb --no-proxy-server""".split()
# Each key: its code, the number that Windows gives it, and the text that it types.
KEYS = {"Tab": ("Tab", 9, ""), "Enter": ("Enter", 13, "\r"), "Escape": ("Escape", 27, ""), "Space": ("Space", 32, " "),
        "PageUp": ("PageUp", 33, ""), "PageDown": ("PageDown", 34, ""), "End": ("End", 35, ""), "Home": ("Home", 36, ""),
        "ArrowLeft": ("ArrowLeft", 37, ""), "ArrowUp": ("ArrowUp", 38, ""), "ArrowRight": ("ArrowRight", 39, ""),
        "ArrowDown": ("ArrowDown", 40, "")}
# What a page says while another one takes its place.
MOVING = ("context was destroyed", "Cannot find context", "Cannot find default execution context",
          "Inspected target navigated")


class Browser:
    """A running chromium: used by `with`, which ends all its processes and takes its folder away."""

    def __init__(self) -> None:
        self.program = shutil.which("chromium") or "chromium"
        self.answers: dict[int, dict] = {}
        self.pages: dict[str, Page] = {}
        self.number, self.is_over = 0, False
        self.changed, self.sending = threading.Condition(), threading.Lock()

    def __enter__(self) -> Browser:
        self.folder = Path(tempfile.mkdtemp(prefix="browser"))
        sent, self.to = os.pipe()
        self.back, told = os.pipe()
        words = [self.program, *WORDS, f"--user-data-dir={self.folder}/profile", "about:blank"]
        home = os.environ | dict.fromkeys(("HOME", "XDG_CONFIG_HOME", "XDG_CACHE_HOME"), str(self.folder))
        self.process = begin(["bash", "-c", f'exec "$@" 3<&{sent} 4>&{told}', "bash", *words], pass_fds=(sent, told),
                             env=home, stdin=subprocess.DEVNULL, stdout=subprocess.DEVNULL, stderr=subprocess.DEVNULL,
                             start_new_session=True)
        os.close(sent)
        os.close(told)
        self.reader = threading.Thread(target=self.read, daemon=True)
        self.reader.start()
        try:
            self.version = self.call("Browser.getVersion")["product"]
        except BaseException:
            self.__exit__()
            raise
        return self

    def __exit__(self, *_: object) -> None:
        with contextlib.suppress(Wrong):
            self.call("Browser.close", limit=5)
        with contextlib.suppress(subprocess.TimeoutExpired):
            self.process.wait(5)
        with contextlib.suppress(ProcessLookupError):
            os.killpg(self.process.pid, signal.SIGKILL)
        self.process.wait()
        self.reader.join(5)
        for end in self.to, self.back:
            os.close(end)
        shutil.rmtree(self.folder, ignore_errors=True)

    def read(self) -> None:
        """Takes what the browser sends: answers to calls, and what happens in its pages."""
        rest = b""
        while piece := os.read(self.back, 1 << 20):
            *messages, rest = (rest + piece).split(b"\0")
            for message in map(json.loads, messages):
                with self.changed:
                    if "id" in message:
                        self.answers[message["id"]] = message
                        self.changed.notify_all()
                    elif page := self.pages.get(message.get("sessionId", "")):
                        page.take(message["method"], message["params"])
        with self.changed:
            self.is_over = True
            self.changed.notify_all()

    def call(self, method: str, session: str = "", limit: float = LIMIT, **parameters: object) -> dict[str, Any]:
        """Sends a message, and gives what is answered."""
        message = {"method": method, "params": parameters} | ({"sessionId": session} if session else {})
        with self.sending:
            self.number += 1
            number = self.number
            data = memoryview(json.dumps({"id": number} | message).encode() + b"\0")
            try:
                while data:
                    data = data[os.write(self.to, data):]
            except OSError:
                raise Wrong(f"{method}: the browser has ended") from None
        with self.changed:
            self.changed.wait_for(lambda: number in self.answers or self.is_over, limit)
            answer = self.answers.pop(number, None)
        if answer is None:
            raise Wrong(f"{method}: the browser {'has ended' if self.is_over else 'does not answer'}")
        if "error" in answer:
            raise Wrong(f"{method}: {answer['error']['message']}")
        return answer["result"]

    def page(self) -> Page:
        """A new page."""
        target = self.call("Target.createTarget", url="about:blank")["targetId"]
        session = self.call("Target.attachToTarget", targetId=target, flatten=True)["sessionId"]
        page = self.pages[session] = Page(self, session, target)
        for domain in "Page", "Runtime", "Network", "Log", "DOM":
            page.call(f"{domain}.enable")
        page.call("Emulation.setFocusEmulationEnabled", enabled=True)
        page.size(1280, 900)
        return page

    def allow_clipboard(self, origin: str) -> None:
        """Lets the pages of an origin read and write the clipboard."""
        self.call("Browser.grantPermissions", origin=origin, permissions=["clipboardReadWrite", "clipboardSanitizedWrite"])


class Page:
    """A page of the browser.

    `requests` has the method and the URL of each request that it sent, `complaints` the text of each error of its console,
    of its scripts that nobody caught, and of the browser about it.
    """

    def __init__(self, browser: Browser, session: str, target: str):
        self.browser, self.session, self.target = browser, session, target
        self.requests: list[tuple[str, str]] = []
        self.complaints: list[str] = []
        self.loads = 0
        self.media: dict[str, str] = {}

    def call(self, method: str, **parameters: object) -> dict[str, Any]:
        """Sends a message about this page."""
        return self.browser.call(method, self.session, **parameters)

    def close(self) -> None:
        self.browser.call("Target.closeTarget", targetId=self.target)

    def take(self, event: str, told: dict) -> None:
        """Notes what happens in the page."""
        if event == "Network.requestWillBeSent":
            self.requests.append((told["request"]["method"], told["request"]["url"]))
        elif event == "Page.loadEventFired":
            self.loads += 1
            self.browser.changed.notify_all()
        elif event == "Runtime.exceptionThrown":
            self.complaints.append(thrown(told["exceptionDetails"]))
        elif event == "Runtime.consoleAPICalled" and told["type"] in ("error", "assert"):
            self.complaints.append(" ".join(str(it.get("value", it.get("description", ""))) for it in told["args"]))
        elif event == "Log.entryAdded" and told["entry"]["level"] == "error":
            self.complaints.append(f"{told['entry']['text']} {told['entry'].get('url', '')}".rstrip())

    def go(self, url: str) -> None:
        """Goes to a URL, and waits until it is loaded; a fragment of the same page loads nothing."""
        loads = self.loads
        answer = self.call("Page.navigate", url=url)
        if answer.get("errorText"):
            raise Wrong(f"{url}: {answer['errorText']}")
        if "loaderId" in answer:
            with self.browser.changed:
                if not self.browser.changed.wait_for(lambda: self.loads > loads, LIMIT):
                    raise Wrong(f"{url} does not load")

    def evaluate(self, script: str) -> Any:
        """The value of a script in the page, once its promise is kept."""
        answer = self.call("Runtime.evaluate", expression=script, awaitPromise=True, returnByValue=True, userGesture=True,
                           allowUnsafeEvalBlockedByCSP=False)
        if "exceptionDetails" in answer:
            raise Wrong(f"{thrown(answer['exceptionDetails'])}\nin the script {script[:300]}")
        return answer["result"].get("value")

    def wait(self, script: str, what: str, seconds: float = LIMIT) -> Any:
        """Waits until the value of a script is true, and gives it."""
        end = time.monotonic() + seconds
        while True:
            try:
                if value := self.evaluate(script):
                    return value
            except Wrong as wrong:
                if not any(it in str(wrong) for it in MOVING):
                    raise
            if time.monotonic() > end:
                raise Wrong(f"{what}: not after {seconds:g} seconds")
            time.sleep(0.02)

    def click(self, selector: str) -> None:
        """Clicks on the middle of an element, once it is there."""
        place = self.wait(f"""(() => {{
            const it = document.querySelector({json.dumps(selector)});
            if (!it) return null;
            it.scrollIntoView({{block: "center", inline: "center", behavior: "instant"}});
            const box = it.getBoundingClientRect();
            return box.width ? [box.x + box.width / 2, box.y + box.height / 2] : null;
        }})()""", f"{selector} is there to be clicked on", 10)
        where = {"x": place[0], "y": place[1], "button": "left", "clickCount": 1}
        for kind in "mouseMoved", "mousePressed", "mouseReleased":
            self.call("Input.dispatchMouseEvent", type=kind, **where)

    def key(self, name: str, shift: bool = False) -> None:
        """Presses a key, and lets it go."""
        code, number, text = KEYS[name]
        about = {"key": text if name == "Space" else name, "code": code, "windowsVirtualKeyCode": number,
                 "nativeVirtualKeyCode": number, "modifiers": 8 if shift else 0}
        typed = {"type": "keyDown", "text": text} if text else {"type": "rawKeyDown"}
        self.call("Input.dispatchKeyEvent", **typed, **about)
        self.call("Input.dispatchKeyEvent", type="keyUp", **about)

    def size(self, width: int, height: int, scale: float = 1) -> None:
        """Sets the size of the window in CSS pixels, and how many pixels of the picture one of them has."""
        self.call("Emulation.setDeviceMetricsOverride", width=width, height=height, deviceScaleFactor=scale, mobile=False)

    def prefer(self, **features: str) -> None:
        """Sets what the reader prefers: `color_scheme`, `reduced_motion` ..; an empty text is the browser's own choice."""
        self.media |= {f"prefers-{name.replace('_', '-')}": value for name, value in features.items()}
        self.call("Emulation.setEmulatedMedia", features=[{"name": it, "value": value} for it, value in self.media.items()])

    def scheme(self, name: str) -> None:
        """Sets the colours that the reader prefers: `dark` or `light`."""
        self.prefer(color_scheme=name)

    def picture(self, path: Path) -> None:
        """Writes what the window shows, as PNG."""
        path.write_bytes(base64.b64decode(self.call("Page.captureScreenshot", format="png")["data"]))

    def tree(self) -> list[tuple[str, str]]:
        """The role and the name of each node that a screen reader is told of."""
        nodes = self.call("Accessibility.getFullAXTree")["nodes"]
        return [(it.get("role", {}).get("value", ""), it.get("name", {}).get("value", ""))
                for it in nodes if not it["ignored"]]


def thrown(details: dict) -> str:
    """The text of an exception of a script."""
    thing = details.get("exception", {})
    return str(thing.get("description") or thing.get("value") or details.get("text", "")).strip()
