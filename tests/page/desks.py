"""What a check of the desk's page has: the vaults as they are served, the servers between, and the browser."""
from __future__ import annotations

import contextlib
import json
import re
import select
import socket
import socketserver
import ssl
import threading
from collections.abc import Callable, Iterable, Iterator
from dataclasses import dataclass, field
from pathlib import Path

import gateway
from browser import Browser, Page
from lib import LIMIT, TOP, Room, Server, Wrong, free_port, response, room_of
from shown import Told
from vaults import make_vaults

INSTALLED, PAGES = "/usr/local/share/escrow/desk/", TOP / "deploy/desk"


class Quiet(socketserver.ThreadingTCPServer):
    """A server on a port of 127.0.0.1, with a thread for each connection. It does not tell of clients that go away."""
    allow_reuse_address = daemon_threads = True

    def __init__(self, handler: type[socketserver.BaseRequestHandler]):
        self.port = free_port()
        super().__init__(("127.0.0.1", self.port), handler)
        threading.Thread(target=self.serve_forever, args=(0.05,), daemon=True).start()

    def handle_error(self, *_: object) -> None:
        pass

    def __exit__(self, *_: object) -> None:
        self.shutdown()
        self.server_close()


class Tunnel(Quiet):
    """A port that takes what comes in the clear to nginx by TLS, as one of its callers, and back what is answered.

    It stands for a browser's store of certificates, for which tools and files of the machine would be needed.
    """

    def __init__(self, room: Room, port: int, caller: str = "operator"):
        pki = room.folder / "pki"
        self.gate, self.context = port, ssl.create_default_context(cafile=str(pki / "server.pem"))
        self.context.load_cert_chain(pki / f"{caller}.pem", pki / f"{caller}.key")
        # So that what can be read is always an answer's: later versions send tickets of their own between answers.
        self.context.maximum_version = ssl.TLSVersion.TLSv1_2
        super().__init__(Copying)


class Copying(socketserver.BaseRequestHandler):
    """Copies what comes at either end of a connection to the other."""
    server: Tunnel

    def handle(self) -> None:
        with (socket.create_connection(("127.0.0.1", self.server.gate)) as plain,
              self.server.context.wrap_socket(plain, server_hostname="127.0.0.1") as safe):
            other = {self.request: safe, safe: self.request}
            while True:
                for end in [safe] if safe.pending() else select.select([*other], [], [])[0]:
                    if not (data := end.recv(1 << 18)):
                        return
                    other[end].sendall(data)


class Standin(Quiet):
    """A server in place of an agent. It has a response for each path that it knows; others are not found. `asked` has the
    lines of the requests that came. A response of no bytes closes the connection."""

    def __init__(self) -> None:
        self.responses: dict[str, bytes | Callable[[], bytes]] = {}
        self.asked: list[str] = []
        super().__init__(Answering)

    def tell(self, state: str, due: str = "", **more: bytes) -> None:
        """Answers these, and by name the notices (`notices_TLD`) and reasons that are given."""
        self.responses = {"/state": response(200, state), "/due": response(200, due)}
        self.responses |= {"/" + name.replace("_", "/"): content for name, content in more.items()}


class Answering(socketserver.StreamRequestHandler):
    """Answers a request, and closes."""
    server: Standin

    def handle(self) -> None:
        method, path, *_ = self.rfile.readline().decode().split()
        while self.rfile.readline().strip():
            pass
        self.server.asked.append(f"{method} {path}")
        answer = self.server.responses.get(path, response(404, "A3 no route"))
        self.wfile.write(answer() if callable(answer) else answer)


@dataclass
class Desk:
    """What a check has: the folder with the vaults, the browser, and the servers.

    `origin` is the tunnel's, at which the page is; `gate` is nginx's, for curl. The vaults are `archive` (the first),
    `second` and `standin`, in place of which the stand-in answers.
    """
    room: Room
    browser: Browser
    origin: str
    gate: str
    ask: gateway.Ask
    server: Server
    standin: Standin
    pictures: bool
    requests: list[tuple[str, str]] = field(default_factory=list)

    def curl(self, words: str, caller: str = "operator") -> tuple[int, str]:
        """The status and the body that curl is answered; `$url` is the gateway's."""
        body, _, told = self.ask(caller, words).decode().rpartition("\n")
        if not re.match(r"\d{3} ", told):
            body, told = re.fullmatch(r"(?s)(.*?)(\d{3} .*)", told).groups()
        return int(told[:3]), body

    def get(self, path: str) -> str:
        """The answer to a GET that succeeds."""
        status, body = self.curl(f"$url{path}")
        self.room.equal(200, status, path)
        return body and body + "\n"

    def same(self, wanted: Iterable, got: Iterable, what: str) -> None:
        """Checks that rows are those that are wanted."""
        self.room.equal([*map(str, wanted)], [*map(str, got)], what)

    def restart(self) -> None:
        """Serves the first vault again, on its port."""
        self.server = Server(self.room.program, self.server.vault, port=self.server.port)
        self.room.true(self.server.listens(LIMIT), "serve does not listen again")

    def told(self, now: str, vault: str = "") -> Told:
        """What the agent answers, as of the moment of the answers that the page shows."""
        return Told(self.get(f"{vault}/state"), self.get(f"{vault}/due"), now)

    @contextlib.contextmanager
    def page(self, path: str = "/desk/", phase: str = "shown", complains: bool = False) -> Iterator[Page]:
        """A new page, in a window that is high enough for all registries. It complains of nothing, unless it is to."""
        page = self.browser.page()
        page.size(1280, 2400)
        try:
            page.go(path if path.startswith("about:") else self.origin + path)
            if phase:
                page.wait(is_in_phase(phase), f"the page of {path} is {phase}")
            yield page
            if not complains:
                self.room.equal([], complaints(page), "what the page complains of")
        except Wrong as wrong:
            raise Wrong("\n".join([str(wrong), *(f"The page complains: {it}" for it in complaints(page)[:5])])) from None
        finally:
            self.requests += page.requests
            page.close()


def complaints(page: Page) -> list[str]:
    """What a page complains of. The browser also complains where an agent says that a release does not list a part."""
    return [it for it in page.complaints if not ("Failed to load" in it and "/releases/" in it)]


# Whether each registry that is in the window has its calendar.
FILLED = """[...document.querySelectorAll("section.registry")].every((it) =>
    it.getBoundingClientRect().top > innerHeight || it.querySelector(".calendar").childElementCount)"""


def is_in_phase(name: str) -> str:
    """Whether the page is in a phase, with the calendars that are to be seen."""
    return f"document.documentElement.dataset.phase === {json.dumps(name)} && {FILLED}"


@contextlib.contextmanager
def desks(program: Path, pictures: bool) -> Iterator[Desk]:
    """Makes the vaults, and serves them."""
    with contextlib.ExitStack() as stack:
        room = stack.enter_context(room_of(program))
        make_vaults(room)
        server, second = (stack.enter_context(contextlib.closing(Server(program, room.folder / name)))
                          for name in ("archive", "second"))
        for it in server, second:
            room.true(it.listens(LIMIT), "serve does not listen")
        standin = stack.enter_context(Standin())
        places = ((INSTALLED, 1, f"{PAGES}/"), ('"~^/vaults/" ', 1, f'/vaults/standin {standin.port}; "~^/vaults/" '))
        ask = stack.enter_context(gateway.gateway(room, server.port, second.port, *places))
        tls = int(re.search(r"listen 127\.0\.0\.1:(\d+)", (room.folder / "nginx.conf").read_text())[1])
        tunnel = stack.enter_context(Tunnel(room, tls))
        browser = stack.enter_context(Browser())
        origin, gate = f"http://127.0.0.1:{tunnel.port}", f"https://127.0.0.1:{tls}"
        desk = Desk(room, browser, origin, gate, ask, server, standin, pictures)
        # A check may have begun another server in place of the first one.
        stack.callback(lambda: desk.server.close())
        yield desk


# ---- checks

CHECKS: list[Callable[[Desk], None]] = []


def check(function: Callable[[Desk], None]) -> Callable[[Desk], None]:
    """Makes a function a check."""
    CHECKS.append(function)
    return function
