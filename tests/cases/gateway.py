"""What comes through nginx with TLS, and what it stops: by deploy/nginx.conf and the commands of docs/OPERATING.md."""
import contextlib
import hashlib
import os
import re
import socketserver
import subprocess
import threading
import time
from collections.abc import Callable, Iterator
from concurrent.futures import ThreadPoolExecutor

from http_sockets import LARGE_HELD, kept
from lib import (
    DAY, EXPLAINED, FIVE, PART, TEN, TOP, Room, Skip, answer_of, begin, case, free_port, notice, part_name, state, statement)

TOOLS = "curl nginx openssl"
SECOND, THIRD, OTHER = part_name(part=2), part_name(part=3), part_name(tld="other")
CHUNKED = f"received {SECOND} 5 {FIVE}"
RECEIVED, FAILURE = f"received {PART} 1048576 {FIVE}", notice(1, "FAILURE-01", DAY, FIVE, "X")
# The bodies, each in a file of its name: the first is as large as a part may be, the last larger than nginx takes.
BODIES = {
    "large": "a" * 1_048_576, "larger": "a" * 1_048_577, "largest": "a" * 2_097_153, "hello": "hello",
    "first": f'{{"first":"{DAY}"}}', "ground": '{"ground":"operator","tld":"example"}',
    "statement": statement(number="X")}

# Callers whom the authority signed, and who are neither the operator nor the registry `example`.
NOBODY = {"before": "/O=other/CN=OPERATOR", "behind": "/CN=OPERATOR/O=other", "operators": "/CN=AN-OPERATOR",
          "longer": "/CN=an-example", "shorter": "/CN=exam"}

# Takes a caller and words for curl, in which `$url` is the gateway's. Gives the body, and behind it the status and the type.
Ask = Callable[[str, str], bytes]

# The files of certificates and keys, which the first case makes for all.
_pki: dict[str, bytes] = {}
_pki_lock = threading.Lock()


# ---- the gateway

def blocks() -> list[str]:
    """The shell commands in the page's section on the gateway: those that make certificates, and that of a statement."""
    section = (TOP / "docs/OPERATING.md").read_text().split("\n### A gateway")[1].split("\n## ")[0]
    return re.findall(r"^```sh\n(.*?)^```$", section, re.DOTALL | re.MULTILINE)


def make_certificates(room: Room) -> None:
    """Makes the page's certificates in the folder `pki`, those of the server, of further callers and of a stranger, and one of
    `example` that is no longer valid."""
    commands = ["set -e", "mkdir pki", "cd pki", blocks()[0]]
    signed = "-CA callers.pem -CAkey authority.key"
    for name, subject, more in [
            ("server", "/CN=server", "-addext subjectAltName=IP:127.0.0.1"),
            ("strangers", "/CN=strangers", ""),
            ("stranger", "/CN=OPERATOR", "-CA strangers.pem -CAkey strangers.key"),
            *((name, subject, signed) for name, subject in [
                ("operator", "/CN=OPERATOR"), ("other", "/CN=other"), *NOBODY.items()])]:
        commands.append(f"openssl req -x509 -newkey ec -pkeyopt ec_paramgen_curve:prime256v1 -nodes -days 2 "
                        f"-keyout {name}.key -out {name}.pem -subj {subject} {more}")
    commands.append(f"cp example.key expired.key; openssl x509 -req -in example.csr {signed} -days -1 -out expired.pem")
    made = room.run("\n".join(commands))
    room.equal(0, made.status, f"certificates: {made.err.decode()}")


def certificates(room: Room) -> None:
    """Puts them into the folder `pki`."""
    with _pki_lock:
        if not _pki:
            make_certificates(room)
            _pki.update({it.name: it.read_bytes() for it in (room.folder / "pki").iterdir()})
    for name, content in _pki.items():
        room.file(f"pki/{name}", content)


def configuration(room: Room, *places: tuple[str, int, str]) -> None:
    """Writes nginx.conf: the gateway's file with the certificates of `pki`, and all else that nginx wants to know.

    Each place is a text of that file, how often it stands there, and what takes its place.
    """
    text = (TOP / "deploy/nginx.conf").read_text()
    pki = ((f"/etc/escrow/{it}", 1, f"{room.folder}/pki/{it}") for it in ("server.pem", "server.key", "callers.pem"))
    for old, times, new in (*pki, *places):
        room.equal(times, text.count(old), f"how often the gateway's file has {old}")
        text = text.replace(old, new)
    folders = "".join(f"{it}_temp_path temp_{it};\n" for it in ("client_body", "proxy", "fastcgi", "uwsgi", "scgi"))
    user = "user root;\n" if os.geteuid() == 0 else ""
    room.file("nginx.conf", f"daemon off;\npid nginx.pid;\n{user}events {{}}\nhttp {{\naccess_log off;\n{folders}{text}}}\n")


def nginx(room: Room) -> list[str]:
    """The words that run nginx by that file in the folder."""
    return ["nginx", "-p", f"{room.folder}/", "-e", "nginx.err", "-c", "nginx.conf"]


@contextlib.contextmanager
def gateway(room: Room, port: int, second: int = 0, *places: tuple[str, int, str]) -> Iterator[Ask]:
    """nginx in front of the port of the first vault, `archive`, and, where there is one, of that of `second`, which has the
    registry `other`: for it the lines behind `#` in the table are taken. Further places are those of `configuration`."""
    tls = free_port()
    lines = [(f"# {it}8081;", 1, f"{it}{second};") for it in ("/vaults/second    ", "other             ")]
    certificates(room)
    configuration(room, ("listen 443 ssl;", 1, f"listen 127.0.0.1:{tls} ssl;"), (" 8080;", 2, f" {port};"),
                  *(lines if second else ()), *places)
    for name, body in BODIES.items():
        room.file(name, body)

    def ask(caller: str, words: str) -> bytes:
        known = caller and f"--cert pki/{caller}.pem --key pki/{caller}.key"
        return room.run(f"url=https://127.0.0.1:{tls}; curl -s -m 60 --path-as-is --cacert pki/server.pem {known} "
                        f"-w '%{{http_code}} %{{content_type}}' {words}").out

    with begin(nginx(room), stderr=subprocess.DEVNULL) as process:
        try:
            started, end = room.folder / "nginx.pid", time.monotonic() + 30
            while not started.exists() and process.poll() is None and time.monotonic() < end:
                time.sleep(0.02)
            room.true(started.exists(), "nginx does not start")
            yield ask
        finally:
            process.terminate()


def asks(room: Room, ask: Ask, rows: tuple[tuple[str, int, str | None, str], ...]) -> None:
    """Checks what callers are answered: the text of the server, or, where there is none, the page of nginx itself."""
    for caller, status, answer, words in rows:
        got = ask(caller, words).decode().splitlines()
        wanted = [f"{status} text/html"] if answer is None else [*answer.splitlines(), f"{status} text/plain"]
        room.equal(wanted, got[-1:] if answer is None else got, f"{caller}: {words}")


# ---- one vault

@case(TOOLS)
def nginx_accepts_the_file_as_it_is(room: Room) -> None:
    if os.geteuid():
        raise Skip("only root may listen on port 443")
    certificates(room)
    configuration(room)
    tested = answer_of([*nginx(room), "-t"])
    room.equal((0, []), (tested.status, re.findall(r".*\[\w+\].*", tested.err.decode())), "nginx -t")


@case(TOOLS)
def what_a_registry_may_ask_comes_through(room: Room) -> None:
    room.vault("d", 300)
    with room.serve("d", 7, FIVE) as server, gateway(room, server.port) as ask:
        asks(room, ask, (
            ("example", 201, RECEIVED, f"-T large $url/deposits/{PART}"),
            ("example", 200, RECEIVED, f"-T large $url/deposits/{PART}"),
            ("example", 200, "", "$url/notices/example"),
            ("example", 413, "A8 too long", f"-T larger $url/deposits/{PART}"),
            ("example", 409, "Q10 part out of order", f"-T hello $url/deposits/{THIRD}"),
            ("example", 201, CHUNKED, f"-H 'Transfer-Encoding: chunked' -T hello $url/deposits/{SECOND}"),
            ("other", 404, "Q2 registry unknown", f"-T hello $url/deposits/{OTHER}")))
    kept(room, 42, f"part {PART} 1048576 held {FIVE}", f"part {SECOND} 5 held {FIVE}")


@case(TOOLS)
def what_a_registry_may_not_ask_is_stopped(room: Room) -> None:
    room.vault("d")
    # Nothing of it reaches the server, which is there for the last request alone.
    with room.serve("d", 1, FIVE) as server, gateway(room, server.port) as ask:
        asks(room, ask, (
            ("example", 413, None, f"-T largest $url/deposits/{PART}"),
            ("other", 403, None, f"-T hello $url/deposits/{PART}"),
            ("other", 403, None, "$url/notices/example"),
            *(("example", 403, None, words) for words in (
                "-X PUT -d @first $url/registries/example", "-X PUT -d @ground $url/releases/R-1", "$url/notices/other",
                "-d @statement $url/statements", f"-T hello $url/deposits/{OTHER}", "-d '' $url/purges",
                f"$url/releases/R-1/{PART}", f"$url/deposits/{PART}", f"-T hello $url/deposits/../deposits/{PART}",
                f"-T hello $url/deposits/example_/../{OTHER}", f"-T hello $url/deposits/./{PART}",
                f"-T hello $url//deposits/{PART}", f"-T hello $url/deposits/{PART}?x=1",
                f"-T hello $url/deposits/%65{PART[1:]}", f"-T hello $url/deposits/{PART.replace('_', '%5f', 1)}",
                f"$url/reasons/other/{DAY}/0", f"-d '' $url/reasons/example/{DAY}/0",
                "$url/notices/example?tld=other", "$url/notices/example/", "$url/state", "$url/due", "$url/digests/example",
                "$url/vaults/archive/notices/example")),
            *((caller, 403, None, words) for caller in NOBODY for words in (
                "$url/notices/example", f"-T hello $url/deposits/{PART}")),
            ("stranger", 400, None, "$url/notices/example"),
            ("expired", 400, None, "$url/notices/example"),
            ("", 400, None, "$url/notices/example"),
            ("example", 200, "", "$url/notices/example")))


@case(TOOLS)
def a_registry_reads_why_its_own_deposit_has_failed(room: Room) -> None:
    room.vault("d")
    room.put("d", PART, "hello", TEN)
    asked = f"$url/reasons/example/{DAY}/0"
    # What is stopped does not reach the server, which is there for the other requests alone.
    with room.serve("d", 7, FIVE) as server, gateway(room, server.port) as ask:
        asks(room, ask, (
            ("example", 404, "Q22 no failure", asked),
            ("operator", 201, FAILURE, "-d @statement $url/statements"),
            ("example", 200, EXPLAINED, asked),
            ("operator", 200, EXPLAINED, asked),
            ("example", 404, "Q22 no failure", f"$url/reasons/example/{DAY}/1"),
            ("example", 400, "A10 form", f"$url/reasons/example/{DAY}/00"),
            ("operator", 404, "Q2 registry unknown", f"$url/reasons/other/{DAY}/0"),
            *((caller, 403, None, asked) for caller in ("other", *NOBODY)),
            *(("example", 403, None, f"$url{path}") for path in (
                f"/reasons/other/{DAY}/0", f"/reasons/example/{DAY}", f"/reasons/example/{DAY}/0/", f"//reasons/example/{DAY}/0",
                f"/reasons/example/{DAY}/0?x=1", f"/reasons/example/{DAY}/%30", f"/reasons/example/{DAY}/-1",
                f"/reasons/example/../other/{DAY}/0", f"/reasons/example/{DAY}/../../other/{DAY}/0",
                f"/vaults/archive/reasons/example/{DAY}/0"))))


@case(TOOLS)
def the_operator_may_ask_everything(room: Room) -> None:
    room.vault("d", 300)
    room.put("d", PART, BODIES["large"], TEN)
    with room.serve("d", 9, FIVE) as server, gateway(room, server.port) as ask:
        asks(room, ask, (
            ("operator", 200, state(43, LARGE_HELD, blocks=300), "$url/state"),
            ("operator", 200, f"registered example {DAY}", "-X PUT -d @first $url/registries/example"),
            ("operator", 201, FAILURE, "-d @statement $url/statements"),
            ("operator", 409, "Q14 not yet due", f"-d '' $url/checks/example/{DAY}"),
            ("operator", 201, f"released R-1 example operator {FIVE} 1\n{PART}", "-X PUT -d @ground $url/releases/R-1"),
            ("operator", 200, "dropped 0", "-d '' $url/purges"),
            ("operator", 405, "A4 method", "-X DELETE $url/purges"),
            ("operator", 400, "A2 target", "$url/notices/example?x=1")))
        fetched = ask("operator", f"$url/releases/R-1/{PART}")
        room.true(fetched == (BODIES["large"] + "200 application/octet-stream").encode(), "the part is not as it was sent")
    kept(room, 43, LARGE_HELD, FAILURE, f"release R-1 example operator {FIVE} 1")


@case(TOOLS)
def a_browser_may_only_read(room: Room) -> None:
    room.vault("d")
    fields = [f"-H 'Sec-Fetch-Site: {it}'" for it in ("cross-site", "same-site", "same-origin", "none")]
    fields += [f"-H 'Origin: {it}'" for it in ("null", "https://elsewhere.example", "https://127.0.0.1")]
    changes = (("operator", "-d '' $url/purges"), ("operator", "-X PUT -d @ground $url/releases/R-1"),
               ("operator", f"-d '' $url/vaults/archive/checks/example/{DAY}"), ("operator", "-X DELETE $url/purges"),
               ("example", f"-T hello $url/deposits/{PART}"))
    # What is stopped does not reach the server, which is there for the other requests alone.
    with room.serve("d", len(fields) + 2, FIVE) as server, gateway(room, server.port) as ask:
        for field in fields:
            asks(room, ask, (*((caller, 403, None, f"{field} {words}") for caller, words in changes),
                             ("operator", 200, state(7), f"{field} $url/state")))
        asks(room, ask, (("operator", 200, "dropped 0", "-d '' $url/purges"),
                         ("operator", 200, "dropped 0", "-d '' -H 'Origin;' -H 'Sec-Fetch-Site;' $url/purges")))


@case(TOOLS, seconds=12)
def a_slow_upload_holds_nobody_up(room: Room) -> None:
    room.vault("d", 300)
    with room.serve("d", 2, FIVE) as server, gateway(room, server.port) as ask, ThreadPoolExecutor(1) as pool:
        slow = pool.submit(ask, "example", f"--limit-rate 100k -T large $url/deposits/{PART}")
        time.sleep(1)
        asks(room, ask, (("example", 200, "", "$url/notices/example"),))
        room.true(not slow.done(), "the response comes when the upload has ended")
        room.equal(f"{RECEIVED}\n201 text/plain".encode(), slow.result(), "the slow upload")


@case(TOOLS)
def without_a_server_the_gateway_answers_502(room: Room) -> None:
    with gateway(room, free_port()) as ask:
        asks(room, ask, (("operator", 502, None, "$url/notices/example"),))


# ---- two vaults

# The day after DAY, of which nothing came.
NEXT_DAY, NEXT = "2026-08-03", "2026-08-03T10:00:00Z"
# The vaults, each with its registry.
VAULTS = ("archive", "example"), ("second", "other")


def vaults(room: Room) -> None:
    """Makes the vault `archive` with the registry `example`, and `second` with the registry `other`."""
    room.vault("archive")
    room.plays(f"""
        $ mkdir second; escrow init second --blocks 8 --number 0000000000000002 -> ready 8 0000000000000002
        $ escrow register second other --first {DAY} -> registered other {DAY}""")


@contextlib.contextmanager
def recorder(name: str) -> Iterator[int]:
    """A server on the port that it gives, which answers each request with its own name, and the method and target that came."""
    class Handler(socketserver.StreamRequestHandler):
        def handle(self) -> None:
            line, length = self.rfile.readline(), 0
            while field := self.rfile.readline().strip():
                length = int(field[15:]) if field.lower().startswith(b"content-length:") else length
            self.rfile.read(length)
            asked = line.rpartition(b" ")[0]
            self.wfile.write(b"HTTP/1.0 200 OK\r\nContent-Type: text/plain\r\n\r\n" + name.encode() + b" " + asked + b"\n")

    class Recorder(socketserver.ThreadingTCPServer):
        # A connection that has closed may still have the port.
        allow_reuse_address = True

    port = free_port()
    with Recorder(("127.0.0.1", port), Handler) as server:
        threading.Thread(target=server.serve_forever, args=(0.05,)).start()
        try:
            yield port
        finally:
            server.shutdown()


@case(TOOLS)
def each_registry_reaches_its_own_vault(room: Room) -> None:
    vaults(room)
    with (room.serve("archive", 2, FIVE) as first, room.serve("second", 2, FIVE) as second,
          gateway(room, first.port, second.port) as ask):
        asks(room, ask, (
            ("example", 201, f"received {PART} 5 {FIVE}", f"-T hello $url/deposits/{PART}"),
            ("other", 201, f"received {OTHER} 5 {FIVE}", f"-T hello $url/deposits/{OTHER}"),
            ("example", 200, "", "$url/notices/example"),
            ("other", 200, "", "$url/notices/other")))
    room.plays(f"""
        $ escrow state archive -> registry example {DAY}
        part {PART} 5 held {FIVE}
        free 6 of 7
        $ escrow state second -> registry other {DAY}
        part {OTHER} 5 held {FIVE}
        free 6 of 7""")


@case(TOOLS)
def a_registry_reaches_no_other_vault(room: Room) -> None:
    vaults(room)
    # Nothing of it reaches a server: each is there for its last request alone.
    with (room.serve("archive", 1, FIVE) as first, room.serve("second", 1, FIVE) as second,
          gateway(room, first.port, second.port) as ask):
        for caller, own, foreign, name, other in (
                ("example", PART, OTHER, "second", "other"), ("other", OTHER, PART, "archive", "example")):
            asks(room, ask, tuple((caller, 403, None, words) for words in (
                f"$url/notices/{other}", f"$url/reasons/{other}/{DAY}/0", f"-T hello $url/deposits/{foreign}",
                f"-d '' $url/checks/{other}/{DAY}", f"$url/vaults/{name}/reasons/{other}/{DAY}/0",
                *(f"$url/vaults/{it}/notices/{caller}" for it in ("archive", "second", "third", "", "..")),
                *(f"-T hello $url/vaults/{it}/deposits/{own}" for it in ("archive", "second", "third")),
                f"$url/vaults/{name}/notices/{other}", f"-T hello $url/vaults/{name}/deposits/{foreign}",
                f"$url/vaults/{name}/state", f"-d '' $url/vaults/{name}/purges", "$url/vaults/", "$url/vaults",
                f"$url/%76aults/{name}/notices/{caller}", f"$url/notices/../vaults/{name}/notices/{caller}",
                f"$url/notices/{caller}/../../vaults/{name}/notices/{other}", f"$url/notices/{caller}/../{other}",
                f"$url//vaults/{name}/notices/{caller}", f"$url/vaults/{name}/../../notices/{caller}",
                f"$url/notices/{caller}?/vaults/{name}/state", f"$url/vaults/{name}/notices/{caller}?x=1",
                f"--request-target '/notices/{caller}#/vaults/{name}' $url",
                f"--request-target https://{name}/vaults/{name}/notices/{caller} $url",
                f"--request-target https://{name}/notices/{other} $url")))
        asks(room, ask, (("example", 200, "", "$url/notices/example"), ("other", 200, "", "$url/notices/other")))


@case(TOOLS)
def the_operator_reaches_each_vault_by_its_name(room: Room) -> None:
    vaults(room)
    with (room.serve("archive", 15, NEXT) as first, room.serve("second", 15, NEXT) as second,
          gateway(room, first.port, second.port) as ask):
        for (name, tld), (_, other) in (VAULTS, VAULTS[::-1]):
            url, part = f"$url/vaults/{name}", part_name(NEXT_DAY, tld=tld)
            absence = notice(1, "ABSENCE", DAY, NEXT, tld=tld)
            failure = notice(2, "FAILURE-01", NEXT_DAY, NEXT, "X", tld=tld)
            room.file("day", f'{{"date":"{NEXT_DAY}","tld":"{tld}"}}')
            room.file("ground", f'{{"ground":"operator","tld":"{tld}"}}')
            room.file("statement", statement(NEXT_DAY, "X", tld=tld))
            asks(room, ask, tuple(("operator", *row) for row in (
                (200, f"registered {tld} {DAY}", f"-X PUT -d @first {url}/registries/{tld}"),
                (200, f"due {tld} {DAY}", f"{url}/due"),
                (201, absence, f"-d '' {url}/checks/{tld}/{DAY}"),
                (201, f"received {part} 5 {NEXT}", f"-T hello {url}/deposits/{part}"),
                (201, failure, f"-d @statement {url}/statements"),
                (200, f"{absence}\n{failure}", f"{url}/notices/{tld}"),
                (200, EXPLAINED, f"{url}/reasons/{tld}/{NEXT_DAY}/0"),
                (404, "Q2 registry unknown", f"{url}/notices/{other}"),
                (200, f"{hashlib.sha256(b'hello').hexdigest()}  {part}", f"{url}/digests/{tld}"),
                (201, f"held H-1 {tld} {NEXT_DAY} {NEXT}", f"-X PUT -d @day {url}/holds/H-1"),
                (201, f"lifted H-1 {NEXT}", f"-d '' {url}/lifts/H-1"),
                (201, f"released R-1 {tld} operator {NEXT} 1\n{part}", f"-X PUT -d @ground {url}/releases/R-1"),
                (200, "dropped 0", f"-d '' {url}/purges"))))
            room.equal(b"hello200 application/octet-stream", ask("operator", f"{url}/releases/R-1/{part}"), f"{name}: fetch")
            shown = ask("operator", f"{url}/state").decode()
            room.true(shown.startswith(f"registry {tld} {DAY}\n") and f" {other}" not in shown, f"{name}: {shown}")


@case(TOOLS)
def a_statement_for_the_second_vault_is_sent_as_the_page_says(room: Room) -> None:
    vaults(room)
    room.put("second", OTHER, "hello", TEN)
    with room.serve("second", 1, FIVE) as second, gateway(room, free_port(), second.port) as ask:
        tls = re.search(r"listen 127\.0\.0\.1:(\d+)", (room.folder / "nginx.conf").read_text())[1]
        room.file("pki/statement.json", statement(number="X", tld="other"))
        command = blocks()[1].replace("https://gateway.example", f"-s --cacert server.pem https://127.0.0.1:{tls}")
        wanted = notice(1, "FAILURE-01", DAY, FIVE, "X", tld="other")
        room.equal([wanted], room.run(f"cd pki && {command}").lines(), command)


def reaches(room: Room, ask: Ask, vault: str, line: str, path: str = "") -> None:
    """Checks that what the operator asks reaches the recorder of a vault, under the same path or another one."""
    method, asked = line.split()
    body = "" if method == "GET" else f"-X {method} -d @first"
    wanted = f"{vault} {method} {path or asked}"
    asks(room, ask, (("operator", 200, wanted, f"{body} --request-target '{asked}' $url"),))


@case(TOOLS)
def a_path_without_a_vault_goes_to_that_of_its_domain_or_to_the_first(room: Room) -> None:
    with recorder("archive") as first, recorder("second") as second, gateway(room, first, second) as ask:
        for line in ("PUT /registries/other", f"PUT /deposits/{OTHER}", "GET /notices/other", "GET /digests/other",
                     f"POST /checks/other/{DAY}", f"GET /reasons/other/{DAY}/0"):
            reaches(room, ask, "second", line)
        for line in ("PUT /registries/example", f"PUT /deposits/{PART}", "GET /notices/third", "GET /digests/others",
                     f"POST /checks/an-other/{DAY}", f"PUT /deposits/other-{OTHER}", "GET /notices/", "GET /notices/%6fther",
                     "GET /notices//other", "GET /notices/../notices/other", "GET /a/notices/other", "POST /statements",
                     "POST /purges", "GET /state", "GET /due", "PUT /releases/other", f"GET /releases/R-1/{OTHER}",
                     "PUT /holds/other", "POST /lifts/other", "GET /"):
            reaches(room, ask, "archive", line)


@case(TOOLS)
def a_path_is_passed_on_as_it_came(room: Room) -> None:
    with recorder("archive") as first, recorder("second") as second, gateway(room, first, second) as ask:
        for path in ("/state", "/", "//state", "/../archive/state", "/%2e%2e/archive/state", "/%2E./a%2fb%20", "/state?",
                     "/state?x=1&y=/vaults/archive/%73", "/state#/vaults/archive/state", "/vaults/archive/state",
                     "/notices/example", "/./state/", "/a:b@c;d=e"):
            reaches(room, ask, "second", f"GET /vaults/second{path}", path)
            reaches(room, ask, "archive", f"GET /vaults/archive{path}", path)
        reaches(room, ask, "archive", "GET /vaults/archive/notices/other", "/notices/other")
        reaches(room, ask, "second", "GET https://archive/vaults/second/state", "/state")
        reaches(room, ask, "second", "GET /vaults/second")
        for path in ("/vaults", "/VAULTS/second/state", "/%76aults/second/state", "//vaults/second/state",
                     "/./vaults/second/state", "/state/../vaults/second/state", "/state?/vaults/second/state",
                     "/a%20b//c/../%2e%2E/?d=%41", "/state#/vaults/second/state"):
            reaches(room, ask, "archive", f"GET {path}")
        asks(room, ask, tuple(("operator", 400, None, f"--request-target '{path}' $url") for path in (
            "/../state", "/vaults/second/../../../state", "/vaults/second/%00", "/vaults/second/%zz", "/vaults/second/a b")))


@case(TOOLS)
def a_vault_that_the_table_does_not_name_is_not_found(room: Room) -> None:
    # What reached a port would be answered with 502.
    with gateway(room, free_port(), free_port()) as ask:
        asks(room, ask, tuple(("operator", 404, None, f"--request-target '{path}' $url") for path in (
            "/vaults/third/state", "/vaults/third", "/vaults/", "/vaults//state", "/vaults/../state", "/vaults/./second/state",
            "/vaults/other/notices/other", "/vaults/secondary/state", "/vaults/second%2fstate", "/vaults/second%2f/state",
            "/vaults/%73econd/state", "/vaults/second?/state", "/vaults/second#/state", "/vaults/second;/state",
            "/vaults/third/../second/state", "/vaults/8081/state", "/vaults//vaults/second/state")))


@case(TOOLS)
def a_vault_that_is_down_stops_no_other(room: Room) -> None:
    vaults(room)
    with room.serve("second", 1, FIVE) as second, gateway(room, free_port(), second.port) as ask:
        asks(room, ask, (("example", 502, None, "$url/notices/example"), ("other", 200, "", "$url/notices/other")))
