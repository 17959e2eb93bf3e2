#!/usr/bin/env python3
"""Times `escrow serve`: parts that are put, against the same work within one process; and a part of 1 MiB that is fetched,
against nginx with the same bytes as a file. It also measures the memory that a server takes for parts of 1 MiB.

    bench/serve.py [PROGRAM [FOLDER]]      (it makes its vaults in FOLDER, or else in the current folder)

It takes about a minute. It needs the program that `rt run` builds in crates/escrow, strace and nginx.

One server answers one connection a request. A time is that of a client of plain sockets, from connecting to the end of
the response. What is compared is done by turns, in one run, on one disk.
"""
import contextlib
import datetime
import hashlib
import os
import pathlib
import pwd
import re
import socket
import sqlite3
import statistics
import subprocess
import tempfile
import time

from vaults import number, program_and_folder, seconds

MIB = 1 << 20
BLOCK = 4096
BLOCKS = 262_144
FIRST_DAY = datetime.date(2000, 1, 1)
NOW = datetime.date(2400, 1, 1)
KEEP_DAY = datetime.date(2401, 1, 1)
PUTS = 200
GETS = 300
FEW, MANY = 20, 120
PARTS = (1, 10, 50)
RUNS = 7
SYNCS = ("fsync", "fdatasync")
WORK = ("pwrite64", *SYNCS)
NGINX = """
daemon off;
user {user};
worker_processes 1;
pid {folder}/nginx.pid;
error_log {folder}/error.log;
events {{}}
http {{
    access_log off;
    sendfile on;
    client_body_temp_path {folder}/body;
    proxy_temp_path {folder}/proxy;
    fastcgi_temp_path {folder}/fastcgi;
    uwsgi_temp_path {folder}/uwsgi;
    scgi_temp_path {folder}/scgi;
    server {{ listen 127.0.0.1:{port}; root {folder}; }}
}}
"""


# ---- the client


def exchange(port, request, buffer):
    """How long one request takes from connecting to the end of the response, and the response in the buffer."""
    start = time.perf_counter()
    with socket.socket() as client:
        client.connect(("127.0.0.1", port))
        client.sendall(request)
        end = 0
        while count := client.recv_into(buffer[end:]):
            end += count
        taken = time.perf_counter() - start
    return taken, buffer[:end]


def answered(port, request, buffer, status, body=b""):
    """How long a request takes that is answered with this status, and with a body that ends so."""
    taken, response = exchange(port, request, buffer)
    line = bytes(response[:64]).split(b"\r\n")[0]
    assert line.startswith(b"HTTP/1.1 %d " % status), line
    assert response[len(response) - len(body) :] == body
    return taken


def new_buffer():
    return memoryview(bytearray(2 * MIB))


def part_name(i):
    return f"example_{FIRST_DAY + datetime.timedelta(days=i)}_full_S1_R0.ryde"


def put_request(name, content):
    head = f"PUT /deposits/{name} HTTP/1.1\r\nHost: 127.0.0.1\r\nContent-Length: {len(content)}\r\n\r\n"
    return head.encode() + content


def get_request(path):
    return f"GET {path} HTTP/1.1\r\nHost: 127.0.0.1\r\nConnection: close\r\n\r\n".encode()


SMALL = get_request("/notices/example")


# ---- the servers


def free_port():
    with socket.socket() as listener:
        listener.bind(("127.0.0.1", 0))
        return listener.getsockname()[1]


def new_vault(escrow, folder):
    """A vault of the largest size, with one registry."""
    folder.mkdir()
    seconds(escrow, "init", folder, "--blocks", str(BLOCKS), "--number", "0000000000000001")
    seconds(escrow, "register", folder, "example", "--first", FIRST_DAY.isoformat())


@contextlib.contextmanager
def serving(escrow, vault, requests, *under):
    """A server of so many connections, which then ends: its port and its process. It is run under these words."""
    port = free_port()
    words = ["serve", vault, "--port", str(port), "--requests", str(requests), "--now", f"{NOW}T00:00:00Z"]
    server = subprocess.Popen([*under, escrow, *words], stdout=subprocess.PIPE)
    try:
        line = server.stdout.readline()
        assert line == b"listening 127.0.0.1:%d\n" % port, line
        yield port, server.pid
        assert server.wait(60) == 0, server.returncode
    finally:
        server.kill()
        server.wait()
        server.stdout.close()


@contextlib.contextmanager
def nginx(folder):
    """The port of an nginx of one worker that serves the files of a folder."""
    port = free_port()
    config = folder / "nginx.conf"
    config.write_text(NGINX.format(folder=folder, port=port, user=pwd.getpwuid(os.getuid()).pw_name))
    server = subprocess.Popen(["nginx", "-p", folder, "-e", folder / "error.log", "-c", config])
    try:
        for _ in range(100):
            with socket.socket() as probe:
                if probe.connect_ex(("127.0.0.1", port)) == 0:
                    break
            time.sleep(0.05)
        yield port
    finally:
        server.terminate()
        server.wait()


# ---- putting


class OneProcess:
    """What a `PUT` does, by calls within this process, on the two files of a vault that nobody serves."""

    def __init__(self, folder, has_digest):
        self.volume = os.open(folder / "vault.vol", os.O_RDWR)
        self.db = sqlite3.connect(folder / "custody.db", isolation_level=None)
        self.db.execute("PRAGMA synchronous = FULL")
        self.db.execute("PRAGMA foreign_keys = ON")
        assert self.db.execute("PRAGMA journal_mode").fetchone() == ("wal",)
        self.has_digest = has_digest
        self.free = 1

    def put(self, i, content):
        """How long it takes to write the bytes at their offset, to sync them, and to commit their row."""
        start = time.perf_counter()
        os.pwrite(self.volume, content, BLOCK * self.free)
        digest = hashlib.sha256(content).digest() if self.has_digest else bytes(32)
        os.fsync(self.volume)
        count = -(-len(content) // BLOCK)
        extent = self.free.to_bytes(4, "big") + count.to_bytes(4, "big")
        moments = number(NOW) * 86400, number(KEEP_DAY)
        row = "example", number(FIRST_DAY) + i, 0, 1, "full", *moments, len(content), digest, extent
        self.db.execute("INSERT INTO part VALUES (?, ?, ?, ?, ?, ?, ?, ?, ?, ?)", row)
        taken = time.perf_counter() - start
        self.free += count
        return taken

    def close(self):
        self.db.close()
        os.close(self.volume)


def times_of_puts(escrow, top, content):
    """The times of `PUT`, of the same work within one process, and of that with a SHA-256."""
    folders = [top / kind for kind in ("served", "plain", "digested")]
    for folder in folders:
        new_vault(escrow, folder)
    plain, digested = OneProcess(folders[1], False), OneProcess(folders[2], True)
    buffer, taken = new_buffer(), ([], [], [])
    with serving(escrow, folders[0], PUTS) as (port, _):
        for i in range(PUTS):
            taken[0].append(answered(port, put_request(part_name(i), content), buffer, 201))
            taken[1].append(plain.put(i, content))
            taken[2].append(digested.put(i, content))
    plain.close()
    digested.close()
    return taken


def rates(ours, theirs):
    """The rate of ours as a multiple of theirs, by the median and by the least of the times."""
    return f"{statistics.median(theirs) / statistics.median(ours):.2f} | {min(theirs) / min(ours):.2f}"


def milliseconds(taken):
    return f"{statistics.median(taken) * 1000:.2f}, {min(taken) * 1000:.2f}"


def puts(escrow, top):
    print("| `PUT` | against | ms: median, least | the other | rate | by the least |")
    print("|---|---|---|---|---|---|")
    for name, content in contents():
        with tempfile.TemporaryDirectory(dir=top) as folder:
            ours, plain, digested = times_of_puts(escrow, pathlib.Path(folder), content)
        for other, theirs in (("write, sync, insert", plain), ("with SHA-256", digested)):
            shown = " | ".join(map(milliseconds, (ours, theirs)))
            print(f"| {name} | {other} | {shown} | {rates(ours, theirs)} |", flush=True)


def contents():
    return ("5 bytes", b"bytes"), ("1 MiB", os.urandom(MIB))


# ---- the calls of a put


def traced(escrow, folder, content, count, *words):
    """By the name of each call its number and its seconds, of a server of so many parts, and the seconds of these."""
    new_vault(escrow, folder)
    told = folder / "told"
    buffer = new_buffer()
    with serving(escrow, folder, count, "strace", "-f", "-c", "-w", "-o", told, *words) as (port, _):
        taken = sum(answered(port, put_request(part_name(i), content), buffer, 201) for i in range(count))
    rows = re.findall(r"^ *[\d.]+ +([\d.]+) +\d+ +(\d+) +(?:\d+ +)?(\w+)$", told.read_text(), re.MULTILINE)
    return {name: (int(calls), float(total)) for total, calls, name in rows if name != "total"}, taken


def per_put(escrow, top, content, *words):
    """The same of one put: what many puts take more than few."""
    with tempfile.TemporaryDirectory(dir=top) as folder:
        few, few_taken = traced(escrow, pathlib.Path(folder) / "few", content, FEW, *words)
        many, many_taken = traced(escrow, pathlib.Path(folder) / "many", content, MANY, *words)
    puts = MANY - FEW
    calls = {name: [(a - b) / puts for a, b in zip(many[name], few.get(name, (0, 0)))] for name in many}
    return calls, (many_taken - few_taken) / puts


def calls(escrow, top):
    print("\n| `PUT` | syncs | their time | time of `pwrite64` |")
    print("|---|---|---|---|")
    for name, content in contents():
        work, taken = per_put(escrow, top, content, "--seccomp-bpf", "-e", "trace=" + ",".join(WORK))
        counts, times = zip(*(work.get(call, (0, 0)) for call in (*SYNCS, "pwrite64")))
        print(f"| {name} | {sum(counts[:-1]):.1f} | {sum(times[:-1]) / taken:.0%} | {times[-1] / taken:.0%} |", flush=True)


# ---- fetching


def times_of_gets(escrow, top):
    """The times of a `GET` of a part of 1 MiB, and of nginx with the same bytes."""
    content = os.urandom(MIB)
    vault, files = top / "vault", top / "files"
    new_vault(escrow, vault)
    files.mkdir()
    (files / part_name(0)).write_bytes(content)
    buffer, taken = new_buffer(), ([], [])
    terms = b'{"ground":"operator","tld":"example"}'
    release = b"PUT /releases/R-1 HTTP/1.1\r\nContent-Length: %d\r\n\r\n%s" % (len(terms), terms)
    part = get_request(f"/releases/R-1/{part_name(0)}")
    file = get_request(f"/{part_name(0)}")
    with serving(escrow, vault, GETS + 2) as (port, _), nginx(files) as other:
        answered(port, put_request(part_name(0), content), buffer, 201)
        answered(port, release, buffer, 201)
        for _ in range(GETS):
            taken[0].append(answered(port, part, buffer, 200, content))
            taken[1].append(answered(other, file, buffer, 200, content))
    return taken


def gets(escrow, top):
    print("\n| `GET` of 1 MiB, ms | nginx | rate | by the least |")
    print("|---|---|---|---|")
    with tempfile.TemporaryDirectory(dir=top) as folder:
        ours, theirs = times_of_gets(escrow, pathlib.Path(folder))
    print(f"| {milliseconds(ours)} | {milliseconds(theirs)} | {rates(ours, theirs)} |", flush=True)


# ---- memory


def peak_kib(process):
    """The most memory that a process has had, in KiB."""
    status = pathlib.Path(f"/proc/{process}/status").read_text()
    return int(re.search(r"VmHWM:\s+(\d+) kB", status).group(1))


def peaks(escrow, vault, content):
    """The peak memory of a server after one small `GET`, and what each number of parts adds to it."""
    new_vault(escrow, vault)
    buffer = new_buffer()
    with serving(escrow, vault, 2 + PARTS[-1]) as (port, process):
        answered(port, SMALL, buffer, 200)
        idle, added = peak_kib(process), []
        for i in range(PARTS[-1]):
            answered(port, put_request(part_name(i), content), buffer, 201)
            if i + 1 in PARTS:
                added.append(peak_kib(process) - idle)
        answered(port, SMALL, buffer, 200)
    return idle, *added


def memory(escrow, top):
    columns = " | ".join(f"added by {count}" for count in PARTS)
    print(f"\n| KiB, parts of | after a `GET` | {columns} |")
    print("|---|---|" + "---|" * len(PARTS))
    for name, content in contents():
        runs = []
        for _ in range(RUNS):
            with tempfile.TemporaryDirectory(dir=top) as folder:
                runs.append(peaks(escrow, pathlib.Path(folder) / "vault", content))
        print(f"| {name} | " + " | ".join(f"{min(column)}–{max(column)}" for column in zip(*runs)) + " |", flush=True)


def main():
    with program_and_folder(__doc__) as (escrow, top):
        puts(escrow, top)
        calls(escrow, top)
        gets(escrow, top)
        memory(escrow, top)


if __name__ == "__main__":
    main()
