#!/usr/bin/env python3
"""Times the verification of full deposits against a Python program that makes the same checks, and that of deposits which
somebody sends to harm. For one whose first file is not UTF-8, only the frame, the envelope and SHA-256 remain.

    bench/verify.py

It takes about five minutes. It needs the programs that `rt run` builds in crates/bench_tools and crates/deposit.
"""
import csv
import datetime
import hashlib
import io
import itertools
import json
import pathlib
import random
import re
import subprocess
import sys
import tempfile
import time

import vaults

PROGRAM = vaults.CRATES / "bench_tools/out/bench_tools"
SIZE = 8 * 1024 * 1024
TIMES = 5
RUNS = 5
SPACE = "urn:ietf:params:xml:ns:"
URIS = [SPACE + name for name in ("csvContact-1.0", "csvDomain-1.0", "csvHost-1.0", "csvRegistrar-1.0", "rdeHeader-1.0")]
TABLES = ["domain", "domainContacts", "domainStatuses", "domainNameServers", "host", "hostAddresses", "contact", "registrar"]
COUNTED = ["contact", "domain", "host", "registrar"]
DAY = datetime.date(2026, 8, 2)
NAME, ID = f"example_{DAY}_full_S1_R0.ryde", vaults.identifier(DAY)

MOMENT = r"\d{4}-\d{2}-\d{2}T\d{2}:\d{2}:\d{2}Z"
HOST = r"[a-z0-9.-]{1,253}"
ROID = r"[A-Za-z0-9_-]{1,89}"
IDENT = r"[!-~]{1,16}"
FORMS = {
    "domain": [HOST, ROID, f"(?:{IDENT})?", IDENT, MOMENT, MOMENT],
    "domainContacts": [HOST, "admin|billing|tech", IDENT],
    "domainStatuses": [HOST, "[A-Za-z]{1,30}"],
    "domainNameServers": [HOST, HOST],
    "host": [HOST, ROID, IDENT, MOMENT],
    "hostAddresses": [HOST, "[0-9a-fA-F.:]{1,45}", "v4|v6"],
    "contact": [IDENT, ROID, IDENT, MOMENT],
    "registrar": [IDENT, r"[^\0]{1,255}", r"(?:[1-9]\d{0,8})?", "[A-Za-z]{1,30}"],
}
PATTERNS = {table: [re.compile(f"(?:{form})", re.ASCII) for form in forms] for table, forms in FORMS.items()}
KEYS = {"domain": 1, "domainContacts": 3, "domainStatuses": 2, "domainNameServers": 2, "host": 1, "hostAddresses": 3, "contact": 1, "registrar": 1}


def is_moment(text):
    try:
        datetime.datetime.fromisoformat(text)
        return True
    except ValueError:
        return False


def read_table(table, data):
    """The rows of a table in its one spelling, or None."""
    text = data.decode("utf-8")
    rows = list(csv.reader(io.StringIO(text, newline="")))
    spelled = io.StringIO()
    csv.writer(spelled, lineterminator="\n").writerows(rows)
    if spelled.getvalue() != text:
        return None
    patterns = PATTERNS[table]
    moments = [column for column, form in enumerate(FORMS[table]) if form is MOMENT]
    width, key = len(patterns), KEYS[table]
    seen = set()
    for row in rows:
        if len(row) != width:
            return None
        for pattern, field in zip(patterns, row):
            if not pattern.fullmatch(field):
                return None
        for column in moments:
            if not is_moment(row[column]):
                return None
        seen.add(tuple(row[:key]))
    return rows if len(seen) == len(rows) else None


def verify(joined):
    """The verdict on a full deposit, by the same checks in the same order."""
    if joined[:5] != b"RDE1 " or not joined[5:13].isdigit() or joined[13:14] != b"\n":
        return "FAILURE-01"
    length = int(joined[5:13])
    envelope, rest = joined[14 : 14 + length], joined[14 + length :]
    if len(envelope) < length:
        return "FAILURE-01"
    said = json.loads(envelope)
    if json.dumps(said, separators=(",", ":"), sort_keys=True).encode() != envelope:
        return "FAILURE-02"
    if (said["type"], said["header"]["tld"], said["watermark"], said["resend"]) != ("FULL", "example", "2026-08-02T00:00:00Z", 0):
        return "FAILURE-03"
    if said["id"] != ID:
        return "FAILURE-04"
    if "prevId" in said:
        return "FAILURE-06"
    if said["rdeMenu"]["objURI"] != URIS or list(said["header"]["count"]) != URIS[:4] or [f["name"] for f in said["contents"]] != TABLES:
        return "FAILURE-08"
    files, at = {}, 0
    view = memoryview(rest)
    if sum(f["length"] for f in said["contents"]) != len(rest):
        return "FAILURE-09"
    for entry in said["contents"]:
        data = view[at : at + entry["length"]]
        at += entry["length"]
        if hashlib.sha256(data).hexdigest() != entry["sha256"]:
            return "FAILURE-09"
        files[entry["name"]] = bytes(data)
    tables = {}
    for table in TABLES:
        tables[table] = read_table(table, files[table])
        if tables[table] is None:
            return "FAILURE-10"
    for uri, table in zip(URIS, COUNTED):
        if said["header"]["count"][uri] != len(tables[table]):
            return "FAILURE-11"
    keys = {table: {row[0] for row in tables[table]} for table in COUNTED}
    rules = [("domain", 3, "registrar"), ("host", 2, "registrar"), ("contact", 2, "registrar"), ("domainContacts", 0, "domain"),
             ("domainContacts", 2, "contact"), ("domainStatuses", 0, "domain"), ("domainNameServers", 0, "domain"),
             ("domainNameServers", 1, "host"), ("hostAddresses", 0, "host")]
    for table, column, of in rules:
        known = keys[of]
        if not all(row[column] in known for row in tables[table]):
            return "FAILURE-12"
    if not all(row[2] == "" or row[2] in keys["contact"] for row in tables["domain"]):
        return "FAILURE-12"
    return "PASS"


def ordered(rows, shuffled):
    """The tables with their rows in order, or shuffled."""
    for table in rows.values():
        if shuffled:
            random.Random(7).shuffle(table)
        else:
            table.sort()
    return rows


def registry(shuffled):
    """The tables of a registry of many domains, as lists of lines: about 8 MiB in all."""
    domains = 21000
    rows = {
        "domain": [f"name-{i:06}.example,D{i:06}-EX,C{i % 20000:05},R{i % 97:03},2020-01-01T00:00:00Z,2027-01-01T00:00:00Z\n" for i in range(domains)],
        "domainContacts": [f"name-{i:06}.example,{kind},C{(i * 7) % 20000:05}\n" for i in range(domains) for kind in ("admin", "tech")],
        "domainStatuses": [f"name-{i:06}.example,ok\n" for i in range(domains)],
        "domainNameServers": [f"name-{i:06}.example,ns{k}.host-{i % 10000:05}.example\n" for i in range(domains) for k in (1, 2)],
        "host": [f"ns{k}.host-{i:05}.example,H{i:05}-{k},R{i % 97:03},2020-01-01T00:00:00Z\n" for i in range(10000) for k in (1, 2)],
        "hostAddresses": [f"ns{k}.host-{i:05}.example,192.0.2.{i % 250},v4\n" for i in range(10000) for k in (1, 2)],
        "contact": [f"C{i:05},C{i:05}-EX,R{i % 97:03},2020-01-01T00:00:00Z\n" for i in range(20000)],
        "registrar": [f'R{i:03},"Registrar {i}, Inc.",{i + 1},ok\n' for i in range(97)],
    }
    return ordered(rows, shuffled)


def short_rows(shuffled):
    """The tables of a registry with as many statuses as there can be: about 8 MiB in all."""
    names = ["".join(letters) for letters in itertools.product("abcdefghijklmnopqrstuvwxyz012345-.", repeat=3)]
    rows = {
        "domain": [f"{name},D-EX,,R000,2020-01-01T00:00:00Z,2027-01-01T00:00:00Z\n" for name in names],
        "domainStatuses": [f"{name},{letter}\n" for name in names for letter in "abcdefghijklmnopqrstuvwx"],
        "registrar": ["R000,Registrar,,ok\n"],
    }
    return ordered(rows, shuffled)


def files_of(rows):
    """The files of a full deposit of these rows."""
    return {table: "".join(rows.get(table, ())).encode() for table in TABLES}


def packed(rows):
    """The deposit of these rows, as `deposit pack` makes it."""
    with tempfile.TemporaryDirectory() as folder:
        tables = pathlib.Path(folder, "tables")
        vaults.write_tables(tables, {table: rows.get(table, ()) for table in TABLES})
        parts, _ = vaults.packed(tables, vaults.packing(DAY, "full"), pathlib.Path(folder, "parts"))
        return b"".join(part.read_bytes() for part in parts)


def changed(deposit, files, **members):
    """The deposit with these files instead of its own, and with these members of its envelope."""
    said = json.loads(deposit[14 : 14 + int(deposit[5:13])])
    said["contents"] = [{"length": len(files[t]), "name": t, "sha256": hashlib.sha256(files[t]).hexdigest()} for t in TABLES]
    said["header"]["count"] = {uri: files[table].count(b"\n") for uri, table in zip(URIS, COUNTED)}
    envelope = json.dumps({**said, **members}, separators=(",", ":"), sort_keys=True).encode()
    return b"RDE1 %08d\n" % len(envelope) + envelope + b"".join(files[t] for t in TABLES)


def hostile():
    """Deposits of about 8 MiB that are sent to harm, each with its verdict."""
    rows, short = registry(False), short_rows(True)
    deposit, files, empty = packed(rows), files_of(rows), files_of({})
    length = int(deposit[5:13])
    entries = json.loads(deposit[14 : 14 + length])["contents"]
    alike = [f"{'a' * 200}{i:06},D-EX,,R000,2020-01-01T00:00:00Z,2027-01-01T00:00:00Z\n" for i in range(30000)]
    random.Random(7).shuffle(alike)

    def with_entries(**members):
        return changed(deposit, files, contents=[{**entry, **members} for entry in entries])

    def with_domains(text):
        return changed(deposit, {**empty, "domain": text})

    yield "a frame that promises 99,999,999 bytes", "FAILURE-01", b"RDE1 99999999\n" + deposit[14:]
    yield "an envelope of one byte more", "FAILURE-02", b"RDE1 %08d\n" % (length + 1) + deposit[14:]
    yield "an envelope of 8 MiB", "FAILURE-02", changed(deposit, empty, id="a" * SIZE)
    yield "lengths whose sum overflows", "FAILURE-02", with_entries(length=2**63)
    yield "lengths of 64 MiB", "FAILURE-09", with_entries(length=SIZE)
    yield "a digest of the wrong file", "FAILURE-09", with_entries(sha256=entries[0]["sha256"])
    yield "files in another order", "FAILURE-09", deposit[: 14 + length] + b"".join(reversed(files.values()))
    yield "a first file that is no UTF-8", "FAILURE-10", changed(deposit, {**files, "domain": b"\xff" + files["domain"]})
    yield "commas", "FAILURE-10", with_domains(b"," * (SIZE - 1) + b"\n")
    yield "quotes", "FAILURE-10", with_domains(b'"' * SIZE)
    yield "rows of empty fields", "FAILURE-10", with_domains(b",,,,,\n" * (SIZE // 6))
    yield "one row of empty fields", "FAILURE-10", changed(deposit, {**files, "registrar": b",,,\n"})
    yield "line feeds", "FAILURE-10", with_domains(b"\n" * SIZE)
    yield "one key in all rows", "FAILURE-10", changed(deposit, {**empty, "domainStatuses": b"a,b\n" * (SIZE // 4)})
    twice = {**short, "domainStatuses": [*short["domainStatuses"], short["domainStatuses"][0]]}
    yield "the last key twice", "FAILURE-10", changed(deposit, files_of(twice))
    yield "keys with one beginning", "FAILURE-12", with_domains("".join(alike).encode())


def run(path, times):
    """The answer of the program, and its time in seconds."""
    start = time.perf_counter()
    answer = subprocess.run([PROGRAM, "verify", path, str(times), NAME, ID, "-"], capture_output=True, check=True).stdout
    return answer.decode().strip(), time.perf_counter() - start


# A process is said to have used what its parent held when it began, so a small one starts the program.
LAUNCH = "import os, subprocess, sys; child = subprocess.Popen(sys.argv[1:], stdout=subprocess.DEVNULL); print(os.wait4(child.pid, 0)[2].ru_maxrss)"


def peak(path):
    """The program's peak memory for one deposit, in bytes."""
    words = [sys.executable, "-S", "-c", LAUNCH, PROGRAM, "verify", path, "1", NAME, ID, "-"]
    return int(subprocess.run(words, capture_output=True, check=True).stdout) * 1024


def timed(folder, deposit):
    """The answer of the program, its least time for one deposit in seconds, and its peak memory in bytes."""
    path = pathlib.Path(folder) / "deposit"
    path.write_bytes(deposit)
    answer, _ = run(path, 1)
    once = min(run(path, 1)[1] for _ in range(RUNS))
    often = min(run(path, 1 + TIMES)[1] for _ in range(RUNS))
    return answer, (often - once) / TIMES, peak(path)


def python_time(deposit):
    """The verdict of the Python program, and its least time in seconds."""
    least = float("inf")
    for _ in range(RUNS):
        start = time.perf_counter()
        verdict = verify(deposit)
        least = min(least, time.perf_counter() - start)
    return verdict, least


def row(name, ours, theirs, memory):
    """A row of the table: times in milliseconds and their ratio, and the memory as a multiple of the deposit."""
    python = f"{theirs * 1000:,.0f} ms | {theirs / ours:.1f}" if theirs else " | "
    print(f"| {name} | {ours * 1000:,.0f} ms | {python} | {memory:.1f} |", flush=True)


def main():
    vaults.parser(__doc__).parse_args()
    print("| deposit | time | Python | ratio | memory / deposit |")
    print("|---|---|---|---|---|")
    with tempfile.TemporaryDirectory() as folder:
        for make, shuffled in itertools.product((registry, short_rows), (False, True)):
            deposit = packed(make(shuffled))
            kind = ("short rows, " if make is short_rows else "") + ("shuffled" if shuffled else "in order")
            answer, ours, memory = timed(folder, deposit)
            verdict, theirs = python_time(deposit)
            assert answer == verdict == "PASS", (answer, verdict)
            row(kind, ours, theirs, memory / len(deposit))
        found = []
        for kind, verdict, deposit in hostile():
            answer, ours, memory = timed(folder, deposit)
            assert answer.split(" ")[0] == verdict, (kind, answer)
            found.append((kind, ours, memory / len(deposit)))
    for place, word in ((1, "slowest"), (2, "most memory")):
        kind, ours, memory = max(found, key=lambda it: it[place])
        row(f"hostile, {word}: {kind}", ours, None, memory)


if __name__ == "__main__":
    main()
