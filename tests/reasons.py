#!/usr/bin/env python3
"""Breaks good deposits, each at one place, and compares the reason that the program gives with that place.

    tests/reasons.py [--cases N] [--seed S] [--only K]

A case makes a full or a differential deposit of some rows, breaks it in one of the ways below, and works out the line by
itself: the check, and the place that it broke. A few cases break nothing, and have to pass. It knows the formats from
docs/FORMATS.md, and the words of each line. A case depends on the seed and its number alone; `--only K` runs that one,
prints its line, and leaves its deposit in `reasons.K`.

2,000 cases take some seconds. It needs the program that `rt run` builds in crates/bench_tools.
"""
from __future__ import annotations

import hashlib
import random
import subprocess
import sys
import tempfile
from collections.abc import Callable
from dataclasses import dataclass, field
from pathlib import Path

from lib import TABLES, TOP, built, envelope_text, framed, parser, part_name, tell

PROGRAM = TOP / "crates/bench_tools/out/bench_tools"
URIS = [f"urn:ietf:params:xml:ns:{name}-1.0" for name in ("csvContact", "csvDomain", "csvHost", "csvRegistrar", "rdeHeader")]
COUNTED = dict(zip(URIS, ("contact", "domain", "host", "registrar")))
DELETED = ("domain", "host", "contact", "registrar")
COLUMNS = {"domain": "fName fRoid fRegistrant fClID fCrDate fExDate", "domainContacts": "fName fContactType fId",
           "domainStatuses": "fName fStatus", "domainNameServers": "fName fHostName", "host": "fName fRoid fClID fCrDate",
           "hostAddresses": "fName fAddr fAddrVersion", "contact": "fId fRoid fClID fCrDate",
           "registrar": "fId fName fGurid fStatus"}
COLUMNS = {table: names.split() for table, names in COLUMNS.items()}
KEYS = {"domain": 1, "host": 1, "contact": 1, "registrar": 1, "domainStatuses": 2, "domainNameServers": 2,
        "domainContacts": 3, "hostAddresses": 3}
MOMENT, ROID = "2020-01-01T00:00:00Z", "X-EX"
# Of each column, what the form of its fields is, and fields that are not in it.
HOST_NAMES = ("a host name", ["", "A.example", "a b.example", "a.example,", "a\n.example", "é.example", "a" * 254, "B" * 41])
IDS = ("an identifier", ["", "C 1", "C\t1", "C" * 17, "é", "\\ \\", 'C" '])
MOMENTS = ("a moment", ["", "2020-13-01T00:00:00Z", "2020-01-01", "2020-01-01T00:00:00", "2019-02-29T00:00:00Z", "2020-01-01T24:00:00Z"])
ROIDS = ("a repository object identifier", ["", "X EX", "X" * 90, "X.EX"])
FORMS = {"domain": [HOST_NAMES, ROIDS, ("an identifier or empty", IDS[1][1:]), IDS, MOMENTS, MOMENTS],
         "domainContacts": [HOST_NAMES, ("admin, billing or tech", ["", "owner", "Admin"]), IDS],
         "domainStatuses": [HOST_NAMES, ("a status", ["", "ok1", "o k", "s" * 31])], "domainNameServers": [HOST_NAMES] * 2,
         "host": [HOST_NAMES, ROIDS, IDS, MOMENTS],
         "hostAddresses": [HOST_NAMES, ("an address", ["", "192.0.2.1/24", "g::1", "1" * 46]), ("v4 or v6", ["", "v5", "V4"])],
         "contact": [IDS, ROIDS, IDS, MOMENTS],
         "registrar": [IDS, ("a registrar's name", ["", "\0", "n" * 256]), ("an IANA ID or empty", ["01", "x", "1" * 10]),
                       ("a status", ["", "ok1"])]}
Rows = list[list[str]]


class Unfit(Exception):
    """A deposit that cannot be broken in this way."""


def spelled(fields: list[str]) -> str:
    """The row in its one spelling."""
    quoted = ('"' + text.replace('"', '""') + '"' if set(text) & set(',"\r\n') else text for text in fields)
    return ",".join(quoted) + "\n"


def shown(text: str) -> str:
    """A field as a reason shows it."""
    bytes_ = text.encode()[:40]
    return "".join("\\\\" if b == 92 else chr(b) if 32 <= b < 127 else f"\\x{b:02x}" for b in bytes_)


@dataclass
class Deposit:
    """A deposit, and what is known of it. `files` has the bytes of each file by its list and its table."""
    dice: random.Random
    kind: str
    rows: dict[tuple[str, str], Rows] = field(default_factory=dict)
    files: dict[tuple[str, str], bytes] = field(default_factory=dict)
    day: str = "2026-08-03"
    number: str = "20260803001"
    previous: str | None = None
    latest: str = "-"
    name: str = ""
    stated: str = ""
    members: dict = field(default_factory=dict)
    text: bytes = b""
    joined: bytes = b""

    def any_file(self, rows: int = 1, lists: str = "contents deletes") -> tuple[str, str]:
        """One of its files with so many rows."""
        fit = [at for at, table in self.rows.items() if len(table) >= rows and at[0] in lists]
        if not fit:
            raise Unfit
        return self.dice.choice(fit)

    def spell(self, at: tuple[str, str]) -> None:
        self.files[at] = "".join(map(spelled, self.rows[at])).encode()

    def label(self) -> None:
        """Makes its envelope of its files."""
        def entries(name: str) -> list[dict]:
            return [{"length": len(data), "name": table, "sha256": hashlib.sha256(data).hexdigest()}
                    for (here, table), data in self.files.items() if here == name]
        counts = {uri: len(self.rows.get(("contents", table), ())) for uri, table in COUNTED.items()}
        self.members = {"contents": entries("contents"), "header": {"count": counts, "tld": "example"}, "id": self.number,
                        "rdeMenu": {"objURI": list(URIS), "version": "1.0"}, "resend": 0, "type": self.kind.upper(),
                        "watermark": f"{self.day}T00:00:00Z"}
        if self.kind != "full":
            self.members["deletes"] = entries("deletes")
        if self.previous is not None:
            self.members["prevId"] = self.previous

    def write(self) -> None:
        """Makes its envelope's text of its members."""
        self.text = envelope_text(self.members)

    def join(self) -> None:
        self.joined = framed(self.text, b"".join(self.files.values()))


def registry(dice: random.Random) -> dict[str, Rows]:
    """The tables of a registry, in any order of their rows."""
    registrars, contacts, hosts, domains = (
        [f"{letter}{i}{end}" for i in range(dice.randint(2, 5))]
        for letter, end in (("R", ""), ("C", ""), ("ns", ".example"), ("d", ".example")))
    pick = dice.choice
    tables = {
        "domain": [[name, ROID, pick(["", *contacts]), pick(registrars), MOMENT, MOMENT] for name in domains],
        "domainContacts": [[name, kind, pick(contacts)] for name in domains for kind in ("admin", "tech")],
        "domainStatuses": [[name, status] for name in domains for status in ("ok", "inactive")],
        "domainNameServers": [[name, host] for name in domains for host in dice.sample(hosts, 2)],
        "host": [[name, ROID, pick(registrars), MOMENT] for name in hosts],
        "hostAddresses": [[name, f"192.0.2.{i}", "v4"] for i, name in enumerate(hosts)],
        "contact": [[name, ROID, pick(registrars), MOMENT] for name in contacts],
        "registrar": [[name, pick(["Example, Inc.", "Ex\"ample", "Plain", "Exämple"]), pick(["", "292"]), "ok"] for name in registrars]}
    for rows in tables.values():
        if dice.random() < 0.3:
            dice.shuffle(rows)
    return tables


def good(dice: random.Random) -> Deposit:
    """A deposit that passes."""
    tables = registry(dice)
    made = Deposit(dice, dice.choice(["full", "full", "diff"]))
    if made.kind == "diff":
        kept = [table for table in TABLES if dice.random() < 0.6]
        made.rows = {("contents", table): tables[table] for table in kept}
        made.rows |= {("deletes", table): [[f"{row[0]}"] for row in tables[table]] for table in DELETED if dice.random() < 0.6}
        made.previous = made.latest = "20260802001"
    else:
        made.rows = {("contents", table): tables[table] for table in TABLES}
    made.name, made.stated = part_name(made.day, made.kind), made.number
    return made


# ---- the ways to break one: each changes the deposit at its stage, and gives the line

Way = Callable[[Deposit], str]
STAGES: dict[str, list[Way]] = {"rows": [], "files": [], "members": [], "text": [], "joined": []}


def stage(name: str) -> Callable[[Way], Way]:
    def kept(way: Way) -> Way:
        STAGES[name].append(way)
        return way
    return kept


def file_line(at: tuple[str, str], place: str) -> str:
    """The line of a file that is no table."""
    return f"FAILURE-10 {at[1]} {place}" if at[0] == "contents" else f"FAILURE-13 deletes/{at[1]} {place}"


@stage("rows")
def field_out_of_form(d: Deposit) -> str:
    at = d.any_file()
    rows = d.rows[at]
    row, column = d.dice.randrange(len(rows)), d.dice.randrange(len(rows[0]))
    form, wrong = FORMS[at[1]][column]
    rows[row][column] = text = d.dice.choice([text for text in wrong if text or len(rows[0]) > 1])
    return file_line(at, f"row {row + 1} {COLUMNS[at[1]][column]}: not {form}: {shown(text)}")


@stage("rows")
def fields_too_many_or_few(d: Deposit) -> str:
    at = d.any_file()
    rows = d.rows[at]
    row, width = d.dice.randrange(len(rows)), len(rows[0])
    rows[row] = d.dice.choice([rows[row] + ["x"], *[rows[row][:-1]] * (width > 1)])
    return file_line(at, f"row {row + 1}: {len(rows[row])} fields, {width} are wanted")


@stage("rows")
def key_twice(d: Deposit) -> str:
    at = d.any_file(rows=2)
    rows = d.rows[at]
    earlier, row = sorted(d.dice.sample(range(len(rows)), 2))
    key = KEYS[at[1]] if at[0] == "contents" else 1
    rows[row][:key] = rows[earlier][:key]
    return file_line(at, f"row {row + 1}: the key of row {earlier + 1}")


@stage("rows")
def key_not_there(d: Deposit) -> str:
    if d.kind != "full":
        raise Unfit
    table, column, of = d.dice.choice([("domain", 2, "contact"), ("domain", 3, "registrar"), ("domainContacts", 0, "domain"),
                                       ("domainContacts", 2, "contact"), ("domainStatuses", 0, "domain"), ("contact", 2, "registrar"),
                                       ("domainNameServers", 0, "domain"), ("domainNameServers", 1, "host"),
                                       ("host", 2, "registrar"), ("hostAddresses", 0, "host")])
    rows = d.rows["contents", table]
    row = d.dice.randrange(len(rows))
    rows[row][column] = text = "nobody.example" if column < 2 else "NOBODY"
    return f"FAILURE-12 {table} row {row + 1} {COLUMNS[table][column]}: no {of}: {text}"


@stage("files")
def row_in_another_spelling(d: Deposit) -> str:
    at = d.any_file()
    rows = [spelled(fields) for fields in d.rows[at]]
    row = d.dice.randrange(len(rows))
    text = rows[row]
    first = d.rows[at][row][0]
    changed = [f'"{first}"' + text[len(first):], text[:-1] + "\r\n", "\n" + text, '"' + text, *[text[:-1]] * (row == len(rows) - 1)]
    rows[row] = d.dice.choice(changed)
    d.files[at] = "".join(rows).encode()
    return file_line(at, f"row {row + 1}: not a row in its one spelling")


@stage("files")
def file_not_utf8(d: Deposit) -> str:
    at = d.any_file()
    data = d.files[at]
    offset = d.dice.choice([i for i in range(len(data) + 1) if data[i:i + 1] < b"\x80" and data[:i][-1:] < b"\x80"])
    d.files[at] = data[:offset] + d.dice.choice([b"\xff", b"\xc3", b"\xc0\x80", b"\xed\xa0\x80"]) + data[offset:]
    return file_line(at, f"offset {offset}: not UTF-8")


@stage("members")
def another_digest(d: Deposit) -> str:
    entries = [(name, i, entry) for name in ("contents", "deletes") for i, entry in enumerate(d.members.get(name, ()))]
    if not entries:
        raise Unfit
    name, i, entry = d.dice.choice(entries)
    found, entry["sha256"] = entry["sha256"], "%064x" % d.dice.getrandbits(256)
    return f"FAILURE-09 {name} {i + 1} {entry['name']}: sha256 is {found}, the envelope says {entry['sha256']}"


@stage("members")
def another_length(d: Deposit) -> str:
    entries = d.members["contents"] + d.members.get("deletes", [])
    if not entries:
        raise Unfit
    there = sum(entry["length"] for entry in entries)
    entry = d.dice.choice(entries)
    entry["length"] = max(0, entry["length"] + d.dice.choice([-1, 1, 1000]))
    said = sum(entry["length"] for entry in entries)
    if said == there:
        raise Unfit
    return f"FAILURE-09 the files have {said} bytes, says the envelope, and {there} are there"


@stage("members")
def another_menu(d: Deposit) -> str:
    uris = d.members["rdeMenu"]["objURI"]
    i = d.dice.randrange(len(uris))
    d.dice.choice([lambda: uris.__setitem__(i, "urn:x"), lambda: uris.pop(i), lambda: uris.insert(i, "urn:x"), lambda: uris.append("urn:x")])()
    place = next(i for i in range(6) if uris[i:i + 1] != URIS[i:i + 1])
    here, wanted = (list_[place] if place < len(list_) else "nothing" for list_ in (uris, URIS))
    return f"FAILURE-08 rdeMenu.objURI {place + 1}: {here}, {wanted} is wanted"


@stage("members")
def another_object_counted(d: Deposit) -> str:
    counts = d.members["header"]["count"]
    i = d.dice.randrange(4)
    d.dice.choice([lambda: counts.pop(URIS[i]), lambda: counts.__setitem__("urn:z", 0), lambda: counts.__setitem__("urn:a", 0)])()
    counted = sorted(counts)
    place = next(i for i in range(5) if counted[i:i + 1] != URIS[:4][i:i + 1])
    here, wanted = (list_[place] if place < len(list_) else "nothing" for list_ in (counted, URIS[:4]))
    return f"FAILURE-08 header.count {place + 1}: {here}, {wanted} is wanted"


@stage("members")
def another_table_in_a_full_deposit(d: Deposit) -> str:
    if d.kind != "full":
        raise Unfit
    contents = d.members["contents"]
    i = d.dice.randrange(8)
    if d.dice.random() < 0.5:
        del contents[i]
    else:
        contents[i]["name"] = d.dice.choice([table for table in TABLES if table != TABLES[i]])
    here = contents[i]["name"] if i < len(contents) else "nothing"
    return f"FAILURE-08 contents {i + 1}: {here}, {TABLES[i]} is wanted"


@stage("members")
def tables_out_of_order(d: Deposit) -> str:
    lists = [name for name in ("contents", "deletes") if len(d.members.get(name, ())) > 1]
    if d.kind == "full" or not lists:
        raise Unfit
    name = d.dice.choice(lists)
    entries = d.members[name]
    i = d.dice.randrange(1, len(entries))
    if d.dice.random() < 0.5:
        entries[i - 1], entries[i] = entries[i], entries[i - 1]
    else:
        entries[i] = entries[i - 1]
    return f"FAILURE-08 {name} {i + 1}: {entries[i]['name']} behind {entries[i - 1]['name']}"


@stage("members")
def another_id_before(d: Deposit) -> str:
    if d.kind == "full":
        d.members["prevId"] = "20260802001"
        return "FAILURE-06 prevId is 20260802001, a full deposit has none"
    d.latest = d.dice.choice(["20260801001", "-"])
    if d.dice.random() < 0.5:
        d.members["prevId"] = "X1"
    else:
        del d.members["prevId"]
    if d.dice.random() < 0.3:
        d.members["type"], d.name = "INCR", part_name(d.day, "incr")
        wanted = "no full deposit has passed"
    else:
        wanted = "no deposit has passed" if d.latest == "-" else f"{d.latest} is wanted"
    return f"FAILURE-06 prevId is {d.members.get('prevId', 'nothing')}, {wanted}"


@stage("members")
def no_full_deposit_on_sunday(d: Deposit) -> str:
    if d.kind == "full":
        raise Unfit
    d.members["watermark"], d.name = "2026-08-09T00:00:00Z", part_name("2026-08-09", d.kind)
    return "FAILURE-05 watermark 2026-08-09 is a Sunday, and the deposit is not full"


@stage("members")
def another_id_stated(d: Deposit) -> str:
    d.stated = d.dice.choice(["X", "20260803002", "2026080300"])
    return f"FAILURE-04 id is {d.number}, the statement says {d.stated}"


@stage("members")
def another_name(d: Deposit) -> str:
    kind = d.dice.choice([kind for kind in ("full", "diff", "incr") if kind != d.kind])
    d.name, line = d.dice.choice([
        (part_name(d.day, d.kind, tld="test"), "header.tld is example, the name says test"),
        (part_name(d.day, d.kind, revision=7), "resend is 0, the name says 7"),
        (part_name(d.day, kind), f"type is {d.kind}, the name says {kind}"),
        (part_name("2026-08-04", d.kind), f"watermark is {d.day}, the name says 2026-08-04"),
        (part_name("2026-08-04", kind, revision=7), "resend is 0, the name says 7")])
    return f"FAILURE-03 {line}"


@stage("members")
def another_count(d: Deposit) -> str:
    if d.kind != "full":
        raise Unfit
    uri, more = d.dice.choice(URIS[:4]), d.dice.choice([1, 10, 1000])
    counts = d.members["header"]["count"]
    counts[uri] += more
    return f"FAILURE-11 {uri} counts {counts[uri]}, {counts[uri] - more} are there"


@stage("members")
def member_out_of_form(d: Deposit) -> str:
    wrong = {"contents": [None, 1, [{}], [{"length": 1, "name": "domains", "sha256": "00" * 32}]], "id": [None, "", "x" * 14, "a-b"],
             "header": [None, "x"], "rdeMenu": [None, {"objURI": []}], "resend": [None, 100, -1, "0"], "type": [None, "full", 1],
             "watermark": [None, "2026-02-30T00:00:00Z", "2026-08"]}
    if d.kind != "full":
        wrong["deletes"] = [None, {}, [{"length": 0, "name": "domainStatuses", "sha256": "00" * 32}]]
    name = d.dice.choice(sorted(wrong))
    value = d.dice.choice(wrong[name])
    if value is None:
        del d.members[name]
    else:
        d.members[name] = value
    told = {"header": "header.count", "rdeMenu": "rdeMenu.objURI"}.get(name, name)
    return f"FAILURE-02 {told}: not there, or not in form"


@stage("text")
def space_in_the_envelope(d: Deposit) -> str:
    text, inside = d.text, False
    places = []
    for i, byte in enumerate(text):
        inside ^= byte == ord('"')
        if not inside and (chr(byte) in "{[]}:," or byte == ord('"')):
            places.append(i + 1)
    offset = d.dice.choice(places[:-1])
    d.text = text[:offset] + d.dice.choice([b" ", b"\t", b"\n"]) + text[offset:]
    return f"FAILURE-02 envelope offset {offset}: '{chr(text[offset])}' is wanted"


@stage("text")
def more_behind_the_envelope(d: Deposit) -> str:
    offset = len(d.text)
    d.text += d.dice.choice([b"\n", b" ", b"\t\n"])
    return f"FAILURE-02 envelope offset {offset}: its end is wanted"


@stage("text")
def upper_case_digits(d: Deposit) -> str:
    at = d.text.find(b'"sha256":"')
    places = [i for i in range(at + 10, at + 74) if at >= 0 and d.text[i:i + 1].isalpha()]
    if not places:
        raise Unfit
    i = d.dice.choice(places)
    was = d.text[i:i + 1]
    d.text = d.text[:i] + was.upper() + d.text[i + 1:]
    return f"FAILURE-02 envelope offset {i}: '{was.decode()}' is wanted"


@stage("text")
def envelope_not_utf8(d: Deposit) -> str:
    offset = d.dice.randrange(len(d.text) + 1)
    d.text = d.text[:offset] + b"\xff" + d.text[offset:]
    return f"FAILURE-02 envelope offset {offset}: not UTF-8"


@stage("text")
def envelope_too_long(d: Deposit) -> str:
    d.text = d.text[:-1] + b" " * 8192 + b"}"
    return "FAILURE-02 the envelope has more than 8192 bytes"


@stage("joined")
def no_head(d: Deposit) -> str:
    head = d.dice.choice([b"RDE2 ", b"rde1 ", b"RDE1\t", b""])
    d.joined = head + d.joined[5:]
    return "FAILURE-01 F1: it does not begin with RDE1 and a space"


@stage("joined")
def no_length(d: Deposit) -> str:
    i = d.dice.randrange(5, 14)
    d.joined = d.joined[:i] + d.dice.choice([b"x", b"\n" if i < 13 else b" ", b""]) + d.joined[i + 1:]
    return "FAILURE-01 F2: no length of eight digits and a line feed follows RDE1"


@stage("joined")
def too_short(d: Deposit) -> str:
    said, there = d.dice.choice([(len(d.text), d.dice.randrange(len(d.text))), (99_999_999, len(d.joined) - 14)])
    d.joined = b"RDE1 %08d\n" % said + d.joined[14:14 + there]
    return f"FAILURE-01 F3: the envelope has {said} bytes, says the frame, and {there} are there"


# ---- cases

def case(seed: int, number: int) -> tuple[Deposit, str]:
    """A deposit, and the line that is wanted of it."""
    dice = random.Random(f"{seed} {number}")
    ways = [(name, way) for name, ways in STAGES.items() for way in ways]
    while True:
        made, (at, way), line = good(dice), dice.choice(ways), "PASS"
        broken = dice.random() < 0.97
        try:
            for name, step in (("rows", lambda: [made.spell(file) for file in made.rows]), ("files", made.label),
                               ("members", made.write), ("text", made.join), ("joined", lambda: None)):
                if broken and name == at:
                    line = way(made)
                step()
            return made, line
        except Unfit:
            continue


def reason(path: Path, made: Deposit) -> str:
    """What the program prints of a deposit."""
    path.write_bytes(made.joined)
    words = [PROGRAM, "verify", path, "1", made.name, made.stated, made.latest]
    return subprocess.run(words, capture_output=True, check=True).stdout.decode().rstrip("\n")


def main() -> int:
    asked = parser(__doc__)
    asked.add_argument("--cases", type=int, default=2000)
    asked.add_argument("--seed", type=int, default=1)
    asked.add_argument("--only", type=int)
    asked = asked.parse_args()
    built(PROGRAM)
    numbers = range(asked.cases) if asked.only is None else [asked.only]
    wrong = 0
    with tempfile.TemporaryDirectory() as folder:
        path = Path(folder) / "deposit" if asked.only is None else Path(f"reasons.{asked.only}")
        for number in numbers:
            made, wanted = case(asked.seed, number)
            came = reason(path, made)
            if asked.only is not None:
                print(came)
            if came != wanted:
                wrong += 1
                print(f"case {number} of seed {asked.seed}:\n  wanted {wanted}\n  came   {came}")
    return tell(len(numbers) - wrong, wrong)


if __name__ == "__main__":
    sys.exit(main())
