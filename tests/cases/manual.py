"""The manual pages: their sections, words and examples, the lines that their DIAGNOSTICS name, routes, signals, and form."""
import re
import signal
import socket

from lib import (
    DAY, PART, TABLES, TEN, TOP, Room, answer_of, case, each, free_port, lines_of, part_name, request, response, state,
    volume_failed)

CODES, FORMATS, HTTP = ((TOP / "docs" / it).read_text() for it in ("CODES.md", "FORMATS.md", "HTTP.md"))
# The sections of the page of each program.
SECTIONS = {
    "escrow": ("NAME", "SYNOPSIS", "DESCRIPTION", "COMMANDS", "HTTP", "EXIT STATUS", "DIAGNOSTICS", "SIGNALS", "ENVIRONMENT",
               "FILES", "EXAMPLES", "SEE ALSO"),
    "deposit": ("NAME", "SYNOPSIS", "DESCRIPTION", "COMMANDS", "EXIT STATUS", "DIAGNOSTICS", "FILES", "EXAMPLES", "SEE ALSO")}
PAGES = {program: (TOP / f"docs/{program}.1").read_text() for program in SECTIONS}


def section(title: str, program: str = "escrow") -> str:
    """The source of a section."""
    return re.search(rf"^\.SH {title}\n(.*?)(?=^\.SH |\Z)", PAGES[program], re.MULTILINE | re.DOTALL)[1]


def plain(text: str) -> str:
    """A source without its fonts and escapes."""
    bare = re.sub(r"\\f[BIR]|\\&|^\.[BI]R? ", "", text)
    return bare.replace("\\-", "-").replace("\\ ", " ").replace("\\e", "\\")


def lines_named(program: str) -> dict[str, tuple[str, str]]:
    """The printed lines that DIAGNOSTICS name, each with the heading above it and its pattern."""
    found, heading = {}, ""
    for above, line in re.findall(r"^\.(SS|TP|TQ)\b *\n?(.*)", section("DIAGNOSTICS", program), re.MULTILINE):
        if above == "SS":
            heading = line.strip('"')
        else:
            values = re.sub(r"\\fI(.*?)(?=\\f|$)", "\0", line)
            found[plain(line)] = heading, re.escape(plain(values)).replace("\0", ".+")
    return found


NAMED = {program: lines_named(program) for program in PAGES}


@each((f"{program} has its sections and no other", program) for program in PAGES)
def has_its_sections(room: Room, program: str) -> None:
    room.equal(list(SECTIONS[program]), re.findall(r"^\.SH (.*)$", PAGES[program], re.MULTILINE), "the sections")
    for title in SECTIONS[program]:
        room.true(len(section(title, program).splitlines()) > 0, f"the section {title} is empty")


def words_of_help(text: str) -> list[str]:
    """The words of a command as its synopsis has them, from what its help prints."""
    usage = re.search(r"^Usage: .*$", text, re.MULTILINE)[0]
    named = re.findall(r"^ +(--[a-z-]+)?(?: ?<(\w+)>(\.\.\.)?)?  ", text, re.MULTILINE)
    words = [(option or f"<{value}>", " ".join(filter(None, (option, value, dots)))) for option, value, dots in named]
    return [word if f"{shown} " in f"{usage} ".replace(">...", "> ") else f"[{word}]" for shown, word in words if word]


@each((f"the synopsis of {program} is that of its help", program) for program in PAGES)
def has_the_words_of_help(room: Room, program: str) -> None:
    listed = re.findall(r'^\.SY "\w+ (\w+)"\n((?:[^.].*\n)*)', section("SYNOPSIS", program), re.MULTILINE)
    commands = re.findall(r"^  (\w+)  ", room.run(f"{program} help").out.decode(), re.MULTILINE)
    room.equal(commands, [command for command, _ in listed], "the commands")
    for command, words in listed[:-1]:
        told = words_of_help(room.run(f"{program} help {command}").out.decode())
        room.equal(told, plain(words).splitlines(), f"the words of {program} {command}")


# ---- the lines that it names

SPOILED = f"echo hello > {PART}; escrow put d {PART} --now {TEN}; sed -i s/hello/hellx/ d/vault.vol; "
FULL = f"deposit pack tables --tld example --date {DAY} --kind full --revision 0 --id 20260802001 --out parts"
AGAIN, STRANGE = part_name(revision=1), part_name(tld="other")
# A deposit of the next day, of a status without its domain.
CHILD = (f"{FULL}; mkdir changes; echo one.example,ok > changes/domainStatuses.csv; "
         + FULL.replace("tables", "changes").replace("-02", "-03").replace("02001", "03001").replace("full", "diff") + f" --after {PART}")
# Of the day before, under a name that its bytes do not have, and under that of another kind.
EARLIER, OTHER = (part_name("2026-08-01", kind) for kind in ("full", "diff"))
# What is there before them: a vault, or tables without a row and a deposit that passes.
BEFORE = {"escrow": "$ vault d", "deposit": f"$ cp ../full {PART}; mkdir tables; cd tables; touch {'.csv '.join(TABLES)}.csv"}
# Words that make a program print a line.
PRINTED = {
    "escrow": {
        "I1 already initialised": "escrow init d --blocks 8 --number 0000000000000001",
        "Q1 Nn name refused": "touch a; escrow put d a",
        "Q11 volume full": f"truncate -s 40000 {PART}; escrow put d {PART} --now {TEN}",
        "Q23 too many absences: N": "escrow sweep d --at-most 1 --now 2026-08-05T00:00:00Z",
        "Qn TEXT": "escrow report d other",
        "damaged NAME": f"{SPOILED}escrow audit d",
        "bad value for X": "escrow lift d H_1",
        "error: TEXT": "escrow state",
        "batch ended at line N": "printf 'state\nstat\n' | escrow batch d",
        "C2 volume failed":
            f"vault e 300; truncate -s 1M {PART}; trap '' XFSZ; ulimit -f 700; escrow put e {PART} --now {TEN}",
        "C3 store failed": "mkdir e; trap '' XFSZ; ulimit -f 8; escrow init e --blocks 8 --number 0000000000000001",
        "C5 damaged Hn": f"{SPOILED}escrow put d {PART} --now {TEN}",
        "file failed: PATH: folder missing": "escrow state nowhere",
        "file failed: PATH: file missing": "mkdir e; escrow state e",
        "file failed: PATH: file in use": "exec 3< d/vault.vol; flock 3; escrow state d",
        "file failed: PATH: N bytes are no whole number of blocks": "truncate -s 5000 d/vault.vol; escrow state d",
        "file failed: PATH: unable to open database file": "echo x > d/custody.db-journal; escrow state d",
        "file failed: PATH: TEXT (os error N)": "mkdir in; escrow put d in",
        "output failed": "escrow state d > /dev/full"},
    "deposit": {
        "Un TEXT": f"{FULL} --previous X1",
        "FAILURE-nn TEXT": f"printf x >> {PART}; deposit check {PART}",
        "Q4 PATH: N bytes, 1 to 1048576 are wanted": f": > {PART}; deposit check {PART}",
        "note: left out N TEXT": f"deposit check {PART} --after {PART}",
        "note: TABLE.csv row N COLUMN: no TABLE: KEY": f"{CHILD}; deposit restore parts/* --out restored",
        "NAME: it does not continue a full deposit and those since":
            f"cp {PART} {EARLIER}; deposit check {PART} --after {EARLIER}",
        "bad value for --X": f"{FULL} --previous X_1",
        "error: PATH: Nn is no name of a part": "deposit check tables/host.csv",
        "error: PATH: part N is wanted": f"deposit check {part_name(part=2)}",
        "error: these are parts of several deposits": f"cp {PART} {AGAIN}; deposit check {PART} {AGAIN}",
        "error: PATH: this part is named twice": f"deposit check {PART} {PART}",
        "error: PATH: not of the top-level domain TLD": f"cp {PART} {STRANGE}; deposit check {PART} --after {STRANGE}",
        "error: PATH: the revision has parts of another kind":
            f"cp {PART} {EARLIER}; cp {PART} {OTHER}; deposit check {PART} --after {EARLIER} {OTHER}",
        "error: --previous ID: by --after it is ID":
            f"{FULL.replace(DAY, '2026-08-03').replace('full', 'diff')} --previous X1 --after {PART}",
        "error: PATH: no folder of this name is read": f"mkdir tables/delete; {FULL}",
        "error: PATH: no table has this name": f"touch tables/hosts.csv; {FULL}",
        "error: TEXT": "deposit check",
        "file failed: PATH: file is there already": f"{FULL}; {FULL}",
        "file failed: PATH: file missing": f"rm tables/host.csv; {FULL}",
        "file failed: PATH: folder missing": FULL.replace("tables", "nowhere"),
        "file failed: PATH: TEXT (os error N)": f"mkdir parts; touch parts/{PART}.tmp; {FULL}",
        "output failed": f"{FULL} > /dev/full"}}
# Those that a server prints or answers.
SERVED = {
    "escrow": {"C4 closed", "socket failed: 127.0.0.1:PORT: TEXT (os error N)", "read failed", "An TEXT"},
    "deposit": set()}


@each(((f"{program} prints {title}", program, title, words)
       for program, printed in PRINTED.items() for title, words in printed.items()), needs="flock")
def is_printed(room: Room, program: str, title: str, words: str) -> None:
    room.plays(BEFORE[program])
    heading, pattern = NAMED[program][title]
    came = room.run(words)
    found = [line for line in lines_of(came.out + came.err) if re.fullmatch(pattern, line)]
    room.true(found and f"Status {came.status}:" in heading, f"{heading}, {title}: {came}")


@case()
def a_server_prints_the_others(room: Room) -> None:
    room.vault("d")
    room.put("d", PART, "hello", TEN)
    room.plays(f"$ escrow release d R-1 example operator --now {TEN} -> released R-1 example operator {TEN} 1\n{PART}")
    fetch, cause = request(f"GET /releases/R-1/{PART}"), volume_failed("failed to fill whole buffer")
    with room.serve("d", 4, errors=f"{NAMED['escrow']['read failed'][1]}\n{cause}") as server:
        room.equal(b"", server.ask(b"GET", end="reset"), "the response to a client that leaves")
        fault = server.ask(request("GET /x")).decode().splitlines()[-1]
        room.true(re.fullmatch(NAMED["escrow"]["An TEXT"][1], fault), fault)
        room.plays("$ truncate -s 4096 d/vault.vol")
        room.equal(response(503, "C2 volume failed"), server.ask(fetch), "the request that fails")
        room.equal(response(503, "C4 closed"), server.ask(fetch), "a later request")


@case()
def a_port_that_is_taken_is_a_failed_socket(room: Room) -> None:
    room.vault("d")
    heading, pattern = NAMED["escrow"]["socket failed: 127.0.0.1:PORT: TEXT (os error N)"]
    with socket.create_server(("127.0.0.1", port := free_port())):
        came = room.run(f"escrow serve d --port {port} --requests 1")
    room.true(re.fullmatch(pattern, came.err.decode().strip()) and f"Status {came.status}:" in heading, f"{came}")


@each((f"the other lines of {program} are those of other pages", program) for program in PAGES)
def is_named_elsewhere(room: Room, program: str) -> None:
    named, printed, served = NAMED[program], PRINTED[program], SERVED[program]
    others = set(named) - set(printed) - served
    room.equal(len(named), len(others) + len(printed) + len(served), "how many lines are named")
    for title in others:
        room.true(f"`{re.sub('^C1 ', '', title)}`" in CODES + FORMATS, f"neither docs/CODES.md nor docs/FORMATS.md has {title}")


# ---- what else it says

@case()
def its_routes_are_those_of_docs_http(room: Room) -> None:
    listed = re.findall(r"^(GET|PUT|POST) +(/\S+) +20\d +(\w+)", HTTP, re.MULTILINE)
    wanted = [(method, re.sub(r"{(.*?)}", lambda it: it[1].upper(), path), command) for method, path, command in listed]
    found = re.findall(r"^(GET|PUT|POST) +(/\S+) +(\w+)", re.sub(r"\\f[BIR]", "", section("HTTP")), re.MULTILINE)
    room.equal(wanted, found, "the requests, each with its command")


@each((f"SIG{name} ends a server that loses nothing", name) for name in ("TERM", "INT", "HUP"))
def is_ended(room: Room, name: str) -> None:
    """An ignored signal stays ignored, so the server begins with none."""
    room.vault("d")
    number = signal.Signals[f"SIG{name}"]
    with room.serve("d", 9, status=-number, under=("env", "--default-signal")) as server:
        room.equal(response(201, f"received {PART} 5 {TEN}"), server.ask(request(f"PUT /deposits/{PART}", "hello")), "a part")
        server.process.send_signal(number)
    room.plays(f"$ escrow state d -> {state(6, f'part {PART} 5 held {TEN}')}")


@case()
def no_variable_of_the_environment_matters(room: Room) -> None:
    room.vault("d")
    room.plays(f"""
        $ escrow due d --now 2026-08-04T00:00:00Z > out; cat out -> due example {DAY}
        due example 2026-08-03
        $ env -i TZ=Pacific/Kiritimati TMPDIR=/nowhere "$(command -v escrow)" due d --now 2026-08-04T00:00:00Z | cmp - out""")


@case()
def the_examples_of_deposit_are_carried_out(room: Room) -> None:
    """They are those of EXAMPLES, from tables without a row, and a day later from no changes."""
    shown = re.findall(r"^\.EX\n(.*?)^\.EE$", section("EXAMPLES", "deposit"), re.MULTILINE | re.DOTALL)
    room.plays(f"{BEFORE['deposit']}\n$ mkdir changes")
    came = room.run(f"set -e; {plain(''.join(shown))}")
    room.equal((0, b""), (came.status, came.err), "the status and the errors of the examples")
    room.equal(4, came.out.count(b"PASS "), "how many deposits pass")


# ---- its form

@each(((f"{program} is set without a warning in {columns} columns", program, columns)
       for program in PAGES for columns in (78, 98)), needs="groff")
def is_set(room: Room, program: str, columns: int) -> None:
    """The program man leaves two columns free."""
    done = answer_of(["groff", "-man", "-Tutf8", "-ww", f"-rLL={columns}n", "-P-cbou", TOP / f"docs/{program}.1"])
    room.equal((0, ""), (done.status, done.err.decode()), "the warnings of groff")
    room.equal([], [line for line in lines_of(done.out) if len(line) > columns], "the lines that are too long")
