"""The completions of bash: what they offer for the last word of a line."""
import re

from lib import PART, TOP, Room, each

PROGRAMS = ("escrow", "deposit")
OPTIONS = "--after --all --date --header --help --id --kind --out --previous --revision --tld --whole"
# Lines, and what is offered where the folder has a part, another file and the folders `tables` and `vault`.
OFFERED = {
    "escrow re": "register release report",
    "escrow --v": "--version",
    "escrow help s": "serve state sweep",
    "escrow state ''": "tables vault",
    "escrow put v": "vault",
    "escrow put vault ''": f"{PART} tables vault",
    "escrow put vault x": "",
    "escrow put vault part ''": "--help --now",
    "escrow verify vault example --kind ''": "diff full incr",
    "escrow verify vault example --kind full --re": "--revision",
    "escrow verify --date 2026-08-02 ''": "tables vault",
    "escrow release vault R-1 example i": "insolvency",
    "escrow release --now 2026-08-03T12:00:00Z vault R-1 example o": "operator order",
    "escrow serve --until-closed v": "vault",
    "escrow verify vault example --id ''": "",
    "deposit ''": "--help --version check help pack restore unpack",
    "deposit pack ''": "tables vault",
    "deposit pack tables ''": OPTIONS,
    "deposit pack tables --kind d": "diff",
    "deposit pack tables --header ''": OPTIONS,
    "deposit pack tables --out v": "vault",
    "deposit check ''": f"{PART} tables vault",
    "deposit check part.ryde e": PART,
    "deposit check part.ryde --": "--after --help",
    "deposit check part.ryde --after other.ryde e": PART,
    "deposit check part.ryde --after other.ryde --": "--after --help",
    "deposit restore part.ryde --": "--header --help --out",
    "deposit unpack part.ryde --out tables e": PART}


def offered(room: Room, line: str) -> list[str]:
    """What is offered for the last word of a line."""
    program = line.split()[0]
    came = room.run(f"""source '{TOP}/docs/{program}.bash' && COMP_WORDS=({line}) COMP_CWORD=$((${{#COMP_WORDS[@]}} - 1))
        _{program}; printf '%s\\n' "${{COMPREPLY[@]}}" """)
    room.equal((0, b""), (came.status, came.err), f"the status and the errors for {line}")
    return sorted(came.out.decode().split())


@each((f"offers for {line}", line, words) for line, words in OFFERED.items())
def offers(room: Room, line: str, words: str) -> None:
    room.plays(f"$ mkdir tables vault; touch {PART} example.txt tables/x.ryde")
    room.equal(words.split(), offered(room, line), line)


@each((f"{program} is offered what its help names", program) for program in PROGRAMS)
def offers_what_help_names(room: Room, program: str) -> None:
    def named(words: str, pattern: str) -> list[str]:
        return re.findall(pattern, room.run(f"{program} help {words}").out.decode(), re.MULTILINE)

    commands = named("", r"^  (\w+)  ")
    room.equal(sorted(["--help", "--version", *commands]), offered(room, f"{program} ''"), "the commands")
    for command in commands[:-1]:
        options = named(command, r"^ +(?:-h, +)?(--[a-z-]+)")
        room.equal(sorted(options), offered(room, f"{program} {command} --"), f"the options of {command}")
