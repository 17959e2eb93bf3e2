"""The examples of pages, the transcript of ./demo, and the help of scripts.

- `console`: the examples of a page share a folder that has an empty vault `vault` and part files. A command has to print the
  lines below it. A free port takes the place of 8080.
- `rust`, `antt`: the first line is a comment that names a file of the repository. The lines below it have to be lines of
  that file, one after the other, whatever their indentation.
"""
import contextlib
import os
import re
from collections.abc import Callable
from pathlib import Path

from demo.console import Console, write_deposits, write_tables
from lib import CASES, PACKER, TOP, Room, answer_of, case, each, free_port, steps

SETUP = """\
$ mkdir vault
$ escrow init vault --blocks 600 --number 0000000000000001
ready 600 0000000000000001
"""
PAGES = [str(it.relative_to(TOP)) for form in ("*.md", "*/*.md", "*/*/*.md") for it in sorted(TOP.glob(form))]
# The pages whose commands are played, and the tools that these call.
PLAYED = {"README.md": "", "docs/HTTP.md": "curl", "docs/OPERATING.md": "curl flock sqlite3", "docs/REGISTRY.md": ""}


def blocks(page: str, languages: str) -> list[str]:
    """The texts of a page's blocks in these languages."""
    return re.findall(rf"^```(?:{languages})\n(.*?)^```$", (TOP / page).read_text(), re.MULTILINE | re.DOTALL)


def plays(room: Room, transcript: str, write: Callable[[Path], None]) -> None:
    """Plays a transcript as a person types it, in a folder with the files that this writes."""
    write(room.folder)
    with contextlib.closing(Console(room.program, PACKER, room.folder)) as console:
        for step in steps(transcript.replace("8080", str(free_port())).splitlines()):
            room.equal(step.wanted, console.answer(step.command), f"$ {step.command}")


def examples_play(room: Room, page: str) -> None:
    plays(room, SETUP + "".join(blocks(page, "console")), write_deposits)


for page, tools in PLAYED.items():
    each([(f"the examples of {page.removesuffix('.md')} play", page)], needs=tools)(examples_play)


@case()
def each_page_with_commands_is_played(room: Room) -> None:
    room.equal(list(PLAYED), [page for page in PAGES if blocks(page, "console")], "the pages with commands")


@case(needs="curl")
def the_transcript_of_the_demo_plays(room: Room) -> None:
    plays(room, (TOP / "tests/demo/transcript").read_text(), write_tables)


@case()
def the_example_of_a_case_passes(room: Room) -> None:
    there = len(CASES)
    exec("".join(blocks("CONTRIBUTING.md", "python")), {"__name__": "example"})
    room.equal(["example.a_repeat_changes_nothing"], [it.name for it in CASES[there:]], "the cases of the example")
    CASES.pop().run(room)


def stripped(lines: list[str]) -> str:
    """Lines without their indentation, each between line feeds."""
    return "\n" + "".join(f"{line.strip()}\n" for line in lines)


@each((f"the code quoted in {page.removesuffix('.md')} is there", page) for page in PAGES if blocks(page, "rust|antt"))
def the_code_has_what_a_page_quotes(room: Room, page: str) -> None:
    for block in blocks(page, "rust|antt"):
        first, *quoted = block.splitlines()
        named = re.fullmatch(r"(?://|--) ([\w/.-]+)", first)
        file = TOP / named[1] if named else None
        room.true(file and file.is_file(), f"{page}: no file is named in the first line of the example: {first}")
        is_there = quoted and stripped(quoted) in stripped(file.read_text().splitlines())
        room.true(is_there, "\n".join([f"{page}: these lines are not in {named[1]}:", *quoted]))


# ---- the scripts

# Everything that a person may run, and the modules that these import.
FORMS = (".ci/run", "demo", "prove", "tests/run", "tests/*.py", "tests/demo/*.py", "tests/page/*.py", "bench/*.py", "deploy/*")
FILES = [it for form in FORMS for it in sorted(TOP.glob(form)) if it.is_file()]
SCRIPTS = [it for it in FILES if it.read_bytes().startswith(b"#!")]


@case()
def a_file_is_executable_where_it_is_a_script(room: Room) -> None:
    executable = [str(it) for it in FILES if os.access(it, os.X_OK)]
    room.equal([str(it) for it in SCRIPTS], executable, "the files that are executable")


@each((f"{it.relative_to(TOP)} has help", it) for it in SCRIPTS)
def help_says_how_long_and_what_is_needed(room: Room, script: Path) -> None:
    done = answer_of([script, "--help"], seconds=5)
    room.equal((0, b""), (done.status, done.err), f"{script} --help")
    for form in ("second|minute|hour", "need"):
        room.true(re.search(form, done.out.decode()), f"the help of {script} has no {form}")
