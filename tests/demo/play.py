#!/usr/bin/env python3
"""Plays tests/demo/transcript with two programs, on real files in a folder that stays.

    tests/demo/play.py ESCROW DEPOSIT FOLDER      (it makes the folder)

It prints each command and what comes of it. The first command that prints something else than the transcript says ends the
run with status 1. It takes a few seconds with proved programs, and a minute or two with unproved ones. It needs curl.
"""
import contextlib
import shutil
import sys
from pathlib import Path

sys.path.insert(0, str(Path(__file__).resolve().parents[1]))
from console import Console, write_tables
from lib import difference, free_port, parser, steps

TRANSCRIPT = Path(__file__).with_name("transcript")


def plays(console: Console, lines: list[str]) -> bool:
    """Plays a transcript up to the first command that prints something else, and says whether there is none."""
    for step in steps(lines):
        print(*step.before, f"$ {step.command}", sep="\n", flush=True)
        printed = console.answer(step.command)
        print("".join(f"{line}\n" for line in printed), end="", flush=True)
        if printed != step.wanted:
            print("NOT AS IN THE TRANSCRIPT:", difference(step.wanted, printed), sep="\n")
            return False
    return True


def main() -> int:
    words = parser(__doc__)
    for name in ("escrow", "deposit", "folder"):
        words.add_argument(name, type=Path, metavar=name.upper())
    asked = words.parse_args()
    if not shutil.which("curl"):
        words.error("there is no curl")
    if asked.folder.exists():
        words.error(f"{asked.folder} is there")
    asked.folder.mkdir(parents=True)
    lines = TRANSCRIPT.read_text().replace("8080", str(free_port())).splitlines()
    with contextlib.closing(Console(asked.escrow, asked.deposit, asked.folder.resolve())) as console:
        write_tables(console.folder)
        try:
            return 0 if plays(console, lines) else 1
        except KeyboardInterrupt:
            return 130


if __name__ == "__main__":
    sys.exit(main())
