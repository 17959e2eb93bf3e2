#!/usr/bin/env python3
"""Tries the edits of tests/edits, which the gate does not try, on a copy of the repository: the prover must refuse each.

    tests/edits.py NAME ..                    those of these crates, after a change of their contracts
    tests/edits.py --slice K/N [NAME ..]      the Kth of N parts of them, or of all: seven nights try all with K/7
    tests/edits.py --list ..                  their names

An edit takes about a minute and needs `rt`. The name of an edit alone decides in which part it is, so that it stays there
when others come. `tests/run edits_apply` shows in a second whether each still applies.
"""
import argparse
import hashlib
import re
import shutil
import subprocess
import sys
import tempfile
from pathlib import Path

from lib import TOP, parser

EDITS = TOP / "tests" / "edits"


def applies(edit: Path) -> bool:
    """Whether each text that the edit takes away stands once in its file, after what the pairs before it have done."""
    texts, file, old = {}, None, None
    for line in edit.read_text().splitlines():
        word, _, text = line.partition(": ")
        if word == "file":
            file = TOP / "crates" / edit.parent.name / text.strip()
            texts.setdefault(file, file.read_text() if file.is_file() else "")
        elif word == "old":
            old = text
        elif word in ("new", "new:"):
            if texts[file].count(old) != 1:
                return False
            texts[file] = texts[file].replace(old, text)
    return old is not None


def name_of(edit: Path) -> str:
    return f"{edit.parent.name}/{edit.stem}"


def is_in(part: int, parts: int, edit: Path) -> bool:
    """Whether an edit is in this part of so many."""
    return int(hashlib.sha256(name_of(edit).encode()).hexdigest(), 16) % parts == part - 1


def slice_of(text: str) -> tuple[int, int]:
    """The numbers K and N of a slice."""
    found = re.fullmatch(r"([1-9]\d*)/([1-9]\d*)", text)
    if not found or int(found[1]) > int(found[2]):
        raise argparse.ArgumentTypeError(f"{text} is not K/N with K from 1 to N")
    return int(found[1]), int(found[2])


def chosen(names: list[str], part: int, parts: int) -> list[Path]:
    """The edits of these crates, or of all where none is named, that are in this part."""
    return [it for it in sorted(EDITS.glob("*/*.edit")) if (not names or it.parent.name in names) and is_in(part, parts, it)]


def try_all(edits: list[Path]) -> int:
    """Tries edits in place of those of the gate, and gives the status of `rt must-fail`."""
    with tempfile.TemporaryDirectory() as folder:
        top = Path(folder)
        shutil.copytree(TOP / "crates", top / "crates", ignore=shutil.ignore_patterns("out", "must-fail"))
        for it in ("crates.txt", "HANDLES"):
            shutil.copy(TOP / it, top)
        for it in edits:
            to = top / "crates" / it.parent.name / "must-fail"
            to.mkdir(exist_ok=True)
            shutil.copy(it, to)
        return subprocess.run(["rt", "must-fail", *sorted({it.parent.name for it in edits})], cwd=top).returncode


def main() -> int:
    words, known = parser(__doc__), sorted(it.name for it in EDITS.iterdir() if it.is_dir())
    words.add_argument("names", nargs="*", metavar="NAME", help=", ".join(known))
    words.add_argument("--slice", type=slice_of, metavar="K/N")
    words.add_argument("--list", action="store_true")
    asked = words.parse_args()
    if unknown := set(asked.names) - set(known):
        words.error(f"tests/edits has no {', no '.join(sorted(unknown))}")
    if not (asked.names or asked.slice or asked.list):
        words.error("name a crate or a slice")
    edits = chosen(asked.names, *(asked.slice or (1, 1)))
    if asked.list:
        print(*map(name_of, edits), sep="\n")
    return 0 if asked.list or not edits else try_all(edits)


if __name__ == "__main__":
    sys.exit(main())
