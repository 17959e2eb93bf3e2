"""The blocks of the pages that tests/made.py makes: the lines between `<!-- made: NAME -->` and `<!-- end -->`.

    results/X   bench/results/X.txt, which bench/keep.py writes
    modules     the rows that are there, with the lines of the modules of definitions that each names
    edits       how many edits of each crate the gate tries, and how many others there are
"""
import re
import subprocess
from collections.abc import Callable, Iterable, Sequence
from pathlib import Path

from lib import TOP

BEGIN = re.compile(r"<!-- made: (.*) -->")
END = "<!-- end -->"


class BlockError(Exception):
    """Why a block cannot be made: the page, the line and the reason."""


def padded(place: int, column: Sequence[str]) -> list[str]:
    """The cells of a column, padded to one width. Numbers stand on the right, except in the first column."""
    wide = max(map(len, column))
    is_number = place and all(it[:1].isdigit() for it in column[1:] if it)
    return [it.rjust(wide) if is_number else it.ljust(wide) for it in column]


def columns(rows: Iterable[Sequence]) -> str:
    """Rows, the first of them the heads, as lines in columns."""
    cells = [padded(place, list(map(str, column))) for place, column in enumerate(zip(*rows))]
    return "".join("  ".join(row).rstrip() + "\n" for row in zip(*cells))


def fenced(*tables: str) -> str:
    """Tables of such lines as one block of text."""
    return "```\n" + "\n".join(tables) + "```\n"


# ---- the blocks


def lines_of(module: str) -> int:
    """How many lines a module of definitions has, without its imports."""
    text = (TOP / "crates" / f"{module}.antt").read_text()
    return re.sub(r"^(?:pub )?use .*?(?:\}| as \w+)\n", "", text, flags=re.MULTILINE | re.DOTALL).count("\n")


def counted(row: str) -> str:
    """A row of the table of modules, with the number of lines in its second cell.

    The first module of a row has its whole path; one without a folder is beside the first.
    """
    cells = row.strip("|").split("|")
    if len(cells) < 2 or not re.match(r" `\w+/specs/", cells[0]) or not re.fullmatch(r" *\d* *", cells[1]):
        raise ValueError(f"this is no row of modules and lines: {row}")
    named = re.findall(r"`([\w/]+)`", cells[0])
    folder = named[0].rsplit("/", 1)[0]
    cells[1] = f" {sum(lines_of(it if '/' in it else f'{folder}/{it}') for it in named)} "
    return f"|{'|'.join(cells)}|"


def table(heads: Sequence[str], count: Callable[[Path], list[int]]) -> str:
    """A block of what is counted of each crate, where that is something, and of all."""
    rows = [(it.name, *counts) for it in sorted((TOP / "crates").iterdir()) if any(counts := count(it))]
    totals = [sum(column) for column in [*zip(*rows)][1:]]
    return fenced(columns([("crate", *heads), *rows, ("all", *totals)]))


def edits_of(crate: Path) -> list[int]:
    """How many edits a crate has in must-fail, and in tests/edits."""
    return [len([*folder.glob("*.edit")]) for folder in (crate / "must-fail", TOP / "tests" / "edits" / crate.name)]


def body(name: str, text: str) -> str:
    """What belongs between the two lines of a block of this name; `text` is there now."""
    if name.startswith("results/"):
        if not (file := TOP / "bench" / f"{name}.txt").is_file():
            raise ValueError(f"there is no {file.relative_to(TOP)}, which bench/keep.py writes")
        return file.read_text()
    if name == "modules":
        head, rule, *rows = text.splitlines()
        return "".join(f"{it}\n" for it in (head, rule, *map(counted, rows)))
    if name == "edits":
        return table(("gate", "others"), edits_of)
    raise ValueError("nothing makes a block of this name")


def filled(page: str, text: str, body: Callable[[str, str], str] = body, begins: re.Pattern = BEGIN, ends: str = END) -> str:
    """The text of a page with each of its blocks made anew. The lines around a block have these forms."""
    lines, out, at = text.split("\n"), [], 0
    while at < len(lines):
        out.append(lines[at])
        at += 1
        if begin := begins.fullmatch(out[-1]):
            where = f"{page}:{at}: the block `{begin[1]}`"
            end = next((n for n in range(at, len(lines)) if lines[n] == ends or begins.fullmatch(lines[n])), None)
            if end is None or lines[end] != ends:
                raise BlockError(f"{where} has no end")
            try:
                out += body(begin[1], "".join(f"{it}\n" for it in lines[at:end])).removesuffix("\n").split("\n")
            except (ValueError, OSError) as why:
                raise BlockError(f"{where} cannot be made: {why}") from why
            at = end
    return "\n".join(out)


def pages() -> dict[str, str]:
    """The pages of the repository that have blocks, by their paths, with their texts."""
    listed = ["git", "ls-files", "--cached", "--others", "--exclude-standard", "*.md"]
    names = subprocess.run(listed, cwd=TOP, capture_output=True, text=True, check=True).stdout.split()
    texts = {it: (TOP / it).read_text() for it in sorted(set(names)) if (TOP / it).is_file()}
    return {name: text for name, text in texts.items() if re.search(rf"^{BEGIN.pattern}$", text, re.MULTILINE)}
