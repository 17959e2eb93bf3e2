#!/usr/bin/env python3
"""Makes pages from other files, so that they always agree.

    tests/made.py            writes them
    tests/made.py --check    compares them, and looks up in the code what docs/GLOSSARY.md decides. The last line is
                             `N passed, M failed, K skipped`

    docs/escrow.1, docs/escrow.bash     blocks of the manual page, and the tables of bash's completions, from the table of the
                                        words (crates/agent_cli/src/subcommands.rt, and the texts of src/grammar.rt beside it)
    docs/deposit.1, docs/deposit.bash   the same from the words of crates/deposit/src/words.rt; the completions have the code
                                        of docs/escrow.bash
    docs/crates.svg                     the crates with the ways of a command and of a request, from crates.txt
    each page with a block              the lines between `<!-- made: NAME -->` and `<!-- end -->`: counts, and results of
                                        benches (tests/blocks.py lists the names)

It takes a second, and needs `git`.
"""
import re
import sys
import textwrap
from collections.abc import Iterable
from dataclasses import dataclass
from functools import partial

import blocks
import words
from lib import TOP, parser, tell

CLI = TOP / "crates" / "agent_cli" / "src"
DEPOSIT = TOP / "crates" / "deposit" / "src" / "words.rt"


# ---- the words of the programs


@dataclass
class Word:
    """An argument: its id, the name of its value where it is an option (of a flag it is empty), what help says of it, and
    whether it may have several values."""
    id: str
    value: str | None
    required: bool
    help: str
    several: bool = False

    @property
    def name(self) -> str:
        return self.id if self.value is None else f"--{self.id}"

    @property
    def wanted(self) -> str:
        """The name of what is to be given: of its value, or of itself if it has its place."""
        return self.id if self.value is None else self.value

    @property
    def dots(self) -> str:
        """What stands behind a word of several values."""
        return "..." if self.several else ""


@dataclass
class Row:
    """A subcommand: its name, what help prints before its words and after them, and these."""
    name: str
    about: str
    after: str
    words: list[Word]


@dataclass
class Program:
    """A program: its name, what help prints before its subcommands and after them, its version, and these."""
    name: str
    about: str
    after: str
    version: str
    rows: list[Row]


def text(literal: str) -> str:
    """The text of a literal of Rust, without its quotes."""
    return re.sub(r"\\\n\s*", "", literal).replace("\\n", "\n").replace('\\"', '"')


STRING = r'"((?:[^"\\]|\\.|\\\n)*)"'


def field(name: str, block: str) -> str:
    return text(re.search(rf"\b{name}:\s*{STRING}", block, re.DOTALL)[1])


def word_of(block: str) -> Word:
    value = re.search(rf"WordForm::Option \{{\s*value: {STRING}", block)
    name = value[1] if value else "N" if "WordForm::Count" in block else "" if "WordForm::Flag" in block else None
    required = name != "" and "required: false" not in block
    return Word(field("id", block), name, required, field("help", block))


def words_in(listed: str, indent: int, shared: dict[str, Word]) -> list[Word]:
    """The words of a list whose items stand at this indentation, some by their names."""
    found = re.finditer(rf"\bWord \{{(.*?\n {{{indent}}}\}}),|\b([A-Z]+)\b(?=[,\]])", listed, re.DOTALL)
    return [shared[it[2]] if it[2] else word_of(it[1]) for it in found]


def table() -> list[Row]:
    source = (CLI / "subcommands.rt").read_text()
    named = re.finditer(r"const (\w+): Word<.*?= Word \{(.*?)\n\};", source, re.DOTALL)
    shared = {it[1]: word_of(it[2]) for it in named}
    several = {it[1]: words_in(it[2], 4, shared)
               for it in re.finditer(r"const (\w+): &\[Word<.*?= &\[\n(.*?)\n\];", source, re.DOTALL)}
    rows = []
    for it in re.finditer(r"static \w+: Row<.*?= Row \{\n(.*?)\n\};", source, re.DOTALL):
        head, listed = it[1].split("words: ", 1)
        words = several.get(listed.rstrip(",")) or words_in(listed.removeprefix("&["), 8, shared)
        rows.append(Row(field("name", head), field("about", head), field("after", head), words))
    return rows


def agent() -> Program:
    source = (CLI / "grammar.rt").read_text()
    found = re.finditer(rf"(about|after|VERSION)(?:: &str)? =\s*{STRING};", source, re.DOTALL)
    named = {it[1]: text(it[2]) for it in found}
    return Program("escrow", named["about"], named["after"], named["VERSION"], table())


# A call that makes an argument: of one value or several, by its form, with its texts.
ARGUMENT = re.compile(rf"(several\(\s*)?\b(place|optional|required|flag)\(\s*alloc,((?:\s*{STRING},?)+)\s*\)")
# The same, or a call of a function that does.
LISTED = re.compile(rf"{ARGUMENT.pattern}|\.arg\((?P<named>\w+)\(alloc\)\)")


def argument(call: re.Match) -> Word:
    several, form, listed = call[1], call[2], call[3]
    id, *value, help = [text(it) for it in re.findall(STRING, listed)]
    return Word(id, value[0] if value else "" if form == "flag" else None, form in ("place", "required"), help, bool(several))


def setting(name: str, body: str) -> str:
    """The text that a command of clap is given by a method."""
    return text(re.search(rf"\.{name}\(\s*{STRING}", body)[1])


def row_of(body: str, shared: dict[str, Word]) -> Row:
    """The row of a function that makes a command. Some of its words are those of other functions."""
    words = [shared[it["named"]] if it["named"] else argument(it) for it in LISTED.finditer(body)]
    return Row(re.search(rf"Command::new\(alloc, {STRING}", body)[1], setting("about", body), setting("after_help", body), words)


def packer() -> Program:
    source = DEPOSIT.read_text()
    bodies = {it[1]: it[2] for it in re.finditer(r"^fn (\w+)<'w>\(alloc: Global\).*?\{\n(.*?)^\}", source, re.M | re.S)}
    whole = bodies["deposit_command"]
    shared = {name: argument(it) for name, body in bodies.items() if (it := ARGUMENT.match(body.strip()))}
    rows = [row_of(bodies[name], shared) for name in re.findall(r"\.subcommand\((\w+)\(alloc\)", whole)]
    return Program("deposit", setting("about", whole), setting("after_help", whole), setting("version", whole), rows)


# ---- the manual page


def roff(line: str) -> str:
    escaped = line.replace("\\", "\\e").replace("-", "\\-")
    return "\\&" + escaped if escaped[:1] in (".", "'") else escaped


def call_word(word: Word) -> str:
    """A word of a call: an option in bold, a value in italics. An option keeps its value beside it."""
    option = f"\\fB{roff(word.name)}\\fR" if word.value is not None else ""
    value = f"\\fI{word.wanted}\\fR" if word.wanted else ""
    whole = "\\ ".join(filter(None, (option, value, word.dots and f"{word.dots}\\&")))
    return whole if word.required else f"[{whole}]"


def call_words(row: Row) -> list[str]:
    """The words of a call behind the command, those with a place first."""
    return [call_word(it) for it in sorted(row.words, key=lambda it: it.value is not None)]


def shell(command: str) -> list[str]:
    """A command as lines of at most 64 columns for a shell. An option keeps its value beside it."""
    joined = re.sub(r" (--\S+|>) (?!-)", " \\1\N{NO-BREAK SPACE}", command)
    lines = textwrap.wrap(joined, 62, subsequent_indent="    ", break_on_hyphens=False, break_long_words=False)
    return [roff(it) for it in " \\\n".join(lines).replace("\N{NO-BREAK SPACE}", " ").split("\n")]


def explained(words: Iterable[Word]) -> list[str]:
    named = [(" ".join(filter(None, (it.name, it.value, it.dots))), it.help) for it in words]
    return [line for name, help in named for line in (".TP", f"\\fI{roff(name)}\\fR", f"{roff(help)}.")]


def behind(row: Row) -> list[str]:
    """What help prints behind the words of a command: sentences, lines with a label such as `Prints:`, and an example. A
    line that ends with a comma goes on in the next."""
    lines = []
    for line in re.sub(r",\n +", ", ", row.after).split("\n"):
        label, _, rest = line.partition(": ")
        if label == "Example":
            lines += [".PP", ".EX", *shell(rest), ".EE"]
        elif rest and label.isalpha():
            lines += [".TP 8", f"{label}:", roff(rest)]
        else:
            lines += [".br", roff(line.strip())] if line.startswith(" ") else [".PP", f"{roff(line)}."]
    return lines


# The lines around a block of the page.
BEGINS, ENDS = re.compile(r'\.\\" made: (.*)'), '.\\" end'


def manual(program: Program) -> str:
    """The page with its blocks made anew. A word that all commands share is explained once."""
    name, about, rows = program.name, program.about, program.rows
    shared = [it for it in rows[0].words if all(it in row.words for row in rows)]
    synopsis, commands = [], explained(shared)
    for row in rows:
        words = call_words(row)
        synopsis += [f'.SY "{name} {row.name}"', *words]
        commands += [".TP", " ".join([f"\\fB{name} {row.name}\\fR", *words]), f"{roff(row.about)}.", ".RS",
                     *explained(it for it in row.words if it not in shared), *behind(row), ".RE"]
    steps = [line for it in program.after.split("\n\n")[0].split("\n")[1:] for line in shell(it.strip())]
    parts = {
        "title": [f'.TH {name.upper()} 1 "" "{name} {program.version}"'], "synopsis": synopsis, "commands": commands,
        "about": [f"{roff(about[:1].lower() + about[1:])}."], "first steps": [".EX", *steps, ".EE"]}

    def body(block: str, _: str) -> str:
        if block not in parts:
            raise ValueError("nothing makes a block of this name")
        return "\n".join(parts[block])

    page = f"docs/{name}.1"
    return blocks.filled(page, (TOP / page).read_text(), body, BEGINS, ENDS)


# ---- completions


def choices(row: Row, word: Word) -> list[str]:
    """The values of a word, if the table lists them as `a, b or c` after a colon, in its help or in a line after it."""
    behind = re.sub(r",\n +", ", ", row.after).split("\n")
    said = [word.help, *(it for it in behind if it.lower().startswith(f"{word.id.lower()}: "))]
    found = [re.search(r": ((?:\w+, )*\w+ or \w+)$", it) for it in said]
    return next((re.split(", | or ", it[1]) for it in found if it), [])


# The first line of the code in docs/escrow.bash. The tables above it are made; the code is kept, and stands in the
# completions of each program with that program's name.
CODE = "# What is offered for the word at the cursor: what compgen finds.\n"


def offered(word: Word) -> str:
    """A word in the tables: `--NAME=VALUE`, `--NAME` of a flag, or the name of a place; with dots if it has several values."""
    return "=".join(filter(None, (word.name, word.value))) + word.dots


def completions(program: Program) -> str:
    name, rows = program.name, program.rows
    tables = {
        "options": {row.name: [offered(it) for it in row.words if it.value is not None] for row in rows},
        "places": {row.name: [offered(it) for it in row.words if it.value is None] for row in rows},
        "values": {f"{row.name} {it.wanted}": found for row in rows for it in row.words if (found := choices(row, it))}}
    lines = [f"# Completions of bash for {name}. The tables are made by tests/made.py from the words of its commands.",
             f"# Source this file, or copy it to /usr/share/bash-completion/completions/{name}"]
    for title, table in tables.items():
        entries = (f"    [{key}]='{' '.join(words)}'" for key, words in table.items())
        lines += [f"declare -gA _{name}_{title}=(", *entries, ")"]
    kept = (TOP / "docs" / "escrow.bash").read_text()
    return "\n".join(lines) + "\n\n" + kept[kept.index(CODE):].replace("escrow", name)


# ---- the picture of the crates

WIDTH, ROW, BOX, HIGH = 760, 84, 150, 34
GREEN, PURPLE, CREAM = "#d5f0e0", "#eadcf7", "#fdebd0"
COLOURS = {"Base": "#e8e8e8", "Format": CREAM, "Verification": CREAM, "Records": GREEN, "Store": GREEN, "Machine": GREEN,
           "Rules": GREEN, "Custody": "#b8e6cb", "Words": "#dbe9fb", "HTTP": PURPLE, "Laws": PURPLE, "Program": "#ffffff"}
# The crates in the order in which a command and a request come to them, and the colour of their numbers.
WAYS = {
    "a command": ("#1f5fbf", "escrow agent_program agent_cli custody custody_rules vault_volume custody_store answer_lines".split()),
    "a request": ("#8e44ad", "escrow agent_program http_api http_request custody answer_lines".split())}
# The crates by name, each with its group and the crates that it names.
Crates = dict[str, tuple[str, list[str]]]
Point = tuple[int, int]


def crates() -> Crates:
    """The group of each crate, and what it names of the repository; without tests, benches and what only tests use."""
    group, found = "", {}
    for line in (TOP / "crates.txt").read_text().splitlines():
        if heading := re.match(r"# (\w+)[:. ]", line):
            group = f"{heading[1]} {'tests' if 'Only tests' in line else ''}".strip()
        elif named := re.match(r"(\w+):(.*)", line):
            found[named[1]] = (group, named[2].split())
    drawn = {name: it for name, it in found.items() if it[0] in COLOURS}
    return {name: (group, [it for it in below if it in drawn]) for name, (group, below) in drawn.items()}


def all_below(name: str, found: Crates) -> set[str]:
    return set(found[name][1]).union(*(all_below(it, found) for it in found[name][1]))


def nearest(name: str, found: Crates) -> list[str]:
    """The crates that a crate names and reaches through no other one."""
    below = found[name][1]
    return [it for it in below if not any(it in all_below(other, found) for other in below)]


def levels(found: Crates) -> list[list]:
    """The rows of the picture, the highest first. Each crate is above all that it uses. A line that crosses a row has a
    place there, a pair of crates."""
    level = {}
    for name in found:
        level[name] = 1 + max((level[it] for it in found[name][1]), default=-1)
    top = max(level.values())
    rows = [[it for it in found if level[it] == top - height] for height in range(top + 1)]
    for name in found:
        for it in nearest(name, found):
            for height in range(level[it] + 1, level[name]):
                rows[top - height].append((name, it))
    return rows


def places(found: Crates) -> dict:
    """The middle of the upper edge of each box, and of each line in a row that it crosses, near what is above it."""
    place, above = {}, {it: [] for it in found}
    for name in found:
        for it in nearest(name, found):
            above[it].append(name)

    def middle(it: str | tuple[str, str]) -> int:
        over = [it] if isinstance(it, tuple) else [(name, it) for name in above[it]]
        xs = [place[pair][0] if pair in place else place[pair[0]][0] for pair in over]
        return sum(xs) // len(xs) if xs else 0

    for height, row in enumerate(levels(found)):
        gap = WIDTH // (len(row) + 1)
        for at, it in enumerate(sorted(row, key=middle)):
            place[it] = place[it, height] = (gap * (at + 1), 30 + ROW * height)
    return place


def line(points: Iterable[Point]) -> str:
    """A line from the lower edge of a box, through the upper edges of the rows that it crosses, to the next box."""
    (x, y), *more = points
    path = f"M{x} {y}"
    for to, low in more:
        bend = (low - y) // 2
        path += f" C{x} {y + bend} {to} {low - bend} {to} {low}"
        x, y = to, low + HIGH
        path += f" L{x} {y}"
    return path


def picture() -> str:
    found = crates()
    place = places(found)
    height = max(y for _, y in place.values()) + HIGH + 46
    lines = [
        f'<svg xmlns="http://www.w3.org/2000/svg" viewBox="0 0 {WIDTH} {height}" font-family="sans-serif" font-size="14">',
        "<!-- Made by tests/made.py from crates.txt. -->",
        f'<rect width="{WIDTH}" height="{height}" fill="#ffffff"/>']
    for name in found:
        for it in nearest(name, found):
            x, y = place[name]
            crossed = [at for key, at in place.items() if key[0] == (name, it)]
            lines.append(f'<path d="{line([(x, y + HIGH), *crossed, place[it]])}" fill="none" stroke="#888888"/>')
    for name, (group, _) in found.items():
        x, y = place[name]
        lines += [f'<rect x="{x - BOX // 2}" y="{y}" width="{BOX}" height="{HIGH}" rx="5" '
                  f'fill="{COLOURS[group]}" stroke="#555555"/>',
                  f'<text x="{x}" y="{y + 22}" text-anchor="middle">{name}</text>']
    for number, (title, (colour, way)) in enumerate(WAYS.items()):
        dots = [(place[it][0] + (BOX // 2 if number else -BOX // 2), place[it][1] + HIGH // 2) for it in way]
        for at, (x, y) in enumerate(dots, 1):
            lines += [f'<circle cx="{x}" cy="{y}" r="9" fill="{colour}"/>',
                      f'<text x="{x}" y="{y + 4}" text-anchor="middle" font-size="11" fill="#ffffff">{at}</text>']
        x, y = 30 + 200 * number, height - 20
        lines += [f'<circle cx="{x}" cy="{y}" r="9" fill="{colour}"/>',
                  f'<text x="{x + 16}" y="{y + 5}">the way of {title}</text>']
    return "\n".join([*lines, "</svg>"]) + "\n"


# ---- all of them


def made() -> tuple[dict[str, str], list[str]]:
    """The text of each file that is made, and why others cannot be."""
    programs, texts, faults = (agent(), packer()), {}, []
    ways = {**{f"docs/{it.name}.1": partial(manual, it) for it in programs},
            **{f"docs/{it.name}.bash": partial(completions, it) for it in programs}, "docs/crates.svg": picture,
            **{name: partial(blocks.filled, name, text) for name, text in blocks.pages().items()}}
    for name, make in ways.items():
        try:
            texts[name] = make()
        except blocks.BlockError as why:
            faults.append(str(why))
    return texts, faults


def main() -> int:
    options = parser(__doc__)
    options.add_argument("--check", action="store_true")
    asked, (texts, faults) = options.parse_args(), made()
    if not asked.check:
        for name, text in texts.items():
            (TOP / name).write_text(text)
        print("".join(f"{it}\n" for it in faults), end="")
        return len(faults) > 0
    changed = [name for name, text in texts.items() if not (TOP / name).is_file() or (TOP / name).read_text() != text]
    differences = [f"{name} is not what tests/made.py makes: run it, and look at what changes" for name in changed]
    found = list(words.findings())
    print("".join(f"{it}\n" for it in faults + differences + found), end="")
    failed = len(changed) + bool(found)
    return tell(len(texts) + 1 - failed, failed + len(faults))


if __name__ == "__main__":
    sys.exit(main())
