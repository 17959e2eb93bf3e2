"""What docs/GLOSSARY.md decides, looked up in the code: used by tests/made.py --check."""
import re
from collections import defaultdict
from collections.abc import Iterator

from lib import TOP

GLOSSARY = (TOP / "docs" / "GLOSSARY.md").read_text()
GIVEN_UP = "Words that this project has given up"
DEFINITION = re.compile(
    r"^(?!\s*(?:--|(?:pub )?(?:use|mod) ))"
    r"\s*(?:(?:pub|private|opaque|rec) )*(?:(abbrev|unfoldable|data|record) (?:pub )?)?([A-Za-z_◌][^\s:(){}]*)(?=[\s:(){])")
ITEM = re.compile(r"^\s*(?:pub(?:\(\w+\))? )?(?:struct|enum|trait|type|const|static|fn) (\w+)", re.M)


def section(title: str) -> list[list[str]]:
    """The rows of the table below a heading, each a list of cells."""
    text = GLOSSARY.split(f"## {title}\n", 1)[1].split("\n## ", 1)[0]
    rows = [line.strip("|").split("|") for line in text.splitlines() if line.startswith("|")]
    return [[cell.strip() for cell in row] for row in rows[2:]]


def words(cell: str) -> list[str]:
    return re.findall(r"`([^`]+)`", cell)


def definitions() -> defaultdict[str, set[str]]:
    """The crates in whose specs/ a name is defined, by name."""
    found = defaultdict(set)
    for file in TOP.glob("crates/*/specs/**/*.antt"):
        for line in file.read_text().splitlines():
            named = DEFINITION.match(line)
            if named and (named[1] in ("data", "record")
                          or " : " in line and (named[1] or re.match(r"pub [^\s:]+ :", line))):
                found[named[2]].add(file.relative_to(TOP).parts[1])
    return found


def items() -> defaultdict[str, set[str]]:
    """The crates in whose src/ a type, function, constant or module is named so, by name; not tests and benches."""
    found = defaultdict(set)
    for specs in TOP.glob("crates/*/specs"):
        for file in specs.parent.glob("src/**/*.rt"):
            for name in [file.stem, *ITEM.findall(file.read_text())]:
                found[name].add(specs.parent.name)
    return found


def findings() -> Iterator[str]:
    """What of the code is not as the glossary has it, a line each."""
    defined, named = definitions(), items()
    for cells in section(GIVEN_UP):
        homes = set(re.findall(r"\w+", "".join(cells[2:]).split(":")[0]))
        for word in words(cells[0]):
            for crate in sorted((defined[word] | named[word]) - homes):
                yield f"crates/{crate} names something {word}, which docs/GLOSSARY.md has given up: use {cells[1]}"
    shared = {words(cells[0])[0]: set(re.findall(r"\w+", cells[1])) for cells in section("Names with two homes")}
    for name, crates in sorted(defined.items()):
        if len(crates) > 1 and shared.get(name) != crates:
            yield f"{name} is defined in {', '.join(sorted(crates))}, and docs/GLOSSARY.md has no row that says why"
    for name in shared:
        if len(defined[name]) < 2:
            yield f"docs/GLOSSARY.md says that {name} has two homes: it has {len(defined[name])}"
    text = "\n".join(it.read_text() for kind in ("src/**/*.rt", "specs/**/*.antt") for it in TOP.glob(f"crates/*/{kind}"))
    for word in sorted(set(words(GLOSSARY.split(f"## {GIVEN_UP}")[0]))):
        name = word.split("::")[-1]
        if re.fullmatch(r"\w+", name) and not re.search(rf"\b{name}\b", text):
            yield f"docs/GLOSSARY.md names {word}, which is nowhere in the code"
