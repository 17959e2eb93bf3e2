"""The edits of tests/edits, which the gate does not try: a case for each crate that has some."""
from pathlib import Path

from edits import EDITS, applies, chosen
from lib import TOP, Room, case, each


@each((f"to {it.name}", it) for it in sorted(EDITS.iterdir()) if it.is_dir())
def edits_apply(room: Room, folder: Path) -> None:
    """Each edit still applies to the code of its crate."""
    for edit in sorted(folder.glob("*.edit")):
        room.true(applies(edit), f"{edit.relative_to(TOP)} does not apply: mend or remove it")


@case()
def each_edit_is_in_one_of_seven_parts(room: Room) -> None:
    parts = [it for part in range(1, 8) for it in chosen([], part, 7)]
    room.equal(sorted(EDITS.glob("*/*.edit")), sorted(parts), "the edits of the seven parts")
