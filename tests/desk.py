#!/usr/bin/env python3
"""Looks at the desk's page (deploy/desk) in a browser, in front of a real agent, and compares it with what that answers.

    tests/desk.py [--program ESCROW] [--pictures] [--list] [NAME ..]      (NAME is that of a check)

A vault of three registries and four hundred days is made by `escrow batch` and served by `escrow serve`, behind nginx with
TLS by deploy/nginx.conf. Between nginx and the browser is a tunnel that has the operator's certificate. What each day is,
which registries come first, which grounds stand and how long the room lasts is worked out here, of the answers of /state and
/due alone.

Each check is a function in tests/page, named as what it shows, and counts as one. For one that fails its name is printed,
and what is wrong: with `-` what was wanted, with `+` what came. `--pictures` also writes docs/desk-320.png, desk-1280.png
and desk-2560.png. It needs chromium, curl, nginx and openssl, and the programs that `rt run` builds in crates/escrow and
crates/deposit. Without one of the tools it says which checks are left out. It takes three minutes.
"""
from __future__ import annotations

import importlib
import os
import shutil
import signal
import sys
import time
import traceback
from collections.abc import Callable
from pathlib import Path

TESTS = Path(__file__).resolve().parent
sys.dont_write_bytecode = True
sys.path[:0] = [str(TESTS), str(TESTS / "cases"), str(TESTS / "page")]
from desks import CHECKS, Desk, desks
from lib import ESCROW, Wrong, built, parser, tell

TOOLS = ("chromium", "curl", "nginx", "openssl")
for name in "answers days failures a_day commands safety keys access many".split():
    importlib.import_module(f"check_{name}")


def try_once(one: Callable[[Desk], None], desk: Desk) -> str:
    """What is wrong; nothing if the check passes."""
    try:
        one(desk)
    except Wrong as wrong:
        return str(wrong)
    except Exception:
        return traceback.format_exc()
    return ""


def chosen(names: list[str]) -> list[Callable[[Desk], None]]:
    """The checks of these names; all where there is none."""
    there = {it.__name__: it for it in CHECKS}
    if unknown := [it for it in names if it not in there]:
        sys.exit(f"no check is named {unknown[0]}: see tests/desk.py --list")
    return [it for name, it in there.items() if not names or name in names]


def begin_early() -> None:
    """Lets a day pass that ends within five minutes, and begins anew: what is checked is of the day of the beginning."""
    if (left := 86_400 - time.time() % 86_400) < 300:
        time.sleep(left + 1)
        os.execv(sys.executable, [sys.executable, *sys.argv])


def main() -> int:
    words = parser(__doc__)
    words.add_argument("names", nargs="*", metavar="NAME")
    words.add_argument("--list", action="store_true")
    words.add_argument("--pictures", action="store_true")
    words.add_argument("--program", type=Path, default=ESCROW)
    asked = words.parse_args()
    checks = chosen(asked.names)
    if asked.list:
        print(*(it.__name__ for it in checks), sep="\n")
        return 0
    if lacking := [it for it in TOOLS if not shutil.which(it)]:
        for it in checks:
            print(f"skipped: tests/desk.py {it.__name__}: no {' and no '.join(lacking)}")
        return tell(0, 0, len(checks))
    program = built(asked.program)
    begin_early()
    # So that all that runs is ended, and the folders taken away.
    signal.signal(signal.SIGTERM, lambda *_: sys.exit(1))
    failed = 0
    with desks(program, asked.pictures) as desk:
        for it in checks:
            if wrong := try_once(it, desk):
                failed += 1
                lines = (f"    {line}" for line in wrong.splitlines())
                print(f"FAILED: tests/desk.py {it.__name__}", *lines, sep="\n", flush=True)
    return tell(len(checks) - failed, failed)


if __name__ == "__main__":
    sys.exit(main())
