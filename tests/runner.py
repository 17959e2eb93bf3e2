"""Runs the program's tests over real files and sockets: the cases of tests/cases.

    tests/run                   all of them, side by side: about a minute
    tests/run NAME ..           those of a file (`keeping`), or one (`keeping.a_hold_is_recorded_once`); `*` is any letters
    tests/run --list NAME ..    their names
    tests/run --install ..      first installs the Debian packages of missing tools, where it is run by root
    OLDER=PROGRAM tests/run     with the cases of `older` that need a program of before there were holds

It needs the programs that `rt run` builds in crates/escrow and crates/deposit (./demo --proved does it), and for `stops`
that of crates/agent_script. It skips a case if this machine lacks a tool that the case needs (curl, nginx, sqlite3 ..), and prints a
line that says so. For a case that fails it prints the words that run it alone, and what is wrong: with `-` what was wanted,
with `+` what came. The last line is `N passed, M failed, K skipped`, of cases. The status is 0 if none failed; with NO_SKIPS
in the environment, if none was skipped either. TMPDIR=/dev/shm makes it faster.
"""
import concurrent.futures
import fnmatch
import importlib
import os
import shutil
import subprocess
import sys
import time
from pathlib import Path

TESTS = Path(__file__).resolve().parent
sys.dont_write_bytecode = True
sys.path[:0] = [str(TESTS), str(TESTS / "cases")]
import lib


def named(names: list[str]) -> list[lib.Case]:
    """The cases of these names; all where there is none."""
    for file in sorted((TESTS / "cases").glob("*.py")):
        importlib.import_module(file.stem)
    doubled = {it.name for it in lib.CASES if [other.name for other in lib.CASES].count(it.name) > 1}
    if doubled:
        sys.exit(f"cases of one name: {', '.join(sorted(doubled))}")
    found = [[it for it in lib.CASES if fnmatch.fnmatch(it.name, name) or it.name.startswith(f"{name}.")] for name in names]
    for name, cases in zip(names, found):
        if not cases:
            sys.exit(f"no case is named {name}: see tests/run --list")
    return [it for it in lib.CASES if not names or any(it in cases for cases in found)]



def install() -> None:
    """Installs the packages of the tools that are missing. A service that comes with one is not started."""
    packages = sorted({package for tool, package in lib.PACKAGES.items() if not shutil.which(tool)})
    if not packages or os.geteuid() or not shutil.which("apt-get"):
        return
    policy = Path("/usr/sbin/policy-rc.d")
    has_policy = policy.exists()
    if not has_policy:
        policy.write_text("#!/bin/sh\nexit 101\n")
        policy.chmod(0o755)
    apt = ["apt-get", "-qq", "-o", "Acquire::http::Timeout=20", "-o", "Acquire::Retries=3"]
    for words in ["update"], *(["install", "-y", "--no-install-recommends", package] for package in packages):
        print(*apt, *words, flush=True)
        subprocess.run([*apt, *words], env=os.environ | {"DEBIAN_FRONTEND": "noninteractive"}, stdout=subprocess.DEVNULL)
    if not has_policy:
        policy.unlink()


def show(case: lib.Case, wrong: str, why: str) -> None:
    """Prints the lines of a case that failed or was skipped."""
    if wrong:
        print(f"FAILED: tests/run {case.name}", *(f"    {line}" for line in wrong.splitlines()), sep="\n", flush=True)
    elif why:
        print(f"skipped: tests/run {case.name}: {why}", flush=True)


def main() -> int:
    words = lib.parser(__doc__)
    words.prog = "tests/run"
    words.add_argument("names", nargs="*", metavar="NAME")
    words.add_argument("--list", action="store_true")
    words.add_argument("--install", action="store_true")
    words.add_argument("--program", type=Path, default=lib.ESCROW)
    words.add_argument("--lanes", type=int, default=2 * (os.cpu_count() or 1))
    asked = words.parse_args()
    cases = named(asked.names)
    if asked.install:
        install()
    if asked.list:
        print(*(it.name for it in cases), sep="\n")
        return 0
    lib.built(lib.PACKER)
    program, began, checks, failed, skipped = lib.built(asked.program), time.monotonic(), 0, 0, 0
    with concurrent.futures.ThreadPoolExecutor(asked.lanes) as pool:
        tried = {pool.submit(it.try_once, program): it for it in sorted(cases, key=lambda it: -it.seconds)}
        for done in concurrent.futures.as_completed(tried):
            made, wrong, why = done.result()
            show(tried[done], wrong, why)
            checks, failed, skipped = checks + made, failed + bool(wrong), skipped + bool(why)
    print(f"{checks} checks in {time.monotonic() - began:.0f} seconds")
    return lib.tell(len(cases) - failed - skipped, failed, skipped)


if __name__ == "__main__":
    sys.exit(main())
