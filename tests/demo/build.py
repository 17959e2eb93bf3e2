#!/usr/bin/env python3
"""Builds a program from its sources, unproved, as out/NAME-unproved, and prints its path.

    tests/demo/build.py NAME      (escrow or deposit)

It takes three to five minutes for escrow and one for deposit; no time if the program is newer than its sources. It needs
`rt`.

`rt try` compiles a program with checks at run time, starts it in a folder of its own, and deletes it when it ends. So this
script has it read a named pipe into which nobody writes. While the program waits for the pipe, its file can be copied.
"""
import contextlib
import os
import shutil
import signal
import subprocess
import sys
import tempfile
import threading
import time
from collections.abc import Iterator
from pathlib import Path

sys.path.insert(0, str(Path(__file__).resolve().parents[1]))
from lib import PART, TOP, parser

# The words with which each program reads the file that they name last.
WORDS = {"escrow": ("put", "."), "deposit": ("check",)}


def is_new(program: Path) -> bool:
    """Whether a program is there, and newer than the sources of all crates."""
    sources = [TOP / "crates.txt", *TOP.glob("crates/*/src/**/*.rt")]
    return program.is_file() and program.stat().st_mtime > max(it.stat().st_mtime for it in sources)


@contextlib.contextmanager
def shown(text: str) -> Iterator[None]:
    """Prints a text, and on a terminal behind it the seconds that have passed."""
    ended, since = threading.Event(), time.monotonic()

    def count():
        while not ended.wait(1):
            print(f"\r{text} .. {time.monotonic() - since:.0f} s", end="", file=sys.stderr, flush=True)

    print(f"{text} ..", end="" if sys.stderr.isatty() else "\n", file=sys.stderr, flush=True)
    thread = threading.Thread(target=count)
    if sys.stderr.isatty():
        thread.start()
    try:
        yield
    finally:
        ended.set()
        if sys.stderr.isatty():
            thread.join()
            print("\r\033[K", end="", file=sys.stderr, flush=True)


def callers(pipe: Path) -> Iterator[tuple[Path, list[Path]]]:
    """The processes that were called with the pipe: each its folder in /proc, and its words."""
    for folder in Path("/proc").glob("[0-9]*"):
        with contextlib.suppress(OSError):
            words = [Path(os.fsdecode(it)) for it in (folder / "cmdline").read_bytes().split(b"\0")]
            if pipe in words:
                yield folder, words


def is_built(file: Path, room: Path) -> bool:
    """Whether it is a program in the room."""
    with contextlib.suppress(OSError):
        if file.is_relative_to(room) and file.is_file():
            with open(file, "rb") as it:
                return it.read(4) == b"\x7fELF"
    return False


def running(room: Path, pipe: Path) -> Path | None:
    """The file of the program that was called with the pipe, once it runs: as a loader's argument, or by itself."""
    for folder, words in callers(pipe):
        with contextlib.suppress(OSError):
            files = [(folder / "exe").readlink(), *words]
            if found := next((it for it in files if is_built(it, room)), None):
                return found
    return None


def wait_for_program(builder: subprocess.Popen, room: Path, pipe: Path) -> Path | None:
    """The program's file, or nothing where the compiler has ended without it."""
    while builder.poll() is None:
        if found := running(room, pipe):
            return found
        time.sleep(0.2)
    return None


def release(pipe: Path) -> None:
    """Lets the program read the pipe to its end."""
    for _ in range(100):
        with contextlib.suppress(OSError):
            os.close(os.open(pipe, os.O_WRONLY | os.O_NONBLOCK))
            return
        time.sleep(0.1)


def build(name: str, program: Path, room: Path) -> None:
    """Compiles a crate's program, and copies it while it waits for a named pipe."""
    pipe, since = room / PART, time.time()
    os.mkfifo(pipe)
    with open(room / "log", "w+", encoding="utf-8") as log:
        builder = subprocess.Popen(
            ["rt", "try", "--seconds", "900", "--steps", "1", "--", *WORDS[name], pipe],
            cwd=TOP / "crates" / name,
            env={**os.environ, "TMPDIR": str(room)},
            stdin=subprocess.DEVNULL,
            stdout=log,
            stderr=subprocess.STDOUT,
            start_new_session=True,
        )
        try:
            found = wait_for_program(builder, room, pipe)
            if not found:
                log.seek(0)
                sys.exit(f"{name} is not built:\n{log.read()}")
            copy = program.with_suffix(".new")
            shutil.copyfile(found, copy)
            copy.chmod(0o755)
            os.utime(copy, (since, since))
            copy.rename(program)
            release(pipe)
            with contextlib.suppress(subprocess.TimeoutExpired):
                builder.wait(30)
        finally:
            for folder, _ in callers(pipe):
                with contextlib.suppress(ProcessLookupError):
                    os.kill(int(folder.name), signal.SIGKILL)
            builder.wait()


def main() -> None:
    words = parser(__doc__)
    words.add_argument("name", choices=WORDS, metavar="NAME")
    name = words.parse_args().name
    program = TOP / "out" / f"{name}-unproved"
    for it in (signal.SIGHUP, signal.SIGTERM):
        signal.signal(it, lambda *_: sys.exit(130))
    if not is_new(program):
        program.parent.mkdir(exist_ok=True)
        with tempfile.TemporaryDirectory(prefix=f"{name}-build-") as room:
            with shown(f"Building {name} from its sources"):
                build(name, program, Path(room).resolve())
    print(program)


if __name__ == "__main__":
    try:
        main()
    except KeyboardInterrupt:
        sys.exit(130)
