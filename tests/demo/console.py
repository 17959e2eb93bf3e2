"""A console: commands as a person types them in a folder that has the programs and the files of the examples."""
import os
import random
import shlex
import shutil
import subprocess
import tempfile
import time
from pathlib import Path

from lib import LIMIT, begin, packed, part_name

CREATED = "2020-01-01T00:00:00Z"
REGISTRY = {
    "domain": f"one.example,D1-EX,C1,R1,{CREATED},2030-01-01T00:00:00Z\n",
    "domainContacts": "one.example,admin,C1\none.example,tech,C1\n",
    "domainStatuses": "one.example,ok\n",
    "domainNameServers": "one.example,ns.one.example\n",
    "host": f"ns.one.example,H1-EX,R1,{CREATED}\n",
    "hostAddresses": "ns.one.example,192.0.2.1,v4\nns.one.example,2001:db8::1,v6\n",
    "contact": f"C1,C1-EX,R1,{CREATED}\n",
    "registrar": 'R1,"Example, Inc.",292,ok\n',
}


def write_tables(folder: Path) -> None:
    """Writes the tables of a registry into the folder `tables`."""
    (folder / "tables").mkdir()
    for table, text in REGISTRY.items():
        (folder / "tables" / f"{table}.csv").write_text(text)


def write_deposits(folder: Path) -> None:
    """Writes the tables of a registry, and deposits of them of 2 and 5 August."""
    write_tables(folder)
    for day in ("2026-08-02", "2026-08-05"):
        (folder / part_name(day)).write_bytes(packed("full", day, tables=REGISTRY))


class Console:
    """A folder in which `escrow` and `deposit` are programs, with 1 MiB of noise as a part of 4 August, and the servers that
    were begun there."""

    def __init__(self, escrow: Path, deposit: Path, folder: Path):
        self.folder = folder
        self.servers: list[subprocess.Popen[str]] = []
        for name, program in ("escrow", escrow), ("deposit", deposit):
            (folder / name).symlink_to(os.path.relpath(program.resolve(), folder))
        (folder / part_name("2026-08-04")).write_bytes(random.Random(4).randbytes(1 << 20))
        self.environment = {**os.environ, "PATH": f"{folder}:{os.environ['PATH']}"}

    def begin(self, command: str) -> subprocess.Popen[str]:
        """Begins a command of bash, whose output and errors come as one text."""
        return begin(["bash", "-c", command], cwd=self.folder, env=self.environment, text=True, stdin=subprocess.DEVNULL,
                     stdout=subprocess.PIPE, stderr=subprocess.STDOUT)

    def answer(self, command: str) -> list[str]:
        """The lines that a command prints. A server prints one line, and stays until `wait`."""
        if command == "wait":
            return [line for it in self.servers for line in it.communicate(timeout=LIMIT)[0].splitlines()]
        if " & kill -9 $!" in command:
            return self.kill(command.split(" & ")[0])
        if command.endswith(" &"):
            server = self.begin(f"exec {command.removesuffix(' &')}")
            self.servers.append(server)
            return [server.stdout.readline().rstrip("\n")]
        return self.begin(command).communicate(timeout=LIMIT)[0].splitlines()

    def kill(self, put: str) -> list[str]:
        """Kills a put while it writes, and gives what it prints.

        If the part is recorded, the kill came too late: then the vault is put back and the kill tried again. So a
        transcript has one outcome.
        """
        vault, name = shlex.split(put)[2:4]
        for _ in range(100):
            with tempfile.TemporaryDirectory() as room:
                shutil.copytree(self.folder / vault, f"{room}/before")
                printed = self.killed(put, self.folder / vault / "vault.vol")
                shutil.copytree(self.folder / vault, f"{room}/after")
                if not any(name in line for line in self.answer(f"escrow state {room}/after")):
                    return printed
                shutil.copytree(f"{room}/before", self.folder / vault, dirs_exist_ok=True)
        return [*printed, "(a hundred kills came too late)"]

    def killed(self, put: str, volume: Path) -> list[str]:
        """Kills a put as soon as it has written to the volume."""
        before = volume.stat().st_mtime_ns
        process = self.begin(f"exec {put}")
        while volume.stat().st_mtime_ns == before and process.poll() is None:
            time.sleep(0.0002)
        process.kill()
        return process.communicate(timeout=LIMIT)[0].splitlines()

    def close(self) -> None:
        """Ends the servers that have not ended."""
        for server in self.servers:
            server.kill()
            server.wait()
