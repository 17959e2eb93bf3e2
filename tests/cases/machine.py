"""A machine for a case: systemd in namespaces of its own, over this machine's files, whose changes vanish with it.

It has no network but 127.0.0.1, so that each port is free, and no service but its journal. It needs root.
"""
import contextlib
import os
import subprocess
import tempfile
import time
from collections.abc import Iterator, Sequence
from pathlib import Path

from lib import LIMIT, PRELUDE, TOP, Answer, Room, Skip, answer_of, begin

TOOLS = "nsenter setpriv systemctl unshare"
PATHS = "/usr/local/sbin:/usr/local/bin:/usr/sbin:/usr/bin:/sbin:/bin"
# Joins the control group $0, and starts INIT in new namespaces, which end when this process or the one above it does.
START = """echo $$ > "$0"/cgroup.procs
exec setpriv --pdeathsig KILL unshare --mount --pid --fork --kill-child --net --uts --ipc --cgroup bash -euc "$@" """
# Becomes systemd, without what could change the clock or the kernel. Its root is made in the folder $0: all files of this
# machine, of which it changes a copy in memory, and the folders that follow, which it cannot change.
INIT = f"""
mount -t tmpfs -o mode=755 tmpfs "$0"
cd "$0"
mkdir upper work root
mount -t overlay -o "lowerdir=/,upperdir=$0/upper,workdir=$0/work" overlay root
cd root
mount -t proc proc proc
mount --bind proc/sys proc/sys
mount -o remount,bind,ro proc/sys
mount -t sysfs -o ro sysfs sys
mount -t cgroup2 cgroup2 sys/fs/cgroup
for folder in dev run tmp var/tmp; do mount -t tmpfs -o mode=755 tmpfs $folder; done
chmod 1777 tmp var/tmp
for device in full null random tty urandom zero; do touch dev/$device; mount --bind /dev/$device dev/$device; done
ln -s /proc/self/fd dev/fd
ln -s pts/ptmx dev/ptmx
mkdir dev/shm
mount -t tmpfs -o mode=1777 tmpfs dev/shm
for folder; do
    mkdir -p ".$folder"
    mount --bind "$folder" ".$folder"
    mount -o remount,bind,ro ".$folder"
done
rm -rf {{,usr/}}lib/systemd/{{system/*.wants,system-generators}} etc/systemd/system/*
echo 00000000000000000000000000000001 > etc/machine-id
printf '[Unit]\\nRequires=systemd-journald.service timers.target\\n' > etc/systemd/system/machine.target
mkdir old
pivot_root . old
umount -l old
exec env -i container=other PATH={PATHS} setpriv \\
    --bounding-set=-audit_control,-audit_read,-sys_boot,-sys_module,-sys_rawio,-sys_time,-syslog,-wake_alarm \\
    /lib/systemd/systemd --unit=machine.target --show-status=no"""


class Machine(Room):
    """A room whose commands root runs in a machine, by these words."""

    def __init__(self, room: Room, words: Sequence[str]):
        super().__init__(room.program, room.folder)
        self.words, self.environment = words, {"HOME": "/root", "LC_ALL": "C", "PATH": PATHS}

    def run(self, command: str) -> Answer:
        return answer_of([*self.words, "bash", "-c", f"{PRELUDE}cd\n{command}"], environment=self.environment)

    def comes(self, command: str, *wanted: str) -> None:
        """Checks that a command comes to print these lines."""
        end = time.monotonic() + LIMIT
        while (got := self.run(command).lines()) != [*wanted] and time.monotonic() < end:
            time.sleep(0.2)
        self.equal([*wanted], got, f"$ {command}")


@contextlib.contextmanager
def control_group(name: str) -> Iterator[Path]:
    """A control group, which vanishes with those in it when their processes have ended."""
    mounts = [line.split() for line in Path("/proc/self/mounts").read_text().splitlines()]
    tops = [it[1] for it in mounts if it[2] == "cgroup2"]
    paths = [it[3:] for it in Path("/proc/self/cgroup").read_text().splitlines() if it.startswith("0::")]
    if not tops or not paths:
        raise Skip("there are no control groups of version 2")
    group = Path(f"{tops[0]}{paths[0]}", name)
    try:
        group.mkdir()
    except OSError as error:
        raise Skip(f"no control group can be made: {error}") from None
    try:
        yield group
    finally:
        end = time.monotonic() + LIMIT
        while group.exists() and time.monotonic() < end:
            with contextlib.suppress(OSError):
                for folder, _, _ in os.walk(group, topdown=False):
                    os.rmdir(folder)


def words_for(process: subprocess.Popen) -> list[str]:
    """The words that run a command in the machine of this process, once its systemd has started."""
    end = time.monotonic() + LIMIT
    while process.poll() is None and time.monotonic() < end:
        time.sleep(0.1)
        with contextlib.suppress(OSError):
            [first] = Path(f"/proc/{process.pid}/task/{process.pid}/children").read_text().split() or [""]
            if first and Path(f"/proc/{first}/comm").read_text() == "systemd\n":
                words = ["nsenter", "--all", "--target", first]
                if answer_of([*words, "systemctl", "is-system-running"]).out in (b"running\n", b"degraded\n"):
                    return words
    return []


@contextlib.contextmanager
def machine(room: Room) -> Iterator[Machine]:
    """A machine that has started. The repository, the program and the room are where they are on this one."""
    if os.geteuid():
        raise Skip("only root can make a machine of its own")
    above = room.folder.parent
    root = above / "machine"
    root.mkdir()
    with control_group(f"escrow-{above.name}") as group, tempfile.TemporaryFile("w+") as log:
        words = ["bash", "-c", START, group, INIT, root, TOP, room.program.parent, above]
        process = begin(words, stdin=subprocess.DEVNULL, stdout=log, stderr=log)
        try:
            inside = words_for(process)
            if not inside:
                log.seek(0)
                raise Skip(f"no machine of its own can be made: {log.read()[-400:]!r}")
            made = Machine(room, inside)
            yield made
            room.checks += made.checks
        finally:
            process.kill()
            process.wait()
