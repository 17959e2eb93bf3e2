"""Runs a program, and counts its calls of malloc and realloc or refuses one of them, on Linux and x86-64.

A program has the addresses of these calls in a table of its own. As it begins, the table gets the address of a stub in place
of each. The stub counts down. At 0 it gives a null pointer; else it makes the call.
"""
import ctypes
import os
import platform
import shutil
import signal
import struct
import subprocess
from collections.abc import Iterator
from dataclasses import dataclass
from pathlib import Path
from typing import IO

CALLS = ("malloc", "realloc")

# dec qword ptr [rip + 41]; jz +6; jmp qword ptr [rip + 41]; xor eax, eax; ret
# The count stands behind it, and then the address of the call.
COUNT_AT = 48
STUB = bytes.fromhex("48ff0d29000000 7406 ff2529000000 31c0 c3").ljust(COUNT_AT, b"\x90")
STUB_SIZE = COUNT_AT + 16
PAGE = 4096

# Of the processor, of ptrace, of the system's calls, and of ELF.
BREAK, SYSCALL = b"\xcc", b"\x0f\x05"
TRACEME, CONT, SINGLESTEP, GETREGS, SETREGS, DETACH, SETOPTIONS, TRACEEXIT = 0, 7, 9, 12, 13, 17, 0x4200, 0x40
MMAP, READ_WRITE_EXECUTE, PRIVATE_ANONYMOUS, NO_FILE = 9, 7, 0x22, 2**64 - 1
RELA, GLOB_DAT, JUMP_SLOT = 4, 6, 7
AT_ENTRY = 9

LIBC = ctypes.CDLL(None, use_errno=True)
LIBC.ptrace.argtypes = (ctypes.c_long, ctypes.c_long, ctypes.c_void_p, ctypes.c_void_p)
LIBC.ptrace.restype = ctypes.c_long


class Registers(ctypes.Structure):
    NAMES = ("r15 r14 r13 r12 rbp rbx r11 r10 r9 r8 rax rcx rdx rsi rdi "
             "orig_rax rip cs eflags rsp ss fs_base gs_base ds es fs gs")
    _fields_ = [(name, ctypes.c_uint64) for name in NAMES.split()]


def ptrace(request: int, pid: int, data: object = None) -> None:
    if LIBC.ptrace(request, pid, None, data) < 0:
        raise OSError(ctypes.get_errno(), "ptrace")


class Elf:
    """A file of 64 bits in the format of programs."""

    def __init__(self, data: bytes):
        self.data = data
        (self.entry,), (table,) = self.unpack("<Q", 0x18), self.unpack("<Q", 0x28)
        size, count = self.unpack("<HH", 0x3A)
        self.sections = [self.unpack("<IIQQQQIIQQ", table + size * n) for n in range(count)]

    def unpack(self, form: str, at: int) -> tuple:
        return struct.unpack_from(form, self.data, at)

    def relocations(self) -> Iterator[tuple[str, int]]:
        """The names that are resolved as the program begins, and where their addresses go."""
        for _, kind, _, _, start, size, link, *_ in self.sections:
            if kind == RELA:
                _, _, _, _, symbols, _, strings, *_ = self.sections[link]
                for at in range(start, start + size, 24):
                    place, info = self.unpack("<QQ", at)
                    if info & 0xFFFFFFFF in (GLOB_DAT, JUMP_SLOT):
                        name = self.sections[strings][4] + self.unpack("<I", symbols + 24 * (info >> 32))[0]
                        yield self.data[name:self.data.index(b"\0", name)].decode(), place


@dataclass(frozen=True)
class Program:
    """A program with its words, and, as its file has them, the addresses of its first instruction and of its calls."""
    path: str
    words: tuple[str, ...]
    entry: int
    places: dict[str, int]

    @staticmethod
    def of(path: str | Path, *words: str) -> "Program":
        file = Elf(Path(path).read_bytes())
        return Program(str(path), words, file.entry, {name: place for name, place in file.relocations() if name in CALLS})


class Run:
    """One run of a program in a folder, with a count for each of its calls; it stands at its first instruction."""

    def __init__(self, program: Program, given: IO, output: IO, counts: dict[str, int], folder: str | None = None):
        self.program = program
        self.process = subprocess.Popen(
            [program.path, *program.words], stdin=given, stdout=output, stderr=subprocess.DEVNULL, cwd=folder,
            env={**os.environ, "LD_BIND_NOW": "1"}, preexec_fn=lambda: ptrace(TRACEME, 0))
        self.pid = self.process.pid
        self.memory = open(f"/proc/{self.pid}/mem", "r+b", buffering=0)
        self.stops()
        # The address of its first instruction.
        self.entry = dict(struct.iter_unpack("<QQ", Path(f"/proc/{self.pid}/auxv").read_bytes()))[AT_ENTRY]
        # It goes on until the libraries are there and the program begins.
        start = self.registers_after(BREAK, CONT)
        start.rip = self.entry
        self.room = self.room_for_stubs(start)
        for (call, place), stub in self.stubs():
            at = self.entry - program.entry + place
            self.write(stub, STUB + struct.pack("<q", counts.get(call, 0)) + self.read(at, 8))
            self.write(at, struct.pack("<Q", stub))

    def stops(self) -> None:
        _, status = os.waitpid(self.pid, 0)
        if not os.WIFSTOPPED(status) or os.WSTOPSIG(status) != signal.SIGTRAP:
            raise OSError(f"{self.program.path} does not stop where it should")

    def read(self, at: int, size: int) -> bytes:
        return os.pread(self.memory.fileno(), size, at)

    def write(self, at: int, data: bytes) -> None:
        os.pwrite(self.memory.fileno(), data, at)

    def registers_after(self, code: bytes, request: int) -> Registers:
        """Goes on with this code at the first instruction until it stops, and takes the code away again."""
        kept, found = self.read(self.entry, len(code)), Registers()
        self.write(self.entry, code)
        ptrace(request, self.pid)
        self.stops()
        self.write(self.entry, kept)
        ptrace(GETREGS, self.pid, ctypes.byref(found))
        return found

    def room_for_stubs(self, start: Registers) -> int:
        """A page of memory that the program maps for itself, for code and data."""
        call = Registers.from_buffer_copy(start)
        call.rax, call.rdi, call.rsi, call.rdx = MMAP, 0, PAGE, READ_WRITE_EXECUTE
        call.r10, call.r8, call.r9 = PRIVATE_ANONYMOUS, NO_FILE, 0
        ptrace(SETREGS, self.pid, ctypes.byref(call))
        room = self.registers_after(SYSCALL, SINGLESTEP).rax
        ptrace(SETREGS, self.pid, ctypes.byref(start))
        return room

    def stubs(self) -> Iterator[tuple[tuple[str, int], int]]:
        return zip(self.program.places.items(), range(self.room, self.room + PAGE, STUB_SIZE))

    def counts(self) -> dict[str, int]:
        """Goes on to the end, and gives how often each call was made where its count was 0."""
        ptrace(SETOPTIONS, self.pid, TRACEEXIT)
        ptrace(CONT, self.pid)
        self.stops()
        return {call: -struct.unpack("<q", self.read(stub + COUNT_AT, 8))[0] for (call, _), stub in self.stubs()}

    def end(self) -> int:
        """Goes on by itself, and gives the status. A run that takes too long is killed."""
        ptrace(DETACH, self.pid)
        self.memory.close()
        try:
            return self.process.wait(60)
        except subprocess.TimeoutExpired:
            self.process.kill()
            return self.process.wait()


def lacking() -> str:
    """What this machine lacks, or nothing."""
    if (platform.system(), platform.machine()) != ("Linux", "x86_64"):
        return "this is no Linux on x86-64"
    try:
        with open(os.devnull, "r+b") as null:
            Run(Program.of(shutil.which("true")), null, null, {}).end()
    except (OSError, subprocess.SubprocessError):
        return "no program may be traced"
    return ""
