"""A running process, as /proc shows it: its threads, the system calls in which they wait, and its memory."""

from __future__ import annotations

import os
import platform
import re
import struct
from dataclasses import dataclass
from typing import NamedTuple, Optional

from .record_file import LOADED, Module

FUTEX, RESTART = 202, 219
WAIT, LOCK_PI, WAIT_BITSET, WAIT_REQUEUE_PI, LOCK_PI2 = 0, 6, 9, 11, 13
PRIVATE, COMMAND = 128, 127
CALLS = {
    0: "read", 1: "write", 7: "poll", 23: "select", 34: "pause", 35: "nanosleep", 43: "accept", 45: "recvfrom", 47: "recvmsg", 61: "wait4", 72: "fcntl",
    73: "flock", 128: "rt_sigtimedwait", 130: "rt_sigsuspend", 219: "restart_syscall", 230: "clock_nanosleep", 232: "epoll_wait", 247: "waitid",
    270: "pselect6", 271: "ppoll", 281: "epoll_pwait", 288: "accept4",
}  # fmt: skip


class CannotRead(Exception):
    """The process is not there, or may not be looked at."""


class Call(NamedTuple):
    """A system call in which a thread is."""

    number: int
    args: tuple[int, ...]
    sp: int
    pc: int


@dataclass
class Thread:
    tid: int
    inner: int  # its number within the container
    name: str
    call: Optional[Call]  # None: it runs


def _explained(pid: int, fault: OSError) -> CannotRead:
    if isinstance(fault, (FileNotFoundError, ProcessLookupError)):
        return CannotRead(f"there is no process {pid}")
    why = f"process {pid} may not be looked at: this needs the rights of a debugger, which are those of its user, or root"
    try:
        with open("/proc/sys/kernel/yama/ptrace_scope", encoding="utf-8") as file:
            scope = file.read().strip()
    except OSError:
        scope = "0"
    if scope != "0":
        why += f"; /proc/sys/kernel/yama/ptrace_scope is {scope}, so that only root may look at a process that it did not start"
    return CannotRead(why + "; in a container it needs the capability SYS_PTRACE")


class Process:
    def __init__(self, pid: int) -> None:
        self.pid = pid
        try:
            self.name = self._text("comm").strip()
            self._check()
            self._memory = open(f"/proc/{pid}/mem", "rb", buffering=0)  # noqa: SIM115
            self.modules, self.code = self._modules()
            self.threads()
        except OSError as fault:
            raise _explained(pid, fault) from fault

    def _text(self, name: str) -> str:
        with open(f"/proc/{self.pid}/{name}", encoding="utf-8", errors="replace") as file:
            return file.read()

    def _check(self) -> None:
        with open(f"/proc/{self.pid}/exe", "rb") as file:
            head = file.read(20)
        if platform.machine() != "x86_64" or head[4:5] != b"\2" or head[18:20] != b"\x3e\0":
            raise CannotRead(f"process {self.pid} is no program for x86-64")

    def _modules(self) -> tuple[list[Module], list[tuple[int, int]]]:
        """The files whose code is mapped, the program first, and where code is. In a container, the files are below /proc/PID/root."""
        program = os.readlink(f"/proc/{self.pid}/exe")
        with open(f"/proc/{self.pid}/exe", "rb") as file:
            is_fixed = file.read(18)[16:17] == b"\2"  # its addresses are those of the file
        lots: list[tuple[str, int, int, bool]] = []  # neighbors of one file: its path, start and end, and whether it has code
        code = []
        for line in self._text("maps").split("\n"):
            words = line.split(None, 5)
            if len(words) < 5:
                continue
            start, end = (int(it, 16) for it in words[0].split("-"))
            path, has_code = words[5] if len(words) > 5 else "", "x" in words[1]
            if has_code:
                code.append((start, end))
            if lots and (path == lots[-1][0] or (not path and start == lots[-1][2])):  # also what follows the data of a file
                lots[-1] = (lots[-1][0], lots[-1][1], end, lots[-1][3] or has_code)
            elif path.startswith("/"):
                lots.append((path, start, end, has_code))
        modules = []
        for path, start, end, has_code in lots:
            if has_code:
                modules.append(Module(0 if is_fixed and path == program else start, end, 0, LOADED, self._file(path, program)))
        modules.sort(key=lambda it: it.path != f"/proc/{self.pid}/exe")
        return modules, code

    def _file(self, path: str, program: str) -> str:
        if path == program:
            return f"/proc/{self.pid}/exe"
        inside = f"/proc/{self.pid}/root{path}"
        return inside if os.path.exists(inside) else path

    def read(self, address: int, size: int) -> bytes:
        """Memory, or nothing where there is none."""
        try:
            return os.pread(self._memory.fileno(), size, address)
        except (OSError, OverflowError):
            return b""

    def words(self, address: int, form: str) -> tuple[int, ...]:
        data = self.read(address, struct.calcsize(form))
        return struct.unpack(form, data) if len(data) == struct.calcsize(form) else ()

    def threads(self) -> dict[int, Thread]:
        """The threads by their numbers within the container, which are those that locks keep."""
        found = {}
        for tid in sorted(int(it) for it in os.listdir(f"/proc/{self.pid}/task")):
            try:
                name = self._text(f"task/{tid}/comm").strip()
                numbers = re.search(r"^NSpid:\s(.*)$", self._text(f"task/{tid}/status"), re.M)
                call = _call(self._text(f"task/{tid}/syscall"))
            except (FileNotFoundError, ProcessLookupError):
                continue  # it has ended meanwhile
            inner = int(numbers[1].split()[-1]) if numbers else tid
            found[inner] = Thread(tid, inner, name, call)
        return found


def _call(text: str) -> Optional[Call]:
    words = text.split()
    if len(words) < 9:
        return None
    return Call(int(words[0]), tuple(int(it, 16) for it in words[1:7]), int(words[7], 16), int(words[8], 16))
