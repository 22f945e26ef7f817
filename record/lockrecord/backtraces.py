"""The stacks of a running process: by eu-stack or gdb, which stop it for a moment, or by what its stacks' memory shows."""

from __future__ import annotations

import os
import re
import shutil
import subprocess

from .process import Process, Thread
from .record_file import LOADED
from .symbols import Frame, Symbols, short

SECONDS = 60
BY_MEMORY = "the memory of their stacks; with gdb or eu-stack they would be sure"
MOST_WORDS = 1024  # of a stack that are looked at


def _ran(words: list[str]) -> str:
    try:
        env = {**os.environ, "DEBUGINFOD_URLS": "", "LC_ALL": "C"}
        return subprocess.run(words, stdin=subprocess.DEVNULL, capture_output=True, text=True, errors="replace", timeout=SECONDS, check=False, env=env).stdout
    except (OSError, subprocess.TimeoutExpired):
        return ""


def _plain(function: str) -> str:
    return re.sub(r"@@?[A-Z]\S*$", "", function).strip()


def _by_gdb(pid: int) -> dict[int, list[Frame]]:
    found: dict[int, list[Frame]] = {}
    frames: list[Frame] = []
    words = ["gdb", "-nx", "-batch", "-iex", "set auto-load off", "-iex", "set debuginfod enabled off", "-p", str(pid)]
    words += ["-ex", "set width 0", "-ex", "set print frame-arguments none", "-ex", "set filename-display absolute", "-ex", "thread apply all bt 24"]
    for line in _ran(words).split("\n"):
        thread = re.match(r"Thread \d+ \(.*LWP (\d+)", line) or re.match(r"Thread \d+ \(process (\d+)", line)
        if thread:
            frames = found.setdefault(int(thread[1]), [])
        frame = re.match(r"#\d+\s+(?:0x[0-9a-f]+ in )?(.+?) \(.*?\)(?: at (\S+:\d+)| from \S+)?$", line)
        if frame:
            frames.append(Frame(short(frame[1]), frame[2]))
    return found


def _by_elfutils(pid: int, symbols: Symbols) -> dict[int, list[Frame]]:
    """The addresses by eu-stack, with what was inlined there. Where lockrecord has no name, that of eu-stack."""
    stacks: dict[int, list[tuple[int, str]]] = {}
    stack: list[tuple[int, str]] = []
    for line in _ran(["eu-stack", "-n", "24", "-p", str(pid)]).split("\n"):
        thread, frame = re.match(r"TID (\d+):", line), re.match(r"#\d+\s+0x([0-9a-f]+)(?: - \d+)?\s*(.*)", line)
        if thread:
            stack = stacks.setdefault(int(thread[1]), [])
        elif frame:
            stack.append((int(frame[1], 16), short(_plain(frame[2]))))
    symbols.load([(at - 1, LOADED) for it in stacks.values() for at, _ in it])
    found: dict[int, list[Frame]] = {tid: [] for tid in stacks}
    for tid, it in stacks.items():
        for at, name in it:
            frames = symbols.all_frames((at,))
            is_unknown = len(frames) == 1 and not frames[0].line and "+0x" in frames[0].function
            found[tid] += [Frame(name, None)] if is_unknown and name else frames
    return found


def _follows_a_call(code: bytes) -> bool:
    """Whether the bytes before an address end with an instruction that calls."""
    return code[-5:-4] == b"\xe8" or any(code[-n:-n + 1] == b"\xff" and code[-n + 1] & 0x38 == 0x10 for n in (2, 3, 4, 6, 7))


def _by_memory(process: Process, thread: Thread, symbols: Symbols) -> list[Frame]:
    """The return addresses that lie on the stack, which may be older than the calls that wait."""
    if not thread.call:
        return []
    addresses = [thread.call.pc]
    stack = process.read(thread.call.sp, 8 * MOST_WORDS) or process.read(thread.call.sp, 4096 - thread.call.sp % 4096)
    for at in range(0, len(stack) - 7, 8):
        word = int.from_bytes(stack[at : at + 8], "little")
        if any(start < word <= end for start, end in process.code) and _follows_a_call(process.read(word - 7, 7)):
            addresses.append(word)
        if len(addresses) == 16:
            break
    return symbols.all_frames(tuple(addresses))


def backtraces(process: Process, threads: list[Thread], symbols: Symbols) -> tuple[dict[int, list[Frame]], str]:
    """The frames of each thread, the innermost first, and how they were found."""
    for tool in ("eu-stack", "gdb"):
        if shutil.which(tool):
            found = _by_gdb(process.pid) if tool == "gdb" else _by_elfutils(process.pid, symbols)
            if any(len(it) > 1 for it in found.values()):
                return found, tool
    return {it.tid: _by_memory(process, it, symbols) for it in threads}, BY_MEMORY
