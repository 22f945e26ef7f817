"""Names of addresses, by addr2line and nm."""

from __future__ import annotations

import bisect
import os
import re
import subprocess
from collections import defaultdict
from typing import NamedTuple, Optional

from .record_file import LOADED, Module
from .report import progress

LIBRARY = re.compile(
    r"/rustc/|/library/(std|core|alloc)/|/include/c\+\+/|gthr-default|lock_api|/proved_lock[^/]*/src/|\bproved_lock\.h|/glibc|/nptl/|\.\./sysdeps|/csu/|libc-start|pthread_create\.c|clone3?\.S"
)
TRIES_ALL = re.compile(r"std::(?:\w+::)*(?:lock|scoped_lock|__lock_impl|__lock_first)<")  # they wait for one lock, and try the others
WRAPPER = re.compile(r"libstdc\+\+|libc\+\+|<?&?(?:std|core|alloc)::|__rust_|__gthread|<?lock_api::|<?proved_lock::|CRYPTO_THREAD_|__libc|libc\.so|ld-linux|start_thread|__clone|clone3?$|__pthread_once|__GI___sigaction|__restore_rt|_start$")


def short(function: str) -> str:
    """The name of a function without its parameters."""
    function = function.replace("(anonymous namespace)", "{anonymous}")
    function = re.sub(r"\{lambda\([^{}]*\)#(\d+)\}", r"{lambda#\1}", function)
    at = function.find("operator()")
    return function[: at + 10] if at >= 0 else re.sub(r"\(.*", "", function)


class Frame(NamedTuple):
    function: str
    line: Optional[str]  # FILE:LINE


class Symbol(NamedTuple):
    at: int
    size: int
    name: str
    is_code: bool


def _run(words: list[str], asked: Optional[str] = None) -> list[str]:
    """The lines that a tool prints, or none without the tool."""
    try:
        return subprocess.run(words, input=asked, capture_output=True, text=True, errors="replace", check=False).stdout.split("\n")
    except OSError:
        return []


class Symbols:
    def __init__(self, modules: list[Module]) -> None:
        self._modules = modules
        self._lines: dict[tuple[int, int], list[Frame]] = {}  # (address, base) -> its frames, the innermost first
        self._tables: dict[str, list[Symbol]] = {}

    def module(self, addr: int, epoch: int = LOADED) -> Optional[Module]:
        """The module that had this address after so many unloads of modules."""
        for it in self._modules:
            if it.base <= addr < it.end and (it.first <= epoch <= it.last or epoch == LOADED == it.last):
                return it
        return None

    def is_program(self, module: Module) -> bool:
        return module == self._modules[0]

    def load(self, addrs: list[tuple[int, int]]) -> None:
        """Finds the lines of many (address, epoch) at once: a call of addr2line for each module."""
        by: dict[Module, set[int]] = defaultdict(set)
        for addr, epoch in addrs:
            module = self.module(addr, epoch)
            if module and (addr, module.base) not in self._lines:
                by[module].add(addr)
        for i, (module, them) in enumerate(by.items()):
            progress("finding source lines, modules", i, len(by))
            if os.path.isfile(module.path):
                self._load_module(module, sorted(them))

    def _load_module(self, module: Module, addrs: list[int]) -> None:
        with open(module.path, "rb") as file:
            is_fixed = file.read(18)[16:17] == b"\2"  # not position independent: its addresses are absolute
        asked = "\n".join(hex(it if is_fixed else it - module.base) for it in addrs)
        groups: list[list[str]] = []
        for line in _run(["addr2line", "-a", "-i", "-f", "-C", "-e", module.path], asked):
            if re.match(r"0x[0-9a-f]+$", line):
                groups.append([])
            elif line:
                groups[-1].append(line)
        for addr, lines in zip(addrs, groups):
            frames = [self._frame(module, addr, *pair) for pair in zip(lines[::2], lines[1::2])]
            if frames and frames[-1].function == "operator()":  # of a lambda: the symbol says which one
                found = self._find(module.path, addr if is_fixed else addr - module.base, True)
                frames[-1] = frames[-1]._replace(function=short(found[0].name)) if found else frames[-1]
            self._lines[addr, module.base] = frames

    def _frame(self, module: Module, addr: int, function: str, where: str) -> Frame:
        where = where.split(" ")[0]
        if function == "??" or where.startswith("??"):  # without line numbers addr2line takes any symbol before
            found = self._find(module.path, addr - module.base, True)
            function = found[0].name if found else f"{os.path.basename(module.path)}+{addr - module.base:#x}"
        is_known = not (where.startswith("??") or where.endswith((":0", ":?")))
        return Frame(short(function), where if is_known else None)

    def _table(self, path: str) -> list[Symbol]:
        if path not in self._tables:
            found = set()
            for flags in ("-nSC", "-nSCD"):
                for line in _run(["nm", flags, "--defined-only", path]):
                    m = re.match(r"([0-9a-f]+) ([0-9a-f]+) (\w) (.*)", line)
                    if m:
                        found.add(Symbol(int(m[1], 16), int(m[2], 16), m[4].split("@")[0], m[3] in "tTwWiu"))
            self._tables[path] = sorted(found)
        return self._tables[path]

    def _find(self, path: str, offset: int, is_code: bool) -> Optional[tuple[Symbol, int]]:
        """The symbol that holds an offset, and how far in it is."""
        table = self._table(path)
        for it in reversed(table[: bisect.bisect_right(table, (offset, 1 << 62))]):
            if it.at <= offset < it.at + it.size and it.is_code == is_code:
                return it, offset - it.at
            if offset - it.at > 1 << 24:
                break
        return None

    def _told(self, addr: int, epoch: int) -> list[Frame]:
        module = self.module(addr, epoch)
        unknown = f"{os.path.basename(module.path)}+{addr - module.base:#x}" if module else f"{addr:#x}"
        return self._lines.get((addr, module.base if module else 0), [Frame(unknown, None)])

    def has_library(self, name: str, addr: int, epoch: int = LOADED) -> bool:
        """Whether the address lies in a library whose file name begins so."""
        module = self.module(addr, epoch)
        return module is not None and os.path.basename(module.path).startswith(name)

    def all_frames(self, addresses: tuple[int, ...], epoch: int = LOADED) -> list[Frame]:
        """The frames of return addresses, with what was inlined and with the wrappers of libraries."""
        self.load([(it - 1, epoch) for it in addresses])
        return [frame for it in addresses for frame in self._told(it - 1, epoch)]

    def frames(self, addresses: tuple[int, ...], epoch: int = LOADED) -> list[Frame]:
        """The frames of return addresses, with what was inlined, without the wrappers of libraries if that leaves any."""
        self.load([(it - 1, epoch) for it in addresses])
        told = [frame for it in addresses if not self.has_library("liblockrecord.so", it, epoch) for frame in self._told(it - 1, epoch)]
        own = [it for it in told if not (it.line and LIBRARY.search(it.line)) and not WRAPPER.match(it.function)]
        return own or told[:1] or [Frame("?", None)]

    def function(self, addr: int) -> str:
        """The function that begins at an address, in a module that may be unloaded."""
        epoch = next((it.last for it in reversed(self._modules) if it.base <= addr < it.end), LOADED)
        self.load([(addr, epoch)])
        return self._told(addr, epoch)[-1].function

    def datum(self, addr: int, size: int) -> Optional[str]:
        """The name of a static object of this size, or of the element of a static array. Of size 0, it may lie anywhere in the object."""
        module = self.module(addr)
        if not module:
            return None
        found = self._find(module.path, addr - module.base, False)
        if not found:
            return f"{os.path.basename(module.path)}-{addr - module.base:x}"
        symbol, at = found
        if size == 0:
            return f"{symbol.name}-{at:x}" if at else symbol.name
        if symbol.size <= size or (at == 0 and symbol.size % size):
            return symbol.name
        return f"{symbol.name}.{at // size + 1}" if at % size == 0 and symbol.size % size == 0 else f"{symbol.name}-{at:x}"
