"""Whether a program can be recorded."""

from __future__ import annotations

import os
import shutil
import stat
import struct
from typing import Optional

PT_INTERP = 3


class CannotRecord(Exception):
    """The recorder would not see the calls of this program."""


def _interpreter(data: bytes) -> Optional[bytes]:
    """The path of the dynamic linker that a program of 64 bits names, or None if it is linked statically."""
    offset, size, count = struct.unpack_from("<Q", data, 32)[0], *struct.unpack_from("<HH", data, 54)
    for i in range(count):
        kind, _, at, _, _, length = struct.unpack_from("<IIQQQQ", data, offset + i * size)
        if kind == PT_INTERP:
            return data[at : at + length].rstrip(b"\0")
    return None


def _check_elf(path: str, data: bytes) -> None:
    if data[4:5] != b"\2":
        raise CannotRecord(f"{path} is a program of 32 bits")
    try:
        interpreter = _interpreter(data)
    except struct.error as fault:
        raise CannotRecord(f"{path} is no whole program") from fault
    if interpreter is None:
        raise CannotRecord(f"{path} is linked statically, so its calls of pthreads cannot be seen")
    if b"musl" in interpreter:
        raise CannotRecord(f"{path} is linked with musl; the recorder needs glibc")
    for sanitizer in (b"libasan.so", b"libtsan.so"):
        if sanitizer in data:
            raise CannotRecord(f"{path} is linked with {sanitizer.decode()}, which must be the first library; build it without a sanitizer")


def _check_rights(path: str) -> None:
    """The dynamic linker loads no recorder into a program that gets other rights than its caller has."""
    it = os.stat(path)
    gets_user = it.st_mode & stat.S_ISUID and it.st_uid != os.getuid()
    gets_group = it.st_mode & stat.S_ISGID and it.st_gid != os.getgid()
    try:
        gets_more = os.getuid() != 0 and bool(os.getxattr(path, "security.capability"))
    except OSError:
        gets_more = False
    if gets_user or gets_group or gets_more:
        raise CannotRecord(f"{path} is setuid, setgid or has capabilities, so the dynamic linker loads no recorder into it")


def check_program(name: str) -> None:
    """Raises CannotRecord with the reason, if the recorder would not see the calls."""
    path = shutil.which(name)
    if path is None:
        raise CannotRecord(f"{name} is not there, or is no program")
    for _ in range(4):  # scripts name their interpreters
        _check_rights(path)
        try:
            with open(path, "rb") as file:
                data = file.read()
        except OSError as fault:
            raise CannotRecord(f"{path}: {fault.strerror}, so it cannot be checked") from fault
        if data.startswith(b"\x7fELF"):
            return _check_elf(path, data)
        words = data.split(b"\n", 1)[0].decode(errors="replace")[2:].split() if data.startswith(b"#!") else []
        found = shutil.which(words[1] if len(words) > 1 and os.path.basename(words[0]) == "env" else words[0]) if words else None
        if not found:
            raise CannotRecord(f"{path} is no program that the system can start")
        path = found
    raise CannotRecord(f"{name} is a script whose interpreter is a script, and so on")
