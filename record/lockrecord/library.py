"""Builds the recorder."""

from __future__ import annotations

import fcntl
import glob
import hashlib
import os
import shutil
import subprocess
from concurrent.futures import ThreadPoolExecutor

from .program import CannotRecord

NAME = "liblockrecord.so"
FLAGS = ["-std=c11", "-O1", "-fPIC", "-fvisibility=hidden", "-fexceptions"]
UNITS = ("calls", "hooks", "record")


def _is_stale(path: str, sources: list[str]) -> bool:
    return not os.path.exists(path) or any(os.stat(it).st_mtime_ns > os.stat(path).st_mtime_ns for it in sources)


def library(root: str) -> str:
    """The path of liblockrecord.so. It is built where it is not there or a source is newer: beside its sources, or in the user's cache
    if nothing can be written there."""
    folder = os.path.join(root, "record")
    sources = sorted([*glob.glob(os.path.join(folder, "src", "**", "*.[ch]"), recursive=True), os.path.join(folder, "lockrecord.h")])
    own = os.path.join(folder, "out", NAME)
    if not _is_stale(own, sources):
        return _checked(own)
    try:
        return _built(folder, _checked(own), sources)
    except OSError:
        cache = os.environ.get("XDG_CACHE_HOME") or os.path.join(os.path.expanduser("~"), ".cache")
        kept = os.path.join(cache, "proved-locks", f"record-{_sum(sources)}", NAME)
        return _checked(kept) if os.path.exists(kept) else _built(folder, _checked(kept), sources)


def _checked(path: str) -> str:
    if " " in path or ":" in path:
        raise CannotRecord(f"the dynamic linker takes no library whose path has a space or a colon: {path}")
    return path


def _sum(sources: list[str]) -> str:
    all_bytes = hashlib.sha256()
    for it in sources:
        with open(it, "rb") as file:
            all_bytes.update(file.read())
    return all_bytes.hexdigest()[:16]


def _built(folder: str, path: str, sources: list[str]) -> str:
    os.makedirs(os.path.dirname(path), exist_ok=True)
    with open(os.path.join(os.path.dirname(path), "lock"), "w", encoding="utf-8") as lock:
        fcntl.flock(lock, fcntl.LOCK_EX)  # several commands may begin at once
        if _is_stale(path, sources):
            _build(folder, path)
    return path


def _build(folder: str, path: str) -> None:
    """Compiles the units at once, and links them."""
    compiler = shutil.which("gcc") or "cc"
    objects = {it: f"{path}.{it}.{os.getpid()}.o" for it in UNITS}
    new = f"{path}.{os.getpid()}"
    words = [[compiler, *FLAGS, "-c", "-o", objects[it], os.path.join(folder, "src", "units", f"{it}.c")] for it in UNITS]
    try:
        with ThreadPoolExecutor() as pool:
            list(pool.map(_run, words))
        _run([compiler, "-shared", "-Wl,-z,now", "-o", new, *objects.values(), "-lpthread", "-ldl"])
        os.replace(new, path)
    finally:
        for it in [*objects.values(), new]:
            if os.path.exists(it):
                os.remove(it)


def _run(words: list[str]) -> None:
    try:
        ran = subprocess.run(words, capture_output=True, text=True, check=False)
    except FileNotFoundError as fault:
        raise CannotRecord(f"the recorder cannot be built: {words[0]} is not there") from fault
    if ran.returncode:
        raise CannotRecord(f"the recorder cannot be built: {ran.stderr.strip() or words[0] + ' failed'}")
