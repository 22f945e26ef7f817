"""Where plans are written. A plan that a person has changed stays."""

from __future__ import annotations

import glob
import hashlib
import os
import re
import tempfile
from typing import Optional

from .report import say

MARK = "# Written by lockrecord ({}). A changed plan stays as it is.\n"
_room: Optional[str] = None  # for plans whose folder cannot be written
_told: set[str] = set()


def _say_once(text: str) -> None:
    if text not in _told:
        _told.add(text)
        say(text)


def _marked(text: str) -> str:
    return text + MARK.format(hashlib.sha256(text.encode()).hexdigest()[:12])


def _is_own(path: str) -> bool:
    """Whether lockrecord wrote the file, and nobody has changed it since."""
    try:
        with open(path, encoding="utf-8") as file:
            text = file.read()
    except (OSError, UnicodeDecodeError):
        return False
    above = text[: text.rstrip("\n").rfind("\n") + 1]
    return text == _marked(above)


def remove_old(name: str) -> None:
    """Removes what an earlier run wrote about the same program."""
    for path in glob.glob(glob.escape(name) + "*.plan"):
        if re.fullmatch(r"((\.[\w-]+)?\.\d+(\.\d+)?)?(\.joins)?(-\d+)?(\.circle)?(\.new\d*)?\.plan", path[len(name) :]) and _is_own(path):
            try:
                os.remove(path)
            except OSError:
                pass


def _unused(path: str) -> str:
    stem = path.removesuffix(".plan")
    count = 1
    while os.path.exists(path) and not _is_own(path):
        path = f"{stem}.new{count if count > 1 else ''}.plan"
        count += 1
    return path


def write_plan(path: str, text: str) -> str:
    """Writes a plan, with a last line that tells whether it was changed, and returns where it is."""
    free = _unused(path)
    if free != path:
        _say_once(f"{path} was changed, so that it stays: this plan is {free}")
    try:
        with open(free, "w", encoding="utf-8") as file:
            file.write(_marked(text))
        return free
    except OSError as fault:
        return _write_elsewhere(path, text, fault)


def _write_elsewhere(path: str, text: str, fault: OSError) -> str:
    global _room
    if _room is None:
        _room = tempfile.mkdtemp(prefix="lockrecord-plans-")
    other = os.path.join(_room, os.path.basename(path))
    _say_once(f"{path}: {fault.strerror}: this plan is {other}")
    with open(other, "w", encoding="utf-8") as file:
        file.write(_marked(text))
    return other
