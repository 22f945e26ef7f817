"""What the command tells. Standard output is the program's own."""

from __future__ import annotations

import os
import re
import sys
import time
from typing import Optional, TextIO

_stream: TextIO = sys.stderr
_last = time.monotonic()
_held: Optional[list[str]] = None  # the lines of a report whose first line is not known yet
_is_silent = False
EVERY = 2.0  # seconds between two lines of progress
COLOURS = {"confirmed": 31, "deadlock": 31, "possible": 33, "unchecked": 33, "no answer": 33, "no deadlock": 32, "warning": 33}


def to(stream: TextIO) -> None:
    """Sends the report to a file."""
    global _stream
    _stream = stream


def be_silent() -> None:
    """Nothing is told but by `tell`."""
    global _is_silent
    _is_silent = True


def begin() -> None:
    """Progress is told of steps that take long from here on."""
    global _last
    _last = time.monotonic()


def _painted(text: str) -> str:
    if not _stream.isatty() or os.environ.get("NO_COLOR") or os.environ.get("TERM") == "dumb":
        return text
    return re.sub(rf"^(\S+: (?:\S+: )?)({'|'.join(COLOURS)})\b", lambda it: f"{it[1]}\33[1;{COLOURS[it[2]]}m{it[2]}\33[0m", text)


def tell(text: str) -> None:
    """Prints a line at once. A reader that has gone is no fault of the program."""
    global _last
    _last = time.monotonic()
    try:
        print(_painted(text), file=_stream, flush=True)
    except BrokenPipeError:
        to(open(os.devnull, "w", encoding="utf-8"))  # noqa: SIM115


def say(text: str = "") -> None:
    """A line of the report."""
    if _held is not None:
        _held.append(text)
    elif not _is_silent:
        tell(text)


def hold() -> None:
    """Keeps the lines that come, until `held` takes them."""
    global _held
    _held = []


def held() -> list[str]:
    global _held
    lines, _held = _held or [], None
    return lines


def progress(what: str, done: int, whole: int) -> None:
    """Tells how far a step has come, if nothing was told for a while."""
    if done and time.monotonic() - _last >= EVERY and not _is_silent:
        tell(f"lockrecord: {what}: {done} of {whole}")


class Deadline:
    """The time that a search of lockrecord itself has."""

    def __init__(self, seconds: float) -> None:
        self._end = time.monotonic() + seconds

    @property
    def is_over(self) -> bool:
        return time.monotonic() >= self._end
