"""The stacks of waits and holds, with the source lines around."""

from __future__ import annotations

import linecache
import os

from .grades import Stack
from .names import Names
from .report import say
from .symbols import Frame

MOST_FRAMES = 5
MOST_STACKS = 24


def frames_told(frames: list[Frame]) -> list[str]:
    """The frames up to main, and below the first one its source line with one line around."""
    told = []
    for i, frame in enumerate(frames[:MOST_FRAMES]):
        where = f"  {os.path.basename(frame.line)}" if frame.line else ""
        told.append(f"      #{i} {frame.function}{where}")
        if i == 0 and frame.line:
            told += lines_around(frame.line)
        if frame.function == "main":
            break
    return told


def lines_around(where: str) -> list[str]:
    path, _, number = where.rpartition(":")
    if not number.isdigit() or not os.path.isfile(path):
        return []
    told = []
    for at in range(int(number) - 1, int(number) + 2):
        text = linecache.getline(path, at).rstrip() if at > 0 else ""
        if text:
            told.append(f"      {'>' if at == int(number) else ' '} {at:5} {text[:120]}")
    return told


def tell_stacks(names: Names, stacks: list[Stack]) -> None:
    """Tells the stacks of a circle."""
    names.load(it.place.site for it in stacks)
    for it in stacks[:MOST_STACKS]:
        told = frames_told(names.frames(it.place))
        for line in [f"    {it.text}{', at the end of a wait' if it.place.woken else ''}:", *told] if told else []:
            say(line)
    if len(stacks) > MOST_STACKS:
        say(f"    .. and {len(stacks) - MOST_STACKS} more")
