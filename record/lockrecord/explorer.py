"""Asks lockexplore about a plan."""

from __future__ import annotations

import re
import subprocess
from typing import NamedTuple


class Answer(NamedTuple):
    text: str  # empty without an answer
    fault: str
    is_late: bool  # no answer in the time or memory that it had
    is_missing: bool = False  # lockexplore does not run here

    @property
    def is_free(self) -> bool:
        """Whether no interleaving deadlocks. `no order` says nothing of that."""
        return self.text.startswith("no deadlock")

    @property
    def is_stop(self) -> bool:
        return self.text.startswith(("deadlock", "refused", "assertion"))

    @property
    def first(self) -> str:
        line = self.text.split("\n")[0]
        return line if len(line) < 400 else line[:400] + " .."

    @property
    def lines(self) -> list[tuple[int, str]]:
        """The lines below the first, each with the number of the plan's line that it is about, or 0."""
        found = []
        for line in self.text.rstrip("\n").split("\n")[1:]:
            numbered = re.match(r"(\d+): (.*)", line)
            found.append((int(numbered[1]), numbered[2]) if numbered else (0, line))
        return found


class Explorer:
    def __init__(self, program: str, seconds: int, mebibytes: int) -> None:
        self.program, self.seconds, self._bytes = program, seconds, mebibytes << 20

    def ask(self, path: str, by_order: bool, seconds: int = 0) -> Answer:
        seconds = seconds or self.seconds
        words = ["order"] if by_order else ["lines", "--memory", str(self._bytes), "--seconds", str(seconds)]
        try:
            ran = subprocess.run(
                [self.program, *words, path],
                stdin=subprocess.DEVNULL,
                capture_output=True,
                text=True,
                timeout=seconds + 2,
                check=False,
            )
        except subprocess.TimeoutExpired:
            return Answer("", f"no answer in {seconds} seconds", True)
        except OSError as fault:
            return Answer("", f"{self.program}: {fault.strerror}", False, True)
        if ran.returncode in (0, 3) and ran.stdout:
            return Answer(ran.stdout, "", False)
        why = ran.stderr.strip().split("\n")[0] or f"{self.program} ended with status {ran.returncode}"
        is_late = any(it in why for it in ("out of memory", "out of time", "too many states", "input too long"))
        return Answer("", why, is_late, not is_late and ran.returncode not in (1, 2))

    def picture(self, path: str) -> str:
        """The answer as SVG, or nothing."""
        words = [self.program, "svg", "--memory", str(self._bytes), "--seconds", str(self.seconds), path]
        try:
            ran = subprocess.run(words, stdin=subprocess.DEVNULL, capture_output=True, text=True, timeout=self.seconds + 2, check=False)
        except (subprocess.TimeoutExpired, OSError):
            return ""
        return ran.stdout if ran.returncode in (0, 3) else ""
