"""How sure an answer is, and what it rests on."""

from __future__ import annotations

import enum
from dataclasses import dataclass, field
from typing import Any

from .names import Names
from .record_file import Place


class Grade(enum.IntEnum):
    """The worst answer of several is the greatest."""

    NONE = 0
    NO_ANSWER = 1
    UNCHECKED = 2
    POSSIBLE = 3
    DEADLOCK = 4
    CONFIRMED = 5


WORDS = {
    Grade.NONE: "no deadlock",
    Grade.NO_ANSWER: "no answer",
    Grade.UNCHECKED: "unchecked",
    Grade.POSSIBLE: "possible",
    Grade.DEADLOCK: "deadlock",
    Grade.CONFIRMED: "confirmed",
}
FAILED = 125  # of lockrecord itself
STATUS = {Grade.NONE: 0, Grade.NO_ANSWER: FAILED, Grade.UNCHECKED: 5, Grade.POSSIBLE: 4, Grade.DEADLOCK: 3, Grade.CONFIRMED: 3}


@dataclass
class Step:
    """A line of an answer, with the plan's line and the source line that it is about."""

    text: str
    line: int
    source: str


@dataclass
class Stack:
    """Where a thread holds a lock, or waits for one."""

    text: str
    place: Place
    waits: bool


@dataclass
class Finding:
    """A circle of waits."""

    plan: str
    grade: Grade
    rests_on: list[str] = field(default_factory=list)
    steps: list[Step] = field(default_factory=list)
    stacks: list[Stack] = field(default_factory=list)
    with_joins: bool = False
    suspects: set[str] = field(default_factory=set)  # where its threads wait, as addresses for --confirm

    @property
    def reason(self) -> str:
        if self.grade == Grade.CONFIRMED:
            return self.rests_on[-1] if self.rests_on else "it hung"
        if self.grade == Grade.UNCHECKED:
            return "a circle of acquisitions, which lockexplore has not checked"
        if self.grade == Grade.POSSIBLE:
            return "a deadlock that rests on " + ", and on ".join(self.rests_on)
        return "an interleaving of the recorded paths"


@dataclass
class Judged:
    """The answer about one record."""

    name: str
    grade: Grade = Grade.NONE
    reason: str = ""
    findings: list[Finding] = field(default_factory=list)
    lines: list[str] = field(default_factory=list)  # the report
    names: Names | None = None

    def settle(self) -> None:
        """The grade is the worst of the findings, unless the record alone gives a worse one."""
        for it in self.findings:
            if it.grade > self.grade or (it.grade == self.grade and not self.reason):
                self.grade, self.reason = it.grade, it.reason

    @property
    def head(self) -> str:
        return f"{self.name}: {WORDS[self.grade]}" + (f": {self.reason}" if self.reason else "")

    def as_json(self) -> dict[str, Any]:
        names = self.names
        return {
            "name": self.name,
            "answer": WORDS[self.grade],
            "reason": self.reason,
            "findings": [
                {
                    "plan": it.plan,
                    "answer": WORDS[it.grade],
                    "rests_on": it.rests_on,
                    "steps": [{"text": s.text, "line": s.line or None, "source": s.source or None} for s in it.steps],
                    "stacks": [
                        {
                            "text": s.text,
                            "waits": s.waits,
                            "frames": [{"function": f.function, "line": f.line} for f in (names.frames(s.place) if names else [])],
                        }
                        for s in it.stacks
                    ],
                }
                for it in self.findings
            ],
            "report": self.lines,
        }
