"""Runs the program again, with pauses before the waits of the answer: if it hangs in that circle, the deadlock is real."""

from __future__ import annotations

import os
import stat
import sys
from signal import SIGABRT

from .grades import Finding, Grade, Judged
from .judging import Options, hung_at
from .record_file import BadRecord
from .running import Recorder, Run

SHORT = 10.0  # seconds of a run that is made again without being asked


def _open_findings(judged: list[Judged]) -> list[Finding]:
    """What a second run can confirm."""
    return [f for it in judged for f in it.findings if f.suspects and f.grade != Grade.CONFIRMED]


def can_confirm(is_asked: bool, is_refused: bool, run: Run, judged: list[Judged]) -> bool:
    if is_refused or not _open_findings(judged) or any(it.grade == Grade.CONFIRMED for it in judged):
        return False
    return is_asked or (run.seconds < SHORT and not run.is_ended and run.signal in (0, SIGABRT) and not _is_pipe())


def _is_pipe() -> bool:
    """Whether the run has read what a second one would need."""
    try:
        mode = os.fstat(sys.stdin.fileno()).st_mode
    except (OSError, ValueError, AttributeError):
        return False
    return stat.S_ISFIFO(mode) or stat.S_ISSOCK(mode)


def confirm(recorder: Recorder, words: list[str], prefix: str, options: Options, pauses: list[int], took: float, judged: list[Judged]) -> None:
    findings = _open_findings(judged)
    places = sorted({place for it in findings for place in it.suspects})
    joins = any(it.with_joins for it in findings)  # then a thread that holds nothing is to be late, too
    for pause in pauses:
        more = {"LOCKRECORD_PAUSE": ",".join(places), "LOCKRECORD_PAUSE_MS": str(pause), "LOCKRECORD_PAUSE_ALONE": str(int(joins))}
        again = recorder.run(words, prefix, took * 2 + 5 + pause / 250, 1 + pause / 1000, **more)
        for path in again.records:
            try:
                addresses, lines = hung_at(path, options)
            except BadRecord:
                continue
            if addresses or lines:
                _is_confirmed(judged, findings, addresses, lines, pause)
                return
    for it in findings:
        if it.grade in (Grade.DEADLOCK, Grade.POSSIBLE):
            it.grade = Grade.POSSIBLE
            it.rests_on.append("an order of threads that a second run, with pauses, did not show")
    _settle(judged, "not confirmed: run again, with pauses before these waits, it did not hang: a flag, a barrier or data may forbid the circle")


def _is_confirmed(judged: list[Judged], findings: list[Finding], addresses: set[str], lines: set[str], pause: int) -> None:
    """The circle in which the program hung is compared with those of the answers."""
    same = [it for it in findings if it.suspects & addresses]
    for it in same:
        it.grade = Grade.CONFIRMED
        it.rests_on.append(f"run again, with pauses of {pause} ms before these waits, it hung in this circle")
    if not same:
        where = ", ".join(sorted(lines))
        judged[0].findings.append(Finding("", Grade.CONFIRMED, [f"run again, with pauses of {pause} ms, it hung in another circle, at {where}"]))
    _settle(judged, f"confirmed: run again, with pauses of {pause} ms before these waits, it hung in {'this' if same else 'another'} circle")


def _settle(judged: list[Judged], told: str) -> None:
    for it in judged:
        if it.findings:
            it.grade, it.reason = (Grade.NONE, "") if it.grade >= Grade.UNCHECKED else (it.grade, it.reason)
            it.settle()
    next(it for it in judged if it.findings).lines.append(told)
