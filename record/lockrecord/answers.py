"""Tells an answer of lockexplore with the source lines of its plan."""

from __future__ import annotations

import re

from .explorer import Answer
from .grades import Stack, Step
from .plan import Plan
from .report import say

CHOICE = re.compile(r"\S+ (repeat|either|start \S+|set \S+|if \S+)(: \w+)?$")  # steps that say nothing of locks


def tell_answer(path: str, text: str, answer: Answer) -> list[Step]:
    """Tells the answer with the comment of each line that it is about. Returns the steps of a deadlock."""
    if not answer.text:
        say(f"{path}: no answer: {answer.fault}")
        return []
    say(f"{path}: {answer.first}")
    if not answer.is_stop:
        for line in answer.text.rstrip().split("\n")[1:]:
            say(f"  {line}")
        return []
    lines = text.split("\n")
    told = [(number, it) for number, it in answer.lines if not CHOICE.match(it)]
    width = max((len(it) for _, it in told), default=0)
    steps = [Step(it, number, lines[number - 1].partition("#")[2].strip() if number else "") for number, it in told]
    for step in steps:
        say(f"  {step.text:{width}}  {step.source}".rstrip())
    _tell_places(lines, " ".join(it.text for it in steps).split())
    return steps


def stacks_of(plan: Plan, steps: list[Step]) -> list[Stack]:
    """Where each thread waits, and where it acquired what it holds then."""
    held_by: dict[str, list[tuple[str, int]]] = {}
    found: list[Stack] = []
    for step in steps:
        party, words = step.text.split()[0], plan.lines[step.line - 1].partition("#")[0].split() if step.line else []
        mine = held_by.setdefault(party, [])
        if " waits for " in step.text:
            place = plan.places.get(step.line)
            found += [Stack(f"{party} waits for {words[-1]}", place, True)] if place else []
            for lock, line in mine:
                found += [Stack(f"{party} holds {lock}", plan.places[line], False)] if line in plan.places else []
        elif words and words[0].startswith("unlock"):
            held_by[party] = [it for it in mine if it[0] != words[-1]]
        elif words and " announce " not in step.text and not step.text.endswith(": refused") and words[-2:-1] and words[-2] in ("lock", "read", "write"):
            mine.append((words[-1], step.line))
    return found


def _tell_places(lines: list[str], words: list[str]) -> None:
    """Tells where the locks of an answer were made that have no name of their own."""
    named = {it.rstrip(":,") for it in words}
    for line in lines:
        call, _, comment = line.partition("#")
        if call.startswith(("mutex ", "rwlock ")) and comment and call.split()[1] in named:
            say(f"  {call.split()[1]}: {comment.strip()}")
