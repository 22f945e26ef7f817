"""From a record to an answer."""

from __future__ import annotations

import os
from dataclasses import dataclass
from typing import Optional

from .answers import stacks_of, tell_answer
from .circles import Edge, Late, LockOrder, circles_of_threads, components
from .doubts import loses_calls, tell_doubts, tell_limits
from .explorer import Answer, Explorer
from .grades import Finding, Grade, Judged, Step
from .model import Join, Model
from .plan import Plan
from .plan_files import write_plan
from .present import circle_in, circle_of, tell_present
from .record_file import Record, read_record
from .reduction import circle_plan, order_plan, search_plan
from .report import Deadline, begin, held, hold, say
from .snippets import tell_stacks
from .suppressions import NO_SUPPRESSIONS, Suppressions

FIRST_SECONDS = 1  # of a search, before a circle of acquisitions is looked for
MOST_CIRCLES = 20
MANY_EDGES = 4000


@dataclass
class Options:
    explorer: Explorer
    bars: bool = False
    tries_wait: bool = False
    copies: int = 6
    many_locks: int = 6  # on circles: of more, a circle is looked for before all interleavings are searched
    suppressions: Suppressions = NO_SUPPRESSIONS


class Judge:
    """Writes the plans of one record, and asks about them."""

    def __init__(self, model: Model, options: Options, name: str, judged: Judged) -> None:
        self._model, self._options, self._name, self._judged = model, options, name, judged
        self._head = [f"Recorded from a run, whose record was written at: {model.record.why}. docs/PLANS.md has the format."]
        self._rests_on: list[str] = []
        self._deadline = Deadline(options.explorer.seconds)

    def judge(self, order: LockOrder, with_joins: bool) -> None:
        """Adds to the answer what the plans of this lock order say."""
        name = self._name + (".joins" if with_joins else "")
        self._deadline = Deadline(self._options.explorer.seconds)
        self._rests_on = ["a join: the joined thread may have made its last acquisition by then"] if with_joins else []
        if not order.edges:
            self._by_order(order, name)
            return
        try:
            parts = components(self._model, order.edges, self._deadline) or components(self._model, order.edges, self._deadline, by_mode=False)
        except Late:
            parts = [order.edges]
        if not parts:
            say("no deadlock: the lock order has circles, but creations and joins of threads order all of them")
        for i, part in enumerate(sorted(parts, key=len)):
            self._search(part, name if len(parts) == 1 else f"{name}-{i + 1}")

    def _worse(self, grade: Grade, reason: str) -> None:
        if grade > self._judged.grade:
            self._judged.grade, self._judged.reason = grade, reason

    def _by_order(self, order: LockOrder, name: str) -> None:
        plan, names = order_plan(self._model, self._head + ["The lock order has no circle, so this is for any number of threads: lockexplore order"])
        if not names or not order.pairs:
            say("no deadlock: no thread waits for a lock while it holds another one")
            return
        say(f"the lock order has no circle: {len(names)} locks, {len(order.pairs)} pairs, for any number of threads")
        path = write_plan(f"{name}.plan", plan.text)
        answer = self._options.explorer.ask(path, by_order=True)
        if answer.is_missing:
            say(f"{path}: not checked, as lockexplore does not run here: {answer.fault}")
            self._judged.reason = self._judged.reason or "the lock order has no circle (not checked by lockexplore)"
            return
        tell_answer(path, plan.text, answer)
        if not answer.is_free:
            self._worse(Grade.NO_ANSWER, answer.fault or answer.first)

    def _search(self, part: list[Edge], name: str) -> None:
        """The plan of one strongly connected part: a deadlock lies within one."""
        head = self._head + ["One circle of the lock order, or several that meet, and the locks around them."]
        reduced = search_plan(self._model, part, self._options.copies, head)
        path = write_plan(f"{name}.plan", reduced.plan.text)
        threads = ", ".join(f"{party} {count}" for party, count in sorted(reduced.counts.items()))
        say(f"{path}: {len(reduced.core)} locks in circles, {len(reduced.around)} around them, threads: {threads}")
        answer = self._options.explorer.ask(path, by_order=True)  # at once, and for any number of threads
        if not answer.is_free and not answer.is_missing:
            if len(reduced.core) > self._options.many_locks and self._ask_circles(part, name, head) is True:
                return
            answer = self._options.explorer.ask(path, by_order=False, seconds=FIRST_SECONDS)
        if answer.is_missing:
            self._unchecked(part, answer.fault)
        elif answer.is_free:
            tell_answer(path, reduced.plan.text, answer)
            self._limited(reduced.is_limited, part, self._options.copies)
        elif answer.is_stop:
            self._found(reduced.plan, path, answer)
        elif answer.is_late:
            self._search_more(part, name, head)
        else:
            tell_answer(path, reduced.plan.text, answer)
            self._worse(Grade.NO_ANSWER, answer.fault)

    def _limited(self, is_limited: bool, part: list[Edge], most: int) -> None:
        """The plan had fewer threads of a kind than there were."""
        if not is_limited:
            return
        try:
            if next(circles_of_threads(self._model, part, self._deadline), None) is None:
                return
        except Late:
            pass
        say(f"no answer for all threads: there were more than {most} of a kind, and circles long enough for them (--copies)")
        self._worse(Grade.NO_ANSWER, f"there were more than {most} threads of a kind")

    def _search_more(self, part: list[Edge], name: str, head: list[str]) -> None:
        """Without an answer at once: the circles whose threads hold no common lock, each alone, and then all."""
        is_circle = self._ask_circles(part, name, head)
        if is_circle is False:
            say("no deadlock: in each circle two threads hold a common lock, or there are too few threads (argued, not proved)")
        if is_circle is not None:
            return
        try:
            kept = [e for it in components(self._model, part, self._deadline, by_guards=True) for e in it]
        except Late:
            kept = part
        for most in (self._options.copies, 2):
            reduced = search_plan(self._model, kept, most, head)
            path = write_plan(f"{name}.plan", reduced.plan.text)
            answer = self._options.explorer.ask(path, by_order=False)
            if answer.is_stop:
                self._found(reduced.plan, path, answer)
                return
            if answer.is_free:
                tell_answer(path, reduced.plan.text, answer)
                if reduced.is_limited:
                    say(f"no answer for all threads: this is for {most} of a kind only")
                    self._worse(Grade.NO_ANSWER, f"there were more than {most} threads of a kind")
                return
        tell_answer(path, reduced.plan.text, answer)
        self._worse(Grade.NO_ANSWER, answer.fault)

    def _ask_circles(self, part: list[Edge], name: str, head: list[str]) -> Optional[bool]:
        """Whether some circle of acquisitions is a deadlock: False if there is none, None if nobody knows."""
        found: Optional[bool] = False
        kept = part
        try:
            if len(part) < MANY_EDGES:
                kept = [e for it in components(self._model, part, self._deadline, by_guards=True) for e in it]
            for i, circle in enumerate(circles_of_threads(self._model, kept, self._deadline)):
                found = None
                if not any(isinstance(it, Join) for e in circle for it in (e.held, e.want)) and self._ask_circle(circle, name, head):
                    return True
                if i == MOST_CIRCLES:
                    break
        except Late:
            return None
        return found

    def _ask_circle(self, circle: list[Edge], name: str, head: list[str]) -> bool:
        """Whether lockexplore finds that a circle of acquisitions is a deadlock, its threads alone."""
        plan = circle_plan(self._model, circle, head[:1] + [f"A circle of {len(circle)} threads, alone. Each starts the next one when it holds its locks."])
        path = write_plan(f"{name}.circle.plan", plan.text)
        answer = self._options.explorer.ask(path, by_order=False)
        if answer.is_stop:
            say(f"a circle of {len(circle)} threads, alone, which make no other acquisition:")
            self._found(plan, path, answer)
        return answer.is_stop

    def _unchecked(self, part: list[Edge], fault: str) -> None:
        """Without lockexplore: what lockrecord's own search finds."""
        say(f"not checked, as lockexplore does not run here: {fault}")
        try:
            circle = next(circles_of_threads(self._model, part, self._deadline), None)
        except Late:
            self._worse(Grade.NO_ANSWER, "lockexplore does not run here, and there are too many circles to look at each")
            return
        if circle is None:
            say("no deadlock: in each circle two threads hold a common lock, or there are too few threads (argued, not proved)")
            return
        names, finding = self._model.names, Finding("", Grade.UNCHECKED)
        say("a circle of acquisitions, which lockexplore has not checked:")
        for e in circle:
            made = self._model.paths.get(e.party, {}).get(e.events)
            at = {event.target: place for event, place in zip(e.events, made.places) if event.op != "release"} if made else {}
            place = made.places[e.at] if made else None
            text = f"{e.party} holds {_told(e.held)} and waits for {_told(e.want)}"
            say(f"  {text}  {names.place(place)}, since {names.place(at.get(e.held))}")
            finding.steps.append(Step(text, 0, names.place(place)))
            finding.suspects |= {it for it in [names.address(place) if place else None] if it}
        self._judged.findings.append(finding)

    def _found(self, plan: Plan, path: str, answer: Answer) -> None:
        steps = tell_answer(path, plan.text, answer)
        finding = Finding(path, Grade.DEADLOCK, self._rests_on + _rests_on(self._model, steps), steps, stacks_of(plan, steps), bool(self._rests_on))
        if any(it.place.woken for it in finding.stacks):
            finding.rests_on.append("a wake-up: a thread goes on after a sleep on a condition variable, whose condition no plan has")
        finding.grade = Grade.POSSIBLE if finding.rests_on else Grade.DEADLOCK
        for it in finding.rests_on:
            say(f"  rests on {it}")
        for stack in finding.stacks:
            address = self._model.names.address(stack.place) if stack.waits else None
            finding.suspects |= {address} if address else set()
        tell_stacks(self._model.names, finding.stacks)
        self._judged.findings.append(finding)


def _told(target: object) -> str:
    return f"the end of {target.party}" if isinstance(target, Join) else str(target)


def _rests_on(model: Model, steps: list[Step]) -> list[str]:
    """What an answer takes for granted beyond the recorded paths."""
    words = {word.rstrip(":,") for it in steps for word in it.text.split()}
    found = []
    for group in model.groups.values():
        if words & set(group.names):
            found.append(f"a group: {group.names[0]} .. stand for {group.members} locks that were made at one place and are acquired {group.how}")
    tried = words & model.fell_back
    if tried:
        found.append(f"a try: the program was seen to wait after a refusal, as of {', '.join(sorted(tried)[:4])}")
    elif model.tries_wait:
        found.append("tries that count as acquisitions (--tries-wait)")
    return found


def _at_once(record: Record, judged: Judged) -> bool:
    """Whether the record needs no symbols to be judged. Then it is."""
    is_quiet = not record.present or not any(it.waits or it.sleeps for it in record.present)
    warns = any(it.kind != "notify" or len(it.held) > 1 for it in record.notes)
    if not is_quiet or record.paths or record.patterns or warns:
        return False
    if len(record.threads) < 2:
        judged.reason = "the program made no thread"
    elif not record.stats.get("locks") and not record.locks:
        judged.grade = Grade.NO_ANSWER
        judged.reason = "no lock was recorded"
        say("Locks that wait by futex calls of their own, as those of Rust's std and Go, are not seen; docs/RECORD.md says how others are")
    else:
        say(f"{len(record.threads)} threads, {record.stats.get('locks', 0)} locks, no nested acquisitions")
        say("no deadlock: no thread waits for a lock while it holds another one")
    return True


def _judge(record: Record, name: str, options: Options, judged: Judged) -> None:
    tell_limits(record)
    if not _at_once(record, judged):
        model = Model(record, options.bars, options.tries_wait, options.suppressions)
        judged.names = model.names
        kinds = len([it for it in model.names.parties.values() if it.tids])
        n_paths = sum(len(it) for it in model.paths.values())
        say(f"{len(record.threads)} threads of {kinds} kinds, {record.stats.get('locks', 0)} locks, {n_paths} paths of nested acquisitions")
        if model.suppressed:
            say(f"suppressed: acquisitions at {model.suppressed} places count as tries")
        tell_doubts(model)
        for group in model.groups.values():
            say(f"{group.names[0]} .. {group.names[-1]} stand for {group.members} locks that were made at one place and are acquired {group.how}")
        if tell_present(model, record.why in ("SIGTERM", "SIGINT", "SIGUSR1", "SIGABRT")):
            judged.findings.append(Finding("", Grade.CONFIRMED, ["it hung in this run"], suspects=circle_in(model)))
        judge = Judge(model, options, name, judged)
        judge.judge(LockOrder(model, False), False)
        joins = LockOrder(model, True)
        if any(isinstance(it, Join) for e in joins.edges for it in (e.held, e.want)):
            say("with joins (false if the joined thread has made its last acquisition by then, which no plan knows):")
            judge.judge(joins, True)
    if loses_calls(record) and judged.grade == Grade.NONE and not judged.findings:
        judged.grade, judged.reason = Grade.NO_ANSWER, "the record lacks calls"


def judge_record(path: str, name: str, options: Options) -> Judged:
    """Reduces one record, and keeps its report."""
    begin()
    judged = Judged(os.path.basename(name))
    hold()
    try:
        _judge(read_record(path), name, options, judged)
    finally:
        judged.lines = held()
    judged.settle()
    return judged


def present_of(path: str, bars: bool) -> bool:
    """Tells what the threads of a record wait for, and whether they do in a circle."""
    return tell_present(Model(read_record(path), bars, False), True)


def hung_at(path: str, options: Options) -> tuple[set[str], set[str]]:
    """Where threads wait in a circle when the record was written: as addresses, and as lines."""
    begin()
    model = Model(read_record(path), options.bars, options.tries_wait)
    circle = circle_of(model)
    return circle_in(model), {model.names.place(it.waits.place) for it in model.record.present if it.tid in circle and it.waits}

