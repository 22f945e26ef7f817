"""What the threads waited for when the record was written."""

from __future__ import annotations

from collections import defaultdict

from .model import Model
from .record_file import Place, Present, Step
from .report import say


SLEEPS = {"barrier": "a barrier", "condvar": "a condition variable", "futex": "a futex, as of std::future or std::atomic"}


def _held(present: Present) -> list[Step]:
    held: list[Step] = []
    for step in present.path:
        if step.op == "release":
            held = [it for it in held if it.target != step.target]
        elif step.op != "join":
            held.append(step)
    return held


def circle_of(model: Model) -> set[int]:
    """The threads of which each waits for another one of them."""
    present = {it.tid: it for it in model.record.present}
    holders: dict[int, set[int]] = defaultdict(set)
    for it in present.values():
        for step in _held(it):
            holders[step.target].add(it.tid)

    def awaited(it: Present) -> set[int]:
        if not it.waits:
            return set()
        if it.waits.op == "join":
            return {t for t, o in present.items() if o.party == it.waits.target and t != it.tid}
        return holders[it.waits.target]

    next_of = {t: awaited(it) for t, it in present.items()}

    def comes_back(start: int) -> bool:
        seen, todo = set[int](), list(next_of[start])
        while todo:
            it = todo.pop()
            if it == start:
                return True
            if it not in seen:
                seen.add(it)
                todo += next_of.get(it, ())
        return False

    return {t for t in present if comes_back(t)}


def circle_in(model: Model) -> set[str]:
    """Where threads wait in a circle, as addresses."""
    circle = circle_of(model)
    waits = [it.waits for it in model.record.present if it.tid in circle and it.waits]
    return {address for address in (model.names.address(it.place) for it in waits) if address}


def _tell_thread(model: Model, it: Present) -> None:
    names, thread = model.names, model.record.threads.get(it.tid)
    say(f"  thread {it.tid}, {names.party_of[it.party]}{f', named {thread.name}' if thread and thread.name else ''}")
    for step in _held(it):
        say(f"      holds {names.lock[step.target]}: {step.op} at {names.place(step.place)}")
    if it.sleeps:
        kind, what, site = it.sleeps
        say(f"      sleeps on {SLEEPS.get(kind, kind)} ({what}) at {names.place(Place(site))}")
    elif it.waits:
        target = names.party_of[it.waits.target] if it.waits.op == "join" else names.lock[it.waits.target]
        say(f"      waits for {it.waits.op} {target} at {names.place(it.waits.place)}")


def tell_present(model: Model, always: bool) -> bool:
    """Tells of threads that wait in a circle, or if asked of all that wait. Returns whether there is a circle."""
    circle = circle_of(model)
    waiting = {it.tid for it in model.record.present if it.waits or it.sleeps}
    told = circle or (waiting if always else set())
    if circle:
        say(f"when the record was written ({model.record.why}), these threads waited in a circle:")
    elif told:
        say(f"when the record was written ({model.record.why}), these threads waited:")
    for it in sorted(model.record.present, key=lambda it: it.tid):
        if it.tid in told:
            _tell_thread(model, it)
    if always and not told:
        say("no thread waits for a lock, a condition variable, a barrier or another thread")
    return bool(circle)
