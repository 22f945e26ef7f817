"""What an answer does not cover: limits that the recorder reached, locks that were handed over, sleeps below locks, signal handlers and forks."""

from __future__ import annotations

from collections import defaultdict
from typing import Optional

from .model import Model
from .record_file import Note, Place, Record
from .report import say

MOST = 3  # warnings of notifications below two locks
LOSES_CALLS = {"locks", "held", "length", "paths", "patterns", "threads", "memory"}
MEANS = {
    "locks": "locks",
    "held": "acquisitions by a thread that held 96 locks",
    "length": "acquisitions on paths of 96 calls",
    "paths": "paths",
    "patterns": "patterns of paths",
    "threads": "threads",
    "memory": "pieces of memory",
    "late": "numbers of threads, so that some count as running at any time",
    "parties": "kinds of threads, so that the last one stands for several",
    "classes": "places where locks are made",
    "sites": "source lines",
    "modules": "names of modules",
    "notes": "waits and notifications",
}


def loses_calls(record: Record) -> bool:
    """Whether the record lacks calls, so that `no deadlock` is not justified."""
    return bool(LOSES_CALLS & record.limits.keys())


def tell_limits(record: Record) -> None:
    for limit, count in record.limits.items():
        say(f"lockrecord: warning: no room for {count} {MEANS.get(limit, limit)}")
    for name in record.missing:
        say(f"lockrecord: warning: the C library has no {name}")


def tell_doubts(model: Model) -> None:
    """Tells what the answer does not cover."""
    model.names.load(it.site for it in model.record.notes)
    _tell_handed(model)
    _tell_sleepers(model)
    _tell_notifications(model)
    _tell_handlers(model)
    _tell_forks(model)


def _tell_handed(model: Model) -> None:
    handed = sorted(model.names.lock[n] for n, lock in model.record.locks.items() if lock.handed)
    if handed:
        say(f"lockrecord: note: released by threads that had not acquired them: {', '.join(handed[:8])}{' ..' if len(handed) > 8 else ''}")
    if model.fell_back and not model.tries_wait:
        say(f"lockrecord: note: tries after whose refusal a thread waited count as acquisitions: {', '.join(sorted(model.fell_back)[:8])}")


def _locks(model: Model, numbers: frozenset[int]) -> str:
    return ", ".join(sorted(model.names.lock[n] for n in numbers))


AWAITED = {"barrier": "comes to the barrier", "futex": "ends that wait"}


def _kind_of_sleep(model: Model, note: Note) -> str:
    """What a thread sleeps on, by the functions of its stack."""
    if note.kind != "futex":
        return "at a barrier" if note.kind == "barrier" else "on a condition variable"
    functions = " ".join(it.function for it in model.names.all_frames(Place(note.site)))
    for part, told in (("future", "for a std::future"), ("barrier", "at a std::barrier"), ("latch", "for a std::latch"), ("semaphore", "for a semaphore")):
        if part in functions:
            return told
    return "for an atomic"


def _tell_sleepers(model: Model) -> None:
    """Tells of sleepers that hold a lock which those need that wake them. A wait with a time limit wakes by itself."""
    told = set()
    for it in model.record.notes:
        key = (it.party, it.site)
        if it.kind not in ("wait", "barrier", "futex") or key in told:
            continue
        where = f"{model.names.party_of[it.party]} sleeps {_kind_of_sleep(model, it)} at {model.names.place(Place(it.site))} holding {_locks(model, it.held)}"
        wakers = [o for o in model.record.notes if o.kind == "notify" and o.object == it.object]
        below = [o for o in wakers if o.held & it.held]
        if it.kind in AWAITED:
            told.add(key)
            say(f"lockrecord: warning: {where}: a thread that needs it before it {AWAITED[it.kind]} waits for ever")
        elif below:
            told.add(key)
            all_or_some = "all" if len(below) == len(wakers) else f"{len(below)} of {len(wakers)}"
            say(f"lockrecord: warning: {where}: {all_or_some} recorded notifications are made below it, as at {model.names.place(Place(below[0].site))}")


def _tell_notifications(model: Model) -> None:
    """Tells of condition variables that are notified below two locks, and on which no thread was seen to sleep: one of the locks is not their own."""
    notes: dict[str, list[Note]] = defaultdict(list)
    for it in model.record.notes:
        notes[it.object].append(it)
    told = set()
    for them in notes.values():
        common = frozenset.intersection(*(it.held for it in them))
        if len(common) > 1 and all(it.kind == "notify" for it in them):
            told.add(f"each notification at {model.names.place(Place(them[0].site))} is made below {_locks(model, common)}")
    for text in sorted(told)[:MOST]:
        say(f"lockrecord: warning: {text}: a thread that holds one of them while it sleeps there waits for ever (none slept)")


def _ordinary(model: Model, lock: int, site: int) -> Optional[Place]:
    """A place outside the handler at which the lock is acquired."""
    flat = model.record.flat.get(lock, ())
    steps = [it for path in model.record.paths for it in path.steps if it.target == lock and it.op in ("lock", "read", "write")]
    places = [it.place for it in flat if it.parties] + [it.place for it in steps]
    return next((it for it in places if it.site != site), None)


def _tell_handlers(model: Model) -> None:
    for it in model.record.notes:
        lock = model.record.locks.get(it.mutex) if it.kind == "handler" else None
        if lock is None:
            continue
        other = _ordinary(model, it.mutex, it.site)
        if other or len(model.record.threads) > 1:
            where = f", which is also acquired at {model.names.place(other)}" if other else ""
            say(
                f"lockrecord: warning: a signal handler acquires {model.names.lock[it.mutex]} at {model.names.place(Place(it.site))}{where}: "
                "a signal that comes to its holder waits for ever"
            )


def _tell_forks(model: Model) -> None:
    for it in model.record.notes:
        if it.kind == "forked" and it.mutex in model.record.locks:
            say(
                f"lockrecord: warning: after a fork of a process of several threads, the child acquires {model.names.lock[it.mutex]} at "
                f"{model.names.place(Place(it.site))}: if another thread held it at the fork, the child waits for ever"
            )
