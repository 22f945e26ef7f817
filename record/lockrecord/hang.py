"""Tells of a running process which threads wait, for what, and who has it. No recorder is needed."""

from __future__ import annotations

import json
import re
import time
from typing import Any

from .backtraces import BY_MEMORY, backtraces
from .names import plain
from .process import CALLS, RESTART, Process, Thread
from .report import say, tell
from .snippets import frames_told
from .symbols import LIBRARY, WRAPPER, Frame, Symbols
from .waits import REFUSED, Wait, wait_of

AGAIN = 0.2  # seconds after which a wait is still the same, if it hangs
INNER = re.compile(r"_*(pthread_|futex|lll_lock|GI_|syscall$|mtx_lock|cnd_|thrd_join|sem_|new_sem)|\?\?$|\?$")


class Hang:
    def __init__(self, process: Process) -> None:
        self._process = process
        self._symbols = Symbols(process.modules)
        self._threads = before = process.threads()
        self._frames, self.how = backtraces(process, list(self._threads.values()), self._symbols)
        first = self._waits()
        time.sleep(AGAIN)
        self._threads = process.threads()
        for number, it in self._threads.items():
            old = before[number].call if number in before else None
            if it.call and old and it.call.number == RESTART and it.call.sp == old.sp:
                it.call = old  # a debugger interrupted a wait with a time limit
        second = self._waits()
        self.waits = {it: wait for it, wait in second.items() if first.get(it) == wait}  # the others went on

    def _waits(self) -> dict[int, Wait]:
        found = {}
        for number, it in self._threads.items():
            wait = wait_of(self._process, it, self._threads, self._frames.get(it.tid, []))
            if wait:
                found[number] = wait
        return found

    def circle(self) -> set[int]:
        """The threads that wait, without a time limit, for owners that all do so."""
        left = {it for it, wait in self.waits.items() if wait.owners and not wait.is_timed}
        while True:
            kept = {it for it in left if all(o in left for o in self.waits[it].owners or ())}
            if kept == left:
                return self._on_circles(kept)
            left = kept

    def _on_circles(self, found: set[int]) -> set[int]:
        """Those of them that wait for themselves in the end. The others wait for these."""

        def reaches(start: int) -> bool:
            seen, todo = set[int](), list(self.waits[start].owners or ())
            while todo:
                it = todo.pop()
                if it == start:
                    return True
                if it not in seen:
                    seen.add(it)
                    todo += self.waits[it].owners or ()
            return False

        return {it for it in found if reaches(it)}

    def abandoned(self) -> set[int]:
        """The threads that wait for a lock of this process whose owner has ended, or in a circle that the kernel found."""

        def is_endless(wait: Wait) -> bool:
            has_ended = bool(wait.owners) and not all(o in self._threads for o in wait.owners or ())
            return wait.kind == REFUSED or (has_ended and wait.kind != "join" and not wait.is_shared and not wait.is_timed)

        return {it for it, wait in self.waits.items() if is_endless(wait)}

    def _own(self, thread: Thread) -> list[Frame]:
        frames = self._frames.get(thread.tid, [])
        own = [it for it in frames if not (it.line and LIBRARY.search(it.line)) and not WRAPPER.match(it.function) and not INNER.match(it.function)]
        return own or frames[:1]

    def lock(self, wait: Wait) -> str:
        """A lock by its name, if it is static."""
        name = self._symbols.datum(wait.address, 56 if wait.kind in ("read", "write", "rwlock") else 40)
        if name and not re.match(r".*-[0-9a-f]+$", name):
            return plain(name)
        return f"{wait.address:#x}"

    def thread(self, number: int) -> str:
        it = self._threads.get(number)
        if it is None:
            return f"thread {number}, which is not there any more,"
        inner = f" ({it.inner} in its container)" if it.inner != it.tid else ""
        own = self._own(it) if self.how != BY_MEMORY else []
        start = f", {own[-1].function}" if own and not own[-1].function.startswith(("?", "0x")) else ""
        return f"thread {it.tid}{inner}{start}" + (f", named {it.name}" if it.name != self._process.name else "")

    def _told(self, wait: Wait) -> str:
        timed = ", with a time limit" if wait.is_timed else ""
        if wait.kind == "join":
            return f"waits for the end of {self.thread((wait.owners or (0,))[0])}{timed}"
        if wait.owners:
            owner = self.thread(wait.owners[0])
            kind = "mutex" if wait.kind == "mutex" else f"reader-writer lock, to {wait.kind}," if wait.kind in ("read", "write") else "reader-writer lock"
            if wait.is_shared and wait.owners[0] not in self._threads:
                owner = f"thread {wait.owners[0]} of another process, or one that is not there any more"
            return f"waits for {kind} {self.lock(wait)}: {owner} has it{timed}"
        if wait.kind == REFUSED:
            return f"waits for {wait.kind}"
        if wait.kind in ("read", "write"):
            return f"waits to {wait.kind} reader-writer lock {self.lock(wait)}: readers have it, and nobody knows which{timed}"
        return f"waits for {wait.kind} ({self.lock(wait)}), whose owner nobody knows{timed}" if wait.kind != "condition variable" else f"sleeps on a condition variable{timed}"

    def _lines(self, number: int) -> list[str]:
        """What one thread holds, waits for and does."""
        it, wait = self._threads[number], self.waits.get(number)
        mine = {w.address: w for w in self.waits.values() if w.owners and number in w.owners and w.kind != "join"}
        told = [f"      holds {self.lock(other)}" for other in mine.values()]
        told.append(f"      {self._told(wait) if wait else self._doing(it)}")
        return told + ["  " + line for line in frames_told(self._own(it))]

    def tell(self, numbers: set[int]) -> None:
        """Tells of threads. Those that do the same are told at once."""
        alike: dict[tuple[str, ...], list[int]] = {}
        for number in sorted(numbers, key=lambda it: self._threads[it].tid):
            alike.setdefault(tuple(self._lines(number)), []).append(number)
        for lines, them in alike.items():
            say(f"  {self.thread(them[0])}" + (f", and {len(them) - 1} more that do the same" if len(them) > 1 else ""))
            for line in lines:
                say(line)

    @staticmethod
    def _doing(thread: Thread) -> str:
        if thread.call is None:
            return "runs"
        return f"is in {CALLS.get(thread.call.number, f'system call {thread.call.number}')}" if thread.call.number >= 0 else "is stopped"

    def as_json(self, circle: set[int], abandoned: set[int]) -> list[dict[str, Any]]:
        found = []
        for number, it in self._threads.items():
            wait = self.waits.get(number)
            owners = [self._threads[o].tid if o in self._threads else None for o in (wait.owners if wait and wait.owners else ())]
            told = {"waits_for": wait.kind, "lock": self.lock(wait), "owners": owners, "has_time_limit": wait.is_timed} if wait else {}
            frames = [{"function": f.function, "line": f.line} for f in self._own(it)]
            found.append({"thread": it.tid, "name": it.name, "in_circle": number in circle, "for_ever": number in abandoned, **told, "frames": frames})
        return found

    def others(self, told: set[int]) -> set[int]:
        return {it for it in self._threads if it not in told}


def tell_hang(pid: int, as_json: bool) -> bool:
    """Tells what the threads of the process wait for, a circle first. Returns whether some of them wait for ever."""
    process = Process(pid)
    hang = Hang(process)
    circle, abandoned = hang.circle(), hang.abandoned()
    word = "deadlock" if circle or abandoned else "no circle"
    if as_json:
        tell(json.dumps({"process": pid, "name": process.name, "answer": word, "threads": hang.as_json(circle, abandoned)}, indent=1))
        return word == "deadlock"
    tell(f"lockrecord: {pid} ({process.name}): {word}")
    if circle:
        say("these threads wait in a circle:")
        hang.tell(circle)
    if abandoned:
        say("these threads wait for a lock that nobody can release:")
        hang.tell(abandoned)
    waiting = set(hang.waits) - circle - abandoned
    if waiting:
        say("these threads wait:")
        hang.tell(waiting)
    rest = hang.others(circle | abandoned | waiting)
    if rest:
        say("these threads wait for no lock:")
        hang.tell(rest)
    say(f"the stacks are by {hang.how}")
    return word == "deadlock"


