"""What creations and joins of threads let happen at the same time."""

from __future__ import annotations

import itertools
from collections import defaultdict
from typing import Optional

from .names import Names
from .record_file import Occurs

END = 1 << 50  # a segment after all others
NEVER = 1 << 60
MANY = 200  # threads of a party that are compared with each other; of more, any two may run at a time

# Threads with their first and last segment; None: at any time.
Span = Optional[frozenset[tuple[int, int, int]]]


class Timing:
    def __init__(self, names: Names) -> None:
        self._parties, self._threads = names.parties, names.record.threads
        self._children: dict[int, list[tuple[int, int]]] = defaultdict(list)
        for tid, thread in self._threads.items():
            if tid:
                self._children[thread.parent[0]].append((thread.parent[1], tid))
        self._reached: dict[tuple[int, int], dict[int, int]] = {}
        self._copies: dict[str, int] = {}
        self._at_a_time: dict[tuple[Span, Span], bool] = {}

    def _after(self, tid: int, segment: int) -> dict[int, int]:
        """The first segment of each thread that comes after the end of this one."""
        if (tid, segment) not in self._reached:
            first: dict[int, int] = {}
            todo = [(tid, segment)]
            while todo:
                t, s = todo.pop()
                if first.get(t, NEVER) <= s:
                    continue
                first[t] = s
                todo += [(child, 0) for at, child in self._children[t] if at >= s]
                thread = self._threads.get(t)
                if thread and thread.joined:
                    todo.append(thread.joined)
            self._reached[tid, segment] = first
        return self._reached[tid, segment]

    def _can_meet(self, one: Span, two: Span) -> bool:
        if one is None or two is None:
            return True
        return any(
            a[0] != b[0] and self._after(a[0], a[2]).get(b[0], NEVER) > b[1] and self._after(b[0], b[2]).get(a[0], NEVER) > a[1]
            for a in one
            for b in two
        )

    def can_meet(self, one: Span, two: Span) -> bool:
        """Whether two different threads can be there at a time."""
        if (one, two) not in self._at_a_time:
            self._at_a_time[one, two] = self._at_a_time[two, one] = self._can_meet(one, two)
        return self._at_a_time[one, two]

    def span(self, party: str, occurs: Occurs) -> Span:
        """When threads of the party may make a path. Any of several threads may do what one of them did, during its whole life."""
        if self.copies(party) > 1:
            tids = self._parties[party].tids
            return frozenset((it, 0, END) for it in tids) if len(tids) <= 64 else None
        return None if occurs is None else frozenset((t, s, s) for t, s in occurs)

    def copies(self, party: str) -> int:
        """How many threads of the party can be there at a time: 1, or all that there were."""
        if party not in self._copies:
            it = self._parties[party]
            several = len(it.tids) > MANY or it.threads > len(it.tids)
            several = several or any(
                self._after(a, END).get(b, NEVER) > 0 and self._after(b, END).get(a, NEVER) > 0 for a, b in itertools.combinations(it.tids, 2)
            )
            self._copies[party] = it.threads if several and party != "main" else 1
        return self._copies[party]
