"""The order in which threads acquire locks, as edges, and the circles of these."""

from __future__ import annotations

from collections import defaultdict
from typing import Iterator, NamedTuple

from .model import Event, Events, Join, Model, Target
from .report import Deadline, progress
from .timing import Span

EXCLUSIVE = {"lock": True, "write": True, "read": False, "join": True}


class Edge(NamedTuple):
    """A thread of a party holds one lock and waits for another. `all_held`: each lock that it holds, and whether exclusively."""

    party: str
    held: Target
    is_held_exclusively: bool
    want: Target
    wants_exclusively: bool
    all_held: tuple[tuple[Target, bool], ...]
    events: Events
    at: int  # the index of the wait in the events
    span: Span

    def excludes(self, other: Edge) -> bool:
        """Two threads cannot stand at both edges if one holds exclusively what the other one holds."""
        theirs = dict(other.all_held)
        return any(target in theirs and (is_exclusive or theirs[target]) for target, is_exclusive in self.all_held)


Pair = tuple[Target, Target]  # a lock that is held, and one that is waited for meanwhile


class LockOrder:
    """The order of the locks, and the waits that lie on its circles."""

    def __init__(self, model: Model, with_joins: bool) -> None:
        self._model, self._with_joins = model, with_joins
        self._joined: list[str] = []
        self.pairs = self._pairs()
        parts = _parts_of(self.pairs)
        self._part = {target: i for i, part in enumerate(parts) for target in part}
        self.edges = self._edges() if any(self._is_inside(it) for it in self.pairs) else []

    def _is_inside(self, pair: Pair) -> bool:
        return self._part[pair[0]] == self._part[pair[1]]

    def _pairs(self) -> set[Pair]:
        pairs: set[Pair] = set()
        joined = set()
        for paths in self._model.paths.values():
            for events in paths:
                held: list[Target] = []
                for event in events:
                    if event.op == "release":
                        held = [it for it in held if it != event.target]
                        continue
                    if isinstance(event.target, Join):
                        if not self._with_joins:
                            continue
                        joined.add(event.target.party)
                    if event.waits:
                        pairs.update((it, event.target) for it in held)
                    held.append(event.target)
        self._joined = sorted(joined)
        return pairs | {(e.held, e.want) for party in self._joined for e in _edges_of_life(self._model, party)}

    def _edges(self) -> list[Edge]:
        """An edge for each lock held at each acquisition that may wait for ever, where both locks are on one circle."""
        edges: list[Edge] = []
        for party, paths in self._model.paths.items():
            for events, made in paths.items():
                held: list[tuple[Target, bool]] = []
                span = self._model.timing.span(party, made.occurs)
                for i, event in enumerate(events):
                    if event.op == "release":
                        held = [it for it in held if it[0] != event.target]
                        continue
                    if isinstance(event.target, Join) and not self._with_joins:
                        continue
                    mode = EXCLUSIVE[event.call]
                    inside = [it for it in held if self._is_inside((it[0], event.target))] if event.waits and event.target in self._part else []
                    edges += [Edge(party, lock, is_ex, event.target, mode, tuple(held), events, i, span) for lock, is_ex in inside]
                    held.append((event.target, mode))
        for party in self._joined:
            edges += [e for e in _edges_of_life(self._model, party) if self._is_inside((e.held, e.want))]
        return edges


def _parts_of(pairs: set[Pair]) -> list[list[Target]]:
    """The strongly connected parts of the locks."""
    targets = sorted({it for pair in pairs for it in pair}, key=str)
    index = {it: i for i, it in enumerate(targets)}
    out: list[list[int]] = [[] for _ in targets]
    for held, want in pairs:
        out[index[held]].append(index[want])
    return [[targets[i] for i in part] for part in _strong_parts(out)]


def _edges_of_life(model: Model, party: str) -> list[Edge]:
    """The life of a thread is like a lock that it holds until it ends, and that a join acquires."""
    edges = []
    for events, made in model.paths.get(party, {}).items():
        span = model.timing.span(party, made.occurs)
        for i, event in enumerate(events):
            if event.waits and event.op != "join":
                edges.append(Edge(party, Join(party), True, event.target, EXCLUSIVE[event.call], (), events, i, span))
    for it in model.alone(party):
        event = Event("read" if not it.is_exclusive else "write" if model.names.kind[it.name] != "mutex" else "lock", it.name)
        edges.append(Edge(party, Join(party), True, it.name, it.is_exclusive, (), (event,), 0, None))
    return edges


def written_locks(model: Model) -> set[Target]:
    """Locks that some thread acquires exclusively."""
    written: set[Target] = {it.name for party in model.names.parties for it in model.alone(party) if it.is_exclusive}
    for paths in model.paths.values():
        written |= {it.target for events in paths for it in events if it.call in ("write", "lock")}
    return written


class Clashes:
    """Whether a thread that waits at one edge may wait for a thread at another one."""

    def __init__(self, model: Model, edges: list[Edge]) -> None:
        self._bars: set[Target] = {e.want for e in edges if isinstance(e.want, str) and model.names.kind[e.want] == "bar"}
        self._written = written_locks(model) if self._bars else set()

    def __call__(self, e: Edge, f: Edge) -> bool:
        return e.wants_exclusively or f.is_held_exclusively or (e.want in self._bars and e.want in self._written)


class Late(Exception):
    """A search took longer than its time."""


def _alike(edges: list[Edge], by_guards: bool) -> list[list[Edge]]:
    """The edges in lots that circles cannot tell apart."""
    lots: dict[object, list[Edge]] = defaultdict(list)
    for e in edges:
        guards = frozenset(e.all_held) if by_guards else None
        lots[e.party, e.held, e.is_held_exclusively, e.want, e.wants_exclusively, guards, e.span].append(e)
    return list(lots.values())


def components(model: Model, edges: list[Edge], deadline: Deadline, by_guards: bool = False, by_mode: bool = True) -> list[list[Edge]]:
    """The edges on circles of edges at which different threads may stand, as strongly connected parts."""
    clash, timing, lots = Clashes(model, edges), model.timing, _alike(edges, by_guards)
    by_held: dict[Target, list[int]] = defaultdict(list)
    for i, lot in enumerate(lots):
        by_held[lot[0].held].append(i)
    out: list[list[int]] = []
    for i, lot in enumerate(lots):
        progress("edges of the lock order", i, len(lots))
        if deadline.is_over:
            raise Late
        e = lot[0]
        nexts = [(j, lots[j][0]) for j in by_held[e.want]]
        out.append(
            [
                j
                for j, f in nexts
                if (not by_mode or clash(e, f))
                and (e.party == f.party or timing.can_meet(e.span, f.span))  # the explorer knows how many threads a party has
                and not (by_guards and e.excludes(f))
            ]
        )
    found = []
    for part in _strong_parts(out):
        if len(part) > 1 or part[0] in out[part[0]] or lots[part[0]][0].held == lots[part[0]][0].want:
            found.append([e for k in part for e in lots[k]])
    return found


def _strong_parts(out: list[list[int]]) -> list[list[int]]:
    """Tarjan's algorithm without recursion."""
    number: dict[int, int] = {}
    low: dict[int, int] = {}
    stack: list[int] = []
    on_stack: set[int] = set()
    parts: list[list[int]] = []
    for root in range(len(out)):
        if root in number:
            continue
        work = [(root, iter(out[root]))]
        number[root] = low[root] = len(number)
        stack.append(root)
        on_stack.add(root)
        while work:
            v, rest = work[-1]
            w = next(rest, None)
            if w is None:
                work.pop()
                if work:
                    low[work[-1][0]] = min(low[work[-1][0]], low[v])
                if low[v] == number[v]:
                    part: list[int] = []
                    while not part or part[-1] != v:
                        part.append(stack.pop())
                    on_stack.difference_update(part)
                    parts.append(part[::-1])
            elif w not in number:
                number[w] = low[w] = len(number)
                stack.append(w)
                on_stack.add(w)
                work.append((w, iter(out[w])))
            elif w in on_stack:
                low[v] = min(low[v], number[w])
    return parts


def circles_of_threads(model: Model, edges: list[Edge], deadline: Deadline) -> Iterator[list[Edge]]:
    """Circles of edges at which different threads may stand at a time. Raises Late where not all could be looked at.

    A plan with a deadlock has such a circle, so without one there is no deadlock. This rule is argued, not proved.
    """
    clash = Clashes(model, edges)
    edges = [it[0] for it in _alike(edges, True)]
    by_held: dict[Target, list[int]] = defaultdict(list)
    for i, e in enumerate(edges):
        by_held[e.held].append(i)
    copies = {it: model.timing.copies(it) for it in model.names.parties}

    def fits(chain: list[int], f: Edge) -> bool:
        """Whether one more thread may stand at this edge while those of the chain stand at theirs."""
        if not clash(edges[chain[-1]], f) or sum(edges[k].party == f.party for k in chain) >= copies[f.party]:
            return False
        return all(not edges[k].excludes(f) and (edges[k].party == f.party or model.timing.can_meet(edges[k].span, f.span)) for k in chain)

    def of_length(start: int, least: int, most: int) -> Iterator[list[Edge]]:
        work, steps = [([start], iter(by_held[edges[start].want]))], 0
        while work:
            chain, rest = work[-1]
            j = next(rest, None)
            steps += 1
            if steps % 256 == 0 and deadline.is_over:
                raise Late
            if j is None:
                work.pop()
            elif j == start and least <= len(chain) and clash(edges[chain[-1]], edges[j]):
                yield [edges[k] for k in chain]
            elif j > start and len(chain) < most and j not in chain and fits(chain, edges[j]):
                work.append((chain + [j], iter(by_held[edges[j].want])))

    yield from ([e] for e in edges if e.held == e.want)
    for least, most in ((2, 2), (3, 3), (4, 4), (5, len(edges))):  # short ones are easier to understand
        for start in range(len(edges)):
            progress(f"circles of {least} threads, from edge", start, len(edges))
            if deadline.is_over:
                raise Late
            yield from of_length(start, least, most)


def targets_of(edges: list[Edge]) -> set[Target]:
    return {it for e in edges for it in (e.held, e.want)}
