"""Which paths a plan needs: those on circles of the lock order and the locks around them."""

from __future__ import annotations

from collections import defaultdict
from typing import NamedTuple

from .circles import Edge, targets_of
from .model import Event, Events, Join, Model, Target
from .plan import Places, Plan, maximal, project
from .record_file import Place

Cut = dict[str, dict[Events, Places]]  # party -> its paths, each up to its last edge on a circle


class Reduced(NamedTuple):
    plan: Plan
    core: set[Target]  # the locks on the circles
    around: set[Target]  # locks that exclude threads on them
    counts: dict[str, int]
    is_limited: bool  # there were more threads than the plan has


def _places(model: Model, e: Edge) -> Places:
    made = model.paths.get(e.party, {}).get(e.events)
    if made:
        return made.places
    return (next(it.place for it in model.alone(e.party) if it.name == e.want),)


def _add_writers(model: Model, core: set[Target], cut: Cut, counts: dict[str, int]) -> None:
    """A waiting writer of a lock with a bar keeps readers out, whatever else it holds."""
    bars = {it for it in core if isinstance(it, str) and model.names.kind[it] == "bar"}
    if not bars:
        return
    for party in model.names.parties:
        found: dict[Events, Places] = {}
        for it in model.alone(party):
            if it.name in bars and it.is_exclusive:
                found[(Event("write", it.name),)] = (it.place,)
        for events, made in model.paths.get(party, {}).items():
            for i, event in enumerate(events):
                if event.op == "write" and event.target in bars:
                    found[events[: i + 1]] = made.places[: i + 1]
        if found:
            mine = cut.setdefault(party, {})
            for events, places in found.items():
                mine.setdefault(events, places)
            counts.setdefault(party, min(model.timing.copies(party), 2))


def search_plan(model: Model, edges: list[Edge], most: int, head: list[str]) -> Reduced:
    """The plan of some circles, with at most so many copies of a party."""
    cut: Cut = defaultdict(dict)
    core = targets_of(edges)
    for e in edges:
        cut[e.party][e.events[: e.at + 1]] = _places(model, e)[: e.at + 1]
    # a circle needs each lock once, and a writer that waits for each lock with a bar
    size = len(core) * (2 if any(isinstance(it, str) and model.names.kind[it] == "bar" for it in core) else 1)
    counts = {party: min(model.timing.copies(party), size, most) for party in cut}
    _add_writers(model, core, cut, counts)
    users: dict[Target, int] = defaultdict(int)
    for party, paths in cut.items():
        for target in {it.target for events in paths for it in events}:
            users[target] += counts[party]
    # a lock outside the circles excludes something only if two threads use it on these paths
    keep = {it for it in users if it in core or users[it] > 1}
    for party, paths in cut.items():
        kept = dict(project(events, places, keep) for events, places in maximal(paths).items())
        cut[party] = maximal({events: places for events, places in kept.items() if events})
    model.names.load(it.site for paths in cut.values() for places in paths.values() for it in places)
    plan = Plan(model, head, counts)
    names = {it.target for paths in cut.values() for events in paths for it in events}
    plan.add_locks({it for it in names if isinstance(it, str)})
    for party in sorted(cut, key=list(model.names.parties).index):
        plan.add_party(party, counts[party], cut[party])
    for target in sorted(core, key=str):  # a party that is joined needs its line
        if isinstance(target, Join) and target.party not in cut:
            plan.add_party(target.party, 1, {})
    is_limited = any(min(model.timing.copies(party), size) > count for party, count in counts.items())
    return Reduced(plan, core, names - core, counts, is_limited)


Part = tuple[str, Events, Places]


def _in_turn(parts: list[Part]) -> list[Part]:
    """The parties of a circle in an order in which each can come to its wait: one that acquires and releases a lock on its way comes before
    those that hold it. Any order if there is none."""

    def releases(part: Part) -> set[Target]:
        return {it.target for it in part[1] if it.op == "release"}

    def holds(part: Part) -> set[Target]:
        return {it.target for it in part[1][:-1]} - releases(part)

    left, found = list(parts), []
    while left:
        first = next((it for it in left if not any(o is not it and releases(o) & holds(it) for o in left)), left[0])
        left.remove(first)
        found.append(first)
    return found


def circle_plan(model: Model, circle: list[Edge], head: list[str]) -> Plan:
    """A party for each thread of a circle, with its one path, as a schedule: each starts the next one when it has what it holds, and waits when the
    next one is about to wait. The writers that keep readers out begin at once. A deadlock of this plan is one without the starts and flags."""
    parts = _in_turn([(e.party, e.events[: e.at + 1], _places(model, e)[: e.at + 1]) for e in circle])
    bars = {it.target for _, events, _ in parts for it in events if isinstance(it.target, str) and model.names.kind[it.target] == "bar"}
    writers: dict[str, tuple[int, dict[Events, Places]]] = {}
    for party in model.names.parties if bars else ():
        free = min(len(bars), model.timing.copies(party) - sum(it[0] == party for it in parts))  # the others stand in the circle
        paths: dict[Events, Places] = {(Event("write", it.name),): (it.place,) for it in model.alone(party) if it.name in bars and it.is_exclusive}
        if free > 0 and paths:
            writers[party] = free, paths
    plan = Plan(model, head, {})
    model.names.load(it.site for _, _, places in parts for it in places)
    plan.add_locks({it.target for _, events, _ in parts for it in events if isinstance(it.target, str)})
    names = [f"{party}-circle{i + 1}" for i, (party, _, _) in enumerate(parts)]
    plan.add_flags([f"stands-{i + 1}" for i in range(1, len(parts))])
    for i, (party, events, places) in enumerate(parts):
        before = [f"start {names[i + 1]}", f"repeat until stands-{i + 2}", "end"] if i + 1 < len(parts) else []
        before += [f"set stands-{i + 1}"] if i > 0 else []
        plan.add_straight(names[i], party, events, places, tuple(before))
    for party, (free, paths) in writers.items():
        plan.add_party(party, free, paths)
    return plan


MOST_PATHS = 300  # of more, a plan of an order has the pairs of locks alone


def _as_pairs(paths: dict[Events, Places]) -> dict[Events, Places]:
    """Each lock below each one that was held, alone: an order of the locks asks for no more."""
    pairs: dict[Events, Places] = {}
    for events, places in paths.items():
        held: list[tuple[Event, Place]] = []
        for event, place in zip(events, places):
            if event.op == "release":
                held = [it for it in held if it[0].target != event.target]
                continue
            for outer, at in held if event.waits else []:
                pairs.setdefault((outer._replace(op=outer.call), event), (at, place))
            held.append((event, place))
    return pairs


def order_plan(model: Model, head: list[str]) -> tuple[Plan, set[Target]]:
    """All paths, for any number of threads, without their joins."""
    cut: Cut = {}
    for party, paths in model.paths.items():
        mine: dict[Events, Places] = {}
        for events, made in paths.items():
            kept = [(e, p) for e, p in zip(events, made.places) if e.op != "join"]
            mine[tuple(e for e, _ in kept)] = tuple(p for _, p in kept)
        mine = maximal({events: places for events, places in mine.items() if events})
        if mine:
            cut[party] = mine
    if sum(map(len, cut.values())) > MOST_PATHS:
        every = {events: places for paths in cut.values() for events, places in _as_pairs(paths).items()}
        cut = {"main": every}  # for any number of threads, whoever makes them
    names = {it.target for paths in cut.values() for events in paths for it in events}
    model.names.load(it.site for paths in cut.values() for places in paths.values() for it in places)
    plan = Plan(model, head, {})
    plan.add_locks({it for it in names if isinstance(it, str)})
    for party in sorted(cut, key=list(model.names.parties).index):
        plan.add_party(party, "*", cut[party])
    return plan, names
