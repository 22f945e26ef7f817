"""The paths of the record over names. A few locks stand for the many of a class whose patterns overflowed."""

from __future__ import annotations

import itertools
from collections import defaultdict
from typing import NamedTuple, Optional, Union

from .names import Names, plain
from .record_file import ITSELF, Occurs, Path, Place, Record, Step
from .report import progress
from .suppressions import NO_SUPPRESSIONS, Suppressions
from .symbols import TRIES_ALL
from .timing import Timing

LATE = 100  # the place of a lock of a class that was small when the pattern was recorded: any other one may be meant
FEW = 6  # most locks that stand for the many of a class


class Join(NamedTuple):
    """What a join waits for: the end of a thread of this party."""

    party: str


Target = Union[str, Join]  # a lock by its name, or a join


class Event(NamedTuple):
    op: str  # lock, read, write, release or join; `try-` before it
    target: Target

    @property
    def call(self) -> str:
        return self.op.replace("try-", "")

    @property
    def waits(self) -> bool:
        return self.op != "release" and not self.op.startswith("try-")


Events = tuple[Event, ...]


class Made(NamedTuple):
    """Where the calls of a path are, and when it was made."""

    places: tuple[Place, ...]
    occurs: Occurs


class PatternStep(NamedTuple):
    op: str
    target: int
    is_class: bool
    by_use: int
    by_addr: int
    by_age: int


class Alone(NamedTuple):
    """A lock that some thread acquired while it held nothing else."""

    name: str
    is_exclusive: bool
    place: Place


Patterns = dict[tuple[int, tuple[PatternStep, ...]], Made]


def union(one: Occurs, two: Occurs) -> Occurs:
    return None if one is None or two is None else one | two


class Group(NamedTuple):
    """The locks of a class for which a few stand."""

    members: int
    how: str
    names: list[str]
    is_by_age: bool


class Model:
    """What the plans are made from."""

    def __init__(self, record: Record, bars: bool, tries_wait: bool, suppressions: Suppressions = NO_SUPPRESSIONS) -> None:
        self.record, self.names = record, Names(record, bars)
        self.timing = Timing(self.names)
        self.tries_wait, self.fell_back = tries_wait, set[str]()
        self._suppressions, self._suppressed = suppressions, dict[int, bool]()
        self._tries_all = dict[int, bool]()
        self.groups: dict[int, Group] = {}
        self.paths: dict[str, dict[Events, Made]] = defaultdict(dict)
        self._overflowed = {s.target for p in record.patterns for s in p.steps if s.by_use != ITSELF and s.op != "join"}
        patterns = self._collect()
        self._make_groups(patterns)
        for i, ((party, steps), made) in enumerate(patterns.items()):
            progress("patterns", i, len(patterns))
            self._expand(party, steps, made)

    def alone(self, party: str) -> list[Alone]:
        """What threads of the party acquired while they held nothing else."""
        bits = sum({1 << min(number, 63) for number, name in self.names.party_of.items() if name == party})
        flats = [([self.names.lock[n]], flat) for n, flat in self.record.flat.items() if self.record.locks[n].cls not in self.groups]
        flats += [(group.names, self.record.classes[cls].flat) for cls, group in self.groups.items()]
        return [Alone(name, i == 1, flat[i].place) for names, flat in flats for i in range(2) if flat[i].parties & bits for name in names]

    @property
    def suppressed(self) -> int:
        """How many places of acquisitions a suppression names."""
        return sum(self._suppressed.values())

    def _is_suppressed(self, site: int) -> bool:
        if not self._suppressions:
            return False
        if site not in self._suppressed:
            self._suppressed[site] = self._suppressions.matches(self.names.all_frames(Place(site)))
        return self._suppressed[site]

    def _is_of_several(self, place: Place) -> bool:
        """Whether std::lock or std::scoped_lock made the call."""
        if place.site not in self._tries_all:
            self._tries_all[place.site] = any(TRIES_ALL.search(it.function) for it in self.names.all_frames(place))
        return self._tries_all[place.site]

    def _turned(self, path: Path) -> list[Path]:
        """The ways through std::lock: it waits for one lock, and tries the others. After a refusal it releases what it has, and waits for the lock
        that was refused. So each of them may be the one that it waits for, below what was held before."""
        found = [path]
        for i in range(1, len(path.steps)):
            before, first = path.steps[i - 1], path.steps[i]
            if not first.op.startswith("try-") or before.op not in ("lock", "write") or not self._is_of_several(first.place):
                continue
            end = i + 1
            while end < len(path.steps) and path.steps[end].op.startswith("try-") and self._is_of_several(path.steps[end].place):
                end += 1
            own = path.steps[i - 1 : end]
            for k in range(1, len(own)):
                turned = [own[k]._replace(op=own[k].op[4:])] + [it._replace(op="try-" + it.op.replace("try-", "")) for it in own[k + 1 :] + own[:k]]
                found.append(path._replace(steps=path.steps[: i - 1] + tuple(turned) + path.steps[end:]))
        return found

    def _op(self, op: str, lock: Optional[int], cls: Optional[int] = None, site: int = 0) -> str:
        """A try whose refusal was seen to lead to a wait for the lock is an acquisition that may wait. A suppressed wait counts as a try."""
        if not op.startswith("try-"):
            return f"try-{op}" if op != "release" and self._is_suppressed(site) else op
        it = self.record.locks[lock] if lock is not None else None
        cls = it.cls if it else cls
        falls_back = self.tries_wait or (it is not None and it.falls_back) or (cls is not None and self.record.classes[cls].falls_back)
        if not falls_back:
            return op
        self.fell_back.add(self.names.lock[lock] if lock is not None else f"class {cls}")
        return op[4:]

    def _present_paths(self) -> list[Path]:
        """What was under way when the record was written."""
        paths = []
        for it in self.record.present:
            steps = it.path + ((it.waits,) if it.waits and it.waits.op in ("lock", "read", "write", "join") else ())
            if len(steps) > 1:
                paths.append(Path(it.party, steps, frozenset([(it.tid, it.segment)])))
        return paths

    def _collect(self) -> Patterns:
        patterns: Patterns = {}
        recorded = self.record.paths + self._present_paths()
        tries = {it.place.site for path in recorded for it in path.steps if it.op.startswith("try-")}
        self.names.load(tries if not self._suppressions else {it.place.site for path in recorded for it in path.steps})
        paths = [turned for it in recorded for turned in (self._turned(it) if tries else [it])]
        for i, path in enumerate(paths):
            progress("paths", i, len(paths))
            if any(s.op != "join" and self.record.locks[s.target].cls in self._overflowed for s in path.steps):
                self._add_pattern(patterns, path, self._as_pattern(path.steps))
            else:
                self._add(path.party, [(s.op if s.op == "join" else self._op(s.op, s.target, site=s.place.site), self._target(s)) for s in path.steps], _made(path))
        for path in self.record.patterns:
            self._add_pattern(patterns, path, self._late(path.steps))
        return patterns

    def _target(self, step: Step) -> Target:
        return Join(self.names.party_of[step.target]) if step.op == "join" else self.names.lock[step.target]

    def _add(self, party: int, events: list[tuple[str, Target]], made: Made) -> None:
        paths, key = self.paths[self.names.party_of[party]], tuple(Event(*it) for it in events)
        old = paths.get(key)
        paths[key] = Made(made.places, union(old.occurs, made.occurs)) if old else made

    @staticmethod
    def _add_pattern(patterns: Patterns, path: Path, steps: tuple[PatternStep, ...]) -> None:
        made, old = _made(path), patterns.get((path.party, steps))
        patterns[path.party, steps] = Made(made.places, union(old.occurs, made.occurs)) if old else made

    def _as_pattern(self, steps: tuple[Step, ...]) -> tuple[PatternStep, ...]:
        """A path as a pattern: the place of each lock among those of its class, by first use, address and age."""
        locks, result = self.record.locks, []
        for s in steps:
            cls = locks[s.target].cls if s.op != "join" else None
            if cls is None or cls not in self._overflowed:
                result.append(PatternStep(s.op if s.op == "join" else self._op(s.op, s.target, site=s.place.site), s.target, False, ITSELF, 0, 0))
                continue
            mates: list[int] = []
            for o in steps:
                if o.op not in ("join", "release") and locks[o.target].cls == cls and o.target not in mates:
                    mates.append(o.target)
            it = locks[s.target]
            by_addr = sum((locks[m].addr or locks[m].born) < (it.addr or it.born) for m in mates)
            by_age = sum(locks[m].born < it.born for m in mates)
            result.append(PatternStep(self._op(s.op, s.target, site=s.place.site), cls, True, mates.index(s.target), by_addr, by_age))
        return tuple(result)

    def _late(self, steps: tuple[Step, ...]) -> tuple[PatternStep, ...]:
        """The steps of a pattern. A lock that stood for itself may be one of a class that has grown since."""
        late: dict[int, list[int]] = defaultdict(list)
        result = []
        for s in steps:
            target, is_class, by_use = s.target, s.op != "join" and s.by_use != ITSELF, s.by_use
            cls = None if s.op == "join" or is_class else self.record.locks[s.target].cls
            if cls is not None and cls in self._overflowed:
                if s.target not in late[cls]:
                    late[cls].append(s.target)
                target, is_class, by_use = cls, True, LATE + late[cls].index(s.target)
            op = s.op if s.op == "join" else self._op(s.op, None, target, s.place.site) if is_class else self._op(s.op, s.target, site=s.place.site)
            result.append(PatternStep(op, target, is_class, by_use, s.by_addr, s.by_age))
        return tuple(result)

    def _make_groups(self, patterns: Patterns) -> None:
        """One lock more than a path has of a class stands for all of the class, in the order that all paths keep, if there is one."""
        most: dict[int, int] = defaultdict(int)
        by_addr: dict[int, bool] = defaultdict(lambda: True)
        by_age: dict[int, bool] = defaultdict(lambda: True)
        for _, steps in patterns:
            for s in steps:
                if s.is_class:
                    most[s.target] = max(most[s.target], len({o.by_use for o in steps if o.is_class and o.target == s.target}))
                    by_addr[s.target] &= s.by_addr == s.by_use
                    by_age[s.target] &= s.by_age == s.by_use
        for cls, count in most.items():
            it = self.record.classes[cls]
            stem = plain(self.names.stem(it.site))[:50] + ".any"
            is_by_age = by_age[cls] and not by_addr[cls]
            order = "in the order of addresses" if by_addr[cls] else "in the order of age" if is_by_age else "in any order"
            names = [self.names.unused(f"{stem}{i + 1}") for i in range(min(max(2, count + 1), FEW))]
            self.groups[cls] = Group(it.members, order if count > 1 else "one at a time", names, is_by_age)
            kinds = {self.names.kind[self.names.lock[n]] for n, lock in self.record.locks.items() if lock.cls == cls}
            for name in names:
                self.names.kind[name] = kinds.copy().pop() if len(kinds) == 1 else "mutex"
                self.names.note[name] = f"any of {it.members} made at {self.names.place(Place(it.site))}"

    def _expand(self, party: int, steps: tuple[PatternStep, ...], made: Made) -> None:
        """Adds the pattern's paths over the few locks of its groups, in each choice that the order allows."""
        used: dict[int, dict[int, int]] = {}
        for s in steps:
            if s.is_class:
                used.setdefault(s.target, {})[s.by_use] = s.by_age if self.groups[s.target].is_by_age else s.by_addr
        choices = []
        for cls, ranks in used.items():
            order = sorted(ranks, key=lambda it: ranks[it])
            pick = itertools.permutations if len(ranks) > 1 and any(it >= LATE for it in ranks) else itertools.combinations
            choices.append([(cls, dict(zip(order, names))) for names in pick(self.groups[cls].names, len(order))])
        for choice in itertools.product(*choices):
            at = dict(choice)
            events: list[tuple[str, Target]] = []
            for s in steps:
                if s.op == "join":
                    events.append((s.op, Join(self.names.party_of[s.target])))
                else:
                    events.append((s.op, at[s.target][s.by_use] if s.is_class else self.names.lock[s.target]))
            self._add(party, events, made)


def _made(path: Path) -> Made:
    return Made(tuple(s.place for s in path.steps), path.occurs)
