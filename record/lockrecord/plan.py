"""The text of a plan, as a person reads and changes it: each acquisition has its source line as a comment."""

from __future__ import annotations

from typing import Union

from .model import Event, Events, Join, Model, Target
from .record_file import Place

Places = tuple[Place, ...]
Tree = dict[Event, "Tree"]
PAD = "    "
READERS = 1_000_000  # a limit that no program reaches


def maximal(paths: dict[Events, Places]) -> dict[Events, Places]:
    """The paths without those that another one begins with."""
    starts = {it[:i] for it in paths for i in range(1, len(it))}
    return {events: places for events, places in paths.items() if events not in starts}


def project(events: Events, places: Places, keep: set[Target]) -> tuple[Events, Places]:
    """The part of a path that acquires these locks."""
    out: list[tuple[Event, Place]] = []
    held: list[Target] = []
    for event, place in zip(events, places):
        if event.target not in keep:
            continue
        if event.op == "release":
            if event.target not in held:
                continue
            held.remove(event.target)
            if out and out[-1][0].target == event.target and out[-1][0].op != "release":
                out.pop()
                continue
        elif event.op != "join":
            held.append(event.target)
        out.append((event, place))
    while out and out[-1][0].op == "release":
        out.pop()
    return tuple(it for it, _ in out), tuple(it for _, it in out)


class Plan:
    def __init__(self, model: Model, head: list[str], counts: dict[str, int]) -> None:
        self._model, self._counts = model, counts
        self.lines = [f"# {it}" for it in head]
        self.places: dict[int, Place] = {}  # line, from 1 -> where its call is
        self.locks: set[str] = set()
        self._sites: dict[tuple[str, Events], Place] = {}

    @property
    def text(self) -> str:
        return "\n".join(self.lines) + "\n"

    def add_locks(self, names: set[str]) -> None:
        self.lines.append("")
        self.locks |= names
        for name in sorted(names):
            kind, note = self._model.names.kind[name], self._model.names.note.get(name)
            line = {"mutex": f"mutex {name}", "rwlock": f"rwlock {name} {READERS}", "bar": f"rwlock {name} {READERS} bar"}[kind]
            self.lines.append(f"{line}{PAD}# {note}" if note else line)

    def add_flags(self, names: list[str]) -> None:
        self.lines += [f"flag {it}" for it in names]

    def add_straight(self, name: str, party: str, events: Events, places: Places, before: tuple[str, ...]) -> None:
        """A party that makes one path once. Other lines come before its last call."""
        self.lines += ["", f"party {name}{self._about(party)}"]
        for i, place in enumerate(places):
            self._sites.setdefault((name, events[: i + 1]), place)
        self._straight(name, 1, events, 0, [], before)

    def add_party(self, party: str, count: Union[int, str], paths: dict[Events, Places]) -> None:
        """A party whose threads make any of these paths, any number of times."""
        name = party
        self.lines += ["", f"party {name}{'' if count == 1 else f' {count}'}{self._about(party)}"]
        tree: Tree = {}
        others: list[Events] = []
        for events, places in sorted(paths.items(), key=repr):
            for i, place in enumerate(places):
                self._sites.setdefault((name, events[: i + 1]), place)
            if any(it.op == "release" for it in events):
                others.append(events)
                continue
            at = tree
            for event in events:
                at = at.setdefault(event, {})
        if not paths:
            return
        self.lines.append(f"{PAD}repeat")
        self._branch(name, 2, (), tree, others)
        self.lines.append(f"{PAD}end")

    def _about(self, party: str) -> str:
        it = self._model.names.parties[party]
        names = sorted(it.thread_names)
        called = f", named {', '.join(names[:4])}{' ..' if len(names) > 4 else ''}" if names else ""
        return f"{PAD}# {it.threads} threads{called}" if it.threads > 1 or called else ""

    def _branch(self, name: str, depth: int, prefix: Events, tree: Tree, others: list[Events]) -> None:
        several = len(tree) + len(others) > 1
        words = iter(["either"] + ["or"] * (len(tree) + len(others)))
        for event, rest in tree.items():
            self.lines += [PAD * depth + next(words)] * several
            self._node(name, depth + several, prefix + (event,), rest)
        for events in others:
            self.lines += [PAD * depth + next(words)] * several
            self._straight(name, depth + several, events, 0, [])
        if several:
            self.lines.append(PAD * depth + "end")

    def _call(self, event: Event) -> str:
        if isinstance(event.target, Join):
            party = event.target.party
            return f"join {party}{'' if self._counts.get(party, 1) == 1 else '.1'}"
        return f"{event.call if self._model.names.kind[event.target] != 'mutex' else 'lock'} {event.target}"

    def _undo(self, event: Event) -> list[str]:
        if isinstance(event.target, Join):
            return []
        return [f"{'unlock' if self._model.names.kind[event.target] == 'mutex' else 'unlock_' + event.call} {event.target}"]

    def _add_call(self, name: str, depth: int, events: Events) -> None:
        event, place = events[-1], self._sites.get((name, events))
        line = PAD * depth + ("try " if event.op.startswith("try-") else "") + self._call(event)
        told = self._model.names.place(place)
        self.lines.append(line if told == "?" else f"{line}{PAD}# {told}")
        if place:
            self.places[len(self.lines)] = place

    def _node(self, name: str, depth: int, events: Events, rest: Tree) -> None:
        """A call with all that paths do below it."""
        is_try = events[-1].op.startswith("try-")
        self._add_call(name, depth, events)
        if rest:
            self._branch(name, depth + is_try, events, rest, [])
        self.lines += [PAD * (depth + is_try) + it for it in self._undo(events[-1])]
        if is_try:
            self.lines += [PAD * depth + "else", PAD * depth + "end"]

    def _straight(self, name: str, depth: int, events: Events, i: int, held: list[Event], before: tuple[str, ...] = ()) -> None:
        """A path that releases a lock before a later one that it encloses."""
        if i == len(events):
            self.lines += [PAD * depth + it for e in reversed(held) for it in self._undo(e)]
            return
        event = events[i]
        if event.op == "release":
            mine = [it for it in held if it.target == event.target][-1:]
            self.lines += [PAD * depth + it for e in mine for it in self._undo(e)]
            self._straight(name, depth, events, i + 1, [it for it in held if it not in mine], before)
            return
        if i == len(events) - 1:
            self.lines += [PAD * depth + it for it in before]
        self._add_call(name, depth, events[: i + 1])
        is_try = event.op.startswith("try-")
        self._straight(name, depth + is_try, events, i + 1, held + [event], before)
        if is_try:
            self.lines.append(PAD * depth + "else")
            self._straight(name, depth + 1, (), 0, held)
            self.lines.append(PAD * depth + "end")
