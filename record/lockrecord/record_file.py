"""The lines of a record file."""

from __future__ import annotations

from dataclasses import dataclass, field
from typing import NamedTuple, Optional

ITSELF = 0xFF  # the place of a lock that stands for itself
LOADED = 0xFFFFFFFF  # the last epoch of a module that is still there


class BadRecord(Exception):
    """The file is no whole record."""


class Place(NamedTuple):
    """The stack of a call. `woken`: the acquisition at the end of a wait on a condition variable."""

    site: int
    woken: bool = False


class Step(NamedTuple):
    """A call on a path. `target` is a lock, a class if `by_use` is not ITSELF, or the party that is joined."""

    op: str
    target: int
    place: Place
    by_use: int = ITSELF
    by_addr: int = 0
    by_age: int = 0


# The threads that made a path, each in one of its segments; None: any thread of the party, at any time.
Occurs = Optional[frozenset[tuple[int, int]]]


class Path(NamedTuple):
    party: int
    steps: tuple[Step, ...]
    occurs: Occurs


class Module(NamedTuple):
    base: int
    end: int
    first: int
    last: int
    path: str


class Site(NamedTuple):
    epoch: int
    frames: tuple[int, ...]


class Party(NamedTuple):
    start: int
    threads: int
    frames: tuple[int, ...]


class Thread(NamedTuple):
    party: int
    parent: tuple[int, int]
    joined: Optional[tuple[int, int]]
    name: str


class Flat(NamedTuple):
    """The parties that acquired a lock and held nothing else, as bits, and one place of it."""

    parties: int
    place: Place


class LockClass(NamedTuple):
    """The locks that were made at one place."""

    site: int
    members: int
    flat: tuple[Flat, Flat]  # shared, exclusive
    falls_back: bool


class Lock(NamedTuple):
    addr: int
    kind: str
    cls: Optional[int]
    site: int
    born: int
    handed: bool
    falls_back: bool


class Note(NamedTuple):
    """A wait or a notification, and the locks that its thread held, but for the mutex of the wait."""

    kind: str
    party: int
    object: str
    mutex: int  # of the wait; or the lock that a signal handler or a forked child acquires
    site: int
    held: frozenset[int]


class Present(NamedTuple):
    """What a thread did when the record was written."""

    tid: int
    party: int
    segment: int
    path: tuple[Step, ...]
    waits: Optional[Step]
    sleeps: Optional[tuple[str, str, int]]  # kind, object, site


@dataclass
class Record:
    why: str = "?"
    modules: list[Module] = field(default_factory=list)
    parties: dict[int, Party] = field(default_factory=dict)
    threads: dict[int, Thread] = field(default_factory=dict)
    sites: dict[int, Site] = field(default_factory=dict)
    classes: dict[int, LockClass] = field(default_factory=dict)
    locks: dict[int, Lock] = field(default_factory=dict)
    flat: dict[int, tuple[Flat, Flat]] = field(default_factory=dict)
    paths: list[Path] = field(default_factory=list)
    patterns: list[Path] = field(default_factory=list)
    notes: list[Note] = field(default_factory=list)
    present: list[Present] = field(default_factory=list)
    limits: dict[str, int] = field(default_factory=dict)
    missing: list[str] = field(default_factory=list)
    stats: dict[str, int] = field(default_factory=dict)


def _step(word: str) -> Step:
    op, target, site, *more = word.split(":")
    woken = "woken-" in op
    return Step(op.replace("woken-", ""), int(target), Place(int(site), woken), *map(int, more))


def _path(words: list[str]) -> Path:
    bar = words.index("|")
    occurs = None if "any" in words[bar:] else frozenset((int(t), int(s)) for t, s in (it.split(".") for it in words[bar + 1 :]))
    return Path(int(words[0]), tuple(map(_step, words[1:bar])), occurs)


def _present(words: list[str]) -> Present:
    path, waits, sleeps, before = [], None, None, ""
    for word in words[3:]:
        if before == "waits":
            waits = _step(word)
        elif before == "sleeps":
            kind, what, site = word.split(":")
            sleeps = (kind, what, int(site))
        elif word not in ("waits", "sleeps"):
            path.append(_step(word))
        before = word
    return Present(int(words[0]), int(words[1]), int(words[2]), tuple(path), waits, sleeps)


def _flat(words: list[str]) -> tuple[Flat, Flat]:
    shared, exclusive = (Flat(int(bits, 16), Place(int(site))) for bits, site in (it.split(":") for it in words))
    return shared, exclusive


def _hexes(words: list[str]) -> tuple[int, ...]:
    return tuple(int(it, 16) for it in words)


def _read_program(record: Record, kind: str, w: list[str], line: str) -> None:
    if kind == "module":
        record.modules.append(Module(int(w[0], 16), int(w[1], 16), int(w[2]), int(w[3]), line.rstrip("\n").split(" ", 5)[-1]))
    elif kind == "party":
        record.parties[int(w[0])] = Party(int(w[1], 16), int(w[2]), _hexes(w[4:]))
    elif kind == "thread":
        joined = (int(w[5]), int(w[6])) if w[4] == "joined" else None
        record.threads[int(w[0])] = Thread(int(w[1]), (int(w[2]), int(w[3])), joined, " ".join(w[7:]))
    elif kind == "site":
        record.sites[int(w[0])] = Site(int(w[1]), _hexes(w[2:]))
    elif kind == "why":
        record.why = w[0]
    elif kind == "limit":
        record.limits[w[0]] = int(w[1])
    elif kind == "missing":
        record.missing.append(w[0])
    elif kind == "stats":
        record.stats = {name: int(count) for name, count in zip(w[::2], w[1::2])}


def _read_locks(record: Record, kind: str, w: list[str]) -> None:
    if kind == "class":
        record.classes[int(w[0])] = LockClass(int(w[1]), int(w[2]), _flat(w[3:5]), "falls-back" in w)
    elif kind == "lock":
        cls = int(w[3][1:]) if w[3][0] == "c" else None
        record.locks[int(w[0])] = Lock(int(w[1], 16), w[2], cls, int(w[4]), int(w[5]), "handed" in w, "falls-back" in w)
    elif kind == "flat":
        record.flat[int(w[0])] = _flat(w[1:3])
    elif kind == "path":
        record.paths.append(_path(w))
    elif kind == "pattern":
        record.patterns.append(_path(w))
    elif kind in ("wait", "timedwait", "notify", "barrier", "futex", "handler", "forked"):
        record.notes.append(Note(kind, int(w[0]), w[1], int(w[2]), int(w[3]), frozenset(map(int, w[4:]))))
    elif kind == "now":
        record.present.append(_present(w))


def executable_of(path: str) -> str:
    """The file name of the program that wrote a record, or nothing."""
    try:
        with open(path, encoding="utf-8", errors="replace") as file:
            line = next((it for it in file if it.startswith("module ")), "")
    except OSError:
        return ""
    return line.rstrip("\n").split(" ", 5)[-1].rsplit("/", 1)[-1]


CUT = "is cut off: was the disk full, or the program killed while it wrote?"


def read_record(path: str) -> Record:
    """Reads a record. A record that does not end by its last line was cut off."""
    record, last = Record(), ""
    try:
        with open(path, encoding="utf-8", errors="replace") as file:
            if file.readline() != "lockrecord 2\n":
                raise BadRecord(f"{path} is no record of this version of lockrecord")
            for line in file:
                kind, *words = line.split() or [""]
                _read_program(record, kind, words, line)
                _read_locks(record, kind, words)
                last = line
    except (ValueError, IndexError, TypeError) as fault:
        is_whole = line.endswith("\n")
        raise BadRecord(f"{path} has a line that is none of a record: {line.strip()[:60]}" if is_whole else f"{path} {CUT}") from fault
    except OSError as fault:
        raise BadRecord(f"{path}: {fault.strerror}") from fault
    if last != "end\n":
        raise BadRecord(f"{path} {CUT}")
    return record
