"""Names of parties, locks and places, as plans and reports have them."""

from __future__ import annotations

import os
import re
from collections import defaultdict
from typing import Callable, Iterable, Optional

from .record_file import LOADED, Lock, Place, Record
from .symbols import Frame, Symbols

GENERIC = ("execute_native_thread_routine", "thread_start", "start_thread", "thread_routine")
SIZES = {"rwlock": 56, "rwlock-bar": 56, "spin": 4, "once": 4, "semaphore": 32, "plain-mutex": 0, "plain-rwlock": 0}
SEAT = 1 << 63  # of the address of the mutex that stands for the upgradable hold of a lock


def plain(text: str) -> str:
    """The text with no bytes but those that a name of a plan may have."""
    return re.sub(r"[^A-Za-z0-9_.-]+", "_", text).strip("_") or "x"


class Party:
    """The threads with one start function."""

    def __init__(self, name: str) -> None:
        self.name = name
        self.threads = 0
        self.tids: list[int] = []
        self.thread_names: set[str] = set()


class _Locks(dict[int, str]):
    """The names of locks by number. One that nobody asked about needs no symbols."""

    def __init__(self, name: Callable[[int], str]) -> None:
        super().__init__()
        self._name = name

    def __missing__(self, number: int) -> str:
        self[number] = self._name(number)
        return self[number]


class Names:
    def __init__(self, record: Record, bars: bool) -> None:
        self.record, self.symbols = record, Symbols(record.modules)
        self._bars = bars
        self.parties: dict[str, Party] = {}
        self.party_of: dict[int, str] = {}  # the party of the record -> its name
        self.lock: dict[int, str] = _Locks(self._name_lock)
        self.kind: dict[str, str] = {}  # mutex, rwlock or bar
        self.note: dict[str, str] = {}  # where a lock without a name of its own was made
        self._used: set[str] = set()
        self._index = self._indexes()
        self._inside: Optional[dict[str, list[int]]] = None  # static objects with their locks that are no pthreads
        self._name_parties()

    def load(self, sites: Iterable[int]) -> None:
        """Finds the lines of many places at once."""
        found = [self.record.sites[it] for it in set(sites) if it in self.record.sites]
        self.symbols.load([(frame - 1, it.epoch) for it in found for frame in it.frames])

    def frames(self, place: Optional[Place]) -> list[Frame]:
        """The frames of the stack of a call that are the program's own."""
        site = self.record.sites.get(place.site) if place else None
        return self.symbols.frames(site.frames, site.epoch) if site and site.frames else []

    def all_frames(self, place: Place) -> list[Frame]:
        site = self.record.sites.get(place.site)
        return self.symbols.all_frames(site.frames, site.epoch) if site and site.frames else []

    def place(self, place: Optional[Place]) -> str:
        """The source line of a call, and those of its callers up to main or the second one with a line."""
        if place is None:
            return "?"
        if place.woken:
            return "the end of the wait at " + self.place(Place(place.site))
        told: list[str] = []
        for frame in self.frames(place):
            told.append(f"{os.path.basename(frame.line)} ({frame.function})" if frame.line else frame.function)
            if frame.function == "main" or (frame.line and len(told) == 2) or len(told) == 3:
                break
        return " < ".join(told) or "?"

    def address(self, place: Place) -> Optional[str]:
        """The return address of a call that waits, as MODULE+OFFSET."""
        site = self.record.sites.get(place.site)
        if place.woken or not site or not site.frames:
            return None
        module = self.symbols.module(site.frames[0], site.epoch)
        if not module:
            return None
        return f"{'-' if self.symbols.is_program(module) else os.path.basename(module.path)}+{site.frames[0] - module.base:x}"

    def _outermost(self, sites: set[int]) -> Optional[str]:
        """The outermost frame of the program's own in a stack that goes down to where the C++ library starts the thread."""
        for it in sorted(sites):
            site = self.record.sites.get(it)
            if site and any(self.symbols.has_library("libstdc++", at - 1, site.epoch) for at in site.frames[1:]):
                frame = self.symbols.frames(site.frames, site.epoch)[-1]
                if frame.line:
                    return frame.function
        return None

    def _start(self, party: int, sites: set[int]) -> tuple[str, object]:
        """The name of a party, and what tells it from others of that name: a library's start function says nothing."""
        start, _, frames = self.record.parties[party]
        name = self.symbols.function(start)
        own = self.symbols.module(start)
        is_library = own is not None and re.match(r"libstdc|libc\+\+", os.path.basename(own.path)) is not None
        if not any(it in name for it in GENERIC) and not is_library:
            return name, name
        first = self._outermost(sites) if is_library else None
        if first:
            return first, first
        far = tuple(it for it in frames if self.symbols.module(it) != own or not own or ".so" not in own.path) or frames
        if not far:
            return name, name
        frame = self.symbols.frames(far)[0]
        return frame.function + (f"-{frame.line.split(':')[-1]}" if frame.line else ""), far

    def _sites_of_parties(self) -> dict[int, set[int]]:
        """Some places at which the threads of each party made calls."""
        found: dict[int, set[int]] = defaultdict(set)
        for path in self.record.paths + self.record.patterns:
            found[path.party].update(it.place.site for it in path.steps[:4])
        for note in self.record.notes:
            found[note.party].add(note.site)
        for present in self.record.present:
            found[present.party].update(it.place.site for it in present.path + ((present.waits,) if present.waits else ()))
        return {party: set(sorted(it)[:4]) for party, it in found.items()}

    def _name_parties(self) -> None:
        used: dict[str, int] = defaultdict(int)
        by_key: dict[object, str] = {}
        sites = self._sites_of_parties()
        self.load(it for number in self.record.parties for it in sites.get(number, ()))
        self.symbols.load([(frame, LOADED) for it in self.record.parties.values() for frame in (it.start, *(at - 1 for at in it.frames))])
        for number, it in sorted(self.record.parties.items()):
            name, key = ("main", "main") if number == 0 else ("unknown", "unknown") if number == 1 else self._start(number, sites.get(number, set()))
            if key not in by_key:
                name = plain(name)[:40]
                used[name] += 1
                by_key[key] = name if used[name] == 1 else f"{name}-{used[name]}"
                self.parties[by_key[key]] = Party(by_key[key])
            self.party_of[number] = by_key[key]
            self.parties[by_key[key]].threads += it.threads
        for tid, thread in self.record.threads.items():
            party = self.parties[self.party_of[thread.party]]
            party.tids.append(tid)
            if thread.name:
                party.thread_names.add(thread.name)

    def _made_at(self, lock: Lock) -> int:
        return self.record.classes[lock.cls].site if lock.cls is not None else lock.site

    def stem(self, site: int) -> str:
        """A name after the place that made a lock: the function and the line."""
        it = self.record.sites.get(site)
        frame = self.symbols.frames(it.frames, it.epoch)[0] if it and it.frames else None
        return "unknown" if not frame else frame.function + (f"-{frame.line.split(':')[-1]}" if frame.line else "")

    def _static_name(self, lock: Lock) -> Optional[str]:
        """The name of a static lock. A lock that is no pthread and is alone in its object has the name of the object."""
        if not lock.addr or lock.kind == "plain-seat":
            addr = lock.addr & ~SEAT
            return self._plain_name(addr) if addr else None
        if lock.kind.startswith("plain-"):
            return self._plain_name(lock.addr)
        return self.symbols.datum(lock.addr, SIZES.get(lock.kind, 40))

    def _plain_name(self, addr: int) -> Optional[str]:
        if self._inside is None:
            self._inside = defaultdict(list)
            for it in self.record.locks.values():
                name = self.symbols.datum(it.addr, 0) if it.addr and it.kind in ("plain-mutex", "plain-rwlock") else None
                if name:
                    self._inside[re.sub("-[0-9a-f]+$", "", name)].append(it.addr)
        name = self.symbols.datum(addr, 0)
        stem = re.sub("-[0-9a-f]+$", "", name) if name else ""
        return stem if name and self._inside.get(stem) == [addr] else name

    def _indexes(self) -> dict[int, int]:
        """The number of each lock among those that were made at its place, from 1."""
        count: dict[int, int] = defaultdict(int)
        found = {}
        for number, lock in sorted(self.record.locks.items(), key=lambda it: it[1].born):
            site = self._made_at(lock)
            count[site] += 1
            found[number] = count[site]
        return found

    def _name_lock(self, number: int) -> str:
        lock, note = self.record.locks[number], ""
        name = self._static_name(lock)
        if name is None:
            site = self._made_at(lock)
            is_alone = lock.cls is not None and self.record.classes[lock.cls].members == 1
            name = self.stem(site) + ("" if is_alone else f".{self._index[number]}")
            note = "made or first locked at " + self.place(Place(site))
        name = self.unused(plain(name)[:60] + (".upgradable" if lock.kind == "plain-seat" else ""))
        is_bar = lock.kind in ("rwlock-bar", "plain-rwlock") or (lock.kind == "rwlock" and self._bars)
        self.kind[name] = "bar" if is_bar else "rwlock" if lock.kind == "rwlock" else "mutex"
        self.note[name] = note or {"once": "pthread_once", "semaphore": "a semaphore of one permit", "spin": "a spin lock"}.get(lock.kind, "")
        return name

    def unused(self, stem: str) -> str:
        """A name that no other lock has."""
        name, count = stem, 1
        while name in self._used:
            count += 1
            name = f"{stem}-{count}"
        self._used.add(name)
        return name
