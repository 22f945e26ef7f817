#!/usr/bin/env python3
"""Makes every interleaving of a few calls by the shared library of lock_c on one word, and tests each state.

usage: .ci/foreign_explore.py LIBRARY

No thread sleeps for ever, the word is never one of modes that exclude each other, and at the end the lock is free. After
the step that releases, a call wakes or ends. A sleep compares the word with its number, and may end early or by its
deadline. Then it does so with waits and notifications of a condition variable. With one kind of wake-up left out, some
state is stuck. The last line is 'N passed, M failed'.
"""
import ctypes
import functools
import itertools
import pathlib
import re
import sys

sys.dont_write_bytecode = True
ROOT = pathlib.Path(__file__).resolve().parent.parent
sys.path.insert(0, f"{ROOT}/model")
from explorer import Step, Threads, load, report, update

U64, U32, U8 = ctypes.c_uint64, ctypes.c_uint32, ctypes.c_uint8
(LOAD, EXCHANGE, SUBTRACT, OR, SLEEP, SLEEP_NEXT, WAKE_ONE, WAKE_ALL, WAKE_NEXT,
 SPIN, YIELD, REFUSED, DONE, UNLOCK, LOCK, SLEEP_READER, WAKE_TURN) = range(17)
IS_LATE, IS_OVER = 32, 64  # the answers to a sleep after its deadline, and after the time of a brief sleep
SLEEPS = {SLEEP: "asleep", SLEEP_NEXT: "next", SLEEP_READER: "reader"}
ACQUIRE, TIMED, TRY, RELEASE, RELEASED, EVENT = range(6)
SHARED, EXCLUSIVE, UPGRADABLE, UPGRADE, TO_UPGRADABLE, UPGRADABLE_TO_SHARED = range(6)
TO_SHARED = UPGRADE
WAIT, NOTIFY_ONE, NOTIFY_ALL = range(3)
LAST_EPOCH, ONE_WAIT = 2**32 - 1, 2**40
REGISTERED = 2  # the stage of a wait that has registered
NO_PAUSES = 1000
PREFIX = re.search(r'"(lock_c_\d+_)"', (ROOT / "foreign/c/lock_c.h").read_text(encoding="utf-8"))[1]
WAKES = {WAKE_ONE: "one", WAKE_ALL: "all", WAKE_NEXT: "next", WAKE_TURN: "turn"}
WORD, FREE, TOKENS = range(3)  # threads share the word, or that of a condition variable, a mutex and tokens


def structure(name, fields):
    return type(name, (ctypes.Structure,), {"_fields_": fields})


Call = structure("Call", [("readers", U64), ("loaded", U64), ("left", U64), ("stage", U32), ("want", U32), ("down", U32),
                          ("pauses", U32), ("blocks", U8), ("announces", U8), ("announced", U8), ("late", U8), ("sleeps", U8), ("turned", U8)])
Event = structure("Event", [("loaded", U64), ("epoch", U64), ("stage", U32), ("lost", U32), ("all", U8), ("late", U8)])
Action = structure("Action", [("action", U32), ("place", U32), ("first", U32), ("second", U32)])
EventAction = structure("EventAction", [("action", U64), ("first", U64), ("second", U64)])


def values(it):
    return tuple(getattr(it, name) for name, _ in it._fields_)


def made(name, call, *words):
    """The call and its next step, after this function of the library: the action, and its numbers."""
    function = LIBRARY[PREFIX + name]
    function.restype = EventAction if isinstance(call, Event) else Action
    step = function(ctypes.byref(call), *words)
    return values(call), (step.action, step.first, step.second)


@functools.lru_cache(None)
def answered(kind, call, found):
    """The call and its next step after the answer. A call on a lock has made its pauses."""
    call = kind(*call)
    if kind is Event:
        return made("next_event", call, U64(found))
    call.pauses = NO_PAUSES
    return made("next", call, U32(found))


class Calls(Threads):
    """Threads that make calls of the library. What is `lost` is a kind of wake-up. With `early`, sleeps end early."""

    ones = 2**32 - 1  # the bits of the word

    def __init__(self, early, lost):
        super().__init__()
        self.early, self.lost = early, lost

    def go(self, then, act, call, step):
        """A call from this step on. `then` tells the calls after it."""
        action, first, second = step
        if action in (REFUSED, DONE):
            return then(action)
        assert act != RELEASED or action in WAKES, "a call goes on after its release"
        if action in SLEEPS:
            found = 0
            if (yield load(WORD, lambda number: self.number_of(number) == first)):
                ends = [0] * self.early + [IS_LATE] * (act == TIMED) + [IS_OVER] * second
                found = yield Step(lambda *now: [(now, it) for it in ends], SLEEPS[action])
                if found is None:  # woken, and perhaps late as well
                    found = yield Step(lambda *now: [(now, it) for it in (0, IS_LATE)[:1 + (act == TIMED)]])
        elif action in (LOCK, UNLOCK):
            found = (yield update(FREE, lambda free: None if free == (action == UNLOCK) else not free)) or 0
        elif action in (LOAD, EXCHANGE, SUBTRACT, OR):
            change = {LOAD: lambda now: now, EXCHANGE: lambda now: second if now == first else now,
                      SUBTRACT: lambda now: now - first & self.ones, OR: lambda now: now | first}[action]
            found = yield update(WORD, change, lambda now: now)
            if act == RELEASE and (action == SUBTRACT or action == EXCHANGE and found == first):
                act = RELEASED
        else:
            found = yield load(WORD, lambda _: 0, wakes="" if action == self.lost else WAKES.get(action, ""))
        return [(self.go, then, act, *answered(Event if act == EVENT else Call, call, found))]

    def fault(self, state, after):
        shared, threads = state
        steps = [self.step(it) for it in threads if self.calls_of[it]]
        is_stuck = steps and not any(self.goes_on(it, shared) for it in steps)
        return "stuck" if is_stuck else "a wrong word" if self.is_wrong(bool(steps), *shared) else None

    @staticmethod
    def number_of(word):
        """What a sleep compares."""
        return word

    @staticmethod
    def goes_on(step, shared):
        """Whether the thread can make its step. A sleep ends by its deadline, and need not end early."""
        return any(step.kind == "" or found for _, found in step.act(*shared))


class Lock(Calls):
    """Threads at a lock for so many readers, each with a program."""

    sleeps = 0

    def __init__(self, readers, programs, early=False, lost=None):
        super().__init__(early, lost)
        self.readers, self.programs = readers, programs

    def start(self):
        return (0,), [self.acts(tuple(it)) for it in self.programs]

    @functools.lru_cache(None)
    def acts(self, program):
        """The next call of a thread."""
        if not program:
            return []
        (act, mode), *rest = program
        if act == RELEASE:
            begun = made("release", Call(), U32(self.readers), U32(mode))
        else:
            call, step = made("acquire", Call(), U32(self.readers), U32(mode), U8(act != TRY), U8(mode == EXCLUSIVE))
            begun = (*call[:-2], self.sleeps, call[-1]), step
        # a refused thread makes no more calls, but keeps no upgradable hold
        refused = [(RELEASE, UPGRADABLE)] * (act != RELEASE and mode == UPGRADE)
        return [(self.go, functools.partial(self.after, tuple(rest), tuple(refused)), act, *begun)]

    def after(self, rest, refused, action):
        return self.acts(refused if action == REFUSED else rest)

    def is_wrong(self, going, word):
        readers, exclusive, upgradable = word >> 5, word >> 1 & 1, word & 1
        is_sum = readers <= self.readers and (not exclusive or not readers) and upgradable <= readers
        return not is_sum or not going and word & ~16


class Tired(Lock):
    """Threads that have slept four times: in a mutex too, they set the bar, and as readers they take turns."""

    sleeps = 4


class Woken(Lock):
    """Threads that have slept once: in a mutex too, their sleeps are brief, unless a bar is set."""

    sleeps = 1


class Tokens(Calls):
    """Threads at a condition variable, a mutex, and tokens.

    A thread waits for a token, or adds one or as many as wait, and notifies. With an `epoch`, the first one waits in it.
    """

    ones = 2**64 - 1

    def __init__(self, kinds, epoch=0, early=False, lost=None):
        super().__init__(early, lost)
        self.kinds, self.epoch = kinds, epoch

    def start(self):
        threads = [[(self.begin, it)] for it in self.kinds]
        if not self.epoch:
            return (0, True, 0), threads
        # the first thread has registered in this epoch, and holds the mutex
        call = values(Event(epoch=self.epoch, stage=REGISTERED))
        threads[0] = [(self.go, self.again, EVENT, call, (UNLOCK, 0, 0))]
        return (ONE_WAIT + 2**32 + self.epoch, False, 0), threads

    @staticmethod
    def number_of(word):
        return word % 2**32

    def begin(self, kind):
        yield update(FREE, lambda free: False if free else None)
        if kind == WAIT:
            return [(self.look,)]
        more = self.kinds.count(WAIT) if kind == NOTIFY_ALL else 1
        yield Step(lambda *now: [((*now[:FREE], True, now[TOKENS] + more), None)])
        return self.calls(made("notify", Event(), U8(kind == NOTIFY_ALL)), self.nothing)

    def look(self, _=None):
        """The thread holds the mutex. It takes a token, or waits."""
        def act(*now):
            return [((*now[:FREE], now[TOKENS] > 0, max(now[TOKENS] - 1, 0)), now[TOKENS] > 0)]

        if (yield Step(act)):
            return []
        return self.calls(made("wait", Event()), self.again)

    def calls(self, begun, then):
        return [(self.go, then, EVENT, *begun)]

    def again(self, _):
        return [(self.look,)]

    def nothing(self, _):
        return []

    def is_wrong(self, going, word, free, tokens):
        return not going and (word // ONE_WAIT, free, tokens) != (0, True, 0)


def writes(act):
    return [(act, EXCLUSIVE), (RELEASE, EXCLUSIVE)]


READS = [(ACQUIRE, SHARED), (RELEASE, SHARED)]
WRITES = writes(ACQUIRE)
UPGRADES = [(ACQUIRE, UPGRADABLE), (ACQUIRE, UPGRADE), (RELEASE, EXCLUSIVE)]
LOOKS = [(ACQUIRE, UPGRADABLE), (RELEASE, UPGRADABLE)]
DOWNGRADES = [(ACQUIRE, EXCLUSIVE), (RELEASE, TO_UPGRADABLE), (RELEASE, UPGRADABLE_TO_SHARED), (RELEASE, SHARED)]
SHARES = [(ACQUIRE, EXCLUSIVE), (RELEASE, TO_SHARED), (RELEASE, SHARED)]
EACH = [READS, WRITES, UPGRADES, LOOKS, DOWNGRADES, SHARES]
TRIES, HURRIES = writes(TRY), writes(TIMED)
TIMED_READS = [(TIMED, SHARED), (RELEASE, SHARED)]
TIMED_UPGRADES = [(TIMED, UPGRADABLE), (TIMED, UPGRADE), (RELEASE, EXCLUSIVE)]
ONES, ALL = [WAIT, WAIT, NOTIFY_ONE, NOTIFY_ONE], [WAIT, WAIT, NOTIFY_ALL]
EARLY = True
SOUND = [
    *[(Lock, 2, [*pair]) for pair in itertools.combinations_with_replacement(EACH, 2)],
    *[(Lock, 1, [WRITES, it]) for it in EACH],
    (Lock, 2, [UPGRADES, READS, WRITES]), (Lock, 1, [WRITES] * 3), (Lock, 2, [WRITES, READS, READS]),
    (Lock, 1, [WRITES] * 4), (Lock, 3, [WRITES, WRITES, READS]),
    (Lock, 1, [WRITES] * 3, EARLY), (Lock, 2, [WRITES, READS, UPGRADES], EARLY),
    (Lock, 1, [WRITES * 2, HURRIES, WRITES]), (Lock, 2, [WRITES, HURRIES, READS]), (Lock, 2, [HURRIES, TIMED_READS, TIMED_UPGRADES]),
    (Lock, 2, [WRITES, TIMED_UPGRADES, READS]), (Lock, 1, [HURRIES, HURRIES, WRITES], EARLY),
    (Lock, 1, [TRIES, WRITES, WRITES]), (Lock, 2, [TRIES, READS, UPGRADES]),
    (Tired, 1, [WRITES] * 3), (Tired, 1, [WRITES * 2, HURRIES, WRITES]), (Tired, 1, [HURRIES, HURRIES, WRITES], EARLY),
    (Tired, 1, [TRIES, WRITES, WRITES]),
    (Tired, 2, [WRITES, READS]), (Tired, 2, [WRITES, WRITES, READS]), (Tired, 2, [WRITES, READS, READS]), (Tired, 2, [WRITES, READS, LOOKS]),
    (Tired, 2, [WRITES, HURRIES, READS]), (Tired, 2, [WRITES, HURRIES, TIMED_READS]), (Tired, 2, [WRITES, UPGRADES, TIMED_READS]),
    (Tired, 2, [WRITES, [(TRY, SHARED), (RELEASE, SHARED)], READS]),
    (Woken, 1, [WRITES] * 3), (Woken, 1, [WRITES, WRITES, HURRIES]),
    (Tokens, [WAIT, NOTIFY_ONE]), (Tokens, ALL), (Tokens, ONES), (Tokens, [WAIT, *ALL]), (Tokens, ONES, LAST_EPOCH - 2),
    (Tokens, ONES, LAST_EPOCH - 1), (Tokens, ALL, LAST_EPOCH - 1), (Tokens, [WAIT, *ONES, NOTIFY_ONE], LAST_EPOCH - 1), (Tokens, ONES, 0, EARLY),
]
STUCK = [
    (Lock, 1, [WRITES] * 3, False, WAKE_ONE), (Lock, 2, [WRITES, LOOKS], False, WAKE_ALL),
    (Lock, 2, [UPGRADES, READS], False, WAKE_ALL), (Lock, 2, [WRITES, READS, READS], False, WAKE_NEXT),
    (Lock, 2, [WRITES, HURRIES, READS], False, WAKE_ALL),
    (Tired, 1, [WRITES] * 3, False, WAKE_ONE), (Tired, 1, [WRITES] * 3, False, WAKE_NEXT),
    (Tired, 2, [WRITES, READS], False, WAKE_TURN), (Tired, 2, [WRITES, WRITES, READS], False, WAKE_ALL),
    (Tokens, [WAIT, NOTIFY_ONE], 0, False, WAKE_ONE), (Tokens, ALL, 0, False, WAKE_ALL), (Tokens, ONES, LAST_EPOCH - 1, False, WAKE_ALL),
]

if __name__ == "__main__":
    LIBRARY = ctypes.CDLL(sys.argv[1])
    runs = [(f"{kind.__name__} {how}", functools.partial(kind, *how), False) for kind, *how in SOUND]
    runs += [(f"{kind.__name__} {how}", functools.partial(kind, *how), True) for kind, *how in STUCK]
    sys.exit(report(runs))
