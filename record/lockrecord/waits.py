"""What the threads of a running process wait for, and who has it: by the locks of glibc in its memory."""

from __future__ import annotations

import re
from typing import NamedTuple, Optional

from .process import COMMAND, FUTEX, LOCK_PI, LOCK_PI2, PRIVATE, WAIT, WAIT_BITSET, WAIT_REQUEUE_PI, Process, Thread
from .symbols import Frame

TID_MASK = 0x3FFFFFFF
# What a wait is, by a function of its stack, and whether glibc keeps who has it.
KNOWN = [
    (r"pthread_mutex_|mtx_lock|std::mutex|__gthread_mutex_lock", "mutex"),
    (r"pthread_rwlock_(timed|clock)?rdlock", "read"),
    (r"pthread_rwlock_(timed|clock)?wrlock", "write"),
    (r"pthread_cond_|cnd_(timed)?wait", "condition variable"),
    (r"pthread_(timed|clock|try)?join|thrd_join|__pthread_clockjoin_ex", "join"),
    (r"pthread_barrier_wait", "barrier"),
    (r"sem_(timed|clock)?wait", "semaphore"),
    (r"pthread_once|call_once", "pthread_once"),
    (r"__cxa_guard_acquire", "the initialization of a static variable"),
    (r"future", "a std::future"),
    (r"std::.*(barrier|latch|semaphore)", "a barrier, latch or semaphore of C++"),
    (r"std::__detail::__platform_wait|std::__atomic_wait|std::atomic", "a std::atomic"),
    (r"std::sys::.*mutex|std::sync::.*[mM]utex", "a Mutex of Rust's std"),
    (r"std::sys::.*rwlock|std::sync::.*[rR]w_?[lL]ock", "an RwLock of Rust's std"),
    (r"std::sys::.*condvar|std::sync::.*[cC]ondvar", "a Condvar of Rust's std"),
    (r"std::sys::.*once|std::sync::.*[oO]nce", "a Once of Rust's std"),
    (r"std::thread::.*(park|join)|std::sys::.*(park|Parker)", "a park or a join of Rust's std"),
    (r"parking_lot", "a lock of parking_lot"),
    (r"runtime\.(futex|notesleep|semasleep|lock)|sync\.\(\*(Mutex|RWMutex)", "a lock of Go"),
]
REFUSED = "a mutex with priority inheritance, by which the kernel found a circle"  # glibc then sleeps for ever
STACK_BYTES = 4096


class Wait(NamedTuple):
    """What a thread waits for. `owners`: the threads that have it, by their inner numbers; None if nobody knows."""

    kind: str
    address: int  # of the lock, or of the futex
    owners: Optional[tuple[int, ...]]
    is_timed: bool
    is_shared: bool  # with other processes


def _kind(frames: list[Frame]) -> str:
    for frame in frames[:12]:
        for pattern, kind in KNOWN:
            if re.search(pattern, frame.function):
                return kind
    return ""


def _mutex(process: Process, address: int, threads: dict[int, Thread], is_sure: bool) -> Optional[tuple[int, Optional[int]]]:
    """The owner of the mutex at an address, if it looks like one."""
    words = process.words(address, "<iIiIi")
    if not words:
        return None
    lock, _, owner, users, kind = words
    has_owner_in_word = bool(kind & 0x30)  # robust, or with priority inheritance
    if has_owner_in_word:
        owner = lock & TID_MASK
    is_likely = kind & ~0x3FF == 0 and users <= len(threads) + 1 and (owner in threads or is_sure)
    return (address, owner or None) if is_likely else None


def _rwlock(process: Process, futex: int, threads: dict[int, Thread], is_sure: bool) -> Optional[tuple[int, Optional[int], int]]:
    """The reader-writer lock of which this is a futex, the writer that has it, and how many readers."""
    for offset in (8, 12, 0):
        words = process.words(futex - offset, "<IIIIIIiiQQI")
        if not words:
            continue
        readers, writers, phase, futex_of_writers, _, _, writer, shared, _, _, flags = words
        is_likely = shared in (0, 1) and flags in (0, 1, 2) and phase <= 3 and futex_of_writers <= 3 and readers >> 3 <= 1 << 16 and writers <= 1 << 16
        if is_likely and (writer == 0 or writer in threads) and (is_sure or writer in threads):
            return futex - offset, writer or None, readers >> 3
    return None


def wait_of(process: Process, thread: Thread, threads: dict[int, Thread], frames: list[Frame]) -> Optional[Wait]:
    """What a thread waits for by a futex, or None."""
    if not thread.call or thread.call.number != FUTEX:
        return None
    futex, op, value, timeout = thread.call.args[:4]
    command = op & COMMAND
    if command not in (WAIT, LOCK_PI, WAIT_BITSET, WAIT_REQUEUE_PI, LOCK_PI2):
        return None
    kind, is_shared = _kind(frames), not op & PRIVATE
    timed = bool(timeout)
    known = process.words(futex, "<I")
    if kind in ("join", "") and value in threads and known == (value,) and command != LOCK_PI:
        return Wait("join", futex, (value,), timed, False)
    if kind == "mutex" and not timed and known == (0,) == (value,) and 0 <= futex - thread.call.sp < STACK_BYTES:
        return Wait(REFUSED, futex, None, False, False)
    if kind in ("mutex", "") and (command in (WAIT, LOCK_PI, LOCK_PI2) or kind):
        mutex = _mutex(process, futex, threads, kind == "mutex")
        if mutex:
            return Wait("mutex", mutex[0], (mutex[1],) if mutex[1] else None, timed, is_shared)
    if kind in ("read", "write", ""):
        rwlock = _rwlock(process, futex, threads, kind != "")
        if rwlock:
            return Wait(kind or "rwlock", rwlock[0], (rwlock[1],) if rwlock[1] else None, timed, is_shared)
    return Wait(kind or "a futex", futex, None, timed, is_shared)
