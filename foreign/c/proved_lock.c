/* SPDX-License-Identifier: MIT OR Apache-2.0 */
/* Makes the steps that liblock_c.a returns. Trusted are this file, the inline first steps and the kernel. Nothing here decides
 * which step comes next. */
#define _GNU_SOURCE
#undef PROVED_LOCK_RECORD /* the functions here are those that are recorded */
#include "proved_lock.h"
#include "lock_c.h"
#include <errno.h>
#include <limits.h>
#include <linux/futex.h>
#include <sched.h>
#include <sys/syscall.h>
#include <unistd.h>

_Static_assert(PROVED_SHARED == 0 && PROVED_UPGRADE == 3, "the modes are the codes of an acquisition");
_Static_assert(PROVED_UNLOCK_SHARED == 0 && PROVED_UPGRADABLE_TO_SHARED == 5, "the releases are the codes of a release");

/* The bit set of a sleep that a bar keeps out, that of one that may pass it, and that of a reader. */
enum { PLAIN = 1, NEXT = 2, READER = 4 };

/* The nanoseconds of a brief sleep. */
enum { BRIEF = 500000 };

static bool is_before(const struct timespec *a, const struct timespec *b) {
    return a->tv_sec < b->tv_sec || (a->tv_sec == b->tv_sec && a->tv_nsec < b->tv_nsec);
}

/* Sleeps while the word is the number. Returns the answer to the step. A deadline that is no valid time has passed. */
static uint32_t sleep_on(uint32_t *word, uint32_t number, bool is_brief, int bits, const struct timespec *deadline) {
    struct timespec brief;
    const struct timespec *end = deadline;
    if (is_brief) {
        brief = proved_deadline_in(BRIEF);
        if (!deadline || is_before(&brief, deadline)) end = &brief;
    }
    int saved = errno;
    bool is_over = syscall(SYS_futex, word, FUTEX_WAIT_BITSET_PRIVATE, number, end, 0, bits) == -1
        && end && (errno == ETIMEDOUT || errno == EINVAL);
    errno = saved;
    return !is_over ? 0 : end == deadline ? LOCK_IS_LATE : LOCK_IS_OVER;
}

/* Wakes at most so many threads that sleep in one of these bit sets. The word may be gone: its address alone is used. */
static void wake(uint32_t *word, int threads, uint32_t bits) {
    int saved = errno;
    syscall(SYS_futex, word, FUTEX_WAKE_BITSET_PRIVATE, threads, 0, 0, bits);
    errno = saved;
}

static void spin(uint64_t times) {
    for (uint64_t i = 0; i < times; i++) {
#if defined(__x86_64__)
        __builtin_ia32_pause();
#endif
        __atomic_signal_fence(__ATOMIC_SEQ_CST);
    }
}

/* Returns whether the deadline has passed, as one that is no valid time has. */
static bool has_passed(const struct timespec *deadline) {
    struct timespec now;
    if (!deadline) return false;
    clock_gettime(CLOCK_MONOTONIC, &now);
    if (deadline->tv_nsec < 0 || deadline->tv_nsec > 999999999) return true;
    return now.tv_sec > deadline->tv_sec || (now.tv_sec == deadline->tv_sec && now.tv_nsec >= deadline->tv_nsec);
}

struct timespec proved_deadline_in(uint64_t nanoseconds) {
    struct timespec it;
    clock_gettime(CLOCK_MONOTONIC, &it);
    it.tv_sec += (time_t)(nanoseconds / 1000000000);
    it.tv_nsec += (long)(nanoseconds % 1000000000);
    if (it.tv_nsec > 999999999) it.tv_sec++, it.tv_nsec -= 1000000000;
    return it;
}

/* Makes a step on the word of a lock, and returns its answer. */
static uint32_t make(uint32_t *word, struct lock_step s, const struct timespec *deadline) {
    uint32_t *place = word + s.place;
    uint32_t found = s.first;
    switch (s.action) {
    case LOCK_LOAD: return __atomic_load_n(place, __ATOMIC_SEQ_CST);
    case LOCK_EXCHANGE:
        __atomic_compare_exchange_n(place, &found, s.second, false, __ATOMIC_SEQ_CST, __ATOMIC_SEQ_CST);
        return found;
    case LOCK_SUBTRACT: return __atomic_fetch_sub(place, s.first, __ATOMIC_SEQ_CST);
    case LOCK_SLEEP: return sleep_on(place, s.first, s.second, PLAIN, deadline);
    case LOCK_SLEEP_NEXT: return sleep_on(place, s.first, s.second, NEXT, deadline);
    case LOCK_SLEEP_READER: return sleep_on(place, s.first, s.second, READER, deadline);
    case LOCK_WAKE_ONE: wake(place, 1, FUTEX_BITSET_MATCH_ANY); break;
    case LOCK_WAKE_ALL: wake(place, INT_MAX, FUTEX_BITSET_MATCH_ANY); break;
    case LOCK_WAKE_NEXT: wake(place, INT_MAX, NEXT); break;
    case LOCK_WAKE_TURN: wake(place, INT_MAX, NEXT | READER); break;
    case LOCK_SPIN: spin((uint64_t)1 << s.first % 32); break;
    case LOCK_YIELD: sched_yield(); return has_passed(deadline) ? LOCK_IS_LATE : 0;
    }
    return 0;
}

static bool has_ended(struct lock_step s) { return s.action == LOCK_DONE || s.action == LOCK_REFUSED; }

static bool drive(uint32_t *word, struct lock_call *call, struct lock_step s, const struct timespec *deadline) {
    while (!has_ended(s)) s = lock_c_next(call, make(word, s, deadline));
    return s.action == LOCK_DONE;
}

bool proved_acquire_rest_(uint32_t *word, uint32_t readers, enum proved_mode mode, uint32_t refused, const struct timespec *deadline) {
    struct lock_call call;
    lock_c_acquire(&call, readers, mode, 1, mode == PROVED_EXCLUSIVE); /* its first step, a load, is made */
    return drive(word, &call, lock_c_next(&call, refused), deadline);
}

bool proved_try_rest_(uint32_t *word, uint32_t readers, uint32_t found) {
    struct lock_call call;
    lock_c_acquire(&call, readers, PROVED_SHARED, 0, 0); /* its first step, a load, is made */
    return drive(word, &call, lock_c_next(&call, found), 0);
}

void proved_release_rest_(uint32_t *word, uint32_t readers, enum proved_release release, const uint32_t *made, int count) {
    struct lock_call call;
    struct lock_step s = lock_c_release(&call, readers, release);
    for (int i = 0; i < count; i++) s = lock_c_next(&call, made[i]);
    drive(word, &call, s, 0);
}

/* Makes a step on the word of a condition variable, and returns its answer. Threads sleep on the low half. */
static uint64_t make_event(uint64_t *word, struct lock_event_step s, const struct timespec *deadline) {
    uint64_t found = s.first;
    switch (s.action) {
    case LOCK_LOAD: return __atomic_load_n(word, __ATOMIC_SEQ_CST);
    case LOCK_EXCHANGE:
        __atomic_compare_exchange_n(word, &found, s.second, false, __ATOMIC_SEQ_CST, __ATOMIC_SEQ_CST);
        return found;
    case LOCK_SUBTRACT: return __atomic_fetch_sub(word, s.first, __ATOMIC_SEQ_CST);
    case LOCK_OR: return __atomic_fetch_or(word, s.first, __ATOMIC_SEQ_CST);
    }
    return make((uint32_t *)word, (struct lock_step){(uint32_t)s.action, 0, (uint32_t)s.first, 0}, deadline);
}

static bool has_event_ended(struct lock_event_step s) { return s.action == LOCK_DONE || s.action == LOCK_REFUSED; }

bool proved_cond_wait_until(proved_cond *c, proved_mutex *m, const struct timespec *deadline) {
    struct lock_event call;
    struct lock_event_step s = lock_c_wait(&call);
    while (!has_event_ended(s)) {
        if (s.action == LOCK_UNLOCK) proved_mutex_unlock(m);
        if (s.action == LOCK_LOCK) proved_mutex_lock(m);
        s = lock_c_next_event(&call, make_event(&c->word, s, deadline));
    }
    return s.action == LOCK_DONE;
}

uint32_t proved_notify_rest_(proved_cond *c, bool all, uint64_t word) {
    struct lock_event call;
    lock_c_notify(&call, all); /* its first step, the load of the word, is made */
    struct lock_event_step s = lock_c_next_event(&call, word);
    while (!has_event_ended(s)) s = lock_c_next_event(&call, make_event(&c->word, s, 0));
    return proved_waits_(call.loaded);
}
