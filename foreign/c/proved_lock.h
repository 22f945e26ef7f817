/* SPDX-License-Identifier: MIT OR Apache-2.0 */
/* A mutex, a condition variable, and a reader-writer lock with upgrades, for C11 and C++ on Linux.
 *
 * The first steps of an uncontended call are inline here. They are not proved: a test compares them with the library. Proved
 * code in liblock_c.a chooses each other step, and proved_lock.c makes it.
 *
 * A lock has no destructor, and allocates nothing. A zeroed lock is a free one. After the step that releases, an unlock reads
 * and writes the lock no more. So whoever acquires a lock last may free it, also while an unlock has yet to return. It is not
 * copied or moved while it is in use. Processes must not share it: a wake-up reaches one process alone.
 *
 * To unlock, upgrade or downgrade what the caller does not hold is undefined. A thread that acquires what it holds itself may
 * block without an end.
 *
 * A deadline is a time of CLOCK_MONOTONIC, as proved_deadline_in returns it. A null deadline never passes. A deadline that is no
 * valid time has passed. A call acquires a lock that it finds free, also after its deadline. */
#ifndef PROVED_LOCK_H
#define PROVED_LOCK_H
#include <stdbool.h>
#include <stdint.h>
#include <time.h>

#if __BYTE_ORDER__ != __ORDER_LITTLE_ENDIAN__ || __SIZEOF_POINTER__ != 8
#error "futex takes times of 64 bits"
#endif

#ifdef __cplusplus
extern "C" {
#endif

/* Each symbol has the version of the archive in its name. So libraries over several versions may be in one program. They must not
 * share a lock. */
#define PROVED_LOCK_SYMBOL(name) __asm__("proved_4_" #name)

/* Without its result, the caller cannot know whether it holds the lock. */
#define PROVED_CHECKED __attribute__((warn_unused_result))

/* For clang's -Wthread-safety: a lock is a capability, and an upgradable hold a shared one. */
#ifdef __clang__
#define PROVED_CAPABILITY __attribute__((capability("lock")))
#define PROVED_HOLDS(...) __attribute__((__VA_ARGS__, no_thread_safety_analysis))
#else
#define PROVED_CAPABILITY
#define PROVED_HOLDS(...)
#endif

/* The five low bits of a word are flags. The number of readers follows, and an upgradable hold counts as one. */
#define PROVED_HELD_UPGRADABLE 1u
#define PROVED_HELD_EXCLUSIVE 2u
#define PROVED_BAR 4u
#define PROVED_TURN 8u
#define PROVED_SLEEPERS 16u
#define PROVED_ONE_READER 32u
#define PROVED_ONE_UPGRADABLE (PROVED_ONE_READER + PROVED_HELD_UPGRADABLE)
#define PROVED_MAX_READERS (UINT32_MAX / PROVED_ONE_READER)

/* Programs do not read the words. */
typedef struct PROVED_CAPABILITY proved_mutex {
    uint32_t word;
} proved_mutex;

typedef struct PROVED_CAPABILITY proved_rwlock {
    uint32_t word;
    uint32_t readers; /* at most how many, or 0 for PROVED_MAX_READERS */
} proved_rwlock;

typedef struct proved_cond {
    uint64_t word; /* 24 bits count the threads that wait, 8 those that no notification claimed, and 32 are the epoch */
} proved_cond;

#define PROVED_COND_INIT {0}
#define PROVED_MUTEX_INIT {0}
#define PROVED_RWLOCK_INIT {0, 0}

enum proved_mode { PROVED_SHARED, PROVED_EXCLUSIVE, PROVED_UPGRADABLE, PROVED_UPGRADE };
enum proved_release { PROVED_UNLOCK_SHARED, PROVED_UNLOCK_EXCLUSIVE, PROVED_UNLOCK_UPGRADABLE, PROVED_TO_SHARED,
                      PROVED_TO_UPGRADABLE, PROVED_UPGRADABLE_TO_SHARED };

/* The calls, step by step, for the functions below. Their names end with an underscore, and are not for users. A mode or a release
 * that its enum does not name is undefined. */
/* The rest of an acquisition, whose first steps found a word that refused. */
bool proved_acquire_rest_(uint32_t *word, uint32_t readers, enum proved_mode, uint32_t refused, const struct timespec *deadline)
    PROVED_LOCK_SYMBOL(acquire_rest);
/* The rest of a try of a reader, whose first steps found that it is the turn of readers. */
bool proved_try_rest_(uint32_t *word, uint32_t readers, uint32_t found) PROVED_LOCK_SYMBOL(try_rest);
/* The rest of a release, whose first steps, so many, have these answers. */
void proved_release_rest_(uint32_t *word, uint32_t readers, enum proved_release, const uint32_t *made, int count)
    PROVED_LOCK_SYMBOL(release_rest);

/* The inline first steps: what the word admits, the word after it, the word of a holder that is alone, and what it leaves. */
static inline bool proved_admits_(uint32_t word, uint32_t readers, enum proved_mode mode) {
    switch (mode) {
    case PROVED_SHARED: return !(word & (PROVED_HELD_EXCLUSIVE | PROVED_BAR | PROVED_TURN)) && word / PROVED_ONE_READER < readers;
    case PROVED_EXCLUSIVE: return !(word & ~PROVED_SLEEPERS);
    case PROVED_UPGRADABLE:
        return !(word & (PROVED_HELD_UPGRADABLE | PROVED_HELD_EXCLUSIVE | PROVED_BAR | PROVED_TURN)) && word / PROVED_ONE_READER < readers;
    case PROVED_UPGRADE: return (word & ~(PROVED_SLEEPERS | PROVED_TURN | PROVED_BAR)) == PROVED_ONE_UPGRADABLE;
    }
    return false;
}
static inline uint32_t proved_word_after_(uint32_t word, enum proved_mode mode) {
    switch (mode) {
    case PROVED_SHARED: return word + PROVED_ONE_READER;
    case PROVED_EXCLUSIVE: return word + PROVED_HELD_EXCLUSIVE;
    case PROVED_UPGRADABLE: return word + PROVED_ONE_UPGRADABLE;
    case PROVED_UPGRADE: return word - PROVED_ONE_UPGRADABLE + PROVED_HELD_EXCLUSIVE;
    }
    return word;
}
static inline uint32_t proved_alone_(enum proved_release release) {
    switch (release) {
    case PROVED_UNLOCK_SHARED: return PROVED_ONE_READER;
    case PROVED_UNLOCK_UPGRADABLE:
    case PROVED_UPGRADABLE_TO_SHARED: return PROVED_ONE_UPGRADABLE;
    default: return PROVED_HELD_EXCLUSIVE;
    }
}
static inline uint32_t proved_left_(enum proved_release release) {
    switch (release) {
    case PROVED_TO_SHARED:
    case PROVED_UPGRADABLE_TO_SHARED: return PROVED_ONE_READER;
    case PROVED_TO_UPGRADABLE: return PROVED_ONE_UPGRADABLE;
    default: return 0;
    }
}
static inline uint32_t proved_first_word_(const uint32_t *word, enum proved_mode mode) {
    switch (mode) {
    case PROVED_EXCLUSIVE: return 0;
    case PROVED_UPGRADE: return PROVED_ONE_UPGRADABLE;
    default: return __atomic_load_n(word, __ATOMIC_SEQ_CST);
    }
}
/* Acquires, or stores the word that refused. An exchange that fails finds the word as a load does. */
static inline bool proved_take_(uint32_t *word, uint32_t readers, enum proved_mode mode, uint32_t *found) {
    *found = proved_first_word_(word, mode);
    while (proved_admits_(*found, readers, mode)) {
        uint32_t after = proved_word_after_(*found, mode);
        if (__atomic_compare_exchange_n(word, found, after, false, __ATOMIC_SEQ_CST, __ATOMIC_SEQ_CST)) return true;
    }
    return false;
}
static inline bool proved_try_(uint32_t *word, uint32_t readers, enum proved_mode mode) {
    uint32_t found;
    return proved_take_(word, readers, mode, &found)
        || (mode == PROVED_SHARED && (found & PROVED_TURN) && proved_try_rest_(word, readers, found));
}
static inline bool proved_acquire_(uint32_t *word, uint32_t readers, enum proved_mode mode, const struct timespec *deadline) {
    uint32_t found;
    return proved_take_(word, readers, mode, &found) || proved_acquire_rest_(word, readers, mode, found, deadline);
}
static inline void proved_remove_reader_(uint32_t *word, uint32_t readers) {
    uint32_t made[2] = {__atomic_load_n(word, __ATOMIC_SEQ_CST), 0};
    if (made[0] & PROVED_SLEEPERS) {
        proved_release_rest_(word, readers, PROVED_UNLOCK_SHARED, made, 1);
        return;
    }
    made[1] = __atomic_fetch_sub(word, PROVED_ONE_READER, __ATOMIC_SEQ_CST);
    if (made[1] & PROVED_SLEEPERS) proved_release_rest_(word, readers, PROVED_UNLOCK_SHARED, made, 2);
}
static inline void proved_give_(uint32_t *word, uint32_t readers, enum proved_release release) {
    if (release == PROVED_UNLOCK_SHARED && readers != 1) {
        proved_remove_reader_(word, readers);
        return;
    }
    uint32_t found = proved_alone_(release), left = proved_left_(release);
    if (!__atomic_compare_exchange_n(word, &found, left, false, __ATOMIC_SEQ_CST, __ATOMIC_SEQ_CST)) {
        proved_release_rest_(word, readers, release, &found, 1);
    }
}

/* The deadline in so many nanoseconds from now. */
struct timespec proved_deadline_in(uint64_t nanoseconds) PROVED_LOCK_SYMBOL(deadline_in);

/* Mutex. */
static inline void proved_mutex_lock(proved_mutex *m) PROVED_HOLDS(acquire_capability(*m)) {
    proved_acquire_(&m->word, 1, PROVED_EXCLUSIVE, 0);
}
PROVED_CHECKED static inline bool proved_mutex_try_lock(proved_mutex *m) PROVED_HOLDS(try_acquire_capability(true, *m)) {
    return proved_try_(&m->word, 1, PROVED_EXCLUSIVE);
}
PROVED_CHECKED static inline bool proved_mutex_lock_until(proved_mutex *m, const struct timespec *deadline)
    PROVED_HOLDS(try_acquire_capability(true, *m)) {
    return proved_acquire_(&m->word, 1, PROVED_EXCLUSIVE, deadline);
}
static inline void proved_mutex_unlock(proved_mutex *m) PROVED_HOLDS(release_capability(*m)) {
    proved_give_(&m->word, 1, PROVED_UNLOCK_EXCLUSIVE);
}

/* Condition variable. A wait releases the mutex, which the caller holds, sleeps until a notification, and acquires the mutex
 * again. It may also end without a notification. Returns false if the deadline ended the sleep. The deadline does not limit the
 * acquisition. */
bool proved_cond_wait_until(proved_cond *, proved_mutex *m, const struct timespec *deadline)
    PROVED_HOLDS(requires_capability(*m)) PROVED_LOCK_SYMBOL(cond_wait_until);
static inline void proved_cond_wait(proved_cond *c, proved_mutex *m) PROVED_HOLDS(requires_capability(*m)) {
    proved_cond_wait_until(c, m, 0);
}
/* The rest of a notification, after its load of the word. Returns how many threads waited. */
uint32_t proved_notify_rest_(proved_cond *, bool all, uint64_t word) PROVED_LOCK_SYMBOL(notify_rest);
static inline uint32_t proved_waits_(uint64_t word) { return (uint32_t)(word >> 40); }
/* Whether a notification has nobody to wake: one of one has none if each thread that waits is claimed. */
static inline bool proved_has_none_(uint64_t word, bool all) {
    return proved_waits_(word) == 0 || (!all && (word >> 32 & 255) == 0);
}
static inline uint32_t proved_notify_(proved_cond *c, bool all) {
    uint64_t word = __atomic_load_n(&c->word, __ATOMIC_SEQ_CST);
    return proved_has_none_(word, all) ? proved_waits_(word) : proved_notify_rest_(c, all, word);
}
/* Wakes one thread that waits, or all. Returns whether some waited when the call began, or how many. */
static inline bool proved_cond_notify_one(proved_cond *c) { return proved_notify_(c, false) != 0; }
static inline uint32_t proved_cond_notify_all(proved_cond *c) { return proved_notify_(c, true); }

/* Reader-writer lock. A writer that waits sets a bar, unless one is set: no new reader is admitted before it. It takes its bar
 * back at its deadline. A reader that waits for half a millisecond, or has slept four times, takes a turn: then no writer is
 * admitted before it but the one that has set the bar. An upgrade sets no bar, so new readers may starve it. Writers may starve an
 * upgradable acquisition. */
static inline uint32_t proved_limit_(const proved_rwlock *l) { return l->readers == 0 ? PROVED_MAX_READERS : l->readers; }
static inline bool proved_rwlock_try_(proved_rwlock *l, enum proved_mode mode) {
    return proved_try_(&l->word, proved_limit_(l), mode);
}
static inline bool proved_rwlock_acquire_(proved_rwlock *l, enum proved_mode mode, const struct timespec *deadline) {
    return proved_acquire_(&l->word, proved_limit_(l), mode, deadline);
}
static inline void proved_rwlock_give_(proved_rwlock *l, enum proved_release release) {
    proved_give_(&l->word, proved_limit_(l), release);
}

/* Makes a lock for at most this many readers, from 1 to PROVED_MAX_READERS, which is 2^27 - 1. For another number it returns
 * false and leaves the lock. A zeroed lock has the largest limit. */
PROVED_CHECKED static inline bool proved_rwlock_init(proved_rwlock *l, uint32_t readers) {
    if (readers == 0 || readers > PROVED_MAX_READERS) return false;
    l->word = 0;
    l->readers = readers;
    return true;
}
PROVED_CHECKED static inline bool proved_rwlock_try_lock_shared(proved_rwlock *l)
    PROVED_HOLDS(try_acquire_shared_capability(true, *l)) {
    return proved_rwlock_try_(l, PROVED_SHARED);
}
static inline void proved_rwlock_lock_shared(proved_rwlock *l) PROVED_HOLDS(acquire_shared_capability(*l)) {
    proved_rwlock_acquire_(l, PROVED_SHARED, 0);
}
PROVED_CHECKED static inline bool proved_rwlock_lock_shared_until(proved_rwlock *l, const struct timespec *deadline)
    PROVED_HOLDS(try_acquire_shared_capability(true, *l)) {
    return proved_rwlock_acquire_(l, PROVED_SHARED, deadline);
}
static inline void proved_rwlock_unlock_shared(proved_rwlock *l) PROVED_HOLDS(release_shared_capability(*l)) {
    proved_rwlock_give_(l, PROVED_UNLOCK_SHARED);
}
PROVED_CHECKED static inline bool proved_rwlock_try_lock_exclusive(proved_rwlock *l)
    PROVED_HOLDS(try_acquire_capability(true, *l)) {
    return proved_rwlock_try_(l, PROVED_EXCLUSIVE);
}
static inline void proved_rwlock_lock_exclusive(proved_rwlock *l) PROVED_HOLDS(acquire_capability(*l)) {
    proved_rwlock_acquire_(l, PROVED_EXCLUSIVE, 0);
}
PROVED_CHECKED static inline bool proved_rwlock_lock_exclusive_until(proved_rwlock *l, const struct timespec *deadline)
    PROVED_HOLDS(try_acquire_capability(true, *l)) {
    return proved_rwlock_acquire_(l, PROVED_EXCLUSIVE, deadline);
}
static inline void proved_rwlock_unlock_exclusive(proved_rwlock *l) PROVED_HOLDS(release_capability(*l)) {
    proved_rwlock_give_(l, PROVED_UNLOCK_EXCLUSIVE);
}
PROVED_CHECKED static inline bool proved_rwlock_try_lock_upgradable(proved_rwlock *l)
    PROVED_HOLDS(try_acquire_shared_capability(true, *l)) {
    return proved_rwlock_try_(l, PROVED_UPGRADABLE);
}
static inline void proved_rwlock_lock_upgradable(proved_rwlock *l) PROVED_HOLDS(acquire_shared_capability(*l)) {
    proved_rwlock_acquire_(l, PROVED_UPGRADABLE, 0);
}
PROVED_CHECKED static inline bool proved_rwlock_lock_upgradable_until(proved_rwlock *l, const struct timespec *deadline)
    PROVED_HOLDS(try_acquire_shared_capability(true, *l)) {
    return proved_rwlock_acquire_(l, PROVED_UPGRADABLE, deadline);
}
static inline void proved_rwlock_unlock_upgradable(proved_rwlock *l) PROVED_HOLDS(release_shared_capability(*l)) {
    proved_rwlock_give_(l, PROVED_UNLOCK_UPGRADABLE);
}

/* From upgradable to exclusive. A refused call leaves the lock upgradable. */
PROVED_CHECKED static inline bool proved_rwlock_try_upgrade(proved_rwlock *l) { return proved_rwlock_try_(l, PROVED_UPGRADE); }
static inline void proved_rwlock_upgrade(proved_rwlock *l) PROVED_HOLDS(release_shared_capability(*l), acquire_capability(*l)) {
    proved_rwlock_acquire_(l, PROVED_UPGRADE, 0);
}
PROVED_CHECKED static inline bool proved_rwlock_upgrade_until(proved_rwlock *l, const struct timespec *deadline) {
    return proved_rwlock_acquire_(l, PROVED_UPGRADE, deadline);
}
/* From exclusive to shared or upgradable, and from upgradable to shared. */
static inline void proved_rwlock_downgrade(proved_rwlock *l) PROVED_HOLDS(release_capability(*l), acquire_shared_capability(*l)) {
    proved_rwlock_give_(l, PROVED_TO_SHARED);
}
static inline void proved_rwlock_downgrade_to_upgradable(proved_rwlock *l)
    PROVED_HOLDS(release_capability(*l), acquire_shared_capability(*l)) {
    proved_rwlock_give_(l, PROVED_TO_UPGRADABLE);
}
static inline void proved_rwlock_downgrade_upgradable(proved_rwlock *l) PROVED_HOLDS(requires_shared_capability(*l)) {
    proved_rwlock_give_(l, PROVED_UPGRADABLE_TO_SHARED);
}

/* With PROVED_LOCK_RECORD, each call of a program that runs under bin/lockrecord is recorded. */
#ifdef PROVED_LOCK_RECORD
#include "proved_lock_record.h"
#endif

#ifdef __cplusplus
}
#endif
#endif
