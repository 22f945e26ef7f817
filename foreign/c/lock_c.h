/* SPDX-License-Identifier: MIT OR Apache-2.0 */
/* The exports of liblock_c.a: the machines of a call on a lock and on a condition variable. proved_lock.c makes the steps that
 * they return. */
#ifndef LOCK_C_H
#define LOCK_C_H
#include <stdint.h>

#ifdef __cplusplus
extern "C" {
#endif

/* Each symbol has the version of the archive in its name. A driver of another version does not link, and libraries over several
 * versions may be in one program. */
#define LOCK_C_SYMBOL(name) __asm__("lock_c_4_" #name)

/* A call between two of its steps. */
struct lock_call {
    uint64_t readers, loaded, left;
    uint32_t stage, want, down, pauses;
    uint8_t blocks, announces, announced, late, sleeps, turned;
};

/* A wait or a notification between two of its steps. The word that it found last is `loaded`. */
struct lock_event {
    uint64_t loaded, epoch;
    uint32_t stage, lost;
    uint8_t all, late;
};

/* The next step on the word of a lock. Its place is 0. The second number of a sleep is 1 if it is brief: it lasts at most half a
 * millisecond. The answer to a sleep is LOCK_IS_LATE after the deadline, LOCK_IS_OVER after the time of a brief sleep, and 0
 * otherwise. */
struct lock_step {
    uint32_t action, place, first, second;
};

/* The next step on the word of a condition variable. The low half of the word is the epoch, on which threads sleep. */
struct lock_event_step {
    uint64_t action, first, second;
};

enum lock_action { LOCK_LOAD, LOCK_EXCHANGE, LOCK_SUBTRACT, LOCK_OR, LOCK_SLEEP, LOCK_SLEEP_NEXT, LOCK_WAKE_ONE, LOCK_WAKE_ALL,
                   LOCK_WAKE_NEXT, LOCK_SPIN, LOCK_YIELD, LOCK_REFUSED, LOCK_DONE, LOCK_UNLOCK, LOCK_LOCK, LOCK_SLEEP_READER,
                   LOCK_WAKE_TURN };
enum { LOCK_IS_LATE = 32, LOCK_IS_OVER = 64 };

/* What is acquired is 0 for shared, 1 for exclusive, 2 for upgradable, and 3 for an upgrade, as in `enum proved_mode`. What is
 * released is 0 to 5, as in `enum proved_release`. Any other number is undefined: proved_lock.c passes none. The limit of
 * readers is from 1 to 2^27 - 1. */
struct lock_step lock_c_acquire(struct lock_call *, uint32_t readers, uint32_t want, uint8_t blocks, uint8_t announces)
    LOCK_C_SYMBOL(acquire);
struct lock_step lock_c_release(struct lock_call *, uint32_t readers, uint32_t down) LOCK_C_SYMBOL(release);
struct lock_step lock_c_next(struct lock_call *, uint32_t found) LOCK_C_SYMBOL(next);

struct lock_event_step lock_c_wait(struct lock_event *) LOCK_C_SYMBOL(wait);
struct lock_event_step lock_c_notify(struct lock_event *, uint8_t all) LOCK_C_SYMBOL(notify);
struct lock_event_step lock_c_next_event(struct lock_event *, uint64_t found) LOCK_C_SYMBOL(next_event);

#ifdef __cplusplus
}
#endif
#endif
