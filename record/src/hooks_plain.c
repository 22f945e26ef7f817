/* Locks that are no pthreads, and make the calls of lockrecord.h.
 *
 * An upgradable hold is a read with a seat, which one thread has at a time: a mutex of its own. So an upgrade releases the read, keeps
 * the seat, and waits for the write. A downgrade is a release and a try. These add interleavings, and lose no circle of waits. */
#define _GNU_SOURCE
#include "../lockrecord.h"
#include "hook.h"

enum { MODE_MASK = 7 };

static int mode_of(int how) { return how & MODE_MASK; }
static uint8_t kind_of_mode(int how) { return mode_of(how) == LOCKRECORD_MUTEX ? PLAIN_MUTEX : PLAIN_RWLOCK; }
static uint8_t op_of_mode(int how) {
    static const uint8_t ops[MODE_MASK + 1] = {OP_LOCK, OP_READ, OP_WRITE, OP_READ, OP_WRITE};
    return ops[mode_of(how)] | (how & LOCKRECORD_TRY ? OP_TRY : 0);
}

static uint32_t place_of(struct thread *t, const struct lock *l, int how, caller_t caller) {
    return how & LOCKRECORD_BY_STACK ? site_of_stack(caller) : site_of(t, caller, salt_of(l));
}

static bool is_held_by(const struct thread *t, const struct lock *l) {
    for (int k = 0; k < t->n_held; k++)
        if (t->held[k].lock == l) return true;
    return false;
}

static bool has_seat(const struct thread *t, const struct lock *l) {
    for (int k = 0; k < t->n_held; k++)
        if (t->held[k].lock->addr == seat_of(l->addr)) return true;
    return false;
}

static void take_seat(struct thread *t, const struct lock *l, uint8_t op, uint32_t site) {
    struct lock *seat = make_lock(seat_of(l->addr), PLAIN_SEAT, site, false);
    if (!seat) return;
    if (GET(l->falls_back)) falls_back(seat);
    acquired(t, seat, op, site);
}

static void leave_seat(struct thread *t, const struct lock *l) {
    struct lock *seat = find_lock(seat_of(l->addr));
    if (seat) released(t, seat, 0);
}

/* A recursive read does not wait if the thread has the lock already. */
static bool never_waits(const struct thread *t, const struct lock *l, int how) { return how & LOCKRECORD_AGAIN && is_held_by(t, l); }

EXPORT void lockrecord_acquire(const void *lock, int how) {
    struct thread *t = mine();
    if (!t) return;
    begin(t);
    struct lock *l = lock_at(t, (void *)lock, kind_of_mode(how), CALLER);
    uint32_t site = l ? place_of(t, l, how, CALLER) : 0;
    bool waits = l && !never_waits(t, l, how);
    if (waits) {
        if (mode_of(how) == LOCKRECORD_UPGRADE) released(t, l, site);
        SET(t->waits_lock, l), SET(t->waits_site, site), SET(t->waits_op, op_of_mode(how));
    }
    finish(t);
    if (unlikely(has_pauses) && waits && (t->n_held || pauses_alone) && is_paused(site)) pause_here(site);
}

/* The place of an acquisition that lockrecord_acquire announced is that of the announcement. */
static uint32_t place_after(struct thread *t, const struct lock *l, int how, caller_t caller) {
    bool is_announced = GET(t->waits_op) < OP_RELEASE && GET(t->waits_lock) == l;
    return is_announced ? GET(t->waits_site) : place_of(t, l, how, caller);
}

EXPORT void lockrecord_acquired(const void *lock, int how) {
    struct thread *t = mine();
    if (!t) return;
    begin(t);
    struct lock *l = lock_at(t, (void *)lock, kind_of_mode(how), CALLER);
    if (l) {
        uint32_t site = place_after(t, l, how, CALLER);
        uint8_t op = never_waits(t, l, how) ? OP_READ | OP_TRY : op_of_mode(how);
        if (t->refused == l && !(op & OP_TRY)) falls_back(l);
        if (mode_of(how) == LOCKRECORD_UPGRADABLE) take_seat(t, l, OP_LOCK | (op & OP_TRY), site);
        if (mode_of(how) == LOCKRECORD_UPGRADE && op & OP_TRY) released(t, l, site);
        acquired(t, l, op, site);
    }
    SET(t->waits_op, OP_NONE);
    t->refused = NULL;
    finish(t);
}

EXPORT void lockrecord_refused(const void *lock, int how) {
    struct thread *t = mine();
    if (!t) return;
    begin(t);
    t->refused = lock_at(t, (void *)lock, kind_of_mode(how), CALLER);
    finish(t);
}

EXPORT void lockrecord_release(const void *lock, int how) {
    struct thread *t = mine();
    if (!t) return;
    begin(t);
    struct lock *l = lock_at(t, (void *)lock, 0, 0);
    if (l) released(t, l, 0);
    if (l && (mode_of(how) == LOCKRECORD_UPGRADABLE || (mode_of(how) == LOCKRECORD_EXCLUSIVE && has_seat(t, l)))) leave_seat(t, l);
    finish(t);
}

EXPORT void lockrecord_change(const void *lock, int how) {
    struct thread *t = mine();
    if (!t) return;
    begin(t);
    struct lock *l = lock_at(t, (void *)lock, 0, 0);
    if (l) {
        uint32_t site = place_of(t, l, how, CALLER);
        released(t, l, site);
        if (mode_of(how) == LOCKRECORD_UPGRADABLE && !has_seat(t, l)) take_seat(t, l, OP_LOCK | OP_TRY, site);
        if (mode_of(how) == LOCKRECORD_SHARED && has_seat(t, l)) leave_seat(t, l);
        acquired(t, l, OP_READ | OP_TRY, site);
    }
    finish(t);
}

EXPORT void lockrecord_destroy(const void *lock) { before_destroy((void *)lock); }

EXPORT void lockrecord_wait(const void *condvar, const void *mutex, int how) {
    wait_begins((void *)condvar, (void *)mutex, kind_of_mode(how), how & LOCKRECORD_TRY ? 't' : 'w', CALLER);
}

EXPORT void lockrecord_woken(const void *mutex) {
    struct thread *t = mine();
    if (!t) return;
    begin(t);
    struct wait w = {t, lock_at(t, (void *)mutex, 0, 0), GET(t->waits_site)};
    finish(t);
    wait_ends(&w);
}

EXPORT void lockrecord_notify(const void *condvar) { notifies((void *)condvar, CALLER); }
