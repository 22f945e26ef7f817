/* The slow paths of the hooks. */
#define _GNU_SOURCE
#include "hook.h"

THREAD_LOCAL struct thread *self;
THREAD_LOCAL bool leaving;

static uint8_t kind_of(const void *addr, uint8_t kind) {
    if (kind == MUTEX) {
        int k = ((const pthread_mutex_t *)addr)->__data.__kind & 3;
        return k == PTHREAD_MUTEX_RECURSIVE ? RECURSIVE : k == PTHREAD_MUTEX_ERRORCHECK ? ERRORCHECK : MUTEX;
    }
    if (kind == RWLOCK && ((const pthread_rwlock_t *)addr)->__data.__flags == PTHREAD_RWLOCK_PREFER_WRITER_NONRECURSIVE_NP) return RWLOCK_BAR;
    return kind;
}

struct lock *look_up(struct thread *t, void *addr, uint8_t kind, caller_t caller) {
    unsigned slot = ((uintptr_t)addr >> 3 ^ (uintptr_t)addr >> 11) % CACHE;
    struct lock *l = find_lock(addr);
    if (!l && caller) l = make_lock(addr, kind_of(addr, kind), site_of_stack(caller), false);
    if (l) t->locks[slot].addr = addr, t->locks[slot].lock = l;
    return l;
}

void after_init(void *addr, uint8_t kind, caller_t caller) {
    struct thread *t = mine();
    if (!t) return;
    begin(t);
    make_lock(addr, kind_of(addr, kind), site_of_stack(caller), true);
    finish(t);
}

void before_destroy(void *addr) {
    struct thread *t = mine();
    if (!t) return;
    begin(t);
    forget_lock(addr);
    finish(t);
}

/* A wait releases the mutex, sleeps, and acquires it again with all that the thread still holds. */
struct wait wait_begins(void *condvar, void *mutex, uint8_t kind, char what, caller_t caller) {
    struct wait w = {.t = mine()};
    struct thread *t = w.t;
    if (!t) return w;
    begin(t);
    w.mutex = lock_at(t, mutex, kind, caller);
    if (w.mutex) {
        w.site = site_of(t, caller, salt_of(w.mutex));
        if (t->n_held > 1) keep_note(t, what, condvar, w.mutex, w.site);
        released(t, w.mutex, w.site);
        SET(t->waits_site, w.site), SET(t->sleeps_kind, 'c'), SET(t->sleeps_on, condvar);
    }
    finish(t);
    return w;
}

void wait_ends(void *wait) {
    const struct wait *w = wait;
    if (!w->t) return;
    begin(w->t);
    SET(w->t->sleeps_on, NULL);
    if (w->mutex) acquired(w->t, w->mutex, OP_LOCK | OP_WOKEN, w->site);
    finish(w->t);
}

void notifies(void *condvar, caller_t caller) {
    struct thread *t = mine();
    if (!t) return;
    begin(t);
    keep_note(t, 'n', condvar, NULL, site_of(t, caller, (uintptr_t)condvar));
    finish(t);
}
