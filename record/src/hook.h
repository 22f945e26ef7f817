/* What the hooks have in common: the state of the calling thread, and what is recorded before and after an acquisition. */
#ifndef LOCKRECORD_HOOK_H
#define LOCKRECORD_HOOK_H
#include "real.h"
#include "record.h"
#include <errno.h>
#include <stdatomic.h>

#define EXPORT __attribute__((visibility("default")))
#define TRIES(op) ((op) | OP_TRY) /* a time limit ends a wait too */
#define CALLER ((caller_t)__builtin_frame_address(0) + 1)
#define THREAD_LOCAL __thread __attribute__((tls_model("initial-exec"), visibility("hidden")))

extern THREAD_LOCAL struct thread *self;
extern THREAD_LOCAL bool leaving; /* its last calls, and those of a thread without room, are not recorded */
struct thread *arrive(void);
void tell_signal(struct thread *t);
struct lock *look_up(struct thread *t, void *addr, uint8_t kind, caller_t caller);
void catch_signals(void);
void look_at_allocator(void);
extern long (*real_syscall)(long, ...) __attribute__((visibility("hidden")));
void forget_unborn(void); /* in a forked child */
void make_exit_key(void);
void ends_with(struct thread *t);

/* The thread's state, or NULL if this call is not to be recorded. */
static inline struct thread *mine(void) {
    struct thread *t = self;
    if (likely(t != NULL)) return t->busy ? NULL : t;
    return ready && !leaving ? arrive() : NULL;
}

static inline void begin(struct thread *t) {
    t->busy = 1;
    atomic_signal_fence(memory_order_seq_cst);
}

static inline void finish(struct thread *t) {
    atomic_signal_fence(memory_order_seq_cst);
    t->busy = 0;
    if (unlikely(t->dump_later)) tell_signal(t);
}

/* The lock at this address. Without a caller, none is made. */
static inline struct lock *lock_at(struct thread *t, void *addr, uint8_t kind, caller_t caller) {
    unsigned slot = ((uintptr_t)addr >> 3 ^ (uintptr_t)addr >> 11) % CACHE;
    struct lock *l = t->locks[slot].lock;
    if (likely(t->locks[slot].addr == addr && GET(l->addr) == addr)) return l;
    return look_up(t, addr, kind, caller);
}

struct call {
    struct thread *t; /* NULL: not recorded */
    struct lock *lock;
    uint32_t site;
    uint8_t op;
};

static inline struct call before(void *addr, uint8_t kind, uint8_t op, caller_t caller) {
    struct call c = {.t = mine(), .op = op};
    if (unlikely(!c.t)) return c;
    begin(c.t);
    c.lock = lock_at(c.t, addr, kind, caller);
    bool waits = c.lock && !(op & OP_TRY);
    if (likely(c.lock != NULL)) c.site = site_of(c.t, caller, salt_of(c.lock));
    if (unlikely(c.t->watches) && waits) watch(c.t, c.lock, c.site);
    if (waits) {
        SET(c.t->waits_lock, c.lock);
        SET(c.t->waits_site, c.site);
        SET(c.t->waits_op, op);
    }
    finish(c.t);
    if (unlikely(has_pauses) && c.lock && (c.t->n_held || pauses_alone) && is_paused(c.site)) pause_here(c.site);
    return c;
}

static inline void after(const struct call *c, bool is_admitted) {
    struct thread *t = c->t;
    if (unlikely(!t)) return;
    begin(t);
    SET(t->waits_op, OP_NONE);
    if (likely(c->lock && is_admitted)) {
        if (unlikely(t->refused == c->lock) && !(c->op & OP_TRY)) falls_back(c->lock);
        acquired(t, c->lock, c->op, c->site);
    }
    t->refused = c->op & OP_TRY && !is_admitted ? c->lock : NULL;
    finish(t);
}

static inline void before_release(void *addr) {
    struct thread *t = mine();
    if (unlikely(!t)) return;
    begin(t);
    struct lock *l = lock_at(t, addr, 0, 0);
    if (likely(l != NULL)) released(t, l, 0);
    finish(t);
}

void after_init(void *addr, uint8_t kind, caller_t caller);
void before_destroy(void *addr);

/* The waits on condition variables, for both kinds of them. */
struct wait {
    struct thread *t;
    struct lock *mutex;
    uint32_t site;
};
struct wait wait_begins(void *condvar, void *mutex, uint8_t kind, char what, caller_t caller);
void wait_ends(void *wait);
void notifies(void *condvar, caller_t caller);

/* The bodies of the hooks. `is` is the success of the call, whose result is r. */
#define ACQUIRE(addr, kind, op, is, real_call) \
    struct call c = before((void *)addr, kind, op, CALLER); \
    int r = real_call; \
    after(&c, is); \
    return r;
#define RELEASE(addr, real_call) \
    before_release((void *)addr); \
    return real_call;
#define INIT(addr, kind, real_call) \
    int r = real_call; \
    if (r == 0) after_init((void *)addr, kind, CALLER); \
    return r;
/* A thread that is cancelled in its wait has the mutex again when its handlers run. */
#define WAIT(condvar, mutex, what, real_call) \
    int r; \
    struct wait w = wait_begins(condvar, mutex, MUTEX, what, CALLER); \
    pthread_cleanup_push(wait_ends, &w); \
    r = real_call; \
    pthread_cleanup_pop(1); \
    return r;

#endif
