/* Condition variables, barriers and pthread_once: calls that wait for another thread. */
#define _GNU_SOURCE
#include "hook.h"

EXPORT int pthread_cond_wait(pthread_cond_t *c, pthread_mutex_t *m) { WAIT(c, m, 'w', REAL(pthread_cond_wait)(c, m)) }
EXPORT int pthread_cond_timedwait(pthread_cond_t *c, pthread_mutex_t *m, const struct timespec *u) {
    WAIT(c, m, 't', REAL(pthread_cond_timedwait)(c, m, u))
}
EXPORT int pthread_cond_clockwait(pthread_cond_t *c, pthread_mutex_t *m, clockid_t k, const struct timespec *u) {
    WAIT(c, m, 't', REAL(pthread_cond_clockwait)(c, m, k, u))
}
EXPORT int pthread_cond_signal(pthread_cond_t *c) {
    notifies(c, CALLER);
    return REAL(pthread_cond_signal)(c);
}
EXPORT int pthread_cond_broadcast(pthread_cond_t *c) {
    notifies(c, CALLER);
    return REAL(pthread_cond_broadcast)(c);
}

EXPORT int pthread_barrier_wait(pthread_barrier_t *b) {
    struct thread *t = mine();
    if (!t) return REAL(pthread_barrier_wait)(b);
    begin(t);
    uint32_t site = site_of(t, CALLER, 3);
    if (t->n_held) keep_note(t, 'b', b, NULL, site);
    SET(t->waits_site, site), SET(t->sleeps_kind, 'b'), SET(t->sleeps_on, b);
    finish(t);
    int r = REAL(pthread_barrier_wait)(b);
    SET(t->sleeps_on, NULL);
    return r;
}

/* A call of pthread_once. The thread that runs the routine holds the object as a mutex meanwhile, and others wait for it. */
struct once {
    void (*init)(void);
    struct call call;
    struct once *outer;
    bool is_held;
};

static void run_once(void) {
    struct once *o = self->once;
    self->once = o->outer;
    o->is_held = true;
    after(&o->call, true);
    o->init();
}

/* Runs also when an exception leaves the routine. */
static void once_ends(struct once *o) {
    if (!o->is_held) o->call.t->once = o->outer, after(&o->call, true);
    begin(o->call.t);
    if (o->call.lock) released(o->call.t, o->call.lock, o->call.site);
    finish(o->call.t);
}

/* Without a lock held, a call after the routine has ended adds nothing to the record. */
static bool is_recorded(const void *control) {
    const struct thread *t = mine();
    return t && (t->n_held || __atomic_load_n((const int *)control, __ATOMIC_ACQUIRE) != 2);
}

EXPORT int pthread_once(pthread_once_t *control, void (*init)(void)) {
    if (!is_recorded(control)) return REAL(pthread_once)(control, init);
    __attribute__((cleanup(once_ends))) struct once o = {.init = init, .call = before(control, ONCE, OP_LOCK, CALLER), .outer = self->once};
    self->once = &o;
    return REAL(pthread_once)(control, run_once);
}

EXPORT void call_once(once_flag *control, void (*init)(void)) {
    if (!is_recorded(control)) {
        REAL(call_once)(control, init);
        return;
    }
    __attribute__((cleanup(once_ends))) struct once o = {.init = init, .call = before(control, ONCE, OP_LOCK, CALLER), .outer = self->once};
    self->once = &o;
    REAL(call_once)(control, run_once);
}
