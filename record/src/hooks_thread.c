/* Creation, joins, names and ends of threads. */
#define _GNU_SOURCE
#include "hook.h"
#include <limits.h>

static pthread_key_t exit_key;

/* The destructors of other keys may still lock, so that the thread ends in the last round of them. */
static void on_thread_end(void *arg) {
    struct thread *t = arg;
    if (t->rounds++ < PTHREAD_DESTRUCTOR_ITERATIONS - 1 && pthread_setspecific(exit_key, t) == 0) return;
    leaving = true;
    self = NULL;
    thread_ends(t);
}

void make_exit_key(void) { pthread_key_create(&exit_key, on_thread_end); }
void ends_with(struct thread *t) { pthread_setspecific(exit_key, t); }

/* A thread that pthread_create did not make here. */
struct thread *arrive(void) {
    leaving = true; /* a signal that comes now finds no state of this thread */
    struct thread *t = stranger_begins();
    self = t;
    leaving = !t;
    if (t) ends_with(t);
    return t;
}

struct start {
    void *(*start)(void *);
    thrd_start_t start11;
    void *arg;
    uint32_t tid;
    struct start *next;
};
static struct start *free_starts;
static atomic_int unborn; /* threads that pthread_create has made or is about to make, and that have not begun */

void forget_unborn(void) { atomic_store(&unborn, 0); }

static void put_back(struct start *s) {
    enter();
    s->next = free_starts, free_starts = s;
    leave();
}

static void *run_thread(void *arg) {
    leaving = true;
    struct start s = *(struct start *)arg;
    put_back(arg);
    struct thread *t = thread_begins(s.tid, pthread_self());
    atomic_fetch_sub(&unborn, 1);
    self = t;
    leaving = !t;
    if (t) ends_with(t);
    return s.start ? s.start(s.arg) : (void *)(intptr_t)s.start11(s.arg);
}

static int run_thread11(void *arg) { return (int)(intptr_t)run_thread(arg); }

/* Returns what the new thread needs, or NULL without room: such a thread arrives as a stranger. */
static struct start *prepare(struct start what, caller_t caller) {
    struct thread *t = mine();
    if (!t) return NULL;
    begin(t);
    enter();
    struct start *s = free_starts;
    if (s) free_starts = s->next;
    else s = get(sizeof *s);
    leave();
    if (s) {
        *s = what;
        s->tid = thread_is_made(t, what.start ? (uintptr_t)what.start : (uintptr_t)what.start11, caller);
        atomic_fetch_add(&unborn, 1);
    }
    finish(t);
    return s;
}

static void is_not_made(struct start *s) {
    put_back(s);
    atomic_fetch_sub(&unborn, 1);
}

EXPORT int pthread_create(pthread_t *id, const pthread_attr_t *a, void *(*f)(void *), void *arg) {
    struct start *s = prepare((struct start){.start = f, .arg = arg}, CALLER);
    if (!s) return REAL(pthread_create)(id, a, f, arg);
    int r = REAL(pthread_create)(id, a, run_thread, s);
    if (r != 0) is_not_made(s);
    return r;
}

EXPORT int thrd_create(thrd_t *id, thrd_start_t f, void *arg) {
    struct start *s = prepare((struct start){.start11 = f, .arg = arg}, CALLER);
    if (!s) return REAL(thrd_create)(id, f, arg);
    int r = REAL(thrd_create)(id, run_thread11, s);
    if (r != thrd_success) is_not_made(s);
    return r;
}

/* Returns the number of the thread with this handle. A thread that has not begun has no handle yet: only it may read the variable that
   pthread_create filled in, since it may free it. A join waits for it anyway, and a name for a moment. */
static uint32_t number_of(pthread_t handle, bool waits) {
    uint32_t tid = thread_of(handle);
    for (int ms = 0; waits && tid == NO_THREAD && ms < 1000 && atomic_load(&unborn); ms++) nap(1000000), tid = thread_of(handle);
    return tid;
}

/* The number is looked up before the real call: after it, another thread may have the handle. */
static uint32_t join_begins(struct thread *t, pthread_t handle, bool waits, caller_t caller) {
    if (!t) return NO_THREAD;
    begin(t);
    uint32_t tid = number_of(handle, waits);
    if (tid != NO_THREAD && waits) {
        uint32_t site = site_of(t, caller, 2);
        SET(t->waits_party, made[tid].party), SET(t->waits_site, site), SET(t->waits_op, OP_JOIN);
        would_join(t, made[tid].party, site);
    }
    finish(t);
    return tid;
}

static void join_ends(struct thread *t, uint32_t tid, bool is_joined) {
    if (!t) return;
    begin(t);
    SET(t->waits_op, OP_NONE);
    if (tid != NO_THREAD && is_joined) thread_is_joined(t, tid);
    finish(t);
}

#define JOIN(handle, waits, is, real_call) \
    struct thread *t = mine(); \
    uint32_t tid = join_begins(t, handle, waits, CALLER); \
    int r = real_call; \
    join_ends(t, tid, is); \
    return r;

EXPORT int pthread_join(pthread_t h, void **v) { JOIN(h, true, r == 0, REAL(pthread_join)(h, v)) }
EXPORT int pthread_tryjoin_np(pthread_t h, void **v) { JOIN(h, false, r == 0, REAL(pthread_tryjoin_np)(h, v)) }
EXPORT int pthread_timedjoin_np(pthread_t h, void **v, const struct timespec *u) { JOIN(h, false, r == 0, REAL(pthread_timedjoin_np)(h, v, u)) }
EXPORT int pthread_clockjoin_np(pthread_t h, void **v, clockid_t k, const struct timespec *u) {
    JOIN(h, false, r == 0, REAL(pthread_clockjoin_np)(h, v, k, u))
}
EXPORT int thrd_join(thrd_t h, int *v) { JOIN(h, true, r == thrd_success, REAL(thrd_join)(h, v)) }

EXPORT int pthread_setname_np(pthread_t h, const char *name) {
    int r = REAL(pthread_setname_np)(h, name);
    struct thread *t = r == 0 ? mine() : NULL;
    if (!t) return r;
    begin(t);
    name_thread(number_of(h, true), name);
    finish(t);
    return r;
}
