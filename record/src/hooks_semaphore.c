/* Semaphores of one permit, on demand: many programs use them as signals. A post by another thread hands the lock over. */
#define _GNU_SOURCE
#include "hook.h"
#include "options.h"

EXPORT int sem_init(sem_t *m, int shared, unsigned value) {
    if (!with_semaphores || value != 1) return REAL(sem_init)(m, shared, value);
    INIT(m, SEMAPHORE, REAL(sem_init)(m, shared, value))
}

/* Only a semaphore that sem_init made with one permit is a lock. */
static bool is_lock(sem_t *m) {
    struct thread *t = with_semaphores ? mine() : NULL;
    return t && lock_at(t, m, SEMAPHORE, 0);
}

EXPORT int sem_destroy(sem_t *m) {
    if (is_lock(m)) before_destroy(m);
    return REAL(sem_destroy)(m);
}
EXPORT int sem_wait(sem_t *m) {
    if (!is_lock(m)) return REAL(sem_wait)(m);
    ACQUIRE(m, SEMAPHORE, OP_LOCK, r == 0, REAL(sem_wait)(m))
}
EXPORT int sem_trywait(sem_t *m) {
    if (!is_lock(m)) return REAL(sem_trywait)(m);
    ACQUIRE(m, SEMAPHORE, TRIES(OP_LOCK), r == 0, REAL(sem_trywait)(m))
}
EXPORT int sem_timedwait(sem_t *m, const struct timespec *u) {
    if (!is_lock(m)) return REAL(sem_timedwait)(m, u);
    ACQUIRE(m, SEMAPHORE, TRIES(OP_LOCK), r == 0, REAL(sem_timedwait)(m, u))
}
EXPORT int sem_clockwait(sem_t *m, clockid_t k, const struct timespec *u) {
    if (!is_lock(m)) return REAL(sem_clockwait)(m, k, u);
    ACQUIRE(m, SEMAPHORE, TRIES(OP_LOCK), r == 0, REAL(sem_clockwait)(m, k, u))
}
EXPORT int sem_post(sem_t *m) {
    if (!is_lock(m)) return REAL(sem_post)(m);
    RELEASE(m, REAL(sem_post)(m))
}
