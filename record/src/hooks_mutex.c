/* Mutexes, reader-writer locks and spin locks of pthreads. */
#define _GNU_SOURCE
#include "hook.h"

#define LOCKED (r == 0 || r == EOWNERDEAD)

EXPORT int pthread_mutex_init(pthread_mutex_t *m, const pthread_mutexattr_t *a) { INIT(m, MUTEX, REAL(pthread_mutex_init)(m, a)) }
EXPORT int pthread_mutex_destroy(pthread_mutex_t *m) {
    before_destroy(m);
    return REAL(pthread_mutex_destroy)(m);
}
EXPORT int pthread_mutex_lock(pthread_mutex_t *m) { ACQUIRE(m, MUTEX, OP_LOCK, LOCKED, REAL(pthread_mutex_lock)(m)) }
EXPORT int pthread_mutex_trylock(pthread_mutex_t *m) { ACQUIRE(m, MUTEX, TRIES(OP_LOCK), LOCKED, REAL(pthread_mutex_trylock)(m)) }
EXPORT int pthread_mutex_timedlock(pthread_mutex_t *m, const struct timespec *u) {
    ACQUIRE(m, MUTEX, TRIES(OP_LOCK), LOCKED, REAL(pthread_mutex_timedlock)(m, u))
}
EXPORT int pthread_mutex_clocklock(pthread_mutex_t *m, clockid_t c_, const struct timespec *u) {
    ACQUIRE(m, MUTEX, TRIES(OP_LOCK), LOCKED, REAL(pthread_mutex_clocklock)(m, c_, u))
}
EXPORT int pthread_mutex_unlock(pthread_mutex_t *m) { RELEASE(m, REAL(pthread_mutex_unlock)(m)) }

EXPORT int pthread_rwlock_init(pthread_rwlock_t *m, const pthread_rwlockattr_t *a) { INIT(m, RWLOCK, REAL(pthread_rwlock_init)(m, a)) }
EXPORT int pthread_rwlock_destroy(pthread_rwlock_t *m) {
    before_destroy(m);
    return REAL(pthread_rwlock_destroy)(m);
}
EXPORT int pthread_rwlock_rdlock(pthread_rwlock_t *m) { ACQUIRE(m, RWLOCK, OP_READ, r == 0, REAL(pthread_rwlock_rdlock)(m)) }
EXPORT int pthread_rwlock_tryrdlock(pthread_rwlock_t *m) { ACQUIRE(m, RWLOCK, TRIES(OP_READ), r == 0, REAL(pthread_rwlock_tryrdlock)(m)) }
EXPORT int pthread_rwlock_timedrdlock(pthread_rwlock_t *m, const struct timespec *u) {
    ACQUIRE(m, RWLOCK, TRIES(OP_READ), r == 0, REAL(pthread_rwlock_timedrdlock)(m, u))
}
EXPORT int pthread_rwlock_clockrdlock(pthread_rwlock_t *m, clockid_t c_, const struct timespec *u) {
    ACQUIRE(m, RWLOCK, TRIES(OP_READ), r == 0, REAL(pthread_rwlock_clockrdlock)(m, c_, u))
}
EXPORT int pthread_rwlock_wrlock(pthread_rwlock_t *m) { ACQUIRE(m, RWLOCK, OP_WRITE, r == 0, REAL(pthread_rwlock_wrlock)(m)) }
EXPORT int pthread_rwlock_trywrlock(pthread_rwlock_t *m) { ACQUIRE(m, RWLOCK, TRIES(OP_WRITE), r == 0, REAL(pthread_rwlock_trywrlock)(m)) }
EXPORT int pthread_rwlock_timedwrlock(pthread_rwlock_t *m, const struct timespec *u) {
    ACQUIRE(m, RWLOCK, TRIES(OP_WRITE), r == 0, REAL(pthread_rwlock_timedwrlock)(m, u))
}
EXPORT int pthread_rwlock_clockwrlock(pthread_rwlock_t *m, clockid_t c_, const struct timespec *u) {
    ACQUIRE(m, RWLOCK, TRIES(OP_WRITE), r == 0, REAL(pthread_rwlock_clockwrlock)(m, c_, u))
}
EXPORT int pthread_rwlock_unlock(pthread_rwlock_t *m) { RELEASE(m, REAL(pthread_rwlock_unlock)(m)) }

EXPORT int pthread_spin_init(pthread_spinlock_t *m, int shared) { INIT(m, SPIN, REAL(pthread_spin_init)(m, shared)) }
EXPORT int pthread_spin_destroy(pthread_spinlock_t *m) {
    before_destroy((void *)m);
    return REAL(pthread_spin_destroy)(m);
}
EXPORT int pthread_spin_lock(pthread_spinlock_t *m) { ACQUIRE(m, SPIN, OP_LOCK, r == 0, REAL(pthread_spin_lock)(m)) }
EXPORT int pthread_spin_trylock(pthread_spinlock_t *m) { ACQUIRE(m, SPIN, TRIES(OP_LOCK), r == 0, REAL(pthread_spin_trylock)(m)) }
EXPORT int pthread_spin_unlock(pthread_spinlock_t *m) { RELEASE(m, REAL(pthread_spin_unlock)(m)) }
