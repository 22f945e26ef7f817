/* Mutexes and condition variables of C11. They do not come back through the symbols of pthreads. */
#define _GNU_SOURCE
#include "hook.h"

EXPORT int mtx_init(mtx_t *m, int k) { INIT(m, MUTEX, REAL(mtx_init)(m, k)) }
EXPORT void mtx_destroy(mtx_t *m) {
    before_destroy(m);
    REAL(mtx_destroy)(m);
}
EXPORT int mtx_lock(mtx_t *m) { ACQUIRE(m, MUTEX, OP_LOCK, r == thrd_success, REAL(mtx_lock)(m)) }
EXPORT int mtx_trylock(mtx_t *m) { ACQUIRE(m, MUTEX, TRIES(OP_LOCK), r == thrd_success, REAL(mtx_trylock)(m)) }
EXPORT int mtx_timedlock(mtx_t *m, const struct timespec *u) { ACQUIRE(m, MUTEX, TRIES(OP_LOCK), r == thrd_success, REAL(mtx_timedlock)(m, u)) }
EXPORT int mtx_unlock(mtx_t *m) { RELEASE(m, REAL(mtx_unlock)(m)) }

EXPORT int cnd_wait(cnd_t *c, mtx_t *m) { WAIT(c, m, 'w', REAL(cnd_wait)(c, m)) }
EXPORT int cnd_timedwait(cnd_t *c, mtx_t *m, const struct timespec *u) { WAIT(c, m, 't', REAL(cnd_timedwait)(c, m, u)) }
EXPORT int cnd_signal(cnd_t *c) {
    notifies(c, CALLER);
    return REAL(cnd_signal)(c);
}
EXPORT int cnd_broadcast(cnd_t *c) {
    notifies(c, CALLER);
    return REAL(cnd_broadcast)(c);
}
