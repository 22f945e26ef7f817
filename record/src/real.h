/* The functions of the C library behind the hooks. */
#ifndef LOCKRECORD_REAL_H
#define LOCKRECORD_REAL_H
#include "limits.h"
#include <pthread.h>
#include <semaphore.h>
#include <signal.h>
#include <stdbool.h>
#include <threads.h>

/* The mutexes come first: see find_real. */
#define EACH_REAL(X) \
    X(int, pthread_mutex_init, (pthread_mutex_t *, const pthread_mutexattr_t *)) \
    X(int, pthread_mutex_destroy, (pthread_mutex_t *)) \
    X(int, pthread_mutex_lock, (pthread_mutex_t *)) \
    X(int, pthread_mutex_trylock, (pthread_mutex_t *)) \
    X(int, pthread_mutex_timedlock, (pthread_mutex_t *, const struct timespec *)) \
    X(int, pthread_mutex_clocklock, (pthread_mutex_t *, clockid_t, const struct timespec *)) \
    X(int, pthread_mutex_unlock, (pthread_mutex_t *)) \
    X(int, pthread_rwlock_init, (pthread_rwlock_t *, const pthread_rwlockattr_t *)) \
    X(int, pthread_rwlock_destroy, (pthread_rwlock_t *)) \
    X(int, pthread_rwlock_rdlock, (pthread_rwlock_t *)) \
    X(int, pthread_rwlock_tryrdlock, (pthread_rwlock_t *)) \
    X(int, pthread_rwlock_timedrdlock, (pthread_rwlock_t *, const struct timespec *)) \
    X(int, pthread_rwlock_clockrdlock, (pthread_rwlock_t *, clockid_t, const struct timespec *)) \
    X(int, pthread_rwlock_wrlock, (pthread_rwlock_t *)) \
    X(int, pthread_rwlock_trywrlock, (pthread_rwlock_t *)) \
    X(int, pthread_rwlock_timedwrlock, (pthread_rwlock_t *, const struct timespec *)) \
    X(int, pthread_rwlock_clockwrlock, (pthread_rwlock_t *, clockid_t, const struct timespec *)) \
    X(int, pthread_rwlock_unlock, (pthread_rwlock_t *)) \
    X(int, pthread_spin_init, (pthread_spinlock_t *, int)) \
    X(int, pthread_spin_destroy, (pthread_spinlock_t *)) \
    X(int, pthread_spin_lock, (pthread_spinlock_t *)) \
    X(int, pthread_spin_trylock, (pthread_spinlock_t *)) \
    X(int, pthread_spin_unlock, (pthread_spinlock_t *)) \
    X(int, pthread_cond_wait, (pthread_cond_t *, pthread_mutex_t *)) \
    X(int, pthread_cond_timedwait, (pthread_cond_t *, pthread_mutex_t *, const struct timespec *)) \
    X(int, pthread_cond_clockwait, (pthread_cond_t *, pthread_mutex_t *, clockid_t, const struct timespec *)) \
    X(int, pthread_cond_signal, (pthread_cond_t *)) \
    X(int, pthread_cond_broadcast, (pthread_cond_t *)) \
    X(int, pthread_barrier_wait, (pthread_barrier_t *)) \
    X(long, syscall, (long, ...)) \
    X(int, pthread_once, (pthread_once_t *, void (*)(void))) \
    X(int, pthread_create, (pthread_t *, const pthread_attr_t *, void *(*)(void *), void *)) \
    X(int, pthread_join, (pthread_t, void **)) \
    X(int, pthread_timedjoin_np, (pthread_t, void **, const struct timespec *)) \
    X(int, pthread_clockjoin_np, (pthread_t, void **, clockid_t, const struct timespec *)) \
    X(int, pthread_tryjoin_np, (pthread_t, void **)) \
    X(int, pthread_setname_np, (pthread_t, const char *)) \
    X(int, mtx_init, (mtx_t *, int)) \
    X(void, mtx_destroy, (mtx_t *)) \
    X(int, mtx_lock, (mtx_t *)) \
    X(int, mtx_trylock, (mtx_t *)) \
    X(int, mtx_timedlock, (mtx_t *, const struct timespec *)) \
    X(int, mtx_unlock, (mtx_t *)) \
    X(int, cnd_wait, (cnd_t *, mtx_t *)) \
    X(int, cnd_timedwait, (cnd_t *, mtx_t *, const struct timespec *)) \
    X(int, cnd_signal, (cnd_t *)) \
    X(int, cnd_broadcast, (cnd_t *)) \
    X(void, call_once, (once_flag *, void (*)(void))) \
    X(int, thrd_create, (thrd_t *, thrd_start_t, void *)) \
    X(int, thrd_join, (thrd_t, int *)) \
    X(int, sem_init, (sem_t *, int, unsigned)) \
    X(int, sem_destroy, (sem_t *)) \
    X(int, sem_wait, (sem_t *)) \
    X(int, sem_trywait, (sem_t *)) \
    X(int, sem_timedwait, (sem_t *, const struct timespec *)) \
    X(int, sem_clockwait, (sem_t *, clockid_t, const struct timespec *)) \
    X(int, sem_post, (sem_t *)) \
    X(int, sigaction, (int, const struct sigaction *, struct sigaction *)) \
    X(int, dlclose, (void *)) \
    X(void, free, (void *)) \
    X(int, execve, (const char *, char *const *, char *const *)) \
    X(int, execvpe, (const char *, char *const *, char *const *)) \
    X(int, fexecve, (int, char *const *, char *const *)) \
    X(void, _exit, (int))

#define MEMBER(result, name, arguments) result(*name) arguments;
struct real {
    EACH_REAL(MEMBER)
};
extern struct real real;
extern bool real_is_found;
extern const char *missing[MISSING_MAX];
extern int n_missing;
void find_real(void);

/* A hook may be called before the constructor. */
#define REAL(name) (__builtin_expect(!real_is_found, 0) ? find_real() : (void)0, real.name)

#endif
