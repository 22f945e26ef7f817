/* What the small programs have in common. `in_turn` makes threads run one after another without a join between, so that no run hangs. */
#ifndef PROGRAM_H
#define PROGRAM_H
#define _GNU_SOURCE
#include <pthread.h>
#include <stdlib.h>
#include <unistd.h>

#define MUTEX(m) static pthread_mutex_t m = PTHREAD_MUTEX_INITIALIZER
#define LOCK(m) pthread_mutex_lock(&(m))
#define UNLOCK(m) pthread_mutex_unlock(&(m))
#define READ(l) pthread_rwlock_rdlock(&(l))
#define WRITE(l) pthread_rwlock_wrlock(&(l))
#define UNLOCK_RW(l) pthread_rwlock_unlock(&(l))
#define THREAD(name) static void *name(void *x)

typedef void *(*start_fn)(void *);
static int turns;

/* Lets the next thread begin. */
static inline void *next(void *x) {
    __atomic_add_fetch(&turns, 1, __ATOMIC_SEQ_CST);
    return x;
}

/* Waits until so many threads have called `next`, but not for long under --confirm: there, threads are to meet. */
static inline void wait_for_turn(int n) {
    int most = getenv("LOCKRECORD_PAUSE") ? 150 : 10000;
    for (int ms = 0; ms < most && __atomic_load_n(&turns, __ATOMIC_SEQ_CST) < n; ms++) usleep(1000);
}

static inline void in_turn(int n, const start_fn *start) {
    pthread_t t[8];
    int first = turns;
    for (long i = 0; i < n; i++) pthread_create(&t[i], NULL, start[i], (void *)i), wait_for_turn(first + i + 1);
    for (int i = 0; i < n; i++) pthread_join(t[i], NULL);
}
#define IN_TURN(...) in_turn(sizeof(start_fn[]){__VA_ARGS__} / sizeof(start_fn), (start_fn[]){__VA_ARGS__})

#endif
