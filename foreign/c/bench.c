/* SPDX-License-Identifier: MIT OR Apache-2.0 */
/* Nanoseconds of a lock and an unlock on one thread, in turns with pthread: the least of many runs. */
#define _GNU_SOURCE
#include "proved_lock.h"
#include <pthread.h>
#include <stdio.h>

enum { TURNS = 300, ROUNDS = 2000 };

static double now(void) {
    struct timespec t;
    clock_gettime(CLOCK_MONOTONIC, &t);
    return (double)t.tv_sec * 1e9 + (double)t.tv_nsec;
}

static pthread_mutex_t their_mutex = PTHREAD_MUTEX_INITIALIZER;
static pthread_rwlock_t their_rwlock = PTHREAD_RWLOCK_INITIALIZER;
static proved_mutex mutex = PROVED_MUTEX_INIT;
static proved_rwlock rwlock = PROVED_RWLOCK_INIT;
static volatile long n;

#define MEASURE(best, lock, unlock) \
    do { \
        double begun = now(); \
        for (int i = 0; i < ROUNDS; i++) { \
            lock; \
            n++; \
            unlock; \
        } \
        double took = (now() - begun) / ROUNDS; \
        if (took < best) best = took; \
    } while (0)

int main(void) {
    double best[6] = {1e9, 1e9, 1e9, 1e9, 1e9, 1e9};
    for (int turn = 0; turn < TURNS; turn++) {
        MEASURE(best[0], pthread_mutex_lock(&their_mutex), pthread_mutex_unlock(&their_mutex));
        MEASURE(best[1], proved_mutex_lock(&mutex), proved_mutex_unlock(&mutex));
        MEASURE(best[2], pthread_rwlock_rdlock(&their_rwlock), pthread_rwlock_unlock(&their_rwlock));
        MEASURE(best[3], proved_rwlock_lock_shared(&rwlock), proved_rwlock_unlock_shared(&rwlock));
        MEASURE(best[4], pthread_rwlock_wrlock(&their_rwlock), pthread_rwlock_unlock(&their_rwlock));
        MEASURE(best[5], proved_rwlock_lock_exclusive(&rwlock), proved_rwlock_unlock_exclusive(&rwlock));
    }
    printf("mutex: pthread %.1f, proved_lock %.1f ns\n", best[0], best[1]);
    printf("read: pthread %.1f, proved_lock %.1f ns\n", best[2], best[3]);
    printf("write: pthread %.1f, proved_lock %.1f ns\n", best[4], best[5]);
    printf("bytes: pthread_mutex_t %zu, proved_mutex %zu, pthread_rwlock_t %zu, proved_rwlock %zu\n", sizeof their_mutex, sizeof mutex,
           sizeof their_rwlock, sizeof rwlock);
    return 0;
}
