/* usage: micro WORD THREADS PAIRS: nanoseconds of processor time for each acquisition and its release, where each thread
   has its own locks (flat), three nested ones (nested) or 4,096 below one (objects), or all have one (shared). */
#define _GNU_SOURCE
#include <pthread.h>
#include <stdio.h>
#include <stdlib.h>
#include <string.h>
#include <time.h>
enum { LOCKS = 4100, OBJECTS = 4096, THREADS = 64 };
static long pairs;
static const char *what;
static pthread_mutex_t shared = PTHREAD_MUTEX_INITIALIZER;

static void pair(pthread_mutex_t *m) { pthread_mutex_lock(m), pthread_mutex_unlock(m); }

static void *run(void *x) {
    pthread_mutex_t *m = x;
    if (!strcmp(what, "flat"))
        for (long i = 0; i < pairs; i++) pair(m);
    else if (!strcmp(what, "shared"))
        for (long i = 0; i < pairs; i++) pair(&shared);
    else
        for (long i = 0; i < pairs; i++) {
            pthread_mutex_lock(m), i++;
            if (*what == 'o') pair(m + 1 + i * 7919 % OBJECTS);
            else pthread_mutex_lock(m + 1), pair(m + 2), i++, pthread_mutex_unlock(m + 1);
            pthread_mutex_unlock(m);
        }
    return x;
}

int main(int argc, char **argv) {
    if (argc != 4 || atoi(argv[2]) < 1 || atoi(argv[2]) > THREADS) return 2;
    int n = atoi(argv[2]);
    pthread_t t[THREADS];
    pthread_mutex_t *m = malloc(sizeof *m * LOCKS * n);
    struct timespec from, to;
    what = argv[1], pairs = atol(argv[3]);
    for (int i = 0; i < n * LOCKS; i++) pthread_mutex_init(&m[i], NULL);
    clock_gettime(CLOCK_PROCESS_CPUTIME_ID, &from);
    for (int i = 0; i < n; i++) pthread_create(&t[i], NULL, run, m + i * LOCKS);
    for (int i = 0; i < n; i++) pthread_join(t[i], NULL);
    clock_gettime(CLOCK_PROCESS_CPUTIME_ID, &to);
    printf("%.1f\n", ((to.tv_sec - from.tv_sec) * 1e9 + to.tv_nsec - from.tv_nsec) / (double)pairs / n);
}
