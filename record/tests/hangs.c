/* usage: hangs WORD: a program that hangs in the way that the word says, or waits for input. */
#include "programs/program.h"
#include <stdio.h>
#include <string.h>
#include <time.h>
MUTEX(a);
MUTEX(b);
static pthread_rwlock_t r = PTHREAD_RWLOCK_INITIALIZER;
static pthread_cond_t never = PTHREAD_COND_INITIALIZER;
static pthread_barrier_t both;

static void meet(void) { pthread_barrier_wait(&both); }

THREAD(first) {
    LOCK(a);
    meet();
    LOCK(b); /* waits */
    return x;
}
THREAD(second) {
    LOCK(b);
    meet();
    LOCK(a); /* waits */
    return x;
}
THREAD(writes) {
    WRITE(r);
    meet();
    LOCK(b); /* waits */
    return x;
}
THREAD(reads) {
    LOCK(b);
    meet();
    READ(r); /* waits */
    return x;
}
THREAD(in_time) {
    struct timespec at;
    LOCK(b);
    meet();
    clock_gettime(CLOCK_REALTIME, &at);
    at.tv_sec += 1000;
    pthread_mutex_timedlock(&a, &at);
    return x;
}
THREAD(leaves) {
    LOCK(a);
    return x;
}
THREAD(sleeps) {
    LOCK(b);
    for (;;) pthread_cond_wait(&never, &b);
    return x;
}

static pthread_t made(start_fn start) {
    pthread_t t;
    pthread_create(&t, NULL, start, NULL);
    return t;
}

int main(int argc, char **argv) {
    const char *word = argc == 2 ? argv[1] : "";
    pthread_t t = 0;
    pthread_barrier_init(&both, NULL, 2);
    if (!strcmp(word, "abba")) t = made(first), made(second);
    else if (!strcmp(word, "rwlock")) t = made(writes), made(reads);
    else if (!strcmp(word, "timed")) t = made(first), made(in_time);
    else if (!strcmp(word, "join")) {
        LOCK(b);
        t = made(first);
        meet();
    } else if (!strcmp(word, "ended")) {
        pthread_join(made(leaves), NULL);
        LOCK(a); /* waits */
    } else if (!strcmp(word, "sleeps")) t = made(sleeps);
    else return getchar() != EOF;
    return pthread_join(t, NULL); /* waits */
}
