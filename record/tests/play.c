/* usage: play FILE: threads that make the lock calls of a text, one thread after another, so that no run hangs.
   Lines: `locks KINDS` (m mutex, r rwlock, b rwlock whose waiting writers keep readers out), `thread PARTY CALLS..`.
   A call is a letter and the number of a lock: L lock, R read, W write, T try lock, U unlock. */
#define _GNU_SOURCE
#include <pthread.h>
#include <sched.h>
#include <stdio.h>
#include <stdlib.h>
#include <string.h>
enum { LOCKS = 8, THREADS = 64, LINE = 4096 };
static pthread_mutex_t mutexes[LOCKS];
static pthread_rwlock_t rwlocks[LOCKS];
static char kinds[LOCKS + 1], lines[THREADS][LINE];
static int turn;

static int call(char what, int l) {
    switch (what) {
    case 'L': return pthread_mutex_lock(&mutexes[l]);
    case 'T': return pthread_mutex_trylock(&mutexes[l]);
    case 'R': return pthread_rwlock_rdlock(&rwlocks[l]);
    case 'W': return pthread_rwlock_wrlock(&rwlocks[l]);
    default: return kinds[l] == 'm' ? pthread_mutex_unlock(&mutexes[l]) : pthread_rwlock_unlock(&rwlocks[l]);
    }
}

static void *run(void *x) {
    long i = (long)x;
    while (__atomic_load_n(&turn, __ATOMIC_SEQ_CST) != i) sched_yield(); /* the recorder sees no order of the threads */
    char *rest;
    for (char *w = strtok_r(lines[i], " \n", &rest); w; w = strtok_r(NULL, " \n", &rest))
        if (call(w[0], w[1] - '0')) fprintf(stderr, "a fault at %s\n", w), exit(9);
    __atomic_fetch_add(&turn, 1, __ATOMIC_SEQ_CST);
    return x;
}

/* Each party has a start function of its own. */
static void *p0(void *x) { return run(x); }
static void *p1(void *x) { return run(x); }
static void *p2(void *x) { return run(x); }
static void *p3(void *x) { return run(x); }

static void init_locks(void) {
    for (int i = 0; kinds[i]; i++) {
        pthread_rwlockattr_t kind;
        pthread_rwlockattr_init(&kind);
        if (kinds[i] == 'b') pthread_rwlockattr_setkind_np(&kind, PTHREAD_RWLOCK_PREFER_WRITER_NONRECURSIVE_NP);
        pthread_rwlock_init(&rwlocks[i], &kind), pthread_mutex_init(&mutexes[i], NULL);
    }
}

int main(int argc, char **argv) {
    void *(*const starts[])(void *) = {p0, p1, p2, p3};
    FILE *f = argc == 2 ? fopen(argv[1], "r") : NULL;
    char line[LINE];
    int party[THREADS], n = 0;
    pthread_t t[THREADS];
    if (!f) return 2;
    while (n < THREADS && fgets(line, sizeof line, f))
        if (line[0] == 'l') sscanf(line, "locks %8s", kinds);
        else party[n] = line[7] - '0', strcpy(lines[n++], line + 9);
    fclose(f);
    init_locks();
    for (long i = 0; i < n; i++) pthread_create(&t[i], NULL, starts[party[i]], (void *)i);
    for (int i = 0; i < n; i++) pthread_join(t[i], NULL);
}
