/* usage: tables PREFIX: several threads use the recorder's tables at once, while the record is written again and again.
   Built without the hooks, with ThreadSanitizer: it finds data races of the tables. */
#define _GNU_SOURCE
#include "../src/record.h"
#include <stdio.h>
#include <stdlib.h>
#include <unistd.h>

enum { THREADS = 4, TURNS = 400, SHARED = 8 };
static char shared[SHARED][64], heap[THREADS][64];
static int left = THREADS;

static struct lock *lock_of(struct thread *t, void *addr) {
    struct lock *l = find_lock(addr);
    return l ? l : make_lock(addr, MUTEX, site_of(t, &(uintptr_t){(uintptr_t)addr}, 1), false);
}

/* Acquires two shared locks and one that comes and goes, in the order of their numbers. */
static void turn(struct thread *t, int i, char *own) {
    struct lock *a = lock_of(t, shared[i % SHARED]), *b = lock_of(t, shared[(i + 1 + i / SHARED) % SHARED]);
    if (a == b) return;
    struct lock *c = make_lock(own, MUTEX, site_of_stack(&(uintptr_t){(uintptr_t)turn}), true);
    uint32_t site = site_of(t, &(uintptr_t){(uintptr_t)turn + i % 16}, salt_of(a));
    acquired(t, a, OP_LOCK, site);
    acquired(t, b, OP_LOCK | (i % 3 ? 0 : OP_TRY), site);
    if (c) acquired(t, c, OP_LOCK, site);
    keep_note(t, i % 2 ? 'n' : 'w', &shared[i % SHARED], b, site);
    if (i % 5 == 0) falls_back(a);
    if (i % 2) released(t, a, site), released(t, b, site);
    else released(t, b, site), released(t, a, site);
    if (c) released(t, c, site);
    if (i % 7 == 0) forget_locks_in((uintptr_t)own, (uintptr_t)own + 64);
    else forget_lock(own);
}

static void *use(void *x) {
    struct thread *t = stranger_begins();
    name_thread(thread_of(pthread_self()), "user");
    for (int i = 0; t && i < TURNS; i++) turn(t, i, heap[(long)x]);
    if (t) thread_ends(t);
    __atomic_fetch_sub(&left, 1, __ATOMIC_SEQ_CST);
    return x;
}

int main(int argc, char **argv) {
    pthread_t t[THREADS];
    if (argc != 2) return 2;
    name_record(argv[1], getppid());
    ready = true;
    stranger_begins();
    for (long i = 0; i < THREADS; i++) pthread_create(&t[i], NULL, use, (void *)i);
    while (__atomic_load_n(&left, __ATOMIC_SEQ_CST)) write_record("test"), usleep(5000);
    for (int i = 0; i < THREADS; i++) pthread_join(t[i], NULL);
    write_record("end");
    printf("%u locks, %u paths\n", n_born, n_paths);
    return n_paths < SHARED || n_born < THREADS * TURNS / 2;
}
