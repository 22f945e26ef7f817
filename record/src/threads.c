/* The threads, their parties, and what creations and joins let run at a time. */
#include "record.h"
#include <string.h>

struct party parties[PARTIES_MAX];
struct made made[THREADS_MAX];
uint32_t n_parties, n_made;
struct thread *threads;
static struct thread *free_threads;
bool ready;
enum { LATE_FROM = THREADS_MAX - 2 * PARTIES_MAX };

/* The caller of these holds the internal lock. */
static uint32_t new_number(void) {
    SET(n_made, n_made + 1);
    return n_made - 1;
}

static struct thread *new_thread(uint32_t tid) {
    struct thread *t = free_threads;
    if (t) free_threads = t->next_free;
    else if ((t = get(sizeof *t))) {
        t->next = threads;
        threads = t;
    } else {
        no_room(AT_THREADS);
        return NULL;
    }
    memset(t->locks, 0, sizeof t->locks), memset(t->sites, 0, sizeof t->sites), memset(t->seen, 0, sizeof t->seen);
    t->busy = t->dump_later = 0, t->grew = t->watches = false, t->rounds = 0, t->refused = NULL, t->once = NULL;
    t->handed_seen = t->segment = 0, t->n_held = 0;
    SET(t->n_path, 0), SET(t->waits_op, OP_NONE), SET(t->sleeps_on, NULL), SET(t->waits_lock, NULL);
    SET(t->tid, tid), SET(t->party, made[tid].party), SET(t->in_use, true);
    return t;
}

/* Returns the state of a thread that begins, or NULL without room. */
struct thread *thread_begins(uint32_t tid, pthread_t handle) {
    enter();
    struct party *p = &parties[made[tid].party];
    if (tid != p->late || !tid) made[tid].handle = handle;
    if (++p->live > p->peak) p->peak = p->live;
    struct thread *t = new_thread(tid);
    leave();
    return t;
}

/* The first thread, or a thread that no call of pthread_create made here: a party of its own. */
struct thread *stranger_begins(void) {
    enter();
    struct thread *t = NULL;
    if (n_made < THREADS_MAX) {
        uint32_t tid = new_number(), party = tid == 0 ? 0 : 1;
        if (n_parties <= party) n_parties = party + 1;
        made[tid] = (struct made){.party = party, .handle = pthread_self()};
        parties[party].threads++;
        if (++parties[party].live > parties[party].peak) parties[party].peak = parties[party].live;
        t = new_thread(tid);
    } else no_room(AT_THREADS);
    leave();
    return t;
}

void thread_ends(struct thread *t) {
    enter();
    parties[t->party].live--;
    SET(t->n_path, 0), t->n_held = 0;
    SET(t->in_use, false);
    t->next_free = free_threads;
    free_threads = t;
    leave();
}

static uint32_t party_of(uintptr_t start, uint64_t key, int n, const uintptr_t *frames) {
    uint32_t p = 2; /* 0 is main, 1 are the threads that came without a call */
    if (n_parties < 2) n_parties = 2;
    while (p < n_parties && parties[p].key != key) p++;
    if (p == PARTIES_MAX) {
        no_room(AT_PARTIES);
        return PARTIES_MAX - 1;
    }
    if (p == n_parties) {
        n_parties++;
        parties[p] = (struct party){.start = start, .key = key, .n = n};
        memcpy(parties[p].frames, frames, n * sizeof *frames);
    }
    return p;
}

/* The number of a thread that its parent is about to make. */
uint32_t thread_is_made(struct thread *parent, uintptr_t start, caller_t caller) {
    uintptr_t frames[STACK_MAX];
    int n = stack_of(caller, frames, STACK_MAX);
    uint64_t key = start;
    for (int i = 0; i < n; i++) key = mix(key, frames[i]);
    enter();
    uint32_t p = party_of(start, key, n, frames), tid;
    parties[p].threads++;
    if (n_made < LATE_FROM) {
        tid = new_number();
        made[tid] = (struct made){.party = p, .parent = parent->tid, .parent_segment = parent->segment};
    } else { /* one number for all further threads of a party, which may run at any time */
        no_room(AT_LATE);
        if (!parties[p].late) parties[p].late = new_number(), made[parties[p].late] = (struct made){.party = p};
        tid = parties[p].late;
    }
    parent->segment++;
    leave();
    return tid;
}

void thread_is_joined(struct thread *joiner, uint32_t tid) {
    enter();
    joiner->segment++;
    made[tid].joined = true, made[tid].joiner = joiner->tid, made[tid].joiner_segment = joiner->segment;
    leave();
}

/* The number of the thread with this handle. Once the table is full, a stale handle could match, so it finds none. */
uint32_t thread_of(pthread_t handle) {
    uint32_t found = NO_THREAD;
    enter();
    if (n_made < LATE_FROM)
        for (uint32_t i = n_made; i-- > 0 && found == NO_THREAD;)
            if (!made[i].joined && pthread_equal(made[i].handle, handle)) found = i;
    leave();
    return found;
}

void name_thread(uint32_t tid, const char *name) {
    if (tid == NO_THREAD) return;
    enter();
    strncpy(made[tid].name, name, NAME_MAX_BYTES - 1);
    leave();
}

static struct {
    bool had_others; /* the process that was forked */
    uint32_t thread, party, born;
} forked;

/* Whether another thread than the one that forked may have held the lock at the fork. */
static bool may_be_stuck(struct lock *lock) {
    uint64_t others = ~(1ull << (forked.party < 63 ? forked.party : 63));
    bool is_new = lock->born >= forked.born || lock->watched;
    lock->watched = true;
    uint32_t owner = GET(lock->owner);
    return !is_new && ((owner && owner != forked.thread + 1) || (lock->flat[0].parties | lock->flat[1].parties) & others);
}

/* Notes an acquisition by a signal handler, and the first of a lock that a forked child has from its parent. */
void watch(struct thread *t, struct lock *lock, uint32_t site) {
    t->watches = forked.had_others;
    if (all_sites[site]->in_handler) keep_note(t, 's', lock->addr, lock, site);
    if (forked.had_others && may_be_stuck(lock)) keep_note(t, 'f', lock->addr, lock, site);
}

static void note_fork(const struct thread *self) {
    forked.had_others = false;
    for (uint32_t i = 0; self && i < n_made; i++) forked.had_others |= i != self->tid && !made[i].joined; /* one that ended might not have */
    if (!forked.had_others) return;
    forked.thread = self->tid, forked.party = self->party, forked.born = n_born;
    for (int k = 0; k < self->n_held; k++) self->held[k].lock->watched = true; /* its own */
}

/* In a forked child: its one thread is the first, and the others are not there. */
void threads_in_child(struct thread *self) {
    note_fork(self);
    for (struct thread *t = threads; t; t = t->next)
        if (t != self && t->in_use) t->in_use = false;
    for (uint32_t i = 0; i < n_parties; i++) parties[i].live = parties[i].peak = parties[i].threads = parties[i].late = 0;
    memset(&made[0], 0, sizeof made[0]);
    made[0].handle = pthread_self();
    n_made = 1;
    parties[0].threads = parties[0].live = parties[0].peak = 1;
    if (!self) return;
    self->tid = self->party = self->segment = 0;
    self->watches = forked.had_others;
    memset(self->seen, 0, sizeof self->seen);
}
