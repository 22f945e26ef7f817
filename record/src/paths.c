/* The path of each thread: what it did from holding nothing up to an acquisition, without the parts that it has released again. */
#include "record.h"
#include <string.h>

uint32_t n_handed; /* locks that a thread released which had not acquired them, so that their holders look again */
uint32_t n_cut;    /* paths that grew too long */

static bool is_acquisition(uint8_t op) { return (op & OP_MASK) < OP_RELEASE; }

/* The first event of a path gets its hash with the second: most sections have one lock. */
static void hash_event(struct thread *t, int i) {
    struct event *e = &t->path[i];
    if (i == 1) hash_event(t, 0);
    uint64_t id = (e->op & OP_MASK) == OP_JOIN ? e->party : e->lock->id | (uint64_t)e->lock->born << 32;
    e->hash = mix(mix(i ? t->path[i - 1].hash : 0, e->op), id);
}

static void set_event(struct thread *t, int i, struct lock *lock, uint8_t op, uint32_t site, uint8_t from) {
    struct event *e = &t->path[i];
    SET(e->lock, lock), SET(e->op, op), SET(e->site, site), e->from = from;
    if (i) hash_event(t, i);
    SET(t->n_path, i + 1);
}

static void move_event(struct thread *t, int to, int from) {
    struct event *e = &t->path[from];
    set_event(t, to, e->lock, e->op, e->site, e->from);
}

static void add_flat(struct flat *flat, uint64_t bit, uint32_t site) {
    if (!__atomic_fetch_or(&flat->parties, bit, __ATOMIC_RELAXED)) SET(flat->site, site);
}

/* Notes that a thread of the party held the lock and nothing else. */
void mark_flat(struct thread *t) {
    uint64_t bit = 1ull << (t->party < 63 ? t->party : 63);
    struct lock *l = t->path[0].lock;
    bool is_exclusive = (t->path[0].op & OP_MASK) != OP_READ;
    if (likely(GET(l->flat[is_exclusive].parties) & bit)) return;
    add_flat(&l->flat[is_exclusive], bit, t->path[0].site);
    if (l->classed) add_flat(&all_classes[l->class]->flat[is_exclusive], bit, t->path[0].site);
}

static void path_seen(struct thread *t) {
    if (t->n_path < 2) {
        if (t->n_path == 1 && is_acquisition(t->path[0].op)) mark_flat(t);
        return;
    }
    uint64_t h = mix(t->path[t->n_path - 1].hash, t->segment) | 1;
    if (likely(t->seen[h >> 32 & (SEEN - 1)] == h)) return;
    keep_path(t);
    t->seen[h >> 32 & (SEEN - 1)] = h;
}

/* A path that grows too long forgets what it has released: more interleavings are then possible than there were. */
static void shorten(struct thread *t) {
    int n = 0, whole = t->n_path;
    for (int i = 0; i < whole; i++)
        for (int k = 0; k < t->n_held; k++)
            if (t->held[k].at == i && is_acquisition(t->path[i].op) && t->path[i].lock == t->held[k].lock) {
                t->held[k].at = n;
                move_event(t, n++, i);
                break;
            }
    SET(t->n_path, n);
    __atomic_fetch_add(&n_cut, 1, __ATOMIC_RELAXED);
}

static void drop_held(struct thread *t, int k) {
    t->n_held--;
    if (k < t->n_held) memmove(&t->held[k], &t->held[k + 1], (t->n_held - k) * sizeof t->held[0]);
}

/* Another thread released a lock of this one: the path goes on without it. */
static void drop_handed(struct thread *t) {
    t->handed_seen = GET(n_handed);
    for (int k = t->n_held - 1; k >= 0; k--)
        if (GET(t->held[k].lock->handed) && GET(t->held[k].lock->owner) != t->tid + 1) drop_held(t, k);
    if (t->n_held) shorten(t);
    else SET(t->n_path, 0);
}

void acquired_below(struct thread *t, struct lock *l, uint8_t op, uint32_t site) {
    if (unlikely(t->handed_seen != GET(n_handed))) drop_handed(t);
    SET(l->owner, t->tid + 1);
    for (int k = t->n_held - 1; k >= 0; k--)
        if (t->held[k].lock == l && !has_bar(l->kind)) {
            t->held[k].levels++;
            return;
        }
    if (unlikely(t->n_held == HELD_MAX)) {
        no_room(AT_HELD);
        return;
    }
    if (unlikely(t->n_path >= PATH_MAX_EVENTS)) shorten(t);
    if (unlikely(t->n_path >= PATH_MAX_EVENTS)) {
        no_room(AT_LENGTH);
        return;
    }
    int i = t->n_path;
    set_event(t, i, l, op, site, 0);
    t->held[t->n_held++] = (struct held){l, 1, i};
    t->grew = true;
}

/* A release by a thread that had not acquired the lock, as of a mutex that is a signal. */
static void hand_over(struct lock *l) {
    if (!GET(l->handed)) SET(l->handed, true);
    SET(l->owner, 0);
    __atomic_fetch_add(&n_handed, 1, __ATOMIC_RELAXED);
}

/* What came after the last lock that is still held goes, but for releases of earlier locks. */
static void cut_released(struct thread *t, int top) {
    int n = top + 1, whole = t->n_path;
    for (int i = n; i < whole; i++)
        if ((t->path[i].op & OP_MASK) == OP_RELEASE && t->path[i].from < top) move_event(t, n++, i);
    SET(t->n_path, n);
}

void released_below(struct thread *t, struct lock *l, uint32_t site) {
    int k = t->n_held - 1;
    t->refused = NULL;
    while (k >= 0 && t->held[k].lock != l) k--;
    if (unlikely(k < 0)) {
        hand_over(l);
        return;
    }
    if (--t->held[k].levels) return;
    if (t->grew) path_seen(t), t->grew = false;
    int at = t->held[k].at;
    drop_held(t, k);
    if (t->n_held == 0) {
        SET(t->n_path, 0);
        return;
    }
    int top = t->held[t->n_held - 1].at;
    if (at > top) cut_released(t, top);
    else if (t->n_path >= PATH_MAX_EVENTS) shorten(t);
    else set_event(t, t->n_path, l, OP_RELEASE, site, at); /* before a later acquisition: the path keeps it, since a gate may lie there */
}

/* A join below what the thread holds is kept as the end of a path. */
void would_join(struct thread *t, uint32_t party, uint32_t site) {
    if (!t->n_held) return;
    int i = t->n_path;
    t->path[i].party = party;
    struct lock *none = t->path[0].lock; /* a reader of the record never finds anything but a lock */
    set_event(t, i, none, OP_JOIN, site, 0);
    path_seen(t);
    SET(t->n_path, i);
}
