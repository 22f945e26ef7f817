/* The paths that the record keeps, each once, and the patterns that stand for paths of many locks of one class. */
#include "record.h"
#include <string.h>

struct path *path_table[BUCKETS], *pattern_table[BUCKETS];
uint32_t n_paths, n_patterns;
enum { ITSELF = 0xff }; /* the place of a lock that stands for itself */

static void add_occurs(struct occurs *o, uint32_t tid, uint32_t segment) {
    if (o->any) return;
    for (int i = 0; i < o->n; i++)
        if (o->tid[i] == tid && o->segment[i] == segment) return;
    if (o->n == OCCURS_MAX) o->any = true;
    else o->tid[o->n] = tid, o->segment[o->n++] = segment;
}

static bool acquires(const struct event *e) { return (e->op & OP_MASK) < OP_RELEASE; }

/* The first acquisition of the lock on the path, up to an index. */
static bool is_used_before(const struct thread *t, int end, const struct lock *l) {
    for (int i = 0; i < end; i++)
        if (acquires(&t->path[i]) && t->path[i].lock == l) return true;
    return false;
}

/* The place of a lock among those of its class on the path: by first use, by address, and by age. */
static void place_in_class(const struct thread *t, const struct lock *l, struct step *step) {
    for (int k = 0; k < t->n_path; k++) {
        const struct event *o = &t->path[k];
        if (!acquires(o) || o->lock == l || !is_grouped(o->lock) || o->lock->class != l->class || is_used_before(t, k, o->lock)) continue;
        step->by_use += !is_used_before(t, k, l);
        step->by_addr += (uintptr_t)o->lock->addr < (uintptr_t)l->addr;
        step->by_age += o->lock->born < l->born;
    }
}

/* Fills in the steps of the pattern, and returns whether some lock on it stands for others. */
static bool make_pattern(const struct thread *t, struct step *steps, uint64_t *hash) {
    bool several = false;
    *hash = mix(t->n_path, t->party);
    for (int i = 0; i < t->n_path; i++) {
        const struct event *e = &t->path[i];
        struct step *s = &steps[i];
        *s = (struct step){.op = e->op, .site = e->site};
        if ((e->op & OP_MASK) == OP_JOIN) s->id = e->party;
        else if (is_grouped(e->lock)) {
            several = true;
            s->id = e->lock->class;
            place_in_class(t, e->lock, s);
        } else s->id = e->lock->id, s->by_use = ITSELF;
        *hash = mix(*hash, s->op | (uint64_t)s->id << 8 | (uint64_t)s->by_use << 40 | (uint64_t)s->by_addr << 48 | (uint64_t)s->by_age << 56);
    }
    return several;
}

/* Keeps the records of the locks that these steps name. */
static void pin(const struct thread *t, const struct step *steps) {
    for (int i = 0; i < t->n_path; i++)
        if (steps[i].by_use == ITSELF) t->path[i].lock->pinned = true;
}

/* The caller of the functions below holds the internal lock. */
static struct path *find(struct path *const *table, uint64_t hash) {
    struct path *p = table[hash % BUCKETS];
    while (p && p->hash != hash) p = p->next;
    return p;
}

static struct path *add(struct path **table, uint32_t *count, enum limit limit, const struct thread *t, uint64_t hash, const struct step *steps) {
    size_t size = t->n_path * sizeof *steps;
    struct path *p = NULL;
    if (*count == PATHS_MAX) no_room(limit);
    else if ((p = get(sizeof *p + size))) {
        p->hash = hash, p->party = t->party, p->n = t->n_path;
        memcpy(p->steps, steps, size);
        p->next = table[hash % BUCKETS];
        table[hash % BUCKETS] = p;
        (*count)++;
    }
    return p;
}

/* Finds or adds the path itself, unless its pattern stands for it. */
static void keep_concrete(struct thread *t, struct path *pattern, uint64_t hash, struct step *steps) {
    struct path *p = find(path_table, hash);
    if (!p && pattern && pattern->concretes == CONCRETE_MAX) pattern->overflow = true;
    else if (!p) {
        for (int i = 0; i < t->n_path; i++)
            if ((steps[i].op & OP_MASK) != OP_JOIN) steps[i].id = t->path[i].lock->id, steps[i].by_use = ITSELF;
        p = add(path_table, &n_paths, AT_PATHS, t, hash, steps);
        if (p) pin(t, steps);
        if (p && pattern) pattern->concretes++;
    }
    if (p) add_occurs(&p->occurs, t->tid, t->segment);
}

/* Keeps the path of the thread, and its pattern. */
void keep_path(struct thread *t) {
    struct step steps[PATH_MAX_EVENTS + 2];
    uint64_t hash, concrete = mix(t->path[t->n_path - 1].hash, t->party);
    bool several = make_pattern(t, steps, &hash);
    uint64_t full = mix(hash, t->segment) | 1; /* of a pattern that overflowed, only which threads make it is of interest */
    if (several && t->seen[full >> 32 & (SEEN - 1)] == full) return;
    enter();
    struct path *pattern = several ? find(pattern_table, hash) : NULL;
    if (several && !pattern && (pattern = add(pattern_table, &n_patterns, AT_PATTERNS, t, hash, steps))) pin(t, steps);
    if (pattern) add_occurs(&pattern->occurs, t->tid, t->segment);
    keep_concrete(t, pattern, concrete, steps);
    bool overflow = pattern && pattern->overflow;
    leave();
    if (overflow) t->seen[full >> 32 & (SEEN - 1)] = full;
}

void forget_paths(void) {
    memset(path_table, 0, sizeof path_table), memset(pattern_table, 0, sizeof pattern_table);
    n_paths = n_patterns = 0;
}
