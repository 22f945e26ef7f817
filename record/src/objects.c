/* The locks by their addresses, and the classes of locks that were made at one place. */
#include "record.h"
#include <string.h>

static struct lock *lock_table[BUCKETS], *free_locks;
struct lock *all_locks[LOCKS_MAX];
static struct class *class_table[1024];
struct class *all_classes[CLASSES_MAX];
uint32_t n_locks, n_born, n_freed, n_classes;
static uint8_t heap_lines[HEAP_LINES]; /* locks that begin in each line of 64 bytes; 255 stays */
static unsigned lock_step = 4;         /* locks begin at its multiples: a lock of one byte may begin anywhere */

static unsigned bucket_of(const void *addr) { return mix(0, (uintptr_t)addr) % BUCKETS; }
static uint8_t *line_of(uintptr_t addr) { return &heap_lines[(addr >> 6) % HEAP_LINES]; }

static void count_line(uintptr_t addr, int change) {
    uint8_t *line = line_of(addr);
    if (GET(*line) != 255) SET(*line, *line + change);
}

/* The caller of the static functions below holds the internal lock. */
static struct lock *in_table(const void *addr) {
    struct lock *l = lock_table[bucket_of(addr)];
    while (l && l->addr != addr) l = l->next;
    return l;
}

static void remove_lock(struct lock *l) {
    struct lock *seat = l->kind == PLAIN_RWLOCK ? in_table(seat_of(l->addr)) : NULL;
    if (seat) remove_lock(seat);
    struct lock **at = &lock_table[bucket_of(l->addr)];
    while (*at && *at != l) at = &(*at)->next;
    if (*at) *at = l->next;
    count_line((uintptr_t)l->addr, -1);
    SET(l->addr, NULL);
    n_freed++;
    if (!l->pinned) l->next = free_locks, free_locks = l;
}

static struct class *class_of(uint32_t site, bool is_init) {
    uintptr_t key = site * 2 + is_init + 1;
    struct class *c = class_table[key % 1024];
    while (c && c->key != key) c = c->next;
    if (c) return c;
    if (n_classes == CLASSES_MAX) no_room(AT_CLASSES);
    else if ((c = get(sizeof *c))) {
        c->id = n_classes, c->site = site, c->key = key, c->next = class_table[key % 1024];
        class_table[key % 1024] = c;
        all_classes[n_classes++] = c;
    }
    return c;
}

static struct lock *new_record(void) {
    struct lock *l = free_locks;
    if (l) {
        free_locks = l->next;
        return l;
    }
    if (n_locks == LOCKS_MAX) no_room(AT_LOCKS);
    else if ((l = get(sizeof *l))) {
        l->id = n_locks;
        all_locks[n_locks++] = l;
    }
    return l;
}

static struct lock *add_lock(void *addr, uint8_t kind, uint32_t site, bool is_init, bool is_static) {
    struct lock *l = new_record();
    if (!l) return NULL;
    l->kind = kind, l->first_site = site, l->born = n_born++;
    l->classed = l->handed = l->falls_back = l->pinned = l->watched = false;
    l->owner = 0, l->flat[0] = l->flat[1] = (struct flat){0, 0};
    struct class *c = is_static && !is_init ? NULL : class_of(site, is_init); /* a static lock that no call made stands for itself */
    if (c) {
        l->classed = true, l->class = c->id;
        SET(c->members, c->members + 1);
    }
    SET(l->addr, addr);
    l->next = lock_table[bucket_of(addr)];
    lock_table[bucket_of(addr)] = l;
    count_line((uintptr_t)addr, 1);
    if ((uintptr_t)addr % 4) lock_step = 1;
    return l;
}

struct lock *find_lock(void *addr) {
    enter();
    struct lock *l = in_table(addr);
    leave();
    return l;
}

/* Returns the lock at this address, which an init or its first call at this site makes, or NULL without room. */
struct lock *make_lock(void *addr, uint8_t kind, uint32_t site, bool is_init) {
    bool is_static = is_in_module((uintptr_t)addr & ~SEAT_BIT);
    enter();
    struct lock *l = in_table(addr);
    if (l && is_init) remove_lock(l), l = NULL;
    if (!l) l = add_lock(addr, kind, site, is_init, is_static);
    leave();
    return l;
}

void forget_lock(void *addr) {
    enter();
    struct lock *l = in_table(addr);
    if (l) remove_lock(l);
    leave();
}

/* Whether memory from one address to the other may have a lock. */
bool has_heap_locks(uintptr_t from, uintptr_t to) {
    if (to - from > BLOCK_MAX) return true;
    for (uintptr_t at = from & ~(uintptr_t)63; at < to; at += 64)
        if (unlikely(GET(*line_of(at)))) return true;
    return false;
}

/* Forgets the locks in memory that goes: a later lock at such an address is another one. */
void forget_locks_in(uintptr_t from, uintptr_t to) {
    enter();
    if (to - from <= BLOCK_MAX) {
        for (uintptr_t at = (from + lock_step - 1) & -(uintptr_t)lock_step; at < to; at += lock_step) {
            struct lock *l = GET(*line_of(at)) ? in_table((void *)at) : NULL;
            if (l) remove_lock(l);
        }
    } else {
        for (uint32_t i = 0; i < n_locks; i++)
            if ((uintptr_t)all_locks[i]->addr >= from && (uintptr_t)all_locks[i]->addr < to) remove_lock(all_locks[i]);
    }
    leave();
}

/* A lock that was waited for right after a refused try: all tries of its kind may wait. */
void falls_back(struct lock *lock) {
    SET(lock->falls_back, true);
    if (lock->classed) SET(all_classes[lock->class]->falls_back, true);
}
