/* What the recorder keeps, and the calls between its parts. Its memory comes from mmap and is never returned. */
#ifndef LOCKRECORD_RECORD_H
#define LOCKRECORD_RECORD_H
#include "limits.h"
#include <pthread.h>
#include <stdbool.h>
#include <stddef.h>
#include <stdint.h>
#include <sys/types.h>

/* Where a return address lies on the stack. */
typedef const uintptr_t *caller_t;

#define likely(x) __builtin_expect(!!(x), 1)
#define unlikely(x) __builtin_expect(!!(x), 0)
/* Another thread may look at these while their owner changes them. */
#define GET(x) __atomic_load_n(&(x), __ATOMIC_RELAXED)
#define SET(x, v) __atomic_store_n(&(x), v, __ATOMIC_RELAXED)

/* A once, a semaphore of one permit and a seat exclude as a mutex does. The plain ones are those of lockrecord.h. */
enum kind { MUTEX, RECURSIVE, ERRORCHECK, RWLOCK, RWLOCK_BAR, SPIN, SEMAPHORE, ONCE, PLAIN_MUTEX, PLAIN_RWLOCK, PLAIN_SEAT, KINDS };
/* Whether a waiting writer keeps new readers out, also a thread that reads already. */
static inline bool has_bar(uint8_t kind) { return kind == RWLOCK_BAR || kind == PLAIN_RWLOCK; }

/* Low bits: the call. TRY: it never waits for ever. WOKEN: the acquisition at the end of a wait on a condition variable. */
enum op { OP_LOCK, OP_READ, OP_WRITE, OP_RELEASE, OP_JOIN, OP_MASK = 7, OP_TRY = 8, OP_WOKEN = 16, OP_NONE = 0xff };

/* The parties that acquired a lock and held nothing else, as bits, and one such site. */
struct flat {
    uint64_t parties;
    uint32_t site;
};

struct lock {
    void *addr; /* NULL: destroyed. Its record is used again unless a path has it */
    uint32_t id, class, first_site, born;
    uint8_t kind;
    bool pinned, handed, classed, falls_back, watched;
    uint32_t owner;   /* 1 more than the number of the thread that acquired it */
    struct flat flat[2]; /* [0] shared, [1] exclusive */
    struct lock *next;
};

/* One stack of calls. `epoch` counts the modules that were unloaded before. */
struct site {
    uintptr_t key;
    uint32_t id, epoch;
    int n, pauses;
    bool in_handler; /* of a signal */
    uintptr_t frames[FRAMES_MAX];
    struct site *next;
};

/* The locks that were made at one place. */
struct class {
    uint32_t id, site, members;
    bool falls_back;
    struct flat flat[2]; /* of any of its locks: those that are destroyed have no record */
    uintptr_t key;
    struct class *next;
};

/* The threads with one start function that were made by one stack of calls. */
struct party {
    uintptr_t start;
    uint64_t key;
    uint32_t threads, live, peak;
    uint32_t late; /* one number for all threads that come after the table of threads is full */
    int n;
    uintptr_t frames[STACK_MAX];
};

/* A thread of the record. A segment is its part between two creations or joins. */
struct made {
    uint32_t party, parent, parent_segment, joiner, joiner_segment;
    pthread_t handle;
    bool joined;
    char name[NAME_MAX_BYTES];
};

struct event {
    struct lock *lock;
    uint32_t party; /* OP_JOIN: the party of the thread that is joined */
    uint32_t site;
    uint8_t op;
    uint8_t from;  /* OP_RELEASE: the index of the acquisition */
    uint64_t hash; /* of the path up to here */
};

struct held {
    struct lock *lock;
    uint32_t levels;
    uint8_t at; /* the index of the acquisition in the path */
};

/* A thread that runs. Only its own thread changes it. */
struct thread {
    volatile int busy;       /* inside the recorder: calls of the recorder itself are not recorded */
    volatile int dump_later; /* a signal that came meanwhile */
    bool in_use, grew;
    uint8_t waits_op; /* of the call that has not returned, else OP_NONE */
    uint8_t rounds;   /* of destructors at the thread's end */
    uint32_t tid, party, segment, handed_seen;
    int n_path, n_held;
    struct event path[PATH_MAX_EVENTS + 2];
    struct held held[HELD_MAX];
    struct lock *waits_lock;
    uint32_t waits_site, waits_party;
    void *sleeps_on;
    char sleeps_kind;     /* c: condition variable, b: barrier, x: futex */
    bool watches;         /* its next acquisition is looked at: see watch */
    struct lock *refused; /* by the last call, a try */
    struct once *once; /* the call of pthread_once that may run its routine next */
    struct { void *addr; struct lock *lock; } locks[CACHE];
    struct { uintptr_t key; uint32_t site; } sites[CACHE];
    uint64_t seen[SEEN];
    struct thread *next, *next_free;
};

/* When a path was made. */
struct occurs {
    int n;
    bool any;
    uint32_t tid[OCCURS_MAX], segment[OCCURS_MAX];
};

struct step {
    uint32_t id; /* of a lock, a class or a party */
    uint32_t site;
    uint8_t op, by_use, by_addr, by_age;
};

/* A path of locks, or a pattern, in which classes stand for locks. */
struct path {
    uint64_t hash;
    uint32_t party;
    int n, concretes;
    bool overflow;
    struct occurs occurs;
    struct path *next;
    struct step steps[];
};

/* A wait or a notification, with what its thread held. */
struct note {
    uint64_t hash;
    uint32_t party, site, mutex;
    char what; /* w: wait, t: timed wait, n: notification, b: barrier, x: futex; s: acquisition in a signal handler, f: after a fork */
    void *object;
    int n;
    uint32_t held[HELD_MAX];
    struct note *next;
};

struct module {
    uintptr_t base, end;
    uint32_t first, last; /* epochs; last is ~0 while it is loaded */
    bool seen;
    char name[256];
};

/* ---- memory.c: the arena, the lock around the tables, and what had no room ---- */
void *get(size_t bytes);
void nap(long nanoseconds);
void enter(void);
void leave(void);
void reset_lock(void);
void no_room(enum limit limit);
extern uint32_t without_room[LIMITS];
extern uint64_t arena_bytes;
static inline uint64_t mix(uint64_t hash, uint64_t value) {
    hash = (hash ^ value) * 0x9E3779B97F4A7C15u;
    return hash ^ (hash >> 29);
}

/* ---- objects.c ---- */
extern struct lock *all_locks[LOCKS_MAX];
extern struct class *all_classes[CLASSES_MAX];
extern uint32_t n_locks, n_born, n_freed, n_classes;
struct lock *find_lock(void *addr);
struct lock *make_lock(void *addr, uint8_t kind, uint32_t site, bool is_init);
void forget_lock(void *addr);
void forget_locks_in(uintptr_t from, uintptr_t to);
bool has_heap_locks(uintptr_t from, uintptr_t to);
void falls_back(struct lock *lock);
/* Where the seat of an upgradable lock is kept: at no address of a program. */
#define SEAT_BIT ((uintptr_t)1 << 63)
static inline void *seat_of(const void *addr) { return (void *)((uintptr_t)addr | SEAT_BIT); }
/* Whether the lock is one of many that were made at one place. */
static inline bool is_grouped(const struct lock *lock) { return lock->classed && GET(all_classes[lock->class]->members) > GROUP_MIN; }
/* Tells the locks of different classes at one place apart. */
static inline uint64_t salt_of(const struct lock *lock) {
    return lock->classed ? (uint64_t)lock->class << 1 : (uint64_t)lock->id << 1 | 1;
}

/* ---- modules.c ---- */
extern struct module modules[MODULES_MAX];
extern uint32_t n_modules, epoch;
void note_modules(void);
bool is_in_module(uintptr_t addr);

/* ---- sites.c ---- */
extern struct site *all_sites[SITES_MAX];
extern uint32_t n_sites;
extern int max_frames;
uint32_t slow_site_of(struct thread *t, caller_t caller, uint64_t salt);
uint32_t site_of_stack(caller_t caller);
int stack_of(caller_t caller, uintptr_t *frames, int most);
void find_unwinder(void);
/* The stack of the calls that go on after a module was unloaded. */
struct going {
    int n;
    uintptr_t frames[GOING_MAX];
};
void before_unload(struct going *going);
void after_unload(const struct going *going);
void pause_at_places(const char *places, long milliseconds, bool alone);
bool is_paused(uint32_t site);
void pause_here(uint32_t site);
extern bool has_pauses, pauses_alone; /* also a thread that holds nothing */

/* ---- threads.c ---- */
enum { NO_THREAD = 0xffffffff };
extern struct party parties[PARTIES_MAX];
extern struct made made[THREADS_MAX];
extern uint32_t n_parties, n_made;
extern struct thread *threads;
extern bool ready;
struct thread *thread_begins(uint32_t tid, pthread_t handle);
struct thread *stranger_begins(void);
void thread_ends(struct thread *t);
uint32_t thread_is_made(struct thread *parent, uintptr_t start, caller_t caller);
void thread_is_joined(struct thread *joiner, uint32_t tid);
uint32_t thread_of(pthread_t handle);
void name_thread(uint32_t tid, const char *name);
void threads_in_child(struct thread *self);
void watch(struct thread *t, struct lock *lock, uint32_t site);

/* How many words above its return address a small function has that of its caller, in the low 16 bits below the return address. */
extern uint64_t hops[HOP_SLOTS];
static inline uint64_t *hop_of(uintptr_t at) { return &hops[(at ^ at >> 12) % HOP_SLOTS]; }

/* Tells acquisitions apart: by the caller, by the callers of small functions, which may wrap the call, and by the lock or its class. */
static inline uintptr_t site_key(caller_t caller, uint64_t salt) {
    uintptr_t key = mix(*caller ^ (uintptr_t)GET(epoch) << 48, salt);
    for (int i = 0; i < HOPS; i++) {
        uint64_t hop = GET(*hop_of(*caller));
        if (likely(hop >> 16 != *caller || !(hop & 0xffff))) break;
        caller += hop & 0xffff;
        key = mix(key, *caller);
    }
    return key;
}

/* The site of an acquisition: the first stack that such a call had. */
static inline uint32_t site_of(struct thread *t, caller_t caller, uint64_t salt) {
    uintptr_t key = site_key(caller, salt);
    unsigned slot = key % CACHE;
    return likely(t->sites[slot].key == key) ? t->sites[slot].site : slow_site_of(t, caller, salt);
}

/* ---- paths.c ---- */
extern uint32_t n_handed, n_cut;
void acquired_below(struct thread *t, struct lock *lock, uint8_t op, uint32_t site);
void released_below(struct thread *t, struct lock *lock, uint32_t site);
void mark_flat(struct thread *t);
void would_join(struct thread *t, uint32_t party, uint32_t site);

/* Most sections have one lock, so these do not call for them. */
static inline void acquired(struct thread *t, struct lock *lock, uint8_t op, uint32_t site) {
    if (t->n_held || t->handed_seen != GET(n_handed)) {
        acquired_below(t, lock, op, site);
        return;
    }
    struct event *e = &t->path[0];
    SET(e->lock, lock), SET(e->op, op), SET(e->site, site);
    SET(t->n_path, 1);
    SET(lock->owner, t->tid + 1);
    t->held[0] = (struct held){lock, 1, 0};
    t->n_held = 1, t->grew = true;
}

static inline void released(struct thread *t, struct lock *lock, uint32_t site) {
    if (t->n_held != 1 || t->n_path != 1 || t->held[0].lock != lock || t->held[0].levels != 1) {
        released_below(t, lock, site);
        return;
    }
    uint64_t flat = GET(lock->flat[(t->path[0].op & OP_MASK) != OP_READ].parties);
    if (unlikely(!(flat >> (t->party < 63 ? t->party : 63) & 1))) mark_flat(t);
    t->grew = false, t->refused = NULL;
    SET(t->n_path, 0);
    t->n_held = 0;
}

/* ---- keeping.c ---- */
extern struct path *path_table[BUCKETS], *pattern_table[BUCKETS];
extern uint32_t n_paths, n_patterns;
void keep_path(struct thread *t);
void forget_paths(void);

/* ---- notes.c ---- */
enum { NOTE_BUCKETS = 256 };
extern struct note *notes[NOTE_BUCKETS];
extern bool has_fork_notes;
void keep_note(struct thread *t, char what, void *object, struct lock *mutex, uint32_t site);
void forget_notes(void);

/* ---- writing.c ---- */
void name_record(const char *prefix, pid_t driver);
void record_in_child(void);
bool is_recorder_of_this_process(void);
void write_record(const char *why);

#endif
