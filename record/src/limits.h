/* The bounds of what the recorder keeps. A bound that is reached is counted, and the record tells the count. */
#ifndef LOCKRECORD_LIMITS_H
#define LOCKRECORD_LIMITS_H

enum {
    PATH_MAX_EVENTS = 96, /* events of a path; a longer one first forgets the locks that it released */
    HELD_MAX = 96,        /* locks that one thread holds at a time */
    FRAMES_MAX = 12,      /* stack frames of a site */
    STACK_MAX = 10,       /* stack frames of a thread's creation */
    WALK_MAX = 32,        /* stack frames that are looked at for them */
    GOING_MAX = 256,      /* stack frames that are looked at when a module is unloaded */
    SMALL = 160,          /* bytes of the code of a function that may wrap a call */
    HOPS = 6,             /* callers of small functions that tell places apart */
    OCCURS_MAX = 16,      /* pairs of a thread and its segment that a path keeps; with more it may be made at any time */
    CONCRETE_MAX = 64,    /* paths of one pattern; with more the pattern stands for all of them */
    GROUP_MIN = 16,       /* the locks of a class with more members stand for each other */
    CACHE = 256,          /* locks and sites that a thread finds without the tables */
    HOP_SLOTS = 4096,     /* return addresses into small functions */
    SEEN = 1024,          /* hashes of paths that a thread has kept already */
    BUCKETS = 1 << 15,
    LOCKS_MAX = 1 << 20,
    SITES_MAX = 1 << 16,
    CLASSES_MAX = 1 << 14,
    PARTIES_MAX = 256,
    THREADS_MAX = 1 << 14,
    PATHS_MAX = 1 << 16,
    NOTES_MAX = 4096,
    MODULES_MAX = 512,
    MISSING_MAX = 16,
    NAME_MAX_BYTES = 16,
    ARENA_MIB = 256,
    HEAP_LINES = 1 << 16, /* counters of the heap's lines of 64 bytes that have locks */
    BLOCK_MAX = 1 << 16,  /* bytes of memory that is freed; of a larger block all locks are looked at */
};

/* What had no room. The names are those of the lines `limit` of a record, in this order. */
enum limit {
    AT_LOCKS, AT_HELD, AT_LENGTH, AT_PATHS, AT_PATTERNS, AT_THREADS, AT_MEMORY, /* calls are lost */
    AT_LATE, AT_PARTIES, AT_CLASSES, AT_SITES, AT_MODULES, AT_NOTES,           /* names or warnings are */
    LIMITS
};

#endif
