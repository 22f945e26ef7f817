/* The arena, the spin lock around the tables, and the counts of what had no room.
   The recorder never calls malloc: an allocator may lock inside it. */
#define _GNU_SOURCE
#include "record.h"
#include <errno.h>
#include <sched.h>
#include <stdatomic.h>
#include <sys/mman.h>
#include <sys/syscall.h>
#include <time.h>
#include <unistd.h>

static char *arena, *arena_end;
uint64_t arena_bytes;
uint32_t without_room[LIMITS];
static atomic_int internal;

/* Sleeps, and is no cancellation point. */
void nap(long nanoseconds) {
    struct timespec left = {nanoseconds / 1000000000, nanoseconds % 1000000000};
    int saved = errno;
    while (syscall(SYS_nanosleep, &left, &left) && errno == EINTR) {}
    errno = saved;
}

void no_room(enum limit limit) { __atomic_fetch_add(&without_room[limit], 1, __ATOMIC_RELAXED); }

/* Returns zeroed memory, or NULL at the limit. The caller holds the internal lock. */
void *get(size_t bytes) {
    bytes = (bytes + 15) & ~(size_t)15;
    if (arena_end - arena < (ptrdiff_t)bytes) {
        size_t piece = 1 << 18;
        int saved = errno;
        char *p = MAP_FAILED;
        if (bytes <= piece && arena_bytes + piece <= (uint64_t)ARENA_MIB << 20)
            p = mmap(NULL, piece, PROT_READ | PROT_WRITE, MAP_PRIVATE | MAP_ANONYMOUS, -1, 0);
        errno = saved;
        if (p == MAP_FAILED) {
            no_room(AT_MEMORY);
            return NULL;
        }
        arena = p, arena_end = p + piece, arena_bytes += piece;
    }
    void *r = arena;
    arena += bytes;
    return r;
}

/* Sleeps at last: a thread of higher priority must not keep the holder from running. */
void enter(void) {
    for (int spins = 1; atomic_exchange_explicit(&internal, 1, memory_order_acquire); spins++)
        if (spins % 10000 == 0) nap(50000);
        else if (spins % 100 == 0) sched_yield();
}

void leave(void) { atomic_store_explicit(&internal, 0, memory_order_release); }

/* In a forked child: the thread that held the lock may not be there. */
void reset_lock(void) { atomic_store(&internal, 0); }
