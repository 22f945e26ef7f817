/* Locks that call the recorder themselves. The first argument names two threads, which run one after the other. With a comment
 * `waits`, plain_locks looks for the line in the report of these threads. */
#include "programs/program.h"
#include "proved_lock.h"
#include <stdio.h>
#include <string.h>

static proved_mutex sessions, journal;
static proved_rwlock config;
static proved_cond changed;
static char *block;

THREAD(two_request) {
    proved_mutex_lock(&sessions);
    proved_mutex_lock(&journal); /* waits */
    proved_mutex_unlock(&journal);
    proved_mutex_unlock(&sessions);
    return next(x);
}
THREAD(two_cleaner) {
    proved_mutex_lock(&journal);
    if (!proved_mutex_lock_until(&sessions, NULL)) return NULL; /* waits */
    proved_mutex_unlock(&sessions);
    proved_mutex_unlock(&journal);
    return next(x);
}
THREAD(tries_cleaner) {
    struct timespec passed = {0, 0};
    proved_mutex_lock(&journal);
    if (proved_mutex_try_lock(&sessions)) proved_mutex_unlock(&sessions);
    if (proved_mutex_lock_until(&sessions, &passed)) proved_mutex_unlock(&sessions);
    proved_mutex_unlock(&journal);
    return next(x);
}
THREAD(read_below) {
    proved_mutex_lock(&journal);
    proved_rwlock_lock_shared(&config); /* waits */
    proved_rwlock_unlock_shared(&config);
    proved_mutex_unlock(&journal);
    return next(x);
}
THREAD(write_below) {
    proved_mutex_lock(&journal);
    proved_rwlock_lock_exclusive(&config); /* waits */
    proved_rwlock_unlock_exclusive(&config);
    proved_mutex_unlock(&journal);
    return next(x);
}
THREAD(write_above) {
    proved_rwlock_lock_exclusive(&config);
    proved_mutex_lock(&journal); /* waits */
    proved_mutex_unlock(&journal);
    proved_rwlock_unlock_exclusive(&config);
    return next(x);
}
THREAD(read_above) {
    proved_rwlock_lock_shared(&config);
    proved_mutex_lock(&journal); /* waits */
    proved_mutex_unlock(&journal);
    proved_rwlock_unlock_shared(&config);
    return next(x);
}
THREAD(downgrade_above) {
    proved_rwlock_lock_exclusive(&config);
    proved_rwlock_downgrade(&config);
    proved_mutex_lock(&journal); /* waits */
    proved_mutex_unlock(&journal);
    proved_rwlock_unlock_shared(&config);
    return next(x);
}
THREAD(upgradable_below) {
    proved_mutex_lock(&journal);
    proved_rwlock_lock_upgradable(&config); /* waits */
    proved_rwlock_unlock_upgradable(&config);
    proved_mutex_unlock(&journal);
    return next(x);
}
THREAD(upgradable_above) {
    proved_rwlock_lock_upgradable(&config);
    proved_mutex_lock(&journal); /* waits */
    proved_mutex_unlock(&journal);
    proved_rwlock_unlock_upgradable(&config);
    return next(x);
}
THREAD(to_upgradable_above) {
    proved_rwlock_lock_exclusive(&config);
    proved_rwlock_downgrade_to_upgradable(&config);
    proved_mutex_lock(&journal); /* waits */
    proved_mutex_unlock(&journal);
    proved_rwlock_downgrade_upgradable(&config);
    proved_rwlock_unlock_shared(&config);
    return next(x);
}
THREAD(upgradable_before) {
    proved_rwlock_lock_upgradable(&config);
    proved_rwlock_unlock_upgradable(&config);
    proved_mutex_lock(&journal);
    proved_mutex_unlock(&journal);
    return next(x);
}
THREAD(leaves_upgradable_above) {
    proved_rwlock_lock_upgradable(&config);
    proved_rwlock_downgrade_upgradable(&config);
    proved_mutex_lock(&journal);
    proved_mutex_unlock(&journal);
    proved_rwlock_unlock_shared(&config);
    return next(x);
}
THREAD(upgrade_below) {
    proved_mutex_lock(&journal);
    proved_rwlock_lock_upgradable(&config);
    proved_rwlock_upgrade(&config); /* waits */
    proved_rwlock_unlock_exclusive(&config);
    proved_mutex_unlock(&journal);
    return next(x);
}
/* An upgrade that is tried waits for nobody, and an exclusive hold after it is released whole. */
THREAD(upgrade_tries) {
    proved_rwlock_lock_upgradable(&config);
    if (proved_rwlock_try_upgrade(&config)) proved_rwlock_unlock_exclusive(&config);
    else proved_rwlock_unlock_upgradable(&config);
    proved_mutex_lock(&journal);
    proved_mutex_unlock(&journal);
    return next(x);
}
/* It sleeps until its deadline, and then acquires the first mutex below the second one. */
THREAD(wait_sleeper) {
    struct timespec soon;
    clock_gettime(CLOCK_MONOTONIC, &soon);
    proved_mutex_lock(&sessions);
    proved_mutex_lock(&journal);
    proved_cond_wait_until(&changed, &sessions, &soon); /* waits */
    proved_mutex_unlock(&journal);
    proved_mutex_unlock(&sessions);
    return next(x);
}
/* A lock of one byte below the journal, and above it one that comes later at the same address: they are two. */
static void hold(const char *first, int mode, proved_mutex *second) {
    LOCKRECORD(acquire, first, mode);
    LOCKRECORD(acquired, first, mode);
    if (second) proved_mutex_lock(second), proved_mutex_unlock(second);
    LOCKRECORD(release, first, mode);
}
THREAD(block_freed) {
    block = memset(malloc(40), 0, 40);
    uintptr_t was = (uintptr_t)block;
    hold(block + 1, LOCKRECORD_MUTEX, &journal);
    free(block);
    block = malloc(40);
    if ((uintptr_t)block != was) exit(2);
    return next(x);
}
THREAD(block_destroyed) {
    static char room[8];
    block = room;
    hold(block + 1, LOCKRECORD_MUTEX, &journal);
    LOCKRECORD(destroy, block + 1);
    return next(x);
}
THREAD(block_kept) {
    static char room[8];
    block = room;
    hold(block + 1, LOCKRECORD_MUTEX, &journal);
    return next(x);
}
THREAD(block_below) {
    proved_mutex_lock(&journal);
    hold(block + 1, LOCKRECORD_MUTEX, NULL);
    proved_mutex_unlock(&journal);
    return next(x);
}
THREAD(upgradable_destroyed) {
    static char room[8];
    block = room;
    hold(block, LOCKRECORD_UPGRADABLE, &journal);
    LOCKRECORD(destroy, block);
    return next(x);
}
THREAD(upgradable_block_below) {
    proved_mutex_lock(&journal);
    hold(block, LOCKRECORD_UPGRADABLE, NULL);
    proved_mutex_unlock(&journal);
    return next(x);
}
static void read_twice(int how) {
    LOCKRECORD(acquire, &config, LOCKRECORD_SHARED);
    LOCKRECORD(acquired, &config, LOCKRECORD_SHARED);
    LOCKRECORD(acquire, &config, LOCKRECORD_SHARED | how);
    LOCKRECORD(acquired, &config, LOCKRECORD_SHARED | how);
    LOCKRECORD(release, &config, LOCKRECORD_SHARED);
    LOCKRECORD(release, &config, LOCKRECORD_SHARED);
}
THREAD(read_twice_plainly) {
    read_twice(0);
    return next(x);
}
THREAD(read_twice_again) {
    read_twice(LOCKRECORD_AGAIN);
    return next(x);
}
THREAD(write_alone) {
    proved_rwlock_lock_exclusive(&config);
    proved_rwlock_unlock_exclusive(&config);
    return next(x);
}
THREAD(send_in) {
    proved_rwlock_lock_upgradable(&config);
    return next(x);
}
/* It releases what another thread acquired, and then acquires both in turn. */
THREAD(send_out) {
    proved_rwlock_unlock_upgradable(&config);
    proved_mutex_lock(&journal);
    proved_mutex_unlock(&journal);
    return next(x);
}

#define NAMED(name) {#name, name}
static const struct {
    const char *name;
    start_fn start;
} all[] = {
    NAMED(two_request), NAMED(two_cleaner), NAMED(tries_cleaner), NAMED(read_below),
    NAMED(write_below), NAMED(write_above), NAMED(read_above), NAMED(downgrade_above),
    NAMED(upgradable_below), NAMED(upgradable_above), NAMED(to_upgradable_above), NAMED(upgradable_before),
    NAMED(leaves_upgradable_above), NAMED(upgrade_below), NAMED(upgrade_tries), NAMED(wait_sleeper),
    NAMED(block_freed), NAMED(block_destroyed), NAMED(block_kept), NAMED(block_below),
    NAMED(upgradable_destroyed), NAMED(upgradable_block_below), NAMED(read_twice_plainly), NAMED(read_twice_again),
    NAMED(write_alone), NAMED(send_in), NAMED(send_out),
};

static start_fn named(const char *name) {
    for (size_t i = 0; i < sizeof all / sizeof *all; i++)
        if (!strcmp(all[i].name, name)) return all[i].start;
    fprintf(stderr, "no thread %s\n", name);
    exit(2);
}

int main(int argc, char **argv) {
    if (argc == 3) IN_TURN(named(argv[1]), named(argv[2]));
    return argc != 3;
}
