/* SPDX-License-Identifier: MIT OR Apache-2.0 */
/* Tests of the C locks. usage: test [SECONDS]     with SECONDS, the mixed threads run that long */
#define _GNU_SOURCE
#include "proved_lock.h"
#include <pthread.h>
#include <sched.h>
#include <stdio.h>
#include <stdlib.h>
#include <sys/syscall.h>
#include <unistd.h>

#define MUST(c) \
    do { \
        if (!(c)) { \
            printf("%s:%d: not so: %s\n%d passed, 1 failed\n", __FILE__, __LINE__, #c, passed); \
            exit(1); \
        } \
    } while (0)

enum { THREADS = 8 };
static int passed;
static proved_mutex mutex = PROVED_MUTEX_INIT;
static proved_rwlock rwlock = PROVED_RWLOCK_INIT, limited = PROVED_RWLOCK_INIT;
static proved_mutex queue = PROVED_MUTEX_INIT;
static proved_cond not_empty = PROVED_COND_INIT, not_full = PROVED_COND_INIT;
static long counter, a, b, upgrades;
static int seconds;

static struct timespec in_nanoseconds(long nanoseconds) {
    struct timespec t;
    clock_gettime(CLOCK_MONOTONIC, &t);
    t.tv_nsec += nanoseconds;
    t.tv_sec += t.tv_nsec / 1000000000;
    t.tv_nsec %= 1000000000;
    return t;
}

static bool is_earlier(struct timespec a, struct timespec b) {
    return a.tv_sec < b.tv_sec || (a.tv_sec == b.tv_sec && a.tv_nsec < b.tv_nsec);
}

static bool is_before(const struct timespec *end) { return is_earlier(in_nanoseconds(0), *end); }

/* A deadline lies between those by this file's own clock before and after it, and is a valid time. */
static void deadlines_are_ahead(void) {
    for (long ahead = 0; ahead < 5000000000; ahead += 99999999) {
        struct timespec before = in_nanoseconds(ahead), deadline = proved_deadline_in((uint64_t)ahead);
        MUST(!is_earlier(deadline, before) && !is_earlier(in_nanoseconds(ahead), deadline) && deadline.tv_nsec < 1000000000);
    }
}

static void *adds(void *unused) {
    (void)unused;
    for (int i = 0; i < 50000; i++) {
        proved_mutex_lock(&mutex);
        counter++;
        proved_mutex_unlock(&mutex);
    }
    return 0;
}

static long waiter_id;

static void *adds_once(void *number) {
    __atomic_store_n(&waiter_id, syscall(SYS_gettid), __ATOMIC_SEQ_CST);
    if ((uintptr_t)number % 4 < 2) proved_mutex_lock(&mutex);
    else MUST(proved_mutex_lock_until(&mutex, 0));
    counter++;
    proved_mutex_unlock(&mutex);
    return 0;
}

/* Waits until the thread sleeps, at three looks in turn. */
static void await_sleep(long id) {
    char path[64];
    snprintf(path, sizeof path, "/proc/self/task/%ld/stat", id);
    for (int seen = 0; seen < 3;) {
        char state = 0;
        FILE *file = fopen(path, "r");
        MUST(file && fscanf(file, "%*d (%*[^)]) %c", &state) == 1);
        fclose(file);
        seen = state == 'S' ? seen + 1 : 0;
        nanosleep(&(struct timespec){0, 20000}, 0);
    }
}

/* Waits until the bit is set. */
static void await_bit(const uint32_t *word, uint32_t bit) {
    while (!(__atomic_load_n(word, __ATOMIC_SEQ_CST) & bit)) nanosleep(&(struct timespec){0, 20000}, 0);
}

/* A release that finds the bit of sleepers wakes one. A waiter that does not sleep yet finds another word, and does not sleep. */
static void sleepers_are_woken(void) {
    for (uintptr_t i = 0; i < 50; i++) {
        pthread_t waiter;
        proved_mutex_lock(&mutex);
        MUST(!pthread_create(&waiter, 0, adds_once, (void *)i));
        await_bit(&mutex.word, PROVED_SLEEPERS);
        if (i % 2) await_sleep(__atomic_load_n(&waiter_id, __ATOMIC_SEQ_CST));
        proved_mutex_unlock(&mutex);
        pthread_join(waiter, 0);
        MUST(!(mutex.word & ~PROVED_SLEEPERS));
    }
    MUST(counter == THREADS * 50000 + 50);
}

static void write_both(void) {
    a++;
    b++;
}

static void mix(unsigned kind) {
    if (kind < 140) {
        if (kind >= 20) proved_rwlock_lock_shared(&limited);
        else if (!proved_rwlock_try_lock_shared(&limited)) return;
        MUST(a == b);
        proved_rwlock_unlock_shared(&limited);
    } else if (kind < 190) {
        if (kind < 160) proved_rwlock_lock_exclusive(&limited);
        else if (kind < 180) MUST(proved_rwlock_lock_exclusive_until(&limited, 0));
        else if (!proved_rwlock_try_lock_exclusive(&limited)) return;
        write_both();
        proved_rwlock_unlock_exclusive(&limited);
    } else if (kind < 210) {
        proved_rwlock_lock_exclusive(&limited);
        write_both();
        proved_rwlock_downgrade(&limited);
        MUST(a == b);
        proved_rwlock_unlock_shared(&limited);
    } else if (kind < 220) {
        proved_rwlock_lock_exclusive(&limited);
        write_both();
        proved_rwlock_downgrade_to_upgradable(&limited);
        MUST(a == b);
        proved_rwlock_downgrade_upgradable(&limited);
        MUST(a == b);
        proved_rwlock_unlock_shared(&limited);
    } else if (kind < 240) {
        proved_rwlock_lock_upgradable(&limited);
        MUST(a == b);
        if (kind < 230 || proved_rwlock_try_upgrade(&limited)) {
            if (kind < 230) proved_rwlock_upgrade(&limited);
            write_both();
            upgrades++;
            proved_rwlock_unlock_exclusive(&limited);
        } else {
            proved_rwlock_unlock_upgradable(&limited);
        }
    } else {
        struct timespec deadline = in_nanoseconds(20000);
        if (kind < 248 && proved_rwlock_lock_exclusive_until(&limited, &deadline)) {
            write_both();
            proved_rwlock_unlock_exclusive(&limited);
        } else if (kind >= 248 && proved_rwlock_lock_upgradable_until(&limited, &deadline)) {
            bool is_upgraded = proved_rwlock_upgrade_until(&limited, &deadline);
            if (is_upgraded) write_both();
            if (is_upgraded) proved_rwlock_unlock_exclusive(&limited);
            else proved_rwlock_unlock_upgradable(&limited);
        }
    }
}

static void *mixes(void *number) {
    unsigned s = (unsigned)(uintptr_t)number * 2654435761u + 1;
    struct timespec end = in_nanoseconds(0);
    end.tv_sec += seconds;
    for (int i = 0; i < 30000 || (seconds && is_before(&end)); i++) {
        s = s * 1664525 + 1013904223;
        mix(s >> 24);
    }
    return 0;
}

static void run(void *(*body)(void *)) {
    pthread_t threads[THREADS];
    for (uintptr_t i = 0; i < THREADS; i++) MUST(!pthread_create(&threads[i], 0, body, (void *)i));
    for (int i = 0; i < THREADS; i++) pthread_join(threads[i], 0);
}

static void *waits_for_readers(void *kind) {
    struct timespec far = in_nanoseconds(0);
    far.tv_sec += 60;
    switch ((uintptr_t)kind) {
    case 0: proved_rwlock_lock_exclusive(&rwlock); break;
    case 1: MUST(proved_rwlock_lock_exclusive_until(&rwlock, 0)); break;
    case 2: MUST(proved_rwlock_lock_exclusive_until(&rwlock, &far)); break;
    case 3:
        proved_rwlock_lock_upgradable(&rwlock);
        proved_rwlock_upgrade(&rwlock);
        break;
    }
    proved_rwlock_unlock_exclusive(&rwlock);
    return 0;
}

/* A writer that waits bars new readers, also with a deadline. An upgrade does not. */
static void writers_bar_readers(void) {
    for (uintptr_t kind = 0; kind < 4; kind++) {
        pthread_t waiter;
        proved_rwlock_lock_shared(&rwlock);
        MUST(!pthread_create(&waiter, 0, waits_for_readers, (void *)kind));
        await_bit(&rwlock.word, PROVED_SLEEPERS);
        bool is_admitted = proved_rwlock_try_lock_shared(&rwlock);
        MUST(is_admitted == (kind == 3));
        if (is_admitted) proved_rwlock_unlock_shared(&rwlock);
        proved_rwlock_unlock_shared(&rwlock);
        pthread_join(waiter, 0);
    }
}

/* Starts a thread, and waits until it sleeps. Its body tells its number. */
static pthread_t start_sleeper(void *(*body)(void *)) {
    pthread_t thread;
    waiter_id = 0;
    MUST(!pthread_create(&thread, 0, body, 0));
    while (!__atomic_load_n(&waiter_id, __ATOMIC_SEQ_CST)) sched_yield();
    await_sleep(waiter_id);
    return thread;
}

static void *writes_once(void *unused) {
    (void)unused;
    __atomic_store_n(&waiter_id, syscall(SYS_gettid), __ATOMIC_SEQ_CST);
    proved_rwlock_lock_exclusive(&rwlock);
    proved_rwlock_unlock_exclusive(&rwlock);
    return 0;
}

static void *upgrades_in_time(void *unused) {
    struct timespec far = in_nanoseconds(0);
    (void)unused;
    far.tv_sec += 5;
    __atomic_store_n(&waiter_id, syscall(SYS_gettid), __ATOMIC_SEQ_CST);
    MUST(proved_rwlock_upgrade_until(&rwlock, &far) && is_before(&far));
    proved_rwlock_unlock_exclusive(&rwlock);
    return 0;
}

/* The last reader wakes an upgrade that sleeps next to a writer with its bar, although the writer slept first. */
static void upgrades_pass_barred_writers(void) {
    proved_rwlock_lock_shared(&rwlock);
    proved_rwlock_lock_upgradable(&rwlock);
    pthread_t writer = start_sleeper(writes_once), upgrade = start_sleeper(upgrades_in_time);
    proved_rwlock_unlock_shared(&rwlock);
    pthread_join(upgrade, 0);
    pthread_join(writer, 0);
}

static void *reads_once(void *kind) {
    struct timespec far = in_nanoseconds(0), soon = in_nanoseconds(50000000);
    far.tv_sec += 60;
    switch ((uintptr_t)kind) {
    case 0: proved_rwlock_lock_shared(&rwlock); break;
    case 1: MUST(proved_rwlock_lock_shared_until(&rwlock, &far)); break;
    case 2: MUST(!proved_rwlock_lock_shared_until(&rwlock, &soon) && !is_before(&soon)); return 0;
    }
    proved_rwlock_unlock_shared(&rwlock);
    return 0;
}

/* A reader that nobody wakes takes a turn, and a writer that waits then sets no bar. A reader takes its turn back at its deadline. */
static void readers_get_a_turn(void) {
    for (uintptr_t kind = 0; kind < 3; kind++) {
        pthread_t reader, writer;
        proved_rwlock_lock_exclusive(&rwlock);
        MUST(!pthread_create(&reader, 0, reads_once, (void *)kind));
        await_bit(&rwlock.word, PROVED_TURN);
        if (kind < 2) {
            writer = start_sleeper(writes_once);
            MUST((__atomic_load_n(&rwlock.word, __ATOMIC_SEQ_CST) & (PROVED_BAR | PROVED_TURN)) == PROVED_TURN);
            proved_rwlock_unlock_exclusive(&rwlock);
            pthread_join(writer, 0);
        }
        pthread_join(reader, 0);
        if (kind == 2) {
            MUST(!(rwlock.word & PROVED_TURN));
            proved_rwlock_unlock_exclusive(&rwlock);
        }
        MUST(!(rwlock.word & ~PROVED_SLEEPERS));
    }
}

enum { SLOTS = 2, ITEMS = 20000 };
static long slots[SLOTS], filled, sum, taken;

/* Half of the threads produce, and half consume. */
static void *produces_or_consumes(void *number) {
    for (long i = 0; i < ITEMS; i++) {
        proved_mutex_lock(&queue);
        if ((uintptr_t)number % 2) {
            while (filled == SLOTS) proved_cond_wait(&not_full, &queue);
            slots[filled++] = i;
            proved_cond_notify_one(&not_empty);
        } else {
            struct timespec deadline = in_nanoseconds(20000);
            while (filled == 0) {
                if (i % 2) proved_cond_wait(&not_empty, &queue);
                else proved_cond_wait_until(&not_empty, &queue, &deadline);
            }
            sum += slots[--filled];
            taken++;
            proved_cond_notify_one(&not_full);
        }
        proved_mutex_unlock(&queue);
    }
    return 0;
}

static void *waits_once(void *unused) {
    (void)unused;
    proved_mutex_lock(&queue);
    filled++;
    while (filled >= 0) proved_cond_wait(&not_empty, &queue);
    proved_mutex_unlock(&queue);
    return 0;
}

/* One notification of all wakes four threads that wait. */
static void all_are_woken(void) {
    pthread_t waiters[4];
    for (int i = 0; i < 4; i++) MUST(!pthread_create(&waiters[i], 0, waits_once, 0));
    for (bool all_wait = false; !all_wait;) {
        proved_mutex_lock(&queue);
        all_wait = filled == 4;
        if (all_wait) {
            filled = -1;
            MUST(proved_cond_notify_all(&not_empty) == 4);
        }
        proved_mutex_unlock(&queue);
    }
    for (int i = 0; i < 4; i++) pthread_join(waiters[i], 0);
    MUST(proved_cond_notify_all(&not_empty) == 0 && !proved_cond_notify_one(&not_empty));
}

enum { WORKERS = 4, JOBS = 200 };
static proved_cond has_jobs;
static int jobs, wait_ends;

/* Takes jobs until there are less than none. */
static void *takes_jobs(void *unused) {
    proved_mutex_lock(&queue);
    while (jobs >= 0) {
        if (jobs > 0) {
            jobs--;
            continue;
        }
        proved_cond_wait(&has_jobs, &queue);
        wait_ends++;
    }
    proved_mutex_unlock(&queue);
    return unused;
}

/* Gives a job, unless one is left, and notifies. Returns whether it gave one. */
static bool gives_job(void) {
    proved_mutex_lock(&queue);
    bool gives = jobs == 0;
    if (gives) jobs++;
    proved_mutex_unlock(&queue);
    proved_cond_notify_one(&has_jobs);
    usleep(200);
    return gives;
}

/* Gives jobs to workers of whom some always waits. The first waits see the epochs skip so many. In the last epoch waits yield, and
 * end on their own. Returns how many have ended after it. */
static int wait_ends_from(uint32_t epochs) {
    pthread_t workers[WORKERS];
    jobs = wait_ends = 0;
    for (int i = 0; i < WORKERS; i++) MUST(!pthread_create(&workers[i], 0, takes_jobs, 0));
    while (proved_waits_(__atomic_load_n(&has_jobs.word, __ATOMIC_SEQ_CST)) < WORKERS) usleep(200);
    __atomic_fetch_add(&has_jobs.word, epochs, __ATOMIC_SEQ_CST);
    while ((uint32_t)__atomic_load_n(&has_jobs.word, __ATOMIC_SEQ_CST) > INT32_MAX) gives_job();
    proved_mutex_lock(&queue);
    wait_ends = 0;
    proved_mutex_unlock(&queue);
    for (int given = 0; given < JOBS;) given += gives_job();
    proved_mutex_lock(&queue);
    jobs = -1;
    proved_mutex_unlock(&queue);
    proved_cond_notify_all(&has_jobs);
    for (int i = 0; i < WORKERS; i++) pthread_join(workers[i], 0);
    MUST(!proved_waits_(has_jobs.word) && (uint32_t)has_jobs.word <= 2 * JOBS);
    return wait_ends;
}

/* Waits end by notifications and not on their own, also after the last epoch. */
static void epochs_begin_anew(void) {
    MUST(wait_ends_from(0) <= 4 * JOBS);
    MUST(wait_ends_from(UINT32_MAX - 20) <= 4 * JOBS);
}

static void conditions(void) {
    struct timespec deadline = in_nanoseconds(1000000);
    proved_mutex_lock(&queue);
    MUST(!proved_cond_wait_until(&not_full, &queue, &deadline) && !is_before(&deadline));
    MUST(!proved_cond_wait_until(&not_full, &queue, &(struct timespec){-1, 0}));
    MUST(!proved_mutex_try_lock(&queue));
    /* in the last epoch, and where the count is full, a wait yields without its mutex, and sees its deadline */
    const uint64_t no_room[] = {(uint64_t)1 << 40 | UINT32_MAX, UINT64_MAX >> 40 << 40};
    for (int i = 0; i < 2; i++) {
        static proved_cond closed;
        closed.word = no_room[i];
        MUST(!proved_cond_wait_until(&closed, &queue, &deadline) && !proved_cond_wait_until(&closed, &queue, &(struct timespec){-1, 0}));
        struct timespec far = in_nanoseconds(60000000000);
        MUST(proved_cond_wait_until(&closed, &queue, &far) && closed.word == no_room[i]);
    }
    proved_mutex_unlock(&queue);
    run(produces_or_consumes);
    MUST(filled == 0 && taken == THREADS / 2 * ITEMS && sum == THREADS / 2 * ((long)ITEMS * (ITEMS - 1) / 2));
    for (int i = 0; i < 50; i++) {
        filled = 0;
        all_are_woken();
    }
    MUST(!(queue.word & ~PROVED_SLEEPERS) && !proved_waits_(not_empty.word) && !proved_waits_(not_full.word));
}

static void tries_and_deadlines(void) {
    struct timespec deadline = in_nanoseconds(1000000);
    proved_mutex_lock(&mutex);
    MUST(!proved_mutex_try_lock(&mutex));
    MUST(!proved_mutex_lock_until(&mutex, &deadline) && !is_before(&deadline));
    MUST(!proved_mutex_lock_until(&mutex, &(struct timespec){-1, 0}));
    proved_mutex_unlock(&mutex);
    MUST(proved_mutex_lock_until(&mutex, &deadline));
    proved_mutex_unlock(&mutex);

    static proved_rwlock zeroed;
    MUST(proved_rwlock_lock_shared_until(&zeroed, &deadline) && proved_rwlock_lock_upgradable_until(&zeroed, &deadline));

    proved_rwlock two;
    MUST(!proved_rwlock_init(&two, 0) && !proved_rwlock_init(&two, (uint32_t)1 << 27));
    MUST(proved_rwlock_init(&two, ((uint32_t)1 << 27) - 1) && proved_rwlock_init(&two, 2));
    MUST(proved_rwlock_try_lock_shared(&two) && proved_rwlock_try_lock_upgradable(&two));
    MUST(!proved_rwlock_try_lock_shared(&two) && !proved_rwlock_try_lock_exclusive(&two) && !proved_rwlock_try_upgrade(&two));
    MUST(!proved_rwlock_lock_shared_until(&two, &deadline) && !proved_rwlock_upgrade_until(&two, &deadline));
    proved_rwlock_unlock_shared(&two);
    MUST(proved_rwlock_try_upgrade(&two));
    proved_rwlock_unlock_exclusive(&two);
    MUST(!(two.word & ~PROVED_SLEEPERS));
}

static void threads_count(void) {
    run(adds);
    MUST(counter == THREADS * 50000);
}

static void threads_mix(void) {
    static const uint32_t limits[] = {1, 2, PROVED_MAX_READERS};
    for (int i = 0; i < 3; i++) {
        MUST(proved_rwlock_init(&limited, limits[i]));
        a = b = upgrades = 0;
        run(mixes);
        MUST(a == b && upgrades > 0 && !(limited.word & ~PROVED_SLEEPERS));
        printf("for %u readers %ld writes, %ld upgrades\n", limits[i], a, upgrades);
    }
}

/* The thread that acquires such a lock last frees it, while the unlocks of others may have yet to return. */
struct freed_lock {
    proved_mutex mutex;
    proved_rwlock rwlock;
    int users;
};
enum { ROUNDS = 2000 };
static struct freed_lock *freed[ROUNDS];
static pthread_barrier_t begin;

static bool is_last_user(struct freed_lock *it, int kind) {
    bool is_last;
    if (kind == 0) {
        proved_mutex_lock(&it->mutex);
        is_last = --it->users == 0;
        proved_mutex_unlock(&it->mutex);
    } else if (kind == 1) {
        proved_rwlock_lock_exclusive(&it->rwlock);
        is_last = --it->users == 0;
        proved_rwlock_unlock_exclusive(&it->rwlock);
    } else {
        proved_rwlock_lock_shared(&it->rwlock);
        is_last = __atomic_sub_fetch(&it->users, 1, __ATOMIC_SEQ_CST) == 0;
        proved_rwlock_unlock_shared(&it->rwlock);
        if (is_last) {
            proved_rwlock_lock_exclusive(&it->rwlock); /* all others have released by then */
            proved_rwlock_unlock_exclusive(&it->rwlock);
        }
    }
    return is_last;
}

static void *uses_and_frees(void *unused) {
    (void)unused;
    for (int i = 0; i < ROUNDS; i++) {
        pthread_barrier_wait(&begin);
        if (is_last_user(freed[i], i % 3)) free(freed[i]);
    }
    return 0;
}

static void the_last_user_frees(void) {
    MUST(!pthread_barrier_init(&begin, 0, THREADS));
    for (int i = 0; i < ROUNDS; i++) {
        MUST(freed[i] = calloc(1, sizeof *freed[i]));
        freed[i]->users = THREADS;
    }
    run(uses_and_frees);
    pthread_barrier_destroy(&begin);
}

int main(int count, char **words) {
    static void (*const tests[])(void) = {
        deadlines_are_ahead, tries_and_deadlines, threads_count, sleepers_are_woken, writers_bar_readers, upgrades_pass_barred_writers,
        readers_get_a_turn, conditions, epochs_begin_anew, threads_mix, the_last_user_frees,
    };
    seconds = count > 1 ? atoi(words[1]) : 0;
    for (; passed < (int)(sizeof tests / sizeof *tests); passed++) tests[passed]();
    printf("%d passed, 0 failed\n", passed);
    return 0;
}
