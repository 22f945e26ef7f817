/* SPDX-License-Identifier: MIT OR Apache-2.0 */
/* Tests that a call makes the steps that the archive returns, from the first one on, inline and in the loops of proved_lock.c. It
 * compiles that file with atomic operations and system calls that record what they do. Each access is sequentially consistent. */
#define _GNU_SOURCE
#include <errno.h>
#include <limits.h>
#include <linux/futex.h>
#include <sched.h>
#include <setjmp.h>
#include <stdbool.h>
#include <stddef.h>
#include <stdint.h>
#include <stdio.h>
#include <stdlib.h>
#include <string.h>
#include <sys/syscall.h>
#include <time.h>
#include <unistd.h>

static uint64_t loaded(const void *, size_t, int);
static uint64_t subtracted(void *, size_t, uint64_t, int);
static uint64_t with_bits(void *, size_t, uint64_t, int);
static bool exchanged(void *, size_t, void *, uint64_t, bool, int, int);
static long called(long, const void *, int, uint32_t, const struct timespec *, int, uint32_t);
static int yielded(void);
#define __atomic_load_n(word, order) ((__typeof__(+*(word)))loaded(word, sizeof *(word), order))
#define __atomic_fetch_sub(word, ...) ((__typeof__(+*(word)))subtracted(word, sizeof *(word), __VA_ARGS__))
#define __atomic_fetch_or(word, ...) ((__typeof__(+*(word)))with_bits(word, sizeof *(word), __VA_ARGS__))
#define __atomic_compare_exchange_n(word, ...) exchanged(word, sizeof *(word), __VA_ARGS__)
#define syscall called
#define sched_yield yielded
#include "proved_lock.c"
#undef __atomic_load_n
#undef __atomic_fetch_sub
#undef __atomic_fetch_or
#undef __atomic_compare_exchange_n
#undef syscall
#undef sched_yield

#define MUST(c) \
    do { \
        if (!(c)) { \
            printf("%s:%d: not so: %s\n%d passed, 1 failed\n", __FILE__, __LINE__, #c, passed); \
            exit(1); \
        } \
    } while (0)

enum { MOST = 64, LOSSES = 1000 };
static int passed;
static const struct timespec over = {0, 0};

/* What other threads leave in the word before each access, the steps of a call, and what it leaves and answers. */
struct record {
    const uint64_t *others;
    int left, count, most;
    size_t size; /* of the word */
    union {
        uint32_t lock;
        proved_cond cond;
    } word;
    proved_mutex mutex;
    uint32_t answer;
    struct lock_event_step steps[LOSSES + 2 * MOST];
};
static struct record *current;
static jmp_buf is_cut;

/* A number of so many bytes. */
static uint64_t number_at(const void *word, size_t size) {
    uint64_t number = 0;
    memcpy(&number, word, size);
    return number;
}

/* Notes a step. A call that makes many more, while no other thread makes one, is cut. */
static void note(uint64_t action, uint64_t first, uint64_t second) {
    if (current->count == current->most) longjmp(is_cut, 1);
    current->steps[current->count++] = (struct lock_event_step){action, first, second};
}
/* Notes an access to the word, before which another thread may write. Returns the number that it finds. */
static uint64_t reach(const void *word, uint64_t action, uint64_t first, uint64_t second) {
    MUST(word == &current->word);
    if (current->left > 0) memcpy(&current->word, current->others++, current->size), current->left--;
    note(action, first, second);
    return number_at(word, current->size);
}
static uint64_t change(uint64_t found, uint64_t number) {
    memcpy(&current->word, &number, current->size);
    return found;
}

/* What the tested code does. */
static uint64_t loaded(const void *word, size_t size, int order) {
    MUST(size == current->size && order == __ATOMIC_SEQ_CST);
    return reach(word, LOCK_LOAD, 0, 0);
}
static uint64_t subtracted(void *word, size_t size, uint64_t number, int order) {
    MUST(size == current->size && order == __ATOMIC_SEQ_CST);
    uint64_t found = reach(word, LOCK_SUBTRACT, number, 0);
    return change(found, found - number);
}
static uint64_t with_bits(void *word, size_t size, uint64_t bits, int order) {
    MUST(size == current->size && order == __ATOMIC_SEQ_CST);
    uint64_t found = reach(word, LOCK_OR, bits, 0);
    return change(found, found | bits);
}
static bool exchanged(void *word, size_t size, void *old, uint64_t number, bool weak, int order, int lost) {
    uint64_t expected = number_at(old, size), found = expected;
    MUST(!weak && order == __ATOMIC_SEQ_CST && lost == __ATOMIC_SEQ_CST);
    if (word == &current->mutex) {
        MUST(current->mutex.word == expected && expected + number == PROVED_HELD_EXCLUSIVE);
        note(number ? LOCK_LOCK : LOCK_UNLOCK, 0, 0);
    } else {
        MUST(size == current->size);
        found = reach(word, LOCK_EXCHANGE, expected, number);
    }
    memcpy(found == expected ? word : old, found == expected ? &number : &found, size);
    return found == expected;
}
/* No sleep lasts: its word is another one, or its deadline has passed. */
static long called(long number, const void *word, int operation, uint32_t value, const struct timespec *deadline, int unused, uint32_t bits) {
    bool is_next = bits == NEXT, is_turn = bits == (NEXT | READER), is_all = value == INT_MAX;
    MUST(number == SYS_futex && !unused && word == &current->word);
    if (operation == FUTEX_WAIT_BITSET_PRIVATE) {
        MUST((is_next || bits == PLAIN || bits == READER) && deadline == &over);
        uint32_t found = (uint32_t)reach(word, is_next ? LOCK_SLEEP_NEXT : bits == READER ? LOCK_SLEEP_READER : LOCK_SLEEP, value, 0);
        errno = found == value ? ETIMEDOUT : EAGAIN;
        return -1;
    }
    MUST(operation == FUTEX_WAKE_BITSET_PRIVATE && !deadline);
    MUST(is_next || is_turn ? is_all : bits == FUTEX_BITSET_MATCH_ANY && (is_all || value == 1));
    note(is_next ? LOCK_WAKE_NEXT : is_turn ? LOCK_WAKE_TURN : is_all ? LOCK_WAKE_ALL : LOCK_WAKE_ONE, 0, 0);
    return 0;
}
static int yielded(void) {
    note(LOCK_YIELD, 0, 0);
    return 0;
}

enum kind { TRIES, ACQUIRES, RELEASES, WAITS, NOTIFIES };
static const uint32_t forms[] = {[TRIES] = 4, [ACQUIRES] = 4, [RELEASES] = 6, [WAITS] = 1, [NOTIFIES] = 2};

static uint32_t tested_call(enum kind kind, uint32_t readers, uint32_t form) {
    uint32_t *lock = &current->word.lock;
    proved_cond *cond = &current->word.cond;
    switch (kind) {
    case TRIES: return proved_try_(lock, readers, (enum proved_mode)form);
    case ACQUIRES: return proved_acquire_(lock, readers, (enum proved_mode)form, &over);
    case RELEASES: proved_give_(lock, readers, (enum proved_release)form); break;
    case WAITS: return proved_cond_wait_until(cond, &current->mutex, &over);
    case NOTIFIES: return proved_notify_(cond, form != 0);
    }
    return true;
}

/* Makes a step of the archive as lock_c.h has it, and returns its answer. */
static uint64_t answer_to(uint64_t action, uint64_t first, uint64_t second, bool has_deadline) {
    switch (action) {
    case LOCK_SPIN: return 0;
    case LOCK_WAKE_ONE: case LOCK_WAKE_ALL: case LOCK_WAKE_NEXT: case LOCK_WAKE_TURN: return note(action, 0, 0), 0;
    case LOCK_YIELD: return note(action, 0, 0), has_deadline ? LOCK_IS_LATE : 0;
    case LOCK_UNLOCK: return note(action, 0, 0), current->mutex.word = 0;
    case LOCK_LOCK: return note(action, 0, 0), current->mutex.word = PROVED_HELD_EXCLUSIVE, 0;
    }
    bool is_sleep = action == LOCK_SLEEP || action == LOCK_SLEEP_NEXT || action == LOCK_SLEEP_READER; /* its second number is no word */
    uint64_t found = reach(&current->word, action, first, is_sleep ? 0 : second);
    if (is_sleep) return (uint32_t)found == first ? LOCK_IS_LATE : 0;
    switch (action) {
    case LOCK_LOAD: return found;
    case LOCK_EXCHANGE: return change(found, found == first ? second : found);
    case LOCK_SUBTRACT: return change(found, found - first);
    case LOCK_OR: return change(found, found | first);
    }
    printf("the archive asks for the step %u\n", (unsigned)action);
    exit(1);
}

/* An exclusive acquisition and an upgrade leave out the load: the exchange that follows finds the word. */
static uint32_t call_of_lock(enum kind kind, uint32_t readers, uint32_t form) {
    struct lock_call call;
    struct lock_step s = kind == RELEASES ? lock_c_release(&call, readers, form)
        : lock_c_acquire(&call, readers, form, kind == ACQUIRES, kind == ACQUIRES && form == PROVED_EXCLUSIVE);
    if (kind != RELEASES && form == PROVED_EXCLUSIVE) s = lock_c_next(&call, 0);
    if (kind != RELEASES && form == PROVED_UPGRADE) s = lock_c_next(&call, PROVED_ONE_UPGRADABLE);
    while (!has_ended(s)) {
        MUST(s.place == 0);
        s = lock_c_next(&call, (uint32_t)answer_to(s.action, s.first, s.second, kind == ACQUIRES));
    }
    return s.action == LOCK_DONE;
}
static uint32_t archive_call(enum kind kind, uint32_t readers, uint32_t form) {
    if (kind < WAITS) return call_of_lock(kind, readers, form);
    struct lock_event call;
    struct lock_event_step s = kind == WAITS ? lock_c_wait(&call) : lock_c_notify(&call, (uint8_t)form);
    while (!has_event_ended(s)) s = lock_c_next_event(&call, answer_to(s.action, s.first, s.second, kind == WAITS));
    return kind == WAITS ? s.action == LOCK_DONE : (uint32_t)(call.loaded >> 40);
}

static void make_record(struct record *it, uint32_t (*call)(enum kind, uint32_t, uint32_t), enum kind kind, uint32_t readers, uint32_t form) {
    current = it;
    if (!setjmp(is_cut)) it->answer = call(kind, readers, form);
}

/* Compares the answers, the steps, and the words that they leave. */
static void compare(const uint64_t *others, int count, enum kind kind, uint32_t readers) {
    static struct record found, expected;
    for (uint32_t form = 0; form < forms[kind]; form++) {
        memset(&found, 0, offsetof(struct record, steps));
        found.others = others, found.left = count, found.most = count + MOST, found.mutex.word = PROVED_HELD_EXCLUSIVE;
        found.size = kind < WAITS ? sizeof found.word.lock : sizeof found.word.cond;
        memcpy(&expected, &found, offsetof(struct record, steps));
        make_record(&found, tested_call, kind, readers, form), make_record(&expected, archive_call, kind, readers, form);
        bool is_same = !memcmp(&found, &expected, offsetof(struct record, steps))
            && !memcmp(found.steps, expected.steps, (size_t)found.count * sizeof *found.steps);
        if (!is_same) {
            printf("call %d in form %u for %u readers, while others write", kind, form, readers);
            for (int i = 0; i < count; i++) printf(" %llx", (unsigned long long)others[i]);
            printf("; %d steps for %d\n", found.count, expected.count);
        }
        MUST(is_same);
    }
}

static uint64_t words[512];
static int count;

/* Words with all flags, and numbers of readers about 0, 1 and the limit. */
static void list_words(uint32_t readers) {
    const uint32_t some[] = {0, 1, 2, 3, readers - 1, readers, readers + 1, PROVED_MAX_READERS};
    count = 0;
    for (unsigned i = 0; i < sizeof some / sizeof *some; i++) {
        for (uint32_t flags = 0; flags < PROVED_ONE_READER; flags++) words[count++] = some[i] * PROVED_ONE_READER + flags;
    }
}

/* Words of a condition variable: each of its numbers is small, or about its greatest one. */
static void list_event_words(void) {
    const uint64_t waits[] = {0, 1, 2, 254, 255, 256, 0xfffffe, 0xffffff}, unclaimed[] = {0, 1, 2, 254, 255};
    const uint64_t epochs[] = {0, 1, UINT32_MAX - 2, UINT32_MAX - 1, UINT32_MAX};
    count = 0;
    for (int i = 0; i < 8 * 5 * 5; i++) words[count++] = waits[i / 25] << 40 | unclaimed[i / 5 % 5] << 32 | epochs[i % 5];
}

static uint64_t random_number(void) {
    static uint64_t x = 88172645463325252u;
    return x ^= x << 13, x ^= x >> 7, x ^= x << 17;
}
static uint64_t any_word(void) { return random_number() % 4 == 0 ? random_number() : words[random_number() % (uint64_t)count]; }

/* Compares on each pair of listed words, and on random ones. A first word ends most acquisitions. */
static void compare_all(enum kind first, enum kind last, uint32_t readers) {
    uint64_t some[12];
    for (enum kind kind = first; kind <= last; kind++) {
        for (int i = 0; i < count; i++) {
            some[0] = words[i];
            compare(some, 1, kind, readers);
            for (int j = 0; kind != ACQUIRES && j < count; j++) some[1] = words[j], compare(some, 2, kind, readers);
        }
        for (int i = 0; i < (kind == ACQUIRES ? 1000 : 20000); i++) {
            for (int j = 0; j < 12; j++) some[j] = any_word();
            compare(some, 1 + i % 12, kind, readers);
        }
    }
}

/* Compares notifications on each word of one or two bits, which may end inline, and calls that lose many exchanges. */
static void compare_events(void) {
    static uint64_t epochs[LOSSES + MOST];
    for (int i = 0; i < 64 * 64; i++) {
        uint64_t word = (uint64_t)1 << i / 64 | (uint64_t)1 << i % 64;
        compare(&word, 1, NOTIFIES, 1);
    }
    for (int i = 0; i < LOSSES + MOST; i++) epochs[i] = (uint64_t)3 << 40 | (uint64_t)2 << 32 | (uint64_t)i;
    for (int lost = LOSSES - 2; lost < LOSSES + MOST; lost++) compare(epochs, lost, NOTIFIES, 1), compare(epochs, lost, WAITS, 1);
}

int main(void) {
    const uint32_t limits[] = {1, 2, 10, PROVED_MAX_READERS - 1, PROVED_MAX_READERS};
    for (; passed < 5; passed++) {
        list_words(limits[passed]);
        compare_all(TRIES, RELEASES, limits[passed]);
    }
    list_event_words();
    compare_all(WAITS, NOTIFIES, 1);
    compare_events();
    printf("%d passed, 0 failed\n", passed + 1);
    return 0;
}
