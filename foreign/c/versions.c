/* SPDX-License-Identifier: MIT OR Apache-2.0 */
/* Tests that libraries over two versions of the archive keep to their own code in one program. With LIBRARY=NAME this file is such
 * a library. With ADMITS_ALL too it has an archive of its own, which admits each call. */
#ifdef LIBRARY
#include "proved_lock.c"

/* Acquires the mutex of this library, unless it is held. */
bool LIBRARY(void) {
    static proved_mutex mutex = PROVED_MUTEX_INIT;
    return proved_mutex_lock_until(&mutex, &(struct timespec){0, 0});
}

#ifdef ADMITS_ALL
static const struct lock_step done = {LOCK_DONE, 0, 0, 0};
static const struct lock_event_step event_done = {LOCK_DONE, 0, 0};
struct lock_step lock_c_acquire(struct lock_call *call, uint32_t readers, uint32_t want, uint8_t blocks, uint8_t announces) {
    return (void)call, (void)readers, (void)want, (void)blocks, (void)announces, done;
}
struct lock_step lock_c_release(struct lock_call *call, uint32_t readers, uint32_t down) {
    return (void)call, (void)readers, (void)down, done;
}
struct lock_step lock_c_next(struct lock_call *call, uint32_t found) { return (void)call, (void)found, done; }
struct lock_event_step lock_c_wait(struct lock_event *call) { return (void)call, event_done; }
struct lock_event_step lock_c_notify(struct lock_event *call, uint8_t all) { return (void)call, (void)all, event_done; }
struct lock_event_step lock_c_next_event(struct lock_event *call, uint64_t found) { return (void)call, (void)found, event_done; }
#endif

#else
#include <stdbool.h>
#include <stdio.h>

bool of_this(void), of_other(void);

int main(void) {
    bool is_kept = of_this() && !of_this(), is_apart = of_other() && of_other();
    printf("a held mutex %s, and the other version %s\n", is_kept ? "is refused" : "is acquired again", is_apart ? "answers" : "is hidden");
    return !(is_kept && is_apart);
}
#endif
