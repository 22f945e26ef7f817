/* SPDX-License-Identifier: MIT OR Apache-2.0 */
/* For locks that are no pthreads: the calls that tell bin/lockrecord what a thread does with such a lock.
 *
 * The symbols are weak. In a program that does not run under bin/lockrecord they are null, and LOCKRECORD(call, ..) makes no call.
 * A waiting writer is taken to keep new readers out.
 *
 *     LOCKRECORD(acquire, lock, LOCKRECORD_MUTEX);
 *     my_lock(lock);
 *     LOCKRECORD(acquired, lock, LOCKRECORD_MUTEX);
 *
 * The caller's address is the place of a call in the report. So make these calls in the function that calls the lock, or in one that
 * is always inlined there; else add LOCKRECORD_BY_STACK, which is slower. */
#ifndef LOCKRECORD_H
#define LOCKRECORD_H

#ifdef __cplusplus
extern "C" {
#endif

/* What is acquired. UPGRADE: exclusive, by a thread that holds the lock upgradable. */
enum lockrecord_mode { LOCKRECORD_MUTEX, LOCKRECORD_SHARED, LOCKRECORD_EXCLUSIVE, LOCKRECORD_UPGRADABLE, LOCKRECORD_UPGRADE };

/* TRY: the acquisition does not wait, or a deadline ends its wait. AGAIN: of SHARED, one that does not wait if the thread reads already.
 * BY_STACK: the stack of calls is the place. */
enum lockrecord_how { LOCKRECORD_TRY = 8, LOCKRECORD_AGAIN = 16, LOCKRECORD_BY_STACK = 32 };

#pragma GCC visibility push(default)
/* Before an acquisition without TRY. */
extern void lockrecord_acquire(const void *lock, int mode) __attribute__((weak));
/* After each acquisition that was admitted. */
extern void lockrecord_acquired(const void *lock, int mode) __attribute__((weak));
/* After an acquisition with TRY that was refused. */
extern void lockrecord_refused(const void *lock, int mode) __attribute__((weak));
/* Before a release of what was acquired in this mode. After an upgrade that is EXCLUSIVE. */
extern void lockrecord_release(const void *lock, int mode) __attribute__((weak));
/* Before a downgrade to SHARED or UPGRADABLE. */
extern void lockrecord_change(const void *lock, int mode) __attribute__((weak));
/* Before the memory of the lock gets another use. */
extern void lockrecord_destroy(const void *lock) __attribute__((weak));
/* Before a wait on a condition variable, in the mode of the mutex, and after it. With TRY a deadline ends the wait. */
extern void lockrecord_wait(const void *condvar, const void *mutex, int mode) __attribute__((weak));
extern void lockrecord_woken(const void *mutex) __attribute__((weak));
/* Before a notification. */
extern void lockrecord_notify(const void *condvar) __attribute__((weak));
#pragma GCC visibility pop

#define LOCKRECORD(call, ...) ((void)(lockrecord_##call ? (lockrecord_##call(__VA_ARGS__), 0) : 0))

#ifdef __cplusplus
}
#endif
#endif
