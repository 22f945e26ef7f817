/* SPDX-License-Identifier: MIT OR Apache-2.0 */
/* Calls of proved_lock.h that are recorded: that header includes this one where PROVED_LOCK_RECORD is defined. lockrecord.h is in
 * record/ of the repository. */
#ifndef PROVED_LOCK_RECORD_H
#define PROVED_LOCK_RECORD_H
#include "lockrecord.h"
#define PROVED_RECORDED(result, name) static inline __attribute__((always_inline)) result proved_recorded_##name
#define PROVED_RECORDED_WAIT(name, type, mode) \
    PROVED_RECORDED(void, name)(type *l) { \
        LOCKRECORD(acquire, l, mode); \
        proved_##name(l); \
        LOCKRECORD(acquired, l, mode); \
    }
#define PROVED_RECORDED_TRY(name, type, mode) \
    PROVED_CHECKED PROVED_RECORDED(bool, name)(type *l) { \
        bool is_admitted = proved_##name(l); \
        if (is_admitted) LOCKRECORD(acquired, l, (mode) | LOCKRECORD_TRY); \
        else LOCKRECORD(refused, l, (mode) | LOCKRECORD_TRY); \
        return is_admitted; \
    }
/* Without a deadline it waits as long as it must. */
#define PROVED_RECORDED_UNTIL(name, type, mode) \
    PROVED_CHECKED PROVED_RECORDED(bool, name)(type *l, const struct timespec *deadline) { \
        int how = deadline ? (mode) | LOCKRECORD_TRY : (mode); \
        if (!deadline) LOCKRECORD(acquire, l, how); \
        bool is_admitted = proved_##name(l, deadline); \
        if (is_admitted) LOCKRECORD(acquired, l, how); \
        else LOCKRECORD(refused, l, how); \
        return is_admitted; \
    }
#define PROVED_RECORDED_GIVE(name, type, call, mode) \
    PROVED_RECORDED(void, name)(type *l) { \
        LOCKRECORD(call, l, mode); \
        proved_##name(l); \
    }

PROVED_RECORDED_WAIT(mutex_lock, proved_mutex, LOCKRECORD_MUTEX)
PROVED_RECORDED_TRY(mutex_try_lock, proved_mutex, LOCKRECORD_MUTEX)
PROVED_RECORDED_UNTIL(mutex_lock_until, proved_mutex, LOCKRECORD_MUTEX)
PROVED_RECORDED_GIVE(mutex_unlock, proved_mutex, release, LOCKRECORD_MUTEX)
PROVED_RECORDED_WAIT(rwlock_lock_shared, proved_rwlock, LOCKRECORD_SHARED)
PROVED_RECORDED_TRY(rwlock_try_lock_shared, proved_rwlock, LOCKRECORD_SHARED)
PROVED_RECORDED_UNTIL(rwlock_lock_shared_until, proved_rwlock, LOCKRECORD_SHARED)
PROVED_RECORDED_GIVE(rwlock_unlock_shared, proved_rwlock, release, LOCKRECORD_SHARED)
PROVED_RECORDED_WAIT(rwlock_lock_exclusive, proved_rwlock, LOCKRECORD_EXCLUSIVE)
PROVED_RECORDED_TRY(rwlock_try_lock_exclusive, proved_rwlock, LOCKRECORD_EXCLUSIVE)
PROVED_RECORDED_UNTIL(rwlock_lock_exclusive_until, proved_rwlock, LOCKRECORD_EXCLUSIVE)
PROVED_RECORDED_GIVE(rwlock_unlock_exclusive, proved_rwlock, release, LOCKRECORD_EXCLUSIVE)
PROVED_RECORDED_WAIT(rwlock_lock_upgradable, proved_rwlock, LOCKRECORD_UPGRADABLE)
PROVED_RECORDED_TRY(rwlock_try_lock_upgradable, proved_rwlock, LOCKRECORD_UPGRADABLE)
PROVED_RECORDED_UNTIL(rwlock_lock_upgradable_until, proved_rwlock, LOCKRECORD_UPGRADABLE)
PROVED_RECORDED_GIVE(rwlock_unlock_upgradable, proved_rwlock, release, LOCKRECORD_UPGRADABLE)
PROVED_RECORDED_WAIT(rwlock_upgrade, proved_rwlock, LOCKRECORD_UPGRADE)
PROVED_RECORDED_TRY(rwlock_try_upgrade, proved_rwlock, LOCKRECORD_UPGRADE)
PROVED_RECORDED_UNTIL(rwlock_upgrade_until, proved_rwlock, LOCKRECORD_UPGRADE)
PROVED_RECORDED_GIVE(rwlock_downgrade, proved_rwlock, change, LOCKRECORD_SHARED)
PROVED_RECORDED_GIVE(rwlock_downgrade_to_upgradable, proved_rwlock, change, LOCKRECORD_UPGRADABLE)
PROVED_RECORDED_GIVE(rwlock_downgrade_upgradable, proved_rwlock, change, LOCKRECORD_SHARED)

PROVED_RECORDED(bool, cond_wait_until)(proved_cond *c, proved_mutex *m, const struct timespec *deadline) {
    LOCKRECORD(wait, c, m, deadline ? LOCKRECORD_MUTEX | LOCKRECORD_TRY : LOCKRECORD_MUTEX);
    bool is_woken = proved_cond_wait_until(c, m, deadline);
    LOCKRECORD(woken, m);
    return is_woken;
}
PROVED_RECORDED(void, cond_wait)(proved_cond *c, proved_mutex *m) { proved_recorded_cond_wait_until(c, m, 0); }
PROVED_RECORDED(bool, cond_notify_one)(proved_cond *c) {
    LOCKRECORD(notify, c);
    return proved_cond_notify_one(c);
}
PROVED_RECORDED(uint32_t, cond_notify_all)(proved_cond *c) {
    LOCKRECORD(notify, c);
    return proved_cond_notify_all(c);
}

#define proved_mutex_lock proved_recorded_mutex_lock
#define proved_mutex_try_lock proved_recorded_mutex_try_lock
#define proved_mutex_lock_until proved_recorded_mutex_lock_until
#define proved_mutex_unlock proved_recorded_mutex_unlock
#define proved_rwlock_lock_shared proved_recorded_rwlock_lock_shared
#define proved_rwlock_try_lock_shared proved_recorded_rwlock_try_lock_shared
#define proved_rwlock_lock_shared_until proved_recorded_rwlock_lock_shared_until
#define proved_rwlock_unlock_shared proved_recorded_rwlock_unlock_shared
#define proved_rwlock_lock_exclusive proved_recorded_rwlock_lock_exclusive
#define proved_rwlock_try_lock_exclusive proved_recorded_rwlock_try_lock_exclusive
#define proved_rwlock_lock_exclusive_until proved_recorded_rwlock_lock_exclusive_until
#define proved_rwlock_unlock_exclusive proved_recorded_rwlock_unlock_exclusive
#define proved_rwlock_lock_upgradable proved_recorded_rwlock_lock_upgradable
#define proved_rwlock_try_lock_upgradable proved_recorded_rwlock_try_lock_upgradable
#define proved_rwlock_lock_upgradable_until proved_recorded_rwlock_lock_upgradable_until
#define proved_rwlock_unlock_upgradable proved_recorded_rwlock_unlock_upgradable
#define proved_rwlock_upgrade proved_recorded_rwlock_upgrade
#define proved_rwlock_try_upgrade proved_recorded_rwlock_try_upgrade
#define proved_rwlock_upgrade_until proved_recorded_rwlock_upgrade_until
#define proved_rwlock_downgrade proved_recorded_rwlock_downgrade
#define proved_rwlock_downgrade_to_upgradable proved_recorded_rwlock_downgrade_to_upgradable
#define proved_rwlock_downgrade_upgradable proved_recorded_rwlock_downgrade_upgradable
#define proved_cond_wait proved_recorded_cond_wait
#define proved_cond_wait_until proved_recorded_cond_wait_until
#define proved_cond_notify_one proved_recorded_cond_notify_one
#define proved_cond_notify_all proved_recorded_cond_notify_all
#endif
