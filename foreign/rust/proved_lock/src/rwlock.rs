// SPDX-License-Identifier: MIT OR Apache-2.0
//! The reader-writer lock.
use crate::driver::{Mode, Release};
use crate::first::{Lock, MAX_READERS};
#[cfg(feature = "std")]
use std::time::{Duration, Instant};

/// The raw reader-writer lock, for [`lock_api::RwLock`]. It has 4 bytes, and admits at most 2^27 - 1 readers at a time.
#[derive(Debug)]
pub struct RawRwLock(Lock<MAX_READERS>);

/// A reader-writer lock with upgradable reads.
///
/// ```
/// use proved_lock::RwLock;
///
/// let lock = RwLock::new(5);
/// {
///     let (a, b) = (lock.read(), lock.read());
///     assert_eq!(*a + *b, 10);
/// }
/// *lock.write() += 1;
/// assert_eq!(*lock.read(), 6);
/// ```
pub type RwLock<T> = lock_api::RwLock<RawRwLock, T>;

/// The guard of a read. It releases the lock when dropped.
///
/// ```
/// use proved_lock::{RwLock, RwLockReadGuard};
///
/// let lock = RwLock::new("a");
/// let guard: RwLockReadGuard<'_, &str> = lock.read();
/// assert!(lock.try_write().is_none());
/// assert_eq!(*guard, "a");
/// ```
pub type RwLockReadGuard<'a, T> = lock_api::RwLockReadGuard<'a, RawRwLock, T>;

/// The guard of a write. It releases the lock when dropped, and can be downgraded.
///
/// ```
/// use proved_lock::{RwLock, RwLockWriteGuard};
///
/// let lock = RwLock::new(1);
/// let mut guard = lock.write();
/// *guard = 2;
/// let guard = RwLockWriteGuard::downgrade(guard);
/// assert_eq!((*guard, *lock.read()), (2, 2));
/// ```
pub type RwLockWriteGuard<'a, T> = lock_api::RwLockWriteGuard<'a, RawRwLock, T>;

/// The guard of an upgradable read: readers are admitted, and no other upgradable read is.
///
/// ```
/// use proved_lock::{RwLock, RwLockUpgradableReadGuard};
///
/// let lock = RwLock::new(1);
/// let guard = lock.upgradable_read();
/// let seen = *guard;
/// let mut guard = RwLockUpgradableReadGuard::upgrade(guard);
/// *guard += seen;
/// drop(guard);
/// assert_eq!(*lock.read(), 2);
/// ```
pub type RwLockUpgradableReadGuard<'a, T> = lock_api::RwLockUpgradableReadGuard<'a, RawRwLock, T>;

/// A guard of a read of a part of the value, made by `RwLockReadGuard::map`.
///
/// ```
/// use proved_lock::{MappedRwLockReadGuard, RwLock, RwLockReadGuard};
///
/// let lock = RwLock::new((1, "a"));
/// let first: MappedRwLockReadGuard<'_, i32> = RwLockReadGuard::map(lock.read(), |it| &it.0);
/// assert_eq!(*first, 1);
/// ```
pub type MappedRwLockReadGuard<'a, T> = lock_api::MappedRwLockReadGuard<'a, RawRwLock, T>;

/// A guard of a write of a part of the value, made by `RwLockWriteGuard::map`.
///
/// ```
/// use proved_lock::{MappedRwLockWriteGuard, RwLock, RwLockWriteGuard};
///
/// let lock = RwLock::new((1, "a"));
/// let mut first: MappedRwLockWriteGuard<'_, i32> = RwLockWriteGuard::map(lock.write(), |it| &mut it.0);
/// *first = 5;
/// drop(first);
/// assert_eq!(*lock.read(), (5, "a"));
/// ```
pub type MappedRwLockWriteGuard<'a, T> = lock_api::MappedRwLockWriteGuard<'a, RawRwLock, T>;

/// A guard of a read that shares the ownership of its [`RwLock`], made by `RwLock::read_arc`.
///
/// ```
/// use proved_lock::{ArcRwLockReadGuard, RwLock};
/// use std::sync::Arc;
///
/// let lock = Arc::new(RwLock::new("a"));
/// let guard: ArcRwLockReadGuard<&str> = lock.read_arc();
/// assert_eq!(*guard, *lock.read_arc());
/// ```
#[cfg(feature = "arc_lock")]
pub type ArcRwLockReadGuard<T> = lock_api::ArcRwLockReadGuard<RawRwLock, T>;

/// A guard of a write that shares the ownership of its [`RwLock`], made by `RwLock::write_arc`.
///
/// ```
/// use proved_lock::{ArcRwLockWriteGuard, RwLock};
/// use std::sync::Arc;
///
/// let lock = Arc::new(RwLock::new(1));
/// let mut guard: ArcRwLockWriteGuard<i32> = lock.write_arc();
/// *guard = 2;
/// assert!(lock.try_read_arc().is_none());
/// let guard = ArcRwLockWriteGuard::downgrade(guard);
/// assert_eq!((*guard, *lock.read()), (2, 2));
/// ```
#[cfg(feature = "arc_lock")]
pub type ArcRwLockWriteGuard<T> = lock_api::ArcRwLockWriteGuard<RawRwLock, T>;

/// A guard of an upgradable read that shares the ownership of its [`RwLock`], made by `RwLock::upgradable_read_arc`.
///
/// ```
/// use proved_lock::{ArcRwLockUpgradableReadGuard, RwLock};
/// use std::sync::Arc;
///
/// let lock = Arc::new(RwLock::new(1));
/// let guard: ArcRwLockUpgradableReadGuard<i32> = lock.upgradable_read_arc();
/// let seen = *guard;
/// *ArcRwLockUpgradableReadGuard::upgrade(guard) += seen;
/// assert_eq!(*lock.read(), 2);
/// ```
#[cfg(feature = "arc_lock")]
pub type ArcRwLockUpgradableReadGuard<T> = lock_api::ArcRwLockUpgradableReadGuard<RawRwLock, T>;

/// Makes a reader-writer lock in a constant or a static.
#[must_use]
pub const fn const_rwlock<T>(value: T) -> RwLock<T> {
    RwLock::const_new(<RawRwLock as lock_api::RawRwLock>::INIT, value)
}

// SAFETY: the holds that the proved machine admits are compatible, and the first steps are its own.
unsafe impl lock_api::RawRwLock for RawRwLock {
    #[allow(clippy::declare_interior_mutable_const)]
    const INIT: Self = RawRwLock(Lock::new());
    type GuardMarker = crate::GuardMarker;

    #[inline]
    fn lock_shared(&self) {
        self.0.acquire(Mode::Shared);
    }

    #[inline]
    fn try_lock_shared(&self) -> bool {
        self.0.try_acquire(Mode::Shared)
    }

    #[inline]
    unsafe fn unlock_shared(&self) {
        // SAFETY: the caller holds what it releases.
        unsafe { self.0.release(Release::Shared) }
    }

    #[inline]
    fn lock_exclusive(&self) {
        self.0.acquire(Mode::Exclusive);
    }

    #[inline]
    fn try_lock_exclusive(&self) -> bool {
        self.0.try_acquire(Mode::Exclusive)
    }

    #[inline]
    unsafe fn unlock_exclusive(&self) {
        // SAFETY: the caller holds what it releases.
        unsafe { self.0.release(Release::Exclusive) }
    }

    #[inline]
    fn is_locked(&self) -> bool {
        self.0.is_locked()
    }

    #[inline]
    fn is_locked_exclusive(&self) -> bool {
        self.0.is_locked_exclusive()
    }
}

// SAFETY: a fair release is a plain one.
unsafe impl lock_api::RawRwLockFair for RawRwLock {
    #[inline]
    unsafe fn unlock_shared_fair(&self) {
        // SAFETY: the caller holds what it releases.
        unsafe { self.0.release(Release::Shared) }
    }

    #[inline]
    unsafe fn unlock_exclusive_fair(&self) {
        // SAFETY: the caller holds what it releases.
        unsafe { self.0.release(Release::Exclusive) }
    }
}

// SAFETY: a downgrade is one exchange of the proved machine.
unsafe impl lock_api::RawRwLockDowngrade for RawRwLock {
    #[inline]
    unsafe fn downgrade(&self) {
        // SAFETY: the caller holds what it releases.
        unsafe { self.0.release(Release::ToShared) }
    }
}

// SAFETY: as for the other modes.
unsafe impl lock_api::RawRwLockUpgrade for RawRwLock {
    #[inline]
    fn lock_upgradable(&self) {
        self.0.acquire(Mode::Upgradable);
    }

    #[inline]
    fn try_lock_upgradable(&self) -> bool {
        self.0.try_acquire(Mode::Upgradable)
    }

    #[inline]
    unsafe fn unlock_upgradable(&self) {
        // SAFETY: the caller holds what it releases.
        unsafe { self.0.release(Release::Upgradable) }
    }

    #[inline]
    unsafe fn upgrade(&self) {
        self.0.acquire(Mode::Upgrade);
    }

    #[inline]
    unsafe fn try_upgrade(&self) -> bool {
        self.0.try_acquire(Mode::Upgrade)
    }
}

// SAFETY: a fair release is a plain one.
unsafe impl lock_api::RawRwLockUpgradeFair for RawRwLock {
    #[inline]
    unsafe fn unlock_upgradable_fair(&self) {
        // SAFETY: the caller holds what it releases.
        unsafe { self.0.release(Release::Upgradable) }
    }
}

// SAFETY: a downgrade is one exchange of the proved machine.
unsafe impl lock_api::RawRwLockUpgradeDowngrade for RawRwLock {
    #[inline]
    unsafe fn downgrade_upgradable(&self) {
        // SAFETY: the caller holds what it releases.
        unsafe { self.0.release(Release::UpgradableToShared) }
    }

    #[inline]
    unsafe fn downgrade_to_upgradable(&self) {
        // SAFETY: the caller holds what it releases.
        unsafe { self.0.release(Release::ToUpgradable) }
    }
}

#[cfg(feature = "std")]
// SAFETY: the proved machine answers yes only if the call holds the lock.
unsafe impl lock_api::RawRwLockTimed for RawRwLock {
    type Duration = Duration;
    type Instant = Instant;

    #[inline]
    fn try_lock_shared_for(&self, timeout: Duration) -> bool {
        self.0.acquire_until(Mode::Shared, Instant::now().checked_add(timeout))
    }

    #[inline]
    fn try_lock_shared_until(&self, deadline: Instant) -> bool {
        self.0.acquire_until(Mode::Shared, Some(deadline))
    }

    #[inline]
    fn try_lock_exclusive_for(&self, timeout: Duration) -> bool {
        self.0.acquire_until(Mode::Exclusive, Instant::now().checked_add(timeout))
    }

    #[inline]
    fn try_lock_exclusive_until(&self, deadline: Instant) -> bool {
        self.0.acquire_until(Mode::Exclusive, Some(deadline))
    }
}

#[cfg(feature = "std")]
// SAFETY: the proved machine answers yes only if the call holds the lock.
unsafe impl lock_api::RawRwLockUpgradeTimed for RawRwLock {
    #[inline]
    fn try_lock_upgradable_for(&self, timeout: Duration) -> bool {
        self.0.acquire_until(Mode::Upgradable, Instant::now().checked_add(timeout))
    }

    #[inline]
    fn try_lock_upgradable_until(&self, deadline: Instant) -> bool {
        self.0.acquire_until(Mode::Upgradable, Some(deadline))
    }

    #[inline]
    unsafe fn try_upgrade_for(&self, timeout: Duration) -> bool {
        self.0.acquire_until(Mode::Upgrade, Instant::now().checked_add(timeout))
    }

    #[inline]
    unsafe fn try_upgrade_until(&self, deadline: Instant) -> bool {
        self.0.acquire_until(Mode::Upgrade, Some(deadline))
    }
}
