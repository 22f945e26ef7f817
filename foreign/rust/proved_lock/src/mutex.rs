// SPDX-License-Identifier: MIT OR Apache-2.0
//! The mutex.
use crate::driver::{Mode, Release};
use crate::first::Lock;
#[cfg(feature = "std")]
use std::time::{Duration, Instant};

/// The raw mutex, for [`lock_api::Mutex`]. It has 4 bytes.
#[derive(Debug)]
pub struct RawMutex(pub(crate) Lock<1>);

/// A mutex. A release wakes one waiter.
///
/// ```
/// use proved_lock::Mutex;
///
/// let names = Mutex::new(vec!["a"]);
/// names.lock().push("b");
/// assert_eq!(names.try_lock().map(|it| it.len()), Some(2));
/// ```
pub type Mutex<T> = lock_api::Mutex<RawMutex, T>;

/// The guard of a [`Mutex`]. It releases the mutex when dropped.
///
/// ```
/// use proved_lock::{Mutex, MutexGuard};
///
/// let mutex = Mutex::new(1);
/// let mut guard: MutexGuard<'_, i32> = mutex.lock();
/// *guard += 1;
/// drop(guard);
/// assert_eq!(mutex.into_inner(), 2);
/// ```
pub type MutexGuard<'a, T> = lock_api::MutexGuard<'a, RawMutex, T>;

/// A guard of a part of the value of a [`Mutex`], made by `MutexGuard::map`.
///
/// ```
/// use proved_lock::{MappedMutexGuard, Mutex, MutexGuard};
///
/// let mutex = Mutex::new((1, "a"));
/// let mut first: MappedMutexGuard<'_, i32> = MutexGuard::map(mutex.lock(), |it| &mut it.0);
/// *first = 5;
/// drop(first);
/// assert_eq!(*mutex.lock(), (5, "a"));
/// ```
pub type MappedMutexGuard<'a, T> = lock_api::MappedMutexGuard<'a, RawMutex, T>;

/// A guard that shares the ownership of its [`Mutex`], made by `Mutex::lock_arc`.
///
/// ```
/// use proved_lock::{ArcMutexGuard, Mutex};
/// use std::sync::Arc;
///
/// let mutex = Arc::new(Mutex::new(1));
/// let mut guard: ArcMutexGuard<i32> = mutex.lock_arc();
/// *guard += 1;
/// assert!(mutex.try_lock_arc().is_none());
/// drop(guard);
/// assert_eq!(*mutex.lock(), 2);
/// ```
#[cfg(feature = "arc_lock")]
pub type ArcMutexGuard<T> = lock_api::ArcMutexGuard<RawMutex, T>;

/// Makes a mutex in a constant or a static.
#[must_use]
pub const fn const_mutex<T>(value: T) -> Mutex<T> {
    Mutex::const_new(<RawMutex as lock_api::RawMutex>::INIT, value)
}

// SAFETY: the proved machine admits one exclusive holder at a time, and the first steps are its own.
unsafe impl lock_api::RawMutex for RawMutex {
    #[allow(clippy::declare_interior_mutable_const)]
    const INIT: Self = RawMutex(Lock::new());
    type GuardMarker = crate::GuardMarker;

    #[inline]
    fn lock(&self) {
        self.0.acquire(Mode::Exclusive);
    }

    #[inline]
    fn try_lock(&self) -> bool {
        self.0.try_acquire(Mode::Exclusive)
    }

    #[inline]
    unsafe fn unlock(&self) {
        // SAFETY: the caller holds what it releases.
        unsafe { self.0.release(Release::Exclusive) }
    }

    #[inline]
    fn is_locked(&self) -> bool {
        self.0.is_locked()
    }
}

// SAFETY: a fair release is a plain one.
unsafe impl lock_api::RawMutexFair for RawMutex {
    #[inline]
    unsafe fn unlock_fair(&self) {
        // SAFETY: the caller holds what it releases.
        unsafe { self.0.release(Release::Exclusive) }
    }
}

#[cfg(feature = "std")]
// SAFETY: the proved machine answers yes only if the call holds the lock.
unsafe impl lock_api::RawMutexTimed for RawMutex {
    type Duration = Duration;
    type Instant = Instant;

    #[inline]
    fn try_lock_for(&self, timeout: Duration) -> bool {
        self.0.acquire_until(Mode::Exclusive, Instant::now().checked_add(timeout))
    }

    #[inline]
    fn try_lock_until(&self, deadline: Instant) -> bool {
        self.0.acquire_until(Mode::Exclusive, Some(deadline))
    }
}
