// SPDX-License-Identifier: MIT OR Apache-2.0
//! The reentrant mutex.
use crate::mutex::RawMutex;
use core::num::NonZeroUsize;

/// The number of a thread: the address of a byte of its own.
#[derive(Debug)]
pub struct RawThreadId;

// SAFETY: two threads that run at the same time have different bytes.
unsafe impl lock_api::GetThreadId for RawThreadId {
    #[allow(clippy::declare_interior_mutable_const)]
    const INIT: Self = RawThreadId;

    fn nonzero_thread_id(&self) -> NonZeroUsize {
        thread_local!(static BYTE: u8 = const { 0 });
        BYTE.with(|byte| NonZeroUsize::new(core::ptr::from_ref(byte) as usize).expect("no byte is at address 0"))
    }
}

/// A mutex that its owner may acquire again.
///
/// ```
/// use proved_lock::ReentrantMutex;
/// use std::cell::Cell;
///
/// let count = ReentrantMutex::new(Cell::new(1));
/// let outer = count.lock();
/// count.lock().set(outer.get() + 1);
/// assert_eq!(outer.get(), 2);
/// ```
pub type ReentrantMutex<T> = lock_api::ReentrantMutex<RawMutex, RawThreadId, T>;

/// The guard of a [`ReentrantMutex`]. It releases one level when dropped.
///
/// ```
/// use proved_lock::{ReentrantMutex, ReentrantMutexGuard};
///
/// let mutex = ReentrantMutex::new("a");
/// let guard: ReentrantMutexGuard<'_, &str> = mutex.lock();
/// assert_eq!(*guard, "a");
/// ```
pub type ReentrantMutexGuard<'a, T> = lock_api::ReentrantMutexGuard<'a, RawMutex, RawThreadId, T>;

/// A guard of a part of the value of a [`ReentrantMutex`], made by `ReentrantMutexGuard::map`.
///
/// ```
/// use proved_lock::{MappedReentrantMutexGuard, ReentrantMutex, ReentrantMutexGuard};
///
/// let mutex = ReentrantMutex::new((1, "a"));
/// let first: MappedReentrantMutexGuard<'_, i32> = ReentrantMutexGuard::map(mutex.lock(), |it| &it.0);
/// assert_eq!(*first, 1);
/// ```
pub type MappedReentrantMutexGuard<'a, T> = lock_api::MappedReentrantMutexGuard<'a, RawMutex, RawThreadId, T>;

/// A guard that shares the ownership of its [`ReentrantMutex`], made by `ReentrantMutex::lock_arc`.
///
/// ```
/// use proved_lock::{ArcReentrantMutexGuard, ReentrantMutex};
/// use std::sync::Arc;
///
/// let mutex = Arc::new(ReentrantMutex::new("a"));
/// let guard: ArcReentrantMutexGuard<&str> = mutex.lock_arc();
/// assert_eq!(*guard, *mutex.lock_arc());
/// ```
#[cfg(feature = "arc_lock")]
pub type ArcReentrantMutexGuard<T> = lock_api::ArcReentrantMutexGuard<RawMutex, RawThreadId, T>;

/// Makes a reentrant mutex in a constant or a static.
#[must_use]
pub const fn const_reentrant_mutex<T>(value: T) -> ReentrantMutex<T> {
    ReentrantMutex::const_new(<RawMutex as lock_api::RawMutex>::INIT, <RawThreadId as lock_api::GetThreadId>::INIT, value)
}
