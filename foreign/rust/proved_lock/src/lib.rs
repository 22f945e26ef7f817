// SPDX-License-Identifier: MIT OR Apache-2.0
//! A mutex, a condition variable and a reader-writer lock: proved code chooses each step but the inline first ones.
//!
//! The types are those of [`lock_api`] over the raw locks [`RawMutex`] and [`RawRwLock`], with the names of `parking_lot`. A
//! call is a state machine: the archive `liblock_c.a` returns the atomic step that comes next, and this crate makes it. It is
//! proved of the machine that threads hold compatible modes, and that no thread that sleeps is forgotten.
//!
//! A lock is one word of 32 bits, and a condition variable one of 64. Trusted are the loop that makes the steps, futex, and the
//! inline first steps of an uncontended call. A test compares those steps with the archive.
//!
//! ```
//! use proved_lock::Mutex;
//!
//! static COUNTER: Mutex<u32> = proved_lock::const_mutex(0);
//! std::thread::scope(|s| {
//!     for _ in 0..4 {
//!         s.spawn(|| *COUNTER.lock() += 1);
//!     }
//! });
//! assert_eq!(*COUNTER.lock(), 4);
//! ```
//!
//! # Differences from `parking_lot`
//!
//! - There is no `Once` or `FairMutex`, and no recursive read.
//! - The feature `deadlock_detection` is missing. `bin/lockrecord` of the repository finds deadlocks with the feature `record`.
//! - A fair unlock is a plain unlock, and `bump` releases and acquires again.
//! - A writer that waits admits no new reader. It withdraws at its deadline. A reader that waits for half a millisecond takes a
//!   turn: then at most one writer acquires before a reader.
//! - A waiting upgrade admits new readers, which may starve it. Writers may starve an upgradable read.
//! - At most 2^27 - 1 readers hold a lock at a time. The next one blocks.
//! - A wait of a [`Condvar`] may end without a notification. With two mutexes at a time, it does not panic.
//! - The crate is for Linux on x86-64 and aarch64, with pointers of 64 bits. On aarch64 only the archive is tested, by the tests in
//!   C, under an emulator.
//!
//! As in `parking_lot`, a panic of a thread that holds a lock releases it, and a lock is never poisoned. After the step that
//! releases, an unlock reads and writes the lock no more: the thread that acquires it next may free it.
//!
//! # Features
//!
//! - `std`, a default: calls with a deadline, and the reentrant mutex.
//! - `arc_lock`: guards that share the ownership of their lock, as `ArcMutexGuard`.
//! - `send_guard`: guards that may be sent to another thread.
//! - `record`: the raw lock `Recorded`, which `bin/lockrecord` of the repository sees.
//! - `serde` and `owning_ref`: those of [`lock_api`].
#![cfg_attr(not(feature = "std"), no_std)]
#![deny(unsafe_op_in_unsafe_fn, clippy::undocumented_unsafe_blocks)]
#![warn(missing_docs)]

#[cfg(not(any(
    doc,
    all(
        target_os = "linux",
        target_endian = "little",
        target_pointer_width = "64",
        any(target_arch = "x86_64", target_arch = "aarch64")
    )
)))]
compile_error!(
    "proved_lock is for Linux on x86-64 and on little-endian aarch64: parking_lot has the same names on other targets"
);

// `build.rs` found no archive. The documentation needs none.
#[cfg(all(archive_is_missing, not(doc)))]
compile_error!(concat!(
    env!("MISSING_ARCHIVE"),
    " is missing: bin/prebuild makes the archives for x86-64 and aarch64, and PROVED_LOCK_LIB names another one"
));

mod condvar;
mod driver;
#[cfg(test)]
mod expected;
mod first;
#[cfg(all(test, feature = "std"))]
mod mixed;
mod mutex;
#[cfg(feature = "record")]
mod recorded;
#[cfg(feature = "std")]
mod remutex;
mod rwlock;
mod word;

const _: () = assert!(size_of::<Mutex<()>>() == 4 && size_of::<RwLock<()>>() == 4 && size_of::<Condvar>() == 8);

/// With the feature, a guard may be sent to another thread.
///
/// ```
/// fn is_sent<T: Send>() {}
/// is_sent::<proved_lock::MutexGuard<'static, i32>>();
/// ```
#[cfg(feature = "send_guard")]
type GuardMarker = lock_api::GuardSend;

/// Without the feature, a guard stays on its thread.
///
/// ```compile_fail,E0277
/// fn is_sent<T: Send>() {}
/// is_sent::<proved_lock::MutexGuard<'static, i32>>();
/// ```
#[cfg(not(feature = "send_guard"))]
type GuardMarker = lock_api::GuardNoSend;

/// With the feature, serde reads and writes the value of a lock.
///
/// ```
/// fn is_stored<'a, T: serde::Serialize + serde::Deserialize<'a>>() {}
/// is_stored::<proved_lock::Mutex<i32>>();
/// is_stored::<proved_lock::RwLock<i32>>();
/// ```
#[cfg(feature = "serde")]
const _: () = ();

/// With the feature, a guard is a stable address.
///
/// ```
/// fn is_stable<T: owning_ref::StableAddress>() {}
/// is_stable::<proved_lock::MutexGuard<'static, i32>>();
/// ```
#[cfg(feature = "owning_ref")]
const _: () = ();

pub use condvar::{Condvar, WaitTimeoutResult};
pub use lock_api;
#[cfg(feature = "arc_lock")]
pub use mutex::ArcMutexGuard;
pub use mutex::{const_mutex, MappedMutexGuard, Mutex, MutexGuard, RawMutex};
#[cfg(feature = "record")]
pub use recorded::{Recorded, RecordedMutex, RecordedRwLock};
#[cfg(all(feature = "arc_lock", feature = "std"))]
pub use remutex::ArcReentrantMutexGuard;
#[cfg(feature = "std")]
pub use remutex::{const_reentrant_mutex, MappedReentrantMutexGuard, RawThreadId, ReentrantMutex, ReentrantMutexGuard};
pub use rwlock::{
    const_rwlock, MappedRwLockReadGuard, MappedRwLockWriteGuard, RawRwLock, RwLock, RwLockReadGuard, RwLockUpgradableReadGuard,
    RwLockWriteGuard,
};
#[cfg(feature = "arc_lock")]
pub use rwlock::{ArcRwLockReadGuard, ArcRwLockUpgradableReadGuard, ArcRwLockWriteGuard};
