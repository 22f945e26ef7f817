// SPDX-License-Identifier: MIT OR Apache-2.0
//! A raw lock that tells the recorder of deadlocks what is done with it.
use core::ffi::{c_char, c_int, c_void, CStr};
use core::mem::transmute;
use core::ptr::null_mut;
use core::sync::atomic::{AtomicPtr, Ordering::Relaxed};
use lock_api::{
    RawMutex, RawMutexFair, RawMutexTimed, RawRwLock, RawRwLockDowngrade, RawRwLockFair, RawRwLockRecursive,
    RawRwLockRecursiveTimed, RawRwLockTimed, RawRwLockUpgrade, RawRwLockUpgradeDowngrade, RawRwLockUpgradeFair,
    RawRwLockUpgradeTimed,
};

extern "C" {
    fn dlsym(handle: *mut c_void, name: *const c_char) -> *mut c_void;
}

const RTLD_DEFAULT: *mut c_void = null_mut();

/// A function of the recorder, by its name. It is looked up at the first call, and is null in a program that is not recorded.
struct Hook(AtomicPtr<c_void>, &'static CStr);

/// The address of a function that was not looked up yet.
const UNKNOWN: *mut c_void = null_mut::<c_void>().wrapping_byte_add(1);

static ACQUIRE: Hook = Hook::new(c"lockrecord_acquire");
static ACQUIRED: Hook = Hook::new(c"lockrecord_acquired");
static REFUSED: Hook = Hook::new(c"lockrecord_refused");
static RELEASE: Hook = Hook::new(c"lockrecord_release");
static CHANGE: Hook = Hook::new(c"lockrecord_change");
static DESTROY: Hook = Hook::new(c"lockrecord_destroy");

impl Hook {
    const fn new(name: &'static CStr) -> Self {
        Hook(AtomicPtr::new(UNKNOWN), name)
    }

    #[cold]
    fn find(&self) -> *mut c_void {
        // SAFETY: the name ends by a zero.
        let found = unsafe { dlsym(RTLD_DEFAULT, self.1.as_ptr()) };
        self.0.store(found, Relaxed);
        found
    }

    /// The function's address, or null.
    #[inline(always)]
    fn get(&self) -> *mut c_void {
        match self.0.load(Relaxed) {
            UNKNOWN => self.find(),
            found => found,
        }
    }
}

// The numbers of lockrecord.h.
const MUTEX: c_int = 0;
const SHARED: c_int = 1;
const EXCLUSIVE: c_int = 2;
const UPGRADABLE: c_int = 3;
const UPGRADE: c_int = 4;
const TRY: c_int = 8;
const AGAIN: c_int = 16;
/// Without optimization the calls of `lock_api` are not inlined: then only the stack tells the place.
const HOW: c_int = if cfg!(debug_assertions) { 32 } else { 0 };

/// A raw lock over another one that `bin/lockrecord` sees. In a program that is not recorded, an acquisition
/// makes two loads more, and a release one.
///
/// A waiting writer is taken to keep new readers out.
///
/// ```
/// type Mutex<T> = lock_api::Mutex<proved_lock::Recorded<parking_lot::RawMutex>, T>;
///
/// static COUNTER: Mutex<u32> = Mutex::new(0);
/// *COUNTER.lock() += 1;
/// assert_eq!(*COUNTER.lock(), 1);
/// ```
#[derive(Debug)]
pub struct Recorded<R>(R);

/// A [`Mutex`](crate::Mutex) that is recorded.
pub type RecordedMutex<T> = lock_api::Mutex<Recorded<crate::RawMutex>, T>;

/// An [`RwLock`](crate::RwLock) that is recorded.
pub type RecordedRwLock<T> = lock_api::RwLock<Recorded<crate::RawRwLock>, T>;

impl<R> Recorded<R> {
    /// Calls a function of the recorder, if there is one. It is inlined, since the address of the call tells the place.
    #[inline(always)]
    fn tell(&self, hook: &Hook, mode: c_int) {
        let hook = hook.get();
        if !hook.is_null() {
            // SAFETY: the hooks but DESTROY have this type, and only look at the address.
            unsafe { transmute::<*mut c_void, unsafe extern "C" fn(*const Self, c_int)>(hook)(self, mode | HOW) };
        }
    }

    #[inline(always)]
    fn waits(&self, mode: c_int, acquire: impl FnOnce(&R)) {
        self.tell(&ACQUIRE, mode);
        acquire(&self.0);
        self.tell(&ACQUIRED, mode);
    }

    #[inline(always)]
    fn tries(&self, mode: c_int, acquire: impl FnOnce(&R) -> bool) -> bool {
        let is_admitted = acquire(&self.0);
        self.tell(if is_admitted { &ACQUIRED } else { &REFUSED }, mode | TRY);
        is_admitted
    }

    /// A release, or with `CHANGE` a downgrade.
    #[inline(always)]
    fn gives(&self, hook: &Hook, mode: c_int, release: impl FnOnce(&R)) {
        self.tell(hook, mode);
        release(&self.0);
    }

    /// A release and an acquisition that may wait.
    #[inline(always)]
    fn bumps(&self, mode: c_int, bump: impl FnOnce(&R)) {
        self.tell(&RELEASE, mode);
        self.waits(mode, bump);
    }
}

impl<R> Drop for Recorded<R> {
    #[inline(always)]
    fn drop(&mut self) {
        let hook = DESTROY.get();
        if !hook.is_null() {
            // SAFETY: DESTROY has this type, and only looks at the address.
            unsafe { transmute::<*mut c_void, unsafe extern "C" fn(*const Self)>(hook)(self) };
        }
    }
}

// SAFETY: the lock is the one below, and the caller's promise is that of the call.
unsafe impl<R: RawMutex> RawMutex for Recorded<R> {
    #[allow(clippy::declare_interior_mutable_const)]
    const INIT: Self = Recorded(R::INIT);
    type GuardMarker = R::GuardMarker;

    #[inline(always)]
    fn lock(&self) {
        self.waits(MUTEX, R::lock);
    }

    #[inline(always)]
    fn try_lock(&self) -> bool {
        self.tries(MUTEX, R::try_lock)
    }

    #[inline(always)]
    unsafe fn unlock(&self) {
        // SAFETY: the caller's promise is that of the call below.
        self.gives(&RELEASE, MUTEX, |it| unsafe { it.unlock() });
    }

    #[inline]
    fn is_locked(&self) -> bool {
        self.0.is_locked()
    }
}

// SAFETY: the lock is the one below, and the caller's promise is that of the call.
unsafe impl<R: RawMutexFair> RawMutexFair for Recorded<R> {
    #[inline(always)]
    unsafe fn unlock_fair(&self) {
        // SAFETY: the caller's promise is that of the call below.
        self.gives(&RELEASE, MUTEX, |it| unsafe { it.unlock_fair() });
    }

    #[inline(always)]
    unsafe fn bump(&self) {
        // SAFETY: the caller's promise is that of the call below.
        self.bumps(MUTEX, |it| unsafe { it.bump() });
    }
}

// SAFETY: the lock is the one below, and the caller's promise is that of the call.
unsafe impl<R: RawMutexTimed> RawMutexTimed for Recorded<R> {
    type Duration = R::Duration;
    type Instant = R::Instant;

    #[inline(always)]
    fn try_lock_for(&self, timeout: Self::Duration) -> bool {
        self.tries(MUTEX, |it| it.try_lock_for(timeout))
    }

    #[inline(always)]
    fn try_lock_until(&self, deadline: Self::Instant) -> bool {
        self.tries(MUTEX, |it| it.try_lock_until(deadline))
    }
}

// SAFETY: the lock is the one below, and the caller's promise is that of the call.
unsafe impl<R: RawRwLock> RawRwLock for Recorded<R> {
    #[allow(clippy::declare_interior_mutable_const)]
    const INIT: Self = Recorded(R::INIT);
    type GuardMarker = R::GuardMarker;

    #[inline(always)]
    fn lock_shared(&self) {
        self.waits(SHARED, R::lock_shared);
    }

    #[inline(always)]
    fn try_lock_shared(&self) -> bool {
        self.tries(SHARED, R::try_lock_shared)
    }

    #[inline(always)]
    unsafe fn unlock_shared(&self) {
        // SAFETY: the caller's promise is that of the call below.
        self.gives(&RELEASE, SHARED, |it| unsafe { it.unlock_shared() });
    }

    #[inline(always)]
    fn lock_exclusive(&self) {
        self.waits(EXCLUSIVE, R::lock_exclusive);
    }

    #[inline(always)]
    fn try_lock_exclusive(&self) -> bool {
        self.tries(EXCLUSIVE, R::try_lock_exclusive)
    }

    #[inline(always)]
    unsafe fn unlock_exclusive(&self) {
        // SAFETY: the caller's promise is that of the call below.
        self.gives(&RELEASE, EXCLUSIVE, |it| unsafe { it.unlock_exclusive() });
    }

    #[inline]
    fn is_locked(&self) -> bool {
        self.0.is_locked()
    }

    #[inline]
    fn is_locked_exclusive(&self) -> bool {
        self.0.is_locked_exclusive()
    }
}

// SAFETY: the lock is the one below, and the caller's promise is that of the call.
unsafe impl<R: RawRwLockFair> RawRwLockFair for Recorded<R> {
    #[inline(always)]
    unsafe fn unlock_shared_fair(&self) {
        // SAFETY: the caller's promise is that of the call below.
        self.gives(&RELEASE, SHARED, |it| unsafe { it.unlock_shared_fair() });
    }

    #[inline(always)]
    unsafe fn unlock_exclusive_fair(&self) {
        // SAFETY: the caller's promise is that of the call below.
        self.gives(&RELEASE, EXCLUSIVE, |it| unsafe { it.unlock_exclusive_fair() });
    }

    #[inline(always)]
    unsafe fn bump_shared(&self) {
        // SAFETY: the caller's promise is that of the call below.
        self.bumps(SHARED, |it| unsafe { it.bump_shared() });
    }

    #[inline(always)]
    unsafe fn bump_exclusive(&self) {
        // SAFETY: the caller's promise is that of the call below.
        self.bumps(EXCLUSIVE, |it| unsafe { it.bump_exclusive() });
    }
}

// SAFETY: the lock is the one below, and the caller's promise is that of the call.
unsafe impl<R: RawRwLockTimed> RawRwLockTimed for Recorded<R> {
    type Duration = R::Duration;
    type Instant = R::Instant;

    #[inline(always)]
    fn try_lock_shared_for(&self, timeout: Self::Duration) -> bool {
        self.tries(SHARED, |it| it.try_lock_shared_for(timeout))
    }

    #[inline(always)]
    fn try_lock_shared_until(&self, deadline: Self::Instant) -> bool {
        self.tries(SHARED, |it| it.try_lock_shared_until(deadline))
    }

    #[inline(always)]
    fn try_lock_exclusive_for(&self, timeout: Self::Duration) -> bool {
        self.tries(EXCLUSIVE, |it| it.try_lock_exclusive_for(timeout))
    }

    #[inline(always)]
    fn try_lock_exclusive_until(&self, deadline: Self::Instant) -> bool {
        self.tries(EXCLUSIVE, |it| it.try_lock_exclusive_until(deadline))
    }
}

// SAFETY: the lock is the one below, and the caller's promise is that of the call.
unsafe impl<R: RawRwLockRecursive> RawRwLockRecursive for Recorded<R> {
    #[inline(always)]
    fn lock_shared_recursive(&self) {
        self.waits(SHARED | AGAIN, R::lock_shared_recursive);
    }

    #[inline(always)]
    fn try_lock_shared_recursive(&self) -> bool {
        self.tries(SHARED, R::try_lock_shared_recursive)
    }
}

// SAFETY: the lock is the one below, and the caller's promise is that of the call.
unsafe impl<R: RawRwLockRecursiveTimed> RawRwLockRecursiveTimed for Recorded<R> {
    #[inline(always)]
    fn try_lock_shared_recursive_for(&self, timeout: Self::Duration) -> bool {
        self.tries(SHARED, |it| it.try_lock_shared_recursive_for(timeout))
    }

    #[inline(always)]
    fn try_lock_shared_recursive_until(&self, deadline: Self::Instant) -> bool {
        self.tries(SHARED, |it| it.try_lock_shared_recursive_until(deadline))
    }
}

// SAFETY: the lock is the one below, and the caller's promise is that of the call.
unsafe impl<R: RawRwLockDowngrade> RawRwLockDowngrade for Recorded<R> {
    #[inline(always)]
    unsafe fn downgrade(&self) {
        // SAFETY: the caller's promise is that of the call below.
        self.gives(&CHANGE, SHARED, |it| unsafe { it.downgrade() });
    }
}

// SAFETY: the lock is the one below, and the caller's promise is that of the call.
unsafe impl<R: RawRwLockUpgrade> RawRwLockUpgrade for Recorded<R> {
    #[inline(always)]
    fn lock_upgradable(&self) {
        self.waits(UPGRADABLE, R::lock_upgradable);
    }

    #[inline(always)]
    fn try_lock_upgradable(&self) -> bool {
        self.tries(UPGRADABLE, R::try_lock_upgradable)
    }

    #[inline(always)]
    unsafe fn unlock_upgradable(&self) {
        // SAFETY: the caller's promise is that of the call below.
        self.gives(&RELEASE, UPGRADABLE, |it| unsafe { it.unlock_upgradable() });
    }

    #[inline(always)]
    unsafe fn upgrade(&self) {
        // SAFETY: the caller's promise is that of the call below.
        self.waits(UPGRADE, |it| unsafe { it.upgrade() });
    }

    #[inline(always)]
    unsafe fn try_upgrade(&self) -> bool {
        // SAFETY: the caller's promise is that of the call below.
        self.tries(UPGRADE, |it| unsafe { it.try_upgrade() })
    }
}

// SAFETY: the lock is the one below, and the caller's promise is that of the call.
unsafe impl<R: RawRwLockUpgradeFair> RawRwLockUpgradeFair for Recorded<R> {
    #[inline(always)]
    unsafe fn unlock_upgradable_fair(&self) {
        // SAFETY: the caller's promise is that of the call below.
        self.gives(&RELEASE, UPGRADABLE, |it| unsafe { it.unlock_upgradable_fair() });
    }

    #[inline(always)]
    unsafe fn bump_upgradable(&self) {
        // SAFETY: the caller's promise is that of the call below.
        self.bumps(UPGRADABLE, |it| unsafe { it.bump_upgradable() });
    }
}

// SAFETY: the lock is the one below, and the caller's promise is that of the call.
unsafe impl<R: RawRwLockUpgradeDowngrade> RawRwLockUpgradeDowngrade for Recorded<R> {
    #[inline(always)]
    unsafe fn downgrade_upgradable(&self) {
        // SAFETY: the caller's promise is that of the call below.
        self.gives(&CHANGE, SHARED, |it| unsafe { it.downgrade_upgradable() });
    }

    #[inline(always)]
    unsafe fn downgrade_to_upgradable(&self) {
        // SAFETY: the caller's promise is that of the call below.
        self.gives(&CHANGE, UPGRADABLE, |it| unsafe { it.downgrade_to_upgradable() });
    }
}

// SAFETY: the lock is the one below, and the caller's promise is that of the call.
unsafe impl<R: RawRwLockUpgradeTimed> RawRwLockUpgradeTimed for Recorded<R> {
    #[inline(always)]
    fn try_lock_upgradable_for(&self, timeout: Self::Duration) -> bool {
        self.tries(UPGRADABLE, |it| it.try_lock_upgradable_for(timeout))
    }

    #[inline(always)]
    fn try_lock_upgradable_until(&self, deadline: Self::Instant) -> bool {
        self.tries(UPGRADABLE, |it| it.try_lock_upgradable_until(deadline))
    }

    #[inline(always)]
    unsafe fn try_upgrade_for(&self, timeout: Self::Duration) -> bool {
        // SAFETY: the caller's promise is that of the call below.
        self.tries(UPGRADE, |it| unsafe { it.try_upgrade_for(timeout) })
    }

    #[inline(always)]
    unsafe fn try_upgrade_until(&self, deadline: Self::Instant) -> bool {
        // SAFETY: the caller's promise is that of the call below.
        self.tries(UPGRADE, |it| unsafe { it.try_upgrade_until(deadline) })
    }
}
