// SPDX-License-Identifier: MIT OR Apache-2.0
//! The condition variable.
use crate::driver::{has_none, rest_of_notify, wait, waits_of, Mode, Release, Timespec};
use crate::mutex::MutexGuard;
use crate::word::EventWord;
use core::fmt;
use core::sync::atomic::Ordering::SeqCst;
#[cfg(feature = "std")]
use std::time::{Duration, Instant};

/// Whether a wait of a [`Condvar`] ended because its time was over.
#[derive(Clone, Copy, PartialEq, Eq, Debug)]
pub struct WaitTimeoutResult(bool);

impl WaitTimeoutResult {
    /// Returns whether the time was over.
    #[must_use]
    #[inline]
    pub fn timed_out(self) -> bool {
        self.0
    }
}

/// A condition variable. A wait registers before it releases the mutex, so a notification that follows is not lost.
///
/// A wait may also end without a notification, so check the condition again. A mutex may use several condition variables,
/// and one condition variable several mutexes.
///
/// ```
/// use proved_lock::{Condvar, Mutex};
///
/// static READY: (Mutex<bool>, Condvar) = (proved_lock::const_mutex(false), Condvar::new());
/// std::thread::scope(|s| {
///     s.spawn(|| {
///         *READY.0.lock() = true;
///         READY.1.notify_one();
///     });
///     let mut ready = READY.0.lock();
///     while !*ready {
///         READY.1.wait(&mut ready);
///     }
/// });
/// ```
pub struct Condvar(EventWord);

impl Condvar {
    /// Makes a condition variable.
    #[must_use]
    #[inline]
    pub const fn new() -> Condvar {
        Condvar(EventWord::new(0))
    }

    /// Wakes one thread that waits. Returns whether some waited.
    #[inline]
    pub fn notify_one(&self) -> bool {
        self.notify(false) != 0
    }

    /// Wakes all threads that wait. Returns how many waited.
    #[inline]
    pub fn notify_all(&self) -> usize {
        self.notify(true) as usize
    }

    /// Waits for a notification, without an end. The mutex is released meanwhile.
    pub fn wait<T: ?Sized>(&self, guard: &mut MutexGuard<'_, T>) {
        self.wait_to(guard, None);
    }

    /// Waits for notifications while the condition answers true.
    pub fn wait_while<T: ?Sized, F: FnMut(&mut T) -> bool>(&self, guard: &mut MutexGuard<'_, T>, mut condition: F) {
        while condition(guard) {
            self.wait(guard);
        }
    }

    fn wait_to<T: ?Sized>(&self, guard: &mut MutexGuard<'_, T>, deadline: Option<&Timespec>) -> WaitTimeoutResult {
        // SAFETY: the wait acquires the mutex again before it ends, and nothing between can panic.
        let mutex = unsafe { &lock_api::MutexGuard::mutex(guard).raw().0 };
        // SAFETY: the guard holds the mutex.
        let unlock = || unsafe { mutex.release(Release::Exclusive) };
        WaitTimeoutResult(!wait(&self.0, unlock, || mutex.acquire(Mode::Exclusive), deadline))
    }

    /// Makes the first step of a notification inline, as the locks do. One of one has nobody to wake if all are claimed.
    #[inline]
    fn notify(&self, all: bool) -> u32 {
        let word = self.0.load(SeqCst);
        match has_none(word, all) {
            true => waits_of(word),
            false => rest_of_notify(&self.0, all, word),
        }
    }
}

#[cfg(feature = "std")]
impl Condvar {
    /// Waits for a notification until the deadline at most.
    pub fn wait_until<T: ?Sized>(&self, guard: &mut MutexGuard<'_, T>, deadline: Instant) -> WaitTimeoutResult {
        self.wait_to(guard, Timespec::at(deadline).as_ref())
    }

    /// Waits for a notification for this time at most.
    pub fn wait_for<T: ?Sized>(&self, guard: &mut MutexGuard<'_, T>, timeout: Duration) -> WaitTimeoutResult {
        let deadline = Instant::now().checked_add(timeout);
        self.wait_to(guard, deadline.and_then(Timespec::at).as_ref())
    }

    /// Waits for notifications while the condition answers true, until the deadline at most.
    pub fn wait_while_until<T: ?Sized, F: FnMut(&mut T) -> bool>(
        &self,
        guard: &mut MutexGuard<'_, T>,
        condition: F,
        deadline: Instant,
    ) -> WaitTimeoutResult {
        self.wait_while_to(guard, condition, Some(deadline))
    }

    /// Waits for notifications while the condition answers true, for this time at most.
    pub fn wait_while_for<T: ?Sized, F: FnMut(&mut T) -> bool>(
        &self,
        guard: &mut MutexGuard<'_, T>,
        condition: F,
        timeout: Duration,
    ) -> WaitTimeoutResult {
        self.wait_while_to(guard, condition, Instant::now().checked_add(timeout))
    }

    fn wait_while_to<T: ?Sized, F: FnMut(&mut T) -> bool>(
        &self,
        guard: &mut MutexGuard<'_, T>,
        mut condition: F,
        deadline: Option<Instant>,
    ) -> WaitTimeoutResult {
        let deadline = deadline.and_then(Timespec::at);
        let mut result = WaitTimeoutResult(false);
        while !result.timed_out() && condition(guard) {
            result = self.wait_to(guard, deadline.as_ref());
        }
        result
    }
}

impl Default for Condvar {
    #[inline]
    fn default() -> Condvar {
        Condvar::new()
    }
}

impl fmt::Debug for Condvar {
    fn fmt(&self, f: &mut fmt::Formatter<'_>) -> fmt::Result {
        f.pad("Condvar { .. }")
    }
}

/// Waits and notifications are those of the archive: the answers, the accesses and the words that they leave.
#[cfg(test)]
mod tests {
    extern crate std;
    use super::*;
    use crate::driver::{lock_c_next_event, lock_c_notify, lock_c_wait, Code, LockEventCall, PASSED};
    use crate::expected::{run, Numbers};
    use crate::mutex::Mutex;
    use crate::word::record;

    /// The deadline has passed, so each sleep ends at once.
    fn compare_wait(others: &[u64]) {
        let (it, mutex) = (Condvar::new(), Mutex::new(()));
        let mut guard = mutex.lock();
        let (answer, accesses) = record(&it.0, others, || it.wait_to(&mut guard, Some(&PASSED)).timed_out());
        core::mem::forget(guard); // a wait that is cut may have released the mutex
        let mut call = LockEventCall::default();
        let step = lock_c_wait(&mut call);
        let (end, expected, word) = run(others, true, step, |found| lock_c_next_event(&mut call, found));
        let found = (answer, accesses, it.0.load(SeqCst));
        assert_eq!(found, (end.map(|it| it == Code::Refused), expected, word), "{others:x?}");
    }

    fn compare_notification(others: &[u64], all: bool) {
        let it = Condvar::new();
        let (answer, accesses) = record(&it.0, others, || it.notify(all));
        let mut call = LockEventCall::default();
        let step = lock_c_notify(&mut call, all.into());
        let (end, expected, word) = run(others, false, step, |found| lock_c_next_event(&mut call, found));
        let found = (answer.map(u64::from), accesses, it.0.load(SeqCst));
        assert_eq!(found, (end.map(|_| call.loaded >> 40), expected, word), "{others:x?}, all: {all}");
    }

    fn compare_notifications(others: &[u64]) {
        [true, false].into_iter().for_each(|all| compare_notification(others, all));
    }

    /// Each number of a word is small, or about its greatest one.
    #[test]
    fn calls_are_those_of_the_archive() {
        let of_waits = |waits: u64| [0, 1, 2, 254, 255].map(|unclaimed: u64| waits << 40 | unclaimed << 32);
        let in_epochs = |word: u64| [0, 1, u32::MAX - 2, u32::MAX - 1, u32::MAX].map(|epoch| word | u64::from(epoch));
        let listed = [0, 1, 2, 254, 255, 256, 0xff_fffe, 0xff_ffff].into_iter().flat_map(of_waits).flat_map(in_epochs);
        let mut numbers = Numbers::new(listed);
        numbers.each(true, 20_000, compare_wait);
        numbers.each(true, 20_000, compare_notifications);
    }

    /// A notification may end inline, by what one word says.
    #[test]
    fn notifications_are_those_of_the_archive_on_any_two_bits() {
        for high in 0..64 {
            (0..=high).for_each(|low| compare_notifications(&[1 << high | 1 << low]));
        }
    }

    /// A notification that has lost a thousand exchanges makes another step.
    #[test]
    fn calls_that_lose_are_those_of_the_archive() {
        let epochs: std::vec::Vec<u64> = (0..1064).map(|epoch| 3 << 40 | 2 << 32 | epoch).collect();
        for lost in 998..epochs.len() {
            compare_wait(&epochs[..lost]);
            compare_notifications(&epochs[..lost]);
        }
    }
}
