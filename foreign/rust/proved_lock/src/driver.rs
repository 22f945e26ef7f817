// SPDX-License-Identifier: MIT OR Apache-2.0
//! Makes the steps that `liblock_c.a` returns. This file and the kernel are trusted: nothing here decides which step is next.
use crate::word::{EventWord, Word};
use core::ffi::{c_int, c_long};
use core::hint::spin_loop;
use core::ptr;
use core::sync::atomic::Ordering::SeqCst;
#[cfg(feature = "std")]
use std::time::{Duration, Instant};

/// What an acquisition acquires.
#[derive(Clone, Copy, PartialEq, Eq, Debug)]
#[repr(u32)]
pub(crate) enum Mode {
    Shared = 0,
    Exclusive = 1,
    Upgradable = 2,
    Upgrade = 3,
}

/// What a release releases or changes.
#[derive(Clone, Copy, Debug)]
#[repr(u32)]
pub(crate) enum Release {
    Shared = 0,
    Exclusive = 1,
    Upgradable = 2,
    ToShared = 3,
    ToUpgradable = 4,
    UpgradableToShared = 5,
}

#[repr(C)]
#[derive(Default)]
pub(crate) struct LockCall {
    readers: u64,
    loaded: u64,
    left: u64,
    stage: u32,
    want: u32,
    down: u32,
    pauses: u32,
    blocks: u8,
    announces: u8,
    announced: u8,
    late: u8,
    sleeps: u8,
    turned: u8,
}

#[repr(C)]
#[derive(Default)]
pub(crate) struct LockEventCall {
    pub(crate) loaded: u64,
    epoch: u64,
    stage: u32,
    lost: u32,
    all: u8,
    late: u8,
}

/// What a step does. The archive of this version returns no other number.
#[derive(Clone, Copy, PartialEq, Eq, Debug)]
#[repr(u32)]
#[allow(dead_code)] // the archive makes them
pub(crate) enum Code {
    Load,
    Exchange,
    Subtract,
    Or,
    Sleep,
    SleepNext,
    WakeOne,
    WakeAll,
    WakeNext,
    Spin,
    Yield,
    Refused,
    Done,
    Unlock,
    Lock,
    SleepReader,
    WakeTurn,
}

/// The next step on the word of a lock.
#[repr(C)]
#[derive(Debug)]
pub(crate) struct LockStep {
    pub(crate) action: Code,
    pub(crate) place: u32,
    pub(crate) first: u32,
    pub(crate) second: u32,
}

impl LockStep {
    fn ends(&self) -> bool {
        matches!(self.action, Code::Refused | Code::Done)
    }
}

/// The next step on the word of a condition variable. The archive has an action of 64 bits, whose high half is 0.
#[repr(C)]
#[derive(Debug)]
pub(crate) struct LockEventStep {
    pub(crate) action: Code,
    _high_half: u32,
    pub(crate) first: u64,
    pub(crate) second: u64,
}

impl LockEventStep {
    fn ends(&self) -> bool {
        matches!(self.action, Code::Refused | Code::Done)
    }
}

/// The symbol of this name in the archive. It has the archive's version: another one does not link.
macro_rules! symbol {
    ($name:literal) => {
        concat!("lock_c_", 4, "_", $name)
    };
}

// No function of the archive has a precondition: each is safe with any arguments.
unsafe extern "C" {
    #[link_name = symbol!("acquire")]
    pub(crate) safe fn lock_c_acquire(call: &mut LockCall, readers: u32, want: u32, blocks: u8, announces: u8) -> LockStep;
    #[link_name = symbol!("release")]
    pub(crate) safe fn lock_c_release(call: &mut LockCall, readers: u32, down: u32) -> LockStep;
    #[link_name = symbol!("next")]
    pub(crate) safe fn lock_c_next(call: &mut LockCall, found: u32) -> LockStep;
    #[link_name = symbol!("wait")]
    pub(crate) safe fn lock_c_wait(call: &mut LockEventCall) -> LockEventStep;
    #[link_name = symbol!("notify")]
    pub(crate) safe fn lock_c_notify(call: &mut LockEventCall, all: u8) -> LockEventStep;
    #[link_name = symbol!("next_event")]
    pub(crate) safe fn lock_c_next_event(call: &mut LockEventCall, found: u64) -> LockEventStep;
}

/// The number of futex among the system calls, from the kernel's tables: that of x86-64, or that of aarch64.
const SYS_FUTEX: c_long = if cfg!(target_arch = "x86_64") { 202 } else { 98 };
const WAIT_BITSET_PRIVATE: c_int = 128 + 9;
const WAKE_BITSET_PRIVATE: c_int = 128 + 10;
/// The bit set of a sleep that a bar keeps out, that of one that may pass it, and that of a reader.
const PLAIN: u32 = 1;
const NEXT: u32 = 2;
const READER: u32 = 4;
const TURN: u32 = NEXT | READER;
const ANY: u32 = u32::MAX;
/// A wake-up of all.
const ALL: u32 = i32::MAX as u32;
const ETIMEDOUT: c_int = 110;
/// The answers to a sleep after its deadline, and after the time of a brief sleep, which lasts so many nanoseconds.
pub(crate) const IS_LATE: u32 = 32;
const IS_OVER: u32 = 64;
const BRIEF: i64 = 500_000;
const SECOND: i64 = 1_000_000_000;
const CLOCK_MONOTONIC: c_int = 1;

unsafe extern "C" {
    fn syscall(number: c_long, ...) -> c_long;
    safe fn __errno_location() -> *mut c_int;
    safe fn sched_yield() -> c_int;
    safe fn clock_gettime(clock: c_int, time: &mut Timespec) -> c_int;
}

/// Seconds and nanoseconds of the clock that does not go back.
#[repr(C)]
#[derive(Debug, PartialEq, PartialOrd)]
pub(crate) struct Timespec(i64, i64);

/// A deadline that has passed.
#[cfg(test)]
pub(crate) const PASSED: Timespec = Timespec(0, 0);

impl Timespec {
    fn now() -> Timespec {
        let mut now = Timespec(0, 0);
        clock_gettime(CLOCK_MONOTONIC, &mut now);
        now
    }

    /// The end of a brief sleep that begins now.
    fn after_brief_sleep() -> Timespec {
        let Timespec(seconds, nanoseconds) = Timespec::now();
        let end = nanoseconds + BRIEF;
        Timespec(seconds + end / SECOND, end % SECOND)
    }

    fn has_passed(&self) -> bool {
        Timespec::now() >= *self
    }

    /// The kernel's time at this deadline, or later. There is none if it is too far away.
    #[cfg(feature = "std")]
    pub(crate) fn at(deadline: Instant) -> Option<Timespec> {
        let left = deadline.saturating_duration_since(Instant::now());
        let now = Timespec::now();
        let end = Duration::new(u64::try_from(now.0).ok()?, u32::try_from(now.1).ok()?).checked_add(left)?;
        Some(Timespec(i64::try_from(end.as_secs()).ok()?, end.subsec_nanos().into()))
    }
}

/// Calls futex at this address. Returns whether a deadline ended the call. It leaves errno as it was.
fn futex(word: *mut u32, operation: c_int, number: u32, deadline: Option<&Timespec>, bits: u32) -> bool {
    #[cfg(test)]
    if crate::word::is_recording() {
        return recorded::futex(word, operation, number, bits);
    }
    let end = deadline.map_or(ptr::null(), ptr::from_ref);
    let errno = __errno_location();
    // SAFETY: errno is this thread's. The word lives while the call sleeps, and a wake-up reads nothing at the address.
    unsafe {
        let saved = *errno;
        let answer = syscall(SYS_FUTEX, word, operation, number, end, ptr::null::<u32>(), bits);
        let is_late = answer == -1 && *errno == ETIMEDOUT;
        *errno = saved;
        is_late
    }
}

/// Sleeps while the word is the number. Returns the answer to the step.
fn sleep_on(word: *mut u32, number: u32, is_brief: bool, bits: u32, deadline: Option<&Timespec>) -> u32 {
    let brief = is_brief.then(Timespec::after_brief_sleep).filter(|end| deadline.is_none_or(|it| end < it));
    let answer = if brief.is_some() { IS_OVER } else { IS_LATE };
    let is_over = futex(word, WAIT_BITSET_PRIVATE, number, brief.as_ref().or(deadline), bits);
    if is_over {
        answer
    } else {
        0
    }
}

/// Wakes at most so many threads that sleep in one of these bit sets. The word may be gone: its address alone is used.
fn wake(word: *mut u32, threads: u32, bits: u32) {
    futex(word, WAKE_BITSET_PRIVATE, threads, None, bits);
}

/// Makes a step that does not access the word at this address, and returns its answer.
fn make_other(word: *mut u32, action: Code, number: u32, is_brief: bool, deadline: Option<&Timespec>) -> u32 {
    match action {
        Code::Sleep => return sleep_on(word, number, is_brief, PLAIN, deadline),
        Code::SleepNext => return sleep_on(word, number, is_brief, NEXT, deadline),
        Code::SleepReader => return sleep_on(word, number, is_brief, READER, deadline),
        Code::WakeOne => wake(word, 1, ANY),
        Code::WakeAll => wake(word, ALL, ANY),
        Code::WakeNext => wake(word, ALL, NEXT),
        Code::WakeTurn => wake(word, ALL, TURN),
        Code::Spin => (0..1u64 << (number % 32)).for_each(|_| spin_loop()),
        Code::Yield => {
            sched_yield();
            return if deadline.is_some_and(Timespec::has_passed) { IS_LATE } else { 0 };
        }
        _ => {}
    }
    0
}

/// Makes a step on the word of a lock, and returns its answer.
fn make(word: &Word, step: &LockStep, deadline: Option<&Timespec>) -> u32 {
    match step.action {
        Code::Load => word.load(SeqCst),
        Code::Exchange => match word.compare_exchange(step.first, step.second, SeqCst, SeqCst) {
            Ok(found) | Err(found) => found,
        },
        Code::Subtract => word.fetch_sub(step.first, SeqCst),
        other => make_other(word.as_ptr(), other, step.first, step.second != 0, deadline),
    }
}

/// Makes the steps of a call on a lock, after those that are made already and have these answers. Returns how the call ended.
pub(crate) fn drive(word: &Word, call: &mut LockCall, first: LockStep, made: &[u32], deadline: Option<&Timespec>) -> bool {
    let mut step = made.iter().fold(first, |_, &answer| lock_c_next(call, answer));
    while !step.ends() {
        step = lock_c_next(call, make(word, &step, deadline));
    }
    step.action == Code::Done
}

/// Makes the rest of an acquisition, whose first steps found a word that refused. Without a deadline it blocks without an end.
#[cold]
pub(crate) fn rest_of_acquire(word: &Word, readers: u32, mode: Mode, refused: u32, deadline: Option<&Timespec>) -> bool {
    let mut call = LockCall::default();
    let step = lock_c_acquire(&mut call, readers, mode as u32, 1, (mode == Mode::Exclusive).into());
    drive(word, &mut call, step, &[refused], deadline)
}

/// Makes the rest of a try of a reader, whose first steps found that it is the turn of readers.
#[cold]
pub(crate) fn rest_of_try(word: &Word, readers: u32, found: u32) -> bool {
    let mut call = LockCall::default();
    let step = lock_c_acquire(&mut call, readers, Mode::Shared as u32, 0, 0);
    drive(word, &mut call, step, &[found], None)
}

/// Makes the rest of a release, whose first steps have these answers.
#[cold]
pub(crate) fn rest_of_release(word: &Word, readers: u32, release: Release, made: &[u32]) {
    let mut call = LockCall::default();
    let step = lock_c_release(&mut call, readers, release as u32);
    drive(word, &mut call, step, made, None);
}

/// How many threads wait, of the word of a condition variable.
pub(crate) fn waits_of(word: u64) -> u32 {
    (word >> 40) as u32
}

/// Whether a notification has nobody to wake: one of one has none if each thread that waits is claimed.
pub(crate) fn has_none(word: u64, all: bool) -> bool {
    waits_of(word) == 0 || !all && word >> 32 & 255 == 0
}

/// Makes a step on the word of a condition variable, and returns its answer. Threads sleep on the low half, the epoch.
fn make_event(word: &EventWord, step: &LockEventStep, deadline: Option<&Timespec>) -> u64 {
    match step.action {
        Code::Load => word.load(SeqCst),
        Code::Exchange => match word.compare_exchange(step.first, step.second, SeqCst, SeqCst) {
            Ok(found) | Err(found) => found,
        },
        Code::Subtract => word.fetch_sub(step.first, SeqCst),
        Code::Or => word.fetch_or(step.first, SeqCst),
        other => make_other(word.as_ptr().cast(), other, step.first as u32, false, deadline).into(),
    }
}

/// Waits on the condition variable with this word. Returns whether the wait ended before its deadline.
pub(crate) fn wait(word: &EventWord, unlock: impl Fn(), lock: impl Fn(), deadline: Option<&Timespec>) -> bool {
    let mut call = LockEventCall::default();
    let mut step = lock_c_wait(&mut call);
    while !step.ends() {
        match step.action {
            Code::Unlock => unlock(),
            Code::Lock => lock(),
            _ => {}
        }
        step = lock_c_next_event(&mut call, make_event(word, &step, deadline));
    }
    step.action == Code::Done
}

/// Makes the rest of a notification, after its load of the word. Returns how many waited.
#[cold]
pub(crate) fn rest_of_notify(word: &EventWord, all: bool, loaded: u64) -> u32 {
    let mut call = LockEventCall::default();
    lock_c_notify(&mut call, all.into());
    let mut step = lock_c_next_event(&mut call, loaded);
    while !step.ends() {
        step = lock_c_next_event(&mut call, make_event(word, &step, None));
    }
    waits_of(call.loaded)
}

/// Calls of futex in a record: no sleep lasts, since its word is another one, or its deadline has passed.
#[cfg(test)]
mod recorded {
    use super::*;
    use crate::word::note;

    /// Whether a deadline ended the call.
    pub(super) fn futex(word: *mut u32, operation: c_int, number: u32, bits: u32) -> bool {
        let (code, first) = match (operation, number, bits) {
            (WAIT_BITSET_PRIVATE, _, PLAIN) => (Code::Sleep, number),
            (WAIT_BITSET_PRIVATE, _, NEXT) => (Code::SleepNext, number),
            (WAIT_BITSET_PRIVATE, _, READER) => (Code::SleepReader, number),
            (WAKE_BITSET_PRIVATE, 1, ANY) => (Code::WakeOne, 0),
            (WAKE_BITSET_PRIVATE, ALL, ANY) => (Code::WakeAll, 0),
            (WAKE_BITSET_PRIVATE, ALL, NEXT) => (Code::WakeNext, 0),
            (WAKE_BITSET_PRIVATE, ALL, TURN) => (Code::WakeTurn, 0),
            call => panic!("no step makes the call {call:?}"),
        };
        note(word, code, first.into(), 0);
        // SAFETY: a word lives while a thread sleeps, and in a record no other thread has it.
        operation == WAIT_BITSET_PRIVATE && unsafe { *word } == number
    }
}

#[cfg(all(test, feature = "std"))]
mod tests {
    use super::*;
    use std::thread::sleep;

    const SHORT: Duration = Duration::from_millis(20);

    fn word(count: u64, epoch: u32) -> EventWord {
        EventWord::new(count << 40 | u64::from(epoch))
    }

    /// A notification before the deadline ends a wait in time, even if the thread runs again only after the deadline.
    #[test]
    fn a_wait_that_is_notified_in_time_has_not_timed_out() {
        let word = word(0, 0);
        let notify_and_be_late = || {
            assert_eq!(rest_of_notify(&word, false, word.load(SeqCst)), 1);
            sleep(2 * SHORT);
        };
        let deadline = Timespec::at(Instant::now() + SHORT);
        assert!(wait(&word, notify_and_be_late, || (), deadline.as_ref()));
        assert!(!wait(&word, || sleep(2 * SHORT), || (), Timespec::at(Instant::now() + SHORT).as_ref()));
    }

    /// In the last epoch, and where the count is full, a wait yields instead of sleeping, and sees its deadline.
    #[test]
    fn a_wait_without_room_times_out() {
        for word in [word(1, u32::MAX), word((1 << 24) - 1, 0)] {
            for (left, is_in_time) in [(Duration::ZERO, false), (Duration::from_secs(60), true)] {
                let deadline = Timespec::at(Instant::now() + left);
                assert_eq!(wait(&word, || (), || (), deadline.as_ref()), is_in_time, "{left:?}");
            }
        }
    }

    /// A sleep that a deadline ends leaves errno as it was.
    #[test]
    fn errno_stays() {
        let (held, errno) = (crate::first::EXCLUSIVE, __errno_location());
        // SAFETY: errno is this thread's.
        unsafe { *errno = 7 };
        assert!(!rest_of_acquire(&Word::new(held), 1, Mode::Exclusive, held, Some(&PASSED)));
        // SAFETY: likewise.
        assert_eq!(unsafe { *errno }, 7);
    }

    /// The kernel's time at a deadline is not before it, and a deadline that has passed is one still.
    #[test]
    fn a_sleep_ends_at_its_deadline() {
        for left in [Duration::ZERO, SHORT] {
            let deadline = Instant::now() + left;
            assert!(!wait(&word(0, 0), || (), || (), Timespec::at(deadline).as_ref()));
            assert!(Instant::now() >= deadline);
        }
        assert!(Timespec::at(Instant::now() + Duration::from_secs(1 << 40)).is_some());
    }
}
