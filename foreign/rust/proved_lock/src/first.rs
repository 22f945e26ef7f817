// SPDX-License-Identifier: MIT OR Apache-2.0
//! The first steps of uncontended calls, inline. The tests compare them with the archive.
use crate::driver::{rest_of_acquire, rest_of_release, rest_of_try, Mode, Release};
use crate::word::Word;
use core::sync::atomic::Ordering::SeqCst;
#[cfg(feature = "std")]
use {crate::driver::Timespec, std::time::Instant};

// The five low bits of a word are flags. The number of readers follows, and an upgradable hold counts as one.
const UPGRADABLE: u32 = 1;
pub(crate) const EXCLUSIVE: u32 = 2;
const BAR: u32 = 4;
const TURN: u32 = 8;
const SLEEPERS: u32 = 16;
const ONE_READER: u32 = 32;
const ONE_UPGRADABLE: u32 = ONE_READER + UPGRADABLE;

/// The greatest limit of readers: a word has 27 bits for them.
pub(crate) const MAX_READERS: u32 = u32::MAX / ONE_READER;

impl Mode {
    /// Whether the word admits this mode, for at most this many readers.
    #[inline]
    fn is_admitted(self, word: u32, readers: u32) -> bool {
        match self {
            Mode::Shared => word & (EXCLUSIVE | BAR | TURN) == 0 && word / ONE_READER < readers,
            Mode::Exclusive => word & !SLEEPERS == 0,
            Mode::Upgradable => word & (UPGRADABLE | EXCLUSIVE | BAR | TURN) == 0 && word / ONE_READER < readers,
            Mode::Upgrade => word & !(SLEEPERS | TURN | BAR) == ONE_UPGRADABLE,
        }
    }

    /// The word after this mode was acquired on an admitted word.
    #[inline]
    fn word_after(self, word: u32) -> u32 {
        match self {
            Mode::Shared => word + ONE_READER,
            Mode::Exclusive => word + EXCLUSIVE,
            Mode::Upgradable => word + ONE_UPGRADABLE,
            Mode::Upgrade => word - ONE_UPGRADABLE + EXCLUSIVE,
        }
    }
}

impl Release {
    /// The word of a holder that is alone, and the word that its release leaves.
    #[inline]
    fn of_lone_holder(self) -> (u32, u32) {
        match self {
            Release::Shared => (ONE_READER, 0),
            Release::Exclusive => (EXCLUSIVE, 0),
            Release::Upgradable => (ONE_UPGRADABLE, 0),
            Release::ToShared => (EXCLUSIVE, ONE_READER),
            Release::ToUpgradable => (EXCLUSIVE, ONE_UPGRADABLE),
            Release::UpgradableToShared => (ONE_UPGRADABLE, ONE_READER),
        }
    }
}

/// A lock of one word, for at most this many readers. With one it is a mutex.
#[derive(Debug)]
pub(crate) struct Lock<const READERS: u32>(Word);

impl<const READERS: u32> Lock<READERS> {
    /// Makes a free lock. A limit of 0, or above `MAX_READERS`, does not compile.
    pub(crate) const fn new() -> Self {
        const { assert!(1 <= READERS && READERS <= MAX_READERS) };
        Lock(Word::new(0))
    }

    /// Acquires, or returns the word that refused. An exchange that fails finds the word as a load does.
    #[inline]
    fn first(&self, mode: Mode) -> Result<(), u32> {
        let mut word = match mode {
            Mode::Exclusive => 0,
            Mode::Upgrade => ONE_UPGRADABLE,
            Mode::Shared | Mode::Upgradable => self.0.load(SeqCst),
        };
        while mode.is_admitted(word, READERS) {
            match self.0.compare_exchange(word, mode.word_after(word), SeqCst, SeqCst) {
                Ok(_) => return Ok(()),
                Err(found) => word = found,
            }
        }
        Err(word)
    }

    /// Acquires, unless a word refuses. The caller of an upgrade holds the lock upgradable.
    #[inline]
    pub(crate) fn try_acquire(&self, mode: Mode) -> bool {
        match self.first(mode) {
            Ok(()) => true,
            Err(word) => mode == Mode::Shared && word & TURN != 0 && rest_of_try(&self.0, READERS, word),
        }
    }

    #[inline]
    pub(crate) fn acquire(&self, mode: Mode) {
        if let Err(word) = self.first(mode) {
            rest_of_acquire(&self.0, READERS, mode, word, None);
        }
    }

    /// Blocks at most until the deadline, or without an end if there is none.
    #[cfg(feature = "std")]
    pub(crate) fn acquire_until(&self, mode: Mode, deadline: Option<Instant>) -> bool {
        match self.first(mode) {
            Ok(()) => true,
            Err(word) => rest_of_acquire(&self.0, READERS, mode, word, deadline.and_then(Timespec::at).as_ref()),
        }
    }

    /// Releases or downgrades. The word may be gone at once after the step that does.
    ///
    /// # Safety
    ///
    /// The caller holds what it releases.
    #[inline]
    pub(crate) unsafe fn release(&self, release: Release) {
        if READERS != 1 && matches!(release, Release::Shared) {
            // SAFETY: the caller has such a hold.
            return unsafe { self.remove_reader() };
        }
        let (held, left) = release.of_lone_holder();
        if let Err(found) = self.0.compare_exchange(held, left, SeqCst, SeqCst) {
            rest_of_release(&self.0, READERS, release, &[found]);
        }
    }

    /// Releases a shared hold of a lock for several readers. The subtraction cannot clear the bit of sleepers.
    ///
    /// # Safety
    ///
    /// The caller has such a hold.
    #[inline]
    unsafe fn remove_reader(&self) {
        let word = self.0.load(SeqCst);
        if word & SLEEPERS != 0 {
            return rest_of_release(&self.0, READERS, Release::Shared, &[word]);
        }
        let before = self.0.fetch_sub(ONE_READER, SeqCst);
        if before & SLEEPERS != 0 {
            rest_of_release(&self.0, READERS, Release::Shared, &[word, before]);
        }
    }

    pub(crate) fn is_locked(&self) -> bool {
        self.0.load(SeqCst) & !(BAR | TURN | SLEEPERS) != 0
    }

    /// Whether nobody holds the lock or has set the bar. The bit of sleepers may be left.
    #[cfg(test)]
    pub(crate) fn is_at_rest(&self) -> bool {
        self.0.load(SeqCst) & !SLEEPERS == 0
    }

    pub(crate) fn is_locked_exclusive(&self) -> bool {
        self.0.load(SeqCst) & EXCLUSIVE != 0
    }
}

/// The inline steps, and the driver's after them, are those that the archive asks for from the first one on.
#[cfg(test)]
mod tests {
    extern crate std;
    use super::*;
    use crate::driver::{lock_c_acquire, lock_c_next, lock_c_release, Code, LockCall, LockStep, PASSED};
    use crate::expected::{run, Numbers};
    use crate::word::record;

    const MODES: [Mode; 4] = [Mode::Shared, Mode::Exclusive, Mode::Upgradable, Mode::Upgrade];
    const RELEASES: [Release; 6] = [
        Release::Shared,
        Release::Exclusive,
        Release::Upgradable,
        Release::ToShared,
        Release::ToUpgradable,
        Release::UpgradableToShared,
    ];

    /// Compares an inline call with the archive's: the answers, the accesses and the words that they leave.
    fn compare<const READERS: u32>(
        others: &[u64],
        inline: impl FnOnce(&Lock<READERS>) -> bool,
        begin: impl FnOnce(&mut LockCall) -> LockStep,
    ) {
        let (lock, mut call) = (Lock::<READERS>(Word::new(0)), LockCall::default());
        let (answer, accesses) = record(&lock.0, others, || inline(&lock));
        let step = begin(&mut call);
        let (end, expected, word) = run(others, true, step, |found| lock_c_next(&mut call, found as u32));
        let found = (answer, accesses, lock.0.load(SeqCst).into());
        assert_eq!(found, (end.map(|it| it == Code::Done), expected, word), "{others:x?} for {READERS}");
    }

    /// Begins an acquisition after the load that a mode leaves out: the exchange that follows finds the word.
    fn begin(call: &mut LockCall, readers: u32, mode: Mode, blocks: bool) -> LockStep {
        let announces = blocks && mode == Mode::Exclusive;
        let step = lock_c_acquire(call, readers, mode as u32, blocks.into(), announces.into());
        match mode {
            Mode::Exclusive => lock_c_next(call, 0),
            Mode::Upgrade => lock_c_next(call, ONE_UPGRADABLE),
            Mode::Shared | Mode::Upgradable => step,
        }
    }

    fn compare_tries<const READERS: u32>(others: &[u64]) {
        for mode in MODES {
            compare::<READERS>(others, |lock| lock.try_acquire(mode), |call| begin(call, READERS, mode, false));
        }
    }

    /// Compares calls that block: the deadline has passed, so each sleep ends at once.
    fn compare_waits<const READERS: u32>(others: &[u64]) {
        for mode in MODES {
            let wait = |lock: &Lock<READERS>| match lock.first(mode) {
                Ok(()) => true,
                Err(word) => rest_of_acquire(&lock.0, READERS, mode, word, Some(&PASSED)),
            };
            compare::<READERS>(others, wait, |call| begin(call, READERS, mode, true));
        }
    }

    fn compare_releases<const READERS: u32>(others: &[u64]) {
        for release in RELEASES {
            let inline = |lock: &Lock<READERS>| {
                // SAFETY: no other thread uses the lock, and no value depends on it.
                unsafe { lock.release(release) };
                true
            };
            compare::<READERS>(others, inline, |call| lock_c_release(call, READERS, release as u32));
        }
    }

    /// Words with all flags, and numbers of readers about 0, 1 and the limit.
    fn words_for(readers: u32) -> Numbers {
        let counts = (0..4).chain(readers.saturating_sub(2)..=readers.saturating_add(1).min(MAX_READERS)).chain([MAX_READERS]);
        Numbers::new(counts.flat_map(|count| (0..ONE_READER).map(move |flags| u64::from(count * ONE_READER + flags))))
    }

    fn compare_all<const READERS: u32>() {
        let mut words = words_for(READERS);
        words.each(true, 20_000, |others| {
            compare_tries::<READERS>(others);
            compare_releases::<READERS>(others);
        });
        words.each(false, 500, compare_waits::<READERS>);
    }

    #[test]
    fn inline_steps_are_those_of_the_archive() {
        compare_all::<1>();
        compare_all::<2>();
        compare_all::<10>();
        compare_all::<MAX_READERS>();
    }

    /// A try goes on while its exchange fails, and is refused by a word alone. A release makes one change.
    #[test]
    fn the_last_access_is_the_change() {
        let lock = Lock::<2>::new();
        let exchange = |old: u32, new: u32| (0, Code::Exchange, old.into(), new.into());
        let reader = |word| exchange(word, word + ONE_READER);
        let (is_held, accesses) =
            record(&lock.0, &[0, SLEEPERS, ONE_READER, 0, 0].map(u64::from), || lock.try_acquire(Mode::Shared));
        assert!(
            is_held == Some(true)
                && accesses == [(0, Code::Load, 0, 0), reader(0), reader(SLEEPERS), reader(ONE_READER), reader(0)]
        );
        let (is_held, accesses) = record(&lock.0, &[0, BAR + SLEEPERS].map(u64::from), || lock.try_acquire(Mode::Shared));
        assert!(is_held == Some(false) && accesses == [(0, Code::Load, 0, 0), reader(0)]);
        // SAFETY: the word is that of such a hold.
        let (_, accesses) =
            record(&lock.0, &[u64::from(EXCLUSIVE + SLEEPERS); 2], || unsafe { lock.release(Release::Exclusive) });
        assert_eq!(accesses, [exchange(EXCLUSIVE, 0), exchange(EXCLUSIVE + SLEEPERS, 0), (0, Code::WakeAll, 0, 0)]);
    }

    /// A reader that nobody wakes takes a turn, and takes it back at its deadline.
    #[cfg(feature = "std")]
    #[test]
    fn a_reader_gets_a_turn() {
        use std::{thread, time::Duration};
        for deadline in [None, Some(Instant::now() + Duration::from_millis(100))] {
            let lock = Lock::<2>::new();
            assert!(lock.try_acquire(Mode::Exclusive));
            thread::scope(|s| {
                let reader = s.spawn(|| lock.acquire_until(Mode::Shared, deadline));
                while !reader.is_finished() && lock.0.load(SeqCst) & TURN == 0 {
                    thread::sleep(Duration::from_micros(20));
                }
                if deadline.is_none() {
                    assert_ne!(lock.0.load(SeqCst) & TURN, 0);
                    // SAFETY: the word is that of such a hold.
                    unsafe { lock.release(Release::Exclusive) };
                }
                assert_eq!(reader.join().expect("no panic"), deadline.is_none());
            });
            assert_eq!(lock.0.load(SeqCst) & !SLEEPERS, if deadline.is_none() { ONE_READER } else { EXCLUSIVE });
        }
    }

    /// A query is one load.
    #[test]
    fn queries_look_once() {
        let lock = Lock::<2>::new();
        let load = std::vec![(0, Code::Load, 0, 0)];
        for (word, is_locked, is_exclusive) in [
            (BAR + TURN + SLEEPERS, false, false),
            (ONE_READER, true, false),
            (ONE_UPGRADABLE, true, false),
            (EXCLUSIVE, true, true),
        ] {
            let found =
                [Lock::is_locked, Lock::is_locked_exclusive].map(|query| record(&lock.0, &[word.into()], || query(&lock)));
            assert_eq!(found, [is_locked, is_exclusive].map(|it| (Some(it), load.clone())), "{word:x}");
        }
    }
}
