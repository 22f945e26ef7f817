// SPDX-License-Identifier: MIT OR Apache-2.0
//! A test: eight threads use one lock in all modes, with upgrades, downgrades, deadlines and tries.
use crate::driver::{Mode, Release};
use crate::first::{Lock, MAX_READERS};
use core::sync::atomic::{AtomicU64, Ordering::SeqCst};
use std::time::{Duration, Instant};

/// The sum of what threads hold.
#[derive(Default)]
struct Held(AtomicU64);

const SHARED: u64 = 1;
const UPGRADABLE: u64 = 1 << 20;
const EXCLUSIVE: u64 = 1 << 40;

impl Held {
    /// Changes what one thread holds, and tests that the holds of all are compatible.
    fn change(&self, less: u64, more: u64, readers: u32) {
        let change = more.wrapping_sub(less);
        let held = self.0.fetch_add(change, SeqCst).wrapping_add(change);
        let (shared, upgradable) = (held % UPGRADABLE, held / UPGRADABLE);
        let are_compatible = held == EXCLUSIVE || upgradable <= 1 && shared + upgradable <= readers.into();
        assert!(are_compatible, "{held:x} is held for {readers}");
    }
}

struct Tested<const READERS: u32> {
    lock: Lock<READERS>,
    held: Held,
}

impl<const READERS: u32> Tested<READERS> {
    /// Acquires by a call of this kind. Returns whether it did.
    fn acquires(&self, kind: u32, mode: Mode) -> bool {
        let acquired = match kind % 4 {
            0 | 1 => {
                self.lock.acquire(mode);
                true
            }
            2 => self.lock.try_acquire(mode),
            _ => self.lock.acquire_until(mode, Some(Instant::now() + Duration::from_micros((kind / 4).into()))),
        };
        if acquired {
            let (less, more) = match mode {
                Mode::Shared => (0, SHARED),
                Mode::Exclusive => (0, EXCLUSIVE),
                Mode::Upgradable => (0, UPGRADABLE),
                Mode::Upgrade => (UPGRADABLE, EXCLUSIVE),
            };
            self.held.change(less, more, READERS);
        }
        acquired
    }

    fn release(&self, release: Release) {
        // The change is noted before the release, since other threads acquire right after it.
        let (less, more) = match release {
            Release::Shared => (SHARED, 0),
            Release::Exclusive => (EXCLUSIVE, 0),
            Release::Upgradable => (UPGRADABLE, 0),
            Release::ToShared => (EXCLUSIVE, SHARED),
            Release::ToUpgradable => (EXCLUSIVE, UPGRADABLE),
            Release::UpgradableToShared => (UPGRADABLE, SHARED),
        };
        self.held.change(less, more, READERS);
        // SAFETY: the callers of this test hold what they release.
        unsafe { self.lock.release(release) };
    }

    fn makes(&self, random: u32) {
        let (kind, how) = (random >> 8 & 255, random >> 28);
        match how {
            0..=5 => {
                if self.acquires(kind, Mode::Shared) {
                    self.release(Release::Shared);
                }
            }
            6..=9 => {
                if self.acquires(kind, Mode::Exclusive) {
                    self.release(Release::Exclusive);
                }
            }
            10..=12 => {
                if self.acquires(kind, Mode::Upgradable) {
                    self.ends_upgradable(random >> 16 & 255);
                }
            }
            _ => {
                if self.acquires(kind, Mode::Exclusive) {
                    if how == 13 {
                        self.release(Release::ToShared);
                        self.release(Release::Shared);
                    } else {
                        self.release(Release::ToUpgradable);
                        self.ends_upgradable(random >> 16 & 255);
                    }
                }
            }
        }
    }

    fn ends_upgradable(&self, kind: u32) {
        if kind % 8 == 0 {
            self.release(Release::UpgradableToShared);
            self.release(Release::Shared);
        } else if kind % 8 < 6 && self.acquires(kind / 8, Mode::Upgrade) {
            self.release(Release::Exclusive);
        } else {
            self.release(Release::Upgradable);
        }
    }
}

fn mix<const READERS: u32>() {
    let tested = Tested { lock: Lock::<READERS>::new(), held: Held::default() };
    std::thread::scope(|s| {
        for number in 0..8u32 {
            let tested = &tested;
            s.spawn(move || {
                let mut x = number.wrapping_mul(2_654_435_761) | 1;
                for _ in 0..20_000 {
                    x = x.wrapping_mul(1_664_525).wrapping_add(1_013_904_223);
                    tested.makes(x);
                }
            });
        }
    });
    assert!(tested.lock.is_at_rest() && tested.held.0.load(SeqCst) == 0);
}

#[test]
fn holds_of_eight_threads_are_compatible() {
    mix::<1>();
    mix::<2>();
    mix::<MAX_READERS>();
}
