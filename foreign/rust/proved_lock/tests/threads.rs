// SPDX-License-Identifier: MIT OR Apache-2.0
//! Threads that use the locks together.
#![cfg(feature = "std")]
use proved_lock::{Condvar, Mutex, ReentrantMutex, RwLock, RwLockUpgradableReadGuard, RwLockWriteGuard};
use std::cell::Cell;
use std::sync::atomic::{AtomicU64, Ordering::SeqCst};
use std::sync::Barrier;
use std::thread;
use std::time::{Duration, Instant};

static COUNTER: Mutex<u64> = proved_lock::const_mutex(0);

/// For how long the mixed threads run at least.
fn long_run() -> Duration {
    Duration::from_secs(std::env::var("LONG_RUN").map_or(0, |it| it.parse().expect("LONG_RUN is in seconds")))
}

#[test]
fn eight_threads_count() {
    thread::scope(|s| {
        for _ in 0..8 {
            s.spawn(|| (0..50_000).for_each(|_| *COUNTER.lock() += 1));
        }
    });
    assert_eq!(*COUNTER.lock(), 400_000);
}

#[test]
fn sleepers_are_woken() {
    let lock = Mutex::new(0);
    thread::scope(|s| {
        for _ in 0..6 {
            s.spawn(|| {
                for _ in 0..50 {
                    let mut count = lock.lock();
                    thread::sleep(Duration::from_micros(200));
                    *count += 1;
                }
            });
        }
    });
    assert_eq!(lock.into_inner(), 300);
}

fn write(both: &mut (u64, u64)) {
    both.0 += 1;
    both.1 += 1;
}

fn mix(kind: u32, lock: &RwLock<(u64, u64)>, upgrades: &AtomicU64) {
    match kind {
        0..=7 => {
            let both = lock.read();
            assert_eq!(both.0, both.1);
        }
        8..=10 => write(&mut lock.write()),
        11 => {
            let mut both = lock.write();
            write(&mut both);
            let both = RwLockWriteGuard::downgrade(both);
            assert_eq!(both.0, both.1);
        }
        12 => {
            write(&mut RwLockUpgradableReadGuard::upgrade(lock.upgradable_read()));
            upgrades.fetch_add(1, SeqCst);
        }
        13 => {
            if let Ok(mut both) = RwLockUpgradableReadGuard::try_upgrade(lock.upgradable_read()) {
                write(&mut both);
            }
        }
        14 => {
            if let Some(mut both) = lock.try_write_for(Duration::from_micros(20)) {
                write(&mut both);
            }
        }
        _ => {
            let mut both = lock.write();
            write(&mut both);
            let both = RwLockUpgradableReadGuard::downgrade(RwLockWriteGuard::downgrade_to_upgradable(both));
            assert_eq!(both.0, both.1);
        }
    }
}

#[test]
fn readers_writers_and_upgrades() {
    let lock = RwLock::new((0u64, 0u64));
    let upgrades = AtomicU64::new(0);
    let end = Instant::now() + long_run();
    thread::scope(|s| {
        for number in 0..8u32 {
            let (lock, upgrades) = (&lock, &upgrades);
            s.spawn(move || {
                let (mut x, mut made) = (number.wrapping_mul(2_654_435_761) | 1, 0);
                while made < 20_000 || Instant::now() < end {
                    x = x.wrapping_mul(1_664_525).wrapping_add(1_013_904_223);
                    mix(x >> 28, lock, upgrades);
                    made += 1;
                }
            });
        }
    });
    let both = lock.try_write().expect("nobody holds it");
    assert_eq!(both.0, both.1);
    assert!(upgrades.load(SeqCst) > 0);
}

/// The last reader wakes an upgrade that sleeps next to a writer with its bar, although the writer slept first.
#[test]
fn upgrades_pass_barred_writers() {
    const LONG: Duration = Duration::from_secs(5);
    let (lock, begin) = (RwLock::new(()), Barrier::new(2));
    let upgrade = || {
        let guard = lock.upgradable_read();
        begin.wait();
        begin.wait();
        let began = Instant::now();
        drop(RwLockUpgradableReadGuard::try_upgrade_for(guard, LONG).expect("it is alone"));
        began.elapsed() < LONG
    };
    let let_sleep = || thread::sleep(Duration::from_millis(100));
    thread::scope(|s| {
        let read = lock.read();
        let upgrade = s.spawn(upgrade);
        begin.wait();
        s.spawn(|| drop(lock.write()));
        let_sleep();
        begin.wait();
        let_sleep();
        drop(read);
        assert!(upgrade.join().expect("no panic"), "the upgrade was not woken");
    });
}

#[test]
fn deadlines_pass() {
    let lock = Mutex::new(());
    let guard = lock.lock();
    assert!(lock.try_lock().is_none() && lock.is_locked());
    let began = Instant::now();
    assert!(lock.try_lock_for(Duration::from_millis(30)).is_none());
    assert!(began.elapsed() >= Duration::from_millis(30));
    drop(guard);
    assert!(lock.try_lock_for(Duration::from_millis(30)).is_some());
    assert!(!lock.is_locked());
}

/// A panic releases what its thread holds, also in the condition of a wait, and poisons nothing.
#[test]
fn a_panic_releases() {
    let (mutex, rwlock, changed) = (Mutex::new(1), RwLock::new(1), Condvar::new());
    let panics = || {
        let _read = rwlock.read();
        changed.wait_while(&mut mutex.lock(), |it| if *it == 1 { panic!("on purpose") } else { true });
    };
    assert!(thread::scope(|s| s.spawn(panics).join()).is_err());
    assert_eq!((mutex.try_lock().map(|it| *it), rwlock.try_write().map(|it| *it)), (Some(1), Some(1)));
}

#[test]
fn levels_of_a_reentrant_mutex() {
    let lock = ReentrantMutex::new(Cell::new(0));
    thread::scope(|s| {
        for _ in 0..4 {
            s.spawn(|| {
                for _ in 0..5_000 {
                    let outer = lock.lock();
                    lock.lock().set(outer.get() + 1);
                }
            });
        }
    });
    assert_eq!(lock.into_inner().get(), 20_000);
}
