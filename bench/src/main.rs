//! The rounds of `lock_bench` over std's locks, over `parking_lot`'s, and over an unproved twin of `WordRaw`.
//!
//! `peers locks ROUNDS`: nanoseconds of a round of each lock on one thread. `peers four MILLIS`: what four threads make of a
//! mutex in so long. `bench/run` prints these rows beside those of `lock_bench`.
mod four;
mod word_twin;

use parking_lot::{RwLockUpgradableReadGuard, RwLockWriteGuard};
use std::hint::black_box;
use std::time::Instant;

fn main() {
    let words: Vec<String> = std::env::args().skip(1).collect();
    let number = words.get(1).and_then(|word| word.parse().ok());
    match words.first().map(String::as_str) {
        Some("locks") => locks(number.unwrap_or(1_000_000)),
        Some("four") => four::print(number.unwrap_or(200)),
        _ => println!("usage: peers locks ROUNDS | four MILLIS"),
    }
}

fn locks(rounds: u64) {
    let mutex = std::sync::Mutex::new(0u64);
    line("std, Mutex", rounds, || *mutex.lock().unwrap() += 1);
    let lock = std::sync::RwLock::new(0u64);
    line("std, RwLock read", rounds, || drop(black_box(lock.read().unwrap())));
    line("std, RwLock write", rounds, || *lock.write().unwrap() += 1);
    parking_lot(rounds);
    word_twin::print(rounds);
}

fn parking_lot(rounds: u64) {
    let mutex = parking_lot::Mutex::new(0u64);
    line("parking_lot, Mutex", rounds, || *mutex.lock() += 1);
    let lock = parking_lot::RwLock::new(0u64);
    line("parking_lot, RwLock read", rounds, || drop(black_box(lock.read())));
    line("parking_lot, RwLock write", rounds, || *lock.write() += 1);
    line("parking_lot, RwLock upgrade and downgrade", rounds, || {
        let mut writer = RwLockUpgradableReadGuard::upgrade(lock.upgradable_read());
        *writer += 1;
        let upgradable = RwLockWriteGuard::downgrade_to_upgradable(writer);
        drop(black_box(RwLockUpgradableReadGuard::downgrade(upgradable)));
    });
    let lock = parking_lot::ReentrantMutex::new(1u64);
    line("parking_lot, ReentrantMutex, one level", rounds, || drop(black_box(lock.lock())));
    line("parking_lot, ReentrantMutex, two levels", rounds, || {
        let outer = black_box(lock.lock());
        drop(black_box(lock.lock()));
        drop(outer);
    });
}

/// Prints a row: the nanoseconds of a round.
#[inline(never)]
fn line(row: &str, rounds: u64, round: impl Fn()) {
    let start = Instant::now();
    for _ in 0..rounds {
        round();
    }
    let tenths = start.elapsed().as_nanos() * 10 / u128::from(rounds.max(1));
    println!("{row}: {}.{} ns", tenths / 10, tenths % 10);
}
