// SPDX-License-Identifier: MIT OR Apache-2.0
//! The locks in turns with `parking_lot` and std: nanoseconds of a round on one thread, and rounds a millisecond of several.
use std::hint::black_box;
use std::sync::Barrier;
use std::time::{Duration, Instant};

const TURNS: usize = 9;

/// One lock of a row: its name, and a round of it.
type Entry<'a> = (&'a str, &'a (dyn Fn() + Sync));

/// Prints the least nanoseconds of a round of each entry, which run in turns.
fn alone(what: &str, entries: &[Entry<'_>]) {
    let mut best = vec![f64::MAX; entries.len()];
    for _ in 0..TURNS * 40 {
        for (best, (_, round)) in best.iter_mut().zip(entries) {
            let begun = Instant::now();
            (0..1000).for_each(|_| round());
            *best = best.min(begun.elapsed().as_secs_f64() * 1e6);
        }
    }
    print_row(what, "ns", entries, &best);
}

/// Rounds a millisecond of so many threads, for 50 milliseconds.
fn rate(threads: usize, round: &(dyn Fn() + Sync)) -> f64 {
    let start = Barrier::new(threads);
    let count = || {
        start.wait();
        let (begun, mut made) = (Instant::now(), 0u32);
        while begun.elapsed() < Duration::from_millis(50) {
            (0..20).for_each(|_| round());
            made += 20;
        }
        f64::from(made) / 50.0
    };
    std::thread::scope(|s| {
        let running: Vec<_> = (0..threads).map(|_| s.spawn(count)).collect();
        running.into_iter().map(|it| it.join().expect("no panic")).sum()
    })
}

/// Prints the median rate of each entry, which run in turns.
fn together(what: &str, threads: usize, entries: &[Entry<'_>]) {
    let mut rates = vec![Vec::new(); entries.len()];
    for _ in 0..TURNS {
        for (rates, (_, round)) in rates.iter_mut().zip(entries) {
            rates.push(rate(threads, round));
        }
    }
    let median: Vec<_> = rates
        .into_iter()
        .map(|mut it| {
            it.sort_by(f64::total_cmp);
            it[TURNS / 2]
        })
        .collect();
    print_row(&format!("{what}, {threads} threads"), "a millisecond", entries, &median);
}

fn print_row(what: &str, unit: &str, entries: &[Entry<'_>], figures: &[f64]) {
    let row: Vec<_> = entries.iter().zip(figures).map(|((name, _), it)| format!("{name} {it:.1}")).collect();
    println!("{what}: {} {unit}", row.join(", "));
}

fn work() {
    (0..200u32).for_each(|i| {
        black_box(i);
    });
}

fn main() {
    let (std_mutex, std_rwlock) = (std::sync::Mutex::new(0u64), std::sync::RwLock::new(0u64));
    let (other_mutex, other_rwlock) = (parking_lot::Mutex::new(0u64), parking_lot::RwLock::new(0u64));
    let (mutex, rwlock) = (proved_lock::Mutex::new(0u64), proved_lock::RwLock::new(0u64));
    let short: [Entry<'_>; 3] = [
        ("std", &|| *black_box(&std_mutex).lock().expect("no panic") += 1),
        ("parking_lot", &|| *black_box(&other_mutex).lock() += 1),
        ("proved_lock", &|| *black_box(&mutex).lock() += 1),
    ];
    let long: [Entry<'_>; 3] = [
        ("std", &|| {
            let _held = std_mutex.lock().expect("no panic");
            work();
        }),
        ("parking_lot", &|| {
            let _held = other_mutex.lock();
            work();
        }),
        ("proved_lock", &|| {
            let _held = mutex.lock();
            work();
        }),
    ];
    alone("mutex", &short);
    alone(
        "read",
        &[
            ("std", &|| drop(black_box(&std_rwlock).read().expect("no panic"))),
            ("parking_lot", &|| drop(black_box(&other_rwlock).read())),
            ("proved_lock", &|| drop(black_box(&rwlock).read())),
        ],
    );
    alone(
        "write",
        &[
            ("std", &|| drop(black_box(&std_rwlock).write().expect("no panic"))),
            ("parking_lot", &|| drop(black_box(&other_rwlock).write())),
            ("proved_lock", &|| drop(black_box(&rwlock).write())),
        ],
    );
    alone(
        "upgradable, upgrade, release",
        &[
            ("parking_lot", &|| drop(parking_lot::RwLockUpgradableReadGuard::upgrade(other_rwlock.upgradable_read()))),
            ("proved_lock", &|| drop(proved_lock::RwLockUpgradableReadGuard::upgrade(rwlock.upgradable_read()))),
        ],
    );
    for threads in [2, 4] {
        together("short sections", threads, &short);
        together("long sections", threads, &long);
    }
    println!(
        "bytes of Mutex<()> and RwLock<()>: std {} and {}, parking_lot {} and {}, proved_lock {} and {}",
        size_of::<std::sync::Mutex<()>>(),
        size_of::<std::sync::RwLock<()>>(),
        size_of::<parking_lot::Mutex<()>>(),
        size_of::<parking_lot::RwLock<()>>(),
        size_of::<proved_lock::Mutex<()>>(),
        size_of::<proved_lock::RwLock<()>>(),
    );
}
