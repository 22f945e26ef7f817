// SPDX-License-Identifier: MIT OR Apache-2.0
//! Reader-writer locks under writers that write back to back, beside `parking_lot` and std: how many reads are made and the longest
//! wait of one. Then how long it takes until ten thousand threads that wait are all served. Stop all else on the machine first.
//!
//! `cargo run --release --example starving`
use std::sync::atomic::{AtomicBool, Ordering::Relaxed};
use std::thread::{self, Builder};
use std::time::{Duration, Instant};

const TURN: Duration = Duration::from_secs(4);
const WRITE: Duration = Duration::from_millis(3);
const PAUSE: Duration = Duration::from_micros(100);
const THREADS: usize = 10_000;

/// A reader-writer lock of one of the crates.
trait Lock: Default + Sync {
    fn read(&self, act: impl FnOnce());
    fn write(&self, act: impl FnOnce());
}

macro_rules! lock {
    ($name:ident, $type:ty, $guard:ident => $held:expr) => {
        #[derive(Default)]
        struct $name($type);

        impl Lock for $name {
            fn read(&self, act: impl FnOnce()) {
                let $guard = self.0.read();
                let _held = $held;
                act();
            }

            fn write(&self, act: impl FnOnce()) {
                let $guard = self.0.write();
                let _held = $held;
                act();
            }
        }
    };
}

lock!(Proved, proved_lock::RwLock<()>, guard => guard);
lock!(ParkingLot, parking_lot::RwLock<()>, guard => guard);
lock!(Std, std::sync::RwLock<()>, guard => guard.expect("no panic"));

/// Uses a processor for this time.
fn work(time: Duration) {
    let begun = Instant::now();
    while begun.elapsed() < time {}
}

/// Reads again and again next to so many writers. Returns how many reads were made, and the longest wait.
fn reads_next_to<L: Lock>(writers: usize) -> (usize, Duration) {
    let (lock, ended) = (L::default(), AtomicBool::new(false));
    thread::scope(|s| {
        for _ in 0..writers {
            s.spawn(|| {
                while !ended.load(Relaxed) {
                    lock.write(|| work(WRITE));
                }
            });
        }
        let (begun, mut reads, mut longest) = (Instant::now(), 0, Duration::ZERO);
        while begun.elapsed() < TURN {
            thread::sleep(PAUSE);
            let asked = Instant::now();
            lock.read(|| longest = longest.max(asked.elapsed()));
            reads += 1;
        }
        ended.store(true, Relaxed);
        (reads, longest)
    })
}

/// Lets all threads wait, a tenth of them to write. Returns how long they take after the release.
fn drains<L: Lock>() -> Duration {
    let lock = L::default();
    thread::scope(|s| {
        let mut begun = Instant::now();
        lock.write(|| {
            for number in 0..THREADS {
                let lock = &lock;
                let act = move || if number % 10 == 0 { lock.write(|| work(PAUSE)) } else { lock.read(|| work(PAUSE)) };
                Builder::new().stack_size(1 << 16).spawn_scoped(s, act).expect("a thread");
            }
            thread::sleep(Duration::from_millis(500));
            begun = Instant::now();
        });
        begun
    })
    .elapsed()
}

fn row<L: Lock>(name: &str) {
    let [one, two] = [1, 2].map(reads_next_to::<L>).map(|(reads, longest)| format!("{reads} reads, {} ms", longest.as_millis()));
    println!("| {name} | {one} | {two} | {} ms |", drains::<L>().as_millis());
}

fn main() {
    println!("| | one writer | two writers | {THREADS} threads |\n|---|---|---|---|");
    row::<Proved>("proved_lock");
    row::<ParkingLot>("parking_lot");
    row::<Std>("std");
}
