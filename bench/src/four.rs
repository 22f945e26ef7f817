//! Four threads that acquire one mutex again and again.
use crate::word_twin::WordMutex;
use std::thread;
use std::time::{Duration, Instant};

/// Prints a row for each mutex: acquisitions a millisecond, the fewest of a thread, and the longest wait.
pub fn print(millis: u64) {
    let mutex = std::sync::Mutex::new(0u64);
    row("std", millis, || mutex.lock().unwrap(), drop);
    let mutex = parking_lot::Mutex::new(0u64);
    row("parking_lot", millis, || mutex.lock(), drop);
    row("parking_lot, unlock_fair", millis, || mutex.lock(), parking_lot::MutexGuard::unlock_fair);
    let mutex = parking_lot::FairMutex::new(0u64);
    row("parking_lot, FairMutex", millis, || mutex.lock(), drop);
    let mutex = WordMutex::new();
    row("word_twin", millis, || mutex.lock(), drop);
}

fn row<G: std::ops::DerefMut<Target = u64>>(name: &str, millis: u64, lock: impl Fn() -> G + Sync, unlock: impl Fn(G) + Sync) {
    let time = Duration::from_millis(millis);
    let acquire = || {
        let (start, mut made, mut longest) = (Instant::now(), 0u64, Duration::ZERO);
        loop {
            let began = Instant::now();
            let mut count = lock();
            let waited = began.elapsed();
            *count += 1;
            unlock(count);
            if start.elapsed() >= time {
                return (made, longest);
            }
            made += 1;
            longest = longest.max(waited);
        }
    };
    let seen: Vec<(u64, Duration)> = thread::scope(|s| {
        let threads: Vec<_> = (0..4).map(|_| s.spawn(acquire)).collect();
        threads.into_iter().map(|it| it.join().unwrap()).collect()
    });
    let all: u64 = seen.iter().map(|it| it.0).sum();
    let fewest = seen.iter().map(|it| it.0).min().unwrap_or(0);
    let longest = seen.iter().map(|it| it.1).max().unwrap_or(Duration::ZERO);
    println!(
        "{name}, four threads: {} acquisitions a millisecond, at least {} a thread, the longest wait {} microseconds",
        all / millis.max(1),
        fewest / millis.max(1),
        longest.as_micros()
    );
}
