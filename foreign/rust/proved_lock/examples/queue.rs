// SPDX-License-Identifier: MIT OR Apache-2.0
//! Passes items through a queue of 16 places between two threads, by the locks and condition variables of one library. Count
//! its system calls, for example by `strace -f -c -e futex`.
//!
//! `cargo run --release --example queue proved_lock|parking_lot|std [ITEMS]`
use std::collections::VecDeque;
use std::time::Instant;

const ROOM: usize = 16;

/// A queue of one library: how it puts an item in, and how it takes one out.
macro_rules! pass_by {
    ($items:expr, $mutex:ty, $condvar:ty, $lock:expr, $wait:expr) => {{
        let (queue, not_empty, not_full) = (<$mutex>::new(VecDeque::new()), <$condvar>::new(), <$condvar>::new());
        std::thread::scope(|s| {
            s.spawn(|| {
                for item in 0..$items {
                    let mut held = $lock(&queue);
                    while held.len() == ROOM {
                        held = $wait(&not_full, held);
                    }
                    held.push_back(item);
                    drop(held);
                    not_empty.notify_one();
                }
            });
            let mut sum = 0u64;
            for _ in 0..$items {
                let mut held = $lock(&queue);
                while held.is_empty() {
                    held = $wait(&not_empty, held);
                }
                sum += held.pop_front().expect("it is not empty");
                drop(held);
                not_full.notify_one();
            }
            sum
        })
    }};
}

fn main() {
    let mut words = std::env::args().skip(1);
    let library = words.next().unwrap_or_default();
    let items: u64 = words.next().map_or(300_000, |it| it.parse().expect("a number of items"));
    let begun = Instant::now();
    let sum = match library.as_str() {
        "proved_lock" => pass_by!(
            items,
            proved_lock::Mutex<_>,
            proved_lock::Condvar,
            proved_lock::Mutex::lock,
            |it: &proved_lock::Condvar, mut held| {
                it.wait(&mut held);
                held
            }
        ),
        "parking_lot" => pass_by!(
            items,
            parking_lot::Mutex<_>,
            parking_lot::Condvar,
            parking_lot::Mutex::lock,
            |it: &parking_lot::Condvar, mut held| {
                it.wait(&mut held);
                held
            }
        ),
        "std" => pass_by!(
            items,
            std::sync::Mutex<_>,
            std::sync::Condvar,
            |it| std::sync::Mutex::lock(it).expect("no panic"),
            |it: &std::sync::Condvar, held| it.wait(held).expect("no panic")
        ),
        _ => return eprintln!("usage: queue proved_lock|parking_lot|std [ITEMS]"),
    };
    assert_eq!(sum, items * items.saturating_sub(1) / 2);
    println!("{library}: {items} items in {:.0} ms", begun.elapsed().as_secs_f64() * 1e3);
}
