// SPDX-License-Identifier: MIT OR Apache-2.0
//! The thread that acquires a lock last frees it, while the unlocks of others may have yet to return. A sanitizer sees an access
//! after that.
use proved_lock::{Mutex, RwLock};
use std::sync::atomic::{AtomicUsize, Ordering::SeqCst};
use std::sync::Barrier;

const THREADS: usize = 8;
const ROUNDS: usize = 20_000;

struct Freed {
    mutex: Mutex<usize>,
    rwlock: RwLock<usize>,
    readers: AtomicUsize,
}

/// An address that threads share.
#[derive(Clone, Copy)]
struct Address(*mut Freed);

// SAFETY: the locks guard what lies there, and one thread frees it.
unsafe impl Send for Address {}
// SAFETY: likewise.
unsafe impl Sync for Address {}

fn is_last_user(it: &Freed, kind: usize) -> bool {
    let count_down = |users: &mut usize| {
        *users -= 1;
        *users == 0
    };
    match kind {
        0 => count_down(&mut it.mutex.lock()),
        1 => count_down(&mut it.rwlock.write()),
        _ => {
            let read = it.rwlock.read();
            let is_last = it.readers.fetch_sub(1, SeqCst) == 1;
            drop(read);
            if is_last {
                drop(it.rwlock.write()); // all others have released by then
            }
            is_last
        }
    }
}

#[test]
fn the_last_user_frees() {
    let begin = Barrier::new(THREADS);
    let made = || Freed { mutex: Mutex::new(THREADS), rwlock: RwLock::new(THREADS), readers: AtomicUsize::new(THREADS) };
    let all: Vec<_> = (0..ROUNDS).map(|_| Address(Box::into_raw(Box::new(made())))).collect();
    let use_and_free = || {
        for (i, it) in all.iter().enumerate() {
            begin.wait();
            // SAFETY: nobody frees it before this thread has counted down.
            if is_last_user(unsafe { &*it.0 }, i % 3) {
                // SAFETY: all others have released, and access the lock no more.
                drop(unsafe { Box::from_raw(it.0) });
            }
        }
    };
    std::thread::scope(|s| (0..THREADS).for_each(|_| drop(s.spawn(use_and_free))));
}
