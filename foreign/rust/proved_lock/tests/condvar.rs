// SPDX-License-Identifier: MIT OR Apache-2.0
//! Threads that wait for each other by a condition variable.
#![cfg(feature = "std")]
use proved_lock as parking_lot;

use parking_lot::{Condvar, Mutex, WaitTimeoutResult};
use std::collections::VecDeque;
use std::thread;
use std::time::{Duration, Instant};

const ITEMS: u64 = 20_000;
const SLOTS: usize = 2;

static QUEUE: Mutex<VecDeque<u64>> = parking_lot::const_mutex(VecDeque::new());
static NOT_EMPTY: Condvar = Condvar::new();
static NOT_FULL: Condvar = Condvar::new();

fn produce() {
    for item in 0..ITEMS {
        let mut queue = QUEUE.lock();
        NOT_FULL.wait_while(&mut queue, |it| it.len() == SLOTS);
        queue.push_back(item);
        NOT_EMPTY.notify_one();
    }
}

fn consume() -> u64 {
    let mut sum = 0;
    for i in 0..ITEMS {
        let mut queue = QUEUE.lock();
        while queue.is_empty() {
            if i % 2 == 0 {
                NOT_EMPTY.wait(&mut queue);
            } else {
                let _: WaitTimeoutResult = NOT_EMPTY.wait_for(&mut queue, Duration::from_micros(20));
            }
        }
        sum += queue.pop_front().expect("it is not empty");
        NOT_FULL.notify_one();
    }
    sum
}

#[test]
fn producers_and_consumers() {
    let sum: u64 = thread::scope(|s| {
        let consumers: Vec<_> = (0..4).map(|_| s.spawn(consume)).collect();
        (0..4).for_each(|_| drop(s.spawn(produce)));
        consumers.into_iter().map(|it| it.join().expect("no panic")).sum()
    });
    assert_eq!(sum, 4 * ITEMS * (ITEMS - 1) / 2);
    assert!(QUEUE.lock().is_empty());
}

#[test]
fn all_four_are_woken() {
    for _ in 0..50 {
        let (waiting, changed) = (Mutex::new(0), Condvar::new());
        let wait = || {
            let mut waiting = waiting.lock();
            *waiting += 1;
            changed.wait_while(&mut waiting, |it| *it >= 0);
        };
        thread::scope(|s| {
            (0..4).for_each(|_| drop(s.spawn(wait)));
            loop {
                let mut waiting = waiting.lock();
                if *waiting == 4 {
                    *waiting = -1;
                    break assert_eq!(changed.notify_all(), 4);
                }
            }
        });
        assert_eq!(changed.notify_all(), 0);
        assert!(!changed.notify_one());
    }
}

#[test]
fn time_runs_out() {
    let (lock, never) = (Mutex::new(0), Condvar::default());
    let mut count = lock.lock();
    let deadline = Instant::now() + Duration::from_millis(30);
    assert!(never.wait_until(&mut count, deadline).timed_out() && Instant::now() >= deadline);
    assert!(never.wait_until(&mut count, deadline).timed_out());
    assert!(never.wait_for(&mut count, Duration::ZERO).timed_out());
    let counts = |it: &mut i32| {
        *it += 1;
        *it < 3
    };
    assert!(never.wait_while_until(&mut count, counts, deadline).timed_out());
    assert!(!never.wait_while_for(&mut count, |it| *it < 0, Duration::MAX).timed_out());
    assert_eq!(*count, 1);
    assert!(lock.try_lock().is_none());
    assert_eq!(format!("{never:?}"), "Condvar { .. }");
}
