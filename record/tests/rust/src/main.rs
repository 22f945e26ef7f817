//! Recorded locks in Rust. The argument names two threads, which run one after the other.
use lock_api::{RwLockUpgradableReadGuard, RwLockWriteGuard};
use proved_lock::{Recorded, RecordedMutex, RecordedRwLock};
use std::sync::atomic::{AtomicU32, Ordering::SeqCst};
use std::{env, process, sync, thread, time::Duration};

type Mutex<T> = lock_api::Mutex<Recorded<parking_lot::RawMutex>, T>;
type RwLock<T> = lock_api::RwLock<Recorded<parking_lot::RawRwLock>, T>;

static JOURNAL: Mutex<u32> = Mutex::new(0);
static ACCOUNT: Mutex<u32> = Mutex::new(0);
static RATES: RwLock<u32> = RwLock::new(0);
static OURS: RecordedMutex<u32> = RecordedMutex::new(0);
static OUR_RATES: RecordedRwLock<u32> = RecordedRwLock::new(0);
static ENDED: AtomicU32 = AtomicU32::new(0);
static STD: [sync::Mutex<u32>; 2] = [sync::Mutex::new(0), sync::Mutex::new(0)];

fn pay() {
    let mut account = ACCOUNT.lock();
    *JOURNAL.lock() += 1; // waits
    *account += 1;
}

fn audit() {
    let mut journal = JOURNAL.lock();
    *ACCOUNT.lock() += 1; // waits
    *journal += 1;
}

fn audit_by_try() {
    let journal = JOURNAL.lock();
    let account = ACCOUNT.try_lock_for(Duration::from_secs(9));
    assert!(account.is_some_and(|it| *it == *journal));
}

fn report_twice() {
    let rates = RATES.read();
    assert_eq!(*rates, *RATES.read());
}

fn report_recursively() {
    let rates = RATES.read();
    assert_eq!(*rates, *RATES.read_recursive());
}

fn set() {
    *RATES.write() += 1;
}

fn upgrade() {
    let _journal = JOURNAL.lock();
    let rates = RATES.upgradable_read();
    let mut rates = RwLockUpgradableReadGuard::upgrade(rates); // waits
    *rates += 1;
    let rates = RwLockWriteGuard::downgrade_to_upgradable(rates);
    assert_eq!(*rates, 1);
}

fn report() {
    let rates = RATES.read();
    *JOURNAL.lock() += *rates; // waits
}

fn to_upgradable_above() {
    let rates = RwLockWriteGuard::downgrade_to_upgradable(RATES.write());
    *JOURNAL.lock() += *rates; // waits
}

fn upgradable_below() {
    let mut journal = JOURNAL.lock();
    *journal += *RATES.upgradable_read(); // waits
}

fn to_shared_above() {
    let rates = RwLockWriteGuard::downgrade(RATES.write());
    *JOURNAL.lock() += *rates;
}

fn ours_first() {
    let _ours = OURS.lock();
    *OUR_RATES.write() += 1; // waits
}

fn ours_second() {
    let rates = OUR_RATES.read();
    *OURS.lock() += *rates; // waits
}

fn std_first() {
    let _first = STD[0].lock();
    let _second = STD[1].lock();
}

fn std_second() {
    let _second = STD[1].lock();
    let _first = STD[0].lock();
}

fn main() {
    let both: [fn(); 2] = match env::args().nth(1).as_deref() {
        Some("orders") => [pay, audit],
        Some("one order") => [pay, pay],
        Some("try") => [pay, audit_by_try],
        Some("read twice") => [report_twice, set],
        Some("read recursively") => [report_recursively, set],
        Some("upgrade") => [upgrade, report],
        Some("to upgradable") => [to_upgradable_above, upgradable_below],
        Some("to shared") => [to_shared_above, upgradable_below],
        Some("ours") => [ours_first, ours_second],
        Some("std") => [std_first, std_second],
        _ => process::exit(2),
    };
    for (it, ended) in both.into_iter().zip(1..) {
        thread::spawn(move || {
            it();
            ENDED.fetch_add(1, SeqCst);
        });
        // a join would order the threads
        for _ in (0..10_000).take_while(|_| ENDED.load(SeqCst) < ended) {
            thread::sleep(Duration::from_millis(1));
        }
    }
}
