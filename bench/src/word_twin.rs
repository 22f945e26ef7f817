//! The locks over one packed word with no proof: what `WordRaw` is compared with.
//!
//! It has the same shape. The value lies in a std lock that is acquired after the word admits and released before the word. A try
//! is one load and one exchange, a release one subtraction, whose answer says whether a waiter may sleep.
use crate::line;
use std::hint::black_box;
use std::ops::{Deref, DerefMut};
use std::sync::atomic::{AtomicU64, Ordering::SeqCst};
use std::sync::{Condvar, Mutex, MutexGuard, RwLock, RwLockReadGuard, RwLockWriteGuard};

const UPGRADABLE: u64 = 1 << 32;
const EXCLUSIVE: u64 = 1 << 33;
const BAR: u64 = 1 << 34;
const SLEEPERS: u64 = 1 << 35;

/// The word, and the threads that sleep until it changes.
pub struct Raw {
    word: AtomicU64,
    readers: u64,
    gate: Mutex<()>,
    changed: Condvar,
}

impl Raw {
    fn new(readers: u64) -> Raw {
        Raw {
            word: AtomicU64::new(0),
            readers,
            gate: Mutex::new(()),
            changed: Condvar::new(),
        }
    }

    #[inline]
    fn exchange(&self, next: impl Fn(u64) -> Option<u64>) -> bool {
        let word = self.word.load(SeqCst);
        match next(word % SLEEPERS) {
            Some(next) => self
                .word
                .compare_exchange(word, next + word / SLEEPERS * SLEEPERS, SeqCst, SeqCst)
                .is_ok(),
            None => false,
        }
    }

    #[inline]
    fn wait_for(&self, next: impl Fn(u64) -> Option<u64>) {
        if !self.exchange(&next) {
            self.sleep(&next);
        }
    }

    #[inline(never)]
    fn sleep(&self, next: &dyn Fn(u64) -> Option<u64>) {
        let mut gate = self.gate.lock().unwrap();
        loop {
            // a release from here on finds the bit, and wakes once the wait has the gate
            self.word.fetch_or(SLEEPERS, SeqCst);
            if self.exchange(next) {
                return;
            }
            gate = self.changed.wait(gate).unwrap();
        }
    }

    #[inline]
    fn give_up(&self, less: u64) {
        if self.word.fetch_sub(less, SeqCst) >= SLEEPERS {
            self.wake();
        }
    }

    #[inline(never)]
    fn wake(&self) {
        let _gate = self.gate.lock().unwrap();
        self.word.fetch_and(!SLEEPERS, SeqCst);
        self.changed.notify_all();
    }

    #[inline]
    fn lock(&self) {
        self.wait_for(|word| (word == 0).then_some(EXCLUSIVE));
    }

    #[inline]
    fn lock_shared(&self) {
        let readers = self.readers;
        self.wait_for(|word| (word < EXCLUSIVE && word % UPGRADABLE < readers).then(|| word + 1));
    }

    #[inline]
    fn lock_upgradable(&self) {
        let readers = self.readers;
        self.wait_for(|word| {
            (word < UPGRADABLE && word % UPGRADABLE < readers).then(|| word + UPGRADABLE + 1)
        });
    }

    #[inline]
    fn upgrade(&self) {
        self.wait_for(|word| {
            (word == UPGRADABLE + 1 || word == BAR + UPGRADABLE + 1).then(|| word + UPGRADABLE - 1)
        });
    }
}

/// The lock's word goes down by so much when this ends.
pub struct Token<'a>(&'a Raw, u64);

impl Drop for Token<'_> {
    #[inline]
    fn drop(&mut self) {
        self.0.give_up(self.1);
    }
}

/// What shows the value goes before the token.
pub struct Guard<'a, G> {
    shown: G,
    token: Token<'a>,
}

impl<G: Deref> Deref for Guard<'_, G> {
    type Target = G::Target;

    fn deref(&self) -> &G::Target {
        &self.shown
    }
}

impl<G: DerefMut> DerefMut for Guard<'_, G> {
    fn deref_mut(&mut self) -> &mut G::Target {
        &mut self.shown
    }
}

pub struct WordMutex {
    raw: Raw,
    value: Mutex<u64>,
}

impl WordMutex {
    pub fn new() -> WordMutex {
        WordMutex {
            raw: Raw::new(1),
            value: Mutex::new(0),
        }
    }

    #[inline]
    pub fn lock(&self) -> Guard<'_, MutexGuard<'_, u64>> {
        self.raw.lock();
        Guard {
            shown: self.value.lock().unwrap(),
            token: Token(&self.raw, EXCLUSIVE),
        }
    }
}

struct WordRwLock {
    raw: Raw,
    value: RwLock<u64>,
}

impl WordRwLock {
    #[inline]
    fn read(&self) -> Guard<'_, RwLockReadGuard<'_, u64>> {
        self.raw.lock_shared();
        Guard {
            shown: self.value.read().unwrap(),
            token: Token(&self.raw, 1),
        }
    }

    #[inline]
    fn write(&self) -> Guard<'_, RwLockWriteGuard<'_, u64>> {
        self.raw.lock();
        Guard {
            shown: self.value.write().unwrap(),
            token: Token(&self.raw, EXCLUSIVE),
        }
    }

    #[inline]
    fn upgradable_read(&self) -> Guard<'_, RwLockReadGuard<'_, u64>> {
        self.raw.lock_upgradable();
        Guard {
            shown: self.value.read().unwrap(),
            token: Token(&self.raw, UPGRADABLE + 1),
        }
    }

    #[inline]
    fn upgrade<'a>(
        &'a self,
        guard: Guard<'a, RwLockReadGuard<'a, u64>>,
    ) -> Guard<'a, RwLockWriteGuard<'a, u64>> {
        let Guard { shown, mut token } = guard;
        drop(shown);
        self.raw.upgrade();
        token.1 = EXCLUSIVE;
        Guard {
            shown: self.value.write().unwrap(),
            token,
        }
    }

    /// Down from `token.1` to what is worth `left`.
    #[inline]
    fn down<'a, G>(
        &'a self,
        guard: Guard<'a, G>,
        left: u64,
    ) -> Guard<'a, RwLockReadGuard<'a, u64>> {
        let Guard { shown, mut token } = guard;
        drop(shown);
        self.raw.give_up(token.1 - left);
        token.1 = left;
        Guard {
            shown: self.value.read().unwrap(),
            token,
        }
    }
}

impl WordRwLock {
    /// Upgrades, and downgrades twice.
    #[inline]
    fn walk(&self) {
        let mut writer = self.upgrade(self.upgradable_read());
        *writer += 1;
        let upgradable = self.down(writer, UPGRADABLE + 1);
        drop(black_box(self.down(upgradable, 1)));
    }
}

pub fn print(rounds: u64) {
    let mutex = WordMutex::new();
    line("word_twin, Mutex", rounds, || *mutex.lock() += 1);
    line("word_twin, the raw lock alone", rounds, || {
        mutex.raw.lock();
        mutex.raw.give_up(EXCLUSIVE);
    });
    let lock = WordRwLock {
        raw: Raw::new(64),
        value: RwLock::new(0),
    };
    line("word_twin, RwLock read", rounds, || drop(black_box(lock.read())));
    line("word_twin, RwLock write", rounds, || *lock.write() += 1);
    line("word_twin, RwLock upgrade and downgrade", rounds, || lock.walk());
    assert_eq!(mutex.raw.word.load(SeqCst) + lock.raw.word.load(SeqCst), 0);
}
