// SPDX-License-Identifier: MIT OR Apache-2.0
//! The word of a lock, and that of a condition variable: atomic numbers. In the crate's own tests they record their accesses.
#[cfg(not(test))]
pub(crate) use core::sync::atomic::{AtomicU32 as Word, AtomicU64 as EventWord};
#[cfg(test)]
pub(crate) use recorded::{is_recording, note, record, Access, EventWord, Word, MOST};

#[cfg(test)]
mod recorded {
    extern crate std;
    use crate::driver::Code;
    use core::cell::RefCell;
    use core::ptr;
    use core::sync::atomic::{AtomicU32, AtomicU64, Ordering};
    use std::boxed::Box;
    use std::panic::{catch_unwind, resume_unwind, AssertUnwindSafe};
    use std::vec::Vec;

    /// An access to a word, or a call of futex at its address: 0 for the recorded word or 1 for another one, what it does, and its
    /// numbers.
    pub(crate) type Access = (u32, Code, u64, u64);

    /// A call that makes many more accesses than other threads is cut.
    pub(crate) const MOST: usize = 64;

    struct Cut;

    /// A word that another thread may write.
    pub(crate) trait Written {
        fn write(&self, number: u64);
    }

    struct Record {
        word: *const dyn Written,
        /// What other threads leave in the word before each access, the last one first.
        others: Vec<u64>,
        /// At most so many accesses.
        most: usize,
        accesses: Vec<Access>,
        is_cut: bool,
    }

    std::thread_local!(static RECORD: RefCell<Option<Record>> = const { RefCell::new(None) });

    /// Returns the answer of the call, unless it is cut, and its accesses. Before each access to this word another thread writes.
    pub(crate) fn record<T>(
        word: &(impl Written + 'static),
        others: &[u64],
        call: impl FnOnce() -> T,
    ) -> (Option<T>, Vec<Access>) {
        let (word, most) = (ptr::from_ref(word) as *const dyn Written, others.len() + MOST);
        let others = others.iter().rev().copied().collect();
        RECORD.set(Some(Record { word, others, most, accesses: Vec::new(), is_cut: false }));
        let answer = catch_unwind(AssertUnwindSafe(call));
        let accesses = RECORD.take().expect("nothing else ends it").accesses;
        match answer {
            Ok(answer) => (Some(answer), accesses),
            Err(why) if why.is::<Cut>() => (None, accesses),
            Err(why) => resume_unwind(why),
        }
    }

    /// Whether this thread records a call.
    pub(crate) fn is_recording() -> bool {
        RECORD.with_borrow(Option::is_some)
    }

    /// Records an access at this address. Returns whether there is a record.
    pub(crate) fn note(address: *const u32, code: Code, first: u64, second: u64) -> bool {
        let is_waking = matches!(code, Code::WakeOne | Code::WakeAll | Code::WakeNext | Code::WakeTurn);
        RECORD.with_borrow_mut(|it| {
            let Some(record) = it.as_mut().filter(|it| !it.is_cut) else { return false };
            let is_other = !ptr::addr_eq(record.word, address);
            if let Some(number) = (!is_other && !is_waking).then(|| record.others.pop()).flatten() {
                // SAFETY: the caller of `record` has the word.
                unsafe { &*record.word }.write(number);
            }
            if record.accesses.len() == record.most {
                record.is_cut = true;
                resume_unwind(Box::new(Cut));
            }
            record.accesses.push((is_other.into(), code, first, second));
            true
        })
    }

    macro_rules! recorded_word {
        ($name:ident, $atomic:ident, $number:ident) => {
            #[derive(Debug)]
            #[repr(transparent)]
            pub(crate) struct $name($atomic);

            impl Written for $name {
                fn write(&self, number: u64) {
                    self.0.store(number as $number, Ordering::SeqCst);
                }
            }

            impl $name {
                pub(crate) const fn new(number: $number) -> $name {
                    $name($atomic::new(number))
                }

                /// Records an access to the word, which has to be sequentially consistent.
                fn access(&self, code: Code, first: $number, second: $number, order: Ordering) {
                    if note(self.0.as_ptr().cast(), code, first.into(), second.into()) {
                        assert_eq!(order, Ordering::SeqCst, "the order of {code:?}");
                    }
                }

                pub(crate) fn load(&self, order: Ordering) -> $number {
                    self.access(Code::Load, 0, 0, order);
                    self.0.load(order)
                }

                pub(crate) fn fetch_sub(&self, number: $number, order: Ordering) -> $number {
                    self.access(Code::Subtract, number, 0, order);
                    self.0.fetch_sub(number, order)
                }

                pub(crate) fn compare_exchange(
                    &self,
                    old: $number,
                    new: $number,
                    won: Ordering,
                    lost: Ordering,
                ) -> Result<$number, $number> {
                    self.access(Code::Exchange, old, new, if lost == Ordering::SeqCst { won } else { lost });
                    self.0.compare_exchange(old, new, won, lost)
                }

                pub(crate) const fn as_ptr(&self) -> *mut $number {
                    self.0.as_ptr()
                }
            }
        };
    }

    recorded_word!(Word, AtomicU32, u32);
    recorded_word!(EventWord, AtomicU64, u64);

    impl EventWord {
        pub(crate) fn fetch_or(&self, bits: u64, order: Ordering) -> u64 {
            self.access(Code::Or, bits, 0, order);
            self.0.fetch_or(bits, order)
        }
    }
}
