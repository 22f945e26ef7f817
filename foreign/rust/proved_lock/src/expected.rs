// SPDX-License-Identifier: MIT OR Apache-2.0
//! The calls of the archive, whose steps a loop of the tests makes. The driver and the inline steps are compared with it.
extern crate std;
use crate::driver::{Code, LockEventStep, LockStep, IS_LATE};
use crate::first::EXCLUSIVE;
use crate::word::{Access, MOST};
use std::vec::Vec;

/// Words that other threads write.
pub(crate) struct Numbers(Vec<u64>, u64);

impl Numbers {
    pub(crate) fn new(listed: impl Iterator<Item = u64>) -> Numbers {
        Numbers(listed.collect(), 88_172_645_463_325_252)
    }

    fn random(&mut self) -> u64 {
        self.1 ^= self.1 << 13;
        self.1 ^= self.1 >> 7;
        self.1 ^= self.1 << 17;
        self.1
    }

    /// A listed number, or one time in four any number.
    fn any(&mut self) -> u64 {
        let (choice, number) = (self.random(), self.random());
        if choice % 4 == 0 {
            number
        } else {
            self.0[(number >> 32) as usize % self.0.len()]
        }
    }

    /// Passes each listed number, each pair of them if `pairs`, and so many runs of up to twelve random ones.
    pub(crate) fn each(&mut self, pairs: bool, runs: usize, mut act: impl FnMut(&[u64])) {
        for &first in &self.0 {
            act(&[first]);
            self.0.iter().filter(|_| pairs).for_each(|&second| act(&[first, second]));
        }
        for run in 0..runs {
            let others = [(); 12].map(|()| self.any());
            act(&others[..=run % 12]);
        }
    }
}

/// A step on a word of either size.
pub(crate) trait Step {
    /// The greatest number of the word.
    const MAX: u64;

    /// What the step does, and its numbers.
    fn parts(&self) -> (Code, u64, u64);
}

impl Step for LockStep {
    const MAX: u64 = u32::MAX as u64;

    fn parts(&self) -> (Code, u64, u64) {
        assert_eq!(self.place, 0, "{self:?}");
        (self.action, self.first.into(), self.second.into())
    }
}

impl Step for LockEventStep {
    const MAX: u64 = u64::MAX;

    fn parts(&self) -> (Code, u64, u64) {
        (self.action, self.first, self.second)
    }
}

/// Makes the steps of a call from this one on. Returns how it ended, unless it is cut, its accesses, and what the word is then.
pub(crate) fn run<S: Step>(
    others: &[u64],
    has_deadline: bool,
    mut step: S,
    mut next: impl FnMut(u64) -> S,
) -> (Option<Code>, Vec<Access>, u64) {
    let (most, mut others, mut accesses, mut word) = (others.len() + MOST, others.iter(), Vec::new(), 0);
    loop {
        let (code, first, second) = step.parts();
        let is_sleep = matches!(code, Code::Sleep | Code::SleepNext | Code::SleepReader);
        let is_access = is_sleep || matches!(code, Code::Load | Code::Exchange | Code::Subtract | Code::Or);
        if is_access {
            word = others.next().map_or(word, |number| number & S::MAX);
        }
        let access = match code {
            Code::Refused | Code::Done => return (Some(code), accesses, word),
            Code::Spin | Code::Yield => None,
            Code::Unlock => Some((1, Code::Exchange, EXCLUSIVE.into(), 0)),
            Code::Lock => Some((1, Code::Exchange, 0, EXCLUSIVE.into())),
            _ => Some((0, code, first, if is_sleep { 0 } else { second })),
        };
        if access.is_some() && accesses.len() == most {
            return (None, accesses, word);
        }
        accesses.extend(access);
        let found = word;
        step = next(match code {
            Code::Load => found,
            Code::Exchange if found == first => core::mem::replace(&mut word, second),
            Code::Exchange => found,
            Code::Subtract => core::mem::replace(&mut word, found.wrapping_sub(first) & S::MAX),
            Code::Or => core::mem::replace(&mut word, found | first),
            _ if is_sleep && found & u64::from(u32::MAX) == first => IS_LATE.into(),
            Code::Yield if has_deadline => IS_LATE.into(),
            _ => 0,
        });
    }
}
