//! The rc suite: what a response code says, and the value of a code that is put together from its parts.

mod read;

use crate::answer::Answer;
use crate::area::Area;
use crate::calls;
use crate::judge::{Case, Judge, Tally};
use crate::random::Random;
use crate::shrink;
use std::fmt;

#[derive(Clone)]
struct Value {
    kind: u32,
    base: u32,
    index: u8,
}

/// `rc_value - KIND BASE INDEX`
impl fmt::Display for Value {
    fn fmt(&self, f: &mut fmt::Formatter) -> fmt::Result {
        write!(f, "rc_value - {} {} {}", self.kind, self.base, self.index)
    }
}

impl Case for Value {
    const JUDGES: &'static [Judge<Self>] = &[
        #[cfg(oracle)]
        Judge::tpm2_protocol(by_crate),
        Judge::document_01(by_document),
    ];

    fn preset(&self, answer: &mut Answer) {
        answer.preset([]);
    }

    fn ours(&self, answer: &mut Answer) {
        answer.said.call(|out| calls::rc_value(self.kind, self.base, self.index, out));
    }

    fn simpler(&self) -> impl Iterator<Item = Self> {
        let index = shrink::numbers(self.index.into()).map(|index| Self { index: index as u8, ..*self });
        let base = shrink::numbers(self.base.into()).map(|base| Self { base: base as u32, ..*self });
        let kind = shrink::numbers(self.kind.into()).map(|kind| Self { kind: kind as u32, ..*self });
        index.chain(base).chain(kind)
    }
}

/// The crate's value of a code put together by hand, where it has the base and the kind.
#[cfg(oracle)]
fn by_crate(case: &Value, answer: &mut Answer) -> bool {
    let Some(rc) = crate::oracle::rc_of_parts(case.kind, case.base, case.index) else {
        return false;
    };
    answer.said.gives(&[rc.value().into()]);
    true
}

/// Part 2's bits under document 01's mask. It speaks about every input.
fn by_document(case: &Value, answer: &mut Answer) -> bool {
    let n = |number: u32| (number & 15) << 8;
    let index = u32::from(case.index);
    let bits = match case.kind {
        0..=2 => 0,
        3 => 0x40 | n(index),
        4 => n(index),
        5 => n(index + 8),
        unknown => {
            answer.said.refuses(Area::None, 100, &[0, unknown.into()]);
            return true;
        }
    };
    answer.said.gives(&[u64::from(case.base | bits)]);
    true
}

/// Every index of every kind over all bases of 12 bits, among them all that are known, and over some others.
fn check_values(random: &mut Random) -> Tally {
    let mut tally = Tally::new::<Value>("rc_value");
    let others: Vec<u32> = (0..64).map(|_| random.number() as u32).chain([1 << 31, u32::MAX]).collect();
    for base in (0..1 << 12).chain(others) {
        for kind in (0..=7).chain([u32::MAX]) {
            for index in 0..=u8::MAX {
                tally.check(&Value { kind, base, index });
            }
        }
    }
    tally
}

pub fn run(random: &mut Random, thin: bool) -> Vec<Tally> {
    Vec::from([read::run(thin), check_values(random)])
}

pub use read::list;
