//! The frame suite: whole commands and responses, their header's fields, their areas, their entries, and the tables that
//! they are read by.
//!
//! Each call that takes rules is made in the Rust reading and in the standard one, most of them at the crate's table, and a
//! part at the Library's too. The crate judges at its own table, wherever safe Rust can ask it, read with document 01's limit
//! on sessions and no other change; in the standard reading too, read with that reading's limit on nonces and HMACs, but for
//! the answer to a bad tag. Document 01's rules, written out with those of the standard reading and of the Library's tables,
//! judge everything, and they alone the area of a refusal.

mod call;
mod desk;
#[cfg(oracle)]
mod differences;
mod inputs;
pub mod known;
#[cfg(oracle)]
mod limit;
pub mod listed;
pub mod make;
#[cfg(oracle)]
pub mod oracle;
pub mod real;
mod rules;

pub use call::{CALLS, Call, Kind, Says, Shape, named};
pub use desk::Desk;
pub use listed::list;

use crate::answer::{Answer, Hex};
use crate::by::Given;
use crate::judge::{Case, Judge, Tally};
use crate::random::Random;
use crate::shrink;
use std::fmt;

/// A call with its input.
#[derive(Clone)]
pub struct Frame {
    pub call: &'static Call,
    /// The number of the rules or of the table by which it judges: 0 for a call that takes none.
    pub by: u32,
    pub bytes: Vec<u8>,
    /// 0 for a call that takes none.
    pub number: u32,
}

/// `NAME BYTES NUMBER -`, with `-` for no bytes and for no number, and behind it the reading where it is not the Rust's, and
/// the table where it is not the crate's.
impl fmt::Display for Frame {
    fn fmt(&self, f: &mut fmt::Formatter) -> fmt::Result {
        let number = if self.call.numbered { self.number.to_string() } else { "-".into() };
        write!(f, "{} {} {number} -{}", self.call.name, Hex(&self.bytes), Given(self.by))
    }
}

impl Case for Frame {
    const JUDGES: &'static [Judge<Self>] = &[
        #[cfg(oracle)]
        Judge::tpm2_protocol(by_crate),
        Judge::document_01(by_document),
    ];

    fn preset(&self, answer: &mut Answer) {
        answer.preset([&self.bytes]);
    }

    fn ours(&self, answer: &mut Answer) {
        answer.try_call_for_parts(|s, kept, out| Some((self.call.ours)(self.by, s, self.number, kept, out)));
    }

    fn simpler(&self) -> impl Iterator<Item = Self> {
        let as_given = shrink::bytes(&self.bytes);
        let resized = shrink::bytes(&self.bytes).flat_map(|bytes| make::resized(&self.bytes, bytes));
        let bytes = as_given.chain(resized).chain(make::emptied(&self.bytes)).map(|bytes| Self { bytes, ..*self });
        let numbers = shrink::numbers(self.number.into()).map(|n| Self { number: n as u32, ..self.clone() });
        bytes.chain(numbers)
    }
}

impl Frame {
    /// The command's code that it is about, as far as it is about one: that of a command, or the number that is given.
    fn code(&self) -> u32 {
        if self.call.kind == Kind::Command { real::code(&self.bytes) } else { self.number }
    }
}

#[cfg(oracle)]
fn by_crate(case: &Frame, answer: &mut Answer) -> bool {
    answer.try_call_for_parts(|s, kept, out| case.call.by_crate(case.by, s, case.number, kept, out))
}

fn by_document(case: &Frame, answer: &mut Answer) -> bool {
    answer.try_call_for_parts(|s, kept, out| case.call.by_rules(case.by, s, case.number, kept, out))
}

pub fn run(random: &mut Random, thin: bool) -> Vec<Tally> {
    #[cfg(oracle)]
    let before = limit::EXPLAINED.so_far();
    let mut desk = Desk::new();
    inputs::each(&mut desk, random, thin);
    desk.reach_all_areas();
    desk.tell_alike("frame");
    #[cfg(oracle)]
    {
        let second = "its taking nonces and HMACs of more than 64 bytes (D17)";
        limit::EXPLAINED.tell(before, "frame", second, desk.tally(named("command_validate")));
        differences::show(&mut desk);
    }
    desk.done()
}
