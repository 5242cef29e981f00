//! Calls that differ in their table alone: where two tables have the same row for the code that a call is about, or neither
//! has one, both have to give the same answer.

use crate::answer::Answer;
use crate::frame::known::Table;
use crate::judge::{PRINTED, RULES, Tally};
use std::fmt::Display;

/// How many pairs of such calls there were whose code has a row, and how many differ.
#[derive(Clone, Copy, Default)]
pub struct Alike {
    pairs: u64,
    differ: u64,
}

/// The pairs of tables, by their places.
const PAIRS: [(usize, usize); 3] = [(0, 1), (0, 2), (1, 2)];

impl Alike {
    /// Holds our answers to a call at each table, in their order, to each other. Where two differ that may not, that is a
    /// mismatch of the call; of many the first few are told.
    pub fn hold(&mut self, code: u32, call: &impl Display, answers: &[Answer; Table::ALL.len()], tally: &mut Tally) {
        let rows = Table::ALL.map(|table| table.row(code));
        for (one, other) in PAIRS.into_iter().filter(|&(one, other)| rows[one] == rows[other]) {
            self.pairs += u64::from(rows[one].is_some());
            if answers[one] == answers[other] {
                continue;
            }
            self.differ += 1;
            if self.differ <= PRINTED {
                let how = format!("{call} is answered differently at two tables: {}, {}", answers[one], answers[other]);
                tally.differs_from(RULES, &how);
            }
        }
    }

    pub fn merge(&mut self, other: Self) {
        self.pairs += other.pairs;
        self.differ += other.differ;
    }

    /// Tells of all for a suite. There must be some.
    pub fn tell(&self, suite: &str, tally: &mut Tally) {
        let Self { pairs, differ } = self;
        println!("{suite}: {pairs} pairs of calls at two tables that have the same row, {differ} answered differently");
        if *pairs == 0 {
            tally.differs_from(RULES, "no call is made at two tables that have the same row");
        }
    }
}
