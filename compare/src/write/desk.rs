//! Where the calls are made: one case that is changed in place, and a tally for each writer and mode. A call with few sessions is
//! made a second time with an array of records.

use super::{Kind, Write};
use crate::alike::Alike;
use crate::by::{self, By, CRATE_ALONE, TABLES};
use crate::calls::{RUST, Sessions};
use crate::judge::{self, Tally};
use crate::report::MOST;

pub struct Desk {
    /// The next call.
    pub case: Write,
    /// The tables at which calls are made.
    tables: &'static [u32],
    alike: Alike,
    /// Those of each writer, by value and over an array.
    tallies: [[[Tally; By::COUNT]; 2]; 2],
}

impl Desk {
    pub fn new() -> Self {
        let case = Write {
            kind: Kind::Command,
            array: false,
            by: RUST,
            number: 0,
            cc: 0,
            handles: Vec::new(),
            sessions: Sessions::default(),
            lent: Vec::new(),
            parameters: Vec::new(),
            room: 0,
        };
        let tallies = |kind: Kind, array| By::all().map(|by| Tally::of::<Write>(kind.name(array), by));
        let tallies = [false, true].map(|array| Kind::ALL.map(|kind| tallies(kind, array)));
        Self { case, tables: CRATE_ALONE, alike: Alike::default(), tallies }
    }

    /// Makes calls at each table, as the inputs say, and then at the crate's alone again.
    pub fn at_each_table(&mut self, inputs: impl FnOnce(&mut Self)) {
        self.tables = &TABLES;
        inputs(self);
        self.tables = CRATE_ALONE;
    }

    /// Makes the call that lies on the desk in the mode of a number.
    pub fn ask_by(&mut self, by: u32) {
        let kind = self.case.kind;
        self.case.by = by;
        for array in [false, true] {
            if array && self.case.sessions.count > MOST {
                continue;
            }
            self.case.array = array;
            let tallies = &mut self.tallies[usize::from(array)][kind as usize];
            tallies[By::numbered(by, kind.modes()).place()].check(&self.case);
        }
    }

    /// Makes it with so much room, in each mode.
    pub fn ask_in(&mut self, room: usize) {
        self.ask_in_modes(room, self.case.kind.modes());
    }

    /// Makes it with so much room, in these modes and at the tables.
    pub fn ask_in_modes(&mut self, room: usize, modes: &[u32]) {
        self.case.room = room;
        by::sums(modes, self.tables).for_each(|by| self.ask_by(by));
        if self.tables == TABLES {
            modes.iter().for_each(|&mode| self.hold_alike(mode));
        }
    }

    /// Holds the answers to the call on the desk to each other that a mode has at each table.
    fn hold_alike(&mut self, mode: u32) {
        let answers = TABLES.map(|table| {
            self.case.by = table + mode;
            judge::ours(&self.case)
        });
        let tally = &mut self.tallies[0][self.case.kind as usize][By::NO_RULES.place()];
        self.alike.hold(self.case.cc, &self.case, &answers, tally);
    }

    /// Tells what came of calls that differ in their table alone.
    pub fn tell_alike(&mut self) {
        let alike = self.alike;
        alike.tell("write", self.tally(Kind::Command));
    }

    /// How many calls were made, and how many of them were refused because a length is beyond the limit.
    pub fn calls(&self) -> (u64, u64) {
        let tallies = || self.tallies.iter().flatten().flatten();
        (tallies().map(Tally::calls).sum(), tallies().map(Tally::too_long).sum())
    }

    /// Adds the counts of another desk.
    pub fn merge(&mut self, other: &Self) {
        let others = other.tallies.iter().flatten().flatten();
        self.tallies.iter_mut().flatten().flatten().zip(others).for_each(|(mine, more)| mine.merge(more));
        self.alike.merge(other.alike);
    }

    /// The tally of a writer in the Rust mode at the crate's table.
    pub fn tally(&mut self, kind: Kind) -> &mut Tally {
        &mut self.tallies[0][kind as usize][By::NO_RULES.place()]
    }

    /// The counts of the calls that were made.
    pub fn done(self) -> Vec<Tally> {
        self.tallies.into_iter().flatten().flatten().filter(|tally| tally.calls() > 0).collect()
    }
}
