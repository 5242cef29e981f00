//! Where the calls are made: one case that is changed in place, and a tally for each call and the rules that it is given.

use super::call::{CALLS, Call, Kind, Takes, named};
use super::{Frame, known};
use crate::alike::Alike;
use crate::answer::Answer;
use crate::area::Areas;
use crate::by::{By, CRATE_ALONE, TABLES};
use crate::calls::RUST;
use crate::judge::{self, Case, RULES, Tally};
use crate::random::Random;

pub struct Desk {
    case: Frame,
    /// The tables at which calls are made that take one.
    pub tables: &'static [u32],
    alike: Alike,
    /// Those of each call, in the calls' order.
    tallies: Vec<[Tally; By::COUNT]>,
    setters: [usize; 3],
}

/// The numbers that the calls on some bytes are given, where they take one.
#[derive(Clone, Copy)]
pub struct Numbers {
    /// The code of the command that a response answers.
    pub cc: u32,
    /// What the setters write: a tag, a command code, a response code.
    pub set: [u32; 3],
}

impl Numbers {
    /// A command code, and for the setters numbers of which some are refused.
    pub fn random(random: &mut Random) -> Self {
        let [cc, set_cc] = [(); 2].map(|()| 0x11E + random.number() as u32 % 0x85);
        let tag = if random.byte() < 128 { random.pick(&known::TAGS) } else { random.number() as u16 };
        Self { cc, set: [tag.into(), set_cc, random.number() as u32 % 0x1000] }
    }
}

impl Desk {
    pub fn new() -> Self {
        Self {
            case: Frame { call: &CALLS[0], by: RUST, bytes: Vec::new(), number: 0 },
            tables: CRATE_ALONE,
            alike: Alike::default(),
            tallies: CALLS.iter().map(|call| By::all().map(|by| Tally::of::<Frame>(call.name, by))).collect(),
            setters: ["frame_set_tag", "command_set_cc", "response_set_rc"].map(named),
        }
    }

    /// Lays bytes on the desk: all calls are made on them until others come.
    pub fn lay(&mut self, bytes: &[u8]) {
        self.case.bytes.clear();
        self.case.bytes.extend_from_slice(bytes);
    }

    /// The bytes on the desk, to be changed in place.
    pub fn bytes(&mut self) -> &mut Vec<u8> {
        &mut self.case.bytes
    }

    /// Makes calls at each table, as the inputs say, and then at the crate's alone again.
    pub fn at_each_table(&mut self, inputs: impl FnOnce(&mut Self)) {
        self.tables = &TABLES;
        inputs(self);
        self.tables = CRATE_ALONE;
    }

    /// Makes a call in each reading and at the tables, as far as it takes them, with the number if it takes one.
    pub fn ask(&mut self, call: usize, number: u32) {
        let asked = &CALLS[call];
        asked.numbers(self.tables).for_each(|by| self.ask_by(by, call, number));
        if asked.takes != Takes::Nothing && self.tables == TABLES {
            asked.readings().iter().for_each(|&reading| self.hold_alike(reading, call));
        }
    }

    /// Holds the answers to the call on the desk to each other that a reading has at each table.
    fn hold_alike(&mut self, reading: u32, call: usize) {
        let answers = TABLES.map(|table| {
            self.case.by = table + reading;
            judge::ours(&self.case)
        });
        let tally = &mut self.tallies[call][By::NO_RULES.place()];
        self.alike.hold(self.case.code(), &self.case, &answers, tally);
    }

    /// Makes it by the rules of a number alone.
    pub fn ask_by(&mut self, by: u32, call: usize, number: u32) {
        self.case.call = &CALLS[call];
        self.case.by = by;
        self.case.number = if self.case.call.numbered { number } else { 0 };
        self.tallies[call][CALLS[call].named(by).place()].check(&self.case);
    }

    /// Makes a call in each reading that it takes, at the crate's table, on bytes that are not copied, so that they can be long and many: whether
    /// any byte was changed is not looked at. Where a judge contradicts, the call is made once more as all others are, which
    /// counts and reports it.
    pub fn ask_in_place(&mut self, s: &mut [u8], call: usize, number: u32) {
        let asked = &CALLS[call];
        for by in asked.numbers(CRATE_ALONE) {
            let ours = Answer::in_place(s, |s, kept, out| Some((asked.ours)(by, s, number, kept, out)));
            let ours = ours.expect("our call can be made");
            let mut theirs = [const { None }; Call::JUDGES.len()];
            for (place, says) in theirs.iter_mut().zip(Call::JUDGES) {
                *place = Answer::in_place(s, |s, kept, out| says(asked, by, s, number, kept, out));
            }
            let tally = asked.named(by).place();
            let mut judges = Frame::JUDGES.iter().zip(&theirs);
            if judges.all(|(judge, theirs)| theirs.as_ref().is_none_or(|theirs| judge.agrees(&ours, theirs))) {
                self.tallies[call][tally].agreed(&ours, theirs.iter().map(Option::is_some));
                continue;
            }
            let mismatches = |desk: &Self| desk.tallies[call][tally].count().mismatches;
            let before = mismatches(self);
            self.lay(s);
            self.ask_by(by, call, number);
            assert!(mismatches(self) > before, "{} differs on bytes in their place alone", asked.name);
        }
    }

    /// How many calls were refused because a length is beyond the limit.
    pub fn too_long(&self) -> u64 {
        self.tallies.iter().flatten().map(Tally::too_long).sum()
    }

    /// Counts a mismatch for each area that no refusal has.
    pub fn reach_all_areas(&mut self) {
        let mut areas = Areas::default();
        self.tallies.iter().flatten().for_each(|tally| areas += tally.areas());
        areas.missing().for_each(|how| self.tally(named("command_validate")).differs_from(RULES, &how));
    }

    /// Makes every call of a kind; those that take a number take this one.
    pub fn ask_kind(&mut self, kind: Kind, number: u32) {
        for (at, call) in CALLS.iter().enumerate() {
            if call.kind == kind {
                self.ask(at, number);
            }
        }
    }

    pub fn ask_setters(&mut self, numbers: [u32; 3]) {
        for (setter, number) in self.setters.into_iter().zip(numbers) {
            self.ask(setter, number);
        }
    }

    /// Makes every call that takes bytes.
    pub fn ask_all(&mut self, numbers: Numbers) {
        self.ask_kind(Kind::Header, 0);
        self.ask_kind(Kind::Command, 0);
        self.ask_kind(Kind::Response, numbers.cc);
        self.ask_setters(numbers.set);
    }

    /// Adds the counts of another desk.
    pub fn merge(&mut self, other: &Self) {
        let others = other.tallies.iter().flatten();
        self.tallies.iter_mut().flatten().zip(others).for_each(|(mine, more)| mine.merge(more));
        self.alike.merge(other.alike);
    }

    /// The tally of a call in the Rust reading at the crate's table.
    pub fn tally(&mut self, call: usize) -> &mut Tally {
        &mut self.tallies[call][By::NO_RULES.place()]
    }

    /// Tells what came of calls that differ in their table alone.
    pub fn tell_alike(&mut self, suite: &str) {
        let alike = self.alike;
        alike.tell(suite, self.tally(named("command_validate")));
    }

    /// The counts of the calls that were made.
    pub fn done(self) -> Vec<Tally> {
        self.tallies.into_iter().flatten().filter(|tally| tally.calls() > 0).collect()
    }
}
