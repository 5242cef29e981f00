//! Where the calls of a run are made, by the library and by the keeper of document 02, both of which go on from call to call.
//! Where they differ, the run so far is made once more from its start, which counts, reports and shortens it, and ends.

use super::count::Count;
use super::step::NAMES;
use super::{Kept, Lent, Pair, Run, Step};
use crate::answer::Answer;
use crate::by::By;
use crate::frame::{Call, Says};
use crate::judge::Tally;

/// The judges of frames but for the last, which is document 01's rules: these name no areas.
const OTHERS: &[Says] = Call::JUDGES.split_last().expect("the rules are there").1;

pub struct Desk {
    run: Run,
    lent: Box<Lent>,
    kept: Kept,
    pub count: Count,
    tallies: [[Tally; By::COUNT]; NAMES.len()],
    ours: Answer,
    /// What is told behind a call: ours, and theirs.
    told: [Vec<u8>; 2],
}

impl Desk {
    pub fn new() -> Self {
        Self {
            run: Run::default(),
            lent: Lent::before(&Step::Len),
            kept: Kept::default(),
            count: Count::default(),
            tallies: NAMES.map(|name| By::all().map(|by| Tally::of::<Run>(name, by))),
            ours: Answer::new(),
            told: Default::default(),
        }
    }

    /// Starts a run, in which these handles are watched.
    pub fn start(&mut self, watched: &[u32]) {
        self.run = Run { steps: Vec::new(), watched: watched.to_vec() };
        self.kept = Kept::default();
        self.count.start();
    }

    /// What the keeper of document 02 has.
    pub fn kept(&self) -> &Kept {
        &self.kept
    }

    /// The nonce that the library keeps for a handle; none where it is not open.
    pub fn nonce(&self, handle: u32) -> Option<Vec<u8>> {
        self.lent.nonce(handle)
    }

    /// Makes the next call of the run, and where it changes the keeper asks for some handles. Gives the number of both; none
    /// where they differ in anything, and then another run has to be started.
    pub fn take(&mut self, step: Step, watched: &[u32]) -> Option<u32> {
        if self.run.steps.is_empty() {
            self.lent = Lent::before(&step);
        }
        let [ours, theirs] = &mut self.told;
        self.ours.said = self.lent.make(&step, watched, ours);
        let pair = Pair::by_rules(&step);
        self.count.add(&self.kept, &step, &pair, watched.len());
        let right = self.kept.take(&step, &pair);
        self.kept.tell(&step, right.number(), watched, theirs);
        let others: Vec<Option<Pair>> =
            OTHERS.iter().map(|judge| Pair::of(&step, *judge).filter(Pair::is_some)).collect();
        let alike = others.iter().flatten().all(|other| other.is_but_for_area(&pair));
        let same = self.ours.said == right && ours == theirs && alike;
        let tally = &mut self.tallies[step.call()][step.by().place()];
        self.run.steps.push(step);
        if same {
            tally.agreed(&self.ours, others.iter().map(Option::is_some).chain([true]));
            return Some(right.number());
        }
        self.run.watched.extend(watched);
        let before = tally.count().mismatches;
        tally.check(&self.run);
        assert!(tally.count().mismatches > before, "a call differs in a longer run alone: {}", self.run);
        None
    }

    /// Whether nothing differs so far. Where something does, the runs that end there may reach less.
    pub fn agrees(&self) -> bool {
        self.tallies.iter().flatten().all(|tally| tally.count().mismatches == 0)
    }

    /// The tally of a call that names the crate's table or none.
    pub fn tally(&mut self, call: usize) -> &mut Tally {
        &mut self.tallies[call][By::NO_RULES.place()]
    }

    /// The counts of the calls that were made.
    pub fn done(self) -> Vec<Tally> {
        self.tallies.into_iter().flatten().filter(|tally| tally.calls() > 0).collect()
    }
}
