//! The keeper suite: the calls on a nonce keeper, beside a keeper that is written from document 02 (W8) alone and has no
//! places: a map from handles to nonces. Random runs of calls go in, each from an empty keeper. After each call its number,
//! fields and area are held to that keeper's, and what is kept then by what `ask` and `len` tell of it, for where a nonce
//! stands in the lent struct is the library's affair. A call that is refused or only asks leaves every byte, and no call
//! touches one beside the struct.
//!
//! The frames of an answer are judged by document 01's rules in the standard reading, written out, mostly at the crate's table,
//! and there, where the crate is at hand, by the crate too, as in the frame suite: it judges those calls as far as their
//! frames go. States that no run gives are in `any`.

mod any;
mod count;
mod desk;
mod draw;
mod frames;
mod kept;
mod lent;
mod pair;
mod step;

pub use count::{Reached, by_number};
pub use desk::Desk;
pub use step::{ANSWER, CLOSE, OPEN, Step};

use crate::answer::{Answer, Said};
#[cfg(oracle)]
use crate::frame::Call;
use crate::judge::{Case, Judge, Tally};
use crate::random::Random;
use kept::Kept;
use lent::Lent;
use pair::Pair;
use std::fmt;

/// Calls one after the other from an empty keeper, of which the last is judged.
#[derive(Clone, Default)]
struct Run {
    steps: Vec<Step>,
    /// The handles that are asked for behind the last, where it changes the keeper.
    watched: Vec<u32>,
}

/// The last call, then those before it, then the handles.
impl fmt::Display for Run {
    fn fmt(&self, f: &mut fmt::Formatter) -> fmt::Result {
        let (last, before) = self.steps.split_last().expect("a run has a call");
        write!(f, "{last} ")?;
        before.iter().try_for_each(|step| write!(f, "; behind {step} "))?;
        self.watched.iter().try_for_each(|handle| write!(f, "; watched {handle:x} "))
    }
}

impl Case for Run {
    const JUDGES: &'static [Judge<Self>] = &[
        #[cfg(oracle)]
        Judge::tpm2_protocol(by_crate),
        Judge::document_01(by_document),
    ];

    /// What is told behind the call is lent, as bytes.
    fn preset(&self, answer: &mut Answer) {
        answer.preset([&[]]);
    }

    fn ours(&self, answer: &mut Answer) {
        let mut lent = Lent::before(&self.steps[0]);
        let (mut said, mut told) = (Said::NOTHING, Vec::new());
        self.steps.iter().for_each(|step| said = lent.make(step, &self.watched, &mut told));
        put(answer, said, &told);
    }

    fn simpler(&self) -> impl Iterator<Item = Self> {
        let steps = step::fewer_and_simpler(&self.steps).map(|steps| Self { steps, ..self.clone() });
        let watched = (0..self.watched.len()).map(|at| {
            let mut watched = self.watched.clone();
            watched.remove(at);
            Self { watched, ..self.clone() }
        });
        steps.chain(watched)
    }
}

fn put(answer: &mut Answer, said: Said, told: &[u8]) {
    answer.preset([told]);
    answer.said = said;
}

/// It speaks about every run.
fn by_document(case: &Run, answer: &mut Answer) -> bool {
    judged(case, answer, |step| Some(Pair::by_rules(step)))
}

/// The crate is asked about the frames of the last call, and about no call that takes none.
#[cfg(oracle)]
fn by_crate(case: &Run, answer: &mut Answer) -> bool {
    judged(case, answer, |step| Pair::of(step, Call::by_crate).filter(Pair::is_some))
}

/// The run by the keeper of document 02, its last frames taken apart as is said; tells whether they were.
fn judged(case: &Run, answer: &mut Answer, read: impl FnOnce(&Step) -> Option<Pair>) -> bool {
    let (last, before) = case.steps.split_last().expect("a run has a call");
    let Some(pair) = read(last) else {
        return false;
    };
    let (mut kept, mut told) = (Kept::default(), Vec::new());
    for step in before {
        kept.take(step, &Pair::by_rules(step));
    }
    let said = kept.take(last, &pair);
    kept.tell(last, said.number(), &case.watched, &mut told);
    put(answer, said, &told);
    true
}

pub fn run(random: &mut Random, thin: bool) -> Vec<Tally> {
    let mut desk = Desk::new();
    draw::runs(&mut desk, random, thin);
    let mut tallies = desk.done();
    tallies.extend(any::check(random, thin));
    tallies
}
