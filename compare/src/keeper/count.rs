//! What the runs have reached: how many calls came to each number, and how often what document 02 speaks of was the case. A
//! suite that does not reach it all has shown nothing, and fails.

use super::kept::{Kept, LONGEST, PLACES, handles};
use super::step::{ANSWER, NAMES, OPEN};
use super::{Pair, Step};
use crate::area::Areas;
use crate::calls::Sessions;
use crate::frame::make::{self, PLAIN};
use std::collections::{BTreeMap, BTreeSet};

/// The numbers that have to occur with each call, 0 for one that is accepted.
const NUMBERS: [&[u32]; NAMES.len()] =
    [&[0], &[0, 8, 15, 16], &[0, 1, 2, 3, 4, 5, 6, 8, 13, 14, 101], &[0, 17], &[0, 17], &[0]];

/// Refusals that have to be true at once.
const AT_ONCE: [&[u32]; 5] = [&[13, 14], &[15, 8], &[15, 16], &[8, 16], &[15, 8, 16]];

/// What else has to be reached.
#[derive(Clone, Copy)]
pub enum Reached {
    Moved,
    PassedBy,
    PassedByTwice,
    Thrice,
    Error,
    BadTag,
    PlainSuccess,
    RefusedTwice,
    Full,
    OpenedAgain,
}

const REACHED: [&str; 10] = [
    "nonces moved",
    "entries passed by, since their handle is not open",
    "answers accepted with such a handle twice",
    "successes to a command with an open handle three times",
    "errors accepted",
    "answers to a bad tag accepted",
    "successes under the plain tag to a command with sessions",
    "refused commands whose response no command could have",
    "sessions opened that made it 64",
    "sessions opened whose handle was open before in the run",
];

#[derive(Default)]
pub struct Count {
    runs: u64,
    /// Asked behind other calls.
    asked: u64,
    numbers: [BTreeMap<u32, u64>; NAMES.len()],
    at_once: BTreeMap<Vec<u32>, u64>,
    /// The answers that are refused.
    areas: Areas,
    reached: [u64; REACHED.len()],
    /// Nonces moved, by their size.
    sizes: BTreeMap<u16, u64>,
    /// The handles that were opened in the run that goes on.
    opened: BTreeSet<u32>,
}

impl Count {
    pub fn start(&mut self) {
        self.runs += 1;
        self.opened.clear();
    }

    /// Counts a call by what the keeper of document 02 has before it, and the handles that are asked for behind it.
    pub fn add(&mut self, kept: &Kept, step: &Step, pair: &Pair, watched: usize) {
        let said = kept.judge(step, pair);
        let number = said.number();
        *self.numbers[step.call()].entry(number).or_default() += 1;
        let refusals = kept.refusals(step, pair);
        if refusals.len() > 1 {
            *self.at_once.entry(refusals).or_default() += 1;
        }
        if number == 0 && !step.asks() {
            self.asked += watched as u64;
        }
        if step.call() == ANSWER {
            said.area().into_iter().for_each(|area| self.areas.add(area, 1));
        }
        match (step, pair) {
            (Step::Open(handle, _), _) if number == 0 => self.opened(kept, *handle),
            (Step::Answer(_, _, response), Pair::Success(named, given)) => {
                self.succeeded(kept, named, response);
                if number == 0 {
                    self.moved(kept, named, given);
                }
            }
            (Step::Answer(_, _, response), Pair::Error) => {
                self.reach(Reached::Error, 1);
                self.reach(Reached::BadTag, make::is_under_bad_tag(response).into());
            }
            (Step::Answer(_, _, response), _) => {
                self.reach(Reached::RefusedTwice, pair.is_refused_twice(response).into())
            }
            _ => (),
        }
    }

    fn reach(&mut self, what: Reached, times: usize) {
        self.reached[what as usize] += times as u64;
    }

    fn opened(&mut self, kept: &Kept, handle: u32) {
        self.reach(Reached::Full, (kept.len() + 1 == PLACES).into());
        let is_new = self.opened.insert(handle);
        self.reach(Reached::OpenedAgain, (!is_new).into());
    }

    fn succeeded(&mut self, kept: &Kept, named: &Sessions, response: &[u8]) {
        let handles = handles(named);
        let thrice =
            handles.len() == 3 && handles.iter().all(|handle| *handle == handles[0]) && kept.is_open(handles[0]);
        self.reach(Reached::Thrice, thrice.into());
        let is_plain = response.starts_with(&PLAIN.to_be_bytes());
        self.reach(Reached::PlainSuccess, (is_plain && !handles.is_empty()).into());
    }

    fn moved(&mut self, kept: &Kept, named: &Sessions, given: &Sessions) {
        let mut passed = Vec::new();
        for (handle, entry) in handles(named).into_iter().zip(&given.three) {
            if kept.is_open(handle) {
                self.reach(Reached::Moved, 1);
                *self.sizes.entry(entry.nonce.size).or_default() += 1;
            } else {
                passed.push(handle);
            }
        }
        let twice = (1..passed.len()).any(|at| passed[..at].contains(&passed[at]));
        self.reach(Reached::PassedBy, passed.len());
        self.reach(Reached::PassedByTwice, twice.into());
    }

    // ---- what came of all

    /// How many calls of a name came to each number.
    pub fn numbers(&self, call: usize) -> &BTreeMap<u32, u64> {
        &self.numbers[call]
    }

    /// How often something was reached.
    pub fn times(&self, what: Reached) -> u64 {
        self.reached[what as usize]
    }

    pub fn tell(&self) {
        let calls: u64 = self.numbers.iter().flat_map(BTreeMap::values).sum();
        println!("keeper: {} runs of {calls} calls, behind which {} handles are asked for", self.runs, self.asked);
        for (name, numbers) in NAMES.iter().zip(&self.numbers) {
            println!("keeper: {name}: {}", by_number(numbers));
        }
        for (refusals, times) in &self.at_once {
            println!("keeper: {times} calls for which {refusals:?} are true at once");
        }
        self.reached.iter().zip(REACHED).for_each(|(times, what)| println!("keeper: {times} {what}"));
        println!("keeper: {} different sizes of nonces that were moved to", self.sizes.len());
    }

    /// What was not reached, with the call of which it was to be expected.
    pub fn missing(&self) -> Vec<(usize, String)> {
        let numbers = NUMBERS.iter().enumerate().flat_map(|(call, numbers)| numbers.iter().map(move |n| (call, *n)));
        let numbers = numbers.filter(|(call, number)| !self.numbers[*call].contains_key(number));
        let numbers = numbers.map(|(call, number)| (call, format!("no call came to {number}")));
        let at_once = AT_ONCE.iter().filter(|refusals| !self.at_once.contains_key(**refusals));
        let call = |refusals: &[u32]| if refusals.contains(&13) { ANSWER } else { OPEN };
        let at_once = at_once.map(|refusals| (call(refusals), format!("{refusals:?} are never true at once")));
        let areas = self.areas.missing().map(|how| (ANSWER, how));
        let reached = self.reached.iter().zip(REACHED).enumerate().filter(|(_, (times, _))| **times == 0);
        let call = |at: usize| if at >= Reached::Full as usize { OPEN } else { ANSWER };
        let reached = reached.map(|(at, (_, what))| (call(at), format!("there are no {what}")));
        let sizes = (0..=LONGEST).filter(|size| !self.sizes.contains_key(&(*size as u16)));
        let sizes = sizes.map(|size| (ANSWER, format!("no nonce of {size} bytes is moved to")));
        numbers.chain(at_once).chain(areas).chain(reached).chain(sizes).collect()
    }
}

/// `N accepted, N refused by NUMBER, ..`
pub fn by_number(numbers: &BTreeMap<u32, u64>) -> String {
    let accepted = numbers.get(&0).unwrap_or(&0);
    let refused = numbers.iter().filter(|(number, _)| **number != 0);
    let refused: String = refused.map(|(number, times)| format!(", {times} refused by {number}")).collect();
    format!("{accepted} accepted{refused}")
}
