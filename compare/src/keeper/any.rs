//! Keepers of any bytes: states that no run of calls gives, with counts and sizes beyond every limit and the same handle at
//! several places. Nothing is known of what stands where in them, so they are made without that: random bytes, bytes of two
//! values, four bytes over and over, and keepers of a run in which bytes are changed or stretches copied over others.
//!
//! A call on such a keeper goes in; what it has broken comes out, which has to be nothing. What it answers is held only to
//! what is true of every keeper.

mod make;

use super::count::by_number;
use super::kept::{LONGEST, PLACES};
use super::lent::{Lent, UNHARMED, WORDS};
use super::step::NAMES;
use super::{Pair, Step};
use crate::answer::{Answer, Hex, Said};
use crate::area::Area;
use crate::calls::{self, Keeper};
use crate::judge::{Case, Judge, TOO_LARGE, Tally};
use crate::random::Random;
use crate::shrink;
use std::collections::BTreeMap;
use std::fmt;

/// A call on a keeper of these words.
#[derive(Clone)]
struct Any {
    words: Box<[u64; WORDS]>,
    step: Step,
}

/// The call, then the words that are not 0, each as its bytes behind the place of the first.
impl fmt::Display for Any {
    fn fmt(&self, f: &mut fmt::Formatter) -> fmt::Result {
        write!(f, "{} on a keeper with", self.step)?;
        let mut words = self.words.iter().enumerate().filter(|(_, word)| **word != 0);
        words.try_for_each(|(at, word)| write!(f, " {}:{}", 8 * at, Hex(&word.to_ne_bytes())))
    }
}

impl Case for Any {
    const JUDGES: &'static [Judge<Self>] = &[Judge::document_01(|_, _| true)];

    /// What is broken is lent, as bytes.
    fn preset(&self, answer: &mut Answer) {
        answer.preset([&[]]);
    }

    fn ours(&self, answer: &mut Answer) {
        answer.preset([&self.broken()]);
    }

    fn simpler(&self) -> impl Iterator<Item = Self> {
        let runs = shrink::numbers(WORDS as u64).map(|left| WORDS - left as usize);
        let places = runs.flat_map(|run| (0..=WORDS - run).step_by(run).map(move |at| at..at + run));
        let words = places.filter(|place| self.words[place.clone()].iter().any(|&word| word != 0)).map(|place| {
            let mut words = self.words.clone();
            words[place].fill(0);
            Self { words, ..self.clone() }
        });
        words.chain(self.step.simpler().map(|step| Self { step, ..self.clone() }))
    }
}

// ---- what is true of every keeper

/// What a call can break, by the byte that is shown of it: bytes that have to stay, the struct's or those beside it;
const HARM: u8 = 1;
/// what it says: a number or a field that the call cannot come to;
const SAID: u8 = 2;
/// the limits: more than 64 sessions, or a nonce that is no part of the struct or longer than 64 bytes;
const LIMIT: u8 = 3;
/// that a session is found behind its opening, with its nonce;
const OPENED: u8 = 4;
/// that there is one less behind a closing, and none in a new keeper.
const LEFT: u8 = 5;

impl Any {
    fn broken(&self) -> Vec<u8> {
        let mut lent = Lent::new(*self.words);
        let (before, mut told) = (len(&lent.keeper), Vec::new());
        let named = if let Step::Open(handle, _) = self.step { vec![handle] } else { vec![] };
        let said = lent.make(&self.step, &named, &mut told);
        let later = len(&lent.keeper);
        let opened = match &self.step {
            Step::Open(handle, nonce) if said.number() == 0 => {
                told[2..] == [&handle.to_be_bytes(), [nonce.len() as u8].as_slice(), nonce].concat()
            }
            _ => true,
        };
        let left = match self.step {
            Step::Close(_) if said.number() == 0 => later + 1 == before,
            Step::New => later == 0,
            _ => true,
        };
        let within = [before, later].iter().all(|&len| len <= PLACES as u64);
        let all = [
            (told[0] == UNHARMED, HARM),
            (self.can_be_said(before).contains(&said) || self.gives_a_nonce(&said), SAID),
            (said.number() != TOO_LARGE, SAID),
            (within && said.values().all(|value| value != u64::MAX), LIMIT),
            (opened, OPENED),
            (left, LEFT),
        ];
        all.into_iter().filter(|(holds, _)| !holds).map(|(_, what)| what).collect()
    }

    /// What a call that does not ask for a nonce can come to, on a keeper with so many sessions.
    fn can_be_said(&self, len: u64) -> Vec<Said> {
        let done = gives(&[]);
        match &self.step {
            Step::New => vec![done],
            Step::Open(_, nonce) if nonce.len() as u64 > LONGEST => {
                vec![refuses(15, &[]), refuses(8, &[0, LONGEST, nonce.len() as u64])]
            }
            Step::Open(..) => vec![done, refuses(15, &[]), refuses(16, &[])],
            Step::Answer(..) => match Pair::by_rules(&self.step) {
                Pair::CommandRefused(said) | Pair::ResponseRefused(said) => vec![said],
                Pair::Success(named, given) if named.count != given.count => vec![refuses(13, &[]), refuses(14, &[])],
                Pair::Success(..) => vec![done, refuses(13, &[])],
                Pair::Error | Pair::None => vec![done],
            },
            Step::Close(_) => vec![done, refuses(17, &[])],
            Step::Ask(_) => vec![refuses(17, &[])],
            Step::Len => vec![gives(&[len])],
        }
    }

    /// Whether it asks for a nonce, and is given one.
    fn gives_a_nonce(&self, said: &Said) -> bool {
        matches!(self.step, Step::Ask(_)) && said.values().eq([said.values().next().unwrap_or_default(), 0])
    }
}

fn gives(values: &[u64]) -> Said {
    let mut said = Said::NOTHING;
    said.gives(values);
    said
}

/// A refusal of the keeper's own, which is in no area.
fn refuses(number: u32, fields: &[u64]) -> Said {
    let mut said = Said::NOTHING;
    said.refuses(Area::None, number, fields);
    said
}

fn len(keeper: &Keeper) -> u64 {
    let mut out = [u64::MAX; 8];
    calls::keeper_len(keeper, &mut out);
    out[0]
}

// ---- the calls

/// How many keepers there are, and how many calls are made on each, one after the other.
const KEEPERS: usize = 120_000;
const THINNED: usize = 3_000;
const CALLS: usize = 8;

/// The numbers that have to occur with each call.
const NUMBERS: [&[u32]; NAMES.len()] = [&[0], &[0, 8, 15, 16], &[0, 13, 14, 101], &[0, 17], &[0, 17], &[0]];

pub fn check(random: &mut Random, thin: bool) -> Vec<Tally> {
    let mut tallies = NAMES.map(|name| Tally::new::<Any>(format!("{name} on any bytes")));
    let mut numbers: [BTreeMap<u32, u64>; NAMES.len()] = Default::default();
    for _ in 0..if thin { THINNED } else { KEEPERS } {
        let made = make::keeper(random);
        let mut lent = Lent::new(made.words);
        for _ in 0..CALLS {
            let case = Any { words: Box::new(lent.keeper.opaque), step: made.step(random) };
            let call = case.step.call();
            tallies[call].check(&case);
            let said = lent.make(&case.step, &[], &mut Vec::new());
            *numbers[call].entry(said.number()).or_default() += 1;
        }
    }
    let all_agree = tallies.iter().all(|tally| tally.count().mismatches == 0);
    for (call, numbers) in numbers.iter().enumerate() {
        println!("keeper: {} on any bytes: {}", NAMES[call], by_number(numbers));
        let missing = NUMBERS[call].iter().filter(|number| all_agree && !numbers.contains_key(number));
        missing.for_each(|number| tallies[call].differs_in_all(&format!("no call came to {number}")));
    }
    tallies.into()
}
