//! The reading of every one of the 2^32 response codes, beside the crate's or, where it is not at hand, beside document
//! 01's rules. Codes that can read, and many that cannot, are held to both.

use crate::answer::{Answer, Said};
use crate::area::Area;
use crate::frame::known;
use crate::judge::{self, Case, Judge, PRINTED, RULES, TOO_LARGE, Tally};
use crate::random::Random;
use crate::{calls, shrink};
use std::fmt;
use std::thread;

#[derive(Clone)]
struct Read {
    code: u32,
}

/// `rc_read - CODE -`
impl fmt::Display for Read {
    fn fmt(&self, f: &mut fmt::Formatter) -> fmt::Result {
        write!(f, "rc_read - {} -", self.code)
    }
}

impl Case for Read {
    const JUDGES: &'static [Judge<Self>] = &[
        #[cfg(oracle)]
        Judge::tpm2_protocol(by_crate),
        Judge::document_01(by_document),
    ];

    fn preset(&self, answer: &mut Answer) {
        answer.preset([]);
    }

    fn ours(&self, answer: &mut Answer) {
        ours(self.code, &mut answer.said);
    }

    fn simpler(&self) -> impl Iterator<Item = Self> {
        shrink::numbers(self.code.into()).map(|code| Self { code: code as u32 })
    }
}

#[cfg(oracle)]
fn by_crate(case: &Read, answer: &mut Answer) -> bool {
    crate_says(case.code, &mut answer.said);
    true
}

fn by_document(case: &Read, answer: &mut Answer) -> bool {
    document_says(case.code, &mut answer.said);
    true
}

fn ours(code: u32, said: &mut Said) {
    said.call(|out| calls::rc_read(code, out));
}

#[cfg(oracle)]
fn crate_says(code: u32, said: &mut Said) {
    said.call(|out| crate::oracle::rc_read(code, out));
}

/// Document 01, "Response code": the kind's number, the base, the index, the value; all from Part 2's bits.
fn document_says(code: u32, said: &mut Said) {
    let (warning, fmt1, parameter, n) = (code & 0x800 != 0, code & 0x80 != 0, code & 0x40 != 0, code >> 8 & 15);
    let (kind, base, index) = match n {
        _ if !known::reads(code) => return said.refuses(Area::None, 5, &[0, code.into()]),
        _ if !fmt1 => (u64::from(warning), code, 0),
        _ if parameter => (3, 0x80 | code & 0x3F, n),
        0 => (2, code, 0),
        1..=7 => (4, 0x80 | code & 0x3F, n),
        _ => (5, 0x80 | code & 0x3F, n - 8),
    };
    said.gives(&[kind, base.into(), index.into(), code.into()]);
}

/// The judge of the sweep.
#[cfg(oracle)]
use crate_says as theirs;
#[cfg(not(oracle))]
use document_says as theirs;

/// The kinds of codes, numbered from 0.
const KINDS: usize = 6;

/// How many codes read, kind by kind: 1,212 in all. Of format one, 37 bases have no index, 15 parameters, 7 handles and
/// 8 sessions each.
const READABLE: [u64; KINDS] = [37, 28, 37, 37 * 15, 37 * 7, 37 * 8];

/// What a thread found.
#[derive(Default)]
struct Found {
    calls: u64,
    /// The codes that read, kind by kind.
    readable: [u64; KINDS],
    /// The others on which we agree, and those of them that have an area, where there is no frame.
    refused: u64,
    in_area: u64,
    mismatches: u64,
    /// The first codes that differ: they are reported when all threads are done.
    first: Vec<u32>,
}

impl Found {
    fn agreed(&mut self, said: &Said) {
        if said.number() == 0 {
            let kind = said.values().next().expect("a code that reads has a kind");
            self.readable[kind as usize] += 1;
        } else {
            self.refused += 1;
            self.in_area += u64::from(said.area() != Some(Area::None));
        }
    }

    fn differed(&mut self, code: u32) {
        self.mismatches += 1;
        if self.mismatches <= PRINTED {
            self.first.push(code);
        }
    }

    fn merge(mut self, other: Self) -> Self {
        self.calls += other.calls;
        self.refused += other.refused;
        self.in_area += other.in_area;
        self.mismatches += other.mismatches;
        self.first.extend(other.first);
        for (mine, more) in self.readable.iter_mut().zip(other.readable) {
            *mine += more;
        }
        self
    }
}

/// The tight loop: no room is lent, nothing is allocated, and what is said is never moved.
fn sweep(codes: impl Iterator<Item = u32>) -> Found {
    let mut found = Found::default();
    for code in codes {
        found.calls += 1;
        let (mut we, mut they) = (Said::NOTHING, Said::NOTHING);
        ours(code, &mut we);
        theirs(code, &mut they);
        if we.is_but_for_area(&they) && we.number() != TOO_LARGE { found.agreed(&we) } else { found.differed(code) }
    }
    found
}

/// Codes below this one are never left out, and are held to every judge: no code from it on reads.
const DENSE: u32 = 1 << 16;

/// Where the sweep is thinned, one in so many of the codes above is looked at: a prime, so that all low bits occur.
const STEP: usize = 65_521;

/// Sweeps the codes from `DENSE` on, on every processor its share.
fn sweep_high(step: usize) -> Found {
    let threads = thread::available_parallelism().map_or(1, |n| n.get() as u64);
    let first_of = |share: u64| u64::from(DENSE) + share * (u64::from(u32::MAX - DENSE) + 1) / threads;
    let codes = |share| first_of(share) as u32..=(first_of(share + 1) - 1) as u32;
    thread::scope(|scope| {
        let start = |share| scope.spawn(move || sweep(codes(share).step_by(step)));
        let sweeps: Vec<_> = (0..threads).map(start).collect();
        let found = sweeps.into_iter().map(|sweep| sweep.join().expect("a sweep does not panic"));
        found.fold(Found::default(), Found::merge)
    })
}

pub fn run(thin: bool) -> Tally {
    let mut tally = Tally::new::<Read>("rc_read");
    let high = sweep_high(if thin { STEP } else { 1 });
    for code in (0..DENSE).chain(high.first.iter().copied()) {
        tally.check(&Read { code });
    }
    let again = high.first.len() as u64;
    tally.add(high.calls - again, high.mismatches - again, high.refused);
    if high.in_area > 0 {
        let how = format!("{} codes from {DENSE} on are refused in an area, and there is no frame", high.in_area);
        tally.differs_from(RULES, &how);
    }
    let readable = sweep(0..DENSE).merge(high).readable;
    if tally.count().mismatches == 0 && readable != READABLE {
        tally.differs_in_all(&format!("the codes that read are, by kind, {readable:?}, not {READABLE:?}"));
    }
    tally
}

/// Codes at the edges of document 01's rules.
const EDGES: [u32; 23] = [
    0x000, 0x01E, 0x07F, 0x080, 0x081, 0x0C4, 0x0FF, 0x100, 0x101, 0x143, 0x184, 0x1C4, 0x884, 0x8FF, 0x900, 0x901,
    0x922, 0x924, 0x97F, 0x984, 0xFFF, 0x1000, 0x10C4,
];

/// Prints the edges, some codes of 12 bits, of which a third reads, and some of any size.
pub fn list(random: &mut Random) {
    let mut codes = Vec::from(EDGES);
    codes.extend((0..48).map(|_| random.number() as u32 % (1 << 12)));
    codes.extend((0..16).map(|_| random.number() as u32));
    for code in codes {
        judge::list(&Read { code }, false);
    }
}
