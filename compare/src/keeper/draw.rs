//! Random runs. Their handles come from a pool, so that they meet: a small one, one of handles that are much alike, or one of
//! more handles than there are places, so that all are taken, freed and taken again. Each run is in one mood after the other:
//! it opens sessions, uses them, or closes them.

use super::{Desk, Kept, Step, frames};
use crate::judge::RULES;
use crate::random::Random;

/// The calls of all runs; thinned, far fewer.
const CALLS: usize = 10_500_000;
const THINNED: usize = 300_000;

/// Behind one call in so many, where it changes the keeper, all of the pool is asked for.
const ALL_EVERY: usize = 16;

pub fn runs(desk: &mut Desk, random: &mut Random, thin: bool) {
    let mut left = if thin { THINNED } else { CALLS };
    while left > 0 {
        let pool = pool(random);
        let calls = left.min(100 + 30 * pool.len() + usize::from(random.byte()));
        one_run(desk, &pool, calls, random);
        left -= calls;
    }
    desk.count.tell();
    let missing = if desk.agrees() { desk.count.missing() } else { vec![] };
    missing.iter().for_each(|(call, what)| desk.tally(*call).differs_from(RULES, what));
}

fn one_run(desk: &mut Desk, pool: &[u32], calls: usize, random: &mut Random) {
    desk.start(pool);
    let mut mood = Mood::Opens;
    for at in 0..calls {
        if random.byte() < 2 {
            mood = random.pick(&[Mood::Opens, Mood::Uses, Mood::Uses, Mood::Closes]);
        }
        let made_first = at == 0 && random.byte() % 2 == 0;
        let (step, named) = if made_first { (Step::New, vec![]) } else { step(mood, desk.kept(), pool, random) };
        let watched = if at % ALL_EVERY == 0 { pool.to_vec() } else { watched(named, pool, random) };
        if desk.take(step, &watched).is_none() {
            return;
        }
    }
}

// ---- pools

/// The handles of a run, with the smallest and the largest of all among them.
fn pool(random: &mut Random) -> Vec<u32> {
    let mut pool = vec![0, u32::MAX];
    match random.byte() % 8 {
        0..2 => pool.extend((0..2 + u32::from(random.byte() % 6)).map(|n| 0x0200_0000 + n)),
        2..4 => pool.extend(alike(random.number() as u32)),
        // policy sessions beside those with an HMAC, and the password's
        4 => pool.extend([0x4000_0009, 0x0200_0000, 0x0300_0000, 0x0200_0001, 0x0300_0001]),
        5 => pool.extend((0..64 + u32::from(random.byte() % 32)).map(|n| 0x0200_0000 + n)),
        _ => pool.extend((0..64 + random.byte() % 32).map(|_| random.number() as u32)),
    }
    pool
}

/// A handle, those with one bit of each byte changed, and those with its bytes in another order.
fn alike(handle: u32) -> impl Iterator<Item = u32> {
    let changed = (0..4).map(move |byte| handle ^ 1 << (8 * byte));
    let turned = (1..4).map(move |bytes| handle.rotate_left(8 * bytes));
    [handle, handle.swap_bytes(), handle ^ 1 << 31].into_iter().chain(changed).chain(turned)
}

fn any(pool: &[u32], random: &mut Random) -> u32 {
    random.pick(pool)
}

/// One that is open or is not, if a few tries find such a one.
fn tried(pool: &[u32], kept: &Kept, open: bool, random: &mut Random) -> u32 {
    let mut handle = any(pool, random);
    for _ in 0..6 {
        if kept.is_open(handle) == open {
            break;
        }
        handle = any(pool, random);
    }
    handle
}

// ---- calls

#[derive(Clone, Copy)]
enum Mood {
    Opens,
    Uses,
    Closes,
}

impl Mood {
    /// Of 256 calls, how many open and how many close.
    fn shares(self) -> (u8, u8) {
        match self {
            Self::Opens => (160, 4),
            Self::Uses => (20, 12),
            Self::Closes => (12, 120),
        }
    }
}

/// A call, and the handles that it names.
fn step(mood: Mood, kept: &Kept, pool: &[u32], random: &mut Random) -> (Step, Vec<u32>) {
    let (opens, closes) = mood.shares();
    match random.byte() {
        0 if random.byte() < 16 => (Step::New, vec![]),
        0..4 => (Step::Len, vec![]),
        4..24 => (Step::Ask(any(pool, random)), vec![]),
        byte if byte - 24 < opens => {
            let handle = tried(pool, kept, random.byte() % 4 == 0, random);
            (Step::Open(handle, nonce(random)), vec![handle])
        }
        byte if byte - 24 - opens < closes => {
            let handle = tried(pool, kept, random.byte() % 4 > 0, random);
            (Step::Close(handle), vec![handle])
        }
        _ => {
            let handles = named(kept, pool, random);
            (frames::answer(&handles, random), handles)
        }
    }
}

/// A first nonce, at times one that is too long, also such whose length is short in fewer bits.
fn nonce(random: &mut Random) -> Vec<u8> {
    let len = match random.byte() {
        0 => random.pick(&[65_535, 65_536, 65_600, 70_000]),
        1..8 => random.pick(&[65, 65, 66, 100, 128, 255, 256, 257, 320]),
        _ => frames::size(random),
    };
    if len > 64 { vec![random.byte(); len] } else { random.bytes(len) }
}

/// The handles of a command: open ones and others, some of them again.
fn named(kept: &Kept, pool: &[u32], random: &mut Random) -> Vec<u32> {
    let count = if random.byte() < 4 { 4 } else { random.pick(&[0, 1, 1, 2, 2, 2, 3, 3, 3]) };
    let mut handles = Vec::new();
    for _ in 0..count {
        let handle = match random.byte() {
            0..32 if !handles.is_empty() => random.pick(&handles),
            byte => tried(pool, kept, byte % 4 > 0, random),
        };
        handles.push(handle);
    }
    handles
}

/// What is asked for behind a call: the handles that it names, and some others.
fn watched(named: Vec<u32>, pool: &[u32], random: &mut Random) -> Vec<u32> {
    let mut watched = named;
    watched.extend((0..2).map(|_| any(pool, random)));
    watched
}
