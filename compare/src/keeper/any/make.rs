//! The keepers of any bytes, and the calls on them: their handles are mostly some that stand in the keeper.

use super::{Keeper, Step, WORDS};
use crate::calls;
use crate::keeper::frames;
use crate::random::Random;

/// A keeper that, but by chance, no run gives, and handles that may be open in it.
pub struct Made {
    pub words: [u64; WORDS],
    handles: Vec<u32>,
}

pub fn keeper(random: &mut Random) -> Made {
    let kind = random.byte() % 5;
    let (mut words, mut handles) = match kind {
        0 => ([(); WORDS].map(|()| random.number()), vec![]),
        1 => ([(); WORDS].map(|()| random.number() & 0x0101_0101_0101_0101), vec![]),
        2 => (repeated(random), vec![]),
        _ => of_a_run(random),
    };
    if kind == 3 {
        copy_over(&mut words, random);
    }
    if kind > 1 {
        change(&mut words, random);
    }
    handles.extend((0..8).flat_map(|_| four(&words, random)));
    Made { words, handles }
}

/// The same four bytes over and over.
fn repeated(random: &mut Random) -> [u64; WORDS] {
    let four = u64::from(random.number() as u32);
    [four << 32 | four; WORDS]
}

/// A keeper in which sessions were opened, some or as many as can be, and their handles.
fn of_a_run(random: &mut Random) -> ([u64; WORDS], Vec<u32>) {
    let (mut keeper, mut handles) = (Keeper { opaque: [0; WORDS] }, Vec::new());
    for _ in 0..random.byte() % 72 {
        let (handle, len) = (random.number() as u32, frames::size(random));
        calls::keeper_open(handle, &random.bytes(len), &mut keeper, &mut [0; 8]);
        handles.push(handle);
    }
    (keeper.opaque, handles)
}

/// Copies stretches over others.
fn copy_over(words: &mut [u64; WORDS], random: &mut Random) {
    for _ in 0..=random.byte() % 4 {
        let run = random.pick(&[1, 4, 8, 32, 128]);
        let [from, to] = [(); 2].map(|()| random.number() as usize % (WORDS - run));
        words.copy_within(from..from + run, to);
    }
}

/// Changes a few bytes, every other time some of the last of all.
fn change(words: &mut [u64; WORDS], random: &mut Random) {
    for _ in 0..random.byte() % 8 {
        let at = if random.byte() % 2 == 0 { WORDS - 1 } else { random.number() as usize % WORDS };
        words[at] ^= u64::from(random.byte()) << (8 * (random.byte() % 8));
    }
}

/// Four bytes that stand somewhere in a keeper, as a number in either order.
fn four(words: &[u64; WORDS], random: &mut Random) -> [u32; 2] {
    let word = words[random.number() as usize % WORDS];
    let four = if random.byte() % 2 == 0 { word as u32 } else { (word >> 32) as u32 };
    [four, four.swap_bytes()]
}

impl Made {
    /// A call, for a handle that may be open or for any.
    pub fn step(&self, random: &mut Random) -> Step {
        match random.byte() % 16 {
            0 => Step::Len,
            1 if random.byte() % 8 == 0 => Step::New,
            1..4 => Step::Ask(self.handle(random)),
            4..8 => {
                let len = if random.byte() % 8 == 0 { 65 + usize::from(random.byte()) } else { frames::size(random) };
                Step::Open(self.handle(random), random.bytes(len))
            }
            8..11 => Step::Close(self.handle(random)),
            _ => self.answer(random),
        }
    }

    fn handle(&self, random: &mut Random) -> u32 {
        if random.byte() % 8 == 0 { random.number() as u32 } else { random.pick(&self.handles) }
    }

    fn answer(&self, random: &mut Random) -> Step {
        let mut handles: Vec<u32> = (0..random.byte() % 4).map(|_| self.handle(random)).collect();
        if handles.len() > 1 && random.byte() % 4 == 0 {
            handles[1] = handles[0];
        }
        frames::answer(&handles, random)
    }
}
