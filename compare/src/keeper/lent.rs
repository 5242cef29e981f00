//! A keeper's struct as it is lent, between words that no call may touch, and what is told of it behind a call: bytes that
//! the keeper of document 02 tells in the same form.
//!
//! First whether the struct was left alone where it has to be. Then, of a call that asks for a nonce, its bytes; of one that
//! changes the keeper, how many sessions are open, and for each handle that is watched and open the handle, the nonce's size
//! and its bytes.

use super::Step;
use super::kept::LONGEST;
use crate::answer::Said;
use crate::calls::{self, Keeper, Out};

/// The words of a struct, and its bytes.
pub const WORDS: usize = 553;
const BYTES: u64 = 8 * WORDS as u64;

/// What is told first: nothing else was touched; a refused call or one that asks has changed the struct; bytes beside it are
/// changed.
pub const UNHARMED: u8 = 0;
const CHANGED: u8 = 1;
const BESIDE: u8 = 2;

/// What is told in the place of a size where a handle is answered in a way that no keeper does.
const STRANGE: u8 = 0xFF;

const GUARD: [u64; 8] = [0xA5A5_A5A5_A5A5_A5A5; 8];

#[repr(C)]
pub struct Lent {
    before: [u64; 8],
    pub keeper: Keeper,
    behind: [u64; 8],
}

impl Lent {
    pub fn new(opaque: [u64; WORDS]) -> Box<Self> {
        Box::new(Self { before: GUARD, keeper: Keeper { opaque }, behind: GUARD })
    }

    /// Before the first call of a run: zeros, which are an empty keeper, or anything where that call makes one.
    pub fn before(first: &Step) -> Box<Self> {
        Self::new([if matches!(first, Step::New) { 0xC33C_0FF0_9669_1EE1 } else { 0 }; WORDS])
    }

    /// Makes a call, and tells what is to be told behind it.
    pub fn make(&mut self, step: &Step, watched: &[u32], told: &mut Vec<u8>) -> Said {
        let before = self.keeper.opaque;
        let mut said = Said::NOTHING;
        told.clear();
        told.push(UNHARMED);
        said.call(|out| {
            let number = step.make(&mut self.keeper, out);
            if matches!(step, Step::Ask(_)) && number == 0 {
                take_nonce(&self.keeper, out, told);
            }
            number
        });
        let changes = said.number() == 0 && !step.asks();
        told[0] = self.harm(&before, changes);
        if changes {
            self.see(watched, told);
        }
        said
    }

    /// What a call has done that it must not, where it may change the struct or may not.
    fn harm(&self, before: &[u64; WORDS], may_change: bool) -> u8 {
        if self.before != GUARD || self.behind != GUARD {
            BESIDE
        } else if !may_change && self.keeper.opaque != *before {
            CHANGED
        } else {
            UNHARMED
        }
    }

    /// The nonce of a handle; none where the library has none for it that can be one.
    pub fn nonce(&self, handle: u32) -> Option<Vec<u8>> {
        let mut out = [0; 8];
        let number = calls::keeper_ask(handle, &self.keeper, &mut out);
        (number == 0 && is_nonce(out[0], out[1])).then(|| part(&self.keeper, out[0], out[1]).collect())
    }

    /// Tells how many sessions are open, and what is kept for these handles.
    fn see(&self, watched: &[u32], told: &mut Vec<u8>) {
        let mut out = [0; 8];
        calls::keeper_len(&self.keeper, &mut out);
        told.push(u8::try_from(out[0]).unwrap_or(STRANGE));
        for handle in watched {
            let number = calls::keeper_ask(*handle, &self.keeper, &mut out);
            let [from, to, ..] = out;
            match number {
                17 => continue,
                0 if is_nonce(from, to) => {
                    told.extend(handle.to_be_bytes());
                    told.push((to - from) as u8);
                    told.extend(part(&self.keeper, from, to));
                }
                _ => {
                    told.extend(handle.to_be_bytes());
                    told.push(STRANGE);
                }
            }
        }
    }
}

/// Whether this is a part of the struct that can be a nonce.
fn is_nonce(from: u64, to: u64) -> bool {
    from <= to && to <= BYTES && to - from <= LONGEST
}

/// The bytes of a part.
fn part(keeper: &Keeper, from: u64, to: u64) -> impl Iterator<Item = u8> {
    (from as usize..to as usize).map(|at| keeper.opaque[at / 8].to_ne_bytes()[at % 8])
}

/// Tells the bytes of the nonce whose start and end are in the array, and puts its size and 0 there in their place.
fn take_nonce(keeper: &Keeper, out: &mut Out, told: &mut Vec<u8>) {
    let [from, to, ..] = *out;
    if is_nonce(from, to) {
        told.extend(part(keeper, from, to));
        (out[0], out[1]) = (to - from, 0);
    } else {
        (out[0], out[1]) = (u64::MAX, u64::MAX);
    }
}
