//! The keeper of document 02, W8, written from that text alone: the nonce of each open session by its handle. A call and what
//! its frames are go in; what has to be said comes out, and what is kept changes where the call is not refused.

use super::lent::UNHARMED;
use super::{Pair, Step};
use crate::answer::Said;
use crate::area::Area;
use crate::calls::{Field, Sessions};
use std::collections::BTreeMap;

/// The most sessions that can be open, and the most bytes of a nonce.
pub const PLACES: usize = 64;
pub const LONGEST: u64 = 64;

#[derive(Default)]
pub struct Kept {
    open: BTreeMap<u32, Vec<u8>>,
}

impl Kept {
    pub fn is_open(&self, handle: u32) -> bool {
        self.open.contains_key(&handle)
    }

    /// How many sessions are open.
    pub fn len(&self) -> usize {
        self.open.len()
    }

    /// The numbers of all refusals that are true beside the frames' own, in their order: the first is the answer.
    pub fn refusals(&self, step: &Step, pair: &Pair) -> Vec<u32> {
        let none = (false, 0);
        let in_order = match (step, pair) {
            (Step::Open(handle, nonce), _) => {
                let too_long = nonce.len() as u64 > LONGEST;
                [(self.is_open(*handle), 15), (too_long, 8), (self.len() == PLACES, 16)]
            }
            (Step::Answer(..), Pair::Success(named, given)) => {
                [(self.is_repeated(named), 13), (named.count != given.count, 14), none]
            }
            (Step::Close(handle) | Step::Ask(handle), _) => [(!self.is_open(*handle), 17), none, none],
            _ => [none; 3],
        };
        in_order.into_iter().filter(|(is_true, _)| *is_true).map(|(_, number)| number).collect()
    }

    /// Whether an open handle stands twice among the entries.
    fn is_repeated(&self, named: &Sessions) -> bool {
        let handles = handles(named);
        let again = |at: usize| self.is_open(handles[at]) && handles[..at].contains(&handles[at]);
        (0..named.count).any(again)
    }

    /// The answer to a call, which has not changed anything yet. A frame's refusal is passed on with its area, and the
    /// keeper's own have none.
    pub fn judge(&self, step: &Step, pair: &Pair) -> Said {
        let mut said = Said::NOTHING;
        match (pair, self.refusals(step, pair).first(), step) {
            (Pair::CommandRefused(refused) | Pair::ResponseRefused(refused), _, _) => said = *refused,
            (_, Some(8), Step::Open(_, nonce)) => said.refuses(Area::None, 8, &[0, LONGEST, nonce.len() as u64]),
            (_, Some(&number), _) => said.refuses(Area::None, number, &[]),
            (_, None, Step::Len) => said.gives(&[self.len() as u64]),
            // the second number stands for the nonce's place
            (_, None, Step::Ask(handle)) => said.gives(&[self.open[handle].len() as u64, 0]),
            (_, None, _) => said.gives(&[]),
        }
        said
    }

    /// The same, and the call is made where it is not refused.
    pub fn take(&mut self, step: &Step, pair: &Pair) -> Said {
        let said = self.judge(step, pair);
        if said.number() == 0 {
            self.change(step, pair);
        }
        said
    }

    fn change(&mut self, step: &Step, pair: &Pair) {
        match (step, pair) {
            (Step::New, _) => self.open.clear(),
            (Step::Open(handle, nonce), _) => _ = self.open.insert(*handle, nonce.clone()),
            (Step::Close(handle), _) => _ = self.open.remove(handle),
            (Step::Answer(_, _, response), Pair::Success(named, given)) => {
                for (handle, entry) in handles(named).iter().zip(&given.three) {
                    let Field { at, size } = entry.nonce;
                    if let Some(nonce) = self.open.get_mut(handle) {
                        *nonce = response[at..][..size.into()].to_vec();
                    }
                }
            }
            _ => (),
        }
    }

    /// What is told behind a call that came to a number, in the form of `lent`.
    pub fn tell(&self, step: &Step, number: u32, watched: &[u32], told: &mut Vec<u8>) {
        told.clear();
        told.push(UNHARMED);
        if number != 0 {
            return;
        }
        match step {
            Step::Ask(handle) => told.extend(&self.open[handle]),
            Step::Len => (),
            _ => {
                told.push(self.len() as u8);
                for handle in watched {
                    if let Some(nonce) = self.open.get(handle) {
                        told.extend(handle.to_be_bytes());
                        told.push(nonce.len() as u8);
                        told.extend(nonce);
                    }
                }
            }
        }
    }
}

/// The handles of a command's entries.
pub fn handles(named: &Sessions) -> Vec<u32> {
    named.three[..named.count].iter().map(|entry| entry.handle).collect()
}
