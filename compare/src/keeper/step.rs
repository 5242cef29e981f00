//! One call on a keeper with its input, and the simpler ones of it.

use crate::answer::Hex;
use crate::by::{By, Given, NO_READING};
use crate::calls::{self, Keeper, Out};
use crate::frame::make;
use crate::shrink;
use std::fmt;

#[derive(Clone)]
pub enum Step {
    New,
    Open(u32, Vec<u8>),
    /// The number of a table, a command, and the response to it.
    Answer(u32, Vec<u8>, Vec<u8>),
    Close(u32),
    Ask(u32),
    Len,
}

/// The names of the calls, in the order of the steps.
pub const NAMES: [&str; 6] = ["keeper_new", "keeper_open", "keeper_answer", "keeper_close", "keeper_ask", "keeper_len"];

/// Where some of them stand among all.
pub const OPEN: usize = 1;
pub const ANSWER: usize = 2;
pub const CLOSE: usize = 3;

impl Step {
    /// Where its call stands among all.
    pub fn call(&self) -> usize {
        match self {
            Self::New => 0,
            Self::Open(..) => OPEN,
            Self::Answer(..) => ANSWER,
            Self::Close(_) => CLOSE,
            Self::Ask(_) => 4,
            Self::Len => 5,
        }
    }

    /// What it judges by.
    pub fn by(&self) -> By {
        if let Self::Answer(revision, ..) = self { By::numbered(*revision, NO_READING) } else { By::NO_RULES }
    }

    /// Whether it only asks, and leaves the keeper as it is.
    pub fn asks(&self) -> bool {
        matches!(self, Self::Ask(_) | Self::Len)
    }

    pub fn make(&self, keeper: &mut Keeper, out: &mut Out) -> u32 {
        match self {
            Self::New => calls::keeper_new(keeper, out),
            Self::Open(handle, nonce) => calls::keeper_open(*handle, nonce, keeper, out),
            Self::Answer(revision, command, response) => {
                calls::keeper_answer(*revision, command, response, keeper, out)
            }
            Self::Close(handle) => calls::keeper_close(*handle, keeper, out),
            Self::Ask(handle) => calls::keeper_ask(*handle, keeper, out),
            Self::Len => calls::keeper_len(keeper, out),
        }
    }

    pub fn simpler(&self) -> Box<dyn Iterator<Item = Self> + '_> {
        match self {
            Self::New | Self::Len => Box::new(std::iter::empty()),
            Self::Open(handle, nonce) => {
                let nonces = shorter(nonce).map(|nonce| Self::Open(*handle, nonce));
                Box::new(nonces.chain(smaller(*handle).map(|handle| Self::Open(handle, nonce.clone()))))
            }
            Self::Answer(at, command, response) => {
                let responses = simpler_frame(response).map(|response| Self::Answer(*at, command.clone(), response));
                let commands = simpler_frame(command).map(|command| Self::Answer(*at, command, response.clone()));
                Box::new(responses.chain(commands))
            }
            Self::Close(handle) => Box::new(smaller(*handle).map(Self::Close)),
            Self::Ask(handle) => Box::new(smaller(*handle).map(Self::Ask)),
        }
    }
}

/// `NAME HANDLE BYTES BYTES`, as far as the call takes them, and behind them the table where it is not the crate's.
impl fmt::Display for Step {
    fn fmt(&self, f: &mut fmt::Formatter) -> fmt::Result {
        write!(f, "{}", NAMES[self.call()])?;
        match self {
            Self::New | Self::Len => Ok(()),
            Self::Open(handle, nonce) => write!(f, " {handle:x} {}", Hex(nonce)),
            Self::Answer(revision, command, response) => {
                write!(f, " {} {}{}", Hex(command), Hex(response), Given(*revision))
            }
            Self::Close(handle) | Self::Ask(handle) => write!(f, " {handle:x}"),
        }
    }
}

// ---- simpler calls

fn smaller(handle: u32) -> impl Iterator<Item = u32> {
    shrink::numbers(handle.into()).map(|n| n as u32)
}

/// Fewer bytes, or as many zeros.
fn shorter(nonce: &[u8]) -> impl Iterator<Item = Vec<u8>> {
    let lengths = shrink::numbers(nonce.len() as u64).map(|n| nonce[..n as usize].to_vec());
    let zeros = nonce.iter().any(|&byte| byte != 0).then(|| vec![0; nonce.len()]);
    lengths.chain(zeros)
}

fn simpler_frame(frame: &[u8]) -> impl Iterator<Item = Vec<u8>> {
    let as_given = shrink::bytes(frame);
    let resized = shrink::bytes(frame).flat_map(|bytes| make::resized(frame, bytes));
    as_given.chain(resized).chain(make::emptied(frame))
}

/// A run of more steps than these is made shorter, but none of its steps before the last is made simpler.
const FEW: usize = 16;

/// Without some of the steps before the last, the longest runs of them first; then with one of the steps made simpler.
pub fn fewer_and_simpler(steps: &[Step]) -> impl Iterator<Item = Vec<Step>> {
    let before = steps.len() - 1;
    let fewer = shrink::numbers(before as u64).flat_map(move |left| {
        let run = before - left as usize;
        (0..=before - run).step_by(run).map(move |at| [&steps[..at], &steps[at + run..]].concat())
    });
    let from = if before > FEW { before } else { 0 };
    let simpler = steps.iter().enumerate().skip(from).flat_map(move |(at, step)| {
        step.simpler().map(move |step| {
            let mut steps = steps.to_vec();
            steps[at] = step;
            steps
        })
    });
    fewer.chain(simpler)
}
