//! The two frames of an answer, taken apart in the standard reading at its table by a judge of the frame suite: what the keeper
//! of document 02 has to know of them.

use super::Step;
use crate::answer::Said;
use crate::area::Area;
use crate::by;
use crate::calls::{Frame, STANDARD, Sessions};
use crate::frame::{CALLS, Call, Says, named};

#[derive(Clone, Copy, PartialEq)]
pub enum Pair {
    /// The call takes no frames.
    None,
    /// Its command is, or the number of its table, before it is looked at.
    CommandRefused(Said),
    /// The command passes.
    ResponseRefused(Said),
    /// Both pass, and the response is an error.
    Error,
    /// Both pass, and the response is success: the entries of the command, and of the response.
    Success(Sessions, Sessions),
}

impl Pair {
    /// The frames of a call as a judge takes them apart; none where it cannot be asked, or the number of no table is given.
    pub fn of(step: &Step, judge: Says) -> Option<Self> {
        match step {
            Step::Answer(revision, ..) if by::table(*revision).is_none() => None,
            Step::Answer(revision, command, response) => taken_apart(*revision + STANDARD, command, response, judge),
            _ => Some(Self::None),
        }
    }

    /// Whether there are frames.
    pub fn is_some(&self) -> bool {
        *self != Self::None
    }

    /// As document 01's rules take them apart, which speak about every frame at every table.
    pub fn by_rules(step: &Step) -> Self {
        match step {
            Step::Answer(revision, ..) if by::table(*revision).is_none() => Self::CommandRefused(unnamed(*revision)),
            _ => Self::of(step, Call::by_rules).expect("the rules speak about every frame"),
        }
    }

    /// Whether a judge that names no areas takes the frames apart alike.
    pub fn is_but_for_area(&self, other: &Self) -> bool {
        match (self, other) {
            (Self::CommandRefused(one), Self::CommandRefused(other))
            | (Self::ResponseRefused(one), Self::ResponseRefused(other)) => one.is_but_for_area(other),
            _ => self == other,
        }
    }

    /// Whether the command is refused, and the response to it would be by something else, whatever the command.
    pub fn is_refused_twice(&self, response: &[u8]) -> bool {
        let Self::CommandRefused(refused) = self else {
            return false;
        };
        let said = said(STANDARD, "response_cast", response, 0, Call::by_rules, &mut None).expect("the rules speak");
        said.number() != 0 && said != *refused
    }
}

fn unnamed(revision: u32) -> Said {
    let mut said = Said::NOTHING;
    said.refuses(Area::None, 101, &[0, revision.into()]);
    said
}

fn taken_apart(by: u32, command: &[u8], response: &[u8], judge: Says) -> Option<Pair> {
    let command = match parts(by, "command_parts", command, 0, judge)? {
        Ok(frame) => frame,
        Err(said) => return Some(Pair::CommandRefused(said)),
    };
    Some(match parts(by, "response_parts", response, command.code, judge)? {
        Ok(Frame { code: 0, sessions, .. }) => Pair::Success(command.sessions, sessions),
        Ok(_) => Pair::Error,
        Err(said) => Pair::ResponseRefused(said),
    })
}

/// The parts of a frame, or what is said where it is refused.
fn parts(by: u32, call: &str, s: &[u8], cc: u32, judge: Says) -> Option<Result<Frame, Said>> {
    let mut kept = None;
    let said = said(by, call, s, cc, judge, &mut kept)?;
    Some(if said.number() == 0 { Ok(kept.expect("all parts are given")) } else { Err(said) })
}

/// What a judge says in a call's place; none where it cannot be asked.
fn said(by: u32, call: &str, s: &[u8], cc: u32, judge: Says, kept: &mut Option<Frame>) -> Option<Said> {
    let (mut s, mut said, mut was_asked) = (s.to_vec(), Said::NOTHING, false);
    said.call(|out| {
        let number = judge(&CALLS[named(call)], by, &mut s, cc, kept, out);
        was_asked = number.is_some();
        number.unwrap_or(0)
    });
    was_asked.then_some(said)
}
