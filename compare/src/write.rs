//! The write suite: whole commands and responses, written from their parts into lent room.
//!
//! Each call is made in the Rust mode and in the standard one, and a response also with the tag of the answer to a bad tag
//! asked for; most of them at the crate's table, and a part at the Library's too. Document 01's rules, written out with those
//! of the standard mode and of the Library's tables, judge everything. The crate judges at its own table inside document 01's
//! domain, read with document 01's limit on sessions and no other change; in the standard mode too, with its own word on a
//! nonce or an HMAC that is too long, but where that tag is asked for.

mod again;
mod desk;
#[cfg(oracle)]
mod differences;
mod inputs;
mod large;
#[cfg(oracle)]
mod limit;
mod listed;
#[cfg(oracle)]
mod oracle;
mod rules;

pub use again::Again;
pub use desk::Desk;
pub use listed::list;

use crate::answer::{Answer, Hex};
#[cfg(oracle)]
use crate::by::{self, CRATE_ALONE};
use crate::by::{Given, MODES, READINGS};
use crate::calls::{self, Field, Handed, Out, Session, Sessions};
use crate::judge::{Case, Judge, Tally};
use crate::random::Random;
use crate::report::MOST;
use crate::shrink;
use std::fmt;
use std::sync::LazyLock;

#[derive(Clone, Copy, Debug, PartialEq)]
pub enum Kind {
    Command,
    Response,
}

impl Kind {
    pub const ALL: [Self; 2] = [Self::Command, Self::Response];

    pub fn name(self, array: bool) -> &'static str {
        match (self, array) {
            (Self::Command, false) => "command_write",
            (Self::Response, false) => "response_write",
            (Self::Command, true) => "command_write_array",
            (Self::Response, true) => "response_write_array",
        }
    }

    /// The numbers of its modes.
    pub fn modes(self) -> &'static [u32] {
        if self == Self::Command { READINGS } else { MODES }
    }
}

/// A call with its input.
#[derive(Clone)]
pub struct Write {
    pub kind: Kind,
    /// The sessions go in as an array of records, of at most `MOST`; the judges are asked the same either way.
    pub array: bool,
    /// The number of the mode and of the table.
    pub by: u32,
    /// The tag of a command, the code of a response.
    pub number: u32,
    /// The code of the command that is written, or answered.
    pub cc: u32,
    pub handles: Vec<u8>,
    pub sessions: Sessions,
    /// The bytes that the sessions' places point into.
    pub lent: Vec<u8>,
    pub parameters: Vec<u8>,
    /// How many bytes of room are lent.
    pub room: usize,
}

/// What the room holds before a call, as much as is ever lent.
static FILL: LazyLock<Vec<u8>> =
    LazyLock::new(|| (0..1_usize << 20).map(|at| (at * 7 ^ at >> 8) as u8 ^ 0xC3).collect());

/// `NAME NUMBER CC HANDLES COUNT SESSION SESSION SESSION LENT PARAMETERS ROOM`, the room by its length, and behind it
/// the mode where it is not the Rust's, and the table where it is not the crate's.
impl fmt::Display for Write {
    fn fmt(&self, f: &mut fmt::Formatter) -> fmt::Result {
        write!(f, "{} {} {} {} ", self.kind.name(self.array), self.number, self.cc, Hex(&self.handles))?;
        write!(f, "{} {} {} {}", self.sessions, Hex(&self.lent), Hex(&self.parameters), self.room)?;
        write!(f, "{}", Given(self.by))
    }
}

impl Case for Write {
    const JUDGES: &'static [Judge<Self>] = &[
        #[cfg(oracle)]
        Judge::tpm2_protocol(by_crate),
        Judge::document_01(by_document),
    ];

    const WRITES_FRAMES: bool = true;

    /// What is only read is lent too, and has to stay.
    fn preset(&self, answer: &mut Answer) {
        answer.preset([&FILL[..self.room], &self.handles, &self.lent, &self.parameters]);
    }

    fn ours(&self, answer: &mut Answer) {
        let records = self.records();
        let (by, number, tag, cc) = (self.by, self.number, self.number as u16, self.cc);
        self.try_write(answer, |given, room, out| {
            Some(match (self.kind, self.array) {
                (Kind::Command, false) => calls::command_write(by, tag, cc, given, room, out),
                (Kind::Command, true) => calls::command_write_array(by, tag, cc, given.over(&records), room, out),
                (Kind::Response, false) => calls::response_write(by, number, cc, given, room, out),
                (Kind::Response, true) => calls::response_write_array(by, number, cc, given.over(&records), room, out),
            })
        });
    }

    /// Parts that get shorter come with the room as it is, and with as much less as the frame is shorter.
    fn simpler(&self) -> impl Iterator<Item = Self> {
        let refitted = |case: Self| Self { room: (self.room + case.needed()).saturating_sub(self.needed()), ..case };
        let both = move |case: Self| [case.clone(), refitted(case)];
        let sessions = fewer_and_simpler(&self.sessions).map(|sessions| Self { sessions, ..self.clone() });
        let lent = shorter(&self.lent).map(|lent| Self { lent, ..self.clone() });
        let handles = shorter(&self.handles).map(|handles| Self { handles, ..self.clone() });
        let parameters = shorter(&self.parameters).map(|parameters| Self { parameters, ..self.clone() });
        let parts = sessions.chain(parameters).chain(handles).flat_map(both);
        let rooms = shrink::numbers(self.room as u64).map(|n| Self { room: n as usize, ..self.clone() });
        let numbers = shrink::numbers(self.number.into()).map(|n| Self { number: n as u32, ..self.clone() });
        let codes = shrink::numbers(self.cc.into()).map(|n| Self { cc: n as u32, ..self.clone() });
        parts.chain(lent).chain(rooms).chain(numbers).chain(codes)
    }
}

impl Write {
    /// The room that the frame takes, if it passes.
    fn needed(&self) -> usize {
        let command = self.kind == Kind::Command;
        if !command && self.number != 0 {
            return 10;
        }
        let looked_at = self.sessions.three.iter().take(self.sessions.count);
        let entry = |session: &Session| usize::from(session.nonce.size) + usize::from(session.hmac.size) + 5;
        let entries: usize = looked_at.map(|session| entry(session) + if command { 4 } else { 0 }).sum();
        let size = if self.sessions.count > 0 { 4 } else { 0 };
        10 + self.handles.len() + size + entries + self.parameters.len()
    }

    /// The sessions as records. What the fourth and later ones hold is not to be looked at: places past every end.
    fn records(&self) -> [Session; MOST] {
        let nowhere = Field { at: usize::MAX, size: u16::MAX };
        let mut records = [Session { handle: u32::MAX, nonce: nowhere, attributes: u8::MAX, hmac: nowhere }; MOST];
        records[..3].copy_from_slice(&self.sessions.three);
        records
    }

    /// Makes a call, or has a judge write, on what `answer` lends; tells whether it was done.
    fn try_write(&self, answer: &mut Answer, write: impl FnOnce(Handed, &mut [u8], &mut Out) -> Option<u32>) -> bool {
        answer.try_call(|[room, handles, lent, parameters], out| {
            write(Handed { handles, sessions: self.sessions, lent, parameters }, room, out)
        })
    }
}

/// What is handed over without a session.
fn without_sessions<'a>(handles: &'a [u8], parameters: &'a [u8]) -> Handed<'a> {
    Handed { handles, sessions: Sessions::default(), lent: &[], parameters }
}

/// It speaks about every input.
fn by_document(case: &Write, answer: &mut Answer) -> bool {
    case.try_write(answer, |given, room, out| {
        Some(match case.kind {
            Kind::Command => rules::command_write(case.by, case.number as u16, case.cc, given, room, out),
            Kind::Response => rules::response_write(case.by, case.number, case.cc, given, room, out),
        })
    })
}

/// The crate has its own table and the Rust mode alone, and the standard one is the same where the tag of the answer to a bad tag is not asked
/// for, but for a limit on nonces and HMACs.
#[cfg(oracle)]
fn by_crate(case: &Write, answer: &mut Answer) -> bool {
    if !by::sums(READINGS, CRATE_ALONE).any(|by| by == case.by) {
        return false;
    }
    case.try_write(answer, |given, room, out| {
        let asked = limit::Asked { by: case.by, given, needed: case.needed() };
        match case.kind {
            Kind::Command => limit::command_write(asked, case.number as u16, case.cc, room, out),
            Kind::Response => limit::response_write(asked, case.number, case.cc, room, out),
        }
    })
}

// ---- simpler inputs

/// Shorter bytes, or simpler ones; of many only halves, and all of them zeros.
fn shorter(s: &[u8]) -> impl Iterator<Item = Vec<u8>> {
    let many = s.len() > 256;
    let halves = shrink::numbers(s.len() as u64).map(|n| s[..n as usize].to_vec());
    let zeros = s.iter().any(|&byte| byte != 0).then(|| vec![0; s.len()]);
    let each = shrink::bytes(if many { &[] } else { s });
    halves.chain(zeros).chain(each)
}

/// A smaller count, the first session left out, a session that is all zeros, or one of its numbers smaller.
fn fewer_and_simpler(sessions: &Sessions) -> impl Iterator<Item = Sessions> {
    let Sessions { count, three } = *sessions;
    let counts = shrink::numbers(count as u64).map(move |n| Sessions { count: n as usize, three });
    let without_first = Sessions { count: count.saturating_sub(1), three: [three[1], three[2], Session::default()] };
    let later = (count > 1).then_some(without_first);
    let each = (0..3).flat_map(move |at| {
        simpler_session(three[at]).map(move |session| {
            let mut sessions = Sessions { count, three };
            sessions.three[at] = session;
            sessions
        })
    });
    counts.chain(later).chain(each)
}

fn simpler_session(session: Session) -> impl Iterator<Item = Session> {
    let nothing = (session != Session::default()).then_some(Session::default());
    let handles = shrink::numbers(session.handle.into()).map(move |n| Session { handle: n as u32, ..session });
    let attributes =
        shrink::numbers(session.attributes.into()).map(move |n| Session { attributes: n as u8, ..session });
    let nonces = simpler_field(session.nonce).map(move |nonce| Session { nonce, ..session });
    let hmacs = simpler_field(session.hmac).map(move |hmac| Session { hmac, ..session });
    nothing.into_iter().chain(handles).chain(attributes).chain(nonces).chain(hmacs)
}

fn simpler_field(field: Field) -> impl Iterator<Item = Field> {
    let sizes = shrink::numbers(field.size.into()).map(move |n| Field { size: n as u16, ..field });
    sizes.chain(shrink::numbers(field.at as u64).map(move |n| Field { at: n as usize, ..field }))
}

// ---- the suite

pub fn run(random: &mut Random, thin: bool) -> Vec<Tally> {
    #[cfg(oracle)]
    let before = limit::EXPLAINED.so_far();
    let mut desk = Desk::new();
    inputs::each(&mut desk, random, thin);
    desk.tell_alike();
    large::check(&mut desk);
    #[cfg(oracle)]
    {
        let second = "what its view of a TPM2B says of more than 64 bytes";
        limit::EXPLAINED.tell(before, "write", second, desk.tally(Kind::Command));
        differences::show(&mut desk);
    }
    desk.done()
}
