//! The fixed list's part on writers: frames of the codes at which the tables part, read and written again at each Library table.

use super::{Kind, rules};
use crate::answer::{Answer, Hex};
use crate::by::{self, Given, READINGS, TABLES};
use crate::calls::{self, Handed, Out, STANDARD_BAD_TAG};
use crate::frame::listed::any_row;
use crate::frame::make::{self, RSP_COMMAND};
use crate::frame::{CALLS, Call, Shape, named};
use crate::judge::{self, Case, Judge};
use crate::random::Random;
use std::fmt;

/// A frame that is read, and written again into the first bytes of where it stood, all of which are filled before.
#[derive(Clone)]
struct Rewritten {
    kind: Kind,
    by: u32,
    /// The code of the command that a response answers.
    cc: u32,
    bytes: Vec<u8>,
    room: usize,
}

/// `command_again BYTES ROOM -` or `response_again BYTES CC ROOM`, and the rules behind it.
impl fmt::Display for Rewritten {
    fn fmt(&self, f: &mut fmt::Formatter) -> fmt::Result {
        let (bytes, room) = (Hex(&self.bytes), self.room);
        match self.kind {
            Kind::Command => write!(f, "command_again {bytes} {room} -{}", Given(self.by)),
            Kind::Response => write!(f, "response_again {bytes} {} {room}{}", self.cc, Given(self.by)),
        }
    }
}

impl Case for Rewritten {
    const JUDGES: &'static [Judge<Self>] = &[Judge::document_01(|case, answer| {
        case.make(&RULES, answer);
        true
    })];

    const WRITES_FRAMES: bool = true;

    fn preset(&self, answer: &mut Answer) {
        answer.preset([&self.bytes]);
    }

    fn ours(&self, answer: &mut Answer) {
        self.make(&OURS, answer);
    }

    fn simpler(&self) -> impl Iterator<Item = Self> {
        std::iter::empty()
    }
}

/// Who reads and writes.
struct Hand {
    read: fn(&Call) -> Shape,
    command: fn(u32, u16, u32, Handed, &mut [u8], &mut Out) -> u32,
    response: fn(u32, u32, u32, Handed, &mut [u8], &mut Out) -> u32,
}

const OURS: Hand = Hand { read: |call| call.ours, command: calls::command_write, response: calls::response_write };
const RULES: Hand = Hand { read: |call| call.rules, command: rules::command_write, response: rules::response_write };

impl Rewritten {
    fn make(&self, hand: &Hand, answer: &mut Answer) {
        answer.call(|[bytes], out| {
            let name = if self.kind == Kind::Command { "command_parts" } else { "response_parts" };
            let (mut copy, mut kept) = (bytes.to_vec(), None);
            let refused = (hand.read)(&CALLS[named(name)])(self.by, &mut copy, self.cc, &mut kept, out);
            let Some(frame) = kept.filter(|_| refused == 0) else {
                return refused;
            };
            bytes.fill(0xFF);
            let part = |span: calls::Span| &copy[span.from..span.to];
            let (handles, parameters) = (part(frame.handles), part(frame.parameters));
            let given = Handed { handles, sessions: frame.sessions, lent: &copy, parameters };
            let room = &mut bytes[..self.room];
            let mode = if frame.tag == RSP_COMMAND { by::parts(self.by).1 + STANDARD_BAD_TAG } else { self.by };
            match self.kind {
                Kind::Command => (hand.command)(mode, frame.tag, frame.code, given, room, out),
                Kind::Response => (hand.response)(mode, frame.code, self.cc, given, room, out),
            }
        });
    }
}

/// A command with a session and its success, in each reading, into room that is just enough.
pub fn list(random: &mut Random) {
    for (&table, code) in TABLES[1..].iter().flat_map(|table| [0x191, 0x195, 0x197, 0x199].map(|code| (table, code))) {
        let row = any_row(code);
        for kind in Kind::ALL {
            let command = kind == Kind::Command;
            let area = make::entries(command, 1, (2, 1), random).bytes;
            let good = if command { make::command } else { make::response };
            let bytes = good(&row, Some(&area), &[1, 2], random);
            let room = bytes.len();
            for by in by::sums(READINGS, &[table]) {
                judge::list(&Rewritten { kind, by, cc: code, bytes: bytes.clone(), room }, true);
            }
        }
    }
}
