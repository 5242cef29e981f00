//! Each frame that passes, read into its parts and written again from them: the same bytes come, but for a frame under
//! the sessions tag without an entry, which no writer makes. Such a command is refused, 3(0,0x8002); such a success is
//! written under the plain tag, without the size of its parameters and so four bytes shorter. A frame is written in the mode
//! of the reading in which it passed, the answer to a bad tag with its tag asked for, and at the same table.

use super::{Desk, Kind};
use crate::answer::Hex;
use crate::by::{self, By, READINGS, TABLES};
use crate::calls::{self, Frame, Handed, OFFSET, RUST, STANDARD_BAD_TAG, Span};
use crate::frame::known::Table;
use crate::frame::make::{self, PLAIN, RSP_COMMAND, SESSIONS};
use crate::judge::RULES;

pub struct Again {
    /// Where the calls are held to the judges.
    pub desk: Desk,
    /// By each of the rules, how many commands and how many responses came to what.
    counts: [[Count; 2]; By::COUNT],
}

#[derive(Clone, Copy, Default)]
struct Count {
    same: u64,
    without_entry: u64,
    differ: u64,
}

impl Again {
    pub fn new() -> Self {
        Self { desk: Desk::new(), counts: Default::default() }
    }

    /// Reads a command, or a response to the command of a code, in each reading and at each table; where it does not pass,
    /// there is nothing to write. Gives the numbers of the rules by which it passes.
    pub fn frame(&mut self, kind: Kind, cc: u32, s: &[u8]) -> Vec<u32> {
        by::sums(READINGS, &TABLES).filter(|&by| self.by_rules(by, kind, cc, s)).collect()
    }

    /// The same of a frame that has to pass in these readings at these tables, and else nowhere.
    pub fn passing(&mut self, (readings, tables): (&[u32], &[u32]), kind: Kind, cc: u32, s: &[u8]) {
        let passes = self.frame(kind, cc, s);
        let made: Vec<u32> = by::sums(readings, tables).collect();
        if passes != made {
            let how = format!("{} passes by the rules {passes:?}, and was made to by {made:?}", Hex(s));
            self.desk.tally(kind).differs_from(RULES, &how);
        }
    }

    fn by_rules(&mut self, by: u32, kind: Kind, cc: u32, s: &[u8]) -> bool {
        let out = &mut [0; 8];
        let parts = match kind {
            Kind::Command => calls::command_parts(by, s, out),
            Kind::Response => calls::response_parts(by, cc, s, out),
        };
        if parts.refusal == 0 {
            self.check(by, kind, cc, &parts.frame, s);
        }
        parts.refusal == 0
    }

    fn check(&mut self, by: u32, kind: Kind, cc: u32, frame: &Frame, s: &[u8]) {
        let (_, table) = by::parts(by);
        let mode = if frame.tag == RSP_COMMAND { table + STANDARD_BAD_TAG } else { by };
        let (number, cc) = match kind {
            Kind::Command => (frame.tag.into(), frame.code),
            Kind::Response => (frame.code, cc),
        };
        let given = Handed {
            handles: part(s, frame.handles),
            sessions: frame.sessions,
            lent: s,
            parameters: part(s, frame.parameters),
        };
        self.judge(mode, kind, number, cc, given, s.len());
        let (mut room, mut out) = (vec![UNWRITTEN; s.len()], [0; 8]);
        let said = match kind {
            Kind::Command => calls::command_write(mode, number as u16, cc, given, &mut room, &mut out),
            Kind::Response => calls::response_write(mode, number, cc, given, &mut room, &mut out),
        };
        let without_entry = frame.tag == SESSIONS && frame.sessions.count == 0;
        let as_it_should = match (without_entry, kind) {
            (false, _) => said == 0 && out[0] == s.len() as u64 && room == s,
            (true, Kind::Command) => {
                said == 3 && out[OFFSET..][..2] == [0, SESSIONS.into()] && room.iter().all(|&byte| byte == UNWRITTEN)
            }
            (true, Kind::Response) => said == 0 && out[0] == s.len() as u64 - 4 && room == plain(s, frame),
        };
        let count = &mut self.counts[By::numbered(by, READINGS).place()][kind as usize];
        match (as_it_should, without_entry) {
            (true, false) => count.same += 1,
            (true, true) => count.without_entry += 1,
            (false, _) => {
                count.differ += 1;
                let how = format!("{} is written again as {}, with the number {said}", Hex(s), Hex(&room));
                self.desk.tally(kind).differs_from(RULES, &how);
            }
        }
    }

    /// The same call, held to the judges.
    fn judge(&mut self, mode: u32, kind: Kind, number: u32, cc: u32, given: Handed, len: usize) {
        let case = &mut self.desk.case;
        (case.kind, case.number, case.cc) = (kind, number, cc);
        case.handles = given.handles.to_vec();
        case.sessions = given.sessions;
        case.lent = given.lent.to_vec();
        case.parameters = given.parameters.to_vec();
        case.room = len;
        self.desk.ask_by(mode);
    }

    /// Tells for a suite what came of all.
    pub fn tell(&self, suite: &str) {
        for by in by::sums(READINGS, &TABLES) {
            let [commands, responses] = self.counts[By::numbered(by, READINGS).place()];
            let words = format!("{}{}", if by::parts(by).0 == RUST { "" } else { " in the standard mode" }, at(by));
            for (what, without, count) in [
                ("commands", "refused by 3(0,32770)", commands),
                ("responses", "written under the plain tag, four bytes shorter", responses),
            ] {
                let Count { same, without_entry, differ } = count;
                let all = same + without_entry + differ;
                print!("{suite}: {all} {what} written again{words}: {same} the same, ");
                println!("{without_entry} under the sessions tag without an entry {without}, {differ} differ");
            }
        }
    }
}

/// The table of the rules, where it is not the crate's.
fn at(by: u32) -> &'static str {
    by::table(by::parts(by).1).filter(|table| *table != Table::Crate).map_or("", by::at)
}

const UNWRITTEN: u8 = 0xEE;

fn part(s: &[u8], span: Span) -> &[u8] {
    &s[span.from..span.to]
}

/// A success without its sessions, in room that was as long as it is with them.
fn plain(s: &[u8], frame: &Frame) -> Vec<u8> {
    let mut bytes = make::fields(PLAIN, 0, 0);
    bytes.extend(part(s, frame.handles));
    bytes.extend(part(s, frame.parameters));
    make::set_size(&mut bytes);
    bytes.resize(s.len(), UNWRITTEN);
    bytes
}
