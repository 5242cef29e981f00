//! The inputs of the write suite: each check of document 01's order at its limits, for every row, and all of them mixed.

mod fields;
mod mixed;

use super::{Again, Desk, Kind};
use crate::by::{self, READINGS, TABLES};
use crate::calls::{Field, STANDARD, Session, Sessions};
use crate::edges;
use crate::frame::known::{self, Row, Table};
use crate::frame::make::{self, BAD_TAG, PLAIN, RSP_COMMAND};
use crate::random::Random;
use std::thread;

/// Half of the mixed inputs have a thread, a desk and a seed of their own.
pub fn each(desk: &mut Desk, random: &mut Random, thin: bool) {
    let pool = Pool(random.bytes(POOL));
    let (mut beside, mut seeded) = (Desk::new(), Random::new(random.number()));
    thread::scope(|scope| {
        scope.spawn(|| mixed::each(&mut beside, &pool, &mut seeded, rounds(thin)));
        tags(desk, &pool, random, thin);
        desk.at_each_table(|desk| codes(desk, &pool, random));
        response_codes(desk, &pool, random, thin);
        rows(desk, &pool, random, thin);
        parameters(desk, &pool, random);
        made_frames(desk, random);
        fields::each(desk, &pool, random, thin);
        mixed::each(desk, &pool, random, rounds(thin));
        bad_tag(desk, &pool, random);
        unnamed(desk, &pool, random);
    });
    desk.merge(&beside);
}

/// Mixed inputs of a thread.
fn rounds(thin: bool) -> usize {
    if thin { 20_000 } else { 2_000_000 }
}

/// Bytes enough for six fields of the largest length.
const POOL: usize = 1 << 19;

/// Random bytes, from which every input takes a part.
struct Pool(Vec<u8>);

impl Pool {
    /// Lays so many bytes of the pool into the place.
    fn fill(&self, place: &mut Vec<u8>, len: usize, random: &mut Random) {
        let from = random.number() as usize % (self.0.len() - len + 1);
        place.clear();
        place.extend_from_slice(&self.0[from..][..len]);
    }
}

/// Counts far beyond three, of which the first two are 0 when they are cut to 32 bits.
const COUNTLESS: [usize; 3] = [1 << 32, 1 << 63, usize::MAX];

/// From no session to one more than the crate takes, then counts beyond any.
fn counts() -> impl Iterator<Item = usize> {
    (0..=9).chain(COUNTLESS)
}

/// Lays a frame on the desk that passes if so many sessions do: those that there are stand one behind the other in the
/// lent bytes, and behind the count there is garbage.
fn good(desk: &mut Desk, kind: Kind, row: &Row, sessions: (usize, [usize; 2]), pool: &Pool, random: &mut Random) {
    let (count, lengths) = sessions;
    let case = &mut desk.case;
    case.kind = kind;
    case.cc = row.code;
    let mut end = 1;
    let three = [0, 1, 2].map(|at| {
        if at >= count {
            return garbage(random);
        }
        let [nonce, hmac] = lengths.map(|size| {
            let field = Field { at: end, size: size as u16 };
            end += size;
            field
        });
        Session { handle: random.number() as u32, nonce, attributes: random.byte(), hmac }
    });
    case.sessions = Sessions { count, three };
    pool.fill(&mut case.lent, end, random);
    pool.fill(&mut case.handles, 4 * handles(kind, row), random);
    let few = usize::from(random.byte() % 7);
    pool.fill(&mut case.parameters, few, random);
    case.number = match kind {
        Kind::Command => 0x8001 + u32::from(count > 0),
        Kind::Response => 0,
    };
}

/// A session whose fields are not there.
fn garbage(random: &mut Random) -> Session {
    let [nonce, hmac] = [(); 2].map(|()| Field { at: random.number() as usize, size: random.number() as u16 });
    Session { handle: random.number() as u32, nonce, attributes: random.byte(), hmac }
}

fn handles(kind: Kind, row: &Row) -> usize {
    if kind == Kind::Command { row.handles } else { row.responses }
}

/// Makes the call on the desk with room that is one short, just enough, one over, much longer, and none at all.
fn in_rooms(desk: &mut Desk) {
    in_rooms_by(desk, desk.case.kind.modes());
}

/// The same in these modes alone.
fn in_rooms_by(desk: &mut Desk, modes: &[u32]) {
    let needed = desk.case.needed();
    for room in [needed, needed - 1, needed + 1, needed + 1_000, 0] {
        desk.ask_in_modes(room, modes);
    }
}

// ---- one check at a time

/// Every tag, with counts that fit the one or the other of the two.
fn tags(desk: &mut Desk, pool: &Pool, random: &mut Random, thin: bool) {
    let row = known::row(0x15E).expect("a row");
    let step = if thin { 17 } else { 1 };
    for tag in (0..=u16::MAX).filter(|&tag| tag % step == 0 || known::is_tag(tag)) {
        for count in [0, 1, 2, 3, 4, usize::MAX] {
            good(desk, Kind::Command, &row, (count, [3, 2]), pool, random);
            desk.case.number = tag.into();
            let needed = desk.case.needed();
            [needed, needed - 1].into_iter().for_each(|room| desk.ask_in(room));
        }
    }
}

/// Codes with a row and without, with handle bytes for each number of handles: at each table.
fn codes(desk: &mut Desk, pool: &Pool, random: &mut Random) {
    let any = known::row(0x144).expect("a row");
    let codes = (0..0x400).chain(0x1FFF_FF00..0x2000_0100).chain([1 << 31, u32::MAX - 1, u32::MAX]);
    for (code, kind) in codes.flat_map(|code| Kind::ALL.map(|kind| (code, kind))) {
        for (count, handles) in [0, 1, 3, 4].iter().flat_map(|&count| [0, 4, 8, 12].map(|len| (count, len))) {
            good(desk, kind, &any, (count, [0, 1]), pool, random);
            desk.case.cc = code;
            pool.fill(&mut desk.case.handles, handles, random);
            let needed = desk.case.needed();
            [needed, needed - 1].into_iter().for_each(|room| desk.ask_in(room));
        }
    }
}

/// Response codes, of which the last that reads is below 0x1000: with sessions, with handle bytes that the row does not
/// ask for, and with room around that of a bare header.
fn response_codes(desk: &mut Desk, pool: &Pool, random: &mut Random, thin: bool) {
    let rows = [0x144, 0x131].map(|code| known::row(code).expect("a row"));
    let high = (12..32).flat_map(|bit| [1 << bit, 1 << bit | 0x184, (1 << bit) - 1]).chain([u32::MAX]);
    let step = if thin { 31 } else { 1 };
    for code in (0..0x2000).filter(|&code| code % step == 0 || known::reads(code)).chain(high) {
        for (row, count) in rows.iter().flat_map(|row| [0, 1, 3, 4, usize::MAX].map(|count| (row, count))) {
            good(desk, Kind::Response, row, (count, [1, 1]), pool, random);
            desk.case.number = code;
            for handles in [4 * row.responses, 3] {
                pool.fill(&mut desk.case.handles, handles, random);
                [0, 9, 10, 11, 60].into_iter().for_each(|room| desk.ask_in(room));
            }
        }
    }
}

/// Every row with every count of sessions, with handle bytes around what it asks for, and with parameters and none.
fn rows(desk: &mut Desk, pool: &Pool, random: &mut Random, thin: bool) {
    for (row, kind) in known::rows().flat_map(|row| Kind::ALL.map(|kind| (Row { ..row }, kind))) {
        let asked = 4 * handles(kind, &row);
        let mut lengths = edges::near(&[0, asked]);
        lengths.extend([asked.saturating_sub(4), asked + 4, 100]);
        for (count, len) in counts().flat_map(|count| lengths.iter().map(move |&len| (count, len))) {
            if thin && len != asked && random.byte() > 31 {
                continue;
            }
            for parameters in [0, 1, 13] {
                good(desk, kind, &row, (count, random.pick(&[[0, 0], [1, 0], [0, 2], [20, 32]])), pool, random);
                pool.fill(&mut desk.case.handles, len, random);
                pool.fill(&mut desk.case.parameters, parameters, random);
                in_rooms(desk);
            }
        }
    }
}

/// Parameters around each byte of their size, and around what is copied at once.
fn parameters(desk: &mut Desk, pool: &Pool, random: &mut Random) {
    let row = known::row(0x131).expect("a row");
    let lengths = edges::near(&[256, 4_096, 65_536]).into_iter().chain([70_000, 300_000]);
    for (len, kind) in lengths.flat_map(|len| Kind::ALL.map(|kind| (len, kind))) {
        for count in 0..=3 {
            good(desk, kind, &row, (count, [20, 32]), pool, random);
            pool.fill(&mut desk.case.parameters, len, random);
            in_rooms(desk);
        }
    }
}

/// Frames of every row of any table, with each number of entries and without an area, written again from their parts; and bare
/// errors, the answer to a bad tag among them, which passes in the standard reading alone. Each passes at the tables that have
/// the row.
fn made_frames(desk: &mut Desk, random: &mut Random) {
    let mut again = Again::new();
    for row in known::rows().chain(Table::Lib159.row(0x197)) {
        let tables = TABLES.into_iter().zip(Table::ALL).filter(|(_, table)| table.row(row.code).is_some());
        let tables: Vec<u32> = tables.map(|(number, _)| number).collect();
        for count in [None, Some(0), Some(1), Some(2), Some(3)] {
            for parameters in [0, 1, 20] {
                let [command, response] = [true, false].map(|command| {
                    let entries = make::entries(command, count.unwrap_or(0), (20, 32), random).bytes;
                    let make = if command { make::command } else { make::response };
                    make(&row, count.map(|_| entries.as_slice()), &random.bytes(parameters), random)
                });
                again.passing((READINGS, &tables), Kind::Command, row.code, &command);
                again.passing((READINGS, &tables), Kind::Response, row.code, &response);
            }
        }
        for (readings, tag, code) in
            [(READINGS, PLAIN, 0x101), (READINGS, PLAIN, BAD_TAG), (&[STANDARD], RSP_COMMAND, BAD_TAG)]
        {
            again.passing((readings, &tables), Kind::Response, row.code, &make::fields(tag, 10, code));
        }
    }
    again.tell("write");
    desk.merge(&again.desk);
}

/// The code of the answer to a bad tag, those beside it, success, and others that read and do not: for commands with a row
/// and without one, with up to nine sessions, in room around that of a bare header.
fn bad_tag(desk: &mut Desk, pool: &Pool, random: &mut Random) {
    let codes = [0, 1, BAD_TAG - 1, BAD_TAG, BAD_TAG + 1, 0x30, 0xC4, 0x101, 0x184, 0x922, 0x1000 | BAD_TAG, u32::MAX];
    let rows = [0x144, 0x131].map(|code| known::row(code).expect("a row"));
    let commands = rows.iter().flat_map(|row| [(row, row.code), (row, 0x197)]);
    for ((row, cc), code) in commands.flat_map(|command| codes.map(|code| (command, code))) {
        for count in 0..=9 {
            good(desk, Kind::Response, row, (count, [1, 2]), pool, random);
            (desk.case.cc, desk.case.number) = (cc, code);
            (0..=12).for_each(|room| desk.ask_in(room));
        }
    }
    for row in known::rows() {
        good(desk, Kind::Response, &row, (0, [0, 0]), pool, random);
        desk.case.number = BAD_TAG;
        in_rooms(desk);
    }
}

/// Each writer with numbers that name no mode, of what else would be written and would be refused.
fn unnamed(desk: &mut Desk, pool: &Pool, random: &mut Random) {
    let row = known::row(0x131).expect("a row");
    for (kind, count) in Kind::ALL.iter().flat_map(|&kind| [0, 1, 4].map(|count| (kind, count))) {
        good(desk, kind, &row, (count, [1, 2]), pool, random);
        let numbers: Vec<u32> = by::unnamed(kind.modes()).collect();
        in_rooms_by(desk, &numbers);
        desk.case.cc = 0x197;
        in_rooms_by(desk, &numbers);
    }
}
