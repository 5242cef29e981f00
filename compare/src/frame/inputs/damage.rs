//! Good frames of every row, and real ones: changed in every byte, cut at every length, with bytes behind them, their
//! fields set; and any bytes behind a good header.

use crate::by::{CRATE_ALONE, TABLES};
use crate::frame::call::{Kind, named};
use crate::frame::desk::{Desk, Numbers};
use crate::frame::known::{self, Row, Table};
use crate::frame::{make, real};
use crate::random::Random;

/// One of so many of any bytes is asked about at each table, the others at the crate's alone.
const EACH_TABLE: usize = 64;

pub fn each(desk: &mut Desk, random: &mut Random, thin: bool) {
    for row in known::rows() {
        of_row(desk, &row, random, thin);
        for round in 0..if thin { 10 } else { 4_000 } {
            desk.tables = if round % EACH_TABLE == 0 { &TABLES } else { CRATE_ALONE };
            anything(desk, &row, random);
        }
        desk.tables = CRATE_ALONE;
    }
    // the one row of a Library table that the crate's lacks
    let row = Table::Lib159.row(0x197).expect("a row");
    desk.at_each_table(|desk| of_row(desk, &row, random, true));
    for (command, response) in real::pairs() {
        let cc = real::code(&command);
        for (kind, frame) in [(Kind::Command, &command), (Kind::Response, &response)] {
            whole(desk, frame, cc, random);
            changed(desk, kind, frame, cc, random, thin);
            cut(desk, kind, frame, cc, random);
        }
    }
}

fn of_row(desk: &mut Desk, row: &Row, random: &mut Random, thin: bool) {
    for count in [None, Some(0), Some(1), Some(2), Some(3), Some(4)] {
        for kind in [Kind::Command, Kind::Response] {
            let frame = good(kind, row, count, random);
            whole(desk, &frame, row.code, random);
            for_others(desk, kind, &frame, thin);
            changed(desk, kind, &frame, row.code, random, thin);
            cut(desk, kind, &frame, row.code, random);
            with_tail(desk, kind, &frame, row.code, random);
        }
    }
}

/// A frame with so many entries, short ones so that each byte matters; none under the plain tag.
fn good(kind: Kind, row: &Row, count: Option<usize>, random: &mut Random) -> Vec<u8> {
    let lengths = random.pick(&[(0, 0), (1, 0), (0, 2), (3, 4)]);
    let entries = make::entries(kind == Kind::Command, count.unwrap_or(0), lengths, random);
    let area = count.map(|_| entries.bytes.as_slice());
    let few = usize::from(random.byte() % 7);
    let parameters = random.bytes(few);
    match kind {
        Kind::Command => make::command(row, area, &parameters, random),
        _ => make::response(row, area, &parameters, random),
    }
}

/// All calls, also those of the other kind, and every setter with every tag and with codes that it takes and refuses.
fn whole(desk: &mut Desk, frame: &[u8], cc: u32, random: &mut Random) {
    desk.lay(frame);
    desk.ask_all(Numbers { cc, ..Numbers::random(random) });
    for tag in known::TAGS {
        desk.ask_setters([tag.into(), random.number() as u32, random.number() as u32 % 0x1000]);
    }
    desk.ask(named("command_set_cc"), cc);
}

/// A response to a command of one row, judged for those of all others, and for codes that have no row.
fn for_others(desk: &mut Desk, kind: Kind, frame: &[u8], thin: bool) {
    if kind != Kind::Response {
        return;
    }
    desk.lay(frame);
    let checks = ["response_validate", "response_parts"].map(named);
    for code in known::rows().map(|row| row.code).chain([0, 0x197]).step_by(if thin { 16 } else { 1 }) {
        checks.iter().for_each(|&check| desk.ask(check, code));
    }
}

/// One byte changed: to every value, or thinned to some.
fn changed(desk: &mut Desk, kind: Kind, frame: &[u8], cc: u32, random: &mut Random, thin: bool) {
    desk.lay(frame);
    for (at, &right) in frame.iter().enumerate() {
        let few = [0, 1, 0x7F, 0x80, 0xFF, right ^ 1, right.wrapping_add(1), random.byte()];
        let every: [u8; 256] = std::array::from_fn(|n| n as u8);
        let values: &[u8] = if thin { &few[at % 4 * 2..][..2] } else { &every };
        for &value in values {
            desk.bytes()[at] = value;
            desk.ask_kind(kind, cc);
        }
        desk.bytes()[at] = right;
    }
}

/// Cut at every length, with the size that it had and with the size that it has then.
fn cut(desk: &mut Desk, kind: Kind, frame: &[u8], cc: u32, random: &mut Random) {
    for len in 0..frame.len() {
        desk.lay(&frame[..len]);
        desk.ask_all(Numbers { cc, ..Numbers::random(random) });
        if len >= 10 {
            make::set_size(desk.bytes());
            desk.ask_kind(kind, cc);
        }
    }
}

/// Bytes behind the frame, some of which look like another frame.
fn with_tail(desk: &mut Desk, kind: Kind, frame: &[u8], cc: u32, random: &mut Random) {
    let tail = [frame, &random.bytes(8)].concat();
    for len in (0..=12).chain([frame.len(), tail.len()]) {
        let behind = if len % 2 == 0 { tail[..len.min(tail.len())].to_vec() } else { random.bytes(len) };
        desk.lay(&[frame, &behind].concat());
        desk.ask_kind(kind, cc);
        desk.ask_kind(Kind::Header, 0);
    }
}

/// A good header of either tag, then any bytes: mostly small ones, which pass as sizes and lengths.
fn anything(desk: &mut Desk, row: &Row, random: &mut Random) {
    let (small, len) = (random.byte() % 4 != 0, usize::from(random.byte() % 48));
    let byte = |random: &mut Random| if small && random.byte() % 8 != 0 { random.byte() % 3 } else { random.byte() };
    let tag = random.pick(&[make::PLAIN, make::SESSIONS, make::SESSIONS, make::SESSIONS]);
    let command = random.byte() % 2 == 0;
    let mut frame = make::fields(tag, 0, if command { row.code } else { 0 });
    let handles = if command { row.handles } else { row.responses };
    frame.extend(random.bytes(4 * handles));
    if command && random.byte() % 8 != 0 {
        let area = usize::from(random.byte()) % (len + 1);
        frame.extend((area as u32).to_be_bytes());
    }
    frame.extend((0..len).map(|_| byte(random)));
    make::set_size(&mut frame);
    desk.lay(&frame);
    desk.ask_all(Numbers { cc: row.code, ..Numbers::random(random) });
}
