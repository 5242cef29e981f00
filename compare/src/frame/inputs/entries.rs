//! Areas of 0 to 9 entries with stray bytes behind them, whose lengths are true or lie by one.

use crate::frame::call::Kind;
use crate::frame::desk::Desk;
use crate::frame::known::{self, Row};
use crate::frame::make::{self, Entries};
use crate::random::Random;

/// The lengths of nonces and HMACs.
const LENGTHS: [usize; 9] = [0, 1, 2, 31, 32, 33, 63, 64, 65];

pub fn each(desk: &mut Desk, random: &mut Random, thin: bool) {
    // rows of 0 to 3 handles, with and without a response handle
    let rows = [0x17B, 0x161, 0x15E, 0x131, 0x176, 0x120, 0x149].map(|code| known::row(code).expect("a row"));
    for (at, pair) in LENGTHS.iter().flat_map(|&nonce| LENGTHS.map(|hmac| (nonce, hmac))).enumerate() {
        for count in 0..=9 {
            let row = &rows[(at + count) % rows.len()];
            for kind in [Kind::Command, Kind::Response] {
                let entries = make::entries(kind == Kind::Command, count, pair, random);
                if !thin || (at + count) % 8 == 0 {
                    areas(desk, kind, row, &entries, random);
                }
            }
        }
    }
    long(desk, random, thin);
}

/// Lengths of which both bytes count, and, unless thinned, the longest.
fn long(desk: &mut Desk, random: &mut Random, thin: bool) {
    let row = known::row(0x131).expect("a row");
    let shapes = [(1, (256, 0)), (2, (0, 256)), (3, (257, 255)), (1, (65_535, 65_535)), (4, (65_535, 1))];
    for &(count, pair) in &shapes[..if thin { 3 } else { 5 }] {
        for kind in [Kind::Command, Kind::Response] {
            let entries = make::entries(kind == Kind::Command, count, pair, random);
            areas(desk, kind, &row, &entries, random);
        }
    }
}

/// The area as it is, with each of its lengths lying, and with up to nine bytes behind its entries.
fn areas(desk: &mut Desk, kind: Kind, row: &Row, entries: &Entries, random: &mut Random) {
    stray(desk, kind, row, &entries.bytes, random);
    for which in 0..entries.lengths.len() {
        for more in [false, true] {
            stray(desk, kind, row, &entries.lying(which, more), random);
        }
    }
}

fn stray(desk: &mut Desk, kind: Kind, row: &Row, area: &[u8], random: &mut Random) {
    let mut area = area.to_vec();
    for count in 0..=9 {
        ask(desk, kind, row, &area, random);
        // mostly zeros, with which an entry may go on
        area.push(if count % 3 == 2 { random.byte() } else { 0 });
    }
}

fn ask(desk: &mut Desk, kind: Kind, row: &Row, area: &[u8], random: &mut Random) {
    let few = usize::from(random.byte() % 4);
    let parameters = random.bytes(few);
    let frame = match kind {
        Kind::Command => make::command(row, Some(area), &parameters, random),
        _ => make::response(row, Some(area), &parameters, random),
    };
    desk.lay(&frame);
    desk.ask_kind(kind, row.code);
    // the size of the area, or of the parameters before it, lies by one
    let place = 10 + 4 * if kind == Kind::Command { row.handles } else { row.responses };
    let field = u32::from_be_bytes(frame[place..place + 4].try_into().expect("four bytes"));
    let lie = if random.byte() % 2 == 0 { field + 1 } else { field.wrapping_sub(1) };
    desk.bytes()[place..place + 4].copy_from_slice(&lie.to_be_bytes());
    desk.ask_kind(kind, row.code);
}
