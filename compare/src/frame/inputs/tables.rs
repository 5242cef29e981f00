//! The codes at which the tables part, and all around their rows: frames of each with as many handles as any row has, at each
//! table and in each reading; and the tables' own answers for codes far from their rows.

use super::STEP;
use crate::by::TABLES;
use crate::frame::call::{Kind, named};
use crate::frame::desk::{Desk, Numbers};
use crate::frame::known::Row;
use crate::frame::make::{self, BAD_TAG, PLAIN, RSP_COMMAND};
use crate::random::Random;

fn codes() -> impl Iterator<Item = u32> {
    (0x11E..=0x1A3).chain(0x1FFF_FFFF..=0x2000_0001).chain([0, u32::MAX])
}

/// A command of each code and a success to it, with up to three handles and without entries, with some and with one too many,
/// some of them too long for the standard reading; and errors in answer to each.
pub fn each(desk: &mut Desk, random: &mut Random) {
    for code in codes() {
        for (handles, entries) in (0..=3).flat_map(|handles| SHAPES.map(|entries| (handles, entries))) {
            let row = Row { code, handles, responses: handles };
            for command in [true, false] {
                let area = entries.map(|(count, lengths)| make::entries(command, count, lengths, random).bytes);
                let make = if command { make::command } else { make::response };
                desk.lay(&make(&row, area.as_deref(), &[0, 1], random));
                desk.ask_all(Numbers { cc: code, set: [PLAIN.into(), code, 0x101] });
            }
        }
        for (tag, error) in [(PLAIN, 0x101), (RSP_COMMAND, BAD_TAG)] {
            desk.lay(&make::fields(tag, 10, error));
            desk.ask_kind(Kind::Response, code);
        }
    }
}

/// No area, or one of so many entries with such lengths.
const SHAPES: [Option<(usize, (usize, usize))>; 6] =
    [None, Some((0, (0, 0))), Some((1, (3, 4))), Some((2, (0, 65))), Some((3, (1, 0))), Some((4, (0, 0)))];

/// The Library's tables for codes of all 32 bits, one in so many, and for those of the rows with one more bit set: what is cut
/// to fewer bits would take them for rows.
pub fn search(desk: &mut Desk, thin: bool) {
    let step = if thin { STEP * STEP } else { STEP };
    let sparse = (0..=u32::MAX).step_by(step);
    let longer = codes().flat_map(|code| (9..32).map(move |bit| code ^ 1 << bit));
    let calls = ["table_find", "table_known"].map(named);
    desk.lay(&[]);
    for code in sparse.chain(longer) {
        for (by, call) in TABLES[1..].iter().flat_map(|&by| calls.map(|call| (by, call))) {
            desk.ask_by(by, call, code);
        }
    }
}
