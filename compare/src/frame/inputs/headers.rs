//! Headers over the limits of each field, and the rows of the table with every length around what they ask for.

use crate::edges;
use crate::frame::call::Kind;
use crate::frame::desk::{Desk, Numbers};
use crate::frame::known::{self, Row};
use crate::frame::make::{self, PLAIN, SESSIONS};
use crate::random::Random;

pub fn each(desk: &mut Desk, random: &mut Random, thin: bool) {
    fields(desk, random, thin);
    for row in known::rows() {
        lengths(desk, &row, random, thin);
    }
}

/// The two tags, those beside them, and others that `TpmSt` has and lacks.
const TAGS: [u16; 13] =
    [0, 0x00C3, 0x00C4, 0x00C5, 0x0180, 0x7FFF, 0x8000, PLAIN, SESSIONS, 0x8003, 0x801B, 0x8029, u16::MAX];

/// Command codes with 0 to 3 handles and those beside the table's ends and gaps; response codes that read and do not.
const CODES: [u32; 24] = [
    0, 1, 0x1E, 0x84, 0xC4, 0x101, 0x11E, 0x11F, 0x123, 0x144, 0x149, 0x15E, 0x161, 0x17B, 0x184, 0x197, 0x1A1, 0x1A2,
    0x1C4, 0x922, 0x984, 0x10C4, 0x20000000, 0xFFFFFFFF,
];

/// Every tag with every size, code and length of these, the rest filled with zeros, ones or anything.
fn fields(desk: &mut Desk, random: &mut Random, thin: bool) {
    for len in [0, 1, 2, 5, 6, 9, 10, 11, 13, 14, 15, 18, 22, 23, 26, 27] {
        let mut sizes = edges::near(&[0, 10, len]);
        sizes.extend([0xFF, 1 << 16, 1 << 24, i32::MAX as usize, 1 << 31, u32::MAX as usize]);
        for fill in [vec![0; len], vec![0xFF; len], random.bytes(len)] {
            for (tag, code) in TAGS.iter().flat_map(|&tag| CODES.map(|code| (tag, code))) {
                for &size in &sizes {
                    if thin && random.byte() > 3 {
                        continue;
                    }
                    let mut bytes = make::fields(tag, size as u32, code);
                    bytes.extend(fill.get(10..).unwrap_or_default());
                    bytes.truncate(len);
                    desk.lay(&bytes);
                    desk.ask_all(Numbers { cc: random.pick(&CODES), ..Numbers::random(random) });
                }
            }
        }
    }
}

/// A row's command and response, cut to every length around its handles and sizes, with sizes of their areas that just
/// fit, do not, and pass every limit.
fn lengths(desk: &mut Desk, row: &Row, random: &mut Random, thin: bool) {
    for (kind, handles, code) in [(Kind::Command, row.handles, row.code), (Kind::Response, row.responses, 0)] {
        let place = 10 + 4 * handles;
        for len in 10..=place + 12 {
            let left = len.saturating_sub(place + 4);
            let mut sizes = edges::near(&[0, left]);
            sizes.extend([1 << 16, i32::MAX as usize, 1 << 31, u32::MAX as usize - 4, u32::MAX as usize]);
            for (tag, size) in [PLAIN, SESSIONS, 0x8000].iter().flat_map(|&tag| sizes.iter().map(move |&n| (tag, n))) {
                if thin && random.byte() > 31 {
                    continue;
                }
                let mut frame = make::fields(tag, 0, code);
                frame.extend(random.bytes(4 * handles));
                frame.extend((size as u32).to_be_bytes());
                // as entries, zeros go on to the end of the area, and ones have a length that passes it
                frame.resize(frame.len() + 8, random.byte() & 1);
                frame.truncate(len);
                desk.lay(&make::sized(frame));
                desk.ask_kind(kind, row.code);
            }
        }
    }
}
