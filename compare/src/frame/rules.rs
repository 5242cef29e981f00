//! Document 01's order of checks, written out, with what document 02 adds to it for the standard reading: the answer to a
//! bad tag, and a limit on nonces and HMACs; with the tables of the Library; and with the area of each refusal: these are
//! document 02's too. It has an answer for every input, also where the crate has none.
//!
//! Each public function has the shape of our call: what is lent goes in, the number comes out, the array takes the rest; the
//! parts come by value.

mod parts;

pub use parts::{command_parts, command_validate, response_parts, response_validate};

use super::known::{self, Row, Table};
use crate::area::{self, Area};
use crate::by;
use crate::calls::{self, Out};
use crate::report::report;

/// A refusal: its area, its number and its fields, of which 1, 6 and 8 have three and the others two.
struct Refusal(Area, u32, [usize; 3]);

type Read<T> = Result<T, Refusal>;

fn ends(area: Area, offset: usize, needed: usize, available: usize) -> Refusal {
    Refusal(area, 1, [offset, needed, available])
}

fn refusal(area: Area, number: u32, offset: usize, value: usize) -> Refusal {
    Refusal(area, number, [offset, value, 0])
}

/// The answer with its numbers, or the refusal with its fields.
fn tell<T, const N: usize>(read: Read<T>, values: impl FnOnce(T) -> [usize; N], out: &mut Out) -> u32 {
    match read {
        Ok(answer) => give(&values(answer), out),
        Err(Refusal(area, number, fields)) => {
            let count = if matches!(number, 1 | 6 | 8) { 3 } else { 2 };
            area::refuse(area, number, fields.iter().take(count).map(|&field| field as u64), out)
        }
    }
}

fn give(values: &[usize], out: &mut Out) -> u32 {
    report(0, values.iter().map(|&value| value as u64), out)
}

const HEADER: usize = 10;
const PLAIN: usize = 0x8001;
const SESSIONS: usize = 0x8002;

/// The tag that Part 2 gives to the answer to a bad tag alone, and that answer's code.
const RSP_COMMAND: usize = 0x00C4;
const BAD_TAG: u32 = 0x1E;

// ---- the readings and the tables

/// The Rust's, which is document 01's and admits two tags only, and the standard one.
#[derive(Clone, Copy, PartialEq)]
enum Reading {
    Rust,
    Standard,
}

/// A number that names nothing is refused before anything else.
fn unnamed(by: u32) -> Refusal {
    refusal(Area::None, 101, 0, by as usize)
}

/// The table that a number names which names nothing else.
fn table(by: u32) -> Read<Table> {
    by::table(by).ok_or(unnamed(by))
}

/// The reading and the table that a number names.
fn rules(by: u32) -> Read<(Reading, Table)> {
    let (reading, table) = by::parts(by);
    let reading = match reading {
        calls::RUST => Reading::Rust,
        calls::STANDARD => Reading::Standard,
        _ => return Err(unnamed(by)),
    };
    Ok((reading, by::table(table).ok_or(unnamed(by))?))
}

fn reading(by: u32) -> Read<Reading> {
    rules(by).map(|(reading, _)| reading)
}

/// The table, of a command, which both readings judge alike up to its entries.
fn table_of(by: u32) -> Read<Table> {
    rules(by).map(|(_, table)| table)
}

impl Reading {
    /// Whether this is the tag of the answer to a bad tag, and of no other response.
    fn gives_to_bad_tag(self, tag: usize) -> bool {
        self == Self::Standard && tag == RSP_COMMAND
    }

    /// The most bytes of a nonce or an HMAC: in the standard reading those of the longest digest, in the Rust's as many as a
    /// length can say.
    fn longest(self) -> usize {
        match self {
            Self::Rust => u16::MAX.into(),
            Self::Standard => 64,
        }
    }
}

/// The number of `width` bytes at a place where they are known to be.
fn number(s: &[u8], at: usize, width: usize) -> usize {
    s[at..at + width].iter().fold(0, |n, &byte| n << 8 | usize::from(byte))
}

fn tag_field(s: &[u8]) -> usize {
    number(s, 0, 2)
}

fn code_field(s: &[u8]) -> u32 {
    number(s, 6, 4) as u32
}

// ---- the table

pub fn table_find(by: u32, code: u32, out: &mut Out) -> u32 {
    let row = table(by).and_then(|table| row_of(table, Area::None, code));
    tell(row, |row| [row.handles, row.responses], out)
}

pub fn table_known(by: u32, code: u32, out: &mut Out) -> u32 {
    tell(table(by), |table| [table.row(code).is_some().into()], out)
}

pub fn tag_known(tag: u16, out: &mut Out) -> u32 {
    give(&[known::is_tag(tag).into()], out)
}

/// The row of a code that is no part of the bytes: there need be no frame.
fn row_of(table: Table, area: Area, code: u32) -> Read<Row> {
    table.row(code).ok_or(refusal(area, 4, 0, code as usize))
}

// ---- fields

/// What every field read and setter, area read and `body` asks first.
fn header(s: &[u8]) -> Read<()> {
    if s.len() < HEADER { Err(ends(Area::Header, 0, HEADER, s.len())) } else { Ok(()) }
}

/// A tag that `TpmSt` has.
fn known_tag(tag: usize) -> Read<usize> {
    if known::is_tag(tag as u16) { Ok(tag) } else { Err(refusal(Area::Header, 3, 0, tag)) }
}

/// A code that is known: at the crate's table those that `TpmCc` has, at the Library's their own. Each has a row, so a code
/// that is known but has none does not occur.
fn known_code(table: Table, code: u32) -> Read<Row> {
    table.row(code).ok_or(refusal(Area::Header, 4, 6, code as usize))
}

/// A code that reads in a response of this tag. In the answer to a bad tag its own code does and no other, whether or not
/// it is known.
fn readable(reading: Reading, tag: usize, offset: usize, code: u32) -> Read<u32> {
    let reads = if reading.gives_to_bad_tag(tag) { code == BAD_TAG } else { known::reads(code) };
    if reads { Ok(code) } else { Err(refusal(Area::Header, 5, offset, code as usize)) }
}

pub fn frame_tag(s: &[u8], out: &mut Out) -> u32 {
    let tag = header(s).and_then(|()| known_tag(tag_field(s)));
    tell(tag, |tag| [tag], out)
}

pub fn frame_size(s: &[u8], out: &mut Out) -> u32 {
    tell(header(s), |()| [number(s, 2, 4)], out)
}

pub fn frame_len(s: &[u8], out: &mut Out) -> u32 {
    give(&[s.len()], out)
}

pub fn frame_is_empty(s: &[u8], out: &mut Out) -> u32 {
    give(&[s.is_empty().into()], out)
}

pub fn command_cc(by: u32, s: &[u8], out: &mut Out) -> u32 {
    tell(command_row(by, s), |row| [row.code as usize], out)
}

fn command_row(by: u32, s: &[u8]) -> Read<Row> {
    let table = table_of(by)?;
    header(s)?;
    known_code(table, code_field(s))
}

pub fn response_rc(by: u32, s: &[u8], out: &mut Out) -> u32 {
    tell(response_code(by, s, None), |code| [code as usize], out)
}

/// The code that stands in a response, or one that is to be set in its place: it has to read under the tag that is there.
fn response_code(by: u32, s: &[u8], set: Option<u32>) -> Read<u32> {
    let reading = reading(by)?;
    header(s)?;
    let (offset, code) = set.map_or((6, code_field(s)), |code| (0, code));
    readable(reading, tag_field(s), offset, code)
}

pub fn frame_set_tag(s: &mut [u8], tag: u16, out: &mut Out) -> u32 {
    let set = header(s).and_then(|()| known_tag(tag.into()));
    tell(set.map(|_| s[..2].copy_from_slice(&tag.to_be_bytes())), |()| [], out)
}

pub fn command_set_cc(by: u32, s: &mut [u8], code: u32, out: &mut Out) -> u32 {
    let set = table_of(by).and_then(|table| header(s).and_then(|()| row_of(table, Area::Header, code)));
    tell(set.map(|_| s[6..10].copy_from_slice(&code.to_be_bytes())), |()| [], out)
}

pub fn response_set_rc(by: u32, s: &mut [u8], code: u32, out: &mut Out) -> u32 {
    let set = response_code(by, s, Some(code));
    tell(set.map(|_| s[6..10].copy_from_slice(&code.to_be_bytes())), |()| [], out)
}

// ---- envelope and areas

/// The frame at the start, and whatever is behind it.
fn prefix(s: &[u8]) -> Read<(&[u8], &[u8])> {
    header(s)?;
    let size = number(s, 2, 4);
    if size < HEADER {
        return Err(ends(Area::Header, 2, HEADER, size));
    }
    s.split_at_checked(size).ok_or(ends(Area::Header, s.len(), size - s.len().min(size), 0))
}

/// The tag, one of the two.
fn frame_tag_of(frame: &[u8]) -> Read<usize> {
    match tag_field(frame) {
        tag @ (PLAIN | SESSIONS) => Ok(tag),
        tag => Err(refusal(Area::Header, 3, 0, tag)),
    }
}

/// The tag of a response, one of the two or that of the answer to a bad tag.
fn response_tag_of(reading: Reading, frame: &[u8]) -> Read<usize> {
    match tag_field(frame) {
        tag if reading.gives_to_bad_tag(tag) => Ok(tag),
        _ => frame_tag_of(frame),
    }
}

/// Where so many handles end.
fn handles_end(s: &[u8], handles: usize) -> Read<usize> {
    let (needed, left) = (4 * handles, s.len() - HEADER);
    if left < needed { Err(ends(Area::Handles, HEADER, needed, left)) } else { Ok(HEADER + needed) }
}

/// The bytes of an area whose 4-byte size stands at a place: where they start and end.
fn sized(area: Area, s: &[u8], at: usize) -> Read<(usize, usize)> {
    let left = s.len() - at;
    if left < 4 {
        return Err(ends(area, at, 4, left));
    }
    let size = number(s, at, 4);
    if left - 4 < size { Err(ends(area, at + 4, size, left - 4)) } else { Ok((at + 4, at + 4 + size)) }
}

/// Where the handles of a command end. All bytes are taken, whatever the size field says.
fn command_handles_end(by: u32, s: &[u8]) -> Read<usize> {
    handles_end(s, command_row(by, s)?.handles)
}

/// Where a command's handles end, and where its authorization area starts and ends.
fn command_areas(by: u32, s: &[u8]) -> Read<(usize, usize, usize)> {
    let handles = command_handles_end(by, s)?;
    if known_tag(tag_field(s))? != SESSIONS {
        return Ok((handles, handles, handles));
    }
    let (from, to) = sized(Area::Authorization, s, handles)?;
    Ok((handles, from, to))
}

pub fn command_handles(by: u32, s: &[u8], out: &mut Out) -> u32 {
    tell(command_handles_end(by, s), |end| [HEADER, end], out)
}

pub fn command_auth_area(by: u32, s: &[u8], out: &mut Out) -> u32 {
    tell(command_areas(by, s), |(_, from, to)| [from, to], out)
}

pub fn command_parameters(by: u32, s: &[u8], out: &mut Out) -> u32 {
    tell(command_areas(by, s), |(_, _, to)| [to, s.len()], out)
}

pub fn response_body(s: &[u8], out: &mut Out) -> u32 {
    tell(header(s), |()| [HEADER, s.len()], out)
}

// ---- casts

/// What is taken for the frame: all of the bytes, or those at their start.
type Taken = fn(&[u8]) -> Read<&[u8]>;

fn whole(s: &[u8]) -> Read<&[u8]> {
    let (frame, tail) = prefix(s)?;
    if tail.is_empty() { Ok(frame) } else { Err(refusal(Area::Header, 2, frame.len(), tail.len())) }
}

fn first(s: &[u8]) -> Read<&[u8]> {
    prefix(s).map(|(frame, _)| frame)
}

/// A command up to its entries.
fn command_judged(by: u32, s: &[u8], taken: Taken) -> Read<&[u8]> {
    rules(by)?;
    let frame = taken(s)?;
    frame_tag_of(frame)?;
    command_areas(by, frame)?;
    Ok(frame)
}

fn response_judged(by: u32, s: &[u8], taken: Taken) -> Read<&[u8]> {
    let reading = reading(by)?;
    let frame = taken(s)?;
    let tag = response_tag_of(reading, frame)?;
    readable(reading, tag, 6, code_field(frame))?;
    Ok(frame)
}

pub fn command_cast(by: u32, s: &[u8], out: &mut Out) -> u32 {
    tell(command_judged(by, s, whole), |frame| [0, frame.len()], out)
}

pub fn command_cast_prefix(by: u32, s: &[u8], out: &mut Out) -> u32 {
    tell(command_judged(by, s, first), |frame| [0, frame.len(), frame.len(), s.len()], out)
}

pub fn response_cast(by: u32, s: &[u8], out: &mut Out) -> u32 {
    tell(response_judged(by, s, whole), |frame| [0, frame.len()], out)
}

pub fn response_cast_prefix(by: u32, s: &[u8], out: &mut Out) -> u32 {
    tell(response_judged(by, s, first), |frame| [0, frame.len(), frame.len(), s.len()], out)
}
