//! Commands and responses: right ones, errors, answers of another count or to another command, nonces that are too long, and
//! frames that are damaged. The handles of the command's entries go in; an answer with its command and a table's number comes
//! out.

use super::Step;
use crate::by::{self, NO_READING, TABLES};
use crate::calls::REVISION_CRATE;
use crate::frame::known::{self, Row};
use crate::frame::make::{self, BAD_TAG, PLAIN, RSP_COMMAND, SESSIONS};
use crate::random::Random;

/// Rows of 0 to 3 handles, with and without a response handle: asked for more often than the others.
const CODES: [u32; 12] = [0x120, 0x121, 0x131, 0x144, 0x149, 0x157, 0x15E, 0x161, 0x165, 0x176, 0x17B, 0x184];

/// Response codes that read, and such that do not.
const ERRORS: [u32; 10] = [0x100, 0x101, 0x1C4, 0x184, 0x984, 0x98E, 0x9A2, 0x922, 0x90A, BAD_TAG];
const UNREADABLE: [u32; 5] = [0xC4, 0x10C4, 0x30, 0x7F, u32::MAX];

/// A command with these handles, and what comes back to it.
pub fn answer(handles: &[u32], random: &mut Random) -> Step {
    let row = row(random);
    let command = command(&row, handles, random);
    let response = response(&row, handles.len(), random);
    Step::Answer(revision(random), command, response)
}

/// Mostly the crate's table, at times another, and seldom a number that names none.
fn revision(random: &mut Random) -> u32 {
    match random.byte() {
        0 => random.pick(&by::unnamed(NO_READING).collect::<Vec<u32>>()),
        1..16 => random.pick(&TABLES[1..]),
        _ => REVISION_CRATE,
    }
}

fn row(random: &mut Random) -> Row {
    if random.byte() % 4 > 0 {
        return known::row(random.pick(&CODES)).expect("a row");
    }
    known::rows().nth(random.number() as usize % known::rows().count()).expect("a row")
}

/// The bytes of a nonce or an HMAC: any number up to the limit, and those at which something turns more often.
pub fn size(random: &mut Random) -> usize {
    match random.byte() {
        0..64 => random.pick(&[0, 1, 16, 20, 32, 48, 63, 64]),
        byte => usize::from(byte) % 65,
    }
}

/// A size beyond the limit.
fn too_long(random: &mut Random) -> usize {
    random.pick(&[65, 65, 66, 128, 256, 320])
}

/// Entries with these handles, none in a response; one of their nonces and HMACs may be too long.
fn entries(handles: &[Option<u32>], long: bool, random: &mut Random) -> Vec<u8> {
    let mut area = Vec::new();
    let which = if long { random.number() as usize % (2 * handles.len()).max(1) } else { usize::MAX };
    for (at, handle) in handles.iter().enumerate() {
        area.extend(handle.iter().flat_map(|handle| handle.to_be_bytes()));
        tpm2b(&mut area, 2 * at == which, random);
        area.push(random.byte());
        tpm2b(&mut area, 2 * at + 1 == which, random);
    }
    area
}

fn tpm2b(area: &mut Vec<u8>, long: bool, random: &mut Random) {
    let size = if long { too_long(random) } else { size(random) };
    area.extend((size as u16).to_be_bytes());
    area.extend((0..size).map(|_| random.byte()));
}

/// Parameters, a few bytes.
fn parameters(random: &mut Random) -> Vec<u8> {
    let few = usize::from(random.byte() % 7);
    random.bytes(few)
}

/// Whether a frame without entries is under the sessions tag all the same.
fn is_bare(random: &mut Random) -> bool {
    random.byte() % 4 == 0
}

// ---- commands

/// A command of a row with an entry for each handle.
fn command(row: &Row, handles: &[u32], random: &mut Random) -> Vec<u8> {
    match random.byte() {
        0..16 => damaged(good_command(row, handles, false, random), random),
        16..20 => good_command(row, handles, true, random),
        20..22 => {
            let unknown = Row { code: random.pick(&[0, 0x11E, 0x197, u32::MAX]), ..*row };
            good_command(&unknown, handles, false, random)
        }
        22..24 => anything(random),
        _ => good_command(row, handles, false, random),
    }
}

fn good_command(row: &Row, handles: &[u32], long: bool, random: &mut Random) -> Vec<u8> {
    let handles: Vec<Option<u32>> = handles.iter().copied().map(Some).collect();
    let area = entries(&handles, long, random);
    let has_area = !handles.is_empty() || is_bare(random);
    make::command(row, has_area.then_some(area.as_slice()), &parameters(random), random)
}

// ---- responses

/// A response to a command of a row with so many entries.
fn response(row: &Row, count: usize, random: &mut Random) -> Vec<u8> {
    match random.byte() {
        0..16 => success(row, usize::from(random.byte() % 4), false, random),
        16..24 => success(row, 0, false, random),
        24..36 => success(&self::row(random), count, false, random),
        36..44 => success(row, count, true, random),
        44..64 => damaged(success(row, count, false, random), random),
        64..80 => make::fields(PLAIN, 10, random.pick(&ERRORS)),
        80..88 => make::fields(RSP_COMMAND, 10, BAD_TAG),
        88..100 => wrong_error(random),
        100..104 => anything(random),
        _ => success(row, count, false, random),
    }
}

/// A success with so many entries.
fn success(row: &Row, count: usize, long: bool, random: &mut Random) -> Vec<u8> {
    let area = entries(&vec![None; count], long, random);
    let has_area = count > 0 || is_bare(random);
    make::response(row, has_area.then_some(area.as_slice()), &parameters(random), random)
}

/// An error that does not pass: under the sessions tag, longer than its header, with a code that does not read, or under the
/// tag of the answer to a bad tag with another code.
fn wrong_error(random: &mut Random) -> Vec<u8> {
    let code = random.pick(&ERRORS);
    match random.byte() % 4 {
        0 => make::fields(SESSIONS, 10, code),
        1 => make::sized([make::fields(PLAIN, 0, code), vec![0; 4]].concat()),
        2 => make::fields(PLAIN, 10, random.pick(&UNREADABLE)),
        _ => make::fields(RSP_COMMAND, 10, random.pick(&[0, 0x30, 0x101])),
    }
}

// ---- damage

/// The frame with a byte changed, cut or made longer; its size field stays as it was, or is right again.
fn damaged(mut frame: Vec<u8>, random: &mut Random) -> Vec<u8> {
    let at = random.number() as usize % frame.len();
    match random.byte() % 3 {
        0 => frame[at] ^= random.pick(&[1, 2, 4, 8, 16, 32, 64, 128, 255]),
        1 => frame.truncate(at),
        _ => frame.extend(0..=random.byte() % 8),
    }
    if frame.len() >= 10 && random.byte() % 2 == 0 {
        make::set_size(&mut frame);
    }
    frame
}

fn anything(random: &mut Random) -> Vec<u8> {
    let len = usize::from(random.byte() % 40);
    random.bytes(len)
}
