//! The walk over the entries, and what a frame's full check reads: `validate` keeps the refusal of it, the parts are all
//! of it.

use super::*;
use crate::calls::{Field, Parts, Session, Sessions, Span};

/// The size of the TPM2B at a place of an area that ends at the end of `s`, of at most so many bytes.
fn tpm2b(s: &[u8], at: usize, longest: usize) -> Read<usize> {
    let left = s.len() - at;
    if left < 2 {
        return Err(ends(Area::Authorization, at, 2, left));
    }
    let size = number(s, at, 2);
    if size > longest {
        return Err(Refusal(Area::Authorization, 8, [at, longest, size]));
    }
    if left < 2 + size { Err(ends(Area::Authorization, at, 2 + size, left)) } else { Ok(size) }
}

/// The entries from a place to the end of `s`.
fn walk(reading: Reading, s: &[u8], from: usize, command: bool) -> Read<Sessions> {
    let longest = reading.longest();
    let (mut sessions, mut at) = (Sessions::default(), from);
    while at < s.len() {
        if sessions.count == 3 {
            return Err(Refusal(Area::Authorization, 6, [at, 3, 4]));
        }
        let mut handle = 0;
        if command {
            if s.len() - at < 4 {
                return Err(ends(Area::Authorization, at, 4, s.len() - at));
            }
            handle = number(s, at, 4);
            at += 4;
        }
        let nonce = (at + 2, tpm2b(s, at, longest)?);
        let attributes = nonce.0 + nonce.1;
        let byte = *s.get(attributes).ok_or(ends(Area::Authorization, attributes, 1, 0))?;
        let hmac = (attributes + 3, tpm2b(s, attributes + 1, longest)?);
        let [nonce, hmac] = [nonce, hmac].map(|(at, size)| Field { at, size: size as u16 });
        sessions.three[sessions.count] = Session { handle: handle as u32, nonce, attributes: byte, hmac };
        sessions.count += 1;
        at = hmac.at + usize::from(hmac.size);
    }
    Ok(sessions)
}

/// The parts of a frame that ends at the end of `s`; the three areas as where each starts and ends.
fn parts(s: &[u8], areas: [(usize, usize); 3], sessions: Sessions) -> calls::Frame {
    let [handles, auth, parameters] = areas.map(|(from, to)| Span { from, to });
    calls::Frame { tag: tag_field(s) as u16, code: code_field(s), handles, auth, parameters, sessions }
}

fn command_read(by: u32, s: &[u8]) -> Read<calls::Frame> {
    let frame = command_judged(by, s, whole)?;
    let (handles, from, to) = command_areas(by, frame)?;
    let sessions = walk(reading(by)?, &frame[..to], from, true)?;
    Ok(parts(s, [(HEADER, handles), (from, to), (to, s.len())], sessions))
}

/// The answer to a bad tag is an error response, whatever the command that has a row.
fn response_read(by: u32, cc: u32, s: &[u8]) -> Read<calls::Frame> {
    response_judged(by, s, whole)?;
    let row = row_of(table_of(by)?, Area::Header, cc)?;
    if code_field(s) != 0 {
        return match (tag_field(s), s.len()) {
            (SESSIONS, _) => Err(refusal(Area::Header, 3, 0, SESSIONS)),
            (_, HEADER) => Ok(parts(s, [(HEADER, HEADER); 3], Sessions::default())),
            (_, longer) => Err(refusal(Area::Header, 2, HEADER, longer - HEADER)),
        };
    }
    let handles = handles_end(s, row.responses)?;
    let sessions_tag = tag_field(s) == SESSIONS;
    let (from, to) = if sessions_tag { sized(Area::Parameters, s, handles)? } else { (handles, s.len()) };
    let sessions = walk(reading(by)?, s, to, false)?;
    Ok(parts(s, [(HEADER, handles), (to, s.len()), (from, to)], sessions))
}

/// On success the array is left alone, and behind a refusal the parts are zeros.
fn tell_parts(read: Read<calls::Frame>, out: &mut Out) -> Parts {
    let mut frame = calls::Frame::default();
    let refusal = tell(read.map(|read| frame = read), |()| [], out);
    Parts { refusal, frame }
}

pub fn command_validate(by: u32, s: &[u8], out: &mut Out) -> u32 {
    tell(command_read(by, s), |_| [], out)
}

pub fn command_parts(by: u32, s: &[u8], out: &mut Out) -> Parts {
    tell_parts(command_read(by, s), out)
}

pub fn response_validate(by: u32, cc: u32, s: &[u8], out: &mut Out) -> u32 {
    tell(response_read(by, cc, s), |_| [], out)
}

pub fn response_parts(by: u32, cc: u32, s: &[u8], out: &mut Out) -> Parts {
    tell_parts(response_read(by, cc, s), out)
}
