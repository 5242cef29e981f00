//! Frames that are right, put together from their parts: what the inputs start from.

use super::known::{self, Row};
use crate::random::Random;

pub const PLAIN: u16 = 0x8001;
pub const SESSIONS: u16 = 0x8002;

/// The tag of the answer to a bad tag, and its code.
pub const RSP_COMMAND: u16 = 0x00C4;
pub const BAD_TAG: u32 = 0x1E;

/// Whether the bytes have a header, and in it the tag of the answer to a bad tag.
pub fn is_under_bad_tag(s: &[u8]) -> bool {
    s.len() >= 10 && s.starts_with(&RSP_COMMAND.to_be_bytes())
}

/// Entries one after the other.
#[derive(Clone, Default)]
pub struct Entries {
    pub bytes: Vec<u8>,
    /// Where the lengths of nonces and HMACs stand.
    pub lengths: Vec<usize>,
}

/// So many entries, with nonces and HMACs of these lengths.
pub fn entries(command: bool, count: usize, (nonce, hmac): (usize, usize), random: &mut Random) -> Entries {
    let mut entries = Entries::default();
    for _ in 0..count {
        if command {
            entries.bytes.extend(random.bytes(4));
        }
        entries.tpm2b(nonce, random);
        entries.bytes.push(random.byte());
        entries.tpm2b(hmac, random);
    }
    entries
}

impl Entries {
    fn tpm2b(&mut self, len: usize, random: &mut Random) {
        self.lengths.push(self.bytes.len());
        self.bytes.extend((len as u16).to_be_bytes());
        self.bytes.extend(random.bytes(len));
    }

    /// One length field made larger or smaller by one, and nothing else.
    pub fn lying(&self, which: usize, more: bool) -> Vec<u8> {
        let mut bytes = self.bytes.clone();
        let field = &mut bytes[self.lengths[which]..][..2];
        let length = u16::from_be_bytes([field[0], field[1]]);
        let lie = if more { length.wrapping_add(1) } else { length.wrapping_sub(1) };
        field.copy_from_slice(&lie.to_be_bytes());
        bytes
    }
}

/// A command; without an area it is under the plain tag.
pub fn command(row: &Row, area: Option<&[u8]>, parameters: &[u8], random: &mut Random) -> Vec<u8> {
    let mut frame = header(area, row.code);
    frame.extend(random.bytes(4 * row.handles));
    if let Some(area) = area {
        frame.extend((area.len() as u32).to_be_bytes());
        frame.extend(area);
    }
    frame.extend(parameters);
    sized(frame)
}

/// A response of success to the row's command; without an area it is under the plain tag.
pub fn response(row: &Row, area: Option<&[u8]>, parameters: &[u8], random: &mut Random) -> Vec<u8> {
    let mut frame = header(area, 0);
    frame.extend(random.bytes(4 * row.responses));
    if area.is_some() {
        frame.extend((parameters.len() as u32).to_be_bytes());
    }
    frame.extend(parameters);
    frame.extend(area.unwrap_or_default());
    sized(frame)
}

fn header(area: Option<&[u8]>, code: u32) -> Vec<u8> {
    let tag = if area.is_some() { SESSIONS } else { PLAIN };
    fields(tag, 0, code)
}

/// A header of any three fields.
pub fn fields(tag: u16, size: u32, code: u32) -> Vec<u8> {
    let mut frame = Vec::from(tag.to_be_bytes());
    frame.extend(size.to_be_bytes());
    frame.extend(code.to_be_bytes());
    frame
}

/// The frame with the size that it has.
pub fn sized(mut frame: Vec<u8>) -> Vec<u8> {
    set_size(&mut frame);
    frame
}

pub fn set_size(frame: &mut [u8]) {
    let size = frame.len() as u32;
    frame[2..6].copy_from_slice(&size.to_be_bytes());
}

/// A frame that has lost some bytes, with the size that it has now; and the same with its authorization size less by as
/// many, if it is a command that has one.
pub fn resized(before: &[u8], mut after: Vec<u8>) -> Vec<Vec<u8>> {
    if after.len() < 10 || after.len() == before.len() {
        return Vec::new();
    }
    set_size(&mut after);
    let lost = (before.len() - after.len()) as u32;
    let mut frames = Vec::from([after]);
    frames.extend(area_lowered(&frames[0], lost));
    frames
}

/// The frame without the bytes of whatever can be taken for a TPM2B behind the header, sized as it is then.
pub fn emptied(frame: &[u8]) -> impl Iterator<Item = Vec<u8>> {
    (10..frame.len()).flat_map(move |at| {
        let len = frame[at..].first_chunk().map_or(0, |field| usize::from(u16::from_be_bytes(*field)));
        match frame.get(at + 2 + len..) {
            Some(behind) if len > 0 => resized(frame, [&frame[..at], &[0, 0], behind].concat()),
            _ => Vec::new(),
        }
    })
}

fn area_lowered(frame: &[u8], by: u32) -> Option<Vec<u8>> {
    let row = known::row(u32::from_be_bytes(*frame[6..].first_chunk()?))?;
    let mut lowered = frame.to_vec();
    let field = lowered[10..].get_mut(4 * row.handles..)?.first_chunk_mut()?;
    *field = u32::from_be_bytes(*field).checked_sub(by)?.to_be_bytes();
    Some(lowered)
}
