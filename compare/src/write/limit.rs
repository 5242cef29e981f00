//! The crate's answers within document 01's domain, read with two limits, and with no other change.
//!
//! The crate takes up to eight sessions (D1 of docs/DIFFERENCES.md): where it writes four to eight, or refuses them behind
//! its limit, or refuses nine by it, the answer is 6(0,3,how many), and nothing is written.
//!
//! Its types hold no nonce or HMAC of more than 64 bytes, so that a session with one cannot be handed over. In the standard
//! mode what its view of a TPM2B of that capacity says of the first such length, 8(0,64,length), is the answer, if the crate
//! writes the same without that field and those behind it. In the Rust mode, which has no limit, the crate is not asked.
//!
//! Where it finds the room short, its answer is not taken (D4).

use super::oracle;
use crate::calls::{Field, Handed, OFFSET, Out, STANDARD, Sessions};
use crate::explained::{Explained, Limit};
use crate::oracle::{put, tpm2b_validate_prefix};

pub static EXPLAINED: Explained = Explained::new();

/// What a writer is given, in the mode of a number, and the room that the frame takes if it passes.
pub struct Asked<'a> {
    pub by: u32,
    pub given: Handed<'a>,
    pub needed: usize,
}

pub fn command_write(asked: Asked, tag: u16, cc: u32, room: &mut [u8], out: &mut Out) -> Option<u32> {
    // what else is refused, a tag, is refused before the limit
    asked.limited(|given, room, out| oracle::command_write(tag, cc, given, room, out), &[0], room, out)
}

pub fn response_write(asked: Asked, rc: u32, cc: u32, room: &mut [u8], out: &mut Out) -> Option<u32> {
    // sessions with a code other than success are refused behind the limit
    asked.limited(|given, room, out| oracle::response_write(rc, cc, given, room, out), &[0, 3], room, out)
}

impl Asked<'_> {
    /// `behind` are the numbers that come behind the limit on sessions.
    fn limited(
        &self,
        write: impl Fn(Handed, &mut [u8], &mut Out) -> Option<u32>,
        behind: &[u32],
        room: &mut [u8],
        out: &mut Out,
    ) -> Option<u32> {
        let count = self.given.sessions.count;
        // apart from the lent room, and long enough
        let apart = |given, out: &mut Out| write(given, &mut vec![0; SESSIONS_SIZE + self.needed], out);
        let mut their_out = *out;
        let number = if count > 3 {
            let number = apart(self.given, &mut their_out)?;
            let explained = match count {
                4..=8 => behind.contains(&number),
                _ => number == 6 && their_out[OFFSET..].starts_with(&[0, 8, count as u64]),
            };
            if explained {
                EXPLAINED.add(Limit::Sessions);
                return Some(put(6, [0, 3, count as u64], out));
            }
            number
        } else if let Some((sessions, size)) = self.up_to_too_long() {
            let number = apart(Handed { sessions, ..self.given }, &mut their_out)?;
            if number == 0 {
                EXPLAINED.add(Limit::Bytes);
                return Some(tpm2b_validate_prefix::<LONGEST>(&size.to_be_bytes(), out));
            }
            number
        } else {
            let short = room.len() < self.needed;
            return write(self.given, room, out).filter(|&number| !short || number != ROOM_SHORT);
        };
        *out = their_out;
        Some(number)
    }

    /// The first nonce or HMAC that is too long, by its size, and the sessions with nothing in its place and behind it.
    fn up_to_too_long(&self) -> Option<(Sessions, u16)> {
        let mut sessions = self.given.sessions;
        let looked_at = sessions.three[..sessions.count].iter_mut();
        let fields = looked_at.flat_map(|session| [&mut session.nonce, &mut session.hmac]);
        let mut behind = fields.skip_while(|field| self.by != STANDARD || usize::from(field.size) <= LONGEST);
        let size = std::mem::take(behind.next()?).size;
        behind.for_each(|field| *field = Field::default());
        Some((sessions, size))
    }
}

const ROOM_SHORT: u32 = 9;

/// The most bytes of a nonce or an HMAC in the standard mode.
const LONGEST: usize = 64;

/// As much as the sessions behind the third take that the crate can be handed.
const SESSIONS_SIZE: usize = 4_096;
