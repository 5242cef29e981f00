//! The differences in the walk (D1 and D17 of docs/DIFFERENCES.md): the crate takes up to eight entries, document 01 up to
//! three; and the standard reading takes nonces and HMACs of up to 64 bytes, the crate any. Here the crate's answers of a
//! full check are read with these limits, and with no other change: where the crate passed a frame that is beyond one of
//! them, or refused it at the place where that shows or behind it, the answer is 6(place,3,4) of a fourth entry, or what the
//! crate's view of a TPM2B of capacity 64 says of a length, 8(place,64,size), whichever the walk meets first. Any other
//! difference stays one.

use super::call::{Call, Kind};
use super::oracle;
use crate::answer::Kept;
use crate::calls::{self, OFFSET, Out, STANDARD};
use crate::explained::{Explained, Limit};
use crate::oracle::put;
use tpm2_protocol::basic::Tpm2b;
use tpm2_protocol::data::{TpmCc, TpmRc, TpmRcBase, TpmSt};
use tpm2_protocol::frame::{TpmCommand, TpmResponse};
use tpm2_protocol::{TpmError, TpmResult};

pub static EXPLAINED: Explained = Explained::new();

/// What the crate says in a call's place, by the rules of a number.
pub fn limited(call: &Call, by: u32, s: &mut [u8], number: u32, kept: &mut Kept, out: &mut Out) -> Option<u32> {
    let mut their_out = *out;
    let said = (call.theirs)(s, number, kept, &mut their_out)?;
    let reached = |beyond: &Beyond| said == 0 || their_out[OFFSET] >= beyond.place;
    // other numbers come before any entry
    let beyond = if call.walks() && matches!(said, 0 | 1 | 6) { beyond(call, by, s, number) } else { None };
    if let Some(Beyond { place, limit, most, actual }) = beyond.filter(reached) {
        EXPLAINED.add(limit);
        // behind a refusal the parts of a call that gives them are zeros
        *kept = kept.map(|_| calls::Frame::default());
        let number = match limit {
            Limit::Sessions => 6,
            Limit::Bytes => 8,
        };
        return Some(put(number, [place, most as u64, actual as u64], out));
    }
    *out = their_out;
    Some(said)
}

/// A limit, where the walk meets it, how many there may be, and how many there are.
struct Beyond {
    place: u64,
    limit: Limit,
    most: usize,
    actual: usize,
}

/// The limit that the walk meets first.
fn beyond(call: &Call, by: u32, s: &[u8], cc: u32) -> Option<Beyond> {
    match call.kind {
        Kind::Command => first(by, TpmCommand::cast(s).ok()?.auth_area().ok()?, s.as_ptr(), 4),
        _ => {
            let frame = TpmResponse::cast(s).ok()?;
            first(by, entry_area(frame, TpmCc::try_from(cc).ok()?).ok()??, s.as_ptr(), 0)
        }
    }
}

/// The same in an area of entries that have handles of so many bytes.
fn first(by: u32, area: &[u8], start: *const u8, width: usize) -> Option<Beyond> {
    let place = |rest: &[u8]| (rest.as_ptr().addr() - start.addr()) as u64;
    let mut rest = area;
    for _ in 0..3 {
        // the handle stands before the nonce, the attributes before the HMAC
        for before in [width, 1] {
            rest = rest.get(before..)?;
            let by_limit = Tpm2b::<64>::validate_prefix(rest);
            if let (STANDARD, Err(TpmError::TooManyBytes { offset: 0, limit: most, actual })) = (by, by_limit) {
                return Some(Beyond { place: place(rest), limit: Limit::Bytes, most, actual });
            }
            (_, rest) = Tpm2b::<{ u16::MAX as usize }>::cast_prefix(rest).ok()?;
        }
    }
    (!rest.is_empty()).then(|| Beyond { place: place(rest), limit: Limit::Sessions, most: 3, actual: 4 })
}

/// The entries of a response that has them: a success under the sessions tag whose parameters are whole.
fn entry_area(frame: &TpmResponse, cc: TpmCc) -> TpmResult<Option<&[u8]>> {
    if frame.tag()? != TpmSt::Sessions || frame.rc()? != TpmRc::Fmt0(TpmRcBase::Success) {
        return Ok(None);
    }
    let [_, _, to, _] = oracle::response_areas(frame, oracle::response_handles(cc)?)?;
    Ok(frame.as_bytes().get(to as usize..))
}
