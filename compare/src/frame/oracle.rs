//! The crate's frames under the convention of `calls`, for the suites and for the benchmark. A call that gives an option
//! has none where safe Rust cannot ask the crate.

use crate::calls::{self, Field, Out, Parts, Session, Sessions, Span};
use crate::oracle::{UNNUMBERED, give, put, range, refuse, tell, wide};
use tpm2_protocol::basic::{Tpm2b, TpmUint32};
use tpm2_protocol::data::{TpmCc, TpmRc, TpmRcBase, TpmSt};
use tpm2_protocol::frame::{TpmCommand, TpmResponse};
use tpm2_protocol::{TpmError, TpmResult, TpmUnmarshal};

const PLAIN: [u8; 2] = [0x80, 0x01];

// ---- the table, which shows in what a header alone is answered

/// The row of a code: handles, and handles of the response.
pub fn table_find(code: u32, out: &mut Out) -> u32 {
    let Ok(cc) = TpmCc::try_from(code) else {
        return put(4, [0, code.into()], out);
    };
    let handles = handles_asked(TpmCommand::cast(&header(10, code)).map(|_| ()));
    let row = handles.and_then(|handles| Ok([handles, response_handles(cc)?]));
    tell(row, wide, out)
}

pub fn response_handles(cc: TpmCc) -> TpmResult<usize> {
    handles_asked(TpmResponse::cast(&header(10, 0))?.validate(cc))
}

fn header(size: u32, code: u32) -> [u8; 10] {
    let mut header = [0; 10];
    header[..2].copy_from_slice(&PLAIN);
    header[2..6].copy_from_slice(&size.to_be_bytes());
    header[6..].copy_from_slice(&code.to_be_bytes());
    header
}

/// How many handles are missing behind a bare header.
fn handles_asked(said: TpmResult<()>) -> TpmResult<usize> {
    match said {
        Ok(()) => Ok(0),
        Err(TpmError::UnexpectedEnd { offset: 10, needed, available: 0 }) => Ok(needed / 4),
        Err(error) => Err(error),
    }
}

pub fn table_known(code: u32, out: &mut Out) -> u32 {
    give([TpmCc::try_from(code).is_ok().into()], out)
}

pub fn tag_known(tag: u16, out: &mut Out) -> u32 {
    give([TpmSt::try_from(tag).is_ok().into()], out)
}

// ---- casts and full checks

pub fn command_cast(s: &[u8], out: &mut Out) -> u32 {
    tell(TpmCommand::cast(s), |frame| range(frame.as_bytes(), s.as_ptr()), out)
}

pub fn command_cast_prefix(s: &[u8], out: &mut Out) -> u32 {
    let ranges = |(frame, tail): (&TpmCommand, &[u8])| two_ranges(frame.as_bytes(), tail, s);
    tell(TpmCommand::cast_prefix(s), ranges, out)
}

pub fn command_validate(s: &[u8], out: &mut Out) -> u32 {
    tell(TpmCommand::cast(s).and_then(TpmCommand::validate), |()| [], out)
}

pub fn response_cast(s: &[u8], out: &mut Out) -> u32 {
    tell(TpmResponse::cast(s), |frame| range(frame.as_bytes(), s.as_ptr()), out)
}

pub fn response_cast_prefix(s: &[u8], out: &mut Out) -> u32 {
    let ranges = |(frame, tail): (&TpmResponse, &[u8])| two_ranges(frame.as_bytes(), tail, s);
    tell(TpmResponse::cast_prefix(s), ranges, out)
}

/// A code that `TpmCc` lacks cannot be asked for, but a cast comes first.
pub fn response_validate(cc: u32, s: &[u8], out: &mut Out) -> Option<u32> {
    match TpmResponse::cast(s) {
        Ok(frame) => Some(tell(frame.validate(TpmCc::try_from(cc).ok()?), |()| [], out)),
        Err(error) => Some(refuse(error, out)),
    }
}

fn two_ranges(frame: &[u8], tail: &[u8], s: &[u8]) -> [u64; 4] {
    let ([from, to], [tail_from, tail_to]) = (range(frame, s.as_ptr()), range(tail, s.as_ptr()));
    [from, to, tail_from, tail_to]
}

// ---- fields and areas of any ten bytes or more

/// A view of bytes that no cast lets through. Through a view every byte can be changed: so the cast is made with a
/// header that fits the length, and then the header is put back.
fn command(s: &mut [u8]) -> Option<&mut TpmCommand> {
    let given = with_header(s, 0x144)?;
    let view = TpmCommand::cast_mut(s).expect("the header fits, and the command has no handles");
    view.as_bytes_mut()[..10].copy_from_slice(&given);
    Some(view)
}

fn response(s: &mut [u8]) -> Option<&mut TpmResponse> {
    let given = with_header(s, 0)?;
    let view = TpmResponse::cast_mut(s).expect("the header fits");
    view.as_bytes_mut()[..10].copy_from_slice(&given);
    Some(view)
}

/// Puts a header of the right size in the place of the given one, and hands that back.
fn with_header(s: &mut [u8], code: u32) -> Option<[u8; 10]> {
    let size = u32::try_from(s.len()).ok()?;
    let field = s.first_chunk_mut::<10>()?;
    Some(std::mem::replace(field, header(size, code)))
}

/// A command's and a response's view of the same bytes, which must do and answer the same.
fn both(
    s: &mut [u8],
    out: &mut Out,
    by_command: impl FnOnce(&mut TpmCommand, &mut Out) -> u32,
    by_response: impl FnOnce(&mut TpmResponse, &mut Out) -> u32,
) -> Option<u32> {
    let given = *s.first_chunk::<10>()?;
    let mut other = *out;
    let number = by_command(command(s)?, out);
    let later = *s.first_chunk::<10>()?;
    s[..10].copy_from_slice(&given);
    let same = by_response(response(s)?, &mut other) == number && other == *out && s.starts_with(&later);
    Some(if same { number } else { UNNUMBERED })
}

pub fn frame_tag(s: &mut [u8], out: &mut Out) -> Option<u32> {
    let value = |tag: TpmSt| [tag.value().into()];
    both(s, out, |frame, out| tell(frame.tag(), value, out), |frame, out| tell(frame.tag(), value, out))
}

pub fn frame_size(s: &mut [u8], out: &mut Out) -> Option<u32> {
    both(s, out, |frame, out| give([frame.size().into()], out), |frame, out| give([frame.size().into()], out))
}

pub fn frame_len(s: &mut [u8], out: &mut Out) -> Option<u32> {
    both(s, out, |frame, out| give(wide([frame.len()]), out), |frame, out| give(wide([frame.len()]), out))
}

pub fn frame_is_empty(s: &mut [u8], out: &mut Out) -> Option<u32> {
    both(s, out, |frame, out| give([frame.is_empty().into()], out), |frame, out| give([frame.is_empty().into()], out))
}

/// A tag that `TpmSt` lacks cannot be set.
pub fn frame_set_tag(s: &mut [u8], tag: u16, out: &mut Out) -> Option<u32> {
    let tag = TpmSt::try_from(tag).ok()?;
    let set_in_command = |frame: &mut TpmCommand, out: &mut Out| {
        frame.set_tag(tag);
        give([], out)
    };
    let set_in_response = |frame: &mut TpmResponse, out: &mut Out| {
        frame.set_tag(tag);
        give([], out)
    };
    both(s, out, set_in_command, set_in_response)
}

pub fn command_cc(s: &mut [u8], out: &mut Out) -> Option<u32> {
    command(s).map(|frame| tell(frame.cc(), |cc| [cc.value().into()], out))
}

pub fn command_set_cc(s: &mut [u8], code: u32, out: &mut Out) -> Option<u32> {
    let cc = TpmCc::try_from(code).ok()?;
    command(s).map(|frame| tell(frame.set_cc(cc), |()| [], out))
}

pub fn command_handles(s: &mut [u8], out: &mut Out) -> Option<u32> {
    let start = s.as_ptr();
    command(s).map(|frame| tell(frame.handles(), |part| range(part, start), out))
}

pub fn command_auth_area(s: &mut [u8], out: &mut Out) -> Option<u32> {
    let start = s.as_ptr();
    command(s).map(|frame| tell(frame.auth_area(), |part| range(part, start), out))
}

pub fn command_parameters(s: &mut [u8], out: &mut Out) -> Option<u32> {
    let start = s.as_ptr();
    command(s).map(|frame| tell(frame.parameters(), |part| range(part, start), out))
}

pub fn response_rc(s: &mut [u8], out: &mut Out) -> Option<u32> {
    response(s).map(|frame| tell(frame.rc(), |rc| [rc.value().into()], out))
}

pub fn response_set_rc(s: &mut [u8], code: u32, out: &mut Out) -> Option<u32> {
    let rc = TpmRc::try_from(code).ok()?;
    response(s).map(|frame| {
        frame.set_rc(rc);
        give([], out)
    })
}

pub fn response_body(s: &mut [u8], out: &mut Out) -> Option<u32> {
    let start = s.as_ptr();
    response(s).map(|frame| give(range(frame.body(), start), out))
}

// ---- all parts: the crate's checks and areas, and a walk with its own readers of a number and of a TPM2B

/// The entries of an area, the first three of them by value.
fn entries_of(mut area: &[u8], start: *const u8, command: bool) -> TpmResult<Sessions> {
    let mut sessions = Sessions::default();
    while !area.is_empty() {
        let entry;
        (entry, area) = entry_of(area, start, command)?;
        if let Some(place) = sessions.three.get_mut(sessions.count) {
            *place = entry;
        }
        sessions.count += 1;
    }
    Ok(sessions)
}

/// The entry at the start of an area, and what is behind it.
fn entry_of(area: &[u8], start: *const u8, command: bool) -> TpmResult<(Session, &[u8])> {
    let (handle, area) = if command { TpmUint32::unmarshal(area)? } else { (TpmUint32::new(0), area) };
    let (nonce, area) = Tpm2b::<{ u16::MAX as usize }>::cast_prefix(area)?;
    let Some((&attributes, area)) = area.split_first() else {
        return Err(TpmError::UnexpectedEnd { offset: 0, needed: 1, available: 0 });
    };
    let (hmac, area) = Tpm2b::<{ u16::MAX as usize }>::cast_prefix(area)?;
    let [nonce, hmac] =
        [nonce, hmac].map(|field| Field { at: span(field.data(), start).from, size: field.size() as u16 });
    Ok((Session { handle: handle.value(), nonce, attributes, hmac }, area))
}

fn span(part: &[u8], start: *const u8) -> Span {
    let [from, to] = range(part, start).map(|place| place as usize);
    Span { from, to }
}

pub fn command_parts(s: &[u8], out: &mut Out) -> Parts {
    tell_parts(command_read(s), out)
}

fn command_read(s: &[u8]) -> TpmResult<calls::Frame> {
    let frame = TpmCommand::cast(s)?;
    frame.validate()?;
    let area = frame.auth_area()?;
    Ok(calls::Frame {
        tag: frame.tag()?.value(),
        code: frame.cc()?.value(),
        handles: span(frame.handles()?, s.as_ptr()),
        auth: span(area, s.as_ptr()),
        parameters: span(frame.parameters()?, s.as_ptr()),
        sessions: entries_of(area, s.as_ptr(), true)?,
    })
}

pub fn response_parts(cc: u32, s: &[u8], out: &mut Out) -> Option<Parts> {
    if let Err(error) = TpmResponse::cast(s) {
        return Some(tell_parts(Err(error), out));
    }
    let cc = TpmCc::try_from(cc).ok()?;
    match response_handles(cc) {
        Ok(handles) => Some(response_parts_of(cc, handles, s, out)),
        Err(error) => Some(tell_parts(Err(error), out)),
    }
}

/// The same for who knows the command as the crate's member, and how many handles its response has.
pub fn response_parts_of(cc: TpmCc, handles: usize, s: &[u8], out: &mut Out) -> Parts {
    let read = TpmResponse::cast(s).and_then(|frame| response_read(cc, handles, frame));
    tell_parts(read, out)
}

fn response_read(cc: TpmCc, handles: usize, frame: &TpmResponse) -> TpmResult<calls::Frame> {
    frame.validate(cc)?;
    let [handles, from, to, end] = response_areas(frame, handles)?.map(|place| place as usize);
    let s = frame.as_bytes();
    Ok(calls::Frame {
        tag: frame.tag()?.value(),
        code: frame.rc()?.value(),
        handles: Span { from: 10, to: handles },
        auth: Span { from: to, to: end },
        parameters: Span { from, to },
        sessions: entries_of(&s[to..end], s.as_ptr(), false)?,
    })
}

/// On success the array is left alone, and behind a refusal the parts are zeros.
fn tell_parts(read: TpmResult<calls::Frame>, out: &mut Out) -> Parts {
    match read {
        Ok(frame) => Parts { refusal: 0, frame },
        Err(error) => Parts { refusal: refuse(error, out), frame: calls::Frame::default() },
    }
}

/// Of a response that passes, but perhaps for its entries: where the handles end, where the parameters start and end,
/// and its own end.
pub fn response_areas(frame: &TpmResponse, handles: usize) -> TpmResult<[u64; 4]> {
    let end = frame.len() as u64;
    if !matches!(frame.rc()?, TpmRc::Fmt0(TpmRcBase::Success)) {
        return Ok([10, 10, 10, end]);
    }
    let handles = 10 + 4 * handles as u64;
    if frame.tag()? != TpmSt::Sessions {
        return Ok([handles, handles, end, end]);
    }
    let behind = frame.as_bytes().get(handles as usize..).unwrap_or_default();
    let (size, _) = TpmUint32::unmarshal(behind)?;
    Ok([handles, handles + 4, handles + 4 + u64::from(size.value()), end])
}
