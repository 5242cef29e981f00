//! The rows of the writers. A frame is made, and each side gets its parts outside of the loop, in the form that its
//! writer takes. What a side writes has to be that frame again: this is seen to before it is measured.

use crate::calls::{self, Frame, Handed, Out, RUST, Span};
use crate::frames::Pair;
use crate::oracle::tell;
use crate::rows::{Side, repeat};
use crate::write_oracle::Body;
use std::hint::black_box;
use tpm2_protocol::data::{TpmCc, TpmRc, TpmRcBase, TpmSt, TpmsAuthCommand, TpmsAuthResponse};
use tpm2_protocol::frame::{tpm_marshal_command, tpm_marshal_response};
use tpm2_protocol::{TpmUnmarshal, TpmWriter};

/// Makes so many calls that write a frame from what is given.
pub fn again<T>(frame: &[u8], given: &T, n: u64, call: fn(&T, &mut [u8], &mut Out) -> u32) {
    let call = black_box(call);
    let (mut room, mut out) = (vec![0; frame.len()], [0; 8]);
    let number = call(given, &mut room, &mut out);
    assert!(number == 0 && out[0] == frame.len() as u64 && room == frame, "another frame is written");
    repeat(n, |out| call(black_box(given), black_box(&mut room), out));
}

/// The same for the side that writes nothing.
pub fn nothing(n: u64) {
    again(&[], &(), n, |(), _, _| 0);
}

pub fn command(side: Side, n: u64, [pair]: &[Pair; 1]) {
    match side {
        Side::Ours => command_by_us(n, pair),
        Side::Other => command_by_rust(n, pair),
        Side::Empty => nothing(n),
    }
}

pub fn command_by_us(n: u64, pair: &Pair) {
    let frame = pair.command_frame();
    again(&pair.command, &(frame, handed(&pair.command, frame)), n, |(frame, given), room, out| {
        calls::command_write(RUST, frame.tag, frame.code, *given, room, out)
    });
}

/// The same with the records in an array.
pub fn command_array(side: Side, n: u64, [pair]: &[Pair; 1]) {
    match side {
        Side::Ours => command_array_by_us(n, pair),
        Side::Other => command_by_rust(n, pair),
        Side::Empty => nothing(n),
    }
}

fn command_array_by_us(n: u64, pair: &Pair) {
    let frame = pair.command_frame();
    let given = handed(&pair.command, frame).over(&frame.sessions.three);
    again(&pair.command, &(frame, given), n, |(frame, given), room, out| {
        calls::command_write_array(RUST, frame.tag, frame.code, *given, room, out)
    });
}

fn command_by_rust(n: u64, pair: &Pair) {
    let (frame, cc) = (pair.command_frame(), pair.cc());
    let tag = TpmSt::try_from(frame.tag).expect("the tag is known");
    let sessions: Vec<TpmsAuthCommand> = all(part(&pair.command, frame.auth));
    again(&pair.command, &(tag, sessions, body(cc, &pair.command, frame)), n, |(tag, sessions, body), room, out| {
        let mut writer = TpmWriter::new(room);
        tell(tpm_marshal_command(body, *tag, sessions, &mut writer), |()| [writer.len() as u64], out)
    });
}

pub fn response(side: Side, n: u64, [pair]: &[Pair; 1]) {
    match side {
        Side::Ours => response_by_us(n, pair),
        Side::Other => response_by_rust(n, pair),
        Side::Empty => nothing(n),
    }
}

fn response_by_us(n: u64, pair: &Pair) {
    let (frame, cc) = (pair.response_frame(), pair.cc().value());
    again(&pair.response, &(cc, frame, handed(&pair.response, frame)), n, |(cc, frame, given), room, out| {
        calls::response_write(RUST, frame.code, *cc, *given, room, out)
    });
}

pub fn response_array(side: Side, n: u64, [pair]: &[Pair; 1]) {
    match side {
        Side::Ours => response_array_by_us(n, pair),
        Side::Other => response_by_rust(n, pair),
        Side::Empty => nothing(n),
    }
}

fn response_array_by_us(n: u64, pair: &Pair) {
    let (frame, cc) = (pair.response_frame(), pair.cc().value());
    let given = handed(&pair.response, frame).over(&frame.sessions.three);
    again(&pair.response, &(cc, frame, given), n, |(cc, frame, given), room, out| {
        calls::response_write_array(RUST, frame.code, *cc, *given, room, out)
    });
}

fn response_by_rust(n: u64, pair: &Pair) {
    let (frame, cc) = (pair.response_frame(), pair.cc());
    let sessions: Vec<TpmsAuthResponse> = all(part(&pair.response, frame.auth));
    let rc = TpmRc::Fmt0(TpmRcBase::Success);
    again(&pair.response, &(rc, sessions, body(cc, &pair.response, frame)), n, |(rc, sessions, body), room, out| {
        let mut writer = TpmWriter::new(room);
        tell(tpm_marshal_response(body, *rc, sessions, &mut writer), |()| [writer.len() as u64], out)
    });
}

// ---- the parts of a frame, as each side takes them

fn part(bytes: &[u8], span: Span) -> &[u8] {
    &bytes[span.from..span.to]
}

/// What is lent with the places of nonces and HMACs is the frame itself.
fn handed(bytes: &[u8], frame: Frame) -> Handed<'_> {
    let (handles, parameters) = (part(bytes, frame.handles), part(bytes, frame.parameters));
    Handed { handles, sessions: frame.sessions, lent: bytes, parameters }
}

/// The values of an area, one behind the other.
fn all<T: TpmUnmarshal>(mut area: &[u8]) -> Vec<T> {
    let mut values = Vec::new();
    while !area.is_empty() {
        let value;
        (value, area) = T::unmarshal(area).expect("the area is right");
        values.push(value);
    }
    values
}

fn body(cc: TpmCc, bytes: &[u8], frame: Frame) -> Body<'_> {
    let (handles, parameters) = (part(bytes, frame.handles), part(bytes, frame.parameters));
    Body { cc, row_handles: handles.len() / 4, handles, parameters }
}
