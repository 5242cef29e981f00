//! What the crate's writers do where document 01 or the standard mode says something else (D4 to D6 and D16 of
//! docs/DIFFERENCES.md), each shown by a run of the crate itself.

use super::oracle::{Body, plain_command, response_write};
use super::{Desk, Kind, without_sessions};
use crate::calls::{self, RUST, STANDARD_BAD_TAG};
use crate::frame::make::BAD_TAG;
use crate::judge::CRATE;
use crate::shown::{came_to, difference};
use tpm2_protocol::data::TpmCc;
use tpm2_protocol::frame::{TpmFrame, TpmMarshalBody};
use tpm2_protocol::{TpmMarshal, TpmResult, TpmSized, TpmWriter};

pub fn show(desk: &mut Desk) {
    room_short(desk);
    handle_made_up(desk);
    sum_too_large(desk);
    bad_tag(desk);
}

/// D4: a command of twelve bytes into room for eleven.
fn room_short(desk: &mut Desk) {
    let given = without_sessions(&[], &[0, 0]);
    let body = Body { cc: TpmCc::Startup, row_handles: 0, handles: &[], parameters: given.parameters };
    let theirs = came_to(11, |room, out| plain_command(&body, room, out));
    let ours = came_to(11, |room, out| calls::command_write(RUST, 0x8001, 0x144, given, room, out));
    let partial = "9(10,2,1), room 80010000000c00000144ee";
    let none = "9(0,12,11), room eeeeeeeeeeeeeeeeeeeeee";
    difference(desk.tally(Kind::Command), "write", "D4", (theirs, partial), (ours, none));
}

/// D5: three handle bytes for a row of one handle, and one parameter byte.
fn handle_made_up(desk: &mut Desk) {
    let given = without_sessions(&[0x80, 0, 0], &[7]);
    let body = Body { cc: TpmCc::Unseal, row_handles: 1, handles: given.handles, parameters: given.parameters };
    let theirs = came_to(14, |room, out| plain_command(&body, room, out));
    let ours = came_to(14, |room, out| calls::command_write(RUST, 0x8001, 0x15E, given, room, out));
    let taken = "0(14), room 80010000000e0000015e80000007";
    let refused = "1(0,4,3), room eeeeeeeeeeeeeeeeeeeeeeeeeeee";
    difference(desk.tally(Kind::Command), "write", "D5", (theirs, taken), (ours, refused));
}

/// A body that says of itself to be longer than any slice.
#[derive(Debug)]
struct Endless;

impl TpmSized for Endless {
    const SIZE: usize = usize::MAX;

    fn len(&self) -> usize {
        usize::MAX
    }
}

impl TpmMarshal for Endless {
    fn marshal(&self, _: &mut TpmWriter) -> TpmResult<()> {
        Ok(())
    }
}

impl TpmMarshalBody for Endless {
    fn marshal_handles(&self, _: &mut TpmWriter) -> TpmResult<()> {
        Ok(())
    }

    fn marshal_parameters(&self, _: &mut TpmWriter) -> TpmResult<()> {
        Ok(())
    }
}

impl TpmFrame for Endless {
    fn cc(&self) -> TpmCc {
        TpmCc::Startup
    }

    fn handles(&self) -> usize {
        0
    }
}

/// D6: the crate alone can be asked, since its bodies tell their length themselves and ours are slices.
fn sum_too_large(desk: &mut Desk) {
    let theirs = came_to(10, |room, out| plain_command(&Endless, room, out));
    let listed = "7(0,10), room eeeeeeeeeeeeeeeeeeee";
    println!("write: D6: tpm2-protocol: {theirs}; here no slices are that long");
    if theirs != listed {
        desk.tally(Kind::Command).differs_from(CRATE, &format!("D6, {CRATE}: {theirs}, and listed is {listed}"));
    }
}

/// D16: the code of the answer to a bad tag, which the crate writes under the plain tag alone.
fn bad_tag(desk: &mut Desk) {
    let given = without_sessions(&[], &[]);
    let theirs = came_to(10, |room, out| response_write(BAD_TAG, 0x144, given, room, out).expect("the code reads"));
    let ours = came_to(10, |room, out| calls::response_write(STANDARD_BAD_TAG, BAD_TAG, 0x144, given, room, out));
    let plain = "0(10), room 80010000000a0000001e";
    let asked = "0(10), room 00c40000000a0000001e";
    difference(desk.tally(Kind::Response), "write", "D16, response_write", (theirs, plain), (ours, asked));
}
