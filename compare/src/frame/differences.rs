//! What the crate does with the answer to a bad tag and with a nonce of 65 bytes (D16 and D17 of docs/DIFFERENCES.md), shown
//! by runs of the crate itself beside the standard reading.

use super::call::CALLS;
use super::{Desk, known, make, named};
use crate::calls::STANDARD;
use crate::judge::CRATE;
use crate::oracle::tell;
use crate::random::Random;
use crate::shown::{self, said};
use tpm2_protocol::data::{TpmCc, TpmSt};
use tpm2_protocol::frame::TpmResponse;

pub fn show(desk: &mut Desk) {
    for (name, theirs, ours) in [
        ("response_cast", "3(0,196)", "0(0,10)"),
        ("response_cast_prefix", "3(0,196)", "0(0,10,10,10)"),
        ("response_validate", "3(0,196)", "0()"),
        ("response_parts", "3(0,196)", "0()"),
        // the fields read alike: the crate's type of tags has this one, and its codes are read under any
        ("frame_tag", "0(196)", "0(196)"),
        ("response_rc", "0(30)", "0(30)"),
    ] {
        one_call(desk, "D16", (name, &answer(), TpmCc::Startup), theirs, ours);
    }
    tag_set(desk);
    let [command, response] = long_nonces();
    for (frame, name, ours) in [
        (&command, "command_cast", "0(0,92)"),
        (&command, "command_validate", "8(22,64,65)"),
        (&command, "command_parts", "8(22,64,65)"),
        (&response, "response_cast", "0(0,84)"),
        (&response, "response_validate", "8(14,64,65)"),
        (&response, "response_parts", "8(14,64,65)"),
    ] {
        // a cast walks nothing, and what walks passes
        let theirs = if name.ends_with("_cast") { ours } else { "0()" };
        one_call(desk, "D17", (name, frame, TpmCc::Unseal), theirs, ours);
    }
}

/// Unseal and its answer with one session, whose nonce has 65 bytes.
fn long_nonces() -> [Vec<u8>; 2] {
    let random = &mut Random::new(0);
    let row = known::row(TpmCc::Unseal.value()).expect("a row");
    let area = |command, random: &mut Random| make::entries(command, 1, (65, 0), random).bytes;
    let command = make::command(&row, Some(&area(true, random)), &[], random);
    [command, make::response(&row, Some(&area(false, random)), &[], random)]
}

/// The answer to a bad tag.
fn answer() -> Vec<u8> {
    make::fields(make::RSP_COMMAND, 10, make::BAD_TAG)
}

/// A call on a frame, a response being one to the command of a code.
fn one_call(
    desk: &mut Desk,
    difference: &str,
    (name, frame, cc): (&str, &[u8], TpmCc),
    theirs_listed: &str,
    ours_listed: &str,
) {
    let (at, cc, mut frame) = (named(name), cc.value(), frame.to_vec());
    let theirs = said(|out| (CALLS[at].theirs)(&mut frame, cc, &mut None, out).expect("the crate can be asked"));
    let ours = said(|out| (CALLS[at].ours)(STANDARD, &mut frame, cc, &mut None, out));
    let name = format!("{difference}, {name}");
    shown::difference(desk.tally(at), "frame", &name, (theirs, theirs_listed), (ours, ours_listed));
}

/// A view of another error whose fields are set until it is that answer: the crate's full check judges the tag anew.
fn tag_set(desk: &mut Desk) {
    let mut bytes = make::fields(make::PLAIN, 10, make::BAD_TAG);
    let view = TpmResponse::cast_mut(&mut bytes).expect("an error under the plain tag");
    view.set_tag(TpmSt::RspCommand);
    assert_eq!(view.as_bytes(), answer());
    let (theirs, listed) = (said(|out| tell(view.validate(TpmCc::Startup), |()| [], out)), "3(0,196)");
    println!("frame: D16, validate of a view whose tag was set: {CRATE}: {theirs}; here there is no such view");
    if theirs != listed {
        let how = format!("D16, a view whose tag was set: {theirs}, and listed is {listed}");
        desk.tally(named("response_validate")).differs_from(CRATE, &how);
    }
}
