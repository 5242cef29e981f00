//! Document 01's worked frames, with all calls on each.

use super::{Kind, kind};
use crate::frame::real::unhex;

/// Commands, in document 01's order: none, A and its variations, B and its variations.
const COMMANDS: [&str; 10] = [
    "",
    "80010000000c000001440000",
    "80010000000b000001440000",
    "80010000000d000001440000",
    "800100000009000001440000",
    "00c40000000c000001440000",
    "80020000001b0000015e8000000000000009400000090000000000",
    "8002000000120000015e8000000000000000",
    "80020000001a0000015e80000000000000084000000900000000",
    "80020000002e0000015e800000000000001c40000009000000000040000009000000000040000009000000000000",
];

/// Responses, each with the code of the command that it answers: an error under both tags, then C and C with a larger
/// parameter size.
const RESPONSES: [(u32, &str); 4] = [
    (0x15E, "80010000000a00000101"),
    (0x15E, "80020000000a00000101"),
    (0x17B, "80020000001700000000000000040002aabb0000010000"),
    (0x17B, "800200000017000000000000000a0002aabb0000010000"),
];

pub fn list() {
    for frame in COMMANDS {
        all(frame, 0x144);
    }
    for (cc, frame) in RESPONSES {
        all(frame, cc);
    }
}

fn all(frame: &str, cc: u32) {
    let bytes = unhex(frame).expect("the frames are in hexadecimal");
    kind(Kind::Header, &bytes, 0);
    kind(Kind::Command, &bytes, 0);
    kind(Kind::Response, &bytes, cc);
}
