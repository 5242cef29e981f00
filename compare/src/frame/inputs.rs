//! The inputs of the frame suite: from every short string of bytes to frames that are wrong in one place.

mod bad_tag;
mod damage;
mod entries;
mod headers;
mod lengths;
mod tables;

use super::call::{CALLS, Kind, Takes, named};
use super::desk::{Desk, Numbers};
use super::{known, make};
use crate::by;
use crate::random::Random;
use std::thread;

/// Where calls are thinned, one in so many is made: a prime, so that all low bits occur.
const STEP: usize = 4_099;

/// The short strings, which take about as long as all the others, have a thread, a desk and a seed of their own.
pub fn each(desk: &mut Desk, random: &mut Random, thin: bool) {
    let (mut beside, mut seeded) = (Desk::new(), Random::new(random.number()));
    thread::scope(|scope| {
        scope.spawn(|| short(&mut beside, &mut seeded, thin));
        desk.at_each_table(codes);
        response_codes(desk);
        desk.at_each_table(|desk| tables::each(desk, random));
        tables::search(desk, thin);
        tags(desk, thin);
        headers::each(desk, random, thin);
        entries::each(desk, random, thin);
        damage::each(desk, random, thin);
        lengths::each(desk, random, thin);
        bad_tag::each(desk, random, thin);
        unnamed(desk, random);
    });
    desk.merge(&beside);
}

/// Every string of up to three bytes, to which the answer is almost always that a header is missing.
fn short(desk: &mut Desk, random: &mut Random, thin: bool) {
    for len in 0..=3 {
        let count = 1_usize << (8 * len);
        for n in (0..count).step_by(if thin && len > 1 { STEP } else { 1 }) {
            desk.lay(&n.to_be_bytes()[8 - len..]);
            desk.ask_all(Numbers::random(random));
        }
    }
}

/// The codes that the table is asked for: all around its rows, and the limits of 32 bits.
fn all_codes() -> impl Iterator<Item = u32> {
    (0..0x400).chain(0x1FFF_FF00..0x2000_0100).chain([1 << 31, u32::MAX - 1, u32::MAX])
}

/// The table, and the calls that read or write a code in a header alone.
fn codes(desk: &mut Desk) {
    let (find, known) = (named("table_find"), named("table_known"));
    for code in all_codes() {
        desk.lay(&[]);
        desk.ask(find, code);
        desk.ask(known, code);
        for tag in [0x8001_u16, 0x8002] {
            desk.lay(&make::fields(tag, 10, code));
            desk.ask_kind(Kind::Command, 0);
            desk.lay(&make::fields(tag, 10, 0));
            desk.ask_kind(Kind::Response, code);
            desk.ask_setters([tag.into(), code, code]);
        }
    }
}

/// Response codes, of which the last that reads is below 0x1000.
fn response_codes(desk: &mut Desk) {
    for code in (0..0x2000).chain(all_codes()) {
        desk.lay(&make::fields(0x8001, 10, code));
        desk.ask_kind(Kind::Response, 0x144);
        desk.ask_setters([0x8001, 0x144, code]);
    }
}

/// Every tag, in a header alone and in front of a handle.
fn tags(desk: &mut Desk, thin: bool) {
    let (known, set_tag) = (named("tag_known"), named("frame_set_tag"));
    let mut frames = [make::fields(0, 10, 0x144), make::fields(0, 18, 0x15E), make::fields(0, 10, 0)];
    frames[1].extend([0; 8]);
    let step = if thin { 17 } else { 1 };
    for tag in (0..=u16::MAX).filter(|&tag| tag % step == 0 || known::is_tag(tag)) {
        desk.lay(&[]);
        desk.ask(known, tag.into());
        for frame in &mut frames {
            desk.lay(frame);
            desk.ask(set_tag, tag.into());
            desk.bytes()[..2].copy_from_slice(&tag.to_be_bytes());
            desk.ask_kind(Kind::Header, 0);
            desk.ask_kind(Kind::Command, 0);
            desk.ask_kind(Kind::Response, 0x15E);
        }
    }
}

/// Each call that takes rules or a table, with numbers that name none: on bytes that are cut, and on frames that pass and do
/// not.
fn unnamed(desk: &mut Desk, random: &mut Random) {
    let headers = [(make::PLAIN, 0x144), (make::PLAIN, 0), (make::RSP_COMMAND, make::BAD_TAG)];
    let frames = headers.iter().map(|&(tag, code)| make::fields(tag, 10, code)).chain([Vec::new(), random.bytes(9)]);
    let frames: Vec<_> = frames.collect();
    for (frame, number) in frames.iter().flat_map(|frame| [0, 0x144, u32::MAX].map(|number| (frame, number))) {
        desk.lay(frame);
        for (at, call) in CALLS.iter().enumerate().filter(|(_, call)| call.takes != Takes::Nothing) {
            by::unnamed(call.readings()).for_each(|by| desk.ask_by(by, at, number));
        }
    }
}
