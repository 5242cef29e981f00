//! Around the answer to a bad tag, `00C4 0000000A 0000001E`: the one frame that the standard reading takes beside the Rust's.

use super::all_codes;
use crate::frame::call::{Kind, named};
use crate::frame::desk::{Desk, Numbers};
use crate::frame::known;
use crate::frame::make::{self, BAD_TAG, PLAIN, RSP_COMMAND, SESSIONS};
use crate::random::Random;

pub fn each(desk: &mut Desk, random: &mut Random, thin: bool) {
    codes(desk, random, thin);
    tags(desk, thin);
    commands(desk);
    tails(desk, random);
    setters(desk, thin);
}

/// The answer, but with this code.
fn coded(code: u32) -> Vec<u8> {
    make::fields(RSP_COMMAND, 10, code)
}

/// The answer with so many bytes behind its header.
fn longer(more: usize) -> Vec<u8> {
    make::sized([coded(BAD_TAG), vec![0; more]].concat())
}

/// Every code that could be a response's, and some above: those that its low bits are taken for among them.
fn each_code(thin: bool) -> impl Iterator<Item = u32> {
    let step = if thin { 61 } else { 1 };
    let above = [0x1000 | BAD_TAG, BAD_TAG << 8, BAD_TAG << 16, BAD_TAG << 24, 1 << 31 | BAD_TAG, u32::MAX];
    (0..0x1000).filter(move |code| code % step == 0 || [BAD_TAG, 0x30].contains(code)).chain(above)
}

/// Each of them in bytes of every length up to a handle behind the header, with sizes that are right and wrong.
fn codes(desk: &mut Desk, random: &mut Random, thin: bool) {
    for (code, len) in each_code(thin).flat_map(|code| (0..=14).map(move |len| (code, len))) {
        for size in [len, 10, 9, 0, len + 1] {
            let mut bytes = make::fields(RSP_COMMAND, size as u32, code);
            bytes.resize(bytes.len() + 4, random.byte() & 1);
            bytes.truncate(len);
            desk.lay(&bytes);
            desk.ask_all(Numbers { cc: 0x144, ..Numbers::random(random) });
        }
    }
}

/// Its code under every tag, in a header alone and with a byte behind it.
fn tags(desk: &mut Desk, thin: bool) {
    let step = if thin { 17 } else { 1 };
    for tag in (0..=u16::MAX).filter(|&tag| tag % step == 0 || known::is_tag(tag)) {
        desk.lay(&make::fields(tag, 10, BAD_TAG));
        desk.ask_kind(Kind::Response, 0x144);
        desk.bytes().push(0);
        make::set_size(desk.bytes());
        desk.ask_kind(Kind::Response, 0x144);
    }
}

/// It, the same longer, and with another code, as a response to the command of each row and to codes without one.
fn commands(desk: &mut Desk) {
    let checks = ["response_validate", "response_parts"].map(named);
    for frame in [coded(BAD_TAG), longer(1), longer(4), coded(0), coded(0x101), coded(0xC4)] {
        desk.lay(&frame);
        for cc in all_codes() {
            checks.iter().for_each(|&check| desk.ask(check, cc));
        }
    }
}

/// It at the start of more bytes: of itself, of frames under the other tags, of anything; and behind another frame.
fn tails(desk: &mut Desk, random: &mut Random) {
    let answer = coded(BAD_TAG);
    let others = [answer.clone(), make::fields(PLAIN, 10, 0), make::fields(SESSIONS, 10, 0), random.bytes(40)];
    let codes = [BAD_TAG, 0, 0x30, 0x101, u32::MAX];
    for (code, other) in codes.iter().flat_map(|&code| others.iter().map(move |other| (code, other))) {
        for len in 0..=other.len() {
            desk.lay(&[&coded(code), &other[..len]].concat());
            desk.ask_all(Numbers { cc: 0x144, ..Numbers::random(random) });
        }
        desk.lay(&[other.as_slice(), &coded(code)].concat());
        desk.ask_all(Numbers { cc: 0x144, ..Numbers::random(random) });
    }
}

/// Every code set in it and in what is like it: under its tag with another code or longer, and under other tags.
fn setters(desk: &mut Desk, thin: bool) {
    let cut = coded(BAD_TAG)[..9].to_vec();
    let under = |tag| make::fields(tag, 10, BAD_TAG);
    let others = [under(PLAIN), under(SESSIONS), under(0x00C5)];
    let frames = [coded(BAD_TAG), coded(0), coded(u32::MAX), longer(4), cut].into_iter().chain(others);
    let set_rc = named("response_set_rc");
    for frame in frames {
        desk.lay(&frame);
        each_code(thin).for_each(|code| desk.ask(set_rc, code));
        for tag in known::TAGS.map(u32::from) {
            desk.ask_setters([tag, BAD_TAG, BAD_TAG]);
        }
    }
}
