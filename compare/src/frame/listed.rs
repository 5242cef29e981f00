//! The fixed list's part on frames: calls of every kind, so chosen that each refusal comes from each place of document
//! 01's order of checks; its worked frames; and real frames. For a replay on machines without Rust.

mod revisions;
mod worked;

pub use revisions::any_row;

use super::call::{CALLS, Kind, named};
use super::known::{self, Row};
use super::make::{self, PLAIN, SESSIONS};
use super::{Frame, real};
use crate::by::READINGS;
use crate::calls::RUST;
use crate::edges;
use crate::judge;
use crate::random::Random;

/// One line, in the Rust reading at the crate's table.
fn line(call: usize, bytes: &[u8], number: u32) {
    line_by(RUST, call, bytes, number);
}

fn line_by(by: u32, call: usize, bytes: &[u8], number: u32) {
    let call = &CALLS[call];
    let number = if call.numbered { number } else { 0 };
    judge::list(&Frame { call, by, bytes: bytes.to_vec(), number }, call.writes());
}

/// A line for each of these calls.
fn lines(names: &[&str], bytes: &[u8], number: u32) {
    names.iter().for_each(|name| line(named(name), bytes, number));
}

/// A line for each call of a kind.
fn kind(kind: Kind, bytes: &[u8], number: u32) {
    (0..CALLS.len()).filter(|&at| CALLS[at].kind == kind).for_each(|at| line(at, bytes, number));
}

/// The calls that judge a whole frame, of either kind.
const WHOLE: [&str; 8] = [
    "command_cast",
    "command_cast_prefix",
    "command_validate",
    "command_parts",
    "response_cast",
    "response_cast_prefix",
    "response_validate",
    "response_parts",
];

fn whole(command: bool) -> &'static [&'static str] {
    if command { &WHOLE[..4] } else { &WHOLE[4..] }
}

/// The calls that walk the entries.
fn walking(command: bool) -> &'static [&'static str] {
    if command { &WHOLE[2..4] } else { &WHOLE[6..] }
}

pub fn list(random: &mut Random) {
    tables(random);
    worked::list();
    headers(random);
    setters(random);
    for code in [0x17B, 0x15E, 0x131, 0x176, 0x149] {
        let row = known::row(code).expect("a row");
        lengths(&row, random);
        areas(&row, random);
    }
    counts(random);
    kept();
    limits(random);
    revisions::list(random);
}

/// Every row, and codes and tags beside them.
fn tables(random: &mut Random) {
    let gaps = [0, 0x11E, 0x123, 0x15A, 0x15F, 0x166, 0x175, 0x197, 0x1A2, 0x1FFF_FFFF, 0x2000_0001, u32::MAX];
    let others: Vec<u32> = (0..20).map(|_| random.number() as u32 % 0x400).collect();
    for code in known::rows().map(|row| row.code).chain(gaps).chain(others) {
        line(named("table_find"), &[], code);
        if code % 3 == 0 {
            line(named("table_known"), &[], code);
        }
    }
    for tag in edges::near(&known::TAGS.map(usize::from)).into_iter().chain([0, 0x7FFF, 0x8029, 0xFFFF]) {
        line(named("tag_known"), &[], tag as u32);
    }
}

/// Short bytes, then headers over the limits of each field, of a command with a handle and of a success.
fn headers(random: &mut Random) {
    for len in 0..=9 {
        let bytes = random.bytes(len);
        (0..CALLS.len()).filter(|&at| CALLS[at].kind != Kind::Table).for_each(|at| line(at, &bytes, 0x144));
    }
    let tags = [0, 0x00C4, 0x8000, PLAIN, SESSIONS, 0x8003, 0x801C, 0x8029, 0xFFFF];
    for (tag, code) in tags.iter().flat_map(|&tag| [(tag, 0x15E), (tag, 0)]) {
        let mut frame = make::fields(tag, 0, code);
        frame.extend(random.bytes(4));
        frame.extend([0; 4]);
        make::set_size(&mut frame);
        lines(&["frame_tag", "command_auth_area", "command_parameters"], &frame, 0);
        lines(whole(code != 0), &frame, 0x17B);
    }
    for size in [0, 1, 9, 10, 11, 13, 14, 15, 18, 0xFF, 1 << 16, 1 << 31, u32::MAX] {
        for (tag, code) in [(PLAIN, 0x15E), (PLAIN, 0)] {
            let mut frame = make::fields(tag, size, code);
            frame.extend(random.bytes(4));
            lines(&["frame_size", "frame_len", "command_handles"], &frame, 0);
            lines(whole(code != 0), &frame, 0x144);
        }
    }
    let codes = [0, 0x1E, 0x84, 0xC4, 0x101, 0x11E, 0x123, 0x144, 0x149, 0x161, 0x197, 0x1A1, 0x1A2, 0x1C4];
    for code in codes.into_iter().chain([0x922, 0x97F, 0x984, 0x10C4, 0x2000_0000, u32::MAX]) {
        let frame = make::fields(PLAIN, 10, code);
        kind(Kind::Command, &frame, 0);
        kind(Kind::Response, &frame, 0x15E);
        // a code that is asked for, of an answer that passes for some
        lines(whole(false), &make::fields(PLAIN, 10, 0), code);
    }
}

/// Setters on a frame that passes, on bytes that are none, and on bytes that end in the header.
fn setters(random: &mut Random) {
    let row = known::row(0x15E).expect("a row");
    let frames = [make::command(&row, None, &[1, 2, 3], random), random.bytes(11), random.bytes(9)];
    for frame in &frames {
        for tag in known::TAGS.iter().chain(&[0, 0x00C5, 0x0180, 0x8003, 0x801B, 0x8029, 0xFFFF]) {
            line(named("frame_set_tag"), frame, u32::from(*tag));
        }
        for code in [0, 0x11E, 0x11F, 0x123, 0x144, 0x15E, 0x197, 0x1A1, 0x1A2, 0x2000_0000, u32::MAX] {
            line(named("command_set_cc"), frame, code);
        }
        for code in [0, 0x1E, 0x7F, 0x84, 0xC4, 0x101, 0x1C4, 0x922, 0x97F, 0x984, 0xFFF, 0x10C4, u32::MAX] {
            line(named("response_set_rc"), frame, code);
        }
    }
}

/// A command and a response with an entry, cut at every length behind the header, and sized as they are then; and an
/// error that is longer than a header, under either tag.
fn lengths(row: &Row, random: &mut Random) {
    for command in [true, false] {
        let entry = make::entries(command, 1, (1, 2), random);
        let good = if command { make::command } else { make::response };
        let frame = good(row, Some(&entry.bytes), &random.bytes(2), random);
        for len in 10..=frame.len() {
            let cut = make::sized(frame[..len].to_vec());
            lines(walking(command), &cut, row.code);
            match len % 4 {
                0 => lines(&whole(command)[..2], &cut, 0),
                _ if command => kind_rest(&cut),
                _ => (),
            }
        }
        let plain = good(row, None, &random.bytes(3), random);
        kind(if command { Kind::Command } else { Kind::Response }, &plain, row.code);
        lines(&whole(command)[..2], &[plain.as_slice(), &random.bytes(3)].concat(), 0);
    }
    for (tag, len) in [(PLAIN, 10), (PLAIN, 11), (PLAIN, 14), (SESSIONS, 10), (SESSIONS, 14)] {
        let mut error = make::fields(tag, 0, 0x101);
        error.resize(len, 0);
        kind(Kind::Response, &make::sized(error), row.code);
    }
}

/// The area reads.
fn kind_rest(bytes: &[u8]) {
    lines(&["command_handles", "command_auth_area", "command_parameters"], bytes, 0);
}

/// Three entries, cut at every length of their area, and with lengths that lie.
fn areas(row: &Row, random: &mut Random) {
    for command in [true, false] {
        let good = if command { make::command } else { make::response };
        let entries = make::entries(command, 3, (1, 1), random);
        for len in 0..=entries.bytes.len() {
            let frame = good(row, Some(&entries.bytes[..len]), &[], random);
            line(named(walking(command)[len % 2]), &frame, row.code);
        }
        for (which, more) in (0..entries.lengths.len()).flat_map(|which| [(which, false), (which, true)]) {
            let frame = good(row, Some(&entries.lying(which, more)), &[7], random);
            line(named(walking(command)[which % 2]), &frame, row.code);
        }
    }
}

/// From no entry to nine, with bytes behind them.
fn counts(random: &mut Random) {
    let row = known::row(0x131).expect("a row");
    for (count, stray) in (0..=9).flat_map(|count| [(count, 0), (count, 1), (count, 6)]) {
        for command in [true, false] {
            let mut area = make::entries(command, count, (0, 1), random).bytes;
            area.resize(area.len() + stray, 0);
            let good = if command { make::command } else { make::response };
            lines(walking(command), &good(&row, Some(&area), &[1, 2], random), row.code);
        }
    }
}

/// Nonces and HMACs around the limit of the standard reading, in each reading: whole, and cut behind the last length.
fn limits(random: &mut Random) {
    let row = known::row(0x131).expect("a row");
    for (command, lengths) in [true, false].iter().flat_map(|&command| LIMITS.map(|lengths| (command, lengths))) {
        let good = if command { make::command } else { make::response };
        let entries = make::entries(command, 2, lengths, random);
        let (all, cut) = (entries.bytes.len(), entries.lengths[3] + 2);
        for (at, len) in [all, cut].into_iter().enumerate() {
            let frame = good(&row, Some(&entries.bytes[..len]), &[1, 2], random);
            READINGS.iter().for_each(|&by| line_by(by, named(walking(command)[at]), &frame, row.code));
        }
    }
}

const LIMITS: [(usize, usize); 3] = [(64, 64), (65, 0), (0, 65)];

/// The real frames.
fn kept() {
    for (at, (command, response)) in real::pairs().iter().enumerate() {
        let areas = ["command_handles", "command_auth_area", "command_parameters", "command_cast"];
        lines(&["command_parts", areas[at % 4]], command, 0);
        let others = ["response_validate", "response_cast", "response_rc", "response_cast_prefix"];
        lines(&["response_parts", others[at % 4]], response, real::code(command));
    }
}
