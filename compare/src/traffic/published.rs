//! Frames that other projects publish, in a table of kind, bytes, source, what it is, and what document 01 says of it.
//! The last column is text for readers: it must be what our own answer in the Rust reading becomes when it is told in those
//! words.

use super::{Desks, ask_command, ask_response, read};
use crate::answer::Hex;
use crate::calls::{self, Frame, OFFSET, Out, Parts, RUST, Span};
use crate::frame::{named, real};
use std::path::Path;

/// A row of the table.
struct Published {
    is_command: bool,
    frame: Vec<u8>,
    what: String,
    result: String,
}

fn rows(file: &Path) -> Vec<Published> {
    let row = |line| {
        let [kind, hex, _, what, result] = <[String; 5]>::try_from(fields(line))
            .unwrap_or_else(|row| panic!("a row of {} has no five columns: {row:?}", file.display()));
        let frame = real::unhex(&hex).expect("the bytes are in hexadecimal");
        Published { is_command: kind.ends_with("command"), frame, what, result }
    };
    read(file).lines().skip(1).map(row).collect()
}

pub fn commands(file: &Path) -> impl Iterator<Item = Vec<u8>> {
    rows(file).into_iter().filter(|row| row.is_command).map(|row| row.frame)
}

pub fn check(desks: &mut Desks, file: &Path) {
    let (mut held, mut differ) = (0, 0);
    for Published { is_command, frame, what, result } in rows(file) {
        let ours = if is_command { command(desks, &frame) } else { response(desks, &frame, &what) };
        held += 1;
        if ours != result.trim_end() {
            differ += 1;
            let call = named(if is_command { "command_parts" } else { "response_parts" });
            let how = format!("{}: '{ours}', and published is '{result}'", Hex(&frame));
            desks.read.tally(call).differs_in_all(&how);
        }
    }
    assert!(held > 0, "there is no frame in {}", file.display());
    println!("traffic: {held} published frames, each held to its published result, {differ} differ");
}

/// The columns of a row. A column in quotes may hold commas, and a quote in it is doubled.
fn fields(row: &str) -> Vec<String> {
    let (mut fields, mut quoted) = (vec![String::new()], false);
    let mut marks = row.chars().peekable();
    while let Some(mark) = marks.next() {
        match mark {
            '"' if quoted && marks.next_if_eq(&'"').is_some() => fields.last_mut().expect("a column").push('"'),
            '"' => quoted = !quoted,
            ',' if !quoted => fields.push(String::new()),
            _ => fields.last_mut().expect("a column").push(mark),
        }
    }
    fields
}

fn command(desks: &mut Desks, frame: &[u8]) -> String {
    ask_command(desks, frame);
    let mut out = [0; 8];
    let Parts { refusal: number, frame } = calls::command_parts(RUST, frame, &mut out);
    if number != 0 {
        return refusal(number, &out);
    }
    let entries = entries(&frame).unwrap_or("no entries".into());
    format!("passes; handles {}, {entries}, parameters {}", place(frame.handles), place(frame.parameters))
}

fn response(desks: &mut Desks, frame: &[u8], what: &str) -> String {
    let cc = answered(what);
    ask_response(desks, cc, frame);
    let mut out = [0; 8];
    let Parts { refusal: number, frame } = calls::response_parts(RUST, cc, frame, &mut out);
    if number != 0 {
        return refusal(number, &out);
    }
    if frame.code != 0 {
        return error_code(frame.code);
    }
    let entries = entries(&frame).map_or(String::new(), |entries| format!(", {entries}"));
    format!("passes; handles {}, parameters {}{entries}", place(frame.handles), place(frame.parameters))
}

fn place(part: Span) -> String {
    format!("{}..{}", part.from, part.to)
}

/// How many entries there are, and where; none where there is none.
fn entries(frame: &Frame) -> Option<String> {
    let count = frame.sessions.count;
    (count > 0).then(|| format!("{count} entries {}", place(frame.auth)))
}

/// The code that is named behind the word `for`; 0 where none is, which only a frame does that no cast lets through.
fn answered(what: &str) -> u32 {
    let behind = what.split_once("for ").and_then(|(_, behind)| behind.split_once("0x"));
    let digits = |text: &str| text.chars().take_while(char::is_ascii_hexdigit).collect::<String>();
    behind.map_or(0, |(_, code)| u32::from_str_radix(&digits(code), 16).expect("a code is named"))
}

fn refusal(number: u32, out: &Out) -> String {
    let fields = if matches!(number, 1 | 6 | 8) { 3 } else { 2 };
    let fields: Vec<String> = out[OFFSET..][..fields].iter().map(u64::to_string).collect();
    format!("{number}({})", fields.join(","))
}

fn error_code(code: u32) -> String {
    let mut out = [0; 8];
    calls::rc_read(code, &mut out);
    let [kind, base, index, ..] = out;
    let kinds = ["fmt0", "warn", "fmt1", "fmt1", "fmt1", "fmt1"];
    let index = match kind {
        3 => format!(" parameter {index}"),
        4 => format!(" handle {index}"),
        5 => format!(" session {index}"),
        _ => String::new(),
    };
    format!("passes; {} base 0x{base:X}{index}", kinds[kind as usize])
}
