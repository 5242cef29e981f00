//! A frame as a person reads it.

use crate::hex::Hex;
use crate::input::Place;
use crate::look::{self, Inside, Kind, Part, Seen};
use skeinloft::{Refusal, Revision};
use std::fmt::{self, Write};
use std::ops::Range;

/// Bytes in a row of a part.
const ROW: usize = 32;

pub fn show(place: Place, seen: &Seen, out: &mut String) -> fmt::Result {
    title(place, seen, out)?;
    if seen.revision != Revision::Crate {
        writeln!(out, "  revision: {}", seen.revision)?;
    }
    if let Some(assumed) = &seen.assumed {
        writeln!(out, "  assumed: {assumed}")?;
    }
    seen.notes.iter().try_for_each(|(note, words)| writeln!(out, "  {note}: {words}"))?;
    match &seen.verdict {
        Ok(parts) => parts.iter().try_for_each(|part| show_part(seen.bytes, part, 0, 0, out))?,
        Err(refusal) => show_refusal(seen, refusal, out)?,
    }
    writeln!(out)
}

/// The line of a frame: where it is, what it is, and whether it passes.
fn title(place: Place, seen: &Seen, out: &mut String) -> fmt::Result {
    let kind = match seen.kind {
        Kind::Command => "command",
        Kind::Answer(_) => "answer",
        Kind::Response | Kind::AnyAnswer => "response",
    };
    write!(out, "{place}: {kind}")?;
    if let Some(name) = &seen.name {
        write!(out, " {name}")?;
    }
    if let Kind::Answer(cc) = seen.kind {
        write!(out, " to {cc}")?;
    }
    let verdict = match (&seen.verdict, seen.kind) {
        (Err(_), _) => "frame REFUSED",
        (Ok(_), Kind::Response) => "header passes",
        (Ok(_), _) => "frame passes",
    };
    writeln!(out, ", {}: {verdict}", count(seen.bytes.len(), "byte"))
}

/// So many of a thing.
pub fn count(number: usize, thing: &str) -> String {
    format!("{number} {thing}{}", if number == 1 { "" } else { "s" })
}

/// A part in a row: its place, its name, its bytes, and what they say. A part of others has its row above theirs.
fn show_part(bytes: &[u8], part: &Part, depth: usize, number: usize, out: &mut String) -> fmt::Result {
    let indent = 2 * depth;
    let name = if number == 0 { part.name.to_owned() } else { format!("{} {number}", part.name) };
    write!(out, "{:>7}..{:<6} {:indent$}{name:<width$}", part.at.start, part.at.end, "", width = 20 - indent)?;
    let (parts, numbered) = match &part.inside {
        Inside::Bytes => return show_bytes(&bytes[part.at.clone()], &part.meaning, out),
        Inside::List(parts) => (parts, true),
        Inside::Fields(parts) => (parts, false),
    };
    let len = if part.at.is_empty() { "-".to_owned() } else { count(part.at.len(), "byte") };
    writeln!(out, "{len}")?;
    let mut numbers = 1..;
    parts.iter().try_for_each(|part| {
        let number = numbers.next().filter(|_| numbered).unwrap_or_default();
        show_part(bytes, part, depth + 1, number, out)
    })
}

fn show_bytes(bytes: &[u8], meaning: &str, out: &mut String) -> fmt::Result {
    if bytes.is_empty() {
        return writeln!(out, "-");
    }
    for (row, before) in bytes.chunks(ROW).zip(std::iter::once(0).chain(std::iter::repeat(36))) {
        write!(out, "{:before$}{}", "", Hex(row))?;
        if row.len() < ROW && !meaning.is_empty() {
            write!(out, "  {meaning}")?;
        }
        writeln!(out)?;
    }
    Ok(())
}

/// The refusal's name, its number, its fields, if it has some, and its words.
pub fn in_full(refusal: &Refusal) -> String {
    let fields: Vec<String> = refusal.fields().map(|(_, value)| value.to_string()).collect();
    let fields = if fields.is_empty() { String::new() } else { format!("({})", fields.join(",")) };
    format!("{} {}{fields}: {refusal}", refusal.name(), refusal.number())
}

/// The refusal in words, and the bytes around its place with marks under it and under its area.
fn show_refusal(seen: &Seen, refusal: &Refusal, out: &mut String) -> fmt::Result {
    writeln!(out, "  {}", in_full(refusal))?;
    if look::is_of_command(seen, refusal) {
        return writeln!(out, "  it is the code of the command that this answers");
    }
    let (place, area) = (refusal.offset().min(seen.bytes.len()), look::refused_in(seen, refusal).unwrap_or_default());
    mark(seen.bytes, place, &area, out)?;
    write!(out, "         ^^ byte {place}{}", if place == seen.bytes.len() { ", behind the last" } else { "" })?;
    if !area.is_empty() {
        write!(out, "; ~~ the {} area, {}..{}", refusal.area(), area.start, area.end)?;
    }
    writeln!(out)
}

/// Rows of 16 bytes, the first of the area and those around the place, with marks under the area and under the place.
fn mark(bytes: &[u8], place: usize, area: &Range<usize>, out: &mut String) -> fmt::Result {
    const ROW: usize = 16;
    const AROUND: usize = 4;
    let marked = place / ROW;
    let around = marked.saturating_sub(AROUND)..=marked + AROUND;
    let first = area.clone().next().map(|at| at / ROW).filter(|row| row < around.start());
    let mut shown = 0;
    for row in first.into_iter().chain(around) {
        let (from, to) = (row * ROW, bytes.len().min((row + 1) * ROW));
        if from >= to && row != marked {
            break;
        }
        if from > shown {
            let left_out = if shown == 0 { "before" } else { "between" };
            writeln!(out, "         ({} {left_out})", count(from - shown, "byte"))?;
        }
        write!(out, "{from:>7} ")?;
        bytes[from..to].iter().try_for_each(|byte| write!(out, " {byte:02x}"))?;
        writeln!(out)?;
        shown = to;
        let under = |at| match at {
            _ if at == place => " ^^",
            _ if area.contains(&at) => " ~~",
            _ => "   ",
        };
        let marks: String = (from..from + ROW).map(under).collect();
        if !marks.trim().is_empty() {
            writeln!(out, "        {}", marks.trim_end())?;
        }
    }
    if shown < bytes.len() { writeln!(out, "         ({} behind)", count(bytes.len() - shown, "byte")) } else { Ok(()) }
}
