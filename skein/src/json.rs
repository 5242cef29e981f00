//! A frame as an object of JSON, in one line. No string in it needs an escape: names and words of the library and of this
//! program, and bytes in hexadecimal.

use crate::hex::Hex;
use crate::input::Place;
use crate::look::{self, Inside, Kind, Part, Seen};
use skeinloft::{Refusal, Revision};
use std::fmt::{self, Write};

pub fn show(place: Place, seen: &Seen, out: &mut String) -> fmt::Result {
    open(place, seen.revision, out)?;
    match seen.kind {
        Kind::Command => write!(out, ",\"kind\":\"command\"")?,
        Kind::Answer(cc) => write!(out, ",\"kind\":\"answer\",\"command\":\"{cc}\"")?,
        Kind::Response | Kind::AnyAnswer => write!(out, ",\"kind\":\"response\"")?,
    }
    if let Some(name) = &seen.name {
        write!(out, ",\"name\":\"{name}\"")?;
    }
    if let Some(assumed) = &seen.assumed {
        write!(out, ",\"assumed\":\"{assumed}\"")?;
    }
    seen.notes.iter().try_for_each(|(note, words)| write!(out, ",\"{note}\":\"{words}\""))?;
    write!(out, ",\"passes\":{},\"len\":{}", seen.verdict.is_ok(), seen.bytes.len())?;
    match &seen.verdict {
        Ok(parts) => fields(seen.bytes, parts, out)?,
        Err(refusal) => {
            show_refusal(refusal, out)?;
            if let Some(area) = look::refused_in(seen, refusal) {
                fields(seen.bytes, &[look::plain("marked", area)], out)?;
            }
            write!(out, ",\"bytes\":\"{}\"", Hex(seen.bytes))?;
        }
    }
    writeln!(out, "}}")
}

/// An object starts with its place, and the table of commands where that is not the crate's.
pub fn open(place: Place, revision: Revision, out: &mut String) -> fmt::Result {
    match place {
        Place::Line(line) => write!(out, "{{\"line\":{line}")?,
        Place::Byte(byte) => write!(out, "{{\"byte\":{byte}")?,
    }
    if revision == Revision::Crate { Ok(()) } else { write!(out, ",\"revision\":\"{revision}\"") }
}

pub fn show_refusal(refusal: &Refusal, out: &mut String) -> fmt::Result {
    let (number, name, area) = (refusal.number(), refusal.name(), refusal.area());
    write!(out, ",\"refusal\":{{\"number\":{number},\"name\":\"{name}\",\"area\":\"{area}\"")?;
    refusal.fields().try_for_each(|(field, value)| write!(out, ",\"{field}\":{value}"))?;
    write!(out, ",\"words\":\"{refusal}\"}}")
}

/// Parts by their names, behind what stands in the object already.
fn fields(bytes: &[u8], parts: &[Part], out: &mut String) -> fmt::Result {
    parts.iter().try_for_each(|part| {
        write!(out, ",\"{}\":", part.name.replace(' ', "_").to_lowercase())?;
        object(bytes, part, out)
    })
}

fn object(bytes: &[u8], part: &Part, out: &mut String) -> fmt::Result {
    write!(out, "{{\"from\":{},\"to\":{},\"bytes\":\"{}\"", part.at.start, part.at.end, Hex(&bytes[part.at.clone()]))?;
    if !part.meaning.is_empty() {
        write!(out, ",\"says\":\"{}\"", part.meaning)?;
    }
    match &part.inside {
        Inside::Bytes => {}
        Inside::Fields(parts) => fields(bytes, parts, out)?,
        Inside::List(parts) => {
            write!(out, ",\"list\":[")?;
            parts.iter().zip(0..).try_for_each(|(part, before)| {
                write!(out, "{}", if before == 0 { "" } else { "," })?;
                object(bytes, part, out)
            })?;
            write!(out, "]")?;
        }
    }
    write!(out, "}}")
}
