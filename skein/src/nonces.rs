//! `skein nonces`: follows the sessions of recorded traffic, and tells of each pair what it did to them.

use crate::follow::{Does, Event, Sessions, Why, kind};
use crate::hex::Hex;
use crate::input::{Place, Stop, Taker};
use crate::json;
use crate::look::{Role, code, other_tables, table};
use crate::out::Out;
use crate::text::in_full;
use skeinloft::{Revision, TpmCc};
use std::fmt::{self, Write as _};
use std::io::{self, Write};

const ALONE: &str = "a frame that stands alone, where a command and its answer are two words of a line";
const NO_ANSWER: &str = "a command without an answer";

pub struct Show<W: Write> {
    json: bool,
    revision: Revision,
    sessions: Sessions,
    /// A command whose answer is to come, and where it is.
    command: Vec<u8>,
    waits: Option<Place>,
    count: Count,
    /// The lines of the pair at hand.
    shown: String,
    out: Out<W>,
}

#[derive(Default)]
struct Count {
    pairs: u64,
    opened: u64,
    moved: u64,
    closed: u64,
    passed: u64,
    refused: u64,
}

impl<W: Write> Taker for Show<W> {
    fn frame(&mut self, place: Place, bytes: &[u8], role: Role) -> io::Result<()> {
        self.out.frames += 1;
        match (role, self.waits.take()) {
            (Role::Command, _) => {
                self.command.clear();
                self.command.extend_from_slice(bytes);
                self.waits = Some(place);
                Ok(())
            }
            (Role::Answer(_), Some(command)) => {
                self.pair(command, bytes).map_err(io::Error::other)?;
                self.out.write(&self.shown)
            }
            _ => self.out.bad(place, ALONE),
        }
    }

    fn bad(&mut self, place: Place, why: &str) -> io::Result<()> {
        self.out.bad(place, why)
    }

    fn read(&mut self, bytes: u64) {
        self.out.read(bytes);
    }
}

impl<W: Write> Show<W> {
    pub fn new(json: bool, revision: Revision, out: Out<W>) -> Self {
        let (sessions, count) = (Sessions::at(revision), Count::default());
        Self { json, revision, sessions, command: Vec::new(), waits: None, count, shown: String::new(), out }
    }

    /// Puts what came of a pair into lines.
    fn pair(&mut self, place: Place, answer: &[u8]) -> fmt::Result {
        let name = code(&self.command).map(TpmCc);
        let show = if self.json { show_json } else { show_text };
        self.count.pairs += 1;
        self.shown.clear();
        for event in self.sessions.pair(place, &self.command, answer) {
            self.count.add(&event);
            show(place, self.revision, name, &event, &mut self.shown)?;
        }
        Ok(())
    }

    /// Writes what is left to write, and gives the status.
    pub fn end(mut self, read: Result<(), Stop>) -> u8 {
        let told = self.waits.map_or(Ok(()), |place| self.out.bad(place, NO_ANSWER));
        let mut last = String::new();
        let open = self.sessions.open().try_for_each(|(handle, nonce, since)| {
            let show = if self.json { json_open } else { text_open };
            show(handle, nonce, since, self.revision, &mut last)
        });
        let counted = open.and_then(|()| self.tell_count(&mut last)).map_err(io::Error::other);
        self.out.end(read.and(told.and(counted).map_err(Stop::Out)), &last, self.count.refused > 0)
    }

    /// A last line for a person.
    fn tell_count(&self, out: &mut String) -> fmt::Result {
        let (Count { pairs, opened, moved, closed, passed, refused }, bad) = (&self.count, &self.out.bad);
        if self.json || pairs + bad == 0 {
            return Ok(());
        }
        let open = opened - closed;
        write!(
            out,
            "pairs {pairs}, opened {opened}, moved {moved}, closed {closed}, still open {open}, refused {refused}"
        )?;
        for (number, name) in [(passed, "passed by"), (bad, "unreadable")] {
            if *number > 0 {
                write!(out, ", {name} {number}")?;
            }
        }
        if self.revision != Revision::Crate {
            write!(out, "; by {}", table(self.revision))?;
        }
        writeln!(out)
    }
}

impl Count {
    fn add(&mut self, event: &Event) {
        *match event {
            Event::Refused { .. } => &mut self.refused,
            Event::Session { does, .. } => match does {
                Does::Open => &mut self.opened,
                Does::Move => &mut self.moved,
                Does::Close => &mut self.closed,
                Does::Pass => &mut self.passed,
                Does::Stay => return,
            },
        } += 1;
    }
}

/// What a session does, in words and in a word of JSON.
fn words(does: Does) -> (&'static str, &'static str) {
    match does {
        Does::Open => ("opens with the nonce", "opens"),
        Does::Move => ("moves to the nonce", "moves"),
        Does::Stay => ("stays at the nonce", "stays"),
        Does::Close => ("closes", "closes"),
        Does::Pass => ("is passed by", "passed"),
    }
}

// ---- as a person reads it

/// The table is told at the end.
fn show_text(place: Place, _: Revision, command: Option<TpmCc>, event: &Event, out: &mut String) -> fmt::Result {
    write!(out, "{place}: ")?;
    if let Some(command) = command {
        write!(out, "{command}: ")?;
    }
    let (mark, why, hint) = match event {
        Event::Session { handle, does, nonce, why } => {
            write!(out, "{} {}", name_of(*handle), words(*does).0)?;
            nonce.iter().try_for_each(|nonce| write!(out, " {}", bytes(nonce)))?;
            (':', why, None)
        }
        Event::Refused { what, refusal, why } => {
            write!(out, "the {what} is REFUSED: {}", in_full(refusal))?;
            (';', why, other_tables(refusal))
        }
    };
    why.iter().try_for_each(|why| write!(out, "{mark} {why}"))?;
    hint.iter().try_for_each(|hint| write!(out, "; {hint}"))?;
    writeln!(out)
}

fn text_open(handle: u32, nonce: &[u8], since: Place, _: Revision, out: &mut String) -> fmt::Result {
    writeln!(out, "{} is still open with the nonce {} of {since}", name_of(handle), bytes(nonce))
}

fn name_of(handle: u32) -> String {
    format!("{}session {handle:08x}", kind(handle).map_or(String::new(), |kind| format!("{kind} ")))
}

fn bytes(nonce: &[u8]) -> String {
    if nonce.is_empty() { "-".to_owned() } else { Hex(nonce).to_string() }
}

// ---- as JSON

fn show_json(place: Place, revision: Revision, command: Option<TpmCc>, event: &Event, out: &mut String) -> fmt::Result {
    json::open(place, revision, out)?;
    if let Some(command) = command {
        write!(out, ",\"command\":\"{command}\"")?;
    }
    let (why, hint): (&Option<Why>, _) = match event {
        Event::Session { handle, does, nonce, why } => {
            write!(out, ",\"event\":\"{}\"", words(*does).1)?;
            json_session(*handle, nonce.as_deref(), out)?;
            (why, None)
        }
        Event::Refused { what, refusal, why } => {
            write!(out, ",\"event\":\"refused\",\"what\":\"{what}\"")?;
            json::show_refusal(refusal, out)?;
            (why, other_tables(refusal))
        }
    };
    why.iter().try_for_each(|why| write!(out, ",\"why\":\"{why}\""))?;
    hint.iter().try_for_each(|hint| write!(out, ",\"hint\":\"{hint}\""))?;
    writeln!(out, "}}")
}

fn json_open(handle: u32, nonce: &[u8], since: Place, revision: Revision, out: &mut String) -> fmt::Result {
    json::open(since, revision, out)?;
    write!(out, ",\"event\":\"open\"")?;
    json_session(handle, Some(nonce), out)?;
    writeln!(out, "}}")
}

fn json_session(handle: u32, nonce: Option<&[u8]>, out: &mut String) -> fmt::Result {
    write!(out, ",\"session\":\"{handle:08x}\"")?;
    kind(handle).iter().try_for_each(|kind| write!(out, ",\"kind\":\"{kind}\""))?;
    nonce.iter().try_for_each(|nonce| write!(out, ",\"nonce\":\"{}\"", Hex(nonce)))
}
