//! `skein inspect`: shows each frame as it comes.

use crate::input::{Place, Stop, Taker};
use crate::look::{self, Role};
use crate::out::Out;
use crate::{json, text};
use skeinloft::Rules;
use std::io::{self, Write};

pub struct Show<W: Write> {
    json: bool,
    rules: Rules,
    /// The frame at hand, as it is shown.
    shown: String,
    refused: u64,
    out: Out<W>,
}

impl<W: Write> Taker for Show<W> {
    fn frame(&mut self, place: Place, bytes: &[u8], role: Role) -> io::Result<()> {
        let seen = look::look(self.rules, bytes, role);
        self.out.frames += 1;
        self.refused += u64::from(seen.verdict.is_err());
        self.shown.clear();
        let show = if self.json { json::show } else { text::show };
        show(place, &seen, &mut self.shown).map_err(io::Error::other)?;
        self.out.write(&self.shown)
    }

    fn bad(&mut self, place: Place, why: &str) -> io::Result<()> {
        self.out.bad(place, why)
    }

    fn read(&mut self, bytes: u64) {
        self.out.read(bytes);
    }
}

impl<W: Write> Show<W> {
    pub fn new(json: bool, rules: Rules, out: Out<W>) -> Self {
        Self { json, rules, shown: String::new(), refused: 0, out }
    }

    /// Writes what is left to write, and gives the status.
    pub fn end(self, read: Result<(), Stop>) -> u8 {
        let last = self.count();
        self.out.end(read, &last, self.refused > 0)
    }

    /// A last line for a person where there was more than one frame.
    fn count(&self) -> String {
        let (refused, Out { frames, bad, .. }) = (self.refused, &self.out);
        if self.json || frames + bad < 2 {
            return String::new();
        }
        let bad = if *bad > 0 { format!(", unreadable {bad}") } else { String::new() };
        format!("frames {frames}, pass {}, refused {refused}{bad}\n", frames - refused)
    }
}
