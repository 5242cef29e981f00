//! What is written of the input, the messages beside it, and the status at the end.

use crate::input::{Place, Stop};
use crate::progress::Progress;
use std::io::{self, ErrorKind, Write};

/// All is as it should be; something is refused or a line has no frame; wrong words, or a file that cannot be read.
pub const PASSES: u8 = 0;
pub const REFUSED: u8 = 1;
pub const WRONG: u8 = 2;

/// Where it is written to, and what is counted of every input.
pub struct Out<W: Write> {
    /// The name of the input.
    name: String,
    to: W,
    progress: Progress,
    /// How many frames there were.
    pub frames: u64,
    /// How many stretches of the input gave none.
    pub bad: u64,
}

impl<W: Write> Out<W> {
    pub fn new(name: String, to: W, progress: Progress) -> Self {
        Self { name, to, progress, frames: 0, bad: 0 }
    }

    pub fn write(&mut self, text: &str) -> io::Result<()> {
        self.to.write_all(text.as_bytes())
    }

    /// A stretch of the input that gives no frame, and why.
    pub fn bad(&mut self, place: Place, why: &str) -> io::Result<()> {
        self.bad += 1;
        // in the order of the input, where both go to a terminal
        self.to.flush()?;
        self.progress.clear();
        eprintln!("skein: {}: {place}: {why}", self.name);
        Ok(())
    }

    /// So many bytes of the input are read.
    pub fn read(&mut self, bytes: u64) {
        self.progress.read(bytes, self.frames);
    }

    /// Writes the last lines, and gives the status.
    pub fn end(mut self, read: Result<(), Stop>, last: &str, refused: bool) -> u8 {
        self.progress.clear();
        let written = self.write(last).and_then(|()| self.to.flush());
        let status = if refused || self.bad > 0 { REFUSED } else { PASSES };
        match read.err().or(written.err().map(Stop::Out)) {
            Some(Stop::In(why)) => eprintln!("skein: {}: {why}", self.name),
            // who reads it has seen enough
            Some(Stop::Out(why)) if why.kind() == ErrorKind::BrokenPipe => return status,
            Some(Stop::Out(why)) => eprintln!("skein: cannot write: {why}"),
            None => return status,
        }
        WRONG
    }
}
