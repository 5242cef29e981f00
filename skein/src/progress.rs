//! A line that tells how far a long input is read, on a terminal alone.

use std::io::{self, IsTerminal, Write};
use std::time::{Duration, Instant};

/// The first line comes after this long, and each other.
const EACH: Duration = Duration::from_millis(500);

pub struct Progress {
    /// When the next line is due; none where no line is shown.
    due: Option<Instant>,
    shown: bool,
    /// How many bytes there are to read, where that is known.
    all: Option<u64>,
    read: u64,
}

impl Progress {
    /// A line on standard error where that is a terminal; not while the frames themselves are shown on one.
    pub fn new(all: Option<u64>) -> Self {
        let shown = io::stderr().is_terminal() && !io::stdout().is_terminal();
        Self { due: shown.then(|| Instant::now() + EACH), shown: false, all, read: 0 }
    }

    /// So many bytes more are read, and so many frames there were up to here.
    pub fn read(&mut self, bytes: u64, frames: u64) {
        self.read += bytes;
        // the clock is asked now and then
        if frames % 256 == 0 && self.due.is_some_and(|due| due <= Instant::now()) {
            let part = self.all.filter(|&all| all > 0).map(|all| format!(", {} %", 100 * self.read / all));
            let _ = write!(io::stderr(), "\rskein: {frames} frames{}\x1b[K", part.unwrap_or_default());
            self.due = Some(Instant::now() + EACH);
            self.shown = true;
        }
    }

    /// Takes the line away.
    pub fn clear(&mut self) {
        if self.shown {
            let _ = write!(io::stderr(), "\r\x1b[K");
            self.shown = false;
        }
    }
}
