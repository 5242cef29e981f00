//! skein: shows TPM 2.0 frames, and why a bad one is refused; and follows the nonces of sessions. skein.1 is its manual.

mod args;
mod follow;
mod hex;
mod input;
mod inspect;
mod json;
mod look;
mod nonces;
mod out;
mod progress;
mod text;

use args::{Asked, Inspect, Nonces};
use look::Role;
use out::{Out, PASSES, WRONG};
use progress::Progress;
use std::ffi::OsStr;
use std::fs::File;
use std::io::{self, BufReader, BufWriter, ErrorKind, Read, Write};
use std::path::Path;
use std::process::ExitCode;

fn main() -> ExitCode {
    let status = match args::understand(std::env::args_os().skip(1)) {
        Ok(Asked::Help) => print(args::HELP),
        Ok(Asked::Version) => print(concat!("skein ", env!("CARGO_PKG_VERSION"), "\n")),
        Ok(Asked::Inspect(asked)) => inspect(&asked),
        Ok(Asked::Nonces(asked)) => nonces(&asked),
        Err(why) => {
            eprintln!("skein: {why}\n{}", args::USAGE);
            WRONG
        }
    };
    ExitCode::from(status)
}

fn print(text: &str) -> u8 {
    if io::stdout().write_all(text.as_bytes()).is_ok() { PASSES } else { WRONG }
}

/// An input that was opened: its bytes, and how many there are, where that is known.
type Opened = (Box<dyn Read>, Option<u64>);

fn open(file: Option<&Path>) -> io::Result<Opened> {
    let Some(path) = file else { return Ok((Box::new(io::stdin()), None)) };
    let file = File::open(path)?;
    let about = file.metadata()?;
    if about.is_dir() {
        return Err(io::Error::new(ErrorKind::IsADirectory, "it is a folder"));
    }
    Ok((Box::new(file), about.is_file().then_some(about.len())))
}

/// The input, and the output for it; none where it cannot be opened, which is said.
fn both_ends(file: Option<&OsStr>) -> Option<(BufReader<Box<dyn Read>>, Out<impl Write + use<>>)> {
    let file = file.map(Path::new);
    let name = file.map_or("standard input".into(), |path| path.to_string_lossy().into_owned());
    match open(file) {
        Ok((input, all)) => {
            let out = BufWriter::with_capacity(1 << 16, io::stdout().lock());
            Some((BufReader::with_capacity(1 << 16, input), Out::new(name, out, Progress::new(all))))
        }
        Err(why) => {
            eprintln!("skein: {name}: {why}");
            None
        }
    }
}

fn inspect(asked: &Inspect) -> u8 {
    let Some((input, out)) = both_ends(asked.file.as_deref()) else { return WRONG };
    let mut show = inspect::Show::new(asked.json, asked.rules, out);
    let alone = asked.answers_to.map_or(Role::Alone, |cc| Role::Answer(Some(cc)));
    let read = if asked.raw {
        input::raw(input, alone, asked.pairs, &mut show)
    } else {
        input::lines(input, alone, &mut show)
    };
    show.end(read)
}

fn nonces(asked: &Nonces) -> u8 {
    let Some((input, out)) = both_ends(asked.file.as_deref()) else { return WRONG };
    let mut show = nonces::Show::new(asked.json, asked.revision, out);
    let read = if asked.raw {
        input::raw(input, Role::Alone, true, &mut show)
    } else {
        input::lines(input, Role::Alone, &mut show)
    };
    show.end(read)
}
