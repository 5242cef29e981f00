//! The traffic suite: frames as TPM software and a TPM wrote them, and frames that other projects publish in their tests.
//! They are not part of the repository: SKEIN_TRAFFIC names the folder that has them, else it is ../shared/facts beside
//! the repository. A response is judged for the code of the command that it answers. Each frame that passes is written
//! again from its parts. The two readings have to judge alike, but for the answer to a bad tag and for a nonce or an HMAC
//! that is too long. All is done at each table of commands, and what the tables judge differently is told with its codes. A
//! nonce keeper follows the sessions of each recording. The folder also has the rows of the tables, to which the library's
//! are held.

mod at_tables;
mod nonces;
mod published;
mod rows;

use crate::answer::Hex;
use crate::by::TABLES;
use crate::calls::{self, Out, RUST, STANDARD};
use crate::frame::{Desk, Kind, make, named, real};
use crate::judge::{RULES, TOO_LONG, Tally};
use crate::shown::said;
use crate::write::{self, Again};
use at_tables::AtTables;
use std::collections::BTreeMap;
use std::fs;
use std::path::{Path, PathBuf};

/// How many frames there were, and how many of them came to each number; 0 is a frame that passes.
#[derive(Default)]
struct Count(BTreeMap<u32, u64>);

impl Count {
    fn add(&mut self, number: u32) {
        *self.0.entry(number).or_default() += 1;
    }

    fn tell(&self, what: &str) {
        let all: u64 = self.0.values().sum();
        let passing = self.0.get(&0).unwrap_or(&0);
        print!("traffic: {all} {what}, {passing} pass");
        let refused = self.0.iter().filter(|&(&number, _)| number != 0);
        refused.for_each(|(number, times)| print!(", {times} are refused by {number}"));
        println!();
    }
}

/// Where the calls on the frames are made, and how many frames the readings judge differently: by their kind, and the number
/// of each reading.
struct Desks {
    read: Desk,
    again: Again,
    apart: BTreeMap<(&'static str, [u32; 2]), u64>,
}

/// Where the frames should be.
fn folder() -> PathBuf {
    // this file is compare/src/traffic.rs
    let beside = || Path::new(file!()).ancestors().nth(4).map_or_else(PathBuf::new, |above| above.join("shared/facts"));
    std::env::var_os("SKEIN_TRAFFIC").map_or_else(beside, PathBuf::from)
}

/// No calls at all where there is no such folder.
pub fn run() -> Vec<Tally> {
    let folder = folder();
    if !folder.is_dir() {
        assert!(std::env::var_os("SKEIN_TRAFFIC").is_none(), "SKEIN_TRAFFIC names no folder: {}", folder.display());
        println!("traffic: skipped, since there is no {} (SKEIN_TRAFFIC can name another)", folder.display());
        return Vec::new();
    }
    let mut desks = Desks { read: Desk::new(), again: Again::new(), apart: BTreeMap::new() };
    rows::check(&mut desks.read, &folder.join("tables"));
    desks.read.tables = &TABLES;
    let recordings = recordings(&folder.join("traces"));
    traces(&mut desks, &recordings);
    let keepers: Vec<Tally> = TABLES.iter().flat_map(|&revision| nonces::check(revision, &recordings)).collect();
    published::check(&mut desks, &folder.join("published-frames.csv"));
    tell_apart(&desks.apart);
    desks.again.tell(super::TRAFFIC);
    desks.read.tell_alike(super::TRAFFIC);
    let mut tallies = desks.read.done();
    tallies.extend(desks.again.desk.done());
    tallies.extend(keepers);
    tallies
}

/// A command and its response.
type Pair = (Vec<u8>, Vec<u8>);

fn traces(desks: &mut Desks, recordings: &[Vec<Pair>]) {
    let (mut commands, mut responses) = (Count::default(), Count::default());
    let (mut commands_at, mut responses_at) = (AtTables::default(), AtTables::default());
    for (command, response) in recordings.iter().flatten() {
        let code = real::code(command);
        commands.add(ask_command(desks, command));
        responses.add(ask_response(desks, code, response));
        commands_at.add(code, |by, out| calls::command_validate(by, command, out));
        responses_at.add(code, |by, out| calls::response_validate(by, code, response, out));
        // as they follow each other on a bus
        desks.read.lay(&[command.as_slice(), response].concat());
        desks.read.ask(named("command_cast_prefix"), 0);
    }
    commands.tell("commands");
    responses.tell("responses");
    commands_at.tell("commands");
    responses_at.tell("responses");
}

/// The commands and responses of each trace, of which a line is a pair in hexadecimal.
fn recordings(folder: &Path) -> Vec<Vec<Pair>> {
    let of_file = |file: PathBuf| {
        let pair = |line| real::pair(line).unwrap_or_else(|| panic!("a line of {} is no pair", file.display()));
        read(&file).lines().map(pair).collect()
    };
    texts(folder).into_iter().map(of_file).collect()
}

/// All commands, recorded and published; none where there is no such folder.
pub fn commands() -> Vec<Vec<u8>> {
    let folder = folder();
    if !folder.is_dir() {
        return Vec::new();
    }
    let recorded = recordings(&folder.join("traces")).into_iter().flatten().map(|(command, _)| command);
    recorded.chain(published::commands(&folder.join("published-frames.csv"))).collect()
}

/// The trace files by name.
fn texts(folder: &Path) -> Vec<PathBuf> {
    let entries = fs::read_dir(folder).unwrap_or_else(|error| panic!("{}: {error}", folder.display()));
    let paths = entries.map(|entry| entry.expect("a file has a name").path());
    let mut texts: Vec<PathBuf> = paths.filter(|path| path.extension().is_some_and(|end| end == "txt")).collect();
    texts.sort();
    assert!(!texts.is_empty(), "there is no trace in {}", folder.display());
    texts
}

fn read(file: &Path) -> String {
    fs::read_to_string(file).unwrap_or_else(|error| panic!("{}: {error}", file.display()))
}

/// Makes all calls on a command, and gives the number of its full check in the Rust reading.
fn ask_command(desks: &mut Desks, frame: &[u8]) -> u32 {
    let Desks { read, again, .. } = desks;
    read.lay(frame);
    read.ask_kind(Kind::Header, 0);
    read.ask_kind(Kind::Command, 0);
    again.frame(write::Kind::Command, 0, frame);
    beside(desks, "command", frame, |by, out| calls::command_validate(by, frame, out))
}

/// The same of a response to the command of a code.
fn ask_response(desks: &mut Desks, cc: u32, frame: &[u8]) -> u32 {
    let Desks { read, again, .. } = desks;
    read.lay(frame);
    read.ask_kind(Kind::Header, 0);
    read.ask_kind(Kind::Response, cc);
    again.frame(write::Kind::Response, cc, frame);
    beside(desks, "response", frame, |by, out| calls::response_validate(by, cc, frame, out))
}

/// Makes the full check of a frame in each reading, and gives the number of the Rust's. Where the two differ, the standard
/// one has to refuse a length, 8, or the frame has to be under the tag of the answer to a bad tag.
fn beside(desks: &mut Desks, what: &'static str, frame: &[u8], check: impl Fn(u32, &mut Out) -> u32) -> u32 {
    let [rust, standard] = [RUST, STANDARD].map(|by| {
        let mut number = 0;
        let said = said(|out| {
            number = check(by, out);
            number
        });
        (number, said)
    });
    if rust != standard {
        *desks.apart.entry((what, [rust.0, standard.0])).or_default() += 1;
        if standard.0 != TOO_LONG && !(what == "response" && make::is_under_bad_tag(frame)) {
            let how = format!("{}: {} in the Rust reading, {} in the standard one", Hex(frame), rust.1, standard.1);
            desks.read.tally(named(&format!("{what}_validate"))).differs_from(RULES, &how);
        }
    }
    rust.0
}

fn tell_apart(apart: &BTreeMap<(&str, [u32; 2]), u64>) {
    for what in ["command", "response"] {
        let of_kind = || apart.iter().filter(|((kind, _), _)| *kind == what);
        let all: u64 = of_kind().map(|(_, times)| times).sum();
        print!("traffic: {all} {what}s are judged differently in the standard reading");
        of_kind().for_each(|((_, [rust, standard]), times)| print!(", {times} by {standard}, not {rust}"));
        println!();
    }
}
