//! `skein nonces` on recorded traffic: the nonces that it names are those that stand in the answers, each of them, in order.
//! They are read here by the library's calls that give all parts, without its keeper, by each table.

mod common;

use common::{calls, traces, unhex};
use std::path::Path;
use std::process::Command;

const PASSWORD: u32 = 0x4000_0009;
const START: u32 = 0x176;
const FLUSH: u32 = 0x165;

/// The numbers of the tables, and the words that `skein` takes for them.
const TABLES: [(u32, &str); 3] =
    [(calls::REVISION_CRATE, "crate"), (calls::REVISION_138, "1.38"), (calls::REVISION_159, "1.59")];

/// A line, what a session does there, its handle, and its nonce in hexadecimal.
type Told = (usize, String, String, String);

fn hex(bytes: &[u8]) -> String {
    bytes.iter().map(|byte| format!("{byte:02x}")).collect()
}

/// The sessions that open and move, and how many end, by the frames of a line.
fn due(rules: u32, line: usize, text: &str, told: &mut Vec<Told>) -> usize {
    let (command, answer) = text.split_once(' ').expect("a command and its answer");
    let (command, answer) = (unhex(command), unhex(answer));
    let read = calls::command_parts(rules, &command, &mut [0; 8]);
    let given = calls::response_parts(rules, read.frame.code, &answer, &mut [0; 8]);
    if read.refusal != 0 || given.refusal != 0 || given.frame.code != 0 {
        return 0;
    }
    let pairs = read.frame.sessions.three.iter().zip(&given.frame.sessions.three).take(read.frame.sessions.count);
    let sessions = pairs.filter(|(named, _)| named.handle != PASSWORD);
    let mut ended = 0;
    for (named, given) in sessions {
        let nonce = hex(&answer[given.nonce.at..][..given.nonce.size.into()]);
        told.push((line, "moves".to_owned(), format!("{:08x}", named.handle), nonce));
        ended += usize::from(named.attributes & 1 == 0);
    }
    if read.frame.code == START {
        let nonce = hex(&answer[given.frame.parameters.from + 2..given.frame.parameters.to]);
        told.push((line, "opens".to_owned(), hex(&answer[10..14]), nonce));
    }
    ended + usize::from(read.frame.code == FLUSH && matches!(command[10], 2 | 3))
}

/// What `skein` says of opening and moving, and how many sessions it says to end.
fn said(revision: &str, file: &Path) -> (Vec<Told>, usize) {
    let words = ["nonces", "--json", "--revision", revision];
    let run = Command::new(env!("CARGO_BIN_EXE_skein")).args(words).arg(file).output().expect("skein runs");
    let text = String::from_utf8(run.stdout).expect("text");
    let field = |line: &str, name: &str| {
        let (_, behind) = line.split_once(&format!("\"{name}\":")).unwrap_or_default();
        behind.split([',', '}']).next().unwrap_or_default().trim_matches('"').to_owned()
    };
    let of = |event: &'static str| text.lines().filter(move |line| field(line, "event") == event);
    let told = |line| {
        let place = field(line, "line").parse().expect("a number");
        (place, field(line, "event"), field(line, "session"), field(line, "nonce"))
    };
    let both = text.lines().filter(|line| matches!(field(line, "event").as_str(), "moves" | "opens"));
    assert_eq!((of("passed").count(), run.stderr.len()), (0, 0), "{}", file.display());
    (both.map(told).collect(), of("closes").count())
}

#[test]
fn recorded_nonces() {
    let Some(traces) = traces() else { return };
    let (mut nonces, mut ends) = (0, 0);
    for file in traces {
        let text = std::fs::read_to_string(&file).expect("a file of frames");
        for (number, revision) in TABLES {
            let mut told = Vec::new();
            let due = |(text, line)| due(calls::STANDARD + number, line, text, &mut told);
            let ended: usize = text.lines().zip(1..).map(due).sum();
            nonces += told.len();
            ends += ended;
            assert_eq!(said(revision, &file), (told, ended), "{}, {revision}", file.display());
        }
    }
    println!("{nonces} recorded nonces, {ends} sessions end, by the three tables together");
    assert!(nonces > 0);
}
