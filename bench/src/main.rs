//! Measures calls of the proved library beside the same calls of the crate tpm2-protocol, and beside tpm2-tss; the nonce
//! keeper's beside validating the two frames of an answer; and the search in a table of commands beside a binary search.
//!
//! usage: bench BESIDE --rows                  prints the rows' names, one a line
//!        bench BESIDE --time ROW              prints nanoseconds a call: ours, the other side's
//!        bench BESIDE --count ROW SIDE N      makes N calls of a side, to be counted from outside
//!
//! BESIDE is rust, tss, frames or halves; SIDE is ours, other or empty.

// no row measures every call
#[allow(dead_code)]
#[path = "../../bindings/rust/src/calls.rs"]
mod calls;
mod frame;
mod frames;
mod keeper;
#[allow(dead_code)]
#[path = "../../compare/src/oracle.rs"]
mod oracle;
#[allow(dead_code)]
#[path = "../../compare/src/random.rs"]
mod random;
#[path = "../../compare/src/report.rs"]
mod report;
mod rows;
mod search;
mod time;
mod tss;
#[allow(dead_code)]
#[path = "../../compare/src/tss/library.rs"]
mod tss_library;
#[allow(dead_code)]
#[path = "../../compare/src/write/oracle.rs"]
mod write_oracle;
mod writers;

use rows::{Row, Side};
use std::process::ExitCode;

fn rows(beside: &str) -> Result<&'static [Row], String> {
    match beside {
        "rust" => Ok(rows::ROWS),
        "tss" => Ok(tss::ROWS),
        "frames" => Ok(keeper::ROWS),
        "halves" => Ok(search::ROWS),
        _ => Err(format!("there is nothing beside '{beside}'")),
    }
}

fn row(beside: &str, name: &str) -> Result<&'static Row, String> {
    rows(beside)?.iter().find(|row| row.name == name).ok_or(format!("there is no row '{name}'"))
}

fn side(name: &str) -> Result<Side, String> {
    match name {
        "ours" => Ok(Side::Ours),
        "other" => Ok(Side::Other),
        "empty" => Ok(Side::Empty),
        _ => Err(format!("there is no side '{name}'")),
    }
}

fn run(words: &[&str]) -> Result<(), String> {
    match words {
        [beside, "--rows"] => rows(beside)?.iter().for_each(|row| println!("{}", row.name)),
        [beside, "--time", name] => {
            let [ours, other] = time::beside(row(beside, name)?);
            println!("{ours:.2} {other:.2}");
        }
        [beside, "--count", name, of, n] => {
            let n = n.parse().map_err(|_| format!("'{n}' is no number of calls"))?;
            (row(beside, name)?.run)(side(of)?, n);
        }
        _ => return Err("see the head of src/main.rs for its usage".into()),
    }
    Ok(())
}

fn main() -> ExitCode {
    let words: Vec<String> = std::env::args().skip(1).collect();
    let words: Vec<&str> = words.iter().map(String::as_str).collect();
    match run(&words) {
        Ok(()) => ExitCode::SUCCESS,
        Err(fault) => {
            eprintln!("bench: {fault}");
            ExitCode::from(2)
        }
    }
}
