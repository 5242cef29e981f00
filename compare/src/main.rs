//! Compares the calls of the proved library with document 01's rules written out, among them Rust's own conversions, and,
//! compiled with `--cfg oracle`, with the crate tpm2-protocol; compiled with `--cfg tss`, with tpm2-tss.
//!
//! usage: driver [--seed N] [--thin] [SUITE..]
//!                                        compares; the status is 1 if anything differs. Thinned, it leaves out most of
//!                                        the calls where there are billions: for a library known to be wrong, or one
//!                                        that an emulator runs. A line `verdict: WHOSE: passed|FAILED|skipped` tells
//!                                        what came of document 01, of the crate, of recorded traffic and of tpm2-tss
//!        driver --list                   prints the fixed list of calls with the judges' answers, one a line, for a
//!                                        replay on machines without Rust: `NAME BYTES PLACE N = NUMBER VALUES`, and
//!                                        for a call that writes ` ; LATER-BYTES`; `standard` and `1.38` or `1.59`
//!                                        behind the input name another reading and another table

// without the crate, what only its comparison takes lies idle
#![cfg_attr(not(oracle), allow(dead_code))]

mod alike;
mod answer;
mod area;
mod by;
// declared once for all that call the library, also for calls that are not compared
#[allow(dead_code)]
#[path = "../../bindings/rust/src/calls.rs"]
mod calls;
mod edges;
#[cfg(oracle)]
mod explained;
mod field;
mod fixed;
mod frame;
mod judge;
mod keeper;
#[cfg(oracle)]
mod oracle;
mod random;
mod rc;
mod report;
mod shown;
mod shrink;
mod traffic;
mod tss;
mod view;
mod write;

use judge::{Counts, Tally};
use random::Random;
use std::process::ExitCode;

struct Suite {
    name: &'static str,
    /// Compares, thinned or not.
    run: fn(&mut Random, bool) -> Vec<Tally>,
    /// Prints the suite's part of the fixed list.
    list: fn(&mut Random),
}

static SUITES: [Suite; 9] = [
    Suite { name: "field", run: |random, _| field::run(random), list: field::list },
    Suite { name: "rc", run: rc::run, list: rc::list },
    Suite { name: "view", run: |random, _| view::run(random), list: view::list },
    Suite { name: "fixed", run: |random, _| fixed::run(random), list: |_| () },
    Suite { name: "frame", run: frame::run, list: frame::list },
    Suite { name: "write", run: write::run, list: write::list },
    Suite { name: "keeper", run: keeper::run, list: |_| () },
    Suite { name: TRAFFIC, run: |_, _| traffic::run(), list: |_| () },
    Suite { name: "tss", run: tss::run, list: |_| () },
];

/// The suite of frames that are not made here.
const TRAFFIC: &str = "traffic";

/// The seed of a run that names none, and of the fixed list.
const SEED: u64 = 1;

enum Task {
    Compare { seed: u64, thin: bool, suites: Vec<&'static Suite> },
    List,
}

fn task(mut words: impl Iterator<Item = String>) -> Result<Task, String> {
    let (mut seed, mut thin) = (SEED, false);
    let mut suites = Vec::new();
    while let Some(word) = words.next() {
        match word.as_str() {
            "--list" => return Ok(Task::List),
            "--thin" => thin = true,
            "--seed" => {
                let number = words.next().unwrap_or_default();
                seed = number.parse().map_err(|_| format!("--seed takes a number, not '{number}'"))?;
            }
            name => {
                let suite = SUITES.iter().find(|suite| suite.name == name);
                suites.push(suite.ok_or(format!("there is no suite '{name}'"))?);
            }
        }
    }
    if suites.is_empty() {
        suites.extend(&SUITES);
    }
    Ok(Task::Compare { seed, thin, suites })
}

/// Each suite starts from the seed, so that it repeats alone as it ran among others.
fn compare(seed: u64, thin: bool, suites: &[&Suite]) -> ExitCode {
    println!("compare: seed {seed}{}", if thin { ", thinned" } else { "" });
    let (mut made, mut recorded) = (Counts::default(), Counts::default());
    for suite in suites {
        let counts = if suite.name == TRAFFIC { &mut recorded } else { &mut made };
        *counts += one_suite(suite, seed, thin);
    }
    let of_made = made.all();
    let by_others = of_made.calls > of_made.by_tss;
    verdict(judge::RULES, by_others, of_made.against_rules);
    verdict(judge::CRATE, by_others && cfg!(oracle), of_made.against_crate);
    verdict("recorded traffic", recorded.all().calls > 0, recorded.all().mismatches);
    verdict(judge::TSS, of_made.by_tss > 0, of_made.against_tss);
    made += recorded;
    made.tell("compare");
    let all = made.all();
    if all.mismatches > 0 {
        return ExitCode::FAILURE;
    }
    println!("compare: {} of the calls are no writers of frames, and none of these came to 7", all.not_writers);
    ExitCode::SUCCESS
}

fn one_suite(suite: &Suite, seed: u64, thin: bool) -> Counts {
    let mut counts = Counts::default();
    for tally in (suite.run)(&mut Random::new(seed), thin) {
        println!("{}: {tally}", suite.name);
        counts.add(&tally);
    }
    counts.tell(suite.name);
    counts
}

/// What came of one of the four. What is not at hand, or was not asked for, is skipped: it neither passes nor fails.
fn verdict(whose: &str, at_hand: bool, against: u64) {
    match (at_hand, against) {
        (false, _) => println!("verdict: {whose}: skipped"),
        (true, 0) => println!("verdict: {whose}: passed"),
        (true, _) => println!("verdict: {whose}: FAILED"),
    }
}

fn main() -> ExitCode {
    match task(std::env::args().skip(1)) {
        Ok(Task::Compare { seed, thin, suites }) => compare(seed, thin, &suites),
        Ok(Task::List) => {
            SUITES.iter().for_each(|suite| (suite.list)(&mut Random::new(SEED)));
            eprintln!("compare: the fixed list has {}", judge::listed());
            ExitCode::SUCCESS
        }
        Err(fault) => {
            eprintln!("compare: {fault}");
            ExitCode::from(2)
        }
    }
}
