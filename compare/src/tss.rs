//! The tss suite: commands in the standard reading at the crate's table beside the marshalling library of tpm2-tss, which has
//! the same limit on nonces and HMACs, knows no table, and shares nothing with the other judges. Recorded and published
//! commands and those that are kept here, and damaged ones that are made of those with sessions.
//!
//! The library judges the types, not the command: what it passes and the standard reading does not is explained by what it
//! does not judge, and by nothing else. What both pass they have to divide alike, to the bytes of each nonce and HMAC.

mod damage;
// the benchmark writes too
#[allow(dead_code)]
mod library;

use crate::answer::{Answer, Hex, keep};
use crate::by::{By, Given, READINGS};
use crate::calls::{self, Field, RUST, STANDARD, Session, Sessions, Span};
use crate::frame::make::{self, PLAIN, SESSIONS};
use crate::frame::{known, real};
use crate::judge::{Case, Judge, TOO_LARGE, TSS, Tally};
use crate::random::Random;
use crate::{shrink, traffic};
use library::Command;
use std::collections::BTreeSet;
use std::fmt;
use std::sync::atomic::{AtomicU64, Ordering};

/// A command to be checked, or to be taken apart.
#[derive(Clone)]
struct Taken {
    parts: bool,
    bytes: Vec<u8>,
}

/// The name of the call.
fn name(parts: bool) -> &'static str {
    if parts { "command_parts" } else { "command_validate" }
}

impl fmt::Display for Taken {
    fn fmt(&self, f: &mut fmt::Formatter) -> fmt::Result {
        write!(f, "{} {} - -{}", name(self.parts), Hex(&self.bytes), Given(STANDARD))
    }
}

/// What is told of a command: whether it is refused, not by which number, but for one that it may not come to.
const PASSES: u32 = 0;
const REFUSED: u32 = 1;

impl Case for Taken {
    const JUDGES: &'static [Judge<Self>] = &[Judge::tpm2_tss(by_tss)];

    fn preset(&self, answer: &mut Answer) {
        answer.preset([&self.bytes]);
    }

    fn ours(&self, answer: &mut Answer) {
        answer.try_call_for_parts(|s, kept, _| {
            let number = match self.parts {
                true => keep(calls::command_parts(STANDARD, s, &mut [0; 8]), kept),
                false => calls::command_validate(STANDARD, s, &mut [0; 8]),
            };
            Some(if matches!(number, PASSES | TOO_LARGE) { number } else { REFUSED })
        });
    }

    fn simpler(&self) -> impl Iterator<Item = Self> {
        let as_given = shrink::bytes(&self.bytes);
        let resized = shrink::bytes(&self.bytes).flat_map(|bytes| make::resized(&self.bytes, bytes));
        as_given.chain(resized).map(|bytes| Self { bytes, ..*self })
    }
}

fn by_tss(case: &Taken, answer: &mut Answer) -> bool {
    answer.try_call_for_parts(|s, kept, _| {
        let frame = taken_apart(s);
        let number = if frame.is_some() { PASSES } else { REFUSED };
        *kept = case.parts.then(|| frame.unwrap_or_default());
        Some(number)
    })
}

// ---- the library's answer

/// What the library does not judge.
#[derive(Clone, Copy)]
enum Unjudged {
    /// A code that has no row. The library has to be told how many handles there are: none.
    Code,
    /// A tag that is neither of the two. It reads no sessions then.
    Tag,
}

/// How many answers each of them explains.
static EXPLAINED: [AtomicU64; 2] = [const { AtomicU64::new(0) }; 2];

fn taken_apart(s: &[u8]) -> Option<calls::Frame> {
    let row = known::row(real::code(s));
    let command = library::command(s, row.as_ref().map_or(0, |row| row.handles))?;
    let unjudged = match (row, command.tag) {
        (None, _) => Unjudged::Code,
        (_, PLAIN | SESSIONS) => return Some(divided(s, &command)),
        _ => Unjudged::Tag,
    };
    EXPLAINED[unjudged as usize].fetch_add(1, Ordering::Relaxed);
    None
}

/// The parts of a command that the library has taken apart, by their places.
fn divided(s: &[u8], command: &Command) -> calls::Frame {
    let handles = Span { from: 10, to: 10 + 4 * command.handle_count };
    let numbers = command.handles[..command.handle_count].iter().flat_map(|handle| handle.to_be_bytes());
    assert!(numbers.eq(s[10..handles.to].iter().copied()), "{TSS} has other handles of {}", Hex(s));
    let from = handles.to + if command.tag == SESSIONS { 4 } else { 0 };
    let to = s.len() - command.parameters_len;
    let mut sessions = Sessions { count: command.session_count, ..Sessions::default() };
    let mut at = from;
    for (place, session) in sessions.three.iter_mut().zip(&command.sessions[..command.session_count]) {
        let nonce = field(s, at + 4, session.nonce.all());
        let hmac = field(s, nonce.at + usize::from(nonce.size) + 1, session.hmac.all());
        at = hmac.at + usize::from(hmac.size);
        *place = Session { handle: session.handle, nonce, attributes: session.attributes, hmac };
    }
    let (auth, parameters) = (Span { from, to }, Span { from: to, to: s.len() });
    calls::Frame { tag: command.tag, code: command.code, handles, auth, parameters, sessions }
}

/// A field whose length stands at a place; at none where the bytes there are others than the library has.
fn field(s: &[u8], at: usize, held: &[u8]) -> Field {
    let there = s.get(at + 2..).is_some_and(|behind| behind.starts_with(held));
    Field { at: if there { at + 2 } else { usize::MAX - 1 }, size: held.len() as u16 }
}

// ---- the suite

/// How many commands of a kind there were, and how many of them pass: in the standard reading, and in the Rust's alone.
#[derive(Default)]
struct Count {
    all: u64,
    passing: u64,
    too_long: u64,
}

impl Count {
    fn tell(&self, what: &str) {
        let Self { all, passing, too_long } = self;
        println!("tss: {all} {what} commands: {passing} pass, {too_long} more would in the Rust reading");
    }
}

/// Where the calls are made.
struct Desk {
    case: Taken,
    tallies: [Tally; 2],
}

impl Desk {
    fn new() -> Self {
        let tallies = [false, true].map(|parts| Tally::of::<Taken>(name(parts), By::numbered(STANDARD, READINGS)));
        Self { case: Taken { parts: false, bytes: Vec::new() }, tallies }
    }

    fn ask(&mut self, bytes: &[u8], count: &mut Count) {
        self.case.bytes.clear();
        self.case.bytes.extend_from_slice(bytes);
        for (parts, tally) in [false, true].into_iter().zip(&mut self.tallies) {
            self.case.parts = parts;
            tally.check(&self.case);
        }
        let [rust, standard] = [RUST, STANDARD].map(|by| calls::command_validate(by, bytes, &mut [0; 8]) == 0);
        count.all += 1;
        count.passing += u64::from(standard);
        count.too_long += u64::from(rust && !standard);
    }
}

/// No calls at all where the library is not at hand.
pub fn run(random: &mut Random, thin: bool) -> Vec<Tally> {
    if !cfg!(tss) {
        println!("tss: skipped, since {TSS} is missing (Debian has it in the package libtss2-dev)");
        return Vec::new();
    }
    let before = explained();
    let mut desk = Desk::new();
    let mut commands = traffic::commands();
    commands.extend(real::pairs().into_iter().map(|(command, _)| command));
    let [mut given, mut damaged] = [(); 2].map(|()| Count::default());
    commands.iter().for_each(|command| desk.ask(command, &mut given));

    let different: BTreeSet<Vec<u8>> = commands.into_iter().collect();
    let with_sessions = different.iter().filter_map(|command| Some((command, damage::with_sessions(command)?)));
    for (command, frame) in with_sessions.step_by(if thin { 64 } else { 1 }) {
        damage::each(command, &frame, random, |bytes| desk.ask(bytes, &mut damaged));
    }
    given.tell("recorded, published and kept");
    damaged.tell("damaged");
    let [check, _] = &mut desk.tallies;
    if damaged.too_long == 0 {
        check.differs_in_all("no damaged command has a nonce or an HMAC that is too long");
    }
    for ((before, now), why) in before.iter().zip(explained()).zip(["looks up no code", "takes any tag"]) {
        println!("tss: {} answers of {TSS} are explained by this, that it {why}", now - before);
        if now == *before {
            check.differs_in_all(&format!("no answer is explained by this, that it {why}"));
        }
    }
    desk.tallies.into()
}

fn explained() -> [u64; 2] {
    EXPLAINED.each_ref().map(|count| count.load(Ordering::Relaxed))
}
