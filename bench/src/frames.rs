//! The rows of whole frames: those that TPM software and a TPM wrote, and frames of one shape that show what a check's
//! time grows with.
//!
//! What the Rust needs to have at hand before it can be asked is made outside of the loop: the view for `validate` and
//! for the areas, the command as a member of `TpmCc`, and the number of a response's handles.

use crate::calls::{self, Frame, Out, Parts, REVISION_159, RUST, STANDARD};
use crate::frame::{known, make, oracle, real};
use crate::oracle::tell;
use crate::random::Random;
use crate::rows::{Side, repeat};
use std::hint::black_box;
use std::sync::OnceLock;
use tpm2_protocol::data::TpmCc;
use tpm2_protocol::frame::{TpmCommand, TpmResponse};

/// A command and its response, both of which pass.
pub struct Pair {
    pub command: Vec<u8>,
    pub response: Vec<u8>,
}

/// The real ones, read once: a round of calls is short.
pub fn real() -> &'static [Pair] {
    static PAIRS: OnceLock<Vec<Pair>> = OnceLock::new();
    PAIRS.get_or_init(|| {
        let pairs = real::pairs().into_iter().map(|(command, response)| Pair { command, response });
        pairs.filter(Pair::passes).collect()
    })
}

/// One pair with so many entries and parameter bytes; without entries it is under the plain tag.
pub fn made(entries: usize, parameters: usize) -> [Pair; 1] {
    [made_of(0x131, entries, parameters)]
}

/// The same of a command's code.
pub fn made_of(code: u32, entries: usize, parameters: usize) -> Pair {
    let random = &mut Random::new(1);
    let row = known::row(code).expect("a row");
    let parameters = vec![0x5A; parameters];
    let areas = [true, false].map(|command| make::entries(command, entries, (32, 32), random).bytes);
    let [asked, answered] = areas.each_ref().map(|area| Some(area.as_slice()).filter(|area| !area.is_empty()));
    let command = make::command(&row, asked, &parameters, random);
    Pair { command, response: make::response(&row, answered, &parameters, random) }
}

impl Pair {
    fn passes(&self) -> bool {
        let out = &mut [0; 8];
        oracle::command_validate(&self.command, out) == 0
            && oracle::response_validate(real::code(&self.command), &self.response, out) == Some(0)
    }

    fn view(&self) -> &TpmCommand {
        TpmCommand::cast(&self.command).expect("the command passes")
    }

    pub fn cc(&self) -> TpmCc {
        TpmCc::try_from(real::code(&self.command)).expect("the code is known")
    }

    fn answer(&self) -> Answer<'_> {
        let cc = self.cc();
        let handles = known::row(cc.value()).expect("a row").responses;
        let view = TpmResponse::cast(&self.response).expect("the response passes");
        Answer { code: cc.value(), cc, handles, bytes: &self.response, view }
    }

    /// All parts of the command.
    pub fn command_frame(&self) -> Frame {
        passed(calls::command_parts(RUST, &self.command, &mut [0; 8]))
    }

    /// All parts of the response.
    pub fn response_frame(&self) -> Frame {
        passed(calls::response_parts(RUST, self.cc().value(), &self.response, &mut [0; 8]))
    }
}

fn passed(parts: Parts) -> Frame {
    assert_eq!(parts.refusal, 0, "the frame is refused");
    parts.frame
}

/// A response, with what is known of its command.
struct Answer<'a> {
    code: u32,
    cc: TpmCc,
    handles: usize,
    bytes: &'a [u8],
    view: &'a TpmResponse,
}

/// Makes so many calls, on one item after the other.
pub fn each<T>(items: &[T], n: u64, call: fn(&T, &mut Out) -> u32) {
    let call = black_box(call);
    let mut at = 0;
    repeat(n, |out| {
        at = if at + 1 == items.len() { 0 } else { at + 1 };
        call(black_box(&items[at]), out)
    });
}

pub fn command_cast(side: Side, n: u64) {
    command_cast_by(side, n, |pair, out| calls::command_cast(RUST, &pair.command, out));
}

/// The same at the table of revision 1.59, on frames whose codes both tables have.
pub fn command_cast_159(side: Side, n: u64) {
    let passes = |pair: &Pair| calls::command_cast(REVISION_159 + RUST, &pair.command, &mut [0; 8]) == 0;
    assert!(real().iter().all(passes), "a command is refused");
    command_cast_by(side, n, |pair, out| calls::command_cast(REVISION_159 + RUST, &pair.command, out));
}

fn command_cast_by(side: Side, n: u64, ours: fn(&Pair, &mut Out) -> u32) {
    each(
        &real(),
        n,
        match side {
            Side::Ours => ours,
            Side::Other => |pair, out| oracle::command_cast(&pair.command, out),
            Side::Empty => |_, _| 0,
        },
    );
}

pub fn response_cast(side: Side, n: u64) {
    each(
        &real(),
        n,
        match side {
            Side::Ours => |pair: &Pair, out| calls::response_cast(RUST, &pair.response, out),
            Side::Other => |pair, out| oracle::response_cast(&pair.response, out),
            Side::Empty => |_, _| 0,
        },
    );
}

pub fn command_validate(side: Side, n: u64, pairs: &[Pair]) {
    let views: Vec<&TpmCommand> = pairs.iter().map(Pair::view).collect();
    each(
        &views,
        n,
        match side {
            Side::Ours => |view: &&TpmCommand, out| calls::command_validate(RUST, view.as_bytes(), out),
            Side::Other => |view, out| tell(view.validate(), |()| [], out),
            Side::Empty => |_, _| 0,
        },
    );
}

pub fn response_validate(side: Side, n: u64, pairs: &[Pair]) {
    response_validate_by(side, n, pairs, |it, out| calls::response_validate(RUST, it.code, it.bytes, out));
}

/// The same by the standard rules, on frames that both readings pass.
pub fn response_validate_standard(side: Side, n: u64) {
    response_validate_by(side, n, real(), |it, out| calls::response_validate(STANDARD, it.code, it.bytes, out));
}

fn response_validate_by(side: Side, n: u64, pairs: &[Pair], ours: fn(&Answer, &mut Out) -> u32) {
    let answers: Vec<Answer> = pairs.iter().map(Pair::answer).collect();
    each(
        &answers,
        n,
        match side {
            Side::Ours => ours,
            Side::Other => |answer, out| tell(answer.view.validate(answer.cc), |()| [], out),
            Side::Empty => |_, _| 0,
        },
    );
}

/// Handles, authorization area and parameters, of each the length.
pub fn command_areas(side: Side, n: u64) {
    let views: Vec<&TpmCommand> = real().iter().map(Pair::view).collect();
    each(
        &views,
        n,
        match side {
            Side::Ours => |view: &&TpmCommand, out| {
                let s = view.as_bytes();
                calls::command_handles(RUST, s, out)
                    | calls::command_auth_area(RUST, s, out)
                    | calls::command_parameters(RUST, s, out)
            },
            Side::Other => |view, out| {
                let lengths = || Ok([view.handles()?.len(), view.auth_area()?.len(), view.parameters()?.len()]);
                tell(lengths(), |lengths| lengths.map(|len| len as u64), out)
            },
            Side::Empty => |_, _| 0,
        },
    );
}

pub fn command_parts(side: Side, n: u64) {
    each(
        &real(),
        n,
        match side {
            Side::Ours => |pair: &Pair, out| black_box(&calls::command_parts(RUST, &pair.command, out)).refusal,
            Side::Other => |pair, out| black_box(&oracle::command_parts(&pair.command, out)).refusal,
            Side::Empty => |_, _| 0,
        },
    );
}

pub fn response_parts(side: Side, n: u64) {
    let answers: Vec<Answer> = real().iter().map(Pair::answer).collect();
    each(
        &answers,
        n,
        match side {
            Side::Ours => |it: &Answer, out| black_box(&calls::response_parts(RUST, it.code, it.bytes, out)).refusal,
            Side::Other => |it, out| black_box(&oracle::response_parts_of(it.cc, it.handles, it.bytes, out)).refusal,
            Side::Empty => |_, _| 0,
        },
    );
}
