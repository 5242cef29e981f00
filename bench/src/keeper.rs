//! The rows of the nonce keeper, beside validating two frames by the standard rules: an answer beside those that are
//! handed over, the other calls beside those of one session.
//!
//! A session is told by the order of opening, from 0 on; from 64 on it is unknown. That no call is refused, and that an
//! answer moves the nonces that it should, is seen to before they are measured, on every side alike.

use crate::calls::{self, Keeper, Out, REVISION_CRATE, STANDARD};
use crate::frames::{Pair, made_of};
use crate::rows::{Row, Side, repeat};
use std::hint::black_box;

pub static ROWS: &[Row] = &[
    Row { name: "answer, no session, 1 open", run: |side, n| answer(side, n, opened(1), &[]) },
    Row { name: "answer, no session, 64 open", run: |side, n| answer(side, n, opened(64), &[]) },
    Row { name: "answer, 1 session, 1 open", run: |side, n| answer(side, n, opened(1), &[0]) },
    Row { name: "answer, 1 session, 64 open", run: |side, n| answer(side, n, opened(64), &[32]) },
    Row { name: "answer, 3 sessions, 1 open, 2 unknown", run: |side, n| answer(side, n, opened(1), &[0, 64, 65]) },
    Row { name: "answer, 3 sessions, 64 open", run: |side, n| answer(side, n, opened(64), &[0, 32, 63]) },
    Row { name: "answer, 3 sessions, the first of 64", run: |side, n| answer(side, n, opened(64), &[0, 1, 2]) },
    Row { name: "answer, 3 sessions, the last of 64", run: |side, n| answer(side, n, opened(64), &[61, 62, 63]) },
    Row { name: "answer, 3 sessions, moved by closing", run: |side, n| answer(side, n, moved(), &[63, 62, 61]) },
    Row { name: "open and close, 63 others open", run: open_and_close },
    Row { name: "ask, 64 open", run: ask },
];

const GET_RANDOM: u32 = 0x17B;

const NONCE: [u8; 32] = [0x5A; 32];

/// What a side calls.
type Call = fn(&Pair, &mut Keeper, &mut Out) -> u32;

fn handle(session: usize) -> u32 {
    0x0200_0000 + session as u32
}

// ---- the keeper

/// With so many sessions.
fn opened(count: usize) -> Keeper {
    let mut keeper = Keeper { opaque: [0; 553] };
    for session in 0..count {
        assert_eq!(calls::keeper_open(handle(session), &NONCE, &mut keeper, &mut [0; 8]), 0, "it is not opened");
    }
    keeper
}

/// With 61 sessions: the last three of 64 have taken the places of the first, and their handles still stand where they
/// were, behind the open places.
fn moved() -> Keeper {
    let mut keeper = opened(64);
    for session in 0..3 {
        assert_eq!(calls::keeper_close(handle(session), &mut keeper, &mut [0; 8]), 0, "it is not closed");
    }
    keeper
}

/// The nonce of a session, where it is open.
fn nonce(keeper: &Keeper, session: usize) -> Option<Vec<u8>> {
    let out = &mut [0; 8];
    let is_open = calls::keeper_ask(handle(session), keeper, out) == 0;
    let bytes: Vec<u8> = keeper.opaque.iter().flat_map(|word| word.to_ne_bytes()).collect();
    is_open.then(|| bytes[out[0] as usize..out[1] as usize].to_vec())
}

// ---- the frames

/// A command that names these sessions, and its response.
fn naming(sessions: &[usize]) -> Pair {
    let mut pair = made_of(GET_RANDOM, sessions.len(), 8);
    for (entry, &session) in pair.command_frame().sessions.three.iter().zip(sessions) {
        // the nonce's size is between the two
        pair.command[entry.nonce.at - 6..][..4].copy_from_slice(&handle(session).to_be_bytes());
    }
    pair
}

fn validated(pair: &Pair, _: &mut Keeper, out: &mut Out) -> u32 {
    calls::command_validate(STANDARD, &pair.command, out)
        | calls::response_validate(STANDARD, GET_RANDOM, &pair.response, out)
}

fn answered(pair: &Pair, keeper: &mut Keeper, out: &mut Out) -> u32 {
    calls::keeper_answer(REVISION_CRATE, &pair.command, &pair.response, keeper, out)
}

/// Each session that is named and known has to get the nonce at its position of the response.
fn see_to(pair: &Pair, mut keeper: Keeper, named: &[usize]) {
    answered(pair, &mut keeper, &mut [0; 8]);
    for (entry, &session) in pair.response_frame().sessions.three.iter().zip(named) {
        let due = (session < 64).then(|| &pair.response[entry.nonce.at..][..entry.nonce.size.into()]);
        assert_eq!(nonce(&keeper, session).as_deref(), due, "another nonce is kept");
    }
}

// ---- what is measured

fn beside(side: Side, n: u64, pair: &Pair, mut keeper: Keeper, ours: Call) {
    for call in [ours, validated] {
        assert_eq!(call(pair, &mut keeper.clone(), &mut [0; 8]), 0, "it is refused");
    }
    let call: Call = match side {
        Side::Ours => ours,
        Side::Other => validated,
        Side::Empty => |_, _, _| 0,
    };
    let call = black_box(call);
    repeat(n, |out| call(black_box(pair), black_box(&mut keeper), out));
}

fn answer(side: Side, n: u64, keeper: Keeper, named: &[usize]) {
    let pair = naming(named);
    see_to(&pair, keeper.clone(), named);
    beside(side, n, &pair, keeper, answered);
}

fn open_and_close(side: Side, n: u64) {
    beside(side, n, &naming(&[0]), opened(63), |_, keeper, out| {
        calls::keeper_open(handle(63), &NONCE, keeper, out) | calls::keeper_close(handle(63), keeper, out)
    });
}

fn ask(side: Side, n: u64) {
    beside(side, n, &naming(&[0]), opened(64), |_, keeper, out| calls::keeper_ask(handle(32), keeper, out));
}
