//! What is measured, a row an entry.
//!
//! Every side of a row is a function of one shape, that of our call, and is called through a pointer that the compiler
//! cannot see through. So the loop around it is the same for all sides, nothing is inlined into it, and nothing is
//! optimised away.

use crate::calls::{self, Data, Out};
use crate::frames;
use crate::oracle;
use crate::random::Random;
use crate::writers;
use std::hint::black_box;
use tpm2_protocol::basic::TpmBuffer;

#[derive(Clone, Copy)]
pub enum Side {
    Ours,
    /// What we are measured beside.
    Other,
    /// Does nothing: what is counted here is the loop's, not the call's.
    Empty,
}

pub struct Row {
    pub name: &'static str,
    /// Makes so many calls of a side.
    pub run: fn(Side, u64),
}

/// The rows beside the Rust.
pub static ROWS: &[Row] = &[
    Row { name: "rc read, random codes", run: |side, n| rc_read(&random_codes(), side, n) },
    Row { name: "rc read, the commonest codes", run: |side, n| rc_read(&COMMON_CODES, side, n) },
    Row { name: "view of 32 bytes, capacity 64", run: view::<64, 32> },
    Row { name: "view of 1,024 bytes, capacity 1,024", run: view::<1024, 1024> },
    Row { name: "buffer extend, 64 bytes", run: extend::<64> },
    Row { name: "buffer extend, 1,024 bytes", run: extend::<1024> },
    Row { name: "buffer marshal, 64 bytes", run: marshal::<64> },
    Row { name: "buffer marshal, 1,024 bytes", run: marshal::<1024> },
    Row { name: "command cast, real frames", run: frames::command_cast },
    Row { name: "command cast, real frames, 1.59", run: frames::command_cast_159 },
    Row { name: "response cast, real frames", run: frames::response_cast },
    Row { name: "command validate, real frames", run: |side, n| frames::command_validate(side, n, frames::real()) },
    Row { name: "response validate, real frames", run: |side, n| frames::response_validate(side, n, frames::real()) },
    Row { name: "response validate, standard reading", run: frames::response_validate_standard },
    Row { name: "command areas, real frames", run: frames::command_areas },
    Row { name: "command parts, real frames", run: frames::command_parts },
    Row { name: "response parts, real frames", run: frames::response_parts },
    Row { name: "command validate, 1 entry", run: |side, n| frames::command_validate(side, n, &frames::made(1, 0)) },
    Row { name: "command validate, 2 entries", run: |side, n| frames::command_validate(side, n, &frames::made(2, 0)) },
    Row { name: "command validate, 3 entries", run: |side, n| frames::command_validate(side, n, &frames::made(3, 0)) },
    Row {
        name: "command validate, 3,000 bytes",
        run: |side, n| frames::command_validate(side, n, &frames::made(3, 3000)),
    },
    Row { name: "response validate, 1 entry", run: |side, n| frames::response_validate(side, n, &frames::made(1, 0)) },
    Row {
        name: "response validate, 2 entries",
        run: |side, n| frames::response_validate(side, n, &frames::made(2, 0)),
    },
    Row {
        name: "response validate, 3 entries",
        run: |side, n| frames::response_validate(side, n, &frames::made(3, 0)),
    },
    Row {
        name: "response validate, 3,000 bytes",
        run: |side, n| frames::response_validate(side, n, &frames::made(3, 3000)),
    },
    Row { name: "command write, no session", run: |side, n| writers::command(side, n, &frames::made(0, 8)) },
    Row { name: "command write, 1 session", run: |side, n| writers::command(side, n, &frames::made(1, 8)) },
    Row { name: "command write, 2 sessions", run: |side, n| writers::command(side, n, &frames::made(2, 8)) },
    Row { name: "command write, 3 sessions", run: |side, n| writers::command(side, n, &frames::made(3, 8)) },
    Row { name: "command write, array of 0", run: |side, n| writers::command_array(side, n, &frames::made(0, 8)) },
    Row { name: "command write, array of 1", run: |side, n| writers::command_array(side, n, &frames::made(1, 8)) },
    Row { name: "command write, array of 2", run: |side, n| writers::command_array(side, n, &frames::made(2, 8)) },
    Row { name: "command write, array of 3", run: |side, n| writers::command_array(side, n, &frames::made(3, 8)) },
    Row {
        name: "command write, 1 session, 3,000 bytes",
        run: |side, n| writers::command(side, n, &frames::made(1, 3000)),
    },
    Row {
        name: "command write, 3 sessions, 3,000 bytes",
        run: |side, n| writers::command(side, n, &frames::made(3, 3000)),
    },
    Row { name: "response write, no session", run: |side, n| writers::response(side, n, &frames::made(0, 8)) },
    Row { name: "response write, 1 session", run: |side, n| writers::response(side, n, &frames::made(1, 8)) },
    Row { name: "response write, 2 sessions", run: |side, n| writers::response(side, n, &frames::made(2, 8)) },
    Row { name: "response write, 3 sessions", run: |side, n| writers::response(side, n, &frames::made(3, 8)) },
    Row { name: "response write, array of 0", run: |side, n| writers::response_array(side, n, &frames::made(0, 8)) },
    Row { name: "response write, array of 1", run: |side, n| writers::response_array(side, n, &frames::made(1, 8)) },
    Row { name: "response write, array of 2", run: |side, n| writers::response_array(side, n, &frames::made(2, 8)) },
    Row { name: "response write, array of 3", run: |side, n| writers::response_array(side, n, &frames::made(3, 8)) },
    Row {
        name: "response write, 1 session, 3,000 bytes",
        run: |side, n| writers::response(side, n, &frames::made(1, 3000)),
    },
    Row {
        name: "response write, 3 sessions, 3,000 bytes",
        run: |side, n| writers::response(side, n, &frames::made(3, 3000)),
    },
];

pub fn repeat(n: u64, mut call: impl FnMut(&mut Out) -> u32) {
    let mut out = [0; 8];
    for _ in 0..n {
        black_box(call(black_box(&mut out)));
    }
}

// ---- response codes

/// Success, two failures, an unknown command, a bad value of handle 1, a retry, two bad authorizations of session 1.
const COMMON_CODES: [u32; 8] = [0x000, 0x100, 0x101, 0x143, 0x184, 0x922, 0x98E, 0x9A2];

fn random_codes() -> [u32; 1024] {
    let mut random = Random::new(1);
    std::array::from_fn(|_| random.number() as u32)
}

fn rc_read<const COUNT: usize>(codes: &[u32; COUNT], side: Side, n: u64) {
    let call: fn(u32, &mut Out) -> u32 = match side {
        Side::Ours => calls::rc_read,
        Side::Other => oracle::rc_read,
        Side::Empty => |_, _| 0,
    };
    let call = black_box(call);
    let mut at = 0;
    repeat(n, |out| {
        at = (at + 1) % COUNT;
        call(codes[at], out)
    });
}

// ---- a TPM2B of LEN bytes, its size judged

fn view<const CAPACITY: usize, const LEN: usize>(side: Side, n: u64) {
    let call: fn(usize, &[u8], &mut Out) -> u32 = match side {
        Side::Ours => calls::tpm2b_validate_prefix,
        Side::Other => |_, s, out| oracle::tpm2b_validate_prefix::<CAPACITY>(s, out),
        Side::Empty => |_, _, _| 0,
    };
    let call = black_box(call);
    let bytes = [(LEN as u16).to_be_bytes().as_slice(), &[0x5A; LEN]].concat();
    repeat(n, |out| call(CAPACITY, black_box(&bytes), out));
}

// ---- an empty buffer, filled to its capacity

fn extend<const N: usize>(side: Side, n: u64)
where
    [u8; N]: Data,
{
    match side {
        Side::Ours => extend_by::<_, N>(n, [0; N], Data::extend),
        Side::Other => extend_by::<_, N>(n, TpmBuffer::<N>::new(), |s, _, buffer, out| {
            *buffer = TpmBuffer::new();
            oracle::buffer_extend(buffer, s, out)
        }),
        Side::Empty => extend_by::<_, N>(n, (), |_, _, _, _| 0),
    }
}

/// The Rust's buffer knows its own size.
fn extend_by<B, const N: usize>(n: u64, mut buffer: B, call: fn(&[u8], u16, &mut B, &mut Out) -> u32) {
    let call = black_box(call);
    let given = [0x5A; N];
    repeat(n, |out| call(black_box(&given), 0, black_box(&mut buffer), out));
}

// ---- a full buffer, written to room that just holds it

fn marshal<const N: usize>(side: Side, n: u64)
where
    [u8; N]: Data,
{
    let data = [0x5A; N];
    match side {
        Side::Ours => marshal_by::<_, N>(n, data, Data::marshal),
        Side::Other => {
            let buffer = oracle::buffer::<N>(N as u16, &data).expect("the data is as long as the capacity");
            marshal_by::<_, N>(n, buffer, |_, buffer, room, out| oracle::buffer_marshal(buffer, room, out));
        }
        Side::Empty => marshal_by::<_, N>(n, (), |_, _, _, _| 0),
    }
}

fn marshal_by<B, const N: usize>(n: u64, buffer: B, call: fn(u16, &B, &mut [u8], &mut Out) -> u32) {
    let call = black_box(call);
    let mut room = vec![0; 2 + N];
    repeat(n, |out| call(N as u16, black_box(&buffer), black_box(&mut room), out));
}
