//! Nonces and HMACs: of every length that matters, and at places around the end of the lent bytes and far past it.

use super::{Kind, Pool, good, in_rooms};
use crate::calls::Field;
use crate::edges::{self, AROUND_LIMIT, LONGEST, combinations};
use crate::frame::known;
use crate::random::Random;
use crate::write::Desk;

/// Up to the largest capacity of the crate's, past it, and up to the largest length.
const LENGTHS: [usize; 12] = [0, 1, 2, 63, 64, 65, 256, 1_000, 4_095, 4_096, 4_097, 65_535];

pub fn each(desk: &mut Desk, pool: &Pool, random: &mut Random, thin: bool) {
    lengths(desk, pool, random, thin);
    places(desk, pool, random, thin);
    limits(desk, pool, random, thin);
}

/// One field of the six.
fn field(desk: &mut Desk, which: usize) -> &mut Field {
    let session = &mut desk.case.sessions.three[which / 2];
    if which % 2 == 0 { &mut session.nonce } else { &mut session.hmac }
}

/// Each pair of lengths in all sessions, and in one field alone.
fn lengths(desk: &mut Desk, pool: &Pool, random: &mut Random, thin: bool) {
    // a command with a handle, whose response has one
    let row = known::row(0x131).expect("a row");
    let lengths = if thin { &LENGTHS[..8] } else { &LENGTHS[..] };
    for (kind, count) in Kind::ALL.iter().flat_map(|&kind| [1, 2, 3].map(|count| (kind, count))) {
        for (&nonce, &hmac) in lengths.iter().flat_map(|nonce| lengths.iter().map(move |hmac| (nonce, hmac))) {
            good(desk, kind, &row, (count, [nonce, hmac]), pool, random);
            in_rooms(desk);
        }
        for (which, &size) in (0..2 * count).flat_map(|which| lengths.iter().map(move |size| (which, size))) {
            good(desk, kind, &row, (count, [2, 3]), pool, random);
            // all fields may lie over each other
            pool.fill(&mut desk.case.lent, size + 40, random);
            *field(desk, which) = Field { at: 5, size: size as u16 };
            in_rooms(desk);
        }
    }
}

/// Places at, around and far past the end of the lent bytes, also where place and length add up past 2^64 - 1: of each
/// field, those behind the count among them, which are not looked at.
fn places(desk: &mut Desk, pool: &Pool, random: &mut Random, thin: bool) {
    let row = known::row(0x131).expect("a row");
    for (kind, count) in Kind::ALL.iter().flat_map(|&kind| [0, 1, 2, 3].map(|count| (kind, count))) {
        for (len, size) in [0, 1, 7, 64, 65_540].iter().flat_map(|&len| [0, 1, 2, 64, 65_535].map(|size| (len, size))) {
            let past = usize::MAX - size;
            let mut places = edges::near(&[0, len - size.min(len), len, u32::MAX as usize, 1 << 63, past, usize::MAX]);
            places.extend([len + size, 1 << 16, 1 << 48]);
            for (at, which) in places.into_iter().flat_map(|at| (0..6).map(move |which| (at, which))) {
                if thin && (len > 64 || random.byte() > 63) {
                    continue;
                }
                good(desk, kind, &row, (count, [0, 0]), pool, random);
                pool.fill(&mut desk.case.lent, len, random);
                // the others are there, empty
                (0..6).for_each(|other| *field(desk, other) = Field { at: len, size: 0 });
                *field(desk, which) = Field { at, size: size as u16 };
                in_rooms(desk);
            }
        }
    }
}

/// Which of so many fields are not there, as the bits of numbers.
type Missing = fn(usize) -> Vec<usize>;

/// Every field alone, all of them, or none.
fn one_or_all(fields: usize) -> Vec<usize> {
    (0..fields).map(|which| 1 << which).chain([0, (1 << fields) - 1]).collect()
}

/// Combinations of these lengths in the fields of one to three sessions, some of which end just past the lent bytes: so that
/// the limit is judged with a wrong place behind it, and before it.
fn limits(desk: &mut Desk, pool: &Pool, random: &mut Random, thin: bool) {
    let every: Missing = |fields| (0..1 << fields).collect();
    let all_or_none: Missing = |fields| vec![0, (1 << fields) - 1];
    let plan: [(&[usize], usize, Missing); 4] = [
        (&AROUND_LIMIT, 2, every),
        (if thin { &[0, 64, 65] } else { &AROUND_LIMIT }, 4, one_or_all),
        (if thin { &[64, 65] } else { &AROUND_LIMIT[..7] }, 6, all_or_none),
        (if thin { &[65] } else { &[64, 65, LONGEST] }, 6, one_or_all),
    ];
    let (calls, too_long) = desk.calls();
    for (kind, (lengths, fields, missing)) in Kind::ALL.iter().flat_map(|&kind| plan.map(|part| (kind, part))) {
        let missing = missing(fields);
        for lengths in combinations(lengths, fields) {
            missing.iter().for_each(|&missing| limited(desk, kind, &lengths, missing, pool, random));
        }
    }
    let (calls, too_long) = (desk.calls().0 - calls, desk.calls().1 - too_long);
    println!("write: {calls} calls with lengths around the limit on nonces and HMACs, {too_long} of them refused by 8");
    if too_long == 0 {
        desk.tally(Kind::Command).differs_in_all("no length is beyond the limit");
    }
}

/// Such a call without room, and with room enough unless the frame is long: those are written above.
fn limited(desk: &mut Desk, kind: Kind, lengths: &[usize], missing: usize, pool: &Pool, random: &mut Random) {
    let row = known::row(0x131).expect("a row");
    good(desk, kind, &row, (lengths.len() / 2, [0, 0]), pool, random);
    // all fields lie over each other
    let end = lengths.iter().max().expect("a field") + 1;
    pool.fill(&mut desk.case.lent, end, random);
    for (which, &size) in lengths.iter().enumerate() {
        *field(desk, which) = Field { at: end - size + (missing >> which & 1), size: size as u16 };
    }
    let needed = desk.case.needed();
    desk.ask_in(0);
    if needed < 4_096 {
        desk.ask_in(needed);
    }
}
