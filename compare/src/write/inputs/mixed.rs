//! Everything at random, mostly right: so that each check is reached with anything behind it.

use super::{COUNTLESS, Kind, Pool, garbage, handles, in_rooms_by};
use crate::calls::{Field, RUST, Session, Sessions};
use crate::frame::known::{self, Row};
use crate::random::Random;
use crate::write::Desk;

/// One round of so many is made in every mode, the others in the Rust's alone: most calls of the suite are made here. And one
/// of so many is made at each table.
const EVERY_MODE: usize = 4;
const EACH_TABLE: usize = 32;

pub fn each(desk: &mut Desk, pool: &Pool, random: &mut Random, rounds: usize) {
    let rows: Vec<Row> = known::rows().collect();
    let readable: Vec<u32> = (0..0x1000).filter(|&code| known::reads(code)).collect();
    assert_eq!(readable.len(), 1_212, "so many codes read");
    for round in 0..rounds {
        let row = &rows[random.number() as usize % rows.len()];
        let kind = random.pick(&Kind::ALL);
        desk.case.kind = kind;
        desk.case.cc = if one_in(32, random) { random.pick(&[0, 0x11E, 0x197, 0x1A2, u32::MAX]) } else { row.code };
        let count = count(random);
        desk.case.number = number(kind, count, &readable, random);
        let right = 4 * handles(kind, row);
        let len = if one_in(16, random) { random.number() as usize % 18 } else { right };
        pool.fill(&mut desk.case.handles, len, random);
        let parameters = random.number() as usize % if one_in(16, random) { 300 } else { 24 };
        pool.fill(&mut desk.case.parameters, parameters, random);
        // seldom so long that each field can have any length
        let lent = if round % 8_192 == 0 { 66_000 } else { 80 + random.number() as usize % 100 };
        pool.fill(&mut desk.case.lent, lent, random);
        desk.case.sessions = Sessions { count, three: [0, 1, 2].map(|at| session(at < count, lent, random)) };
        let modes = if round % EVERY_MODE == 0 { kind.modes() } else { &[RUST] };
        if round % EACH_TABLE == 0 {
            desk.at_each_table(|desk| in_rooms_by(desk, modes));
        } else {
            in_rooms_by(desk, modes);
        }
    }
}

fn one_in(n: u64, random: &mut Random) -> bool {
    random.number() % n == 0
}

fn count(random: &mut Random) -> usize {
    match random.number() % 32 {
        0..=7 => 0,
        8..=15 => 1,
        16..=22 => 2,
        23..=29 => 3,
        30 => 4 + random.number() as usize % 6,
        _ => random.pick(&COUNTLESS),
    }
}

/// A tag that fits the count, or success; at times the other tag, any tag, a code that reads, or any code.
fn number(kind: Kind, count: usize, readable: &[u32], random: &mut Random) -> u32 {
    let fitting = if kind == Kind::Command { 0x8001 + u32::from(count > 0) } else { 0 };
    match (random.number() % 16, kind) {
        (0, Kind::Command) => fitting ^ 3,
        (1, Kind::Command) => random.pick(&known::TAGS).into(),
        (2, Kind::Command) => random.number() as u16 as u32,
        (0..=3, Kind::Response) => random.pick(readable),
        (4, Kind::Response) => random.number() as u32 % 0x1000,
        (5, Kind::Response) => random.number() as u32,
        _ => fitting,
    }
}

/// A session that is mostly there; behind the count, mostly garbage.
fn session(looked_at: bool, lent: usize, random: &mut Random) -> Session {
    if !looked_at && !one_in(4, random) {
        return garbage(random);
    }
    let [nonce, hmac] = [(); 2].map(|()| field(lent, random));
    Session { handle: random.number() as u32, nonce, attributes: random.byte(), hmac }
}

fn field(lent: usize, random: &mut Random) -> Field {
    if one_in(48, random) {
        let near = random.number() as usize % (lent + 3);
        return Field {
            at: random.pick(&[near, near, lent, lent + 1, usize::MAX]),
            size: random.number() as u16 % 100,
        };
    }
    let any = random.number() as usize;
    let size = if lent > u16::MAX.into() { any % (1 << 16) } else { [0, 0, 1, 16, 20, 32, 48, any % 81][any >> 8 & 7] };
    Field { at: random.number() as usize % (lent - size + 1), size: size as u16 }
}
