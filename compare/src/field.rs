//! The field suite: big-endian numbers of 16 and 32 bits, read from and written to a place of a lent slice.

use crate::answer::{Answer, Hex};
use crate::area::Area;
use crate::calls::{self, Out};
use crate::judge::{self, Case, Judge, Tally};
use crate::random::Random;
use crate::shrink;
use std::fmt;

/// A field call.
struct Call {
    name: &'static str,
    width: usize,
    writes: bool,
    ours: fn(&mut [u8], usize, u32, &mut Out) -> u32,
}

static CALLS: [Call; 4] = [
    Call { name: "read_u16", width: 2, writes: false, ours: |s, place, _, out| calls::read_u16(place, s, out) },
    Call { name: "read_u32", width: 4, writes: false, ours: |s, place, _, out| calls::read_u32(place, s, out) },
    Call {
        name: "write_u16",
        width: 2,
        writes: true,
        // a case of width 2 holds no larger number
        ours: |s, place, n, out| calls::write_u16(place, n as u16, s, out),
    },
    Call { name: "write_u32", width: 4, writes: true, ours: |s, place, n, out| calls::write_u32(place, n, s, out) },
];

#[derive(Clone)]
struct Field {
    call: &'static Call,
    bytes: Vec<u8>,
    place: usize,
    /// The number to write; a read has none, and 0 here.
    n: u32,
}

/// `NAME BYTES PLACE N`, with `-` for no bytes and for no number.
impl fmt::Display for Field {
    fn fmt(&self, f: &mut fmt::Formatter) -> fmt::Result {
        write!(f, "{} {} {} ", self.call.name, Hex(&self.bytes), self.place)?;
        if self.call.writes { write!(f, "{}", self.n) } else { write!(f, "-") }
    }
}

impl Case for Field {
    const JUDGES: &'static [Judge<Self>] = &[
        #[cfg(oracle)]
        Judge::tpm2_protocol(by_crate),
        Judge::document_01(by_document),
    ];

    fn preset(&self, answer: &mut Answer) {
        answer.preset([&self.bytes]);
    }

    fn ours(&self, answer: &mut Answer) {
        answer.call(|[s], out| (self.call.ours)(s, self.place, self.n, out));
    }

    fn simpler(&self) -> impl Iterator<Item = Self> {
        let shorter = shrink::bytes(&self.bytes).map(|bytes| Self { bytes, ..self.clone() });
        let nearer = shrink::numbers(self.place as u64).map(|place| Self { place: place as usize, ..self.clone() });
        let lower = shrink::numbers(self.n.into()).map(|n| Self { n: n as u32, ..self.clone() });
        shorter.chain(nearer).chain(lower)
    }
}

/// Document 01's refusals at a place, and else Rust's own conversions. It speaks about every input.
fn by_document(case: &Field, answer: &mut Answer) -> bool {
    let Call { width, writes, .. } = *case.call;
    let left = case.bytes.len().saturating_sub(case.place);
    if left < width {
        let number = if writes { 9 } else { 1 };
        answer.said.refuses(Area::None, number, &[case.place as u64, width as u64, left as u64]);
    } else if writes {
        put(answer.bytes_mut(0), case.place, width, case.n);
        answer.said.gives(&[]);
    } else {
        let mut number = [0; 4];
        number[4 - width..].copy_from_slice(&case.bytes[case.place..case.place + width]);
        answer.said.gives(&[u32::from_be_bytes(number).into()]);
    }
    true
}

fn put(bytes: &mut [u8], place: usize, width: usize, n: u32) {
    bytes[place..place + width].copy_from_slice(&n.to_be_bytes()[4 - width..]);
}

/// The crate's own integers, on the bytes from the place on: no slice starts past the end, so it is silent there.
#[cfg(oracle)]
fn by_crate(case: &Field, answer: &mut Answer) -> bool {
    use tpm2_protocol::basic::{TpmUint16, TpmUint32};
    use tpm2_protocol::{TpmMarshal, TpmUnmarshal, TpmWriter};

    let Some(rest) = answer.bytes_mut(0).get_mut(case.place..) else {
        return false;
    };
    let said = match (case.call.writes, case.call.width) {
        (false, 2) => TpmUint16::unmarshal(rest).map(|(n, _)| Some(n.value().into())),
        (false, _) => TpmUint32::unmarshal(rest).map(|(n, _)| Some(n.value().into())),
        (true, 2) => TpmUint16::new(case.n as u16).marshal(&mut TpmWriter::new(rest)).map(|()| None),
        (true, _) => TpmUint32::new(case.n).marshal(&mut TpmWriter::new(rest)).map(|()| None),
    };
    match said {
        Ok(value) => answer.said.gives(value.as_slice()),
        Err(error) => answer.said.call(|out| crate::oracle::refuse(error.rebase(case.place), out)),
    }
    true
}

/// Places at which a sum or a sign could turn over.
fn far_places() -> impl Iterator<Item = usize> {
    let around = |n: usize| n - 4..=n + 4;
    (usize::MAX - 4..=usize::MAX).chain(around(1 << 63)).chain(around(1 << 32))
}

/// The numbers of a width around each of its bytes' and signs' limits.
fn boundaries(width: usize) -> Vec<u32> {
    let limits = (0..=width * 8).step_by(8).flat_map(|bits| [1_u64 << bits, (1_u64 << bits) >> 1]);
    let mut near: Vec<u64> = limits.flat_map(|n| [n.saturating_sub(1), n, n + 1]).collect();
    near.retain(|&n| n < 1 << (width * 8));
    near.sort_unstable();
    near.dedup();
    near.into_iter().map(|n| n as u32).collect()
}

fn random_number(width: usize, random: &mut Random) -> u32 {
    (random.number() % (1 << (width * 8))) as u32
}

/// The numbers that a call is given at every place: the limits and some random ones; a read is given none.
fn numbers(call: &Call, random: &mut Random) -> Vec<u32> {
    if !call.writes {
        return vec![0];
    }
    let mut numbers = boundaries(call.width);
    numbers.extend((0..8).map(|_| random_number(call.width, random)));
    numbers
}

/// Every short slice, in several fills, at every place in it and behind it.
fn check_places(tally: &mut Tally, call: &'static Call, random: &mut Random) {
    let numbers = numbers(call, random);
    for len in 0..=16 {
        let fills = [vec![0; len], vec![0xFF; len], (1..=len as u8).collect(), random.bytes(len), random.bytes(len)];
        for bytes in fills {
            let mut case = Field { call, bytes, place: 0, n: 0 };
            for place in (0..=len + 3).chain(far_places()) {
                case.place = place;
                for &n in &numbers {
                    case.n = n;
                    tally.check(&case);
                }
            }
        }
    }
}

/// Many numbers through one field: every one of 16 bits, as many random ones of 32.
fn check_numbers(tally: &mut Tally, call: &'static Call, random: &mut Random) {
    let mut case = Field { call, bytes: random.bytes(9), place: 0, n: 0 };
    let last = case.bytes.len() - call.width;
    for place in [0, 3, last] {
        case.place = place;
        for i in 0..=u32::from(u16::MAX) {
            let n = if call.width == 2 { i } else { random_number(call.width, random) };
            if call.writes {
                case.n = n
            } else {
                put(&mut case.bytes, place, call.width, n)
            }
            tally.check(&case);
        }
    }
}

pub fn run(random: &mut Random) -> Vec<Tally> {
    let check = |call: &'static Call| {
        let mut tally = Tally::new::<Field>(call.name);
        check_places(&mut tally, call, random);
        check_numbers(&mut tally, call, random);
        tally
    };
    CALLS.iter().map(check).collect()
}

/// Prints some calls of every kind, for the fixed list.
pub fn list(random: &mut Random) {
    for call in &CALLS {
        let numbers = numbers(call, random);
        for len in (0..=5).chain([16]) {
            let far = [1 << 32, 1 << 63, usize::MAX - 1, usize::MAX];
            for place in (0..=len + 1).chain(far) {
                let case = Field { call, bytes: random.bytes(len), place, n: random.pick(&numbers) };
                judge::list(&case, call.writes);
            }
        }
    }
}
