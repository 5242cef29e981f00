//! The view suite: a TPM2B in lent bytes, which is a 2-byte size and that many bytes of data.

use crate::answer::{Answer, Hex, Said};
use crate::area::Area;
use crate::calls::{self, Out};
use crate::judge::{self, Case, Judge, Tally};
use crate::random::Random;
use crate::{edges, shrink};
use std::fmt;

#[cfg(oracle)]
use crate::oracle;

/// What a call asks of the bytes, each more than the one before.
#[derive(Clone, Copy, PartialEq, PartialOrd)]
pub enum Asks {
    Nothing,
    /// There is a size field.
    Field,
    /// The size is within the capacity, and so much data follows.
    Prefix,
    /// Nothing follows the data.
    Whole,
}

/// A view call, of a capacity if it asks about one.
struct Call<const CAPACITY: usize> {
    name: &'static str,
    asks: Asks,
    ours: fn(&[u8], &mut Out) -> u32,
    /// Document 01's answer, from the size field and the length.
    gives: fn(&mut Said, u64, u64),
    /// The crate's, none where it cannot be asked; it leaves the bytes as they are.
    #[cfg(oracle)]
    theirs: fn(&mut [u8], &mut Out) -> Option<u32>,
}

impl<const CAPACITY: usize> Call<CAPACITY> {
    const ALL: &'static [Self] = &[
        Self {
            name: "tpm2b_validate_prefix",
            asks: Asks::Prefix,
            ours: |s, out| calls::tpm2b_validate_prefix(CAPACITY, s, out),
            gives: |said, size, _| said.gives(&[2 + size]),
            #[cfg(oracle)]
            theirs: |s, out| Some(oracle::tpm2b_validate_prefix::<CAPACITY>(s, out)),
        },
        Self {
            name: "tpm2b_validate",
            asks: Asks::Whole,
            ours: |s, out| calls::tpm2b_validate(CAPACITY, s, out),
            gives: |said, _, _| said.gives(&[]),
            #[cfg(oracle)]
            theirs: |s, out| Some(oracle::tpm2b_validate::<CAPACITY>(s, out)),
        },
        Self {
            name: "tpm2b_cast",
            asks: Asks::Whole,
            ours: |s, out| calls::tpm2b_cast(CAPACITY, s, out),
            gives: |said, size, _| said.gives(&[0, 2 + size]),
            #[cfg(oracle)]
            theirs: |s, out| Some(oracle::tpm2b_cast::<CAPACITY>(s, out)),
        },
        Self {
            name: "tpm2b_cast_prefix",
            asks: Asks::Prefix,
            ours: |s, out| calls::tpm2b_cast_prefix(CAPACITY, s, out),
            gives: |said, size, len| said.gives(&[0, 2 + size, 2 + size, len]),
            #[cfg(oracle)]
            theirs: |s, out| Some(oracle::tpm2b_cast_prefix::<CAPACITY>(s, out)),
        },
        Self {
            name: "tpm2b_size",
            asks: Asks::Field,
            ours: calls::tpm2b_size,
            gives: |said, size, _| said.gives(&[size]),
            #[cfg(oracle)]
            theirs: oracle::tpm2b_size,
        },
        Self {
            name: "tpm2b_data",
            asks: Asks::Field,
            ours: calls::tpm2b_data,
            gives: |said, _, len| said.gives(&[2, len]),
            #[cfg(oracle)]
            theirs: oracle::tpm2b_data,
        },
        Self {
            name: "tpm2b_is_empty",
            asks: Asks::Field,
            ours: calls::tpm2b_is_empty,
            gives: |said, size, _| said.gives(&[u64::from(size == 0)]),
            #[cfg(oracle)]
            theirs: oracle::tpm2b_is_empty,
        },
        Self {
            name: "tpm2b_len",
            asks: Asks::Nothing,
            ours: calls::tpm2b_len,
            gives: |said, _, len| said.gives(&[len]),
            #[cfg(oracle)]
            theirs: oracle::tpm2b_len,
        },
    ];
}

#[derive(Clone)]
struct View<const CAPACITY: usize> {
    call: &'static Call<CAPACITY>,
    bytes: Vec<u8>,
}

/// `NAME BYTES CAPACITY -`, with `-` for no capacity.
impl<const CAPACITY: usize> fmt::Display for View<CAPACITY> {
    fn fmt(&self, f: &mut fmt::Formatter) -> fmt::Result {
        write!(f, "{} {} ", self.call.name, Hex(&self.bytes))?;
        if self.call.asks >= Asks::Prefix { write!(f, "{CAPACITY} -") } else { write!(f, "- -") }
    }
}

impl<const CAPACITY: usize> Case for View<CAPACITY> {
    const JUDGES: &'static [Judge<Self>] = &[
        #[cfg(oracle)]
        Judge::tpm2_protocol(by_crate),
        Judge::document_01(by_document),
    ];

    fn preset(&self, answer: &mut Answer) {
        answer.preset([&self.bytes]);
    }

    fn ours(&self, answer: &mut Answer) {
        answer.call(|[s], out| (self.call.ours)(s, out));
    }

    fn simpler(&self) -> impl Iterator<Item = Self> {
        shrink::bytes(&self.bytes).map(|bytes| Self { bytes, ..*self })
    }
}

#[cfg(oracle)]
fn by_crate<const CAPACITY: usize>(case: &View<CAPACITY>, answer: &mut Answer) -> bool {
    answer.try_call(|[s], out| (case.call.theirs)(s, out))
}

/// It speaks about every input.
fn by_document<const CAPACITY: usize>(case: &View<CAPACITY>, answer: &mut Answer) -> bool {
    if let Some(size) = judged(case.call.asks, CAPACITY, &case.bytes, &mut answer.said) {
        (case.call.gives)(&mut answer.said, size, case.bytes.len() as u64);
    }
    true
}

/// Document 01's checks in their order: the size field of bytes that pass, 0 where there is none, or a refusal.
pub fn judged(asks: Asks, capacity: usize, bytes: &[u8], said: &mut Said) -> Option<u64> {
    let (capacity, len) = (capacity as u64, bytes.len() as u64);
    let size = bytes.first_chunk().map_or(0, |field| u16::from_be_bytes(*field).into());
    if asks >= Asks::Field && len < 2 {
        said.refuses(Area::None, 1, &[0, 2, len]);
    } else if asks >= Asks::Prefix && size > capacity {
        said.refuses(Area::None, 8, &[0, capacity, size]);
    } else if asks >= Asks::Prefix && size > len - 2 {
        said.refuses(Area::None, 1, &[2, size, len - 2]);
    } else if asks >= Asks::Whole && size < len - 2 {
        said.refuses(Area::None, 2, &[2 + size, len - 2 - size]);
    } else {
        return Some(size);
    }
    None
}

/// The edges of a capacity, then every size over a few bytes, and sizes that capacities allow over about as many.
fn check<const CAPACITY: usize>(tally: &mut Tally, call: usize, random: &mut Random) {
    let mut case = View::<CAPACITY> { call: &Call::ALL[call], bytes: Vec::new() };
    for (size, len) in edges::tpm2bs(CAPACITY) {
        case.bytes = edges::tpm2b(size, len, random);
        tally.check(&case);
    }
    for size in 0..=u16::MAX {
        case.bytes = edges::tpm2b(size, 2 + usize::from(random.byte() % 8), random);
        tally.check(&case);
    }
    for size in 0..=1 << 11 {
        for len in edges::near(&[2 + usize::from(size)]) {
            case.bytes = edges::tpm2b(size, len, random);
            tally.check(&case);
        }
    }
}

pub fn run(random: &mut Random) -> Vec<Tally> {
    let check_all = |(call, Call { name, .. }): (usize, &Call<64>)| {
        let mut tally = Tally::new::<View<64>>(*name);
        check::<0>(&mut tally, call, random);
        check::<64>(&mut tally, call, random);
        check::<1024>(&mut tally, call, random);
        check::<{ usize::MAX }>(&mut tally, call, random);
        tally
    };
    Call::ALL.iter().enumerate().map(check_all).collect()
}

/// Sizes and lengths at the edges of both capacities.
const LISTED: [(u16, usize); 14] = [
    (0, 0),
    (0, 1),
    (0, 2),
    (0, 3),
    (1, 2),
    (1, 3),
    (2, 6),
    (64, 65),
    (64, 66),
    (65, 67),
    (1024, 1025),
    (1024, 1026),
    (1025, 1027),
    (u16::MAX, 8),
];

/// Prints some calls of every kind, for the fixed list.
pub fn list(random: &mut Random) {
    for call in 0..Call::<64>::ALL.len() {
        for (size, len) in LISTED {
            let bytes = edges::tpm2b(size, len, random);
            if size <= 65 {
                judge::list(&View::<64> { call: &Call::ALL[call], bytes }, false);
            } else {
                judge::list(&View::<1024> { call: &Call::ALL[call], bytes }, false);
            }
        }
    }
}
