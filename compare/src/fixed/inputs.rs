//! The inputs of the calls on a fixed buffer: every size that its capacity allows, and sizes above, each with lengths
//! around what just fits.

use super::{Call, Fixed};
use crate::edges;
use crate::random::Random;

/// Hands every input of a call on, each time with other bytes.
pub fn each<const N: usize>(call: Call, random: &mut Random, mut check: impl FnMut(&Fixed<N>)) {
    match call {
        Call::New => check(&fresh(call, 0, Vec::new(), random)),
        Call::Push => sizes(N).for_each(|size| check(&fresh(call, size, Vec::new(), random))),
        Call::WireLen => (0..=u16::MAX).for_each(|size| check(&fresh(call, size, Vec::new(), random))),
        Call::Extend | Call::Held | Call::Marshal => {
            for size in sizes(N) {
                for len in edges::near(&[0, fit(call, N, size), N, LONG]) {
                    check(&fresh(call, size, random.bytes(len), random));
                }
            }
        }
        Call::Eq => sizes(N).for_each(|size| pairs(fresh(call, size, Vec::new(), random), &mut check)),
        Call::Unmarshal => {
            let around = |size: u16| edges::near(&[2 + usize::from(size)]).into_iter().map(move |len| (size, len));
            for (size, len) in edges::tpm2bs(N).chain(sizes(N).flat_map(around)) {
                check(&fresh(call, 0, edges::tpm2b(size, len, random), random));
            }
        }
        Call::FromSlice => {
            for len in (0..=N).chain(edges::near(&[N, LONG])) {
                check(&fresh(call, 0, random.bytes(len), random));
            }
        }
    }
}

/// A length that no size passes.
const LONG: usize = u16::MAX as usize;

/// A call on random data.
fn fresh<const N: usize>(call: Call, size: u16, other: Vec<u8>, random: &mut Random) -> Fixed<N> {
    let data = std::array::from_fn(|_| random.byte());
    Fixed { call, size, data, byte: random.byte(), other_size: 0, other }
}

fn sizes(capacity: usize) -> impl Iterator<Item = u16> {
    (0..=capacity as u16 + 1).chain([1 << 15, u16::MAX - 1, u16::MAX])
}

/// How many bytes can still be given, or how long a room is just long enough.
pub fn fit(call: Call, capacity: usize, size: u16) -> usize {
    match call {
        Call::Held => size.into(),
        Call::Marshal => 2 + usize::from(size),
        _ => capacity.saturating_sub(size.into()),
    }
}

/// The buffer beside others of about its size, which hold the same bytes but for one, and also beside itself.
fn pairs<const N: usize>(mut case: Fixed<N>, check: &mut impl FnMut(&Fixed<N>)) {
    let size = usize::from(case.size);
    for other_size in edges::near(&[0, size, N, LONG]) {
        let Ok(other_size) = u16::try_from(other_size) else {
            continue;
        };
        case.other_size = other_size;
        for place in edges::near(&[0, size, N]) {
            case.other = case.data.to_vec();
            if let Some(byte) = case.other.get_mut(place) {
                *byte ^= 1;
            }
            check(&case);
        }
    }
}
