//! Inputs at which an answer may turn.

use crate::random::Random;
use std::iter::successors;

/// Each number with its two neighbours, rising and none twice.
pub fn near(points: &[usize]) -> Vec<usize> {
    let mut near: Vec<usize> = points.iter().flat_map(|&n| [n.saturating_sub(1), n, n.saturating_add(1)]).collect();
    near.sort_unstable();
    near.dedup();
    near
}

/// Lengths around the limit of the standard rules on nonces and HMACs, such whose second byte counts, and last the longest.
pub const AROUND_LIMIT: [usize; 8] = [0, 1, 63, 64, 65, 255, 256, LONGEST];
pub const LONGEST: usize = u16::MAX as usize;

/// Every choice of one of these for each of so many fields, the first field changing fastest.
pub fn combinations(choices: &[usize], fields: usize) -> impl Iterator<Item = Vec<usize>> {
    let count = choices.len().pow(fields as u32);
    (0..count).map(move |n| {
        let digits = successors(Some(n), |n| Some(n / choices.len()));
        digits.take(fields).map(|digit| choices[digit % choices.len()]).collect()
    })
}

/// A size field, and random bytes behind it to the length, which may cut the field itself.
pub fn tpm2b(size: u16, len: usize, random: &mut Random) -> Vec<u8> {
    let mut bytes = Vec::from(size.to_be_bytes());
    bytes.extend(random.bytes(len.saturating_sub(2)));
    bytes.truncate(len);
    bytes
}

/// The sizes around a capacity and at the ends of 16 bits, each with the lengths of a TPM2B that is whole, cut, or
/// followed by more.
pub fn tpm2bs(capacity: usize) -> impl Iterator<Item = (u16, usize)> {
    let sizes = near(&[0, 1, 256, capacity, u16::MAX.into()]).into_iter().filter_map(|size| u16::try_from(size).ok());
    sizes.flat_map(|size| {
        let lengths = near(&[0, 2, 2 + usize::from(size), 2 + 64, 2 + 1024]);
        lengths.into_iter().map(move |len| (size, len))
    })
}
