//! Simpler bytes and simpler numbers, from which a suite makes the simpler inputs of its calls.

use std::iter::successors;

/// Smaller numbers, from 0 up to one less. The steps halve, so that the smallest number that still fails is found in
/// few steps.
pub fn numbers(n: u64) -> impl Iterator<Item = u64> {
    halves(n).map(move |step| n - step)
}

/// The bytes with a run of them left out, the longest runs first, then with one byte made 0.
pub fn bytes(s: &[u8]) -> impl Iterator<Item = Vec<u8>> {
    let shorter = halves(s.len() as u64).flat_map(|run| without(s, run as usize));
    shorter.chain(zeroed(s))
}

/// The bytes with one of them made 0.
pub fn zeroed(s: &[u8]) -> impl Iterator<Item = Vec<u8>> {
    (0..s.len()).filter(|&at| s[at] != 0).map(|at| {
        let mut t = s.to_vec();
        t[at] = 0;
        t
    })
}

fn without(s: &[u8], run: usize) -> impl Iterator<Item = Vec<u8>> {
    (0..=s.len() - run).step_by(run).map(move |at| [&s[..at], &s[at + run..]].concat())
}

/// n, n / 2, n / 4 .. 1; nothing for 0.
fn halves(n: u64) -> impl Iterator<Item = u64> {
    successors(Some(n), |n| Some(n / 2)).take_while(|&n| n > 0)
}
