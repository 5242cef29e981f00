//! Nanoseconds a call, robust on a machine that has other work: short rounds, the two sides in turn, and the median of
//! each side's rounds.

use crate::rows::{Row, Side};
use std::time::{Duration, Instant};

const ROUNDS: usize = 31;
const ROUND: Duration = Duration::from_millis(5);

/// Ours and the other side's.
pub fn beside(row: &Row) -> [f64; 2] {
    let sides = [Side::Ours, Side::Other];
    let calls = sides.map(|side| calls_a_round(row, side));
    let mut rounds = [const { Vec::new() }; 2];
    for _ in 0..ROUNDS {
        for ((side, n), rounds) in sides.into_iter().zip(calls).zip(&mut rounds) {
            rounds.push(round(row, side, n).as_secs_f64() * 1e9 / n as f64);
        }
    }
    rounds.map(median)
}

fn round(row: &Row, side: Side, n: u64) -> Duration {
    let began = Instant::now();
    (row.run)(side, n);
    began.elapsed()
}

/// How many calls fill a round.
fn calls_a_round(row: &Row, side: Side) -> u64 {
    let mut n = 1;
    while round(row, side, n) < ROUND {
        n *= 2;
    }
    n
}

fn median(mut numbers: Vec<f64>) -> f64 {
    numbers.sort_by(f64::total_cmp);
    numbers[numbers.len() / 2]
}
