//! The limits with which a suite reads the crate's answers: how many answers each of them explains.

use crate::judge::{CRATE, Tally};
use std::sync::atomic::{AtomicU64, Ordering};

/// A limit that explains answers.
#[derive(Clone, Copy)]
pub enum Limit {
    /// At most three sessions.
    Sessions,
    /// At most so many bytes of a nonce or an HMAC.
    Bytes,
}

/// The counts of a suite.
pub struct Explained([AtomicU64; 2]);

impl Explained {
    pub const fn new() -> Self {
        Self([const { AtomicU64::new(0) }; 2])
    }

    pub fn add(&self, limit: Limit) {
        self.0[limit as usize].fetch_add(1, Ordering::Relaxed);
    }

    /// How many answers each limit has explained so far.
    pub fn so_far(&self) -> [u64; 2] {
        self.0.each_ref().map(|count| count.load(Ordering::Relaxed))
    }

    /// Tells how many of the crate's answers each limit has explained since then, and what the crate has instead of the
    /// second. There must be some: else nothing shows that the difference is there. That there is no other, the tallies
    /// show.
    pub fn tell(&self, since: [u64; 2], suite: &str, second: &str, tally: &mut Tally) {
        let limits = ["its limit of eight sessions, not three (D1)", second];
        for ((before, now), limit) in since.iter().zip(self.so_far()).zip(limits) {
            let count = now - before;
            println!("{suite}: {count} answers of {CRATE} are explained by {limit}");
            if count == 0 {
                tally.differs_in_all(&format!("no answer is explained by {limit}"));
            }
        }
    }
}
