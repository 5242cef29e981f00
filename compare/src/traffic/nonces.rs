//! A nonce keeper beside each recording, at each table: every pair is handed to it in turn, and its calls are judged as in the
//! keeper suite. Behind each pair, moreover, the nonce that is kept for each session that the command names has to be the one
//! that the recording has for it, read back from there by `by_hand`, which takes frames apart by itself.
//!
//! A session is opened where TPM2_StartAuthSession succeeds, with the nonce that its answer starts with. It is closed where
//! TPM2_FlushContext of it succeeds, and behind a success to a command whose entry for it does not let it go on. The recordings
//! decide the rest:
//! - A policy session is flushed by its handle, 03.., or by 02.. and the same last three bytes, as the TPM lists those that
//!   are saved: so a flush closes the session with these three bytes.
//! - TPM2_ContextSave and TPM2_ContextLoad of a session change nothing here. While it is saved its handle is given to no other,
//!   and it comes back under the same: so it is open all the time, and keeps the nonce that it has.
//! - TPM2_Clear ends no session: one that was used for it is flushed behind it, and that succeeds. None is open at any
//!   TPM2_Startup that succeeds, so nothing shows whether that ends any, and nothing is done there. A session that had ended
//!   in another way would be opened while it is open, and that fails.

mod by_hand;

use super::Pair;
use crate::answer::Hex;
use crate::by;
use crate::judge::{RULES, Tally};
use crate::keeper::{ANSWER, CLOSE, Desk, OPEN, Reached, Step, by_number};
use by_hand::Read;

/// Sessions that were flushed, those that a command has ended, and nonces held to a recording.
#[derive(Default)]
struct Count {
    flushed: u64,
    ended: u64,
    held: u64,
}

/// At the table of a number; what was counted comes out.
pub fn check(revision: u32, recordings: &[Vec<Pair>]) -> Vec<Tally> {
    let (mut desk, mut count) = (Desk::new(), Count::default());
    let table = by::table(revision).expect("a table");
    for pairs in recordings {
        desk.start(&[]);
        let read: Vec<Read> = pairs.iter().map(|pair| by_hand::read(table, pair)).collect();
        let mut file = File { revision, desk: &mut desk, count: &mut count, open: Vec::new() };
        // it ends where the keeper differs from document 02, which is told by then
        _ = (0..pairs.len()).try_for_each(|at| file.pair(&pairs[at], &read[..=at]));
    }
    let [opened, answered, closed] = [OPEN, ANSWER, CLOSE].map(|call| by_number(desk.count.numbers(call)));
    let (moved, Count { flushed, ended, held }) = (desk.count.times(Reached::Moved), count);
    let (keepers, at) = (recordings.len(), by::at(table));
    print!("traffic: {keepers} nonce keepers{at}: sessions opened: {opened}; answers: {answered}; ");
    println!("{moved} nonces moved, {held} held to the recordings; closed: {closed}, {flushed} flushed, {ended} ended");
    if held == 0 && desk.agrees() {
        desk.tally(ANSWER).differs_from(RULES, "no nonce is held to a recording");
    }
    desk.done()
}

/// A recording, as far as it went.
struct File<'a> {
    revision: u32,
    desk: &'a mut Desk,
    count: &'a mut Count,
    /// The sessions that are open by the recording.
    open: Vec<u32>,
}

impl File<'_> {
    /// Hands over the next pair, which is the last that was read. None where the keeper differs from document 02.
    fn pair(&mut self, (command, response): &Pair, read: &[Read]) -> Option<()> {
        self.desk.take(Step::Answer(self.revision, command.clone(), response.clone()), &self.open)?;
        let pair = read.last().expect("a pair was read");
        for entry in pair.named.iter().filter(|entry| entry.is_session()) {
            let open = self.open.contains(&entry.handle);
            let right = by_hand::last_nonce(read, entry.handle).filter(|_| open);
            let kept = self.desk.nonce(entry.handle);
            self.count.held += u64::from(open);
            let (handle, now, right) = (entry.handle, text(kept.as_deref()), text(right));
            let told = format!("{} {}: {handle:x} is kept with {now}, not with {right}", Hex(command), Hex(response));
            self.hold(now == right, ANSWER, &told);
            self.hold(open || !pair.succeeds, ANSWER, &format!("{handle:x} is used, and is not open by the recording"));
        }
        self.close(pair)?;
        pair.opened.map_or(Some(()), |(handle, nonce)| self.open(handle, nonce))
    }

    fn open(&mut self, handle: u32, nonce: &[u8]) -> Option<()> {
        self.open.push(handle);
        let number = self.desk.take(Step::Open(handle, nonce.to_vec()), &self.open)?;
        self.hold(number == 0, OPEN, &format!("{handle:x} is opened, and refused by {number}"));
        Some(())
    }

    /// Closes the sessions that a pair flushes or ends.
    fn close(&mut self, pair: &Read) -> Option<()> {
        let flushed: Vec<u32> = self.open.iter().copied().filter(|handle| pair.flushes(*handle)).collect();
        let ended: Vec<u32> = self.open.iter().copied().filter(|handle| pair.ends(*handle)).collect();
        let held = flushed.len() == usize::from(pair.flushes_a_session());
        self.hold(held, CLOSE, "what is flushed is not one session that is open by the recording");
        self.count.flushed += flushed.len() as u64;
        self.count.ended += ended.len() as u64;
        for handle in flushed.into_iter().chain(ended) {
            self.open.retain(|open| *open != handle);
            let number = self.desk.take(Step::Close(handle), &self.open)?;
            self.hold(number == 0, CLOSE, &format!("{handle:x} is closed, and refused by {number}"));
        }
        Some(())
    }

    /// Counts a mismatch where something does not hold.
    fn hold(&mut self, holds: bool, call: usize, how: &str) {
        if !holds {
            self.desk.tally(call).differs_from(RULES, how);
        }
    }
}

fn text(nonce: Option<&[u8]>) -> String {
    nonce.map_or("nothing".into(), |nonce| Hex(nonce).to_string())
}
