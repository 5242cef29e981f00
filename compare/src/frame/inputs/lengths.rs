//! Lengths around the standard reading's limit on nonces and HMACs, and such whose second byte counts, in every field of up
//! to three entries: whole, and cut at every length of the entries. All frames share one buffer, in which only what is read
//! of a frame is set anew: header, sizes and lengths. What is between them may be anything, and nothing is copied.
//!
//! Whole: every combination of the lengths in one, two and three entries. Cut: every combination in one entry; in two
//! entries every combination of those below 65,535; in three every combination of 0, 64 and 65; of 64 and 65 also with a
//! fourth entry behind them; and 65,535 in each field of two and three entries in turn, the others short. One entry of
//! lengths below 65,535 is also cut with its sizes left as they are.

use crate::edges::{AROUND_LIMIT, LONGEST, combinations};
use crate::frame::call::{CALLS, Kind, named};
use crate::frame::desk::Desk;
use crate::frame::known::{self, Row};
use crate::random::Random;

/// How many frames of each kind there were.
#[derive(Default)]
struct Count {
    whole: u64,
    cut: u64,
}

pub fn each(desk: &mut Desk, random: &mut Random, thin: bool) {
    let (before, mut count) = (desk.too_long(), Count::default());
    for kind in [Kind::Command, Kind::Response] {
        let mut sheet = Sheet::new(kind, random);
        if thin {
            some(desk, &mut sheet, &mut count);
        } else {
            all(desk, &mut sheet, &mut count);
        }
    }
    let (Count { whole, cut }, refused) = (count, desk.too_long() - before);
    println!("frame: {whole} frames with lengths around the limit on nonces and HMACs, and {cut} cuts of such frames");
    println!("frame: {refused} calls on these are refused by 8");
    if refused == 0 {
        desk.tally(named("command_validate")).differs_in_all("no length is beyond the limit");
    }
}

fn all(desk: &mut Desk, sheet: &mut Sheet, count: &mut Count) {
    some(desk, sheet, count);
    combinations(&AROUND_LIMIT[..7], 4).for_each(|lengths| sheet.cut(desk, &lengths, count));
    combinations(&[0, 64, 65], 6).for_each(|lengths| sheet.cut(desk, &lengths, count));
    let with_longest = combinations(&AROUND_LIMIT, 2).filter(|lengths| lengths.contains(&LONGEST));
    with_longest.for_each(|lengths| sheet.cut(desk, &lengths, count));
    for (fields, which) in [4, 6].iter().flat_map(|&fields| (0..fields).map(move |which| (fields, which))) {
        let mut lengths = vec![1; fields];
        lengths[which] = LONGEST;
        sheet.cut(desk, &lengths, count);
    }
    for fields in [2, 4, 6] {
        combinations(&AROUND_LIMIT, fields).for_each(|lengths| sheet.whole(desk, &lengths, count));
    }
}

/// Those that are thinned too, the shortest.
fn some(desk: &mut Desk, sheet: &mut Sheet, count: &mut Count) {
    for lengths in combinations(&AROUND_LIMIT[..7], 2) {
        sheet.every_call(desk, &lengths);
        sheet.cut(desk, &lengths, count);
        sheet.cut_raw(desk, &lengths, count);
    }
    for fields in [4, 6, 8] {
        combinations(&[64, 65], fields).for_each(|lengths| sheet.cut(desk, &lengths, count));
    }
}

/// The buffer, for frames of a row with one handle, also in the response.
struct Sheet {
    kind: Kind,
    row: Row,
    /// The calls that walk the entries.
    walking: Vec<usize>,
    bytes: Vec<u8>,
    /// Where the entries of the frame that lies here start and end.
    from: usize,
    to: usize,
}

/// Bytes of parameters: behind the entries of a command, before those of a response.
const PARAMETERS: usize = 3;

/// Where the size of the area behind the handle stands.
const SIZE: usize = 14;

impl Sheet {
    fn new(kind: Kind, random: &mut Random) -> Self {
        let walks = |&at: &usize| CALLS[at].kind == kind && CALLS[at].walks();
        let row = known::row(0x131).expect("a row");
        let mut sheet = Self {
            kind,
            row,
            walking: (0..CALLS.len()).filter(walks).collect(),
            bytes: random.bytes(6 * (LONGEST + 7) + 100),
            from: SIZE + 4 + if kind == Kind::Command { 0 } else { PARAMETERS },
            to: 0,
        };
        sheet.put(0, &[0x80, 0x02]);
        sheet.put(6, &if kind == Kind::Command { sheet.row.code } else { 0 }.to_be_bytes());
        sheet.put(SIZE, &(PARAMETERS as u32).to_be_bytes());
        sheet
    }

    fn put(&mut self, at: usize, bytes: &[u8]) {
        self.bytes[at..][..bytes.len()].copy_from_slice(bytes);
    }

    /// Lays out entries with nonces and HMACs of these lengths in turn.
    fn lay(&mut self, lengths: &[usize]) {
        let handle = if self.kind == Kind::Command { 4 } else { 0 };
        self.to = self.from;
        for (which, &length) in lengths.iter().enumerate() {
            // the handle stands before the nonce, the attributes before the HMAC
            self.to += if which % 2 == 0 { handle } else { 1 };
            self.put(self.to, &(length as u16).to_be_bytes());
            self.to += 2 + length;
        }
    }

    /// The frame whose entries end at a place, with more bytes behind them if it is a command.
    fn ended(&mut self, to: usize, more: usize) -> &mut [u8] {
        let end = to + if self.kind == Kind::Command { more } else { 0 };
        self.put(2, &(end as u32).to_be_bytes());
        if self.kind == Kind::Command {
            self.put(SIZE, &((to - self.from) as u32).to_be_bytes());
        }
        &mut self.bytes[..end]
    }

    fn ask(&mut self, desk: &mut Desk, to: usize, more: usize) {
        let code = self.row.code;
        for at in 0..self.walking.len() {
            let call = self.walking[at];
            desk.ask_in_place(self.ended(to, more), call, code);
        }
    }

    fn whole(&mut self, desk: &mut Desk, lengths: &[usize], count: &mut Count) {
        self.lay(lengths);
        self.ask(desk, self.to, PARAMETERS);
        count.whole += 1;
    }

    /// With all calls of the kind, of which most do not walk.
    fn every_call(&mut self, desk: &mut Desk, lengths: &[usize]) {
        self.lay(lengths);
        let (to, code, kind) = (self.to, self.row.code, self.kind);
        let frame = self.ended(to, PARAMETERS);
        let calls = (0..CALLS.len()).filter(|&at| CALLS[at].kind == kind && !CALLS[at].walks());
        calls.for_each(|call| desk.ask_in_place(frame, call, code));
    }

    /// Whole, and cut at every length of the entries: the sizes are those of what is left. A command is cut there itself,
    /// and once more its authorization area alone, so that what was cut off are parameters.
    fn cut(&mut self, desk: &mut Desk, lengths: &[usize], count: &mut Count) {
        self.whole(desk, lengths, count);
        for to in self.from..self.to {
            self.ask(desk, to, 0);
            count.cut += 1;
            if self.kind == Kind::Command {
                self.ask(desk, to, self.to + PARAMETERS - to);
                count.cut += 1;
            }
        }
    }

    /// Cut at every length, with the sizes of the whole.
    fn cut_raw(&mut self, desk: &mut Desk, lengths: &[usize], count: &mut Count) {
        self.lay(lengths);
        let end = self.ended(self.to, PARAMETERS).len();
        for len in 0..end {
            for at in 0..self.walking.len() {
                desk.ask_in_place(&mut self.bytes[..len], self.walking[at], self.row.code);
            }
            count.cut += 1;
        }
    }
}
