//! What a call answers: the number it returns, and everything that was lent to it as it is afterwards.
//!
//! A call of ours and a judge each start from the same preset answer and change it; then the two are compared whole. So
//! a number that should have been left alone, or a byte beside a slice, counts as much as the answer itself. Beside a
//! judge that names no areas all counts but the area of a refusal. The room is kept from call to call: once it is large
//! enough, nothing is allocated.

use crate::area::{self, AREA, Area};
use crate::calls::{Frame, OFFSET, Out, Parts, Session, Sessions};
use crate::report::report;
use std::fmt;
use std::ops::Range;

/// What the lent array holds before a call: numbers that no answer has, each its own.
const UNTOUCHED: Out = {
    let mut numbers = [0xA5A5_5A5A_C3C3_3C00; 8];
    let mut i = 0;
    while i < numbers.len() {
        numbers[i] += i as u64;
        i += 1;
    }
    numbers
};

/// The parts that a call gives by value: none before it is made, and with a call that gives none.
pub type Kept = Option<Frame>;

/// Keeps the parts, zeros where they were refused, and hands the number on.
pub fn keep(parts: Parts, kept: &mut Kept) -> u32 {
    *kept = Some(parts.frame);
    parts.refusal
}

/// The numbers of all parts: tag, code, where the handles end, the two areas behind them in the order in which they
/// stand, how many entries there are, and the first three.
fn numbers(frame: &Frame) -> impl Iterator<Item = u64> {
    let mut areas = [frame.auth, frame.parameters].map(|area| [area.from as u64, area.to as u64]);
    areas.sort_unstable();
    let head = [frame.tag.into(), frame.code.into(), frame.handles.to as u64];
    let entries = frame.sessions.three.into_iter().flat_map(|entry| {
        let (nonce, hmac) = (entry.nonce, entry.hmac);
        let ends = [nonce.at as u64, nonce.size.into(), entry.attributes.into(), hmac.at as u64, hmac.size.into()];
        [entry.handle.into()].into_iter().chain(ends)
    });
    head.into_iter().chain(areas.into_iter().flatten()).chain([frame.sessions.count as u64]).chain(entries)
}

/// The number that a call returns, and the lent array.
#[derive(Clone, Copy, PartialEq, Eq)]
pub struct Said {
    number: u32,
    out: Out,
}

impl Said {
    /// The state before a call.
    pub const NOTHING: Self = Self { number: u32::MAX, out: UNTOUCHED };

    /// Makes a call on the array, and keeps the number that it returns.
    pub fn call(&mut self, call: impl FnOnce(&mut Out) -> u32) {
        self.number = call(&mut self.out);
    }

    /// A judge's answer, with the numbers that it reports.
    pub fn gives(&mut self, values: &[u64]) {
        self.number = report(0, values.iter().copied(), &mut self.out);
    }

    /// The written rules' refusal, with its area and its fields in document 01's order.
    pub fn refuses(&mut self, area: Area, number: u32, fields: &[u64]) {
        self.number = area::refuse(area, number, fields.iter().copied(), &mut self.out);
    }

    pub fn number(&self) -> u32 {
        self.number
    }

    /// The numbers that were reported: an answer's, or a refusal's fields, up to the first that is untouched.
    pub fn values(&self) -> impl Iterator<Item = u64> {
        let changed = |(now, before): (&u64, &u64)| (*now != *before).then_some(*now);
        let places = if self.number == 0 { 0..self.out.len() } else { OFFSET..AREA };
        self.out[places.clone()].iter().zip(&UNTOUCHED[places]).map_while(changed)
    }

    /// The area of a refusal; none of an answer, and of a refusal that has no area's number in its place.
    pub fn area(&self) -> Option<Area> {
        Area::numbered(self.out[AREA]).filter(|_| self.number != 0)
    }

    /// Whether the two differ in the area of a refusal at most. An answer has none: there its place has to be untouched.
    pub fn is_but_for_area(&self, other: &Self) -> bool {
        let places = if self.number == 0 { self.out.len() } else { AREA };
        self.number == other.number && self.out[..places] == other.out[..places]
    }
}

/// The number, and the array with a dot where it is untouched.
impl fmt::Display for Said {
    fn fmt(&self, f: &mut fmt::Formatter) -> fmt::Result {
        write!(f, "{} [", self.number)?;
        for (i, (now, before)) in self.out.iter().zip(UNTOUCHED).enumerate() {
            let gap = if i == 0 { "" } else { " " };
            if *now == before { write!(f, "{gap}.")? } else { write!(f, "{gap}{now}")? }
        }
        write!(f, "]")
    }
}

/// Bytes on each side of a lent slice that no call may touch.
const GUARD: usize = 64;
const GUARD_BYTE: u8 = 0xA5;

/// A lent slice between two guards.
#[derive(Default, PartialEq, Eq)]
struct Room(Vec<u8>);

impl Room {
    fn preset(&mut self, bytes: &[u8]) {
        self.0.clear();
        self.0.resize(GUARD, GUARD_BYTE);
        self.0.extend_from_slice(bytes);
        self.0.resize(GUARD + bytes.len() + GUARD, GUARD_BYTE);
    }

    fn lent(&self) -> Range<usize> {
        GUARD..self.0.len() - GUARD
    }

    fn bytes(&self) -> &[u8] {
        &self.0[self.lent()]
    }

    fn bytes_mut(&mut self) -> &mut [u8] {
        let lent = self.lent();
        &mut self.0[lent]
    }

    fn guards_hold(&self) -> bool {
        let Range { start, end } = self.lent();
        self.0[..start].iter().chain(&self.0[end..]).all(|&byte| byte == GUARD_BYTE)
    }
}

impl fmt::Display for Room {
    fn fmt(&self, f: &mut fmt::Formatter) -> fmt::Result {
        write!(f, "{}", Hex(self.bytes()))?;
        if self.guards_hold() { Ok(()) } else { write!(f, ", and bytes beside them are changed") }
    }
}

#[derive(PartialEq, Eq)]
pub struct Answer {
    pub said: Said,
    /// What the calls give that read all parts.
    kept: Kept,
    /// One for each slice that is lent.
    rooms: Vec<Room>,
}

impl Answer {
    pub fn new() -> Self {
        Self { said: Said::NOTHING, kept: None, rooms: Vec::new() }
    }

    /// The state before a call that is lent these slices.
    pub fn preset<const N: usize>(&mut self, lent: [&[u8]; N]) {
        self.said = Said::NOTHING;
        self.kept = None;
        self.rooms.resize_with(N, Room::default);
        for (room, bytes) in self.rooms.iter_mut().zip(lent) {
            room.preset(bytes);
        }
    }

    /// Makes a call on what is lent, and keeps the number that it returns.
    pub fn call<const N: usize>(&mut self, call: impl FnOnce([&mut [u8]; N], &mut Out) -> u32) {
        self.try_call(|lent, out| Some(call(lent, out)));
    }

    /// The same with a call that cannot always be made; tells whether it was.
    pub fn try_call<const N: usize>(&mut self, call: impl FnOnce([&mut [u8]; N], &mut Out) -> Option<u32>) -> bool {
        let rooms: &mut [Room; N] = self.rooms.as_mut_slice().try_into().expect("a call takes all that is lent");
        let number = call(rooms.each_mut().map(Room::bytes_mut), &mut self.said.out);
        self.said.number = number.unwrap_or(self.said.number);
        number.is_some()
    }

    /// The same with a call that is lent one slice and may give all parts.
    pub fn try_call_for_parts(&mut self, call: impl FnOnce(&mut [u8], &mut Kept, &mut Out) -> Option<u32>) -> bool {
        let Self { said, kept, rooms } = self;
        let number = call(rooms[0].bytes_mut(), kept, &mut said.out);
        said.number = number.unwrap_or(said.number);
        number.is_some()
    }

    /// The answer of such a call on bytes that stay where they are, of which nothing is kept; none where it was not made.
    pub fn in_place(s: &mut [u8], call: impl FnOnce(&mut [u8], &mut Kept, &mut Out) -> Option<u32>) -> Option<Self> {
        let mut answer = Self::new();
        let Self { said, kept, .. } = &mut answer;
        said.number = call(s, kept, &mut said.out)?;
        Some(answer)
    }

    /// All numbers that were reported, and behind them those of the parts of a frame that was not refused.
    pub fn values(&self) -> impl Iterator<Item = u64> {
        let parts = self.kept.iter().filter(|_| self.said.number == 0).flat_map(numbers);
        self.said.values().chain(parts)
    }

    /// Whether the two differ in the area of a refusal at most.
    pub fn is_but_for_area(&self, other: &Self) -> bool {
        self.said.is_but_for_area(&other.said) && self.kept == other.kept && self.rooms == other.rooms
    }

    /// The bytes of a lent slice, counted from 0.
    pub fn bytes(&self, which: usize) -> &[u8] {
        self.rooms[which].bytes()
    }

    pub fn bytes_mut(&mut self, which: usize) -> &mut [u8] {
        self.rooms[which].bytes_mut()
    }
}

/// What was said, then the parts where there are any, then the lent slices.
impl fmt::Display for Answer {
    fn fmt(&self, f: &mut fmt::Formatter) -> fmt::Result {
        write!(f, "{}", self.said)?;
        if let Some(Frame { tag, code, handles, auth, parameters, sessions }) = self.kept {
            write!(f, " {tag:x} {code:x}")?;
            [handles, auth, parameters].iter().try_for_each(|part| write!(f, " {}..{}", part.from, part.to))?;
            write!(f, " {sessions}")?;
        }
        self.rooms.iter().try_for_each(|room| write!(f, " ; {room}"))
    }
}

/// How many there are, then the three records, each as `HANDLE,NONCE-PLACE+SIZE,ATTRIBUTES,HMAC-PLACE+SIZE`.
impl fmt::Display for Sessions {
    fn fmt(&self, f: &mut fmt::Formatter) -> fmt::Result {
        write!(f, "{}", self.count)?;
        self.three.iter().try_for_each(|Session { handle, nonce, attributes, hmac }| {
            write!(f, " {handle:x},{}+{},{attributes:x},{}+{}", nonce.at, nonce.size, hmac.at, hmac.size)
        })
    }
}

/// Bytes in hexadecimal, `-` for none.
pub struct Hex<'a>(pub &'a [u8]);

impl fmt::Display for Hex<'_> {
    fn fmt(&self, f: &mut fmt::Formatter) -> fmt::Result {
        if self.0.is_empty() {
            return write!(f, "-");
        }
        self.0.iter().try_for_each(|byte| write!(f, "{byte:02x}"))
    }
}
