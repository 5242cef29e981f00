//! The fixed suite: buffers of a fixed capacity, each a size and an array of bytes, of which the first so many are held.

mod inputs;
mod steps;

use crate::answer::{Answer, Hex};
use crate::area::Area;
use crate::calls::Data;
use crate::judge::{Case, Judge, Tally};
use crate::random::Random;
use crate::shrink;
use crate::view::{self, Asks};
use std::fmt;

#[cfg(oracle)]
use crate::{
    calls::Out,
    oracle,
    shown::{came_to, difference},
};

#[derive(Clone, Copy, PartialEq)]
enum Call {
    New,
    Push,
    Extend,
    Held,
    Eq,
    WireLen,
    Marshal,
    Unmarshal,
    FromSlice,
}

impl Call {
    const ALL: [Self; 9] = [
        Self::New,
        Self::Push,
        Self::Extend,
        Self::Held,
        Self::Eq,
        Self::WireLen,
        Self::Marshal,
        Self::Unmarshal,
        Self::FromSlice,
    ];

    fn name(self) -> &'static str {
        match self {
            Self::New => "new",
            Self::Push => "push",
            Self::Extend => "extend",
            Self::Held => "held",
            Self::Eq => "eq",
            Self::WireLen => "wire_len",
            Self::Marshal => "marshal",
            Self::Unmarshal => "unmarshal",
            Self::FromSlice => "from_slice",
        }
    }

    /// The others make a new buffer, whatever the lent data holds.
    fn takes_size(self) -> bool {
        !matches!(self, Self::New | Self::Unmarshal | Self::FromSlice)
    }
}

/// A call with everything that any of them takes: what this one does not take is 0, or is lent and must stay.
#[derive(Clone)]
struct Fixed<const N: usize> {
    call: Call,
    size: u16,
    data: [u8; N],
    byte: u8,
    other_size: u16,
    /// The given bytes, the lent room, or the data of the other buffer.
    other: Vec<u8>,
}

/// `NAME SIZE DATA BYTE OTHER-SIZE OTHER`
impl<const N: usize> fmt::Display for Fixed<N> {
    fn fmt(&self, f: &mut fmt::Formatter) -> fmt::Result {
        write!(f, "buffer{N}_{} {} {} ", self.call.name(), self.size, Hex(&self.data))?;
        write!(f, "{} {} {}", self.byte, self.other_size, Hex(&self.other))
    }
}

/// A slice that is known to be as long as the capacity.
fn array<const N: usize>(slice: &mut [u8]) -> &mut [u8; N] {
    slice.try_into().expect("data is as long as the capacity")
}

impl<const N: usize> Case for Fixed<N>
where
    [u8; N]: Data,
{
    const JUDGES: &'static [Judge<Self>] = &[
        #[cfg(oracle)]
        Judge::tpm2_protocol(by_crate),
        Judge::document_01(by_document),
    ];

    fn preset(&self, answer: &mut Answer) {
        answer.preset([&self.data, &self.other]);
    }

    fn ours(&self, answer: &mut Answer) {
        answer.call(|[data, other], out| {
            let data = array::<N>(data);
            match self.call {
                Call::New => Data::new(data, out),
                Call::Push => Data::push(self.byte, self.size, data, out),
                Call::Extend => Data::extend(other, self.size, data, out),
                Call::Held => Data::held(self.size, data, other, out),
                Call::Eq => Data::eq(self.size, data, self.other_size, array(other), out),
                Call::WireLen => <[u8; N] as Data>::wire_len(self.size, out),
                Call::Marshal => Data::marshal(self.size, data, other, out),
                Call::Unmarshal => Data::unmarshal(other, data, out),
                Call::FromSlice => Data::from_slice(other, data, out),
            }
        });
    }

    fn simpler(&self) -> impl Iterator<Item = Self> {
        let size = shrink::numbers(self.size.into()).map(|n| Self { size: n as u16, ..self.clone() });
        let other_size = shrink::numbers(self.other_size.into()).map(|n| Self { other_size: n as u16, ..self.clone() });
        let byte = shrink::numbers(self.byte.into()).map(|n| Self { byte: n as u8, ..self.clone() });
        // another buffer's data keeps its length
        let others = shrink::bytes(&self.other).filter(|other| self.call != Call::Eq || other.len() == N);
        let other = others.map(|other| Self { other, ..self.clone() });
        let data = shrink::zeroed(&self.data).map(|mut data| Self { data: *array(&mut data), ..self.clone() });
        size.chain(other_size).chain(byte).chain(other).chain(data)
    }
}

// ---- document 01, which speaks about every input

fn by_document<const N: usize>(case: &Fixed<N>, answer: &mut Answer) -> bool {
    let (size, other_size) = (usize::from(case.size), usize::from(case.other_size));
    if let Some(above) = [size, other_size].into_iter().find(|&size| size > N) {
        answer.said.refuses(Area::None, 8, &[0, N as u64, above as u64]);
        return true;
    }
    let held = &case.data[..size];
    match case.call {
        Call::New => refill(answer, &[], &[0]),
        Call::Push => _ = grow::<N>(answer, size, &[case.byte]),
        Call::Extend => _ = grow::<N>(answer, size, &case.other),
        Call::Held => write(answer, held),
        Call::Eq => answer.said.gives(&[u64::from(held == &case.other[..other_size])]),
        Call::WireLen => answer.said.gives(&[2 + size as u64]),
        Call::Marshal => write(answer, &[&case.size.to_be_bytes(), held].concat()),
        Call::Unmarshal => {
            if let Some(size) = view::judged(Asks::Prefix, N, &case.other, &mut answer.said) {
                refill(answer, &case.other[2..][..size as usize], &[size, 2 + size]);
            }
        }
        Call::FromSlice if case.other.len() > N => {
            answer.said.refuses(Area::None, 9, &[0, case.other.len() as u64, N as u64])
        }
        Call::FromSlice => refill(answer, &case.other, &[case.other.len() as u64]),
    }
    true
}

/// The data becomes these bytes, with zeros behind them.
fn refill(answer: &mut Answer, bytes: &[u8], values: &[u64]) {
    let data = answer.bytes_mut(0);
    data.fill(0);
    data[..bytes.len()].copy_from_slice(bytes);
    answer.said.gives(values);
}

/// The given bytes come behind those held, and what stands behind them stays. Gives the size as it is then.
fn grow<const N: usize>(answer: &mut Answer, size: usize, given: &[u8]) -> usize {
    let (len, room) = (given.len(), N - size);
    if len > room {
        answer.said.refuses(Area::None, 9, &[size as u64, len as u64, room as u64]);
        return size;
    }
    answer.bytes_mut(0)[size..][..len].copy_from_slice(given);
    answer.said.gives(&[(size + len) as u64]);
    size + len
}

/// The bytes go to the start of the room; where it is short, none of them does.
fn write(answer: &mut Answer, bytes: &[u8]) {
    let (len, room) = (bytes.len(), answer.bytes(1).len());
    if len > room {
        answer.said.refuses(Area::None, 9, &[0, len as u64, room as u64]);
        return;
    }
    answer.bytes_mut(1)[..len].copy_from_slice(bytes);
    answer.said.gives(&[len as u64]);
}

// ---- the crate, which holds no size above the capacity, and says something else where room is short

#[cfg(oracle)]
fn by_crate<const N: usize>(case: &Fixed<N>, answer: &mut Answer) -> bool {
    answer.try_call(|[data, other], out| theirs(case, data, other, out))
}

#[cfg(oracle)]
fn theirs<const N: usize>(case: &Fixed<N>, data: &mut [u8], other: &mut [u8], out: &mut Out) -> Option<u32> {
    let mut buffer = oracle::buffer::<N>(case.size, data)?;
    let number = match case.call {
        Call::New => oracle::buffer_new(&mut buffer, out),
        Call::Push => oracle::buffer_push(&mut buffer, case.byte, out),
        Call::Extend => oracle::buffer_extend(&mut buffer, other, out),
        Call::Held | Call::Marshal if other.len() < inputs::fit(case.call, N, case.size) => return None,
        Call::Held => oracle::buffer_held(&buffer, other, out),
        Call::Eq => oracle::buffer_eq(&buffer, &oracle::buffer(case.other_size, other)?, out),
        Call::WireLen => oracle::buffer_len(&buffer, out),
        Call::Marshal => oracle::buffer_marshal(&buffer, other, out),
        Call::Unmarshal => oracle::buffer_unmarshal(other, &mut buffer, out),
        Call::FromSlice => oracle::buffer_from_slice(other, &mut buffer, out),
    };
    // the crate does not show what stands behind the size: in a new buffer that is document 01's zeros
    if number == 0 && !case.call.takes_size() {
        data.fill(0);
    }
    data[..buffer.as_ref().len()].copy_from_slice(&buffer);
    Some(number)
}

// ---- the suite

const ROUNDS: usize = 4;

fn check_all<const N: usize>(random: &mut Random) -> Vec<Tally>
where
    [u8; N]: Data,
{
    let check = |call: Call| {
        let mut tally = Tally::new::<Fixed<N>>(format!("buffer{N}_{}", call.name()));
        for _ in 0..ROUNDS {
            inputs::each::<N>(call, random, |case| tally.check(case));
        }
        tally
    };
    let mut tallies: Vec<Tally> = Call::ALL.into_iter().map(check).collect();
    tallies.push(steps::check::<N>(random));
    tallies
}

/// D14 of docs/DIFFERENCES.md: three bytes into room for four, of the crate and of ours.
#[cfg(oracle)]
fn show_partial(tally: &mut Tally) {
    let mut data = [0; 64];
    data[..3].fill(7);
    let buffer = oracle::buffer::<64>(3, &data).expect("three bytes fit");
    let theirs = came_to(4, |room, out| oracle::buffer_marshal(&buffer, room, out));
    let ours = came_to(4, |room, out| Data::marshal(3, &data, room, out));
    difference(tally, "fixed", "D14", (theirs, "9(2,3,2), room 0003eeee"), (ours, "9(0,5,4), room eeeeeeee"));
}

pub fn run(random: &mut Random) -> Vec<Tally> {
    let mut tallies = check_all::<64>(random);
    #[cfg(oracle)]
    show_partial(&mut tallies[Call::Marshal as usize]);
    tallies.extend(check_all::<1024>(random));
    tallies
}
