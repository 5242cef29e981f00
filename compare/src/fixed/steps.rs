//! Runs of pushes and extensions from a new buffer on, each step after the others.

use super::{array, grow, refill};
use crate::answer::{Answer, Hex, Said};
use crate::calls::Data;
use crate::judge::{Case, Judge, Tally};
use crate::random::Random;
use crate::shrink;
use std::fmt;

#[derive(Clone)]
enum Step {
    Push(u8),
    Extend(Vec<u8>),
}

#[derive(Clone)]
struct Steps<const N: usize>(Vec<Step>);

/// `NAME`, then each step as `push BYTE` or `extend BYTES`.
impl<const N: usize> fmt::Display for Steps<N> {
    fn fmt(&self, f: &mut fmt::Formatter) -> fmt::Result {
        write!(f, "buffer{N}_steps")?;
        self.0.iter().try_for_each(|step| match step {
            Step::Push(byte) => write!(f, " push {byte:02x}"),
            Step::Extend(bytes) => write!(f, " extend {}", Hex(bytes)),
        })
    }
}

impl<const N: usize> Case for Steps<N>
where
    [u8; N]: Data,
{
    const JUDGES: &'static [Judge<Self>] = &[
        #[cfg(oracle)]
        Judge::tpm2_protocol(by_crate),
        Judge::document_01(by_document),
    ];

    fn preset(&self, answer: &mut Answer) {
        answer.preset([&[0x5A; N]]);
    }

    fn ours(&self, answer: &mut Answer) {
        let mut size = 0;
        answer.call(|[data], out| Data::new(array::<N>(data), out));
        for step in &self.0 {
            answer.said = Said::NOTHING;
            answer.call(|[data], out| match step {
                Step::Push(byte) => Data::push(*byte, size, array::<N>(data), out),
                Step::Extend(bytes) => Data::extend(bytes, size, array::<N>(data), out),
            });
            if answer.said.number() == 0 {
                size = answer.said.values().next().map_or(size, |size| size as u16);
            }
        }
    }

    fn simpler(&self) -> impl Iterator<Item = Self> {
        let fewer = (0..self.0.len()).rev().map(|at| {
            let mut steps = self.0.clone();
            steps.remove(at);
            Self(steps)
        });
        let shorter = self.0.iter().enumerate().flat_map(move |(at, step)| {
            let given = if let Step::Extend(bytes) = step { bytes.as_slice() } else { &[] };
            shrink::bytes(given).map(move |bytes| {
                let mut steps = self.0.clone();
                steps[at] = Step::Extend(bytes);
                Self(steps)
            })
        });
        fewer.chain(shorter)
    }
}

fn by_document<const N: usize>(case: &Steps<N>, answer: &mut Answer) -> bool {
    let mut size = 0;
    refill(answer, &[], &[0]);
    for step in &case.0 {
        answer.said = Said::NOTHING;
        size = match step {
            Step::Push(byte) => grow::<N>(answer, size, &[*byte]),
            Step::Extend(bytes) => grow::<N>(answer, size, bytes),
        };
    }
    true
}

/// The crate's buffer goes through the same steps.
#[cfg(oracle)]
fn by_crate<const N: usize>(case: &Steps<N>, answer: &mut Answer) -> bool {
    use crate::oracle;
    use tpm2_protocol::basic::TpmBuffer;

    let mut buffer = TpmBuffer::<N>::new();
    answer.said.call(|out| oracle::buffer_new(&mut buffer, out));
    for step in &case.0 {
        answer.said = Said::NOTHING;
        answer.said.call(|out| match step {
            Step::Push(byte) => oracle::buffer_push(&mut buffer, *byte, out),
            Step::Extend(bytes) => oracle::buffer_extend(&mut buffer, bytes, out),
        });
    }
    let data = answer.bytes_mut(0);
    data.fill(0);
    data[..buffer.as_ref().len()].copy_from_slice(&buffer);
    true
}

/// Runs of so many steps, long enough to fill the buffer and to be refused.
const RUNS: usize = 200;
const STEPS: usize = 24;

fn step(capacity: usize, random: &mut Random) -> Step {
    if random.byte() % 2 == 0 {
        return Step::Push(random.byte());
    }
    let len = random.number() as usize % (capacity / 4);
    Step::Extend(random.bytes(len))
}

/// Every run is held to the judges after each of its steps.
pub fn check<const N: usize>(random: &mut Random) -> Tally
where
    [u8; N]: Data,
{
    let mut tally = Tally::new::<Steps<N>>(format!("buffer{N}_steps"));
    for _ in 0..RUNS {
        let mut run = Steps::<N>(Vec::new());
        for _ in 0..STEPS {
            run.0.push(step(N, random));
            tally.check(&run);
        }
    }
    tally
}
