//! The area of a frame that a refusal speaks of (document 02, W2). The written rules name it wherever they refuse; the crate
//! and tpm2-tss know of none, and are not asked for it.

use crate::calls::Out;
use crate::report::report;
use std::fmt;
use std::ops::AddAssign;

/// The areas in the order of their numbers, from 0 on.
#[derive(Clone, Copy, PartialEq, Eq)]
pub enum Area {
    /// Of a writer, of a call without a frame, and of the numbers above 9.
    None,
    Header,
    Handles,
    Authorization,
    Parameters,
}

/// Its place in the lent array, the last.
pub const AREA: usize = 7;

// who leaves it out leaves out nothing behind it
const _: () = assert!(size_of::<Out>() == (AREA + 1) * size_of::<u64>());

impl Area {
    const ALL: [Self; 5] = [Self::None, Self::Header, Self::Handles, Self::Authorization, Self::Parameters];

    /// The area of a number; none where it is that of no area.
    pub fn numbered(number: u64) -> Option<Self> {
        Self::ALL.into_iter().find(|&area| area as u64 == number)
    }
}

impl fmt::Display for Area {
    fn fmt(&self, f: &mut fmt::Formatter) -> fmt::Result {
        f.write_str(match self {
            Self::None => "none",
            Self::Header => "header",
            Self::Handles => "handles",
            Self::Authorization => "authorization",
            Self::Parameters => "parameters",
        })
    }
}

/// Puts a refusal of the written rules where a call would put it, and hands its number on.
pub fn refuse(area: Area, number: u32, fields: impl IntoIterator<Item = u64>, out: &mut Out) -> u32 {
    out[AREA] = area as u64;
    report(number, fields, out)
}

/// How many refusals there were in each area.
#[derive(Clone, Copy, Default)]
pub struct Areas([u64; Area::ALL.len()]);

impl Areas {
    pub fn add(&mut self, area: Area, times: u64) {
        self.0[area as usize] += times;
    }

    pub fn is_empty(&self) -> bool {
        self.0.iter().all(|&times| times == 0)
    }

    /// What is to be told of each area in which nothing was refused: that shows nothing of it.
    pub fn missing(&self) -> impl Iterator<Item = String> {
        let missing = Area::ALL.iter().zip(self.0).filter(|(_, times)| *times == 0);
        missing.map(|(area, _)| format!("no refusal has the area {area}"))
    }
}

impl AddAssign for Areas {
    fn add_assign(&mut self, more: Self) {
        self.0.iter_mut().zip(more.0).for_each(|(mine, more)| *mine += more);
    }
}

/// `N none, N header, ..`
impl fmt::Display for Areas {
    fn fmt(&self, f: &mut fmt::Formatter) -> fmt::Result {
        Area::ALL.iter().zip(self.0).enumerate().try_for_each(|(at, (area, times))| {
            let gap = if at == 0 { "" } else { ", " };
            write!(f, "{gap}{times} {area}")
        })
    }
}
