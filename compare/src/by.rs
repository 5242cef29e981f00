//! The rules by which a call judges. A call that judges a frame is given their number before all else: that of a reading, or
//! in the writer of a response that of a mode, and added to it that of a table of commands. Some calls take a table's alone.

use crate::calls::{REVISION_138, REVISION_159, REVISION_CRATE, RUST, STANDARD, STANDARD_BAD_TAG};
use crate::frame::known::Table;
use std::array;
use std::fmt;

/// The numbers that name a reading; the writer of a command takes these too.
pub const READINGS: &[u32] = &[RUST, STANDARD];

/// The numbers that name a mode of the writer of a response.
pub const MODES: &[u32] = &[RUST, STANDARD, STANDARD_BAD_TAG];

/// What is added to the number of a table where a call takes that alone.
pub const NO_READING: &[u32] = &[0];

/// The numbers that name a table, in the order of `Table::ALL`.
pub const TABLES: [u32; 3] = [REVISION_CRATE, REVISION_138, REVISION_159];

/// The crate's table, by which most calls are made.
pub const CRATE_ALONE: &[u32] = &[REVISION_CRATE];

/// All sums of these, table by table.
pub fn sums<'a>(readings: &'a [u32], tables: &'a [u32]) -> impl Iterator<Item = u32> + use<'a> {
    tables.iter().flat_map(|table| readings.iter().map(move |reading| table + reading))
}

/// The number of a reading or a mode in a sum, and that of a table: whatever they name.
pub fn parts(sum: u32) -> (u32, u32) {
    (sum & 15, sum & !15)
}

/// The table that a number names.
pub fn table(number: u32) -> Option<Table> {
    match number {
        REVISION_CRATE => Some(Table::Crate),
        REVISION_138 => Some(Table::Lib138),
        REVISION_159 => Some(Table::Lib159),
        _ => None,
    }
}

/// Numbers that name nothing where only sums with these readings or modes name something: at each table the next ones, then
/// such of no table, such that would name something if they were cut to fewer bits, and the largest.
pub fn unnamed(readings: &[u32]) -> impl Iterator<Item = u32> {
    let next = readings.len() as u32;
    let beside = TABLES.into_iter().flat_map(move |table| [next, next + 1, 15].map(|more| table + more));
    let beyond = [0x30, 0x31, 0x40, 0x80, 0x81, 0xF0, 1 << 8, 1 << 8 | 1, 1 << 8 | 0x10, 1 << 12 | 0x21];
    let cut = [1 << 16 | 1, 1 << 16 | 0x20, 1 << 31 | 1, 1 << 31 | 0x11, u32::MAX - 15, u32::MAX];
    beside.chain(beyond).chain(cut)
}

/// A reading or a mode.
#[derive(Clone, Copy, PartialEq)]
pub enum Mode {
    Rust,
    Standard,
    /// The standard mode, with the tag of the answer to a bad tag asked for.
    BadTag,
}

impl Mode {
    const ALL: [Self; 3] = [Self::Rust, Self::Standard, Self::BadTag];
}

/// What a number names: the calls are counted by it.
#[derive(Clone, Copy, PartialEq)]
pub enum By {
    /// The calls that take no number are counted with the Rust's rules at the crate's table, those that take a table alone
    /// with the Rust's at that.
    Rules(Mode, Table),
    Nothing,
}

impl By {
    /// Of a call that takes no number.
    pub const NO_RULES: Self = Self::Rules(Mode::Rust, Table::Crate);

    /// How many there are.
    pub const COUNT: usize = Mode::ALL.len() * Table::ALL.len() + 1;

    pub fn all() -> [Self; Self::COUNT] {
        array::from_fn(|place| {
            let (mode, table) = (place / Table::ALL.len(), place % Table::ALL.len());
            Mode::ALL.get(mode).map_or(Self::Nothing, |&mode| Self::Rules(mode, Table::ALL[table]))
        })
    }

    /// Its place among all.
    pub fn place(self) -> usize {
        match self {
            Self::Rules(mode, table) => mode as usize * Table::ALL.len() + table as usize,
            Self::Nothing => Self::COUNT - 1,
        }
    }

    /// What a number names where only sums with these readings or modes name something.
    pub fn numbered(number: u32, readings: &[u32]) -> Self {
        let (reading, revision) = parts(number);
        let place = readings.iter().position(|&name| name == reading);
        place.zip(table(revision)).map_or(Self::Nothing, |(place, table)| Self::Rules(Mode::ALL[place], table))
    }

    /// The words behind the name of a call.
    pub fn words(self) -> String {
        let Self::Rules(mode, table) = self else {
            return " unnamed".into();
        };
        let mode = match mode {
            Mode::Rust => "",
            Mode::Standard => " standard",
            Mode::BadTag => " standard-00c4",
        };
        format!("{mode}{}", word(table))
    }

    /// How the calls are told apart where they are summed up: by what they are read by, then by their table.
    pub const GROUPS: [(&str, fn(Self) -> bool); 7] = [
        ("in the Rust reading or without rules", |by| matches!(by, Self::Rules(Mode::Rust, _))),
        ("in the standard reading", |by| matches!(by, Self::Rules(Mode::Standard, _))),
        ("in the standard mode with tag 00c4", |by| matches!(by, Self::Rules(Mode::BadTag, _))),
        ("with a number that names no rules", |by| by == Self::Nothing),
        ("at the crate's table or without one", |by| matches!(by, Self::Rules(_, Table::Crate))),
        ("at the table of revision 1.38", |by| matches!(by, Self::Rules(_, Table::Lib138))),
        ("at the table of revision 1.59", |by| matches!(by, Self::Rules(_, Table::Lib159))),
    ];
}

/// The word for a table behind other words: nothing for the crate's.
pub fn word(table: Table) -> &'static str {
    match table {
        Table::Crate => "",
        Table::Lib138 => " 1.38",
        Table::Lib159 => " 1.59",
    }
}

/// The same in a sentence.
pub fn at(table: Table) -> &'static str {
    match table {
        Table::Crate => " at the crate's table",
        Table::Lib138 => " at revision 1.38",
        Table::Lib159 => " at revision 1.59",
    }
}

/// The number that a call is given, as it stands behind the rest of its input: nothing where it is that of the Rust reading at
/// the crate's table.
pub struct Given(pub u32);

impl fmt::Display for Given {
    fn fmt(&self, f: &mut fmt::Formatter) -> fmt::Result {
        match By::numbered(self.0, READINGS) {
            By::Nothing => write!(f, " rules {}", self.0),
            by => write!(f, "{}", by.words()),
        }
    }
}
