//! The calls on frames, each with what document 01 and the crate say in its place, all in one shape.

use super::rules;
use crate::answer::{Kept, keep};
use crate::by::{self, By, CRATE_ALONE, NO_READING, READINGS};
use crate::calls::{self, Out};

#[cfg(oracle)]
use super::{limit, make, oracle};
#[cfg(oracle)]
use crate::calls::{RUST, STANDARD};

/// What a call is about: the calls of a kind are asked together.
#[derive(Clone, Copy, PartialEq)]
pub enum Kind {
    /// Reads no bytes.
    Table,
    /// Reads what commands and responses share.
    Header,
    Command,
    Response,
    /// Writes a field.
    Setter,
}

/// What the number is that a call takes before all else.
#[derive(Clone, Copy, PartialEq)]
pub enum Takes {
    /// There is none.
    Nothing,
    Table,
    /// A reading's, and a table's added to it.
    Rules,
}

/// Takes the number of the rules, the bytes, a number, a place for the parts, and the array; a call leaves alone what it
/// has no use for.
pub type Shape = fn(u32, &mut [u8], u32, &mut Kept, &mut Out) -> u32;

/// What a judge says in a call's place; none where it cannot be asked.
pub type Says = fn(&Call, u32, &mut [u8], u32, &mut Kept, &mut Out) -> Option<u32>;

/// The same without rules, since the crate has those of the Rust reading alone; none where it cannot be asked.
#[cfg(oracle)]
type Theirs = fn(&mut [u8], u32, &mut Kept, &mut Out) -> Option<u32>;

pub struct Call {
    pub name: &'static str,
    pub kind: Kind,
    /// Whether it takes a number: a command code, a tag, a code to write.
    pub numbered: bool,
    /// By what it judges.
    pub takes: Takes,
    pub ours: Shape,
    pub rules: Shape,
    #[cfg(oracle)]
    pub theirs: Theirs,
}

impl Call {
    pub fn writes(&self) -> bool {
        self.kind == Kind::Setter
    }

    /// The numbers by which it is compared at these tables.
    pub fn numbers(&self, tables: &'static [u32]) -> impl Iterator<Item = u32> + use<> {
        by::sums(self.readings(), if self.takes == Takes::Nothing { CRATE_ALONE } else { tables })
    }

    /// What a number names that it takes.
    pub fn named(&self, by: u32) -> By {
        By::numbered(by, self.readings())
    }

    pub fn readings(&self) -> &'static [u32] {
        if self.takes == Takes::Rules { READINGS } else { NO_READING }
    }

    /// Whether it is a full check, which walks the entries.
    pub fn walks(&self) -> bool {
        self.name.ends_with("_validate") || self.name.ends_with("_parts")
    }

    /// The judges, in the order in which they are asked.
    pub const JUDGES: &[Says] = &[
        #[cfg(oracle)]
        Self::by_crate,
        Self::by_rules,
    ];

    /// The crate has its own table and the Rust reading alone. The standard one parts from it in responses under the tag of
    /// the answer to a bad tag, about which it is not asked, and in a limit, with which its answers are read.
    #[cfg(oracle)]
    pub fn by_crate(&self, by: u32, s: &mut [u8], number: u32, kept: &mut Kept, out: &mut Out) -> Option<u32> {
        let can_be_asked = match by {
            RUST => true,
            STANDARD if self.takes == Takes::Rules => !(make::is_under_bad_tag(s) && self.name.starts_with("response")),
            _ => false,
        };
        if can_be_asked { limit::limited(self, by, s, number, kept, out) } else { None }
    }

    /// They speak about every input.
    pub fn by_rules(&self, by: u32, s: &mut [u8], number: u32, kept: &mut Kept, out: &mut Out) -> Option<u32> {
        Some((self.rules)(by, s, number, kept, out))
    }
}

/// Where the call of a name stands among all.
pub fn named(name: &str) -> usize {
    CALLS.iter().position(|call| call.name == name).expect("the call is there")
}

pub static CALLS: [Call; 24] = [
    Call {
        name: "table_find",
        kind: Kind::Table,
        numbered: true,
        takes: Takes::Table,
        ours: |by, _, n, _, out| calls::table_find(by, n, out),
        rules: |by, _, n, _, out| rules::table_find(by, n, out),
        #[cfg(oracle)]
        theirs: |_, n, _, out| Some(oracle::table_find(n, out)),
    },
    Call {
        name: "table_known",
        kind: Kind::Table,
        numbered: true,
        takes: Takes::Table,
        ours: |by, _, n, _, out| calls::table_known(by, n, out),
        rules: |by, _, n, _, out| rules::table_known(by, n, out),
        #[cfg(oracle)]
        theirs: |_, n, _, out| Some(oracle::table_known(n, out)),
    },
    Call {
        name: "tag_known",
        kind: Kind::Table,
        numbered: true,
        takes: Takes::Nothing,
        ours: |_, _, n, _, out| calls::tag_known(n as u16, out),
        rules: |_, _, n, _, out| rules::tag_known(n as u16, out),
        #[cfg(oracle)]
        theirs: |_, n, _, out| Some(oracle::tag_known(n as u16, out)),
    },
    Call {
        name: "frame_tag",
        kind: Kind::Header,
        numbered: false,
        takes: Takes::Nothing,
        ours: |_, s, _, _, out| calls::frame_tag(s, out),
        rules: |_, s, _, _, out| rules::frame_tag(s, out),
        #[cfg(oracle)]
        theirs: |s, _, _, out| oracle::frame_tag(s, out),
    },
    Call {
        name: "frame_size",
        kind: Kind::Header,
        numbered: false,
        takes: Takes::Nothing,
        ours: |_, s, _, _, out| calls::frame_size(s, out),
        rules: |_, s, _, _, out| rules::frame_size(s, out),
        #[cfg(oracle)]
        theirs: |s, _, _, out| oracle::frame_size(s, out),
    },
    Call {
        name: "frame_len",
        kind: Kind::Header,
        numbered: false,
        takes: Takes::Nothing,
        ours: |_, s, _, _, out| calls::frame_len(s, out),
        rules: |_, s, _, _, out| rules::frame_len(s, out),
        #[cfg(oracle)]
        theirs: |s, _, _, out| oracle::frame_len(s, out),
    },
    Call {
        name: "frame_is_empty",
        kind: Kind::Header,
        numbered: false,
        takes: Takes::Nothing,
        ours: |_, s, _, _, out| calls::frame_is_empty(s, out),
        rules: |_, s, _, _, out| rules::frame_is_empty(s, out),
        #[cfg(oracle)]
        theirs: |s, _, _, out| oracle::frame_is_empty(s, out),
    },
    Call {
        name: "command_cast",
        kind: Kind::Command,
        numbered: false,
        takes: Takes::Rules,
        ours: |by, s, _, _, out| calls::command_cast(by, s, out),
        rules: |by, s, _, _, out| rules::command_cast(by, s, out),
        #[cfg(oracle)]
        theirs: |s, _, _, out| Some(oracle::command_cast(s, out)),
    },
    Call {
        name: "command_cast_prefix",
        kind: Kind::Command,
        numbered: false,
        takes: Takes::Rules,
        ours: |by, s, _, _, out| calls::command_cast_prefix(by, s, out),
        rules: |by, s, _, _, out| rules::command_cast_prefix(by, s, out),
        #[cfg(oracle)]
        theirs: |s, _, _, out| Some(oracle::command_cast_prefix(s, out)),
    },
    Call {
        name: "command_validate",
        kind: Kind::Command,
        numbered: false,
        takes: Takes::Rules,
        ours: |by, s, _, _, out| calls::command_validate(by, s, out),
        rules: |by, s, _, _, out| rules::command_validate(by, s, out),
        #[cfg(oracle)]
        theirs: |s, _, _, out| Some(oracle::command_validate(s, out)),
    },
    Call {
        name: "command_parts",
        kind: Kind::Command,
        numbered: false,
        takes: Takes::Rules,
        ours: |by, s, _, kept, out| keep(calls::command_parts(by, s, out), kept),
        rules: |by, s, _, kept, out| keep(rules::command_parts(by, s, out), kept),
        #[cfg(oracle)]
        theirs: |s, _, kept, out| Some(keep(oracle::command_parts(s, out), kept)),
    },
    Call {
        name: "command_cc",
        kind: Kind::Command,
        numbered: false,
        takes: Takes::Rules,
        ours: |by, s, _, _, out| calls::command_cc(by, s, out),
        rules: |by, s, _, _, out| rules::command_cc(by, s, out),
        #[cfg(oracle)]
        theirs: |s, _, _, out| oracle::command_cc(s, out),
    },
    Call {
        name: "command_handles",
        kind: Kind::Command,
        numbered: false,
        takes: Takes::Rules,
        ours: |by, s, _, _, out| calls::command_handles(by, s, out),
        rules: |by, s, _, _, out| rules::command_handles(by, s, out),
        #[cfg(oracle)]
        theirs: |s, _, _, out| oracle::command_handles(s, out),
    },
    Call {
        name: "command_auth_area",
        kind: Kind::Command,
        numbered: false,
        takes: Takes::Rules,
        ours: |by, s, _, _, out| calls::command_auth_area(by, s, out),
        rules: |by, s, _, _, out| rules::command_auth_area(by, s, out),
        #[cfg(oracle)]
        theirs: |s, _, _, out| oracle::command_auth_area(s, out),
    },
    Call {
        name: "command_parameters",
        kind: Kind::Command,
        numbered: false,
        takes: Takes::Rules,
        ours: |by, s, _, _, out| calls::command_parameters(by, s, out),
        rules: |by, s, _, _, out| rules::command_parameters(by, s, out),
        #[cfg(oracle)]
        theirs: |s, _, _, out| oracle::command_parameters(s, out),
    },
    Call {
        name: "response_cast",
        kind: Kind::Response,
        numbered: false,
        takes: Takes::Rules,
        ours: |by, s, _, _, out| calls::response_cast(by, s, out),
        rules: |by, s, _, _, out| rules::response_cast(by, s, out),
        #[cfg(oracle)]
        theirs: |s, _, _, out| Some(oracle::response_cast(s, out)),
    },
    Call {
        name: "response_cast_prefix",
        kind: Kind::Response,
        numbered: false,
        takes: Takes::Rules,
        ours: |by, s, _, _, out| calls::response_cast_prefix(by, s, out),
        rules: |by, s, _, _, out| rules::response_cast_prefix(by, s, out),
        #[cfg(oracle)]
        theirs: |s, _, _, out| Some(oracle::response_cast_prefix(s, out)),
    },
    Call {
        name: "response_validate",
        kind: Kind::Response,
        numbered: true,
        takes: Takes::Rules,
        ours: |by, s, cc, _, out| calls::response_validate(by, cc, s, out),
        rules: |by, s, cc, _, out| rules::response_validate(by, cc, s, out),
        #[cfg(oracle)]
        theirs: |s, cc, _, out| oracle::response_validate(cc, s, out),
    },
    Call {
        name: "response_parts",
        kind: Kind::Response,
        numbered: true,
        takes: Takes::Rules,
        ours: |by, s, cc, kept, out| keep(calls::response_parts(by, cc, s, out), kept),
        rules: |by, s, cc, kept, out| keep(rules::response_parts(by, cc, s, out), kept),
        #[cfg(oracle)]
        theirs: |s, cc, kept, out| Some(keep(oracle::response_parts(cc, s, out)?, kept)),
    },
    Call {
        name: "response_rc",
        kind: Kind::Response,
        numbered: false,
        takes: Takes::Rules,
        ours: |by, s, _, _, out| calls::response_rc(by, s, out),
        rules: |by, s, _, _, out| rules::response_rc(by, s, out),
        #[cfg(oracle)]
        theirs: |s, _, _, out| oracle::response_rc(s, out),
    },
    Call {
        name: "response_body",
        kind: Kind::Response,
        numbered: false,
        takes: Takes::Nothing,
        ours: |_, s, _, _, out| calls::response_body(s, out),
        rules: |_, s, _, _, out| rules::response_body(s, out),
        #[cfg(oracle)]
        theirs: |s, _, _, out| oracle::response_body(s, out),
    },
    Call {
        name: "frame_set_tag",
        kind: Kind::Setter,
        numbered: true,
        takes: Takes::Nothing,
        ours: |_, s, n, _, out| calls::frame_set_tag(n as u16, s, out),
        rules: |_, s, n, _, out| rules::frame_set_tag(s, n as u16, out),
        #[cfg(oracle)]
        theirs: |s, n, _, out| oracle::frame_set_tag(s, n as u16, out),
    },
    Call {
        name: "command_set_cc",
        kind: Kind::Setter,
        numbered: true,
        takes: Takes::Rules,
        ours: |by, s, n, _, out| calls::command_set_cc(by, n, s, out),
        rules: |by, s, n, _, out| rules::command_set_cc(by, s, n, out),
        #[cfg(oracle)]
        theirs: |s, n, _, out| oracle::command_set_cc(s, n, out),
    },
    Call {
        name: "response_set_rc",
        kind: Kind::Setter,
        numbered: true,
        takes: Takes::Rules,
        ours: |by, s, n, _, out| calls::response_set_rc(by, n, s, out),
        rules: |by, s, n, _, out| rules::response_set_rc(by, s, n, out),
        #[cfg(oracle)]
        theirs: |s, n, _, out| oracle::response_set_rc(s, n, out),
    },
];
