//! The rows beside tpm2-tss's marshalling library, which `tss.c` asks. Where that library is missing the rows are there
//! by name, to be told of, and are not measured.

use crate::calls::{self, Out, RUST};
use crate::frame::known;
use crate::frames::{self, Pair, each};
use crate::rows::{Row, Side};
use crate::tss_library::{self, Command};
use crate::writers;
use std::hint::black_box;
use std::mem::MaybeUninit;

pub static ROWS: &[Row] = &[
    Row { name: "command parts, real frames", run: parts },
    Row { name: "command write, no session", run: |side, n| write(side, n, &frames::made(0, 8)) },
    Row { name: "command write, 1 session", run: |side, n| write(side, n, &frames::made(1, 8)) },
    Row { name: "command write, 2 sessions", run: |side, n| write(side, n, &frames::made(2, 8)) },
    Row { name: "command write, 3 sessions", run: |side, n| write(side, n, &frames::made(3, 8)) },
    Row { name: "command write, 1 session, 3,000 bytes", run: |side, n| write(side, n, &frames::made(1, 3000)) },
    Row { name: "command write, 3 sessions, 3,000 bytes", run: |side, n| write(side, n, &frames::made(3, 3000)) },
];

// ---- the library

fn command_write(command: &Command, room: &mut [u8], out: &mut Out) -> u32 {
    tss_library::command_write(command, room, &mut out[0])
}

/// A command's bytes with the number of its handles, which the library does not know.
struct Asked<'a> {
    bytes: &'a [u8],
    handles: usize,
}

impl<'a> Asked<'a> {
    fn of(pair: &'a Pair) -> Self {
        let row = known::row(pair.cc().value()).expect("a row");
        Self { bytes: &pair.command, handles: row.handles }
    }

    fn read(&self, place: &mut MaybeUninit<Command<'a>>) -> u32 {
        tss_library::command_read(self.bytes, self.handles, place)
    }

    fn command(&self) -> Command<'a> {
        tss_library::command(self.bytes, self.handles).expect("the command is not refused")
    }
}

// ---- what is measured

/// What the library reads of a command it has to write again: this is seen to before it is measured.
fn parts(side: Side, n: u64) {
    let asked: Vec<Asked> = frames::real().iter().map(Asked::of).collect();
    if let Side::Other = side {
        asked.iter().for_each(|it| writers::again(it.bytes, &it.command(), 0, command_write));
    }
    each(
        &asked,
        n,
        match side {
            Side::Ours => |it: &Asked, out| black_box(&calls::command_parts(RUST, it.bytes, out)).refusal,
            Side::Other => |it, _| it.read(black_box(&mut MaybeUninit::uninit())),
            Side::Empty => |_, _| 0,
        },
    );
}

fn write(side: Side, n: u64, [pair]: &[Pair; 1]) {
    match side {
        Side::Ours => writers::command_by_us(n, pair),
        Side::Other => writers::again(&pair.command, &Asked::of(pair).command(), n, command_write),
        Side::Empty => writers::nothing(n),
    }
}
