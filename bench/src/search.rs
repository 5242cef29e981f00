//! The rows of the search in a table of commands, beside a binary search of the same rows: the crate searches its own table so,
//! and lets nobody call that.

use crate::calls::{self, Out, REVISION_138, REVISION_159, REVISION_CRATE};
use crate::frame::known::{self, Table};
use crate::oracle::{give, put};
use crate::rows::{Row, Side, repeat};
use std::hint::black_box;

pub static ROWS: &[Row] = &[
    Row { name: "common codes", run: |side, n| search(side, n, CRATE, &COMMON) },
    Row { name: "common codes, 1.38", run: |side, n| search(side, n, LIB138, &COMMON) },
    Row { name: "common codes, 1.59", run: |side, n| search(side, n, LIB159, &COMMON) },
    Row { name: "last codes", run: |side, n| search(side, n, CRATE, &LAST) },
    Row { name: "last codes, 1.38", run: |side, n| search(side, n, LIB138, &LAST) },
    Row { name: "last codes, 1.59", run: |side, n| search(side, n, LIB159, &LAST) },
    Row { name: "missing codes", run: |side, n| search(side, n, CRATE, &MISSING) },
    Row { name: "missing codes, 1.38", run: |side, n| search(side, n, LIB138, &MISSING) },
    Row { name: "missing codes, 1.59", run: |side, n| search(side, n, LIB159, &MISSING) },
];

/// Of keys, sessions, PCRs and random numbers.
const COMMON: [u32; 8] = [0x131, 0x157, 0x15D, 0x165, 0x176, 0x17A, 0x17B, 0x17E];
const LAST: [u32; 2] = [0x193, 0x2000_0000];
/// In the gaps of all tables, and beside their ends.
const MISSING: [u32; 8] = [0, 0x11E, 0x123, 0x175, 0x1A2, 0x1FFF_FFFF, 0x2000_0001, u32::MAX];

/// A table, and its number.
type Named = (Table, u32);
const CRATE: Named = (Table::Crate, REVISION_CRATE);
const LIB138: Named = (Table::Lib138, REVISION_138);
const LIB159: Named = (Table::Lib159, REVISION_159);

type Call = fn(&[known::Row], u32, u32, &mut Out) -> u32;

fn ours(_: &[known::Row], revision: u32, code: u32, out: &mut Out) -> u32 {
    calls::table_find(revision, code, out)
}

fn by_halves(rows: &[known::Row], _: u32, code: u32, out: &mut Out) -> u32 {
    match rows.binary_search_by_key(&code, |row| row.code) {
        Ok(at) => give([rows[at].handles as u64, rows[at].responses as u64], out),
        Err(_) => put(4, [0, code.into()], out),
    }
}

/// Both sides have to find the same: this is seen to before it is measured.
fn search<const COUNT: usize>(side: Side, n: u64, (table, revision): Named, codes: &[u32; COUNT]) {
    let rows: Vec<known::Row> = table.rows().collect();
    for &code in codes {
        let [found, theirs] = [ours as Call, by_halves].map(|call| {
            let mut out = [0; 8];
            (call(&rows, revision, code, &mut out), out)
        });
        assert_eq!(found, theirs, "another row is found");
    }
    let call: Call = match side {
        Side::Ours => ours,
        Side::Other => by_halves,
        Side::Empty => |_, _, _, _| 0,
    };
    let (call, mut at) = (black_box(call), 0);
    repeat(n, |out| {
        at = (at + 1) % COUNT;
        call(black_box(&rows), revision, codes[at], out)
    });
}
