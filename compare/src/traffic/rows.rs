//! The rows of each table as files list them, `CODE,NAME,HANDLES,RESPONSE-HANDLES` and more in a line: the library's tables are
//! held to them for every code that the file or the table has.

use super::read;
use crate::by::TABLES;
use crate::calls;
use crate::frame::known::Table;
use crate::frame::{Desk, named};
use crate::judge::RULES;
use std::collections::{BTreeMap, BTreeSet};
use std::path::Path;

/// The files, in the order of the tables.
const FILES: [&str; TABLES.len()] = ["crate.csv", "lib138.csv", "lib159.csv"];

/// Handles and response handles, by the code.
type Rows = BTreeMap<u32, [u64; 2]>;

pub fn check(desk: &mut Desk, folder: &Path) {
    if !folder.is_dir() {
        println!("traffic: the tables are held to no files, since there is no {}", folder.display());
        return;
    }
    for ((file, revision), table) in FILES.into_iter().zip(TABLES).zip(Table::ALL) {
        let listed = listed(&folder.join(file));
        // the rows of all tables and the codes around them: what the library has elsewhere the frame suite would find
        let around = (0..0x400).chain(0x1FFF_FF00..0x2000_0100).chain(table.rows().map(|row| row.code));
        let codes: BTreeSet<u32> = around.chain(listed.keys().copied()).collect();
        let (mut same, mut differ) = (0, 0);
        for code in codes {
            let now = found(revision, code);
            [named("table_find"), named("table_known")].iter().for_each(|&call| desk.ask_by(revision, call, code));
            if now != listed.get(&code).copied() {
                differ += 1;
                let how = format!("{code:#x} has {now:?}, and in {file} it has {:?}", listed.get(&code));
                desk.tally(named("table_find")).differs_from(RULES, &how);
            } else if now.is_some() {
                same += 1;
            }
        }
        println!("traffic: {} rows in {file}, {same} as the library's table has them, {differ} differ", listed.len());
    }
}

/// The row that the library has.
fn found(revision: u32, code: u32) -> Option<[u64; 2]> {
    let mut out = [0; 8];
    (calls::table_find(revision, code, &mut out) == 0).then_some([out[0], out[1]])
}

fn listed(file: &Path) -> Rows {
    let row = |line: &str| {
        let columns: Vec<&str> = line.split(',').collect();
        let code = columns[0].strip_prefix("0x").and_then(|digits| u32::from_str_radix(digits, 16).ok());
        let [handles, responses] = [2, 3].map(|at| columns[at].parse().expect("a number of handles"));
        (code.expect("a code in hexadecimal"), [handles, responses])
    };
    let text = read(file);
    let rows: Rows = text.lines().skip(1).map(row).collect();
    assert!(!rows.is_empty() && rows.len() == text.lines().count() - 1, "no code stands twice in {}", file.display());
    rows
}
