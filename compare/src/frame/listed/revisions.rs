//! Calls at the Library's tables: their answers for the codes at which tables part; and a command, its success and the setter of
//! codes that all tables have, that the crate's and a Library table have, that one of them has alone, and that none has.

use super::{line_by, walking};
use crate::by::{READINGS, TABLES, sums};
use crate::calls::RUST;
use crate::frame::call::named;
use crate::frame::known::{Row, Table};
use crate::frame::make;
use crate::random::Random;

pub fn list(random: &mut Random) {
    for &table in &TABLES[1..] {
        for code in [0x193, 0x194, 0x195, 0x196, 0x197, 0x198, 0x199, 0x1A1, 0x2000_0000] {
            ["table_find", "table_known"].iter().for_each(|name| line_by(table, named(name), &[], code));
        }
        for code in [0x191, 0x195, 0x197, 0x199, 0x1A2] {
            of_code(table, &any_row(code), random);
        }
    }
}

/// The row of the first table that has one for a code; where none has, there are no handles.
pub fn any_row(code: u32) -> Row {
    let found = Table::ALL.iter().find_map(|table| table.row(code));
    found.unwrap_or(Row { code, handles: 0, responses: 0 })
}

/// Without entries in the Rust reading; with a nonce that is too long for the standard one in both, as is the setter.
fn of_code(table: u32, row: &Row, random: &mut Random) {
    for command in [true, false] {
        let good = if command { make::command } else { make::response };
        let plain = good(row, None, &[1, 2], random);
        let fields: &[&str] = match command {
            true => &["command_cast", "command_cc", "command_handles", "command_parameters", "command_parts"],
            false => &["response_validate", "response_parts"],
        };
        fields.iter().for_each(|name| line_by(table + RUST, named(name), &plain, row.code));
        let long = make::entries(command, 1, (65, 0), random).bytes;
        let long = good(row, Some(&long), &[1, 2], random);
        sums(READINGS, &[table]).for_each(|by| line_by(by, named(walking(command)[0]), &long, row.code));
    }
    let other = make::fields(make::PLAIN, 10, 0x144);
    sums(READINGS, &[table]).for_each(|by| line_by(by, named("command_set_cc"), &other, row.code));
}
