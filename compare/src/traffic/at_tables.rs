//! Recorded frames at each table, in the standard reading: what they come to, and which codes those have that another table
//! than the crate's judges differently.

use super::Count;
use crate::by::{self, TABLES};
use crate::calls::{Out, STANDARD};
use std::collections::BTreeMap;

/// The same frames at each table.
#[derive(Default)]
pub struct AtTables([AtTable; TABLES.len()]);

#[derive(Default)]
struct AtTable {
    came_to: Count,
    /// How many come to another number than at the crate's table, by that number and this, and by the command's code.
    apart: BTreeMap<[u32; 2], BTreeMap<u32, u64>>,
}

impl AtTables {
    /// Makes the full check of a frame, of which a command's code is known.
    pub fn add(&mut self, code: u32, check: impl Fn(u32, &mut Out) -> u32) {
        let numbers = TABLES.map(|table| check(table + STANDARD, &mut [0; 8]));
        for (table, number) in self.0.iter_mut().zip(numbers) {
            table.came_to.add(number);
            if number != numbers[0] {
                *table.apart.entry([numbers[0], number]).or_default().entry(code).or_default() += 1;
            }
        }
    }

    pub fn tell(&self, what: &str) {
        for (&number, AtTable { came_to, apart }) in TABLES.iter().zip(&self.0) {
            let at = by::at(by::table(number).expect("a table"));
            came_to.tell(&format!("{what} in the standard reading{at}"));
            for ([theirs, here], codes) in apart {
                let all: u64 = codes.values().sum();
                print!("traffic: {what}{at} that come to {here}, and to {theirs} at the crate's table: {all}, codes");
                codes.iter().for_each(|(code, times)| print!(" {code:#x} ({times})"));
                println!();
            }
        }
    }
}
