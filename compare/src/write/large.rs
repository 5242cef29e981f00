//! Totals that no size field holds. The parameters are zeros that nobody reads: they take addresses and no memory. No
//! case can hold them, since what a case holds is copied for each call.

use super::{Desk, Kind, rules, without_sessions};
use crate::answer::Answer;
use crate::by::READINGS;
use crate::calls::{self, Handed, Out};
use crate::judge::{CRATE, RULES};

/// The largest total.
const LARGEST: usize = u32::MAX as usize;

/// A command and a success, of the largest total and of more, into room for a few bytes.
pub fn check(desk: &mut Desk) {
    if Vec::<u8>::new().try_reserve_exact(LARGEST).is_err() {
        println!("write: no call with a total of {LARGEST} or more, since there is no memory for one");
        return;
    }
    let zeros = vec![0; LARGEST];
    for (more, kind) in [0, 1, 2, 10].iter().flat_map(|more| Kind::ALL.map(|kind| (more, kind))) {
        let given = without_sessions(&[], &zeros[..LARGEST - 10 + more]);
        READINGS.iter().for_each(|&by| total(desk, by, kind, given));
    }
    println!("write: also commands and responses of a total of {LARGEST} and more");
}

const ROOM: usize = 12;

/// The answer of a call that is lent the room alone.
fn came_to(write: impl FnOnce(&mut [u8], &mut Out) -> u32) -> Answer {
    let mut answer = Answer::new();
    answer.preset([&[0xEE; ROOM]]);
    answer.call(|[room], out| write(room, out));
    answer
}

/// The call in a mode, held to its judges.
fn total(desk: &mut Desk, by: u32, kind: Kind, given: Handed) {
    let ours = came_to(|room, out| match kind {
        Kind::Command => calls::command_write(by, 0x8001, 0x144, given, room, out),
        Kind::Response => calls::response_write(by, 0, 0x144, given, room, out),
    });
    let rules = came_to(|room, out| match kind {
        Kind::Command => rules::command_write(by, 0x8001, 0x144, given, room, out),
        Kind::Response => rules::response_write(by, 0, 0x144, given, room, out),
    });
    let rules = Some(rules).filter(|right| *right != ours);
    let theirs = by_crate(kind, given).filter(|right| !right.is_but_for_area(&ours));
    for (judge, right) in [(RULES, rules), (CRATE, theirs)] {
        if let Some(right) = right {
            let total = 10 + given.parameters.len();
            desk.tally(kind).differs_from(judge, &format!("a total of {total}: {ours}, not {right}"));
        }
    }
}

/// None where the total is not above the largest: then the room is short, of which the crate is not asked.
#[cfg(oracle)]
fn by_crate(kind: Kind, given: Handed) -> Option<Answer> {
    use super::oracle;
    (given.parameters.len() > LARGEST - 10).then(|| {
        came_to(|room, out| {
            let said = match kind {
                Kind::Command => oracle::command_write(0x8001, 0x144, given, room, out),
                Kind::Response => oracle::response_write(0, 0x144, given, room, out),
            };
            said.expect("the crate can be asked")
        })
    })
}

#[cfg(not(oracle))]
fn by_crate(_: Kind, _: Handed) -> Option<Answer> {
    None
}
