//! Single calls, shown as text: for what docs/DIFFERENCES.md lists, and for what no case can hold.

use crate::answer::{Hex, Said};
use crate::calls::Out;
use crate::judge::{CRATE, RULES, Tally};

/// What a call came to: the number, and the numbers behind it.
pub fn said(call: impl FnOnce(&mut Out) -> u32) -> String {
    let mut said = Said::NOTHING;
    said.call(call);
    let values: Vec<String> = said.values().map(|value| value.to_string()).collect();
    format!("{}({})", said.number(), values.join(","))
}

/// What a call with so much room came to: the same, and the room as it is then.
pub fn came_to(room: usize, write: impl FnOnce(&mut [u8], &mut Out) -> u32) -> String {
    let mut room = vec![0xEE; room];
    let said = said(|out| write(&mut room, out));
    format!("{said}, room {}", Hex(&room))
}

/// A difference by its name in docs/DIFFERENCES.md: what the crate's call and ours came to, each held to what is listed.
pub fn difference(tally: &mut Tally, suite: &str, name: &str, theirs: (String, &str), ours: (String, &str)) {
    println!("{suite}: {name}: {CRATE}: {}; here: {}", theirs.0, ours.0);
    for (who, judge, (now, listed)) in [(CRATE, CRATE, theirs), ("here", RULES, ours)] {
        if now != listed {
            tally.differs_from(judge, &format!("{name}, {who}: {now}, and listed is {listed}"));
        }
    }
}
