//! Document 01's order of checks from "Command writer" on, written out, with what document 02 adds to it for the standard
//! mode: the answer to a bad tag, and a limit on nonces and HMACs; and with the tables of the Library. It has an answer for
//! every input.

use crate::area::{self, Area};
use crate::by::{self, MODES, READINGS};
use crate::calls::{Field, Handed, Out, RUST, STANDARD_BAD_TAG, Session};
use crate::frame::known::{self, Row, Table};
use crate::report::report;

/// A refusal: its number and its fields, of which 1, 6, 8 and 9 have three and the others two.
struct Refusal(u32, [u64; 3]);

type Judged<T> = Result<T, Refusal>;

fn refusal(number: u32, fields: [u64; 2]) -> Refusal {
    Refusal(number, [fields[0], fields[1], 0])
}

const PLAIN: u16 = 0x8001;
const SESSIONS: u16 = 0x8002;

/// The tag that Part 2 gives to the answer to a bad tag alone, and that answer's code.
const RSP_COMMAND: u16 = 0x00C4;
const BAD_TAG: u32 = 0x1E;

/// All that the modes differ in, and the table.
struct Mode {
    table: Table,
    /// Whether the tag of the answer to a bad tag is asked for.
    asked: bool,
    /// The most bytes of a nonce or an HMAC.
    longest: u16,
}

/// The mode of a number; one that is none of a mode is refused before anything else.
fn mode(by: u32, modes: &[u32]) -> Judged<Mode> {
    let (mode, table) = by::parts(by);
    let table = by::table(table).filter(|_| modes.contains(&mode)).ok_or(refusal(101, [0, by.into()]))?;
    Ok(Mode { table, asked: mode == STANDARD_BAD_TAG, longest: if mode == RUST { u16::MAX } else { 64 } })
}

/// What the two kinds of frame differ in.
struct Shape {
    tag: u16,
    /// The handles of the row.
    handles: usize,
    /// How many bytes of handle an entry has.
    width: usize,
    /// The most bytes of a nonce or an HMAC.
    longest: u16,
}

// ---- the order of checks

pub fn command_write(by: u32, tag: u16, cc: u32, given: Handed, room: &mut [u8], out: &mut Out) -> u32 {
    let judged = command(by, tag, cc, &given).and_then(|shape| total(&shape, &given, room.len()));
    tell(judged.map(|total| lay_command(tag, cc, &given, Pen::new(room, total))), out)
}

fn command(by: u32, tag: u16, cc: u32, given: &Handed) -> Judged<Shape> {
    let Mode { table, longest, .. } = mode(by, READINGS)?;
    let n = given.sessions.count;
    if tag != PLAIN && tag != SESSIONS {
        return Err(refusal(3, [0, tag.into()]));
    }
    if (tag == SESSIONS && n == 0) || (tag == PLAIN && n > 0) {
        return Err(refusal(3, [0, tag.into()]));
    }
    at_most_three(n)?;
    Ok(Shape { tag, handles: row(table, cc)?.handles, width: 4, longest })
}

pub fn response_write(by: u32, rc: u32, cc: u32, given: Handed, room: &mut [u8], out: &mut Out) -> u32 {
    let judged = response(by, rc, cc, &given).and_then(|shape| {
        // any code but success makes a bare header, and the other parts are ignored
        let total = if rc == 0 { total(&shape, &given, room.len()) } else { fitting(10, room.len()) };
        Ok((shape.tag, total?))
    });
    tell(judged.map(|(tag, total)| lay_response(tag, rc, &given, Pen::new(room, total))), out)
}

fn response(by: u32, rc: u32, cc: u32, given: &Handed) -> Judged<Shape> {
    let Mode { table, asked, longest } = mode(by, MODES)?;
    let n = given.sessions.count;
    at_most_three(n)?;
    let handles = row(table, cc)?.responses;
    let is_bad_tag = asked && rc == BAD_TAG;
    if !known::reads(rc) && !is_bad_tag {
        return Err(refusal(5, [0, rc.into()]));
    }
    if rc != 0 && n > 0 {
        return Err(refusal(3, [0, SESSIONS.into()]));
    }
    if asked && !is_bad_tag {
        return Err(refusal(5, [0, rc.into()]));
    }
    let tag = match n {
        _ if asked => RSP_COMMAND,
        0 => PLAIN,
        _ => SESSIONS,
    };
    Ok(Shape { tag, handles, width: 0, longest })
}

fn at_most_three(n: usize) -> Judged<()> {
    if n > 3 { Err(Refusal(6, [0, 3, n as u64])) } else { Ok(()) }
}

fn row(table: Table, cc: u32) -> Judged<Row> {
    table.row(cc).ok_or(refusal(4, [0, cc.into()]))
}

/// From the handles on: the total that fits the room. The sum is of numbers wider than any length, so that it is true.
fn total(shape: &Shape, given: &Handed, room: usize) -> Judged<usize> {
    let (asked, handles) = (4 * shape.handles as u64, given.handles.len() as u64);
    if handles < asked {
        return Err(Refusal(1, [0, asked, handles]));
    }
    if handles > asked {
        return Err(refusal(2, [asked, handles - asked]));
    }
    for session in looked_at(given) {
        there(session.nonce, shape.longest, given.lent)?;
        there(session.hmac, shape.longest, given.lent)?;
    }
    let size_field = if shape.tag == SESSIONS { 4 } else { 0 };
    let entries = entries_size(given, shape.width) as u128;
    let total = 10 + u128::from(handles) + size_field + entries + given.parameters.len() as u128;
    if total > u32::MAX.into() {
        return Err(refusal(7, [0, u64::try_from(total).unwrap_or(u64::MAX)]));
    }
    fitting(total as usize, room)
}

/// So many of the three sessions as there are.
fn looked_at<'a>(given: &'a Handed) -> &'a [Session] {
    &given.sessions.three[..given.sessions.count]
}

/// A nonce or an HMAC of at most so many bytes, within the lent ones.
fn there(field: Field, longest: u16, lent: &[u8]) -> Judged<()> {
    if field.size > longest {
        return Err(Refusal(8, [0, longest.into(), field.size.into()]));
    }
    let end = field.at as u128 + u128::from(field.size);
    if end <= lent.len() as u128 {
        return Ok(());
    }
    let from_there = lent.len().saturating_sub(field.at);
    Err(Refusal(1, [field.at as u64, field.size.into(), from_there as u64]))
}

fn entries_size(given: &Handed, width: usize) -> usize {
    let size = |session: &Session| width + 2 + usize::from(session.nonce.size) + 1 + 2 + usize::from(session.hmac.size);
    looked_at(given).iter().map(size).sum()
}

fn fitting(total: usize, room: usize) -> Judged<usize> {
    if total > room { Err(Refusal(9, [0, total as u64, room as u64])) } else { Ok(total) }
}

/// The total that was written, or the refusal with its fields; a writer has no frame yet, and so no area of it.
fn tell(written: Judged<usize>, out: &mut Out) -> u32 {
    match written {
        Ok(total) => report(0, [total as u64], out),
        Err(Refusal(number, fields)) => {
            let count = if matches!(number, 1 | 6 | 8 | 9) { 3 } else { 2 };
            area::refuse(Area::None, number, fields.into_iter().take(count), out)
        }
    }
}

// ---- the layout

/// Writes one piece behind the other at the start of the room, up to the total.
struct Pen<'a> {
    room: &'a mut [u8],
    written: usize,
}

impl<'a> Pen<'a> {
    fn new(room: &'a mut [u8], total: usize) -> Self {
        Self { room: &mut room[..total], written: 0 }
    }

    fn put(&mut self, piece: &[u8]) {
        self.room[self.written..][..piece.len()].copy_from_slice(piece);
        self.written += piece.len();
    }

    fn header(&mut self, tag: u16, code: u32) {
        let size = self.room.len() as u32;
        self.put(&tag.to_be_bytes());
        self.put(&size.to_be_bytes());
        self.put(&code.to_be_bytes());
    }

    fn tpm2b(&mut self, field: Field, lent: &[u8]) {
        self.put(&field.size.to_be_bytes());
        self.put(&lent[field.at..][..field.size.into()]);
    }

    /// An entry behind its handle.
    fn entry(&mut self, session: &Session, lent: &[u8]) {
        self.tpm2b(session.nonce, lent);
        self.put(&[session.attributes]);
        self.tpm2b(session.hmac, lent);
    }

    /// How much was written: all of the total, or the layout is none.
    fn done(self) -> usize {
        assert_eq!(self.written, self.room.len(), "the rules lay out as many bytes as they count");
        self.written
    }
}

fn lay_command(tag: u16, cc: u32, given: &Handed, mut pen: Pen) -> usize {
    pen.header(tag, cc);
    pen.put(given.handles);
    if tag == SESSIONS {
        pen.put(&(entries_size(given, 4) as u32).to_be_bytes());
        for session in looked_at(given) {
            pen.put(&session.handle.to_be_bytes());
            pen.entry(session, given.lent);
        }
    }
    pen.put(given.parameters);
    pen.done()
}

fn lay_response(tag: u16, rc: u32, given: &Handed, mut pen: Pen) -> usize {
    pen.header(tag, rc);
    if rc == 0 {
        pen.put(given.handles);
        if tag == SESSIONS {
            pen.put(&(given.parameters.len() as u32).to_be_bytes());
        }
        pen.put(given.parameters);
        looked_at(given).iter().for_each(|session| pen.entry(session, given.lent));
    }
    pen.done()
}
