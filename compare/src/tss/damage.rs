//! Damaged commands, made of one with sessions that passes in the Rust reading.

use crate::calls::{self, Field, Frame, Handed, RUST, Sessions, Span};
use crate::frame::make::{self, SESSIONS};
use crate::random::Random;

/// The parts of a command that passes and has sessions.
pub fn with_sessions(command: &[u8]) -> Option<Frame> {
    let parts = calls::command_parts(RUST, command, &mut [0; 8]);
    (parts.frame.sessions.count > 0).then_some(parts.frame)
}

pub fn each(command: &[u8], frame: &Frame, random: &mut Random, mut ask: impl FnMut(&[u8])) {
    let auth = frame.auth;
    bytes(command, auth, random, &mut ask);
    headers(command, random, &mut ask);
    cuts(command, auth, &mut ask);
    lies(command, &frame.sessions, &mut ask);
    other_lengths(command, frame, random, &mut ask);
    more_entries(command, auth, random, &mut ask);
}

/// Each byte before the parameters changed: a bit of it, and to anything.
fn bytes(command: &[u8], auth: Span, random: &mut Random, ask: &mut impl FnMut(&[u8])) {
    let mut bytes = command.to_vec();
    for at in 0..auth.to {
        for value in [command[at] ^ 1 << (random.byte() % 8), random.byte()] {
            bytes[at] = value;
            ask(&bytes);
        }
        bytes[at] = command[at];
    }
}

/// Other tags and codes, and sizes around the right one.
fn headers(command: &[u8], random: &mut Random, ask: &mut impl FnMut(&[u8])) {
    let [tag, code] = [random.number(), random.number()];
    for tag in [0, 0x00C4, 0x8000, make::PLAIN, 0x8003, tag as u16] {
        ask(&with(command, 0, &tag.to_be_bytes()));
    }
    for code in [0, 0x11E, 0x144, 0x197, 0x11F + code as u32 % 0x84, code as u32] {
        ask(&with(command, 6, &code.to_be_bytes()));
    }
    for size in [0, command.len() - 1, command.len() + 1, 1 << 31] {
        ask(&with(command, 2, &(size as u32).to_be_bytes()));
    }
    ask(&[command, &[0]].concat());
}

/// The area cut at every length, with sizes that are right then; the parameters follow it, or nothing does.
fn cuts(command: &[u8], auth: Span, ask: &mut impl FnMut(&[u8])) {
    for to in auth.from..auth.to {
        ask(&with_area(command, auth, &command[auth.from..to]));
        let cut = with(&command[..to], auth.from - 4, &((to - auth.from) as u32).to_be_bytes());
        ask(&make::sized(cut));
        ask(&command[..to]);
    }
}

/// Each length of a nonce or an HMAC told otherwise.
fn lies(command: &[u8], sessions: &Sessions, ask: &mut impl FnMut(&[u8])) {
    for field in sessions.three[..sessions.count].iter().flat_map(|session| [session.nonce, session.hmac]) {
        for length in [0, field.size.wrapping_sub(1), field.size + 1, 63, 64, 65, 66, 255, 256, u16::MAX] {
            ask(&with(command, field.at - 2, &length.to_be_bytes()));
        }
    }
}

/// Each nonce and HMAC in turn with as many bytes: the library writes such a command from its parts.
fn other_lengths(command: &[u8], frame: &Frame, random: &mut Random, ask: &mut impl FnMut(&[u8])) {
    let lent = [command, &random.bytes(300)].concat();
    for (which, length) in (0..2 * frame.sessions.count).flat_map(|which| LENGTHS.map(|length| (which, length))) {
        let mut sessions = frame.sessions;
        let session = &mut sessions.three[which / 2];
        let field = if which % 2 == 0 { &mut session.nonce } else { &mut session.hmac };
        *field = Field { at: command.len(), size: length };
        let (handles, parameters) = (part(command, frame.handles), part(command, frame.parameters));
        let given = Handed { handles, sessions, lent: &lent, parameters };
        let (mut room, mut out) = (vec![0; lent.len()], [0; 8]);
        let refused = calls::command_write(RUST, SESSIONS, frame.code, given, &mut room, &mut out);
        assert_eq!(refused, 0, "the parts of a command make one");
        ask(&room[..out[0] as usize]);
    }
}

const LENGTHS: [u16; 9] = [0, 1, 63, 64, 65, 66, 128, 256, 300];

/// The entries twice, and with stray bytes behind them.
fn more_entries(command: &[u8], auth: Span, random: &mut Random, ask: &mut impl FnMut(&[u8])) {
    let area = part(command, auth);
    let (twice, mut stray) = (area.repeat(2), area.to_vec());
    ask(&with_area(command, auth, &twice));
    ask(&with_area(command, auth, &area.repeat(4)));
    for _ in 0..12 {
        stray.push(if random.byte() % 4 == 0 { random.byte() } else { 0 });
        ask(&with_area(command, auth, &stray));
    }
}

fn part(s: &[u8], span: Span) -> &[u8] {
    &s[span.from..span.to]
}

/// The command with other bytes at a place.
fn with(command: &[u8], at: usize, bytes: &[u8]) -> Vec<u8> {
    let mut changed = command.to_vec();
    changed[at..][..bytes.len()].copy_from_slice(bytes);
    changed
}

/// The command with another area, and the sizes that it has then.
fn with_area(command: &[u8], auth: Span, area: &[u8]) -> Vec<u8> {
    let size = (area.len() as u32).to_be_bytes();
    make::sized([&command[..auth.from - 4], &size, area, &command[auth.to..]].concat())
}
