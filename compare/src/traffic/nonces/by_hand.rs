//! What a recording tells of sessions, from the bytes of its frames alone. A pair goes in; the sessions that the command names
//! come out, and where the response is success those that are opened, flushed and ended. What a TPM accepts is right, so
//! nothing is judged.

use super::super::Pair;
use crate::frame::known::Table;
use crate::frame::make::SESSIONS;

const FLUSH_CONTEXT: u32 = 0x165;
const START_AUTH_SESSION: u32 = 0x176;

/// The attribute of a session that goes on behind the command.
const CONTINUES: u8 = 1;

/// An entry of a command, and the nonce at the same position of the response, where that is success.
pub struct Entry<'a> {
    pub handle: u32,
    attributes: u8,
    nonce: Option<&'a [u8]>,
}

impl Entry<'_> {
    /// Whether it names a session, and not a password.
    pub fn is_session(&self) -> bool {
        is_session(self.handle)
    }
}

fn is_session(handle: u32) -> bool {
    matches!(handle >> 24, 2 | 3)
}

#[derive(Default)]
pub struct Read<'a> {
    pub named: Vec<Entry<'a>>,
    pub succeeds: bool,
    /// The session that is opened, with its first nonce.
    pub opened: Option<(u32, &'a [u8])>,
    flushed: Option<u32>,
}

impl Read<'_> {
    pub fn flushes_a_session(&self) -> bool {
        self.flushed.is_some_and(is_session)
    }

    /// Whether this session is flushed, by its own handle or by the other that has its last three bytes.
    pub fn flushes(&self, handle: u32) -> bool {
        self.flushed.is_some_and(|flushed| is_session(flushed) && flushed << 8 == handle << 8)
    }

    /// Whether a session is used for the last time.
    pub fn ends(&self, handle: u32) -> bool {
        self.succeeds && self.named.iter().any(|entry| entry.handle == handle && entry.attributes & CONTINUES == 0)
    }
}

/// The nonce of a session behind the last of these pairs: that of the last success that names it, or its first.
pub fn last_nonce<'a>(pairs: &[Read<'a>], handle: u32) -> Option<&'a [u8]> {
    pairs.iter().rev().find_map(|pair| {
        let moved = pair.named.iter().find(|entry| entry.handle == handle).and_then(|entry| entry.nonce);
        let opened = pair.opened.filter(|(opened, _)| *opened == handle).map(|(_, nonce)| nonce);
        moved.or(opened)
    })
}

/// Nothing of a command that is damaged, or that the table lacks.
pub fn read(table: Table, (command, response): &Pair) -> Read<'_> {
    read_pair(table, command, response).unwrap_or_default()
}

fn read_pair<'a>(table: Table, command: &'a [u8], response: &'a [u8]) -> Option<Read<'a>> {
    let mut rest = Bytes(command);
    let (tag, _size, code) = (rest.number(2)?, rest.number(4)?, rest.number(4)?);
    let row = table.row(code)?;
    rest.take(4 * row.handles)?;
    let size = if tag == SESSIONS.into() { rest.number(4)? } else { 0 };
    let (mut area, mut named) = (Bytes(rest.take(size as usize)?), Vec::new());
    while !area.0.is_empty() {
        let (handle, _nonce) = (area.number(4)?, area.tpm2b()?);
        let (attributes, _hmac) = (area.take(1)?[0], area.tpm2b()?);
        named.push(Entry { handle, attributes, nonce: None });
    }
    let Some(Answer { handle, nonces, mut parameters }) = answer(response, row.responses) else {
        return Some(Read { named, ..Read::default() });
    };
    named.iter_mut().zip(nonces).for_each(|(entry, nonce)| entry.nonce = Some(nonce));
    let opened = if code == START_AUTH_SESSION { Some((handle?, parameters.tpm2b()?)) } else { None };
    let flushed = if code == FLUSH_CONTEXT { rest.number(4) } else { None };
    Some(Read { named, succeeds: true, opened, flushed })
}

/// A success: its handle if it has one, the nonces of its entries, and its parameters.
struct Answer<'a> {
    handle: Option<u32>,
    nonces: Vec<&'a [u8]>,
    parameters: Bytes<'a>,
}

fn answer(response: &[u8], handles: usize) -> Option<Answer<'_>> {
    let mut rest = Bytes(response);
    let (tag, _size, code) = (rest.number(2)?, rest.number(4)?, rest.number(4)?);
    if code != 0 {
        return None;
    }
    let handle = if handles > 0 { Some(rest.number(4)?) } else { None };
    let size = if tag == SESSIONS.into() { rest.number(4)? as usize } else { rest.0.len() };
    let (parameters, mut nonces) = (Bytes(rest.take(size)?), Vec::new());
    while !rest.0.is_empty() {
        let (nonce, _attributes, _hmac) = (rest.tpm2b()?, rest.take(1)?, rest.tpm2b()?);
        nonces.push(nonce);
    }
    Some(Answer { handle, nonces, parameters })
}

/// Bytes that are taken from their start on.
struct Bytes<'a>(&'a [u8]);

impl<'a> Bytes<'a> {
    fn take(&mut self, count: usize) -> Option<&'a [u8]> {
        let (taken, rest) = self.0.split_at_checked(count)?;
        self.0 = rest;
        Some(taken)
    }

    fn number(&mut self, width: usize) -> Option<u32> {
        Some(self.take(width)?.iter().fold(0, |n, &byte| n << 8 | u32::from(byte)))
    }

    fn tpm2b(&mut self) -> Option<&'a [u8]> {
        let size = self.number(2)?;
        self.take(size as usize)
    }
}
