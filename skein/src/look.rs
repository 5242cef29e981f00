//! What a frame is: the judgement of the library, and the parts of a frame that passes, each with its place and its meaning.

use crate::text::{count, in_full};
use skeinloft::{
    Area, Areas, Reading, Refusal, ResponseParts, Revision, Rules, Sessions, TpmCc, TpmCommand, TpmRc, TpmResponse,
    TpmRh, TpmSt, TpmsAuth,
};
use std::borrow::Cow;
use std::ops::Range;

/// What a frame is to be taken for.
#[derive(Clone, Copy, Debug, PartialEq, Eq)]
pub enum Role {
    Command,
    /// The answer to a command; none where that has no code.
    Answer(Option<TpmCc>),
    /// A frame of which nothing is known: a command where its tag and its code may be one's, else a response.
    Alone,
}

/// A frame that was looked at.
pub struct Seen<'a> {
    pub bytes: &'a [u8],
    /// The table of commands that it was looked at by.
    pub revision: Revision,
    pub kind: Kind,
    /// The name of the command, or of the response code.
    pub name: Option<String>,
    /// What had to be assumed, in words.
    pub assumed: Option<Cow<'static, str>>,
    /// What else there is to say of it.
    pub notes: Vec<Note>,
    /// Its parts in their order, or why it is refused.
    pub verdict: Result<Vec<Part>, Refusal>,
}

/// Something to say: what it is, and its words.
pub type Note = (&'static str, Cow<'static, str>);

#[derive(Clone, Copy, Debug, PartialEq, Eq)]
pub enum Kind {
    Command,
    /// A response, to the command of this code.
    Answer(TpmCc),
    /// A response to a command that is not known: its header alone is judged.
    Response,
    /// The same under the tag of the answer to a bad tag, which is judged whole: it answers every command alike.
    AnyAnswer,
}

/// A part of a frame.
pub struct Part {
    pub name: &'static str,
    pub at: Range<usize>,
    /// What the bytes say, where that is more than themselves.
    pub meaning: String,
    pub inside: Inside,
}

/// What a part is made of.
pub enum Inside {
    Bytes,
    /// Parts of one kind, which are counted from 1.
    List(Vec<Part>),
    /// Parts of different kinds.
    Fields(Vec<Part>),
}

/// The bytes of a header.
const HEADER: usize = 10;

const ALONE_COMMAND: &str = "a command, since it stands alone";
const ALONE_RESPONSE: &str = "a response, since it stands alone and its code is no command's; \
                              its command is not known (--answers-to), so only its header is judged";
const ALONE_TAG: &str = "a response, since no command has its tag; which command it answers makes no difference";
const NO_COMMAND: &str = "a response to a command that is not known, since that has no code; only its header is judged";
const NO_COMMAND_TAG: &str =
    "a response to a command that is not known, since that has no code; which one makes no difference";

/// What a TPM answers to a command whose tag it does not understand (Part 2, TPM_ST).
const BAD_TAG: [u8; 10] = [0x00, 0xC4, 0, 0, 0, 10, 0, 0, 0, 0x1E];
const BAD_TAG_PASSES: &str =
    "the TPM's answer to a command whose tag it did not understand; it passes in the standard reading alone";
const BAD_TAG_REFUSED: &str = "the TPM's answer to a command whose tag it did not understand";
const BAD_TAG_ADVICE: &str = "the command before it reached the TPM mangled: look at that command's first two bytes as they \
                              were sent (8001 or 8002 is right) and at the link; the TPM is fine and needs no reset";
const BAD_TAG_HINT: &str = "the standard reading knows this answer: --reading standard";

/// Of a frame with a long nonce or HMAC, where the rust reading passes it and where it does not.
const WRITTEN_LONG: &str = "all else of its entries fits, so it was most likely written so: look at what wrote it, and keep it \
                            from software that copies nonces and HMACs to 64 bytes";
const MANGLED: &str = "its entries fit in neither reading, so it was most likely mangled: look at its bytes as they were sent \
                       and at the link";

/// Looks at a frame.
pub fn look(rules: Rules, bytes: &[u8], role: Role) -> Seen<'_> {
    let mut seen = take(rules, bytes, role);
    let more = match &seen.verdict {
        &Err(Refusal::TooManyBytes { offset, limit, actual, .. }) => {
            long_field(&seen, offset, limit, actual).unwrap_or_default()
        }
        Err(refusal) => hint(refusal),
        Ok(_) => Vec::new(),
    };
    seen.notes.extend(more);
    seen
}

/// Of a command code that is not in the table: which tables have it.
fn hint(refusal: &Refusal) -> Vec<Note> {
    other_tables(refusal).map(|words| ("hint", words.into())).into_iter().collect()
}

/// A table in words.
pub fn table(revision: Revision) -> String {
    match revision {
        Revision::Crate => "the crate's table".to_owned(),
        _ => format!("the table of revision {revision}"),
    }
}

/// The tables that have a command code which is refused by another, and how to name them.
pub fn other_tables(refusal: &Refusal) -> Option<String> {
    let &Refusal::InvalidCc { value, .. } = refusal else { return None };
    let cc = TpmCc(u32::try_from(value).ok()?);
    let all: Vec<Revision> = Revision::ALL.into_iter().filter(|revision| revision.has(cc)).collect();
    let listed = |of: fn(Revision) -> String, between| all.iter().map(|&it| of(it)).collect::<Vec<_>>().join(between);
    let have = if all.len() == 1 { "has" } else { "have" };
    let said = || format!("{} {have} {cc}: --revision {}", listed(table, " and "), listed(|it| it.to_string(), " or "));
    (!all.is_empty()).then(said)
}

/// Takes a frame for what it is to be.
fn take(rules: Rules, bytes: &[u8], role: Role) -> Seen<'_> {
    let tag = bytes.first_chunk().map(|&field| TpmSt(u16::from_be_bytes(field)));
    match role {
        Role::Command => command(rules, bytes),
        Role::Answer(Some(cc)) => answer(rules, bytes, cc),
        Role::Answer(None) if tag == Some(TpmSt::RspCommand) => any_answer(rules, bytes, NO_COMMAND_TAG),
        Role::Answer(None) => response(rules, bytes, NO_COMMAND),
        Role::Alone if tag == Some(TpmSt::RspCommand) => any_answer(rules, bytes, ALONE_TAG),
        Role::Alone => {
            let seen = command(rules, bytes);
            match seen.verdict {
                Err(refusal @ Refusal::InvalidCc { .. }) => {
                    Seen { notes: hint(&refusal), ..response(rules, bytes, ALONE_RESPONSE) }
                }
                _ => Seen { assumed: Some(alone_command(rules, bytes)), ..seen },
            }
        }
    }
}

/// Some codes are a command's and an error's: then what else it may be is named.
fn alone_command(rules: Rules, bytes: &[u8]) -> Cow<'static, str> {
    // which command an error answers makes no difference
    match TpmResponse::cast(rules, bytes).and_then(|response| response.parts(TpmCc::Startup)) {
        Ok(ResponseParts { rc, .. }) if rc != TpmRc::SUCCESS => {
            format!("{ALONE_COMMAND}; as an answer (--answers-to) it would be the error {rc}").into()
        }
        _ => ALONE_COMMAND.into(),
    }
}

/// The code field, where there is one.
pub fn code(bytes: &[u8]) -> Option<u32> {
    Some(u32::from_be_bytes(*bytes.get(6..)?.first_chunk()?))
}

fn command(rules: Rules, bytes: &[u8]) -> Seen<'_> {
    let name = code(bytes).and_then(|code| TpmCc(code).name()).map(str::to_owned);
    let (revision, kind, verdict) = (rules.revision, Kind::Command, command_parts(rules, bytes));
    Seen { bytes, revision, kind, name, assumed: None, notes: Vec::new(), verdict }
}

fn command_parts(rules: Rules, bytes: &[u8]) -> Result<Vec<Part>, Refusal> {
    let command = TpmCommand::cast(rules, bytes)?;
    let (all, areas) = (command.parts()?, command.areas()?);
    let Areas { handles, auth_area, parameters, .. } = areas;
    let mut parts = header(all.tag, bytes.len(), all.cc.to_string());
    parts.push(handle_area(bytes, handles.clone()));
    if all.tag == TpmSt::Sessions {
        parts.push(size("authorization size", handles.end, auth_area.len()));
        parts.push(authorization(bytes, auth_area, &all.sessions));
    }
    parts.push(plain("parameters", parameters));
    Ok(parts)
}

/// A response of some kind, with the name of its code where that reads, and what there is to say of it.
fn any_response(rules: Rules, bytes: &[u8], kind: Kind, verdict: Result<Vec<Part>, Refusal>) -> Seen<'_> {
    let name = code(bytes).and_then(|code| TpmRc::try_from(code).ok()).map(|rc| rc.to_string());
    let notes = match (rules.reading, &verdict) {
        _ if bytes != BAD_TAG => Vec::new(),
        (Reading::Standard, Ok(_)) => vec![("meaning", BAD_TAG_PASSES.into()), ("advice", BAD_TAG_ADVICE.into())],
        // the command has no row
        (Reading::Standard, Err(_)) => vec![("meaning", BAD_TAG_REFUSED.into()), ("advice", BAD_TAG_ADVICE.into())],
        (Reading::Rust, _) => vec![("hint", BAD_TAG_HINT.into())],
    };
    Seen { bytes, revision: rules.revision, kind, name, assumed: None, notes, verdict }
}

fn answer(rules: Rules, bytes: &[u8], cc: TpmCc) -> Seen<'_> {
    any_response(rules, bytes, Kind::Answer(cc), answer_parts(rules, bytes, cc))
}

/// A response that answers one command as it does any other.
fn any_answer<'a>(rules: Rules, bytes: &'a [u8], assumed: &'static str) -> Seen<'a> {
    let verdict = answer_parts(rules, bytes, TpmCc::Startup);
    Seen { assumed: Some(assumed.into()), ..any_response(rules, bytes, Kind::AnyAnswer, verdict) }
}

fn answer_parts(rules: Rules, bytes: &[u8], cc: TpmCc) -> Result<Vec<Part>, Refusal> {
    let response = TpmResponse::cast(rules, bytes)?;
    let (all, areas, tag) = (response.parts(cc)?, response.areas(cc)?, response.tag()?);
    let Areas { handles, auth_area, parameters, .. } = areas;
    let mut parts = header(tag, bytes.len(), all.rc.to_string());
    if all.rc != TpmRc::SUCCESS {
        return Ok(parts);
    }
    parts.push(handle_area(bytes, handles.clone()));
    if tag == TpmSt::Sessions {
        parts.push(size("parameter size", handles.end, parameters.len()));
    }
    parts.push(plain("parameters", parameters));
    if tag == TpmSt::Sessions {
        parts.push(authorization(bytes, auth_area, &all.sessions));
    }
    Ok(parts)
}

/// A response of which the header alone is judged.
fn response<'a>(rules: Rules, bytes: &'a [u8], assumed: &'static str) -> Seen<'a> {
    let parts = || {
        let response = TpmResponse::cast(rules, bytes)?;
        let mut parts = header(response.tag()?, bytes.len(), response.rc()?.to_string());
        parts.push(plain("body", HEADER..bytes.len()));
        Ok(parts)
    };
    Seen { assumed: Some(assumed.into()), ..any_response(rules, bytes, Kind::Response, parts()) }
}

/// What there is to say of a long nonce or HMAC, by the place of its size: which one it is, what to do, and what the rust
/// reading says of the frame.
fn long_field(seen: &Seen, offset: usize, limit: usize, actual: usize) -> Option<Vec<Note>> {
    let field = field_at(seen, offset)?;
    let meaning = format!(
        "the {field} is longer than any digest: its size at byte {offset} says {}, and the limit is {limit}",
        count(actual, "byte")
    );
    let (advice, there) = match sessions(Rules::RUST.at(seen.revision), seen.bytes, seen.kind) {
        Ok(_) => (WRITTEN_LONG, "passes".to_owned()),
        Err(refusal) => (MANGLED, format!("is refused for something else, {}", in_full(&refusal))),
    };
    let hint = format!("the rust reading has no such limit: with --reading rust the frame {there}");
    Some(vec![("meaning", meaning.into()), ("advice", advice.into()), ("hint", hint.into())])
}

/// Where the area is that a frame is refused in, as far as the frame divides: else it goes to the end of the bytes. The code of
/// the command that a frame answers is in no area of this frame.
pub fn refused_in(seen: &Seen, refusal: &Refusal) -> Option<Range<usize>> {
    let (bytes, len) = (seen.bytes, seen.bytes.len());
    match refusal.area() {
        Area::None => None,
        Area::Header if is_of_command(seen, refusal) => None,
        Area::Header => Some(0..len.min(HEADER)),
        // they are short
        Area::Handles => Some(HEADER..len),
        area => {
            // behind the handles there is a size, and what it sizes: entries in a command, parameters in a response
            let from = handles_end(seen)?;
            let size = bytes[from..].first_chunk().map(|&field| u32::from_be_bytes(field));
            let end = size.map(|size| from + 4 + size as usize).filter(|&end| end <= len).unwrap_or(len);
            let sized = if seen.kind == Kind::Command { Area::Authorization } else { Area::Parameters };
            Some(if area == sized { from..end } else { end..len })
        }
    }
}

/// Tells whether it is the code of the command that a frame answers which is refused.
pub fn is_of_command(seen: &Seen, refusal: &Refusal) -> bool {
    matches!((seen.kind, refusal), (Kind::Answer(_), Refusal::InvalidCc { .. }))
}

/// Where the handles of a frame end: under the plain tag nothing is divided behind them.
fn handles_end(seen: &Seen) -> Option<usize> {
    let (rules, mut plain) = (Rules::STANDARD.at(seen.revision), seen.bytes.to_vec());
    plain[..2].copy_from_slice(&TpmSt::NoSessions.value().to_be_bytes());
    let areas = match seen.kind {
        Kind::Answer(cc) => TpmResponse::cast(rules, &plain).and_then(|response| response.areas(cc)),
        _ => TpmCommand::cast(rules, &plain).and_then(|command| command.areas()),
    };
    areas.ok().map(|areas| areas.handles.end)
}

/// Which nonce or HMAC has its size at a place. The frame passes that ends behind an empty one in its stead: behind an HMAC at
/// once, and behind a nonce with an attribute byte and an empty HMAC.
fn field_at(seen: &Seen, offset: usize) -> Option<String> {
    let (bytes, kind) = (seen.bytes, seen.kind);
    let [rust, standard] = [Rules::RUST, Rules::STANDARD].map(|rules| rules.at(seen.revision));
    [("HMAC", 2), ("nonce", 5)].into_iter().find_map(|(name, zeros)| {
        let mut ended = bytes[..offset].to_vec();
        ended.resize(offset + zeros, 0);
        let len = ended.len();
        ended[2..6].copy_from_slice(&(len as u32).to_be_bytes());
        if kind == Kind::Command {
            // their size is before the entries
            let from = place(bytes, TpmCommand::cast(rust, bytes).ok()?.auth_area().ok()?).start;
            ended[from - 4..from].copy_from_slice(&((len - from) as u32).to_be_bytes());
        }
        let sessions = sessions(standard, &ended, kind).ok()?;
        let is_password = |entry: TpmsAuth| name == "HMAC" && TpmRh(entry.session_handle) == TpmRh::Pw;
        let password = if sessions.iter().last().is_some_and(is_password) { ", a password," } else { "" };
        Some(format!("{name} of session {}{password}", sessions.len()))
    })
}

/// The sessions of a frame of this kind.
fn sessions(rules: Rules, bytes: &[u8], kind: Kind) -> Result<Sessions<'_>, Refusal> {
    match kind {
        Kind::Answer(cc) => Ok(TpmResponse::cast(rules, bytes)?.parts(cc)?.sessions),
        _ => Ok(TpmCommand::cast(rules, bytes)?.parts()?.sessions),
    }
}

fn header(tag: TpmSt, len: usize, code: String) -> Vec<Part> {
    vec![says("tag", 0..2, tag.to_string()), size("size", 2, len), says("code", 6..10, code)]
}

pub fn plain(name: &'static str, at: Range<usize>) -> Part {
    says(name, at, String::new())
}

fn says(name: &'static str, at: Range<usize>, meaning: String) -> Part {
    Part { name, at, meaning, inside: Inside::Bytes }
}

/// A size of four bytes at a place.
fn size(name: &'static str, at: usize, bytes: usize) -> Part {
    says(name, at..at + 4, count(bytes, "byte"))
}

fn handle_area(bytes: &[u8], at: Range<usize>) -> Part {
    let one = |from: usize| {
        let handle = bytes[from..].first_chunk().map_or(0, |field| u32::from_be_bytes(*field));
        says("handle", from..from + 4, handle_name(handle))
    };
    let inside = Inside::List(at.clone().step_by(4).map(one).collect());
    Part { name: "handles", at, meaning: String::new(), inside }
}

/// The name of a permanent handle, and the kind of any other by its first byte (Part 2, TPM_HT).
pub fn handle_name(handle: u32) -> String {
    let kind = match handle >> 24 {
        0x00 => return format!("PCR {handle}"),
        0x01 => "NV index",
        0x02 => "HMAC or loaded session",
        0x03 => "policy or saved session",
        0x40 => TpmRh(handle).name().unwrap_or("permanent handle"),
        0x80 => "transient object",
        0x81 => "persistent object",
        0x90 => "attached component",
        _ => "handle of no known kind",
    };
    kind.to_owned()
}

fn authorization(bytes: &[u8], at: Range<usize>, sessions: &Sessions) -> Part {
    let mut from = at.start;
    // an entry of a command starts with its handle, one of a response with the size of its nonce
    let one = |entry| {
        let part = session(bytes, from, &entry);
        from = part.at.end;
        part
    };
    let inside = Inside::List(sessions.iter().map(one).collect());
    Part { name: "authorization", at, meaning: String::new(), inside }
}

fn session(bytes: &[u8], from: usize, entry: &TpmsAuth) -> Part {
    let (nonce, hmac) = (place(bytes, entry.nonce), place(bytes, entry.hmac));
    let mut fields = Vec::new();
    // before the nonce is its size
    if nonce.start > from + 2 {
        fields.push(says("handle", from..from + 4, handle_name(entry.session_handle)));
    }
    let (attributes, end) = (nonce.end..nonce.end + 1, hmac.end);
    fields.push(plain("nonce", nonce));
    fields.push(says("attributes", attributes, entry.session_attributes.to_string()));
    fields.push(plain("HMAC", hmac));
    Part { name: "session", at: from..end, meaning: String::new(), inside: Inside::Fields(fields) }
}

/// Where a part of the bytes stands in them.
fn place(bytes: &[u8], part: &[u8]) -> Range<usize> {
    let from = part.as_ptr().addr() - bytes.as_ptr().addr();
    from..from + part.len()
}
