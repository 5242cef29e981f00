//! The sessions of a recording: what each command and its answer do to them. The nonces are those of the library's keeper.
//! What opens a session and what ends it is said by the commands that are named here (Part 3), and by TPMA_SESSION (Part 2).

use crate::input::Place;
use crate::look::code;
use skeinloft::{
    CommandParts, Keeper, Refusal, ResponseParts, Revision, Rules, Tpm2b, TpmCc, TpmCommand, TpmRc, TpmResponse, TpmRh,
    TpmaSession,
};
use std::borrow::Cow;

/// Something that came of a pair.
#[derive(Debug, PartialEq, Eq)]
pub enum Event {
    /// What a session does, and the nonce that it has then.
    Session { handle: u32, does: Does, nonce: Option<Vec<u8>>, why: Option<Why> },
    /// What is refused: the command, the answer, both together, or a session that opens or its nonce.
    Refused { what: &'static str, refusal: Refusal, why: Option<Why> },
}

/// Why, or what else there is to say.
pub type Why = Cow<'static, str>;

#[derive(Clone, Copy, Debug, PartialEq, Eq)]
pub enum Does {
    Open,
    Move,
    Stay,
    Close,
    /// Nothing, since it is not open.
    Pass,
}

const NOT_CONTINUED: Why = Cow::Borrowed("the command does not continue it");
const FLUSHED: Why = Cow::Borrowed("it is flushed");
const LOST: Why = Cow::Borrowed("the TPM starts anew");
const ANEW: Why = Cow::Borrowed("the TPM gives its number to a new session, so its end is not in the recording");
const UNKNOWN: Why = Cow::Borrowed("it is not open, as far as this recording tells");
const ENCRYPTED: Why = Cow::Borrowed("the answer has it encrypted, and its own is not known before it moves");
const MISSED: Why = Cow::Borrowed("the answer is not taken, and a nonce may be missed here");
const CARRIED_OUT: Why = Cow::Borrowed("the TPM carried it out, and nonces may be missed here");

/// TPM_SU_STATE, the parameter of TPM2_Shutdown and TPM2_Startup by which a TPM keeps its state.
const STATE: [u8; 2] = [0, 1];

#[derive(Default)]
pub struct Sessions {
    /// The table that frames are read by.
    revision: Revision,
    keeper: Keeper,
    /// Those that the keeper has open, in the order in which they were opened.
    open: Vec<Open>,
    /// The last TPM2_Shutdown was for TPM_SU_STATE.
    state_kept: bool,
}

struct Open {
    handle: u32,
    /// Where its nonce is from.
    since: Place,
    /// Its context is saved, and not in the TPM.
    saved: bool,
}

impl Sessions {
    /// None yet, and frames are read by this table.
    pub fn at(revision: Revision) -> Self {
        Self { revision, ..Self::default() }
    }

    /// Takes a command and its answer, and tells what came of them.
    pub fn pair(&mut self, place: Place, command: &[u8], answer: &[u8]) -> Vec<Event> {
        let rules = Rules::STANDARD.at(self.revision);
        let taken = self.keeper.answer(self.revision, command, answer);
        let read = TpmCommand::cast(rules, command).and_then(|command| command.parts());
        let given = read.and_then(|parts| TpmResponse::cast(rules, answer)?.parts(parts.cc));
        match (taken, read, given) {
            (Err(refusal), Err(_), _) => vec![refused("command", refusal, succeeds(answer).then_some(CARRIED_OUT))],
            (Err(refusal), Ok(read), given) => {
                let mut events = vec![refused(if given.is_err() { "answer" } else { "pair" }, refusal, None)];
                self.stay(&read, &MISSED, &mut events);
                events
            }
            (Ok(()), Ok(read), Ok(given)) if given.rc == TpmRc::SUCCESS => self.success(place, &read, &given),
            (Ok(()), Ok(read), Ok(given)) => {
                let mut events = Vec::new();
                self.stay(&read, &format!("the answer is {}", given.rc).into(), &mut events);
                events
            }
            // the keeper takes what passes, and nothing else
            (Ok(()), ..) => Vec::new(),
        }
    }

    /// Those that are open: each with its nonce, and where that is from.
    pub fn open(&self) -> impl Iterator<Item = (u32, &[u8], Place)> {
        self.open.iter().map(|open| (open.handle, self.keeper.nonce(open.handle).unwrap_or_default(), open.since))
    }

    /// The open sessions that a command names have the nonces that they had.
    fn stay(&self, command: &CommandParts, why: &Why, events: &mut Vec<Event>) {
        for handle in named(command) {
            if let Ok(nonce) = self.keeper.nonce(handle) {
                events.push(session(handle, Does::Stay, Some(nonce), Some(why.clone())));
            }
        }
    }

    fn success(&mut self, place: Place, command: &CommandParts, answer: &ResponseParts) -> Vec<Event> {
        let mut events = self.moves(place, command);
        for entry in command.sessions.iter() {
            if !entry.session_attributes.contains(TpmaSession::CONTINUE_SESSION) {
                self.close(entry.session_handle, NOT_CONTINUED, &mut events);
            }
        }
        match command.cc {
            TpmCc::StartAuthSession => self.start(place, answer, &mut events),
            TpmCc::FlushContext => self.flush(command, &mut events),
            TpmCc::ContextSave => self.set_saved(command.handles, true),
            TpmCc::ContextLoad => self.set_saved(answer.handles, false),
            TpmCc::Shutdown => self.state_kept = command.parameters == STATE,
            TpmCc::Startup => self.startup(command, &mut events),
            _ => {}
        }
        events
    }

    /// What the keeper has now for each session that a command names.
    fn moves(&mut self, place: Place, command: &CommandParts) -> Vec<Event> {
        let mut events = Vec::new();
        for handle in named(command) {
            if let Some(open) = self.open.iter_mut().find(|open| open.handle == handle) {
                open.since = place;
            }
            events.push(match self.keeper.nonce(handle) {
                Ok(nonce) => session(handle, Does::Move, Some(nonce), None),
                Err(_) => session(handle, Does::Pass, None, Some(UNKNOWN)),
            });
        }
        events
    }

    /// A new session. A TPM gives a number to one session at a time, whatever its kind: one that has it here is gone.
    fn start(&mut self, place: Place, answer: &ResponseParts, events: &mut Vec<Event>) {
        let Some(handle) = first_handle(answer.handles) else { return };
        let nonce = match Tpm2b::<{ u16::MAX as usize }>::cast(answer.parameters) {
            Ok(nonce) => nonce.data(),
            Err(refusal) => return events.push(refused("nonce", refusal, None)),
        };
        if let Some(other) = self.of_number(handle).filter(|&other| other != handle) {
            self.close(other, ANEW, events);
        }
        let mut opened = self.keeper.open(handle, nonce);
        if let Err(refusal @ Refusal::AlreadyOpen) = opened {
            events.push(refused("session", refusal, None));
            self.close(handle, ANEW, events);
            opened = self.keeper.open(handle, nonce);
        }
        match opened {
            Ok(()) => {
                let encrypted =
                    answer.sessions.iter().any(|entry| entry.session_attributes.contains(TpmaSession::ENCRYPT));
                events.push(session(handle, Does::Open, Some(nonce), encrypted.then_some(ENCRYPTED)));
                self.open.push(Open { handle, since: place, saved: false });
            }
            Err(refusal) => events.push(refused("session", refusal, None)),
        }
    }

    /// A session that is saved can be flushed by a handle of either kind: its number tells which it is.
    fn flush(&mut self, command: &CommandParts, events: &mut Vec<Event>) {
        let flushed = first_handle(command.parameters).filter(|&handle| kind(handle).is_some());
        let Some(handle) = flushed else { return };
        match self.of_number(handle) {
            Some(open) => self.close(open, FLUSHED, events),
            None => events.push(session(handle, Does::Pass, None, Some(UNKNOWN))),
        }
    }

    /// A session's context is saved or loaded, with its nonce.
    fn set_saved(&mut self, handles: &[u8], saved: bool) {
        let handle = first_handle(handles);
        if let Some(open) = self.open.iter_mut().find(|open| Some(open.handle) == handle) {
            open.saved = saved;
        }
    }

    /// The sessions that are in the TPM are lost; those that are saved too, but where it kept its state.
    fn startup(&mut self, command: &CommandParts, events: &mut Vec<Event>) {
        let kept = self.state_kept || command.parameters == STATE;
        self.state_kept = false;
        let lost: Vec<u32> = self.open.iter().filter(|open| !(kept && open.saved)).map(|open| open.handle).collect();
        lost.into_iter().for_each(|handle| self.close(handle, LOST, events));
    }

    fn close(&mut self, handle: u32, why: Why, events: &mut Vec<Event>) {
        if self.keeper.close(handle).is_ok() {
            self.open.retain(|open| open.handle != handle);
            events.push(session(handle, Does::Close, None, Some(why)));
        }
    }

    /// The open session that has the number of this one.
    fn of_number(&self, handle: u32) -> Option<u32> {
        let number = |handle| handle & 0x00FF_FFFF;
        self.open.iter().map(|open| open.handle).find(|&open| number(open) == number(handle))
    }
}

/// The kind of a session, by the first byte of its handle (Part 2, TPM_HT).
pub fn kind(handle: u32) -> Option<&'static str> {
    match handle >> 24 {
        0x02 => Some("HMAC"),
        0x03 => Some("policy"),
        _ => None,
    }
}

/// The sessions that a command names, each once. A password is none.
fn named(command: &CommandParts) -> Vec<u32> {
    let mut handles = Vec::new();
    for entry in command.sessions.iter() {
        if TpmRh(entry.session_handle) != TpmRh::Pw && !handles.contains(&entry.session_handle) {
            handles.push(entry.session_handle);
        }
    }
    handles
}

fn first_handle(bytes: &[u8]) -> Option<u32> {
    bytes.first_chunk().map(|&field| u32::from_be_bytes(field))
}

/// Tells whether an answer is success with sessions, by its tag and its code.
fn succeeds(answer: &[u8]) -> bool {
    answer.starts_with(&[0x80, 0x02]) && code(answer) == Some(0)
}

fn session(handle: u32, does: Does, nonce: Option<&[u8]>, why: Option<Why>) -> Event {
    Event::Session { handle, does, nonce: nonce.map(<[u8]>::to_vec), why }
}

fn refused(what: &'static str, refusal: Refusal, why: Option<Why>) -> Event {
    Event::Refused { what, refusal, why }
}

#[cfg(test)]
mod tests {
    use super::{
        ANEW, CARRIED_OUT, Does, ENCRYPTED, Event, FLUSHED, LOST, MISSED, NOT_CONTINUED, Sessions, UNKNOWN, Why,
    };
    use crate::input::Place;
    use skeinloft::{
        Area, CommandParts, Refusal, ResponseMode, ResponseParts, Revision, Rules, TpmCc, TpmRc, TpmSt, TpmaSession,
        TpmsAuth,
    };

    const HMAC: u32 = 0x0200_0000;
    const POLICY: u32 = 0x0300_0000;
    const PASSWORD: u32 = 0x4000_0009;
    const GOES_ON: u8 = 0x01;

    /// A command and a success answer, written by the library. Its table has all commands that are written here.
    struct Pair {
        cc: TpmCc,
        handles: [u32; 2],
        parameters: Vec<u8>,
        answer_handle: Option<u32>,
        answer: Vec<u8>,
    }

    impl Pair {
        fn new(cc: TpmCc, parameters: &[u8]) -> Self {
            Self { cc, handles: [0; 2], parameters: parameters.to_vec(), answer_handle: None, answer: Vec::new() }
        }

        /// A TPM2_StartAuthSession that gives a session with this nonce.
        fn start(handle: u32, nonce: &[u8]) -> Self {
            let answer = [&(nonce.len() as u16).to_be_bytes()[..], nonce].concat();
            Self { answer_handle: Some(handle), answer, ..Self::new(TpmCc::StartAuthSession, &[]) }
        }

        fn flush(handle: u32) -> Self {
            Self::new(TpmCc::FlushContext, &handle.to_be_bytes())
        }

        /// The two frames, with entries of these handles, attributes and nonces of the answer.
        fn frames(&self, entries: &[(u32, u8, &[u8])]) -> [Vec<u8>; 2] {
            let entry = |&(session_handle, bits, nonce)| TpmsAuth {
                session_handle,
                nonce,
                session_attributes: TpmaSession::from_bits_retain(bits),
                hmac: &[],
            };
            let entries: Vec<TpmsAuth> = entries.iter().map(entry).collect();
            let (mut scratch, mut room) = ([0; 512], [0; 1024]);
            let sessions = skeinloft::Sessions::new(&entries, &mut scratch).expect("there is room");
            let tag = if entries.is_empty() { TpmSt::NoSessions } else { TpmSt::Sessions };
            let handles = self.handles.map(u32::to_be_bytes).concat();
            let handles = match self.cc {
                TpmCc::StartAuthSession | TpmCc::CertifyX509 => &handles[..],
                TpmCc::ContextSave => &handles[..4],
                _ => &[],
            };
            let revision = Revision::Lib159;
            let command = CommandParts { tag, cc: self.cc, handles, sessions, parameters: &self.parameters };
            let len = command.marshal(Rules::STANDARD.at(revision), &mut room).expect("a command");
            let first = room[..len].to_vec();
            let handles = self.answer_handle.map(u32::to_be_bytes).map_or(Vec::new(), Vec::from);
            let (mode, rc) = (ResponseMode::Standard, TpmRc::SUCCESS);
            let answer = ResponseParts { mode, revision, rc, handles: &handles, sessions, parameters: &self.answer };
            let len = answer.marshal(self.cc, &mut room).expect("an answer");
            [first, room[..len].to_vec()]
        }
    }

    fn happens(sessions: &mut Sessions, pair: &Pair, entries: &[(u32, u8, &[u8])]) -> Vec<Event> {
        let [command, answer] = pair.frames(entries);
        sessions.pair(Place::Line(1), &command, &answer)
    }

    fn random() -> Pair {
        Pair { answer: vec![0, 0], ..Pair::new(TpmCc::GetRandom, &[0, 8]) }
    }

    fn does(handle: u32, does: Does, nonce: Option<&[u8]>, why: Option<Why>) -> Event {
        super::session(handle, does, nonce, why)
    }

    /// With the sessions of these handles open.
    fn with(handles: &[u32]) -> Sessions {
        let mut sessions = Sessions::default();
        for &handle in handles {
            let due = [does(handle, Does::Open, Some(b"first"), None)];
            assert_eq!(happens(&mut sessions, &Pair::start(handle, b"first"), &[]), due);
        }
        sessions
    }

    #[test]
    fn sessions_move_and_close() {
        let mut sessions = with(&[HMAC]);
        let entries = [(PASSWORD, 0, &b""[..]), (HMAC, GOES_ON, b"next"), (POLICY, 0, b"of another")];
        let moves = does(HMAC, Does::Move, Some(b"next"), None);
        let passed = does(POLICY, Does::Pass, None, Some(UNKNOWN));
        assert_eq!(happens(&mut sessions, &random(), &entries), [moves, passed]);
        assert!(sessions.open().eq([(HMAC, &b"next"[..], Place::Line(1))]));

        let moves = does(HMAC, Does::Move, Some(b"last"), None);
        let closes = does(HMAC, Does::Close, None, Some(NOT_CONTINUED));
        assert_eq!(happens(&mut sessions, &random(), &[(HMAC, 0, b"last")]), [moves, closes]);
        assert_eq!(sessions.open().count(), 0);
    }

    #[test]
    fn a_number_tells_what_is_flushed() {
        for handle in [HMAC, POLICY] {
            let closes = does(POLICY, Does::Close, None, Some(FLUSHED));
            assert_eq!(happens(&mut with(&[POLICY]), &Pair::flush(handle), &[]), [closes]);
        }
        let mut sessions = with(&[HMAC]);
        let passed = does(POLICY + 1, Does::Pass, None, Some(UNKNOWN));
        assert_eq!(happens(&mut sessions, &Pair::flush(POLICY + 1), &[]), [passed]);
        assert_eq!(happens(&mut sessions, &Pair::flush(0x8000_0000), &[]), []);
        assert_eq!(happens(&mut sessions, &Pair::new(TpmCc::FlushContext, &[2, 0, 0]), &[]), []);
    }

    #[test]
    fn a_number_that_is_given_anew_ends_a_session() {
        let closes = || does(HMAC, Does::Close, None, Some(ANEW));
        let refused = super::refused("session", Refusal::AlreadyOpen, None);
        let opens = does(HMAC, Does::Open, Some(b"new"), None);
        let again = Pair::start(HMAC, b"new");
        assert_eq!(happens(&mut with(&[HMAC]), &again, &[]), [refused, closes(), opens]);
        let opens = does(POLICY, Does::Open, Some(b"new"), None);
        assert_eq!(happens(&mut with(&[HMAC]), &Pair::start(POLICY, b"new"), &[]), [closes(), opens]);
    }

    #[test]
    fn the_keeper_may_refuse_a_session() {
        let all: Vec<u32> = (HMAC..HMAC + 64).collect();
        let refused = |refusal| [super::refused("session", refusal, None)];
        let mut sessions = with(&all);
        assert_eq!(happens(&mut sessions, &Pair::start(HMAC + 64, b"one more"), &[]), refused(Refusal::AllOpen));
        let long = Refusal::TooManyBytes { area: Area::None, offset: 0, limit: 64, actual: 65 };
        assert_eq!(happens(&mut sessions, &Pair::start(HMAC + 64, &[7; 65]), &[]), refused(long));
        assert_eq!(sessions.open().count(), 64);

        let cut = Pair { answer: vec![0, 9, 1], ..Pair::start(HMAC, &[]) };
        let refusal = Refusal::UnexpectedEnd { area: Area::None, offset: 2, needed: 9, available: 1 };
        assert_eq!(happens(&mut with(&[]), &cut, &[]), [super::refused("nonce", refusal, None)]);
    }

    #[test]
    fn an_encrypted_nonce_is_told() {
        let entries = [(HMAC, GOES_ON | 0x40, &b"next"[..])];
        let events = happens(&mut with(&[HMAC]), &Pair::start(POLICY + 1, b"hidden"), &entries);
        let moves = does(HMAC, Does::Move, Some(b"next"), None);
        assert_eq!(events, [moves, does(POLICY + 1, Does::Open, Some(b"hidden"), Some(ENCRYPTED))]);
    }

    #[test]
    fn a_start_loses_what_is_not_saved() {
        let save = Pair { handles: [POLICY + 1, 0], ..Pair::new(TpmCc::ContextSave, &[]) };
        let load = Pair { answer_handle: Some(POLICY + 1), ..Pair::new(TpmCc::ContextLoad, &[]) };
        let shutdown = |to| Pair::new(TpmCc::Shutdown, &[0, to]);
        let startup = |from| Pair::new(TpmCc::Startup, &[0, from]);
        let lost = |handle| does(handle, Does::Close, None, Some(LOST));
        let both = || vec![lost(HMAC), lost(POLICY + 1)];
        for (before, start, due) in [
            (vec![], startup(0), both()),
            (vec![&save], startup(0), both()),
            (vec![&save, &shutdown(0)], startup(0), both()),
            (vec![&save, &shutdown(1), &shutdown(0)], startup(0), both()),
            (vec![&save, &shutdown(1)], startup(0), vec![lost(HMAC)]),
            (vec![&save, &shutdown(1)], startup(1), vec![lost(HMAC)]),
            (vec![&save, &load, &shutdown(1)], startup(1), both()),
        ] {
            let mut sessions = with(&[HMAC, POLICY + 1]);
            before.iter().for_each(|pair| assert_eq!(happens(&mut sessions, pair, &[]), []));
            assert_eq!(happens(&mut sessions, &start, &[]), due);
        }
    }

    #[test]
    fn what_is_not_read_may_be_missed() {
        let mut sessions = with(&[HMAC]);
        let [command, answer] = random().frames(&[(HMAC, GOES_ON, b"next")]);
        let [_, without] = random().frames(&[]);
        let mut said = |command: &[u8], answer: &[u8]| sessions.pair(Place::Line(1), command, answer);
        let stays = |why: Why| does(HMAC, Does::Stay, Some(b"first"), Some(why));

        let error = [0x80, 0x01, 0, 0, 0, 10, 0, 0, 0x09, 0x8E];
        assert_eq!(said(&command, &error), [stays("the answer is TPM_RC_AUTH_FAIL (session 1)".into())]);
        let cut = Refusal::UnexpectedEnd { area: Area::Header, offset: 0, needed: 10, available: 9 };
        assert_eq!(said(&command, &answer[..9]), [super::refused("answer", cut, None), stays(MISSED)]);
        let differ = super::refused("pair", Refusal::CountsDiffer, None);
        assert_eq!(said(&command, &without), [differ, stays(MISSED)]);

        // a command that is not in this table: whether the TPM did it tells the answer
        let [other, answer] = Pair::new(TpmCc::CertifyX509, &[]).frames(&[(HMAC, GOES_ON, b"next")]);
        let none = Refusal::InvalidCc { area: Area::Header, offset: 6, value: 0x197 };
        assert_eq!(said(&other, &answer), [super::refused("command", none, Some(CARRIED_OUT))]);
        assert_eq!(said(&other, &error), [super::refused("command", none, None)]);
        assert_eq!(said(&command, &answer), [does(HMAC, Does::Move, Some(b"next"), None)]);
    }

    #[test]
    fn a_table_tells_which_commands_there_are() {
        for revision in Revision::ALL {
            let mut sessions = Sessions::at(revision);
            happens(&mut sessions, &Pair::start(HMAC, b"first"), &[]);
            happens(&mut sessions, &Pair::new(TpmCc::CertifyX509, &[]), &[(HMAC, GOES_ON, b"next")]);
            let due = if revision == Revision::Lib159 { &b"next"[..] } else { b"first" };
            assert!(sessions.open().eq([(HMAC, due, Place::Line(1))]), "{revision}");
        }
    }
}
