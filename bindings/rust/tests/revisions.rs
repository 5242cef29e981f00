//! Where the three tables of commands differ: codes behind 0x193, in every call that takes a table, and nothing else.

#[allow(dead_code)]
#[path = "../src/calls.rs"]
mod calls;

use skeinloft::{
    Area, CommandParts, Keeper, Reading, Refusal, ResponseMode, ResponseParts, Revision, Rules, Sessions, TpmCc,
    TpmCommand, TpmRc, TpmRcBase, TpmResponse, TpmSt, TpmaSession, TpmsAuth,
};

const HEADER: &str = include_str!("../../../include/skeinloft.h");
const PAIRS: &str = include_str!("../../../compare/src/frame/real.txt");

/// Codes on either side of where the tables part, each with its handles, and which of the tables have it.
const CODES: [(TpmCc, usize, [bool; 3]); 5] = [
    (TpmCc::EncryptDecrypt2, 1, [true, true, true]),
    (TpmCc::AcGetCapability, 1, [true, false, true]),
    (TpmCc::CertifyX509, 2, [false, false, true]),
    (TpmCc::EccEncrypt, 1, [true, false, false]),
    (TpmCc::VendorTcgTest, 0, [true, true, true]),
];

const NUMBERS: [u32; 3] = [calls::REVISION_CRATE, calls::REVISION_138, calls::REVISION_159];

/// The session that each of the frames below has.
const HMAC: u32 = 0x0200_0000;

/// Each of these codes with its handles, by each table in each reading, and whether the table has it.
fn cases() -> impl Iterator<Item = (Rules, TpmCc, usize, bool)> {
    let by = |(cc, handles, tables): (TpmCc, usize, [bool; 3])| {
        let each = Revision::ALL.into_iter().zip(tables);
        each.flat_map(move |(revision, has)| {
            [Rules::RUST, Rules::STANDARD].map(|rules| (rules.at(revision), cc, handles, has))
        })
    };
    CODES.into_iter().flat_map(by)
}

/// What is due where the table has the code, and else its refusal.
fn due<T>(has: bool, area: Area, offset: usize, cc: TpmCc, answer: T) -> Result<T, Refusal> {
    if has { Ok(answer) } else { Err(Refusal::InvalidCc { area, offset, value: cc.value().into() }) }
}

/// A command with zeros for handles and a session, and a success answer to it with this nonce.
fn pair(cc: TpmCc, handles: usize, nonce: &[u8]) -> [Vec<u8>; 2] {
    let frame = |code: u32, behind: &[&[u8]]| {
        let behind = behind.concat();
        let size = 10 + behind.len() as u32;
        [&[0x80, 0x02], &size.to_be_bytes()[..], &code.to_be_bytes(), &behind].concat()
    };
    let entry = [&HMAC.to_be_bytes()[..], &[0, 0, 1, 0, 0]].concat();
    let size = (nonce.len() as u16).to_be_bytes();
    [frame(cc.value(), &[&vec![0; 4 * handles], &[0, 0, 0, 9], &entry]), frame(0, &[&[0; 4], &size, nonce, &[1, 0, 0]])]
}

// ---- the tables

#[test]
fn a_table_has_its_codes() {
    let rows = Revision::ALL.map(|revision| {
        let codes = (0..0x1_0000).chain(0x2000_0000..0x2001_0000).filter(|&code| revision.has(TpmCc(code)));
        let (common, behind): (Vec<u32>, Vec<u32>) = codes.partition(|&code| code <= 0x193);
        assert!(common.iter().all(|&code| Revision::Lib138.has(TpmCc(code))), "{revision}");
        let due: Vec<u32> = match revision {
            Revision::Crate => (0x194..=0x1A1).filter(|&code| code != 0x197).chain([0x2000_0000]).collect(),
            Revision::Lib138 => vec![0x2000_0000],
            Revision::Lib159 => (0x194..=0x198).chain([0x2000_0000]).collect(),
        };
        assert_eq!(behind, due, "{revision}");
        common.len() + behind.len()
    });
    assert_eq!(rows, [126, 113, 118]);
}

#[test]
fn a_row_is_found_in_its_tables() {
    for (rules, cc, handles, has) in cases() {
        let number = NUMBERS[rules.revision as usize];
        let mut out = [u64::MAX; 8];
        let found = calls::table_find(number, cc.value(), &mut out);
        if has {
            assert_eq!((found, &out[..2]), (0, &[handles as u64, 0][..]), "{rules:?} {cc}");
        } else {
            assert_eq!((found, &out[4..6]), (4, &[0, cc.value().into()][..]), "{rules:?} {cc}");
        }
        assert_eq!(rules.revision.has(cc), has, "{rules:?} {cc}");
    }
}

// ---- reading

#[test]
fn commands_and_answers_are_read_by_the_table_named() {
    for (rules, cc, handles, has) in cases() {
        let [command, answer] = pair(cc, handles, b"next");
        let read = TpmCommand::cast(rules, &command).and_then(|command| command.parts());
        let told = read.map(|parts| (parts.cc, parts.handles.len()));
        assert_eq!(told, due(has, Area::Header, 6, cc, (cc, 4 * handles)), "{rules:?} {cc}");
        let response = TpmResponse::cast(rules, &answer).expect("its header has no command code");
        let due = due(has, Area::Header, 0, cc, ());
        assert_eq!((response.validate(cc), response.areas(cc).map(|_| ())), (due, due), "{rules:?} {cc}");
    }
}

/// The tables that have the code of a command read it alike, and its answer.
#[test]
fn tables_that_have_a_code_read_alike() {
    let unhex = |text: &str| -> Vec<u8> {
        let digits = text.as_bytes().chunks(2).map(|pair| std::str::from_utf8(pair).expect("digits"));
        digits.map(|pair| u8::from_str_radix(pair, 16).expect("hexadecimal")).collect()
    };
    let [mut alike, mut apart] = [0; 2];
    for line in PAIRS.lines() {
        let (command, answer) = line.split_once(' ').expect("two frames");
        let (command, answer) = (unhex(command), unhex(answer));
        let Some(&code) = command.get(6..).and_then(|behind| behind.first_chunk()) else { continue };
        let cc = TpmCc(u32::from_be_bytes(code));
        let read = |rules| {
            let parts = TpmCommand::cast(rules, &command).and_then(|command| command.parts());
            (parts, TpmResponse::cast(rules, &answer).and_then(|response| response.areas(cc)))
        };
        for reading in [Reading::Rust, Reading::Standard] {
            let (with, without): (Vec<_>, Vec<_>) = Revision::ALL.into_iter().partition(|revision| revision.has(cc));
            let [with, without] = [with, without]
                .map(|all| all.into_iter().map(|revision| read(Rules { reading, revision })).collect::<Vec<_>>());
            assert!([&with, &without].iter().all(|all| all.windows(2).all(|two| two[0] == two[1])), "{line}");
            assert!(without.iter().all(|(command, answer)| command.is_err() && answer.is_err()), "{line}");
            alike += usize::from(with.len() == 3);
            apart += usize::from(matches!(with.len(), 1 | 2));
        }
    }
    println!("{alike} pairs are read alike by all tables, {apart} by some");
    assert!(alike > 200 && apart > 0);
}

// ---- putting in and writing

#[test]
fn a_code_is_put_in_by_the_table_named() {
    for (rules, cc, _, has) in cases() {
        let number = NUMBERS[rules.revision as usize] + rules.reading as u32;
        let mut header = [0x80, 0x01, 0, 0, 0, 10, 0, 0, 0x01, 0x44];
        let (before, mut out) = (header, [u64::MAX; 8]);
        let refused = calls::command_set_cc(number, cc.value(), &mut header, &mut out);
        if has {
            assert_eq!((refused, &header[6..]), (0, &cc.value().to_be_bytes()[..]), "{rules:?} {cc}");
        } else {
            assert_eq!((refused, out[4], out[5], header), (4, 0, cc.value().into(), before), "{rules:?} {cc}");
        }
    }
}

#[test]
fn frames_are_written_by_the_table_named() {
    for (rules, cc, handles, has) in cases() {
        let [command, answer] = pair(cc, handles, b"next");
        let due = |frame: &[u8]| due(has, Area::None, 0, cc, frame.len()).map_err(Into::into);
        let (zeros, mut scratch) = (vec![0; 4 * handles], [0; 16]);
        for (frame, nonce, is_command) in [(command, &b""[..], true), (answer, b"next", false)] {
            let session_attributes = TpmaSession::CONTINUE_SESSION;
            let entry = TpmsAuth { session_handle: HMAC, nonce, session_attributes, hmac: &[] };
            let sessions = Sessions::new(&[entry], &mut scratch).expect("there is room");
            let (tag, rc, revision) = (TpmSt::Sessions, TpmRc::SUCCESS, rules.revision);
            let mode = if rules.reading == Reading::Rust { ResponseMode::Rust } else { ResponseMode::Standard };
            let mut room = [0xFF; 64];
            let written = if is_command {
                CommandParts { tag, cc, handles: &zeros, sessions, parameters: &[] }.marshal(rules, &mut room)
            } else {
                ResponseParts { mode, revision, rc, handles: &[], sessions, parameters: &[] }.marshal(cc, &mut room)
            };
            assert_eq!(written, due(&frame), "{rules:?} {cc}");
            let len = if has { frame.len() } else { 0 };
            assert_eq!((&room[..len], &room[len..]), (&frame[..len], &[0xFF; 64][len..]), "{rules:?} {cc}");
        }
    }
}

#[test]
fn an_answer_is_written_by_the_table_it_was_read_by() {
    for (rules, cc, handles, _) in cases().filter(|&(.., has)| has) {
        let [_, answer] = pair(cc, handles, b"next");
        let parts = TpmResponse::cast(rules, &answer).and_then(|response| response.parts(cc)).expect("it passes");
        assert_eq!(parts.revision, rules.revision);
        let mut room = vec![0; answer.len()];
        assert_eq!((parts.marshal(cc, &mut room), room), (Ok(answer.len()), answer), "{rules:?} {cc}");
    }
}

#[test]
fn every_mode_goes_with_every_table() {
    let rc = TpmRc::Fmt0(TpmRcBase::BadTag);
    for (mode, tag) in
        [(ResponseMode::Rust, 0x8001), (ResponseMode::Standard, 0x8001), (ResponseMode::BadTag, 0x00C4u16)]
    {
        for (rules, cc, _, has) in cases() {
            let (revision, sessions) = (rules.revision, Sessions::default());
            let parts = ResponseParts { mode, revision, rc, handles: &[], sessions, parameters: &[] };
            let mut room = [0xFF; 10];
            assert_eq!(parts.marshal(cc, &mut room), due(has, Area::None, 0, cc, 10).map_err(Into::into));
            assert_eq!(room[..2], if has { tag.to_be_bytes() } else { [0xFF; 2] }, "{mode:?} {revision} {cc}");
        }
    }
}

// ---- the keeper

#[test]
fn the_keeper_moves_by_the_table_named() {
    for (rules, cc, handles, has) in cases() {
        let [command, answer] = pair(cc, handles, b"next");
        let mut keeper = Keeper::new();
        assert_eq!(keeper.open(HMAC, b"first"), Ok(()));
        assert_eq!(
            keeper.answer(rules.revision, &command, &answer),
            due(has, Area::Header, 6, cc, ()),
            "{rules:?} {cc}"
        );
        assert_eq!(keeper.nonce(HMAC), Ok(if has { &b"next"[..] } else { b"first" }), "{rules:?} {cc}");
    }
}

// ---- the numbers

#[test]
fn the_header_has_the_numbers() {
    for (name, number) in ["CRATE", "138", "159"].into_iter().zip(NUMBERS) {
        let declared = format!(" SKEIN_REVISION_{name} = 0x{number:02X}");
        assert!(HEADER.contains(&declared), "{declared}");
    }
}

type Call = fn(u32, &mut calls::Out) -> u32;

/// Calls with nothing right but their number, and how many rules each takes with a table.
const CALLS: [(u32, Call); 8] = [
    (1, |number, out| calls::table_find(number, 0, out)),
    (1, |number, out| calls::table_known(number, 0, out)),
    (1, |number, out| calls::keeper_answer(number, &[], &[], &mut calls::Keeper::EMPTY.clone(), out)),
    (2, |number, out| calls::command_validate(number, &[], out)),
    (2, |number, out| calls::command_set_cc(number, 0, &mut [], out)),
    (2, |number, out| calls::command_write(number, 0, 0, NOTHING, &mut [], out)),
    (2, |number, out| calls::response_validate(number, 0, &[], out)),
    (3, |number, out| calls::response_write(number, 0, 0, NOTHING, &mut [], out)),
];

const NOTHING: calls::Handed = calls::Handed {
    handles: &[],
    sessions: calls::Sessions { count: 4, three: [NO_SESSION; 3] },
    lent: &[],
    parameters: &[],
};
const NO_SESSION: calls::Session = calls::Session { handle: 0, nonce: NO_FIELD, attributes: 0, hmac: NO_FIELD };
const NO_FIELD: calls::Field = calls::Field { at: 0, size: 0 };

#[test]
fn a_number_that_names_nothing_is_refused_before_all_else() {
    for (place, (rules, call)) in CALLS.into_iter().enumerate() {
        for number in (0..0x200).chain([0x8000_0010, u32::MAX]) {
            let named = NUMBERS.iter().any(|&table| (table..table + rules).contains(&number));
            let mut out = [u64::MAX; 8];
            let refused = call(number, &mut out);
            assert_eq!(refused == 101, !named, "call {place}, {number:#x}");
            if !named {
                assert_eq!(out[4..], [0, number.into(), u64::MAX, Area::None as u64], "call {place}, {number:#x}");
            }
        }
    }
}
