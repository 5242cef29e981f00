//! The area of each refusal: which numbers come in which area of a frame, by which rules, and where there is none.

#[allow(dead_code)]
#[path = "../src/calls.rs"]
mod calls;

use skeinloft::{
    Area, CommandParts, Keeper, Refusal, ResponseMode, ResponseParts, Revision, Rules, Sessions, Tpm2b, TpmCc,
    TpmCommand, TpmRc, TpmRcBase, TpmResponse, TpmSt, TpmsAuth, WriteRefusal,
};
use std::collections::BTreeSet;

const HEADER: &str = include_str!("../../../include/skeinloft.h");

const BOTH: [Rules; 2] = [Rules::RUST, Rules::STANDARD];
const PLAIN: u16 = 0x8001;
const SESSIONS: u16 = 0x8002;

/// A command with one handle, and one whose response has one.
const UNSEAL: u32 = 0x15E;
const LOAD: u32 = 0x157;

/// The four bytes of a handle.
const HANDLE: [u8; 4] = [0x80, 0, 0, 0];
const PASSWORD: [u8; 9] = [0x40, 0, 0, 9, 0, 0, 1, 0, 0];

fn frame(tag: u16, code: u32, behind: &[&[u8]]) -> Vec<u8> {
    let behind = behind.concat();
    let size = 10 + behind.len() as u32;
    [&tag.to_be_bytes()[..], &size.to_be_bytes(), &code.to_be_bytes(), &behind].concat()
}

fn sized(bytes: &[u8]) -> Vec<u8> {
    [&(bytes.len() as u32).to_be_bytes()[..], bytes].concat()
}

/// Of a command, or of a response to a TPM2_Load.
fn validated(command: bool, rules: Rules, bytes: &[u8]) -> Result<(), Refusal> {
    if command { TpmCommand::cast(rules, bytes)?.validate() } else { answered(rules, LOAD, bytes) }
}

fn answered(rules: Rules, cc: u32, bytes: &[u8]) -> Result<(), Refusal> {
    TpmResponse::cast(rules, bytes)?.validate(TpmCc(cc))
}

// ---- of frames

/// The numbers that frames are refused by, each with its area.
fn due(command: bool, rules: Rules) -> BTreeSet<(u32, Area)> {
    let numbers: [(Area, &[u32]); 4] = [
        (Area::Header, if command { &[1, 2, 3, 4] } else { &[1, 2, 3, 4, 5] }),
        (Area::Handles, &[1]),
        (Area::Authorization, if rules == Rules::STANDARD { &[1, 6, 8] } else { &[1, 6] }),
        (Area::Parameters, if command { &[] } else { &[1] }),
    ];
    numbers.into_iter().flat_map(|(area, numbers)| numbers.iter().map(move |&number| (number, area))).collect()
}

/// A frame with all areas, of which one byte is changed or which is cut, as its size field says or not; and with one byte more.
fn damaged(whole: &[u8]) -> Vec<Vec<u8>> {
    let mut all = vec![[whole, &[0]].concat()];
    for place in 0..whole.len() {
        for value in 0..=255 {
            let mut changed = whole.to_vec();
            changed[place] = value;
            all.push(changed);
        }
        let mut cut = whole[..place].to_vec();
        all.push(cut.clone());
        if place >= 10 {
            cut[2..6].copy_from_slice(&(place as u32).to_be_bytes());
            all.push(cut);
        }
    }
    all
}

#[test]
fn numbers_come_in_their_areas_and_in_no_others() {
    let entries = PASSWORD.repeat(3);
    let command = frame(SESSIONS, UNSEAL, &[&HANDLE, &sized(&entries), &[7, 7]]);
    // of a response the entries have no handle
    let answer = frame(SESSIONS, 0, &[&HANDLE, &sized(&[0; 5]), &[0, 0, 1, 0, 0].repeat(3)]);
    let error = frame(PLAIN, 0x101, &[]);
    for rules in BOTH {
        assert_eq!((validated(true, rules, &command), validated(false, rules, &answer)), (Ok(()), Ok(())));
        for is_command in [true, false] {
            let frames = if is_command { damaged(&command) } else { [damaged(&answer), damaged(&error)].concat() };
            let refused = frames.iter().filter_map(|bytes| validated(is_command, rules, bytes).err());
            let mut found: BTreeSet<_> = refused.map(|refusal| (refusal.number(), refusal.area())).collect();
            if !is_command {
                // the command that is answered has no row
                let refusal = answered(rules, 0, &answer).unwrap_err();
                found.insert((refusal.number(), refusal.area()));
            }
            assert_eq!(found, due(is_command, rules), "{is_command} {rules:?}");
        }
    }
}

#[test]
fn commands_are_refused_in_an_area() {
    let short = |area, offset, needed, available| Refusal::UnexpectedEnd { area, offset, needed, available };
    let entries = |bytes: &[u8]| frame(SESSIONS, UNSEAL, &[&HANDLE, &sized(bytes)]);
    let whole = entries(&PASSWORD);
    let mut size = whole.clone();
    size[5] = 9;
    for (bytes, due) in [
        (vec![], short(Area::Header, 0, 10, 0)),
        (size, short(Area::Header, 2, 10, 9)),
        (whole[..26].to_vec(), short(Area::Header, 26, 1, 0)),
        ([&whole[..], &[0]].concat(), Refusal::TrailingData { area: Area::Header, offset: 27, actual: 1 }),
        (frame(0x00C4, UNSEAL, &[]), Refusal::InvalidTag { area: Area::Header, offset: 0, value: 0x00C4 }),
        (frame(PLAIN, 0x197, &[]), Refusal::InvalidCc { area: Area::Header, offset: 6, value: 0x197 }),
        (frame(PLAIN, UNSEAL, &[&HANDLE[..2]]), short(Area::Handles, 10, 4, 2)),
        // the size of the authorization area, and what it sizes
        (frame(SESSIONS, UNSEAL, &[&HANDLE]), short(Area::Authorization, 14, 4, 0)),
        (frame(SESSIONS, UNSEAL, &[&HANDLE, &[0, 0, 0, 9, 0x40]]), short(Area::Authorization, 18, 9, 1)),
        // its entries
        (entries(&PASSWORD[..3]), short(Area::Authorization, 18, 4, 3)),
        (entries(&PASSWORD[..8]), short(Area::Authorization, 25, 2, 1)),
        (
            entries(&PASSWORD.repeat(4)),
            Refusal::TooManyItems { area: Area::Authorization, offset: 45, limit: 3, actual: 4 },
        ),
    ] {
        assert_eq!(BOTH.map(|rules| validated(true, rules, &bytes)), [Err(due); 2], "{bytes:x?}");
    }
}

#[test]
fn responses_are_refused_in_an_area() {
    let short = |area, offset, needed, available| Refusal::UnexpectedEnd { area, offset, needed, available };
    let success = |behind: &[&[u8]]| frame(SESSIONS, 0, behind);
    for (bytes, due) in [
        (vec![0; 9], short(Area::Header, 0, 10, 9)),
        (success(&[&HANDLE])[..13].to_vec(), short(Area::Header, 13, 1, 0)),
        (frame(PLAIN, 0xC4, &[]), Refusal::InvalidRc { area: Area::Header, offset: 6, value: 0xC4 }),
        (frame(SESSIONS, 0x101, &[]), Refusal::InvalidTag { area: Area::Header, offset: 0, value: 0x8002 }),
        // what is behind the header of an error
        (frame(PLAIN, 0x101, &[&HANDLE]), Refusal::TrailingData { area: Area::Header, offset: 10, actual: 4 }),
        (frame(PLAIN, 0, &[&HANDLE[..3]]), short(Area::Handles, 10, 4, 3)),
        // the size of the parameters, and what it sizes
        (success(&[&HANDLE, &[0, 0, 0]]), short(Area::Parameters, 14, 4, 3)),
        (success(&[&HANDLE, &[0, 0, 0, 4, 7, 7]]), short(Area::Parameters, 18, 4, 2)),
        // the entries
        (success(&[&HANDLE, &sized(&[]), &[0]]), short(Area::Authorization, 18, 2, 1)),
        (
            success(&[&HANDLE, &sized(&[]), &[0; 20]]),
            Refusal::TooManyItems { area: Area::Authorization, offset: 33, limit: 3, actual: 4 },
        ),
    ] {
        assert_eq!(BOTH.map(|rules| validated(false, rules, &bytes)), [Err(due); 2], "{bytes:x?}");
    }
    let no_row = Refusal::InvalidCc { area: Area::Header, offset: 0, value: 0 };
    assert_eq!(BOTH.map(|rules| answered(rules, 0, &success(&[]))), [Err(no_row); 2]);

    // of the standard rules alone
    let [code, longer] = [frame(0x00C4, 0x101, &[]), frame(0x00C4, 0x1E, &[&HANDLE])];
    let other = Refusal::InvalidRc { area: Area::Header, offset: 6, value: 0x101 };
    let surplus = Refusal::TrailingData { area: Area::Header, offset: 10, actual: 4 };
    assert_eq!([code, longer].map(|bytes| validated(false, Rules::STANDARD, &bytes)), [Err(other), Err(surplus)]);
}

#[test]
fn a_refusal_says_its_area() {
    let said = |bytes: &[u8]| validated(true, Rules::STANDARD, bytes).unwrap_err().to_string();
    let cut = frame(SESSIONS, UNSEAL, &[&HANDLE, &sized(&PASSWORD[..8])]);
    assert_eq!(said(&cut), "in the authorization area, the bytes end too early at byte 25: needed 2, available 1");
    let tag = frame(0x8101, UNSEAL, &[&HANDLE]);
    assert_eq!(said(&tag), "in the header area, a tag that may not stand at byte 0: 0x8101");
    let none = Tpm2b::<64>::cast(&[0]).unwrap_err();
    assert_eq!(none.to_string(), "the bytes end too early at byte 0: needed 2, available 1");
}

// ---- of writers, and of calls without a frame

/// Each of the nine numbers, by a writer of commands, of responses, or of sessions.
#[test]
fn writers_have_no_area() {
    let entry = |len| TpmsAuth { nonce: &[7; 65_536][..len], ..TpmsAuth::default() };
    let mut scratch = [0; 512];
    let mut by = |count: usize, tag, cc, handles: &[u8], nonce, rules| {
        let sessions = Sessions::new(&vec![entry(nonce); count], &mut scratch)?;
        CommandParts { tag, cc, handles, sessions, parameters: &[] }.marshal(rules, &mut [])
    };
    let (plain, with, unseal, standard) = (TpmSt::NoSessions, TpmSt::Sessions, TpmCc::Unseal, Rules::STANDARD);
    let response = |rc| {
        let (mode, revision, sessions) = (ResponseMode::Standard, Revision::Crate, Sessions::default());
        ResponseParts { mode, revision, rc, handles: &[], sessions, parameters: &[] }.marshal(unseal, &mut [])
    };
    let refused = [
        (1, by(0, plain, unseal, &HANDLE[1..], 0, standard)),
        (2, by(0, plain, unseal, &[0; 5], 0, standard)),
        (3, by(0, with, unseal, &HANDLE, 0, standard)),
        (4, by(0, plain, TpmCc(0), &[], 0, standard)),
        (5, response(TpmRc::Fmt0(TpmRcBase(0x30)))),
        (6, by(4, with, unseal, &HANDLE, 0, standard)),
        (7, by(1, with, unseal, &HANDLE, 65_536, standard)),
        (8, by(1, with, unseal, &HANDLE, 65, standard)),
        (9, by(1, with, unseal, &HANDLE, 65, Rules::RUST)),
        (9, by(1, with, unseal, &HANDLE, 513, standard)),
        (9, response(TpmRc::SUCCESS)),
    ];
    for (number, written) in refused {
        let refusal: WriteRefusal = written.unwrap_err();
        assert_eq!((refusal.number(), refusal.area()), (number, Area::None), "{refusal:?}");
    }
}

#[test]
fn calls_without_a_frame_have_no_area() {
    let mut keeper = Keeper::new();
    assert_eq!(keeper.open(1, &[]), Ok(()));
    for (number, refused) in [
        (1, Tpm2b::<64>::cast(&[0, 3, 1, 2]).err()),
        (2, Tpm2b::<64>::cast(&[0, 0, 1]).err()),
        (5, TpmRc::try_from(0x0C4).err()),
        (8, Tpm2b::<64>::cast(&[0, 65]).err()),
        (8, keeper.open(2, &[7; 65]).err()),
        (15, keeper.open(1, &[]).err()),
        (17, keeper.close(2).err()),
        (17, keeper.nonce(2).err()),
    ] {
        let refusal = refused.expect("it is refused");
        assert_eq!((refusal.number(), refusal.area()), (number, Area::None));
    }
}

// ---- of the keeper

#[test]
fn the_keeper_hands_on_the_area_of_a_frame() {
    let mut keeper = Keeper::new();
    assert_eq!(keeper.open(0x4000_0009, &[]), Ok(()));
    let unseal = |entries: &[u8]| frame(SESSIONS, UNSEAL, &[&HANDLE, &sized(entries)]);
    let load = frame(SESSIONS, LOAD, &[&HANDLE, &sized(&PASSWORD)]);
    let answer = |behind: &[&[u8]]| frame(SESSIONS, 0, behind);
    let good = answer(&[&HANDLE, &sized(&[]), &[0, 0, 1, 0, 0]]);
    for (command, answer, number, area) in [
        (&good, &good, 4, Area::Header),
        (&frame(PLAIN, UNSEAL, &[]), &good, 1, Area::Handles),
        (&unseal(&PASSWORD[..8]), &good, 1, Area::Authorization),
        (&unseal(&PASSWORD.repeat(4)), &good, 6, Area::Authorization),
        (&load, &load, 5, Area::Header),
        (&load, &answer(&[]), 1, Area::Handles),
        (&load, &answer(&[&HANDLE]), 1, Area::Parameters),
        (&load, &answer(&[&HANDLE, &sized(&[]), &[0, 65]]), 8, Area::Authorization),
        // its own are in none
        (&frame(SESSIONS, LOAD, &[&HANDLE, &sized(&PASSWORD.repeat(2))]), &good, 13, Area::None),
        (&load, &answer(&[&HANDLE, &sized(&[])]), 14, Area::None),
    ] {
        let refusal = keeper.answer(Revision::Crate, command, answer).unwrap_err();
        assert_eq!((refusal.number(), refusal.area()), (number, area), "{command:x?} {answer:x?}");
    }
}

// ---- from C

#[test]
fn the_header_has_the_place_and_the_numbers() {
    assert!(HEADER.contains(&format!(" SKEIN_AREA = {},", calls::AREA)));
    for area in [Area::None, Area::Header, Area::Handles, Area::Authorization, Area::Parameters] {
        let declared = format!(" SKEIN_AREA_{} = {}", area.name().to_uppercase(), area as u32);
        assert!(HEADER.contains(&declared), "{declared}");
    }
}

type Call = fn(&mut calls::Out) -> u32;

/// The calls that this crate does not make, or never sees refused.
#[test]
fn every_refusal_puts_its_area_at_its_place() {
    let refused: [(u32, Area, Call); 22] = [
        // one field of the header
        (1, Area::Header, |out| calls::frame_tag(&[], out)),
        (3, Area::Header, |out| calls::frame_tag(&[0; 10], out)),
        (1, Area::Header, |out| calls::frame_size(&[0; 9], out)),
        (3, Area::Header, |out| calls::frame_set_tag(0, &mut [0; 10], out)),
        (4, Area::Header, |out| calls::command_cc(calls::RUST, &[0; 10], out)),
        (4, Area::Header, |out| calls::command_set_cc(calls::STANDARD, 0, &mut [0; 10], out)),
        (5, Area::Header, |out| calls::response_rc(calls::RUST, &[0xFF; 10], out)),
        (5, Area::Header, |out| calls::response_set_rc(calls::STANDARD, 0xC4, &mut [0; 10], out)),
        (1, Area::Header, |out| calls::response_body(&[], out)),
        // one area
        (1, Area::Handles, |out| calls::command_handles(calls::RUST, &frame(PLAIN, UNSEAL, &[]), out)),
        (1, Area::Authorization, |out| {
            calls::command_auth_area(calls::RUST, &frame(SESSIONS, UNSEAL, &[&HANDLE]), out)
        }),
        (1, Area::Authorization, |out| {
            calls::command_parameters(calls::RUST, &frame(SESSIONS, UNSEAL, &[&HANDLE]), out)
        }),
        // no frame
        (1, Area::None, |out| calls::read_u16(1, &[0; 2], out)),
        (9, Area::None, |out| calls::write_u32(0, 7, &mut [0; 3], out)),
        (4, Area::None, |out| calls::table_find(calls::REVISION_CRATE, 0, out)),
        (5, Area::None, |out| calls::rc_read(0xC4, out)),
        (9, Area::None, |out| <[u8; 64] as calls::Data>::from_slice(&[0; 65], &mut [0; 64], out)),
        (17, Area::None, |out| calls::keeper_ask(1, &calls::Keeper::EMPTY, out)),
        // numbers in the call
        (100, Area::None, |out| calls::rc_value(6, 0, 0, out)),
        (101, Area::None, |out| calls::command_validate(2, &[], out)),
        (101, Area::None, |out| calls::response_validate(2, 0, &[], out)),
        (101, Area::None, |out| calls::table_known(calls::STANDARD, 0, out)),
    ];
    for (place, (number, area, call)) in refused.into_iter().enumerate() {
        let mut out = [u64::MAX; 8];
        assert_eq!((call(&mut out), out[calls::AREA]), (number, area as u64), "{place}");
        assert_eq!(out[..calls::OFFSET], [u64::MAX; 4], "{place}");
    }
}

#[test]
fn a_total_that_is_too_large_has_no_area() {
    let largest = u32::MAX as usize;
    if Vec::<u8>::new().try_reserve_exact(largest).is_err() {
        println!("no such total is tried, since there is no memory for one");
        return;
    }
    // zeros that nobody reads: they take addresses and no memory
    let parameters = &vec![0; largest];
    let given = calls::Handed { handles: &[], sessions: calls::Sessions::default(), lent: &[], parameters };
    let mut out = [u64::MAX; 8];
    let number = calls::command_write(calls::STANDARD, PLAIN, TpmCc::Startup.value(), given, &mut [], &mut out);
    assert_eq!((number, out[calls::AREA]), (7, Area::None as u64));
}

/// An answer leaves the place alone.
#[test]
fn an_answer_has_no_area() {
    let mut out = [u64::MAX; 8];
    assert_eq!(calls::command_validate(calls::STANDARD, &frame(PLAIN, UNSEAL, &[&HANDLE]), &mut out), 0);
    assert_eq!(out, [u64::MAX; 8]);
}
