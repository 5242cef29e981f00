//! The nonce keeper: what moves a nonce, what is refused, in which order, and that a refusal changes nothing.

#[allow(dead_code)]
#[path = "../src/calls.rs"]
mod calls;

use skeinloft::{Area, Keeper, Refusal, Revision, Rules, TpmCc, TpmCommand, TpmRc, TpmResponse};

const HEADER: &str = include_str!("../../../include/skeinloft.h");
const PAIRS: &str = include_str!("../../../compare/src/frame/real.txt");

/// The table that the frames are read by, and its number. Every table has the codes that are written here.
const BY: Revision = Revision::Lib138;
const NUMBER: u32 = calls::REVISION_138;

/// A session of each kind, and the handle of a password.
const HMAC: u32 = 0x0200_0000;
const POLICY: u32 = 0x0300_0001;
const PASSWORD: u32 = 0x4000_0009;

/// What a TPM answers to a command whose session has a wrong HMAC.
const AUTH_FAIL: [u8; 10] = [0x80, 0x01, 0, 0, 0, 10, 0, 0, 0x09, 0x8E];

const TOO_LONG: Refusal = Refusal::TooManyBytes { area: Area::None, offset: 0, limit: 64, actual: 65 };

fn unhex(text: &str) -> Vec<u8> {
    let digits = text.as_bytes().chunks(2).map(|pair| std::str::from_utf8(pair).expect("digits"));
    digits.map(|pair| u8::from_str_radix(pair, 16).expect("hexadecimal")).collect()
}

/// A frame with a code under the sessions tag.
fn frame(code: u32, behind: &[u8]) -> Vec<u8> {
    let size = 10 + behind.len() as u32;
    [&[0x80, 0x02], &size.to_be_bytes()[..], &code.to_be_bytes(), behind].concat()
}

/// A TPM2_GetRandom with these sessions.
fn random(handles: &[u32]) -> Vec<u8> {
    let entries: Vec<u8> =
        handles.iter().flat_map(|handle| [&handle.to_be_bytes()[..], &[0, 0, 1, 0, 0]].concat()).collect();
    frame(TpmCc::GetRandom.value(), &[&(entries.len() as u32).to_be_bytes()[..], &entries, &[0, 8]].concat())
}

/// A success answer to it with these nonces.
fn answered(nonces: &[&[u8]]) -> Vec<u8> {
    let entry = |nonce: &&[u8]| [&(nonce.len() as u16).to_be_bytes()[..], nonce, &[1, 0, 0]].concat();
    let entries: Vec<u8> = nonces.iter().flat_map(entry).collect();
    frame(0, &[&[0, 0, 0, 3, 0, 1, 9][..], &entries].concat())
}

/// A keeper with the sessions of each kind open.
fn both_open() -> Keeper {
    let mut keeper = Keeper::new();
    assert_eq!((keeper.open(HMAC, b"first"), keeper.open(POLICY, b"second")), (Ok(()), Ok(())));
    keeper
}

/// Both are open, with these nonces.
#[track_caller]
fn has(keeper: &Keeper, hmac: &[u8], policy: &[u8]) {
    assert_eq!((keeper.nonce(HMAC), keeper.nonce(POLICY)), (Ok(hmac), Ok(policy)));
}

// ---- what moves a nonce

#[test]
fn each_session_gets_the_nonce_at_its_position() {
    let mut keeper = both_open();
    assert_eq!(keeper.answer(BY, &random(&[POLICY, HMAC]), &answered(&[b"to policy", b"to HMAC"])), Ok(()));
    has(&keeper, b"to HMAC", b"to policy");

    // a password and a session that is not open stand before it, and are passed by
    let command = random(&[PASSWORD, 0x0200_0009, HMAC]);
    assert_eq!(keeper.answer(BY, &command, &answered(&[b"", b"of another", b"next"])), Ok(()));
    has(&keeper, b"next", b"to policy");
    assert_eq!(keeper.nonce(0x0200_0009), Err(Refusal::NotOpen));

    // they may even stand there twice
    assert_eq!(keeper.answer(BY, &random(&[PASSWORD, PASSWORD, POLICY]), &answered(&[b"", b"", b""])), Ok(()));
    has(&keeper, b"next", b"");
}

#[test]
fn an_error_moves_nothing() {
    let mut keeper = both_open();
    assert_eq!(keeper.answer(BY, &random(&[HMAC]), &AUTH_FAIL), Ok(()));
    // and its sessions are not looked at
    assert_eq!(keeper.answer(BY, &random(&[HMAC, HMAC]), &AUTH_FAIL), Ok(()));
    has(&keeper, b"first", b"second");
}

/// Real pairs, each with a keeper that has its sessions open: what the parts of the two frames say is what is kept.
#[test]
fn recorded_answers_move_their_sessions() {
    let (mut moved, mut errors, mut refused) = (0, 0, 0);
    for line in PAIRS.lines() {
        let (command, answer) = line.split_once(' ').expect("two frames");
        let (command, answer) = (unhex(command), unhex(answer));
        let rules = Rules::STANDARD.at(BY);
        let read = TpmCommand::cast(rules, &command).and_then(|command| command.parts());
        let given = read.and_then(|parts| TpmResponse::cast(rules, &answer)?.parts(parts.cc));
        let handles: Vec<u32> =
            read.iter().flat_map(|parts| parts.sessions.iter().map(|entry| entry.session_handle)).collect();
        let sessions = || handles.iter().zip(0..).filter(|&(&handle, _)| handle != PASSWORD);
        let mut keeper = Keeper::new();
        sessions().for_each(|(&handle, _)| assert_eq!(keeper.open(handle, b"before"), Ok(())));
        assert_eq!(keeper.answer(BY, &command, &answer), given.map(|_| ()), "{line}");
        let success = given.ok().filter(|parts| parts.rc == TpmRc::SUCCESS);
        for (&handle, position) in sessions() {
            let due =
                success.map_or(&b"before"[..], |parts| parts.sessions.iter().nth(position).expect("as many").nonce);
            assert_eq!(keeper.nonce(handle), Ok(due), "{line}");
        }
        match success {
            Some(_) => moved += keeper.len(),
            None if given.is_ok() => errors += 1,
            None => refused += 1,
        }
    }
    println!("{moved} sessions are moved, {errors} errors and {refused} refusals move none");
    assert!(moved > 20 && errors > 20 && refused > 10);
}

// ---- what is refused

#[test]
fn opening_is_refused_in_order() {
    let mut keeper = Keeper::new();
    assert_eq!((keeper.open(HMAC, &[7; 65]), keeper.len()), (Err(TOO_LONG), 0));
    for handle in HMAC..HMAC + 64 {
        assert_eq!(keeper.open(handle, &handle.to_be_bytes()), Ok(()));
    }
    assert_eq!(keeper.open(HMAC + 63, &[7; 65]), Err(Refusal::AlreadyOpen));
    assert_eq!(keeper.open(POLICY, &[7; 65]), Err(TOO_LONG));
    assert_eq!(keeper.open(POLICY, &[7; 64]), Err(Refusal::AllOpen));
    assert_eq!(keeper.len(), Keeper::PLACES);

    // a place that is free again is taken by another, and all others have what they had
    assert_eq!(keeper.close(HMAC + 20), Ok(()));
    assert_eq!(keeper.open(POLICY, &[7; 64]), Ok(()));
    assert_eq!((keeper.nonce(POLICY), keeper.nonce(HMAC + 20)), (Ok(&[7; 64][..]), Err(Refusal::NotOpen)));
    let others = (HMAC..HMAC + 64).filter(|&handle| handle != HMAC + 20);
    others.for_each(|handle| assert_eq!(keeper.nonce(handle), Ok(&handle.to_be_bytes()[..])));
    assert_eq!(keeper.open(HMAC + 20, &[]), Err(Refusal::AllOpen));
}

#[test]
fn answers_are_refused_in_order() {
    let mut keeper = both_open();
    let twice = random(&[HMAC, POLICY, HMAC]);
    let [one, three] = [answered(&[b"1"]), answered(&[b"1", b"2", b"3"])];
    let no_command = Refusal::InvalidCc { area: Area::Header, offset: 6, value: 0 };
    let cut = |len| Refusal::UnexpectedEnd { area: Area::Header, offset: len, needed: 1, available: 0 };
    for (command, answer, due) in [
        // no command, though its answer is none either; then the answer, judged for that command
        (&one[..], &one[1..], no_command),
        (&twice[..twice.len() - 1], &one[..], cut(twice.len() - 1)),
        (&twice[..], &one[..one.len() - 1], cut(one.len() - 1)),
        // both of the sessions, where two have the handle and the counts differ
        (&twice[..], &one[..], Refusal::HandleRepeated),
        (&twice[..], &three[..], Refusal::HandleRepeated),
        (&random(&[HMAC]), &three[..], Refusal::CountsDiffer),
        (&random(&[HMAC, POLICY]), &one[..], Refusal::CountsDiffer),
        // also where none of them is open
        (&random(&[PASSWORD]), &three[..], Refusal::CountsDiffer),
        (&random(&[PASSWORD]), &[0x80, 0x01, 0, 0, 0, 10, 0, 0, 0, 0], Refusal::CountsDiffer),
        (&random(&[PASSWORD, PASSWORD]), &one[..], Refusal::CountsDiffer),
    ] {
        assert_eq!(keeper.answer(BY, command, answer), Err(due));
        has(&keeper, b"first", b"second");
    }
}

#[test]
fn a_long_nonce_is_refused_by_its_frame() {
    let mut keeper = both_open();
    assert_eq!(keeper.answer(BY, &random(&[HMAC]), &answered(&[&[7; 64]])), Ok(()));
    assert_eq!(keeper.nonce(HMAC), Ok(&[7; 64][..]));
    let refusal = Refusal::TooManyBytes { area: Area::Authorization, offset: 17, limit: 64, actual: 65 };
    assert_eq!(keeper.answer(BY, &random(&[HMAC]), &answered(&[&[8; 65]])), Err(refusal));
    assert_eq!(keeper.nonce(HMAC), Ok(&[7; 64][..]));
}

#[test]
fn what_is_not_open_is_neither_closed_nor_asked() {
    let mut keeper = both_open();
    assert_eq!((keeper.close(HMAC), keeper.close(HMAC)), (Ok(()), Err(Refusal::NotOpen)));
    assert_eq!((keeper.nonce(HMAC), keeper.nonce(POLICY)), (Err(Refusal::NotOpen), Ok(&b"second"[..])));
    // it may be opened again, and starts with the nonce that it is given then
    assert_eq!(keeper.open(HMAC, b"again"), Ok(()));
    has(&keeper, b"again", b"second");
}

#[test]
fn every_number_can_be_a_handle() {
    let mut keeper = Keeper::new();
    for handle in [0, u32::MAX] {
        assert_eq!(keeper.nonce(handle), Err(Refusal::NotOpen));
        assert_eq!(keeper.close(handle), Err(Refusal::NotOpen));
        assert_eq!(keeper.open(handle, &handle.to_le_bytes()), Ok(()));
        assert_eq!(keeper.open(handle, &[]), Err(Refusal::AlreadyOpen));
    }
    assert_eq!(keeper.answer(BY, &random(&[u32::MAX, 0]), &answered(&[b"last", b"first"])), Ok(()));
    assert_eq!((keeper.nonce(0), keeper.nonce(u32::MAX)), (Ok(&b"first"[..]), Ok(&b"last"[..])));
}

#[test]
fn the_refusals_are_told_apart() {
    let all =
        [Refusal::HandleRepeated, Refusal::CountsDiffer, Refusal::AlreadyOpen, Refusal::AllOpen, Refusal::NotOpen];
    assert!(all.iter().map(Refusal::number).eq(13..=17));
    let words: std::collections::BTreeSet<String> = all.iter().map(ToString::to_string).collect();
    assert_eq!(words.len(), all.len());
    assert_eq!((all[4].name(), all[4].to_string().as_str()), ("NotOpen", "the session is not open"));
}

// ---- its bytes

/// What the header says of a constant.
fn declared(name: &str) -> usize {
    let (_, behind) = HEADER.split_once(&format!("{name} = ")).expect("it is declared");
    behind.split(|mark: char| !mark.is_ascii_digit()).next().and_then(|digits| digits.parse().ok()).expect("a number")
}

#[test]
fn it_is_laid_out_as_in_c() {
    assert_eq!((declared("SKEIN_KEEPER_SIZE"), declared("SKEIN_KEEPER_PLACES")), (4424, Keeper::PLACES));
    assert_eq!((size_of::<Keeper>(), align_of::<Keeper>()), (4424, 8));
    assert_eq!((size_of::<calls::Keeper>(), align_of::<calls::Keeper>()), (4424, 8));
    assert_eq!(calls::Keeper::EMPTY.bytes(), [0; 4424]);
}

#[test]
fn a_new_one_is_zeros() {
    let mut keeper = calls::Keeper { opaque: [u64::MAX; 553] };
    assert_eq!(calls::keeper_new(&mut keeper, &mut [0; 8]), 0);
    assert_eq!(keeper, calls::Keeper::EMPTY);
    assert_eq!(format!("{:?}", both_open()), "Keeper { open: 2, .. }");
}

/// Each of the calls that can be refused, as it is refused of some keepers.
type Call = fn(&mut calls::Keeper, &mut calls::Out) -> u32;

#[test]
fn a_refusal_changes_no_byte() {
    let calls: [(u32, Call); 7] = [
        (15, |keeper, out| calls::keeper_open(HMAC, &[1], keeper, out)),
        (8, |keeper, out| calls::keeper_open(POLICY, &[1; 65], keeper, out)),
        (17, |keeper, out| calls::keeper_close(POLICY, keeper, out)),
        (17, |keeper, out| calls::keeper_ask(POLICY, keeper, out)),
        (4, |keeper, out| calls::keeper_answer(NUMBER, &answered(&[b"1"]), &answered(&[b"1"]), keeper, out)),
        (13, |keeper, out| calls::keeper_answer(NUMBER, &random(&[HMAC, HMAC]), &answered(&[b"1"]), keeper, out)),
        (14, |keeper, out| calls::keeper_answer(NUMBER, &random(&[HMAC]), &answered(&[]), keeper, out)),
    ];
    // behind the bytes of the nonce, and at the other places, may stand anything
    let mut keeper = calls::Keeper { opaque: [u64::MAX; 553] };
    calls::keeper_new(&mut keeper, &mut [0; 8]);
    calls::keeper_open(HMAC, &[0xEE; 64], &mut keeper, &mut [0; 8]);
    calls::keeper_close(HMAC, &mut keeper, &mut [0; 8]);
    calls::keeper_open(HMAC, b"short", &mut keeper, &mut [0; 8]);
    for (number, call) in calls {
        let before = keeper.clone();
        assert_eq!(call(&mut keeper, &mut [0; 8]), number);
        assert_eq!(keeper, before, "{number}");
    }
}

/// No run of calls gives these states; all calls take them, and stay inside.
#[test]
fn every_state_is_taken() {
    let mut state = 1u64;
    let mut any = || {
        state = state.wrapping_mul(6364136223846793005).wrapping_add(1442695040888963407);
        state ^ state >> 29
    };
    for _ in 0..1000 {
        let mut keeper = calls::Keeper { opaque: std::array::from_fn(|_| any()) };
        let handle = u32::from_le_bytes(*keeper.bytes().first_chunk().expect("four bytes"));
        let mut out = [0; 8];
        if calls::keeper_ask(handle, &keeper, &mut out) == 0 {
            let [from, to] = [out[0], out[1]].map(|place| usize::try_from(place).expect("a place"));
            assert!(from <= to && to <= from + 64 && to <= keeper.bytes().len());
        }
        calls::keeper_answer(NUMBER, &random(&[handle, 0]), &answered(&[&[7; 64], &[]]), &mut keeper, &mut out);
        calls::keeper_open(handle, &[7; 64], &mut keeper, &mut out);
        calls::keeper_close(handle, &mut keeper, &mut out);
        assert_eq!(calls::keeper_len(&keeper, &mut out), 0);
        assert!(out[0] <= 64);
    }
}
