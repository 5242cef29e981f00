//! Real frames, a command and its answer a line: what passes is written again from its parts.

use skeinloft::{
    Area, CommandParts, Refusal, ResponseMode, ResponseParts, Revision, Rules, Sessions, TpmCc, TpmCommand, TpmRc,
    TpmResponse, TpmSt, TpmsAuth, WriteRefusal,
};

const PAIRS: &str = include_str!("../../../compare/src/frame/real.txt");

fn unhex(text: &str) -> Vec<u8> {
    let digits = text.as_bytes().chunks(2).map(|pair| std::str::from_utf8(pair).expect("digits"));
    digits.map(|pair| u8::from_str_radix(pair, 16).expect("hexadecimal")).collect()
}

/// Each pair, under the rules of each reading.
fn pairs() -> Vec<(Rules, Vec<u8>, Vec<u8>)> {
    let words = PAIRS.lines().map(|line| line.split_once(' ').expect("two frames"));
    let both = |(command, answer)| [Rules::RUST, Rules::STANDARD].map(|rules| (rules, unhex(command), unhex(answer)));
    words.flat_map(both).collect()
}

/// The sessions again, from copies of their entries.
fn copied<'a>(sessions: Sessions, room: &'a mut [u8]) -> Sessions<'a> {
    let entries: Vec<TpmsAuth> = sessions.iter().collect();
    Sessions::new(&entries, room).expect("there is room")
}

/// What comes of writing: the bytes.
fn written(write: impl FnOnce(&mut [u8]) -> Result<usize, WriteRefusal>) -> Result<Vec<u8>, WriteRefusal> {
    let mut room = [0xFF; 8192];
    let len = write(&mut room)?;
    assert!(room[len..].iter().all(|&byte| byte == 0xFF), "the room behind the frame stays as it was");
    Ok(room[..len].to_vec())
}

#[test]
fn commands_are_written_as_they_were_read() {
    let (mut same, mut bare) = (0, 0);
    for (rules, bytes, _) in pairs() {
        let Ok(mut parts) = TpmCommand::cast(rules, &bytes).and_then(|command| command.parts()) else { continue };
        let mut room = [0; 8192];
        parts.sessions = copied(parts.sessions, &mut room);
        match written(|room| parts.marshal(rules, room)) {
            Ok(again) => {
                assert_eq!(again, bytes);
                same += 1;
            }
            Err(refusal) => {
                assert!(parts.sessions.is_empty());
                assert_eq!(
                    refusal,
                    Refusal::InvalidTag { area: Area::None, offset: 0, value: TpmSt::Sessions.value().into() }.into()
                );
                bare += 1;
            }
        }
    }
    println!("{same} commands come out the same, {bare} are under the sessions tag without a session");
    assert!(same > 200);
}

#[test]
fn responses_are_written_as_they_were_read() {
    let mut same = 0;
    for (rules, command, bytes) in pairs() {
        let Ok(cc) = TpmCommand::cast(rules, &command).and_then(|command| command.cc()) else { continue };
        let Ok(parts) = TpmResponse::cast(rules, &bytes).and_then(|response| response.parts(cc)) else { continue };
        let mut room = [0; 8192];
        let again = ResponseParts { sessions: copied(parts.sessions, &mut room), ..parts };
        assert_eq!(again, parts);
        assert_eq!(written(|room| again.marshal(cc, room)).expect("it was read"), bytes);
        same += 1;
    }
    println!("{same} responses come out the same");
    assert!(same > 200);
}

#[test]
fn areas_and_parts_tell_the_same() {
    let mut both = 0;
    for (rules, bytes, answer) in pairs() {
        let Ok(command) = TpmCommand::cast(rules, &bytes) else { continue };
        let Ok(areas) = command.areas() else { continue };
        assert_eq!(command.validate(), Ok(()));
        assert_eq!(command.handles(), Ok(&bytes[areas.handles.clone()]));
        assert_eq!(command.auth_area(), Ok(&bytes[areas.auth_area]));
        assert_eq!(command.parameters(), Ok(&bytes[areas.parameters]));
        let parts = command.parts().expect("it passes");
        assert_eq!((Ok(parts.tag), Ok(parts.cc), parts.handles), (command.tag(), command.cc(), &bytes[areas.handles]));

        let Ok(response) = TpmResponse::cast(rules, &answer) else { continue };
        let (areas, parts) = (response.areas(parts.cc), response.parts(parts.cc));
        assert_eq!(parts.map(|parts| parts.parameters), areas.map(|areas| &answer[areas.parameters]));
        both += 1;
    }
    println!("{both} pairs tell the same");
    assert!(both > 200);
}

#[test]
fn a_frame_cut_anywhere_is_refused() {
    for (rules, bytes, answer) in pairs() {
        let cc = TpmCc(u32::from_be_bytes(bytes[6..10].try_into().expect("four bytes")));
        for len in 0..bytes.len() {
            assert!(TpmCommand::cast(rules, &bytes[..len]).is_err());
        }
        for len in 0..answer.len() {
            assert!(TpmResponse::cast(rules, &answer[..len]).and_then(|response| response.validate(cc)).is_err());
        }
    }
}

#[test]
fn a_cast_does_not_walk() {
    // an authorization area of five bytes, in which the nonce has half a size
    let bytes = [0x80, 0x02, 0, 0, 0, 23, 0, 0, 1, 0x5E, 0x80, 0, 0, 0, 0, 0, 0, 5, 0x40, 0, 0, 9, 0];
    let command = TpmCommand::cast(Rules::STANDARD, &bytes).expect("the areas are whole");
    let refusal = Refusal::UnexpectedEnd { area: Area::Authorization, offset: 22, needed: 2, available: 1 };
    assert_eq!((command.validate(), command.parts(), command.areas()), (Err(refusal), Err(refusal), Err(refusal)));
}

#[test]
fn four_sessions_are_not_written() {
    let read = [0x80, 0x01, 0, 0, 0, 14, 0, 0, 1, 0x5E, 0x80, 0, 0, 0];
    let mut parts = TpmCommand::cast(Rules::STANDARD, &read).and_then(|command| command.parts()).expect("it passes");
    let mut room = [0; 64];
    parts.tag = TpmSt::Sessions;
    parts.sessions = Sessions::new(&[TpmsAuth::default(); 4], &mut room).expect("there is room");
    assert_eq!(parts.sessions.iter().count(), 3);
    let refusal = Refusal::TooManyItems { area: Area::None, offset: 0, limit: 3, actual: 4 };
    assert_eq!(parts.marshal(Rules::STANDARD, &mut [0; 64]), Err(refusal.into()));
}

#[test]
fn a_total_of_more_than_32_bits_is_too_large() {
    let largest = u32::MAX as usize;
    if Vec::<u8>::new().try_reserve_exact(largest).is_err() {
        println!("no such total is tried, since there is no memory for one");
        return;
    }
    // zeros that nobody reads: they take addresses and no memory
    let zeros = vec![0; largest];
    let written = |total: usize| {
        let (tag, cc, rc, handles, sessions) =
            (TpmSt::NoSessions, TpmCc::Startup, TpmRc::SUCCESS, &[][..], Sessions::default());
        let (mode, revision, parameters) = (ResponseMode::Standard, Revision::Crate, &zeros[..total - 10]);
        let mut room = [0xFF; 12];
        let results = [
            CommandParts { tag, cc, handles, sessions, parameters }.marshal(Rules::STANDARD, &mut room),
            ResponseParts { mode, revision, rc, handles, sessions, parameters }.marshal(cc, &mut room),
        ];
        assert_eq!(room, [0xFF; 12]);
        results
    };
    let short = Refusal::BufferOverflow { area: Area::None, offset: 0, needed: largest, available: 12 };
    assert_eq!(written(largest), [Err(short.into()); 2]);
    let large = WriteRefusal::IntegerTooLarge { offset: 0, value: 1 << 32 };
    assert_eq!(written(largest + 1), [Err(large); 2]);
}

#[test]
fn a_nonce_or_an_hmac_of_more_than_16_bits_is_too_large() {
    let (bytes, mut room) = (vec![7; 65_536], vec![0; 65_551]);
    let mut taken = |nonce, hmac| {
        let entry = TpmsAuth { nonce: &bytes[..nonce], hmac: &bytes[..hmac], ..TpmsAuth::default() };
        Sessions::new(&[entry], &mut room).map(|sessions| sessions.len())
    };
    let large = |offset| Err(WriteRefusal::IntegerTooLarge { offset, value: 65_536 });
    assert_eq!((taken(65_535, 16), taken(16, 65_535)), (Ok(1), Ok(1)));
    assert_eq!((taken(65_536, 16), taken(16, 65_536)), (large(0), large(16)));
    let short = Refusal::BufferOverflow { area: Area::None, offset: 65_535, needed: 17, available: 16 };
    assert_eq!(taken(65_535, 17), Err(short.into()));
}
