//! Where the two readings differ: responses under the tag of the answer to a bad tag, frames with a long nonce or HMAC, and
//! nothing else.

use skeinloft::{
    Area, CommandParts, MAX_DIGEST_SIZE, Refusal, ResponseMode, ResponseParts, Revision, Rules, Sessions, TpmCc,
    TpmCommand, TpmRc, TpmRcBase, TpmResponse, TpmSt, TpmsAuth, WriteRefusal,
};

/// What a TPM answers to a command whose tag it does not understand.
const BAD_TAG: [u8; 10] = [0x00, 0xC4, 0, 0, 0, 10, 0, 0, 0, 0x1E];

/// A frame under a tag, with a code, and so many bytes behind its header.
fn frame(tag: u16, code: u32, behind: u8) -> Vec<u8> {
    let size = u32::from(10 + behind);
    [&tag.to_be_bytes()[..], &size.to_be_bytes(), &code.to_be_bytes(), &vec![0; behind.into()]].concat()
}

fn validated(rules: Rules, cc: TpmCc, bytes: &[u8]) -> Result<(), Refusal> {
    TpmResponse::cast(rules, bytes)?.validate(cc)
}

fn no_such_tag(area: Area, tag: u16) -> Refusal {
    Refusal::InvalidTag { area, offset: 0, value: tag.into() }
}

#[test]
fn it_answers_every_command_in_the_standard_reading_alone() {
    for (revision, &(cc, name)) in
        Revision::ALL.into_iter().flat_map(|all| TpmCc::NAMED.iter().map(move |it| (all, it)))
    {
        let [rust, standard] = [Rules::RUST, Rules::STANDARD].map(|rules| rules.at(revision));
        assert_eq!(validated(rust, cc, &BAD_TAG), Err(no_such_tag(Area::Header, 0x00C4)), "{name}");
        let response = TpmResponse::cast(standard, &BAD_TAG).expect(name);
        if !revision.has(cc) {
            let no_row = Refusal::InvalidCc { area: Area::Header, offset: 0, value: cc.value().into() };
            assert_eq!(response.validate(cc), Err(no_row), "{name}");
            continue;
        }
        assert_eq!((response.tag(), response.validate(cc)), (Ok(TpmSt::RspCommand), Ok(())), "{name}");
        let areas = response.areas(cc).expect(name);
        assert_eq!([areas.handles, areas.auth_area, areas.parameters], [10..10, 10..10, 10..10], "{name}");
    }
}

#[test]
fn its_tag_goes_with_its_code_alone() {
    for code in (0..0x1000).chain([0x1001E, 0x1E00_0000, u32::MAX]).filter(|&code| code != 0x1E) {
        let refusal = Refusal::InvalidRc { area: Area::Header, offset: 6, value: code.into() };
        let bytes = frame(0x00C4, code, 0);
        assert_eq!(TpmResponse::cast(Rules::STANDARD, &bytes), Err(refusal), "{code:#x}");
        assert_eq!(TpmResponse::cast_prefix(Rules::STANDARD, &bytes), Err(refusal), "{code:#x}");
    }
}

#[test]
fn it_has_nothing_behind_its_header() {
    let longer = frame(0x00C4, 0x1E, 3);
    let response = TpmResponse::cast(Rules::STANDARD, &longer).expect("a cast looks at the header");
    assert_eq!(response.rc(), Ok(TpmRc::Fmt0(TpmRcBase::BadTag)));
    let refusal = Refusal::TrailingData { area: Area::Header, offset: 10, actual: 3 };
    assert_eq!((response.validate(TpmCc::Startup), response.parts(TpmCc::Startup)), (Err(refusal), Err(refusal)));
    // the command is judged before
    assert_eq!(response.validate(TpmCc(0)), Err(Refusal::InvalidCc { area: Area::Header, offset: 0, value: 0 }));

    let bytes = [&BAD_TAG[..], &longer].concat();
    let (first, behind) = TpmResponse::cast_prefix(Rules::STANDARD, &bytes).expect("two of them");
    assert_eq!((first.as_bytes(), behind), (&BAD_TAG[..], &longer[..]));
}

#[test]
fn all_other_frames_are_read_alike() {
    for tag in [0, 0x00C3, 0x00C4, 0x00C5, 0x8000, 0x8001, 0x8002, 0xC400] {
        for code in (0..0x1000).chain([0x2000_0000]) {
            for behind in [0, 4] {
                let bytes = frame(tag, code, behind);
                let [rust, standard] =
                    [Rules::RUST, Rules::STANDARD].map(|rules| TpmCommand::cast(rules, &bytes)?.validate());
                assert_eq!(rust, standard, "{bytes:x?}");
                if tag == 0x00C4 {
                    assert_eq!(rust, Err(no_such_tag(Area::Header, tag)));
                    continue;
                }
                let [rust, standard] =
                    [Rules::RUST, Rules::STANDARD].map(|rules| validated(rules, TpmCc::ContextLoad, &bytes));
                assert_eq!(rust, standard, "{bytes:x?}");
            }
        }
    }
}

#[test]
fn it_is_written_as_it_was_read() {
    let cc = TpmCc::Startup;
    let parts = |bytes| TpmResponse::cast(Rules::STANDARD, bytes)?.parts(cc);
    let read = parts(&BAD_TAG).expect("it passes");
    assert_eq!((read.mode, read.rc), (ResponseMode::BadTag, TpmRc::Fmt0(TpmRcBase::BadTag)));
    let mut room = [0xFF; 12];
    assert_eq!(read.marshal(cc, &mut room), Ok(10));
    assert_eq!((&room[..10], &room[10..]), (&BAD_TAG[..], &[0xFF; 2][..]));

    // the same code under the plain tag is another frame
    let plain = frame(0x8001, 0x1E, 0);
    assert_ne!(parts(&plain), Ok(read));
    for mode in [ResponseMode::Rust, ResponseMode::Standard] {
        assert_eq!(ResponseParts { mode, ..read }.marshal(cc, &mut room), Ok(10));
        assert_eq!(room[..10], plain);
    }
}

#[test]
fn the_writer_refuses_in_order() {
    let bad = TpmRc::Fmt0(TpmRcBase::BadTag);
    let failure = TpmRc::Fmt0(TpmRcBase::Failure);
    let unread = TpmRc::Fmt0(TpmRcBase(0x30));
    let rc = |value| Refusal::InvalidRc { area: Area::None, offset: 0, value };
    for (count, cc, code, room, due) in [
        (4, TpmCc(0), unread, 0, Refusal::TooManyItems { area: Area::None, offset: 0, limit: 3, actual: 4 }),
        (1, TpmCc(0), unread, 0, Refusal::InvalidCc { area: Area::None, offset: 0, value: 0 }),
        (1, TpmCc::Startup, unread, 0, rc(0x30)),
        (1, TpmCc::Startup, failure, 0, no_such_tag(Area::None, 0x8002)),
        (1, TpmCc::Startup, bad, 0, no_such_tag(Area::None, 0x8002)),
        (1, TpmCc::Startup, TpmRc::SUCCESS, 0, rc(0)),
        (0, TpmCc::Startup, TpmRc::SUCCESS, 0, rc(0)),
        (0, TpmCc::Startup, failure, 0, rc(0x101)),
        (0, TpmCc::Startup, bad, 9, Refusal::BufferOverflow { area: Area::None, offset: 0, needed: 10, available: 9 }),
    ] {
        let sessions = Sessions::new(&[TpmsAuth::default(); 4][..count], &mut []).expect("they are empty");
        let (mode, revision) = (ResponseMode::BadTag, Revision::Crate);
        let parts = ResponseParts { mode, revision, rc: code, handles: &[], sessions, parameters: &[] };
        let mut written = [0xFF; 10];
        assert_eq!(parts.marshal(cc, &mut written[..room]), Err(due.into()));
        assert_eq!(written, [0xFF; 10]);
    }
}

// ---- nonces and HMACs

/// Sizes around the limit, those of which the other byte counts, and the longest.
const SIZES: [u16; 9] = [0, 1, 63, 64, 65, 66, 255, 256, 65535];

/// Entries with nonces and HMACs of these sizes, and a handle before each of a command's.
fn entries(command: bool, sizes: &[[u16; 2]]) -> Vec<u8> {
    let field = |size: u16| [&size.to_be_bytes()[..], &vec![7; size.into()]].concat();
    let entry = |&[nonce, hmac]: &[u16; 2]| {
        [&[2; 4][if command { 0 } else { 4 }..], &field(nonce), &[1], &field(hmac)].concat()
    };
    sizes.iter().flat_map(entry).collect()
}

/// A TPM2_GetRandom with these bytes for entries, or a response to one, and where they start.
fn random(command: bool, entries: &[u8]) -> (Vec<u8>, usize) {
    let code = if command { TpmCc::GetRandom.value() } else { 0 };
    let sized = |bytes: &[u8]| [&(bytes.len() as u32).to_be_bytes()[..], bytes].concat();
    let behind =
        if command { [sized(entries), vec![0, 8]].concat() } else { [sized(&[0, 1, 9]), entries.to_vec()].concat() };
    let size = 10 + behind.len() as u32;
    let bytes =
        [&TpmSt::Sessions.value().to_be_bytes()[..], &size.to_be_bytes(), &code.to_be_bytes(), &behind].concat();
    (bytes, if command { 14 } else { 17 })
}

/// What the full checks say, which is one thing; a cast is not refused.
fn walked(rules: Rules, command: bool, bytes: &[u8]) -> Result<(), Refusal> {
    let [validated, parts, areas] = if command {
        let it = TpmCommand::cast(rules, bytes).expect("a cast does not walk");
        [it.validate(), it.parts().map(|_| ()), it.areas().map(|_| ())]
    } else {
        let it = TpmResponse::cast(rules, bytes).expect("a cast does not walk");
        let cc = TpmCc::GetRandom;
        [it.validate(cc), it.parts(cc).map(|_| ()), it.areas(cc).map(|_| ())]
    };
    assert_eq!((parts, areas), (validated, validated));
    validated
}

/// Each place of a field among three entries: how many entries stand before its own, and whether it is the HMAC.
fn fields() -> impl Iterator<Item = (usize, usize)> {
    (0..3).flat_map(|before| [(before, 0), (before, 1)])
}

/// Three entries of short fields, of which one has this size.
fn one_of(size: u16, (before, field): (usize, usize)) -> [[u16; 2]; 3] {
    let mut sizes = [[3, 4]; 3];
    sizes[before][field] = size;
    sizes
}

/// Where the size of a field is.
fn size_place(command: bool, start: usize, (before, field): (usize, usize)) -> usize {
    let handle = if command { 4 } else { 0 };
    start + before * (handle + 12) + handle + field * 6
}

fn too_long(area: Area, offset: usize, size: u16) -> Result<(), Refusal> {
    if usize::from(size) <= MAX_DIGEST_SIZE {
        return Ok(());
    }
    Err(Refusal::TooManyBytes { area, offset, limit: MAX_DIGEST_SIZE, actual: size.into() })
}

#[test]
fn long_fields_are_refused_in_the_standard_reading_alone() {
    for command in [true, false] {
        for (field, size) in fields().flat_map(|field| SIZES.map(|size| (field, size))) {
            let (bytes, start) = random(command, &entries(command, &one_of(size, field)));
            assert_eq!(walked(Rules::RUST, command, &bytes), Ok(()));
            let due = too_long(Area::Authorization, size_place(command, start, field), size);
            assert_eq!(walked(Rules::STANDARD, command, &bytes), due, "{command} {field:?} {size}");
        }
    }
}

#[test]
fn a_size_is_judged_before_the_bytes_behind_it() {
    for command in [true, false] {
        for (field, size) in fields().flat_map(|field| [64, 65].map(|size| (field, size))) {
            let whole = entries(command, &one_of(size, field));
            let place = size_place(command, 0, field);
            for there in 1..2 + usize::from(size) {
                let (bytes, start) = random(command, &whole[..place + there]);
                let offset = start + place;
                let needed = if there < 2 { 2 } else { 2 + usize::from(size) };
                let short = Err(Refusal::UnexpectedEnd { area: Area::Authorization, offset, needed, available: there });
                assert_eq!(walked(Rules::RUST, command, &bytes), short);
                let due = if there < 2 { short } else { too_long(Area::Authorization, offset, size).and(short) };
                assert_eq!(walked(Rules::STANDARD, command, &bytes), due, "{command} {field:?} {size} {there}");
            }
        }
    }
}

/// Writes entries of these sizes by the rules of either reading, in a command and in a response to it.
fn written(sizes: &[[u16; 2]], handles: &[u8], room: &mut [u8]) -> [[Result<usize, WriteRefusal>; 2]; 2] {
    let (bytes, mut scratch) = (vec![7; 65535], vec![0; 400_000]);
    let of = |size: u16| &bytes[..size.into()];
    let entries: Vec<TpmsAuth> = sizes
        .iter()
        .map(|&[nonce, hmac]| TpmsAuth { nonce: of(nonce), hmac: of(hmac), ..TpmsAuth::default() })
        .collect();
    let sessions = Sessions::new(&entries, &mut scratch).expect("there is room");
    let (tag, cc, rc, parameters) = (TpmSt::Sessions, TpmCc::GetRandom, TpmRc::SUCCESS, &[][..]);
    let revision = Revision::Crate;
    let command = CommandParts { tag, cc, handles, sessions, parameters };
    [
        [Rules::RUST, Rules::STANDARD].map(|rules| command.marshal(rules, room)),
        [ResponseMode::Rust, ResponseMode::Standard]
            .map(|mode| ResponseParts { mode, revision, rc, handles, sessions, parameters }.marshal(cc, room)),
    ]
}

#[test]
fn long_fields_are_written_by_the_rust_rules_alone() {
    let mut room = vec![0; 400_000];
    for (field, size) in fields().flat_map(|field| SIZES.map(|size| (field, size))) {
        for [rust, standard] in written(&one_of(size, field), &[], &mut room) {
            assert!(rust.is_ok());
            assert_eq!(
                standard,
                too_long(Area::None, 0, size).map_err(WriteRefusal::from).and(rust),
                "{field:?} {size}"
            );
        }
    }
}

#[test]
fn the_writers_judge_each_field_in_turn() {
    let limit = MAX_DIGEST_SIZE;
    let long = |actual| Refusal::TooManyBytes { area: Area::None, offset: 0, limit, actual };
    for (sizes, handles, due) in [
        // more sessions than three, and handles that are too many, come before, and short room behind
        (&[[65, 66]; 4][..], &[0; 4][..], Refusal::TooManyItems { area: Area::None, offset: 0, limit: 3, actual: 4 }),
        (&[[65, 66]], &[0; 4], Refusal::TrailingData { area: Area::None, offset: 0, actual: 4 }),
        (&[[65, 66]], &[], long(65)),
        (&[[64, 66], [67, 68]], &[], long(66)),
        (&[[64, 64], [67, 68]], &[], long(67)),
        (&[[64, 64], [64, 64], [0, 69]], &[], long(69)),
    ] {
        let mut room = [0xFF; 9];
        for [_, standard] in written(sizes, handles, &mut room) {
            assert_eq!(standard, Err(due.into()));
        }
        assert_eq!(room, [0xFF; 9]);
    }
}
