//! `skein inspect` on recorded and published frames: each has the verdict of the library, which is asked here by its calls, in
//! both readings and by each table.
//! The frames are those that the comparison keeps, and where there are any those that SKEIN_TRAFFIC names, else those of
//! ../shared/facts beside the repository.

mod common;

use common::{calls, facts, traces, unhex};
use std::collections::BTreeSet;
use std::io::Write;
use std::path::Path;
use std::process::{Command, Stdio};

const KEPT: &str = concat!(env!("CARGO_MANIFEST_DIR"), "/../compare/src/frame/real.txt");

/// What is said of a frame: 0 where it passes, else the refusal's number, the fields, and the area.
type Said = (u64, Vec<u64>, &'static str);

const PASSES: Said = (0, Vec::new(), "");

/// The areas by their numbers.
const AREAS: [&str; 5] = ["none", "header", "handles", "authorization", "parameters"];

/// The numbers of the rules, and the words that `skein` takes for them.
const RULES: [(u32, &[&str]); 5] = [
    (calls::STANDARD, &[]),
    (calls::RUST, &["--reading", "rust"]),
    (calls::STANDARD + calls::REVISION_138, &["--revision", "1.38"]),
    (calls::STANDARD + calls::REVISION_159, &["--revision", "1.59"]),
    (calls::RUST + calls::REVISION_159, &["--reading", "rust", "--revision", "1.59"]),
];

/// Some command that has a row: TPM2_Startup.
const SOME: u32 = 0x144;

fn skein(words: &[&str]) -> Command {
    let mut command = Command::new(env!("CARGO_BIN_EXE_skein"));
    command.args(["inspect", "--json"]).args(words);
    command
}

/// The verdicts in what `skein` writes.
fn told(json: &[u8]) -> Vec<Said> {
    String::from_utf8_lossy(json).lines().map(one_told).collect()
}

fn one_told(line: &str) -> Said {
    if line.contains("\"passes\":true") {
        return PASSES;
    }
    let fields = ["offset", "needed", "available", "limit", "actual", "value"];
    let fields = fields.into_iter().filter_map(|name| number(line, name));
    let area = AREAS.into_iter().find(|area| line.contains(&format!("\"area\":\"{area}\"")));
    (number(line, "number").expect("a refusal has a number"), fields.collect(), area.expect("a refusal has an area"))
}

/// The number of this name in a line, where there is one.
fn number(line: &str, name: &str) -> Option<u64> {
    let (_, behind) = line.split_once(&format!("\"{name}\":"))?;
    behind.split([',', '}']).next()?.parse().ok()
}

/// The same of a call.
fn said(call: impl FnOnce(&mut calls::Out) -> u32) -> Said {
    let mut out = [u64::MAX; 8];
    let number = call(&mut out);
    if number == 0 {
        return PASSES;
    }
    let fields = out[calls::OFFSET..calls::AREA].iter().copied().take_while(|&field| field != u64::MAX);
    (number.into(), fields.collect(), AREAS[out[calls::AREA] as usize])
}

/// What the library says of a line by these rules: of the command, and of its answer.
fn pair(rules: u32, line: &str) -> [Said; 2] {
    let (command, answer) = line.split_once(' ').expect("a command and its answer");
    let (command, answer) = (unhex(command), unhex(answer));
    // without a code the header alone is judged, but under the tag of the answer to a bad tag all, as an answer to some command
    let code = command.get(6..10).map(|field| u32::from_be_bytes(field.try_into().expect("four bytes")));
    let code = code.or(answer.starts_with(&[0x00, 0xC4]).then_some(SOME));
    let judged = |out: &mut _| match code {
        Some(cc) => calls::response_validate(rules, cc, &answer, out),
        None => calls::response_cast(rules, &answer, out),
    };
    [said(|out| calls::command_validate(rules, &command, out)), said(judged)]
}

/// Holds `skein` to the library on a file of pairs, by all rules, and tells how many frames it has.
fn check(file: &Path) -> usize {
    let [frames, ..] = RULES.map(|(rules, words)| check_by(rules, words, file));
    frames
}

fn check_by(rules: u32, words: &[&str], file: &Path) -> usize {
    let text = std::fs::read_to_string(file).expect("a file of frames");
    let theirs: Vec<Said> = text.lines().flat_map(|line| pair(rules, line)).collect();
    let run = skein(words).arg(file).output().expect("skein runs");
    let ours = told(&run.stdout);
    assert_eq!(ours.len(), theirs.len(), "{}", file.display());
    for (place, (ours, theirs)) in ours.iter().zip(&theirs).enumerate() {
        assert_eq!(ours, theirs, "{}, frame {place}", file.display());
    }
    let refused = theirs.iter().any(|said| *said != PASSES);
    assert_eq!(run.status.code(), Some(refused.into()), "{}", file.display());
    assert!(run.stderr.is_empty());
    theirs.len()
}

#[test]
fn kept_frames() {
    assert_eq!(check(Path::new(KEPT)), 294);
}

#[test]
fn recorded_frames() {
    let Some(traces) = traces() else { return };
    let frames: usize = traces.map(|file| check(&file)).sum();
    println!("{frames} recorded frames");
    assert!(frames > 0);
}

/// Each published frame alone: a command as it is, a response for the command that is named behind the word `for`.
#[test]
fn published_frames() {
    let Some(facts) = facts() else { return };
    let text = std::fs::read_to_string(facts.join("published-frames.csv")).expect("a table of frames");
    let mut frames = 0;
    for row in text.lines().skip(1) {
        RULES.iter().for_each(|&(rules, words)| check_row(rules, words, row));
        frames += 1;
    }
    println!("{frames} published frames");
    assert!(frames > 0);
}

fn check_row(rules: u32, words: &[&str], row: &str) {
    let [kind, hex, rest] = row.splitn(3, ',').collect::<Vec<_>>()[..] else { panic!("three columns or more: {row}") };
    let bytes = unhex(hex);
    let mut command = skein(words);
    let theirs = if kind.ends_with("command") {
        match said(|out| calls::command_validate(rules, &bytes, out)) {
            // no command by its code
            (4, ..) => said(|out| calls::response_cast(rules, &bytes, out)),
            said => said,
        }
    } else {
        let named = rest.split_once("for ").and_then(|(_, behind)| behind.split_once("0x"));
        let digits =
            named.map_or("0", |(_, behind)| behind.split(|mark: char| !mark.is_ascii_hexdigit()).next().unwrap_or("0"));
        command.args(["--answers-to", &format!("0x{digits}")]);
        let cc = u32::from_str_radix(digits, 16).expect("a code");
        said(|out| calls::response_validate(rules, cc, &bytes, out))
    };
    assert_eq!(shown(command, hex), [theirs], "{row}");
}

/// The verdicts of `skein` on frames on its standard input.
fn shown(command: Command, hex: &str) -> Vec<Said> {
    told(&written(command, hex))
}

/// What it writes of them.
fn written(mut command: Command, hex: &str) -> Vec<u8> {
    let mut run = command.stdin(Stdio::piped()).stdout(Stdio::piped()).spawn().expect("skein runs");
    let mut input = run.stdin.take().expect("a pipe");
    // it writes before it has read all
    let run = std::thread::scope(|both| {
        both.spawn(move || input.write_all(hex.as_bytes()).expect("skein reads"));
        run.wait_with_output().expect("skein ends")
    });
    run.stdout
}

/// Frames that stand alone under the tag of the answer to a bad tag are judged whole, as answers to some command.
#[test]
fn under_the_tag_of_the_answer_to_a_bad_tag() {
    let codes = (0..0x1000u32).chain([0x1_001E, u32::MAX]);
    let frame = |code| ["", "00"].map(|behind| format!("00c4{:08x}{code:08x}{behind}", 10 + behind.len() / 2));
    let frames: Vec<String> = codes.flat_map(frame).collect();
    for (rules, words) in RULES {
        let judged = |hex: &String| said(|out| calls::response_validate(rules, SOME, &unhex(hex), out));
        let theirs: Vec<Said> = frames.iter().map(judged).collect();
        let passing = theirs.iter().zip(&frames).filter(|(said, _)| **said == PASSES).map(|(_, hex)| hex.as_str());
        let due: &[&str] = if words.contains(&"rust") { &[] } else { &["00c40000000a0000001e"] };
        assert!(passing.eq(due.iter().copied()));
        assert_eq!(shown(skein(words), &frames.join("\n")), theirs);
    }
}

/// A command with three entries, or a success response, of which one has a nonce or an HMAC of this size. Where fewer bytes
/// are there, they are the last.
fn with_field(command: bool, (before, hmac): (usize, bool), size: usize, there: usize) -> String {
    let handle = if command { "02000000" } else { "" };
    let entry = format!("{handle}000106010000");
    let (up_to, behind) = if hmac { ("00010601", "") } else { ("", "010000") };
    let rest = if there == size { behind.to_owned() + &entry.repeat(2 - before) } else { String::new() };
    let entries = format!("{}{handle}{up_to}{size:04x}{}{rest}", entry.repeat(before), "05".repeat(there));
    let len = entries.len() / 2;
    if command {
        format!("8002{:08x}0000015e80000000{len:08x}{entries}", 18 + len)
    } else {
        format!("8002{:08x}0000000000000000{entries}", 14 + len)
    }
}

/// A nonce or an HMAC that is refused for its size is named, and so is what the rust reading says.
#[test]
fn long_fields_are_named() {
    const UNSEAL: u32 = 0x15E;
    for command in [true, false] {
        let judged = |rules, hex: &str| {
            said(|out| match command {
                true => calls::command_validate(rules, &unhex(hex), out),
                false => calls::response_validate(rules, UNSEAL, &unhex(hex), out),
            })
        };
        let words: &[&str] = if command { &[] } else { &["--answers-to", "0x15e"] };
        let places = (0..3).flat_map(|before| [(before, false), (before, true)]);
        let sizes = [(64, 64), (65, 65), (300, 300), (65535, 65535), (64, 9), (65, 9), (65, 0)];
        let cases: Vec<_> = places.flat_map(|place| sizes.map(|(size, there)| (place, size, there))).collect();
        let frames: Vec<String> =
            cases.iter().map(|&(place, size, there)| with_field(command, place, size, there)).collect();
        let lines = String::from_utf8(written(skein(words), &frames.join("\n"))).expect("text");
        assert_eq!(lines.lines().count(), cases.len());
        for ((line, hex), ((before, hmac), size, there)) in lines.lines().zip(&frames).zip(cases) {
            assert_eq!(one_told(line), judged(calls::STANDARD, hex), "{hex}");
            let field = format!("the {} of session {} is longer", if hmac { "HMAC" } else { "nonce" }, before + 1);
            assert_eq!(line.contains(&field), size > 64, "{line}");
            let (rust, ..) = judged(calls::RUST, hex);
            assert_eq!(rust == 0, size == there, "{hex}");
            assert_eq!(line.contains("rust the frame passes"), size > 64 && rust == 0, "{line}");
            assert_eq!(line.contains("rust the frame is refused for something else"), size > 64 && rust != 0, "{line}");
        }
    }
}

/// Where a code is refused by one table, the tables that have it are named; else none is.
#[test]
fn other_tables_are_named() {
    let tables =
        [(calls::REVISION_CRATE, "the crate's table"), (calls::REVISION_138, "1.38 "), (calls::REVISION_159, "1.59 ")];
    let codes: Vec<u32> = (0..0x200).chain([0x2000_0000, u32::MAX]).collect();
    let pairs: Vec<String> = codes.iter().map(|code| format!("80010000000a{code:08x} 80010000000a00000000")).collect();
    let mut named = BTreeSet::new();
    for (rules, words) in RULES {
        let shown = String::from_utf8(written(skein(words), &pairs.join("\n"))).expect("text");
        assert_eq!(shown.lines().count(), 2 * codes.len());
        for (line, &code) in shown.lines().zip(codes.iter().flat_map(|code| [code; 2])) {
            let (refused, ..) = one_told(line);
            let hint = line.split_once("\"hint\":\"").map_or("", |(_, behind)| behind);
            for (number, table) in tables {
                let mut out = [0; 8];
                calls::table_known(number, code, &mut out);
                let due = refused == 4 && out[0] == 1;
                assert_eq!(hint.contains(table), due, "{rules:#x} {line}");
                named.extend(due.then_some((rules / 16, table)));
            }
        }
    }
    assert_eq!(
        named.into_iter().collect::<Vec<_>>(),
        [(0, "1.59 "), (1, "1.59 "), (1, "the crate's table"), (2, "the crate's table")]
    );
}

/// A TPM2_Load with a session, and an answer to it: both have a handle.
const LOAD: u32 = 0x157;
const LOADED: [(bool, &str); 2] = [
    (true, "80020000001d0000015780000000000000094000000900000100000102"),
    (false, "80020000001900000000800000000000000203040000010000"),
];

/// A frame of this pair cut at each place, as its size field says where it has one, and with each size behind its handles.
fn damaged(hex: &str) -> Vec<Vec<u8>> {
    let whole = unhex(hex);
    let cut = |len: usize| {
        let mut cut = whole[..len].to_vec();
        if let Some(size) = cut.get_mut(2..6) {
            size.copy_from_slice(&(len as u32).to_be_bytes());
        }
        cut
    };
    let sized = |size| [&whole[..17], &[size], &whole[18..]].concat();
    (1..whole.len()).map(cut).chain((0..=40).map(sized)).collect()
}

/// Where an area is, by the table and the size behind the handles; the end of the bytes is the end of what is short.
fn area_at(command: bool, area: &str, bytes: &[u8]) -> [usize; 2] {
    let mut out = [0; 8];
    assert_eq!(calls::table_find(calls::REVISION_CRATE, LOAD, &mut out), 0);
    let [of_command, of_answer, ..] = out;
    let (header, len) = (10, bytes.len());
    let handles = header + 4 * if command { of_command } else { of_answer } as usize;
    let size = bytes.get(handles..handles + 4).map(|field| u32::from_be_bytes(field.try_into().expect("four bytes")));
    let end = size.map_or(len, |size| len.min(handles + 4 + size as usize));
    match (area, command) {
        ("header", _) => [0, header.min(len)],
        ("handles", _) => [header, handles.min(len)],
        ("authorization", true) | ("parameters", false) => [handles, end],
        ("authorization", false) => [end, len],
        _ => panic!("no frame is refused in {area}"),
    }
}

/// The bytes of the area that a frame is refused in are marked.
#[test]
fn areas_are_marked() {
    for (command, hex) in LOADED {
        let frames = damaged(hex);
        let lines: Vec<String> =
            frames.iter().map(|bytes| bytes.iter().map(|byte| format!("{byte:02x}")).collect()).collect();
        let words: &[&str] = if command { &[] } else { &["--answers-to", "Load"] };
        let shown = String::from_utf8(written(skein(words), &lines.join("\n"))).expect("text");
        assert_eq!(shown.lines().count(), frames.len());
        let mut seen = BTreeSet::new();
        for (line, bytes) in shown.lines().zip(&frames) {
            let (refused, _, area) = one_told(line);
            let place = |behind, name| number(behind, name).expect("a place") as usize;
            let marked =
                line.split_once("\"marked\":").map(|(_, behind)| ["from", "to"].map(|name| place(behind, name)));
            let due = (refused != 0).then(|| area_at(command, area, bytes));
            assert_eq!(marked, due, "{line}");
            seen.insert(area);
        }
        let of_both = ["", "header", "handles", "authorization"];
        let due = of_both.into_iter().chain((!command).then_some("parameters"));
        assert_eq!(seen, due.collect(), "{hex}");
    }
}
