//! Frames, one after the other, out of lines in hexadecimal or out of raw bytes. One line or one frame is held at a time, and
//! no more than `MOST` bytes of it.

use crate::hex::unhex;
use crate::look::{Role, code};
use skeinloft::TpmCc;
use std::fmt;
use std::io::{self, BufRead, Read};

/// The most bytes of a line, and of a raw frame.
pub const MOST: usize = 1 << 20;

/// The bytes of a header, which tells the size of its frame.
const HEADER: usize = 10;

/// Where something was found.
#[derive(Clone, Copy, Debug, PartialEq, Eq)]
pub enum Place {
    /// In a line, counted from 1.
    Line(u64),
    /// At a byte, counted from 0.
    Byte(u64),
}

impl fmt::Display for Place {
    fn fmt(&self, f: &mut fmt::Formatter) -> fmt::Result {
        match self {
            Self::Line(line) => write!(f, "line {line}"),
            Self::Byte(byte) => write!(f, "byte {byte}"),
        }
    }
}

/// What takes the frames.
pub trait Taker {
    /// A frame that was found.
    fn frame(&mut self, place: Place, bytes: &[u8], role: Role) -> io::Result<()>;

    /// A stretch of the input that gives no frame, and why.
    fn bad(&mut self, place: Place, why: &str) -> io::Result<()>;

    /// So many bytes of the input are read.
    fn read(&mut self, bytes: u64);
}

/// Why it ended early: the input could not be read, or the output not be written.
pub enum Stop {
    In(io::Error),
    Out(io::Error),
}

/// Reads lines: a frame, or a command and its answer, in hexadecimal. A line without a word is passed over.
pub fn lines(mut input: impl BufRead, alone: Role, taker: &mut impl Taker) -> Result<(), Stop> {
    let mut line = Vec::new();
    let mut frames = [Vec::new(), Vec::new()];
    for number in 1.. {
        let (len, whole) = next_line(&mut input, &mut line).map_err(Stop::In)?;
        if len == 0 {
            break;
        }
        let place = Place::Line(number);
        let found = if whole { frames_of(&line, &mut frames) } else { Err(format!("longer than {MOST} bytes")) };
        let [first, second] = &frames;
        let told = match found {
            Err(why) => taker.bad(place, &why),
            Ok(0) => Ok(()),
            Ok(1) => taker.frame(place, first, alone),
            Ok(_) => {
                taker.frame(place, first, Role::Command).and_then(|()| taker.frame(place, second, answer_to(first)))
            }
        };
        told.map_err(Stop::Out)?;
        taker.read(len);
    }
    Ok(())
}

/// Reads a line, and tells how many bytes it has and whether they were all kept.
fn next_line(input: &mut impl BufRead, line: &mut Vec<u8>) -> io::Result<(u64, bool)> {
    line.clear();
    let kept = input.by_ref().take(MOST as u64).read_until(b'\n', line)?;
    let cut = kept == MOST && !line.ends_with(b"\n");
    let rest = if cut { input.skip_until(b'\n')? } else { 0 };
    Ok(((kept + rest) as u64, rest == 0))
}

/// Puts the frames of a line into the room for them, and tells how many there are.
fn frames_of(line: &[u8], frames: &mut [Vec<u8>; 2]) -> Result<usize, String> {
    let words = || line.split(u8::is_ascii_whitespace).filter(|word| !word.is_empty());
    for (word, frame) in words().zip(frames) {
        unhex(word, frame)?;
    }
    match words().count() {
        count @ 0..=2 => Ok(count),
        count => Err(format!("{count} words, where a frame is one, and a command and its answer are two")),
    }
}

fn answer_to(command: &[u8]) -> Role {
    Role::Answer(code(command).map(TpmCc))
}

/// Reads raw bytes: frames end to end, cut by their size fields. In pairs they are commands and answers in turn.
pub fn raw(mut input: impl BufRead, alone: Role, pairs: bool, taker: &mut impl Taker) -> Result<(), Stop> {
    let mut bytes = Vec::new();
    let mut at = 0;
    let mut role = if pairs { Role::Command } else { alone };
    loop {
        let size = next_frame(&mut input, &mut bytes).map_err(Stop::In)?;
        if bytes.is_empty() {
            return Ok(());
        }
        let place = Place::Byte(at);
        if size > MOST && bytes.len() == MOST {
            let why = format!("the size field says {size} bytes, more than {MOST}; the rest is not cut into frames");
            return taker.bad(place, &why).map_err(Stop::Out);
        }
        taker.frame(place, &bytes, role).map_err(Stop::Out)?;
        at += bytes.len() as u64;
        taker.read(bytes.len() as u64);
        if size < HEADER && !input.fill_buf().map_err(Stop::In)?.is_empty() {
            let why = format!("the rest is not cut into frames, since the size field before it says {size} bytes");
            return taker.bad(Place::Byte(at), &why).map_err(Stop::Out);
        }
        if pairs {
            role = if role == Role::Command { answer_to(&bytes) } else { Role::Command };
        }
    }
}

/// Reads a frame as far as it goes, and gives what its size field says; 0 where it has none.
fn next_frame(input: &mut impl BufRead, bytes: &mut Vec<u8>) -> io::Result<usize> {
    bytes.clear();
    input.by_ref().take(HEADER as u64).read_to_end(bytes)?;
    let field = bytes.get(2..HEADER).and_then(|behind| behind.first_chunk());
    let size = field.map_or(0, |field| u32::from_be_bytes(*field) as usize);
    let rest = size.min(MOST).saturating_sub(bytes.len());
    input.by_ref().take(rest as u64).read_to_end(bytes)?;
    Ok(size)
}

#[cfg(test)]
mod tests {
    use super::{MOST, Place, Role, Stop, Taker, lines, raw};
    use skeinloft::TpmCc;
    use std::io;

    /// Keeps what it is told.
    #[derive(Default)]
    struct Kept {
        frames: Vec<(Place, Vec<u8>, Role)>,
        bad: Vec<(Place, String)>,
        read: u64,
    }

    impl Taker for Kept {
        fn frame(&mut self, place: Place, bytes: &[u8], role: Role) -> io::Result<()> {
            self.frames.push((place, bytes.to_vec(), role));
            Ok(())
        }

        fn bad(&mut self, place: Place, why: &str) -> io::Result<()> {
            self.bad.push((place, why.to_owned()));
            Ok(())
        }

        fn read(&mut self, bytes: u64) {
            self.read += bytes;
        }
    }

    fn of_lines(text: &[u8]) -> Kept {
        let mut kept = Kept::default();
        assert!(lines(text, Role::Alone, &mut kept).is_ok());
        kept
    }

    fn of_raw(bytes: &[u8], pairs: bool) -> Kept {
        let mut kept = Kept::default();
        assert!(raw(bytes, Role::Alone, pairs, &mut kept).is_ok());
        kept
    }

    const STARTUP: [u8; 12] = [0x80, 0x01, 0, 0, 0, 12, 0, 0, 1, 0x44, 0, 0];
    const DONE: [u8; 10] = [0x80, 0x01, 0, 0, 0, 10, 0, 0, 0, 0];

    #[test]
    fn one_word_or_two_are_frames() {
        let kept = of_lines(b"8001\r\n\n 80 0102 \nff");
        let bare: Vec<_> = kept.frames.iter().map(|(place, bytes, role)| (*place, bytes.as_slice(), *role)).collect();
        assert_eq!(
            bare,
            [
                (Place::Line(1), &[0x80, 0x01][..], Role::Alone),
                (Place::Line(3), &[0x80][..], Role::Command),
                (Place::Line(3), &[1, 2][..], Role::Answer(None)),
                (Place::Line(4), &[0xFF][..], Role::Alone),
            ]
        );
        assert!(kept.bad.is_empty());
    }

    #[test]
    fn a_bad_line_loses_no_other() {
        let kept = of_lines(b"01\n0\n02\n03 04 05\n0x\n06");
        assert_eq!(kept.frames.len(), 3);
        assert_eq!(kept.bad.iter().map(|(place, _)| *place).collect::<Vec<_>>(), [2, 4, 5].map(Place::Line));
    }

    #[test]
    fn a_line_is_held_up_to_the_limit() {
        for (digits, bad) in [(MOST - 2, false), (MOST, true), (10 * MOST, true)] {
            let mut text = vec![b'0'; digits];
            text.extend_from_slice(b"\n01");
            let kept = of_lines(&text);
            assert_eq!((kept.frames.len(), kept.bad.is_empty()), (2 - usize::from(bad), !bad));
            assert_eq!(kept.read, text.len() as u64);
        }
    }

    #[test]
    fn raw_frames_are_cut_by_their_sizes() {
        let kept = of_raw(&[&STARTUP[..], &DONE, &STARTUP].concat(), true);
        let roles: Vec<_> = kept.frames.iter().map(|(place, bytes, role)| (*place, bytes.len(), *role)).collect();
        let answer = Role::Answer(Some(TpmCc::Startup));
        let all = [(0, 12, Role::Command), (12, 10, answer), (22, 12, Role::Command)];
        assert_eq!(roles, all.map(|(at, len, role)| (Place::Byte(at), len, role)));
    }

    #[test]
    fn what_cannot_be_cut_is_named() {
        let small = [0x80, 0x01, 0, 0, 0, 3, 0, 0, 1, 0x44];
        let kept = of_raw(&[&small[..], &DONE].concat(), false);
        assert_eq!((kept.frames.len(), kept.bad[0].0), (1, Place::Byte(10)));
        assert!(of_raw(&small, false).bad.is_empty());

        let large = [0x80, 0x01, 0xFF, 0xFF, 0xFF, 0xFF, 0, 0, 1, 0x44];
        let kept = of_raw(&large, false);
        assert_eq!((kept.frames.len(), kept.bad.len()), (1, 0));
        let kept = of_raw(&[&large[..], &vec![0; 2 * MOST]].concat(), false);
        assert_eq!((kept.frames.len(), kept.bad[0].0), (0, Place::Byte(0)));

        let kept = of_raw(&[&DONE[..], &DONE[..4]].concat(), false);
        assert_eq!((kept.frames[1].0, kept.frames[1].1.len()), (Place::Byte(10), 4));
    }

    #[test]
    fn what_cannot_be_read_stops_it() {
        struct Broken;
        impl io::Read for Broken {
            fn read(&mut self, _: &mut [u8]) -> io::Result<usize> {
                Err(io::Error::other("broken"))
            }
        }
        let stop = lines(io::BufReader::new(Broken), Role::Alone, &mut Kept::default());
        assert!(matches!(stop, Err(Stop::In(_))));
    }
}
