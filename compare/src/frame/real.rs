//! Frames as TPM software and a TPM wrote them, a command and its answer a line: the shortest that were seen of each
//! command, number of sessions and kind of answer, and some that were damaged on purpose.

/// The command and the response of a line; none where it has no two words of whole bytes in hexadecimal.
pub fn pair(line: &str) -> Option<(Vec<u8>, Vec<u8>)> {
    let (command, response) = line.split_once(' ')?;
    Some((unhex(command)?, unhex(response)?))
}

pub fn unhex(text: &str) -> Option<Vec<u8>> {
    let digits = text.as_bytes().chunks(2).map(|pair| std::str::from_utf8(pair).ok());
    digits.map(|pair| u8::from_str_radix(pair?, 16).ok()).collect()
}

/// The pairs that are kept here.
pub fn pairs() -> Vec<(Vec<u8>, Vec<u8>)> {
    include_str!("real.txt").lines().map(|line| pair(line).expect("a line is a pair")).collect()
}

/// The code field, 0 where there is none.
pub fn code(frame: &[u8]) -> u32 {
    frame.get(6..10).map_or(0, |field| u32::from_be_bytes(field.try_into().expect("four bytes")))
}
