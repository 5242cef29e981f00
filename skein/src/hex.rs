//! Bytes in hexadecimal.

use std::fmt;

/// Bytes that are shown in hexadecimal.
pub struct Hex<'a>(pub &'a [u8]);

impl fmt::Display for Hex<'_> {
    fn fmt(&self, f: &mut fmt::Formatter) -> fmt::Result {
        const DIGITS: &[u8; 16] = b"0123456789abcdef";
        // in blocks, since a call for each byte is slow
        let mut block = [0; 128];
        for bytes in self.0.chunks(block.len() / 2) {
            for (pair, byte) in block.chunks_exact_mut(2).zip(bytes) {
                pair.copy_from_slice(&[DIGITS[usize::from(byte >> 4)], DIGITS[usize::from(byte & 15)]]);
            }
            f.write_str(std::str::from_utf8(&block[..2 * bytes.len()]).map_err(|_| fmt::Error)?)?;
        }
        Ok(())
    }
}

/// Puts the bytes of a word into the room that is left of them; says what is wrong with the word if it has none.
pub fn unhex(word: &[u8], bytes: &mut Vec<u8>) -> Result<(), String> {
    bytes.clear();
    for (at, pair) in word.chunks(2).enumerate() {
        let mut byte = 0;
        for (&digit, place) in pair.iter().zip(2 * at + 1..) {
            let value = char::from(digit).to_digit(16).ok_or_else(|| no_digit(digit, place))?;
            byte = 16 * byte + value as u8;
        }
        bytes.push(byte);
    }
    if word.len() % 2 == 1 { Err(format!("{} hexadecimal digits, an odd number", word.len())) } else { Ok(()) }
}

fn no_digit(byte: u8, place: usize) -> String {
    if byte.is_ascii_graphic() {
        format!("'{}' is no hexadecimal digit (digit {place} of the frame)", char::from(byte))
    } else {
        format!("the byte 0x{byte:02x} is no hexadecimal digit; a file of raw bytes is read with --raw")
    }
}

#[cfg(test)]
mod tests {
    use super::{Hex, unhex};

    #[test]
    fn every_byte_comes_back() {
        let all: Vec<u8> = (0..=255).collect();
        let mut again = Vec::new();
        assert_eq!(unhex(Hex(&all).to_string().as_bytes(), &mut again), Ok(()));
        assert_eq!(again, all);
        assert_eq!(unhex(Hex(&all).to_string().to_uppercase().as_bytes(), &mut again), Ok(()));
        assert_eq!(again, all);
    }

    #[test]
    fn what_is_no_byte_is_named() {
        let said = |word: &str| unhex(word.as_bytes(), &mut Vec::new()).unwrap_err();
        assert_eq!(said("800"), "3 hexadecimal digits, an odd number");
        assert_eq!(said("80g1"), "'g' is no hexadecimal digit (digit 3 of the frame)");
        assert!(said("\0").ends_with("--raw"));
    }
}
