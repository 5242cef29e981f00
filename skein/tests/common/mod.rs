//! What the tests of skein share: the calls of the library, and recorded frames.

#[allow(dead_code)]
#[path = "../../../bindings/rust/src/calls.rs"]
pub mod calls;

// the library is linked with it
use skeinloft as _;
use std::path::PathBuf;

pub fn unhex(text: &str) -> Vec<u8> {
    let digits = text.as_bytes().chunks(2).map(|pair| std::str::from_utf8(pair).expect("digits"));
    digits.map(|pair| u8::from_str_radix(pair, 16).expect("hexadecimal")).collect()
}

/// The folder of recorded frames, if there is one: SKEIN_TRAFFIC names it, else it is ../shared/facts beside the repository.
pub fn facts() -> Option<PathBuf> {
    let beside = || PathBuf::from(concat!(env!("CARGO_MANIFEST_DIR"), "/../../shared/facts"));
    let folder = std::env::var_os("SKEIN_TRAFFIC").map_or_else(beside, PathBuf::from);
    if !folder.is_dir() {
        println!("skipped, since there is no {}", folder.display());
        return None;
    }
    Some(folder)
}

/// The files of that folder that have a command and its answer a line.
pub fn traces() -> Option<impl Iterator<Item = PathBuf>> {
    let folder = std::fs::read_dir(facts()?.join("traces")).expect("a folder of traces");
    let files = folder.map(|entry| entry.expect("a file").path());
    Some(files.filter(|path| path.extension().is_some_and(|end| end == "txt")))
}
