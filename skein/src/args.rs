//! The words of the command line.

use skeinloft::{Reading, Revision, Rules, TpmCc};
use std::ffi::OsString;

pub const USAGE: &str = "\
usage: skein inspect [--json] [--raw [--pairs]] [--answers-to COMMAND] [--reading READING] [--revision REVISION] [FILE]
       skein nonces [--json] [--raw] [--revision REVISION] [FILE]";

pub const HELP: &str = "\
usage: skein inspect [--json] [--raw [--pairs]] [--answers-to COMMAND]
                     [--reading READING] [--revision REVISION] [FILE]
       skein nonces [--json] [--raw] [--revision REVISION] [FILE]
       skein --help | --version

inspect shows TPM 2.0 command and response frames, and why a bad one is
refused, with marks under the area that failed and the byte where it did.
FILE, or standard input, has a frame a line in hexadecimal, or a command and
its answer on a line with a space between them. A frame that stands alone is
taken for a command where its code is a command's. Else it is taken for a
response, of which the header alone is judged: what is behind it depends on
the command that it answers. Under the tag 00C4, which no command has, it is
a response and is judged whole.

nonces follows the sessions of recorded traffic, a command and its answer a
line: where each one opens, the nonces that it moves to, where it stays at
one and why, where it closes, and what the nonce keeper refuses.

  --json                one object a frame, or for each line of nonces
  --raw                 FILE has raw bytes: frames end to end, cut by their
                        size fields; for nonces commands and their answers
                        in turn
  --pairs               with --raw: commands and their answers in turn
  --answers-to COMMAND  frames that stand alone are answers to this command,
                        which is a name (TPM2_GetRandom, GetRandom) or a
                        code (0x17B)
  --reading READING     standard, as without this option, or rust, as the
                        crate tpm2-protocol reads: it refuses what a TPM
                        answers to a command whose tag it did not understand,
                        and takes nonces and HMACs of more than 64 bytes
  --revision REVISION   the table of commands: crate, as without this option,
                        which is that of tpm2-protocol, or 1.38 or 1.59, of
                        that revision of the TPM 2.0 Library

The status is 0 where nothing is refused, 1 where something is or a line has
no frame, 2 where the words are wrong or FILE cannot be read.
";

/// What is asked for.
#[derive(Debug, PartialEq, Eq)]
pub enum Asked {
    Help,
    Version,
    Inspect(Inspect),
    Nonces(Nonces),
}

#[derive(Debug, Default, PartialEq, Eq)]
pub struct Inspect {
    pub json: bool,
    pub raw: bool,
    pub pairs: bool,
    pub answers_to: Option<TpmCc>,
    pub rules: Rules,
    /// None for standard input.
    pub file: Option<OsString>,
}

#[derive(Debug, Default, PartialEq, Eq)]
pub struct Nonces {
    pub json: bool,
    pub raw: bool,
    pub revision: Revision,
    /// None for standard input.
    pub file: Option<OsString>,
}

/// Understands the words, or says what is wrong with them.
pub fn understand(words: impl IntoIterator<Item = OsString>) -> Result<Asked, String> {
    let mut words = words.into_iter();
    match words.next().as_deref().and_then(|word| word.to_str()) {
        Some("inspect") => inspect(words),
        Some("nonces") => nonces(words),
        Some("--help" | "-h" | "help") => Ok(Asked::Help),
        Some("--version" | "-V") => Ok(Asked::Version),
        Some(other) => Err(format!("there is no '{other}'")),
        None => Err("nothing is asked for".to_owned()),
    }
}

fn nonces(mut words: impl Iterator<Item = OsString>) -> Result<Asked, String> {
    let mut asked = Nonces::default();
    while let Some(word) = words.next() {
        match word.to_str() {
            Some("--json") => asked.json = true,
            Some("--raw") => asked.raw = true,
            Some("--revision") => asked.revision = revision(words.next())?,
            Some("--help" | "-h") => return Ok(Asked::Help),
            _ => name_file(word, &mut asked.file)?,
        }
    }
    Ok(Asked::Nonces(asked))
}

fn inspect(mut words: impl Iterator<Item = OsString>) -> Result<Asked, String> {
    let mut asked = Inspect::default();
    while let Some(word) = words.next() {
        match word.to_str() {
            Some("--json") => asked.json = true,
            Some("--raw") => asked.raw = true,
            Some("--pairs") => asked.pairs = true,
            Some("--answers-to") => asked.answers_to = Some(command(words.next())?),
            Some("--reading") => asked.rules.reading = reading(words.next())?,
            Some("--revision") => asked.rules.revision = revision(words.next())?,
            Some("--help" | "-h") => return Ok(Asked::Help),
            _ => name_file(word, &mut asked.file)?,
        }
    }
    if asked.pairs && !asked.raw {
        return Err("--pairs goes with --raw".to_owned());
    }
    if asked.pairs && asked.answers_to.is_some() {
        return Err("--answers-to does not go with --pairs".to_owned());
    }
    Ok(Asked::Inspect(asked))
}

/// A word that is no option names the file; `-` is standard input.
fn name_file(word: OsString, file: &mut Option<OsString>) -> Result<(), String> {
    match word.to_str() {
        Some("-") => {}
        Some(option) if option.starts_with('-') => return Err(format!("there is no option {option}")),
        _ if file.is_some() => return Err("there can be one FILE".to_owned()),
        _ => *file = Some(word),
    }
    Ok(())
}

fn reading(word: Option<OsString>) -> Result<Reading, String> {
    let word = word.ok_or("--reading names no READING")?;
    match word.to_str() {
        Some("standard") => Ok(Reading::Standard),
        Some("rust") => Ok(Reading::Rust),
        _ => Err(format!("there is no reading '{}': it is standard or rust", word.to_string_lossy())),
    }
}

fn revision(word: Option<OsString>) -> Result<Revision, String> {
    let word = word.ok_or("--revision names no REVISION")?;
    let named = Revision::ALL.into_iter().find(|revision| word.to_str() == Some(revision.name()));
    named.ok_or_else(|| format!("there is no revision '{}': it is crate, 1.38 or 1.59", word.to_string_lossy()))
}

/// A command by its name, with one of the Library's prefixes or without, or by its code.
fn command(word: Option<OsString>) -> Result<TpmCc, String> {
    let word = word.ok_or("--answers-to names no COMMAND")?;
    let word = word.to_string_lossy();
    let bare =
        |name: &str| ["TPM2_", "TPM_CC_"].iter().find_map(|&prefix| name.strip_prefix(prefix).map(str::to_owned));
    let asked = bare(&word).unwrap_or_else(|| word.to_string());
    let named = TpmCc::NAMED.iter().find(|(_, name)| bare(name).is_some_and(|name| name.eq_ignore_ascii_case(&asked)));
    let code = || word.strip_prefix("0x").and_then(|digits| u32::from_str_radix(digits, 16).ok()).map(TpmCc);
    named.map(|&(cc, _)| cc).or_else(code).ok_or_else(|| format!("there is no command '{word}'"))
}

#[cfg(test)]
mod tests {
    use super::{Asked, Inspect, Nonces, understand};
    use skeinloft::{Revision, Rules, TpmCc};

    fn of(words: &str) -> Result<Asked, String> {
        understand(words.split_whitespace().map(Into::into))
    }

    #[test]
    fn words_are_understood() {
        let all = Inspect { raw: true, pairs: true, json: true, file: Some("f".into()), ..Inspect::default() };
        assert_eq!(of("inspect --raw f --pairs --json"), Ok(Asked::Inspect(all)));
        assert_eq!(of("inspect -"), Ok(Asked::Inspect(Inspect::default())));
        for word in ["GetRandom", "getrandom", "TPM2_GetRandom", "TPM_CC_GetRandom", "0x17b"] {
            let asked = Inspect { answers_to: Some(TpmCc::GetRandom), ..Inspect::default() };
            assert_eq!(of(&format!("inspect --answers-to {word}")), Ok(Asked::Inspect(asked)));
        }
        for (words, rules) in [
            ("", Rules::STANDARD),
            ("--reading standard", Rules::STANDARD),
            ("--reading rust", Rules::RUST),
            ("--revision crate", Rules::STANDARD),
            ("--revision 1.38", Rules::STANDARD.at(Revision::Lib138)),
            ("--revision 1.59 --reading rust", Rules::RUST.at(Revision::Lib159)),
        ] {
            let asked = Inspect { rules, ..Inspect::default() };
            assert_eq!(of(&format!("inspect {words}")), Ok(Asked::Inspect(asked)));
        }
        let all = Nonces { json: true, raw: true, revision: Revision::Lib159, file: Some("f".into()) };
        assert_eq!(of("nonces --raw --revision 1.59 f --json"), Ok(Asked::Nonces(all)));
        assert_eq!(of("nonces -"), Ok(Asked::Nonces(Nonces::default())));
        assert_eq!((of("nonces -h"), of("inspect f --help")), (Ok(Asked::Help), Ok(Asked::Help)));
    }

    #[test]
    fn wrong_words_are_named() {
        for words in [
            "",
            "show",
            "inspect --colour",
            "inspect a b",
            "inspect --pairs",
            "inspect --answers-to",
            "inspect --answers-to Nothing",
            "inspect --raw --pairs --answers-to Load",
            "inspect --reading",
            "inspect --reading Rust",
            "inspect --revision",
            "inspect --revision 159",
            "nonces --pairs",
            "nonces --reading rust",
            "nonces --revision 1.60",
            "nonces a b",
        ] {
            assert!(of(words).is_err(), "{words}");
        }
    }
}
