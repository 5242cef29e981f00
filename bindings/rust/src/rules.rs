//! The rules by which frames are judged and written.

use crate::calls;
use crate::revision::Revision;
use crate::st::TpmSt;

/// The most bytes that a nonce or an HMAC has by the standard rules: those of the longest digest (Part 2, `TPMU_HA`).
///
/// So a buffer of this size takes each one that is read by [`Rules::STANDARD`]. Those that are read by [`Rules::RUST`] can
/// have 65,535.
///
/// ```
/// use skeinloft::{MAX_DIGEST_SIZE, Rules, TpmCommand};
///
/// let unseal = TpmCommand::cast(Rules::STANDARD, &[
///     0x80, 0x02, 0, 0, 0, 33, 0, 0, 0x01, 0x5E, 0x80, 0, 0, 0, // tag, size, code, handle
///     0, 0, 0, 15, 0x40, 0, 0, 9, 0, 0, 0, 0, 6, b's', b'e', b'c', b'r', b'e', b't', // one entry
/// ])?;
/// let mut kept = [0; MAX_DIGEST_SIZE];
/// for entry in unseal.parts()?.sessions.iter() {
///     kept[..entry.hmac.len()].copy_from_slice(entry.hmac);
/// }
/// assert!(kept.starts_with(b"secret"));
/// # Ok::<(), skeinloft::Refusal>(())
/// ```
pub const MAX_DIGEST_SIZE: usize = 64;

/// The rules by which a frame is judged: every call that judges one takes them first.
///
/// Name [`Rules::STANDARD`], or [`Rules::RUST`] to answer as software that runs tpm2-protocol does; and [`at`](Rules::at) a
/// table of commands other than the crate's.
///
/// ```
/// use skeinloft::{Area, Refusal, Revision, Rules, TpmResponse};
///
/// // what a TPM answers to a command whose tag it does not understand
/// let answer = [0x00, 0xC4, 0, 0, 0, 10, 0, 0, 0, 0x1E];
/// assert!(TpmResponse::cast(Rules::STANDARD, &answer).is_ok());
///
/// let refusal = TpmResponse::cast(Rules::RUST.at(Revision::Lib159), &answer).unwrap_err();
/// assert_eq!(refusal, Refusal::InvalidTag { area: Area::Header, offset: 0, value: 0x00C4 });
/// ```
#[derive(Clone, Copy, Debug, Default, PartialEq, Eq, Hash)]
pub struct Rules {
    /// How a frame is read.
    pub reading: Reading,
    /// Which commands there are.
    pub revision: Revision,
}

impl Rules {
    /// The rules of the standard reading at the crate's table, which are the default.
    ///
    /// ```
    /// use skeinloft::{Reading, Revision, Rules};
    ///
    /// assert_eq!(Rules::STANDARD, Rules { reading: Reading::Standard, revision: Revision::Crate });
    /// assert_eq!(Rules::STANDARD, Rules::default());
    /// ```
    pub const STANDARD: Self = Self { reading: Reading::Standard, revision: Revision::Crate };

    /// The rules of the Rust's reading at the crate's table.
    ///
    /// ```
    /// use skeinloft::{Reading, Revision, Rules};
    ///
    /// assert_eq!(Rules::RUST, Rules { reading: Reading::Rust, revision: Revision::Crate });
    /// ```
    pub const RUST: Self = Self { reading: Reading::Rust, ..Self::STANDARD };

    /// The same reading at another table.
    ///
    /// ```
    /// use skeinloft::{Reading, Revision, Rules};
    ///
    /// const RULES: Rules = Rules::STANDARD.at(Revision::Lib159);
    /// assert_eq!(RULES, Rules { reading: Reading::Standard, revision: Revision::Lib159 });
    /// ```
    #[must_use]
    pub const fn at(self, revision: Revision) -> Self {
        Self { revision, ..self }
    }

    /// As the calls take them.
    pub(crate) const fn number(self) -> u32 {
        let reading = match self.reading {
            Reading::Rust => calls::RUST,
            Reading::Standard => calls::STANDARD,
        };
        reading + self.revision.number()
    }
}

/// How a frame is read. The readings differ in responses under the tag [`TpmSt::RspCommand`], and in frames with a nonce or
/// an HMAC of more than [`MAX_DIGEST_SIZE`] bytes; all others are read alike.
///
/// ```
/// use skeinloft::{Reading, Rules, TpmCommand};
///
/// let bytes = [0x80, 0x01, 0, 0, 0, 10, 0, 0, 0x01, 0x7C];
/// for reading in [Reading::Rust, Reading::Standard] {
///     assert!(TpmCommand::cast(Rules { reading, ..Rules::default() }, &bytes).is_ok());
/// }
/// ```
#[derive(Clone, Copy, Debug, Default, PartialEq, Eq, Hash)]
pub enum Reading {
    /// As tpm2-protocol reads: no frame has that tag, and nonces and HMACs have no limit.
    Rust,
    /// As the Library has it: the answer to a bad tag passes, which is that tag and the code `TPM_RC_BAD_TAG` in ten bytes,
    /// and a nonce or an HMAC has at most [`MAX_DIGEST_SIZE`] bytes.
    #[default]
    Standard,
}

/// How a response is written. That the Rust's mode writes the answer to a bad tag cannot be asked for.
///
/// ```
/// use skeinloft::{ResponseMode, ResponseParts, Revision, Sessions, TpmCc, TpmRc, TpmRcBase};
///
/// let bad_tag = ResponseParts {
///     mode: ResponseMode::BadTag,
///     revision: Revision::Lib159,
///     rc: TpmRc::Fmt0(TpmRcBase::BadTag),
///     handles: &[],
///     sessions: Sessions::default(),
///     parameters: &[],
/// };
/// let mut room = [0; 10];
/// bad_tag.marshal(TpmCc::Startup, &mut room)?;
/// assert_eq!(room, [0x00, 0xC4, 0, 0, 0, 10, 0, 0, 0, 0x1E]);
/// # Ok::<(), skeinloft::WriteRefusal>(())
/// ```
#[derive(Clone, Copy, Debug, PartialEq, Eq, Hash)]
pub enum ResponseMode {
    /// As tpm2-protocol writes.
    Rust,
    /// By the standard rules, under the tag that the sessions choose.
    Standard,
    /// By the standard rules, under [`TpmSt::RspCommand`], which goes with `TPM_RC_BAD_TAG` alone.
    BadTag,
}

impl ResponseMode {
    /// The mode that writes what was read by these rules under a tag.
    pub(crate) const fn again(rules: Rules, tag: TpmSt) -> Self {
        match (rules.reading, tag) {
            (Reading::Rust, _) => Self::Rust,
            (Reading::Standard, TpmSt::RspCommand) => Self::BadTag,
            (Reading::Standard, _) => Self::Standard,
        }
    }

    /// As the calls take it, with a table.
    pub(crate) const fn number_at(self, revision: Revision) -> u32 {
        let mode = match self {
            Self::Rust => calls::RUST,
            Self::Standard => calls::STANDARD,
            Self::BadTag => calls::STANDARD_BAD_TAG,
        };
        mode + revision.number()
    }
}
