//! The tables of commands.

use crate::calls;
use crate::cc::TpmCc;
use crate::view::ask;
use core::fmt;

/// A table of commands: which codes there are, and how many handles each has. [`Rules`](crate::Rules) name one.
///
/// A TPM has the commands of its revision of the Library. A code that is not in the table is refused with
/// [`Refusal::InvalidCc`](crate::Refusal::InvalidCc).
///
/// All codes of revision 1.38 are in the three tables. Behind [`TpmCc::EncryptDecrypt2`] it has none but
/// [`TpmCc::VendorTcgTest`], revision 1.59 has those up to [`TpmCc::ActSetTimeout`], and the crate has all that have a name but
/// [`TpmCc::CertifyX509`]. A code has the same handles in each table that it is in, so those read its frames alike.
///
/// ```
/// use skeinloft::{Area, Refusal, Revision, Rules, TpmCc, TpmCommand};
///
/// // a TPM2_CertifyX509, which the crate's table lacks
/// let bytes = [0x80, 0x01, 0, 0, 0, 18, 0, 0, 0x01, 0x97, 0x80, 0, 0, 0, 0x80, 0, 0, 1];
/// let command = TpmCommand::cast(Rules::STANDARD.at(Revision::Lib159), &bytes)?;
/// assert_eq!(command.cc()?, TpmCc::CertifyX509);
///
/// let refusal = TpmCommand::cast(Rules::STANDARD, &bytes).unwrap_err();
/// assert_eq!(refusal, Refusal::InvalidCc { area: Area::Header, offset: 6, value: 0x197 });
/// # Ok::<(), Refusal>(())
/// ```
#[derive(Clone, Copy, Debug, Default, PartialEq, Eq, PartialOrd, Ord, Hash)]
pub enum Revision {
    /// That of tpm2-protocol, 126 commands.
    #[default]
    Crate,
    /// That of the Library's revision 1.38, 113 commands.
    Lib138,
    /// That of the Library's revision 1.59, 118 commands.
    Lib159,
}

impl Revision {
    /// All of them.
    ///
    /// ```
    /// use skeinloft::{Revision, TpmCc};
    ///
    /// assert_eq!(Revision::ALL.map(|revision| revision.has(TpmCc::AcSend)), [true, false, true]);
    /// ```
    pub const ALL: [Self; 3] = [Self::Crate, Self::Lib138, Self::Lib159];

    /// Tells whether a code is in the table.
    ///
    /// ```
    /// use skeinloft::{Revision, TpmCc};
    ///
    /// assert!(Revision::Lib159.has(TpmCc::CertifyX509));
    /// assert!(!Revision::Lib159.has(TpmCc::EccEncrypt));
    /// ```
    #[must_use]
    pub fn has(self, cc: TpmCc) -> bool {
        // it is never refused
        ask(|out| calls::table_known(self.number(), cc.0, out)).is_ok_and(|[known, ..]| known == 1)
    }

    /// The name in a word: the revision of the Library, or `crate`.
    ///
    /// ```
    /// assert_eq!(skeinloft::Revision::Lib138.name(), "1.38");
    /// ```
    #[must_use]
    pub const fn name(self) -> &'static str {
        match self {
            Self::Crate => "crate",
            Self::Lib138 => "1.38",
            Self::Lib159 => "1.59",
        }
    }

    /// As the calls take it.
    pub(crate) const fn number(self) -> u32 {
        match self {
            Self::Crate => calls::REVISION_CRATE,
            Self::Lib138 => calls::REVISION_138,
            Self::Lib159 => calls::REVISION_159,
        }
    }
}

/// The name.
impl fmt::Display for Revision {
    fn fmt(&self, f: &mut fmt::Formatter) -> fmt::Result {
        f.pad(self.name())
    }
}
