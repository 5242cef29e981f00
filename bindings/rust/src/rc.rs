//! The response code.

use crate::base::TpmRcBase;
use crate::calls;
use crate::refusal::Refusal;
use crate::view::ask;
use core::fmt;

/// The part of a command that a response code speaks of, by its number.
///
/// ```
/// use skeinloft::{TpmRc, TpmRcIndex};
///
/// assert_eq!(TpmRc::try_from(0x184)?.index(), Some(TpmRcIndex::Handle(1)));
/// assert_eq!(TpmRcIndex::Handle(1).to_string(), "handle 1");
/// # Ok::<(), skeinloft::Refusal>(())
/// ```
#[derive(Clone, Copy, Debug, PartialEq, Eq, Hash)]
pub enum TpmRcIndex {
    /// A parameter, counted from 1.
    Parameter(u8),
    /// A handle, counted from 1.
    Handle(u8),
    /// A session, counted from 0.
    Session(u8),
}

impl fmt::Display for TpmRcIndex {
    fn fmt(&self, f: &mut fmt::Formatter) -> fmt::Result {
        match self {
            Self::Parameter(n) => write!(f, "parameter {n}"),
            Self::Handle(n) => write!(f, "handle {n}"),
            Self::Session(n) => write!(f, "session {n}"),
        }
    }
}

/// A response code, taken apart.
///
/// ```
/// use skeinloft::{TpmRc, TpmRcBase, TpmRcIndex};
///
/// let rc = TpmRc::try_from(0x1C4)?;
/// assert_eq!(rc, TpmRc::Fmt1 { base: TpmRcBase::Value, index: Some(TpmRcIndex::Parameter(1)) });
/// assert_eq!(rc.to_string(), "TPM_RC_VALUE (parameter 1)");
/// assert_eq!(rc.value(), 0x1C4);
///
/// assert_eq!(TpmRc::try_from(0x922)?, TpmRc::Warn(TpmRcBase::Retry));
/// assert!(TpmRc::try_from(0x0C4).is_err());
/// # Ok::<(), skeinloft::Refusal>(())
/// ```
#[derive(Clone, Copy, Debug, PartialEq, Eq, Hash)]
pub enum TpmRc {
    /// Format zero: success or an error.
    Fmt0(TpmRcBase),
    /// Format zero: a warning.
    Warn(TpmRcBase),
    /// Format one: an error in a part of the command, which it may name.
    Fmt1 {
        /// What is wrong.
        base: TpmRcBase,
        /// With which part.
        index: Option<TpmRcIndex>,
    },
}

impl TpmRc {
    /// The command was carried out.
    ///
    /// ```
    /// assert_eq!(skeinloft::TpmRc::SUCCESS.value(), 0);
    /// ```
    pub const SUCCESS: Self = Self::Fmt0(TpmRcBase::Success);

    /// The base code.
    ///
    /// ```
    /// use skeinloft::{TpmRc, TpmRcBase};
    ///
    /// assert_eq!(TpmRc::try_from(0x984)?.base(), TpmRcBase::Value);
    /// # Ok::<(), skeinloft::Refusal>(())
    /// ```
    #[must_use]
    pub const fn base(self) -> TpmRcBase {
        match self {
            Self::Fmt0(base) | Self::Warn(base) | Self::Fmt1 { base, .. } => base,
        }
    }

    /// The part of the command that it speaks of, if it names one.
    ///
    /// ```
    /// use skeinloft::{TpmRc, TpmRcIndex};
    ///
    /// assert_eq!(TpmRc::try_from(0x984)?.index(), Some(TpmRcIndex::Session(1)));
    /// assert_eq!(TpmRc::try_from(0x101)?.index(), None);
    /// # Ok::<(), skeinloft::Refusal>(())
    /// ```
    #[must_use]
    pub const fn index(self) -> Option<TpmRcIndex> {
        match self {
            Self::Fmt1 { index, .. } => index,
            Self::Fmt0(_) | Self::Warn(_) => None,
        }
    }

    /// The code as it stands in a frame. An index counts to four bits.
    ///
    /// ```
    /// use skeinloft::{TpmRc, TpmRcBase, TpmRcIndex};
    ///
    /// let rc = TpmRc::Fmt1 { base: TpmRcBase::AuthFail, index: Some(TpmRcIndex::Session(1)) };
    /// assert_eq!(rc.value(), 0x98E);
    /// ```
    #[must_use]
    pub fn value(self) -> u32 {
        let (kind, index) = match self {
            Self::Fmt0(_) => (0, 0),
            Self::Warn(_) => (1, 0),
            Self::Fmt1 { index: None, .. } => (2, 0),
            Self::Fmt1 { index: Some(TpmRcIndex::Parameter(n)), .. } => (3, n),
            Self::Fmt1 { index: Some(TpmRcIndex::Handle(n)), .. } => (4, n),
            Self::Fmt1 { index: Some(TpmRcIndex::Session(n)), .. } => (5, n),
        };
        let mut out = [0; 8];
        // refused for a kind above 5 alone
        calls::rc_value(kind, self.base().0, index, &mut out);
        out[0] as u32
    }
}

impl TryFrom<u32> for TpmRc {
    type Error = Refusal;

    /// Refuses with [`Refusal::InvalidRc`].
    fn try_from(value: u32) -> Result<Self, Refusal> {
        let [kind, base, index, _] = ask(|out| calls::rc_read(value, out))?;
        let (base, index) = (TpmRcBase(base as u32), index as u8);
        Ok(match kind {
            0 => Self::Fmt0(base),
            1 => Self::Warn(base),
            3 => Self::Fmt1 { base, index: Some(TpmRcIndex::Parameter(index)) },
            4 => Self::Fmt1 { base, index: Some(TpmRcIndex::Handle(index)) },
            5 => Self::Fmt1 { base, index: Some(TpmRcIndex::Session(index)) },
            _ => Self::Fmt1 { base, index: None },
        })
    }
}

impl From<TpmRc> for u32 {
    fn from(rc: TpmRc) -> Self {
        rc.value()
    }
}

/// The Library's name, and the part that it speaks of.
impl fmt::Display for TpmRc {
    fn fmt(&self, f: &mut fmt::Formatter) -> fmt::Result {
        write!(f, "{}", self.base())?;
        self.index().map_or(Ok(()), |index| write!(f, " ({index})"))
    }
}
