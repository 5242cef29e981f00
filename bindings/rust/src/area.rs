//! The areas of a frame that a refusal can be about.

use crate::calls::{self, Out};
use core::fmt;

/// The area of the frame that a refusal is about, by the number that C has for it.
///
/// A writer's refusal has none, nor has one of a call without a frame, or one of [`Keeper`](crate::Keeper) by a number of its
/// own. The four bytes of a size are of what they size: of the authorization area in a command, of the parameters in a
/// response. Of a command nothing is refused in the parameters.
///
/// ```
/// use skeinloft::{Area, Rules, TpmCommand};
///
/// // a TPM2_Unseal with half of its handle
/// let refusal = TpmCommand::cast(Rules::STANDARD, &[0x80, 0x01, 0, 0, 0, 12, 0, 0, 0x01, 0x5E, 0x80, 0]).unwrap_err();
/// assert_eq!(refusal.area(), Area::Handles);
/// assert_eq!(refusal.area().to_string(), "handles");
/// ```
#[derive(Clone, Copy, Debug, Default, PartialEq, Eq, PartialOrd, Ord, Hash)]
pub enum Area {
    /// No area.
    #[default]
    None = 0,
    /// The header: the size field, which is not the number of bytes, the tag or the code.
    Header = 1,
    /// The handles.
    Handles = 2,
    /// The authorization area.
    Authorization = 3,
    /// The parameters.
    Parameters = 4,
}

impl Area {
    /// The area of a refusal, by what the lent array holds.
    pub(crate) fn new(out: &Out) -> Self {
        let all = [Self::Header, Self::Handles, Self::Authorization, Self::Parameters];
        all.into_iter().find(|&area| area as u64 == out[calls::AREA]).unwrap_or_default()
    }

    /// The name in a word.
    ///
    /// ```
    /// assert_eq!(skeinloft::Area::Authorization.name(), "authorization");
    /// ```
    #[must_use]
    pub const fn name(self) -> &'static str {
        match self {
            Self::None => "none",
            Self::Header => "header",
            Self::Handles => "handles",
            Self::Authorization => "authorization",
            Self::Parameters => "parameters",
        }
    }
}

/// The name.
impl fmt::Display for Area {
    fn fmt(&self, f: &mut fmt::Formatter) -> fmt::Result {
        f.pad(self.name())
    }
}
