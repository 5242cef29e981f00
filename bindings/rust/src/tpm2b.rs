//! A TPM2B where it stands.

use crate::calls;
use crate::refusal::Refusal;
use crate::view::{ask, ask_split};

/// A TPM2B, borrowed: a size of two bytes and that many bytes, at most `CAPACITY`.
///
/// ```
/// use skeinloft::Tpm2b;
///
/// let digest = Tpm2b::<64>::cast(&[0, 3, 1, 2, 3])?;
/// assert_eq!(digest.data(), [1, 2, 3]);
/// # Ok::<(), skeinloft::Refusal>(())
/// ```
#[derive(Clone, Copy, Debug, PartialEq, Eq, Hash)]
pub struct Tpm2b<'a, const CAPACITY: usize>(&'a [u8]);

impl<'a, const CAPACITY: usize> Tpm2b<'a, CAPACITY> {
    /// Takes bytes that are one TPM2B.
    ///
    /// # Errors
    ///
    /// The first of: no two bytes for the size, a size above the capacity, fewer bytes than the size says, more.
    ///
    /// ```
    /// use skeinloft::{Area, Refusal, Tpm2b};
    ///
    /// let refusal = Tpm2b::<64>::cast(&[0, 65]).unwrap_err();
    /// assert_eq!(refusal, Refusal::TooManyBytes { area: Area::None, offset: 0, limit: 64, actual: 65 });
    /// ```
    pub fn cast(bytes: &'a [u8]) -> Result<Self, Refusal> {
        ask(|out| calls::tpm2b_cast(CAPACITY, bytes, out))?;
        Ok(Self(bytes))
    }

    /// Takes the TPM2B at the start of the bytes; what is behind it comes too.
    ///
    /// # Errors
    ///
    /// As [`cast`](Self::cast), but for bytes behind it.
    ///
    /// ```
    /// use skeinloft::Tpm2b;
    ///
    /// let (first, behind) = Tpm2b::<64>::cast_prefix(&[0, 1, 7, 0, 2, 8, 9])?;
    /// let (second, end) = Tpm2b::<64>::cast_prefix(behind)?;
    /// assert_eq!((first.data(), second.data(), end), (&[7][..], &[8, 9][..], &[][..]));
    /// # Ok::<(), skeinloft::Refusal>(())
    /// ```
    pub fn cast_prefix(bytes: &'a [u8]) -> Result<(Self, &'a [u8]), Refusal> {
        ask_split(CAPACITY, bytes, calls::tpm2b_cast_prefix).map(|(own, tail)| (Self(own), tail))
    }

    /// All its bytes, the size and the data.
    ///
    /// ```
    /// assert_eq!(skeinloft::Tpm2b::<64>::cast(&[0, 1, 7])?.as_bytes(), [0, 1, 7]);
    /// # Ok::<(), skeinloft::Refusal>(())
    /// ```
    #[must_use]
    pub const fn as_bytes(&self) -> &'a [u8] {
        self.0
    }

    /// The data, as many bytes as the size says.
    ///
    /// ```
    /// assert!(skeinloft::Tpm2b::<64>::cast(&[0, 0])?.data().is_empty());
    /// # Ok::<(), skeinloft::Refusal>(())
    /// ```
    #[must_use]
    pub fn data(&self) -> &'a [u8] {
        // the cast saw the size
        &self.0[2..]
    }

    /// The size: how many bytes the data have.
    ///
    /// ```
    /// assert_eq!(skeinloft::Tpm2b::<64>::cast(&[0, 1, 7])?.size(), 1);
    /// # Ok::<(), skeinloft::Refusal>(())
    /// ```
    #[must_use]
    pub fn size(&self) -> usize {
        self.data().len()
    }
}

impl<const CAPACITY: usize> AsRef<[u8]> for Tpm2b<'_, CAPACITY> {
    fn as_ref(&self) -> &[u8] {
        self.0
    }
}
