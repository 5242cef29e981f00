//! The nonce keeper.

use crate::calls;
use crate::refusal::Refusal;
use crate::revision::Revision;
use crate::view::ask;
use core::fmt;

/// Remembers for each open session the last nonce that the TPM sent for it, over which the next command is signed.
///
/// Frames are read by [`Rules::STANDARD`](crate::Rules::STANDARD), at the table that is named with them. A refused call leaves
/// the keeper as it was.
///
/// ```
/// use skeinloft::{Keeper, Revision};
///
/// let mut keeper = Keeper::new();
/// keeper.open(0x0200_0000, b"the first")?;
///
/// // a TPM2_GetRandom with that session, and its answer, which has the nonce 1122
/// let command = [
///     0x80, 0x02, 0, 0, 0, 25, 0, 0, 0x01, 0x7B, 0, 0, 0, 9, 0x02, 0, 0, 0, 0, 0, 1, 0, 0, 0, 8,
/// ];
/// let answer = [
///     0x80, 0x02, 0, 0, 0, 25, 0, 0, 0, 0, 0, 0, 0, 4, 0, 2, 0xAA, 0xBB, 0, 2, 0x11, 0x22, 1, 0, 0,
/// ];
/// keeper.answer(Revision::Lib159, &command, &answer)?;
/// assert_eq!(keeper.nonce(0x0200_0000)?, [0x11, 0x22]);
///
/// keeper.close(0x0200_0000)?;
/// assert!(keeper.is_empty());
/// # Ok::<(), skeinloft::Refusal>(())
/// ```
#[derive(Clone)]
pub struct Keeper(calls::Keeper);

impl Keeper {
    /// How many sessions can be open.
    ///
    /// ```
    /// use skeinloft::{Keeper, Refusal};
    ///
    /// let mut keeper = Keeper::new();
    /// for handle in 0..Keeper::PLACES as u32 {
    ///     keeper.open(0x0200_0000 + handle, &[])?;
    /// }
    /// assert_eq!(keeper.open(0x0300_0000, &[]), Err(Refusal::AllOpen));
    /// # Ok::<(), Refusal>(())
    /// ```
    pub const PLACES: usize = 64;

    /// A keeper with no session, in 4,424 bytes.
    ///
    /// ```
    /// static KEEPER: std::sync::Mutex<skeinloft::Keeper> = std::sync::Mutex::new(skeinloft::Keeper::new());
    /// assert!(KEEPER.lock().unwrap().is_empty());
    /// ```
    #[must_use]
    pub const fn new() -> Self {
        Self(calls::Keeper::EMPTY)
    }

    /// Opens a session with its first nonce, which `TPM2_StartAuthSession` gave.
    ///
    /// # Errors
    ///
    /// The first of: [`Refusal::AlreadyOpen`], [`Refusal::TooManyBytes`] for a nonce of more than
    /// [`MAX_DIGEST_SIZE`](crate::MAX_DIGEST_SIZE) bytes, [`Refusal::AllOpen`].
    ///
    /// ```
    /// use skeinloft::{Area, Keeper, Refusal};
    ///
    /// let mut keeper = Keeper::new();
    /// let refusal = keeper.open(0x0200_0000, &[7; 65]).unwrap_err();
    /// assert_eq!(refusal, Refusal::TooManyBytes { area: Area::None, offset: 0, limit: 64, actual: 65 });
    ///
    /// keeper.open(0x0200_0000, &[7; 64])?;
    /// assert_eq!(keeper.open(0x0200_0000, &[8; 64]), Err(Refusal::AlreadyOpen));
    /// # Ok::<(), Refusal>(())
    /// ```
    pub fn open(&mut self, handle: u32, nonce: &[u8]) -> Result<(), Refusal> {
        ask(|out| calls::keeper_open(handle, nonce, &mut self.0, out)).map(|_| ())
    }

    /// Takes an answer of the TPM with the command that it answers, by the table of its revision. Where that is success, each
    /// open session that the command names gets the nonce at the same position of the answer. Other handles are passed by. An
    /// error of the TPM moves nothing, and is no refusal.
    ///
    /// A session that the command does not continue stays open here until it is [closed](Self::close).
    ///
    /// # Errors
    ///
    /// The command's, as [`TpmCommand`](crate::TpmCommand) has them, then the answer's, as
    /// [`TpmResponse`](crate::TpmResponse) has them. Where it is success, then [`Refusal::HandleRepeated`] and
    /// [`Refusal::CountsDiffer`].
    ///
    /// ```
    /// use skeinloft::{Keeper, Refusal, Revision};
    ///
    /// let revision = Revision::Lib159;
    /// let command = [
    ///     0x80, 0x02, 0, 0, 0, 25, 0, 0, 0x01, 0x7B, 0, 0, 0, 9, 0x02, 0, 0, 0, 0, 0, 1, 0, 0, 0, 8,
    /// ];
    /// let mut keeper = Keeper::new();
    /// keeper.open(0x0200_0000, &[7; 16])?;
    ///
    /// // TPM_RC_AUTH_FAIL, of session 1
    /// keeper.answer(revision, &command, &[0x80, 0x01, 0, 0, 0, 10, 0, 0, 0x09, 0x8E])?;
    /// // success, without a session
    /// let refusal = keeper.answer(revision, &command, &[0x80, 0x01, 0, 0, 0, 12, 0, 0, 0, 0, 0, 0]).unwrap_err();
    /// assert_eq!(refusal, Refusal::CountsDiffer);
    /// assert_eq!(keeper.nonce(0x0200_0000)?, [7; 16]);
    /// # Ok::<(), Refusal>(())
    /// ```
    pub fn answer(&mut self, revision: Revision, command: &[u8], response: &[u8]) -> Result<(), Refusal> {
        ask(|out| calls::keeper_answer(revision.number(), command, response, &mut self.0, out)).map(|_| ())
    }

    /// Closes a session, where it was flushed, or where a command that succeeded did not continue it.
    ///
    /// # Errors
    ///
    /// [`Refusal::NotOpen`].
    ///
    /// ```
    /// use skeinloft::{Keeper, Refusal};
    ///
    /// let mut keeper = Keeper::new();
    /// keeper.open(0x0200_0000, &[7; 16])?;
    /// keeper.close(0x0200_0000)?;
    /// assert_eq!(keeper.close(0x0200_0000), Err(Refusal::NotOpen));
    /// # Ok::<(), Refusal>(())
    /// ```
    pub fn close(&mut self, handle: u32) -> Result<(), Refusal> {
        ask(|out| calls::keeper_close(handle, &mut self.0, out)).map(|_| ())
    }

    /// The last nonce of a session, where it stands in the keeper.
    ///
    /// # Errors
    ///
    /// [`Refusal::NotOpen`].
    ///
    /// ```
    /// let mut keeper = skeinloft::Keeper::new();
    /// keeper.open(0x0300_0000, b"nonce")?;
    /// assert_eq!(keeper.nonce(0x0300_0000)?, b"nonce");
    /// # Ok::<(), skeinloft::Refusal>(())
    /// ```
    pub fn nonce(&self, handle: u32) -> Result<&[u8], Refusal> {
        let [from, to, ..] = ask(|out| calls::keeper_ask(handle, &self.0, out))?;
        Ok(&self.0.bytes()[from as usize..to as usize])
    }

    /// How many sessions are open.
    ///
    /// ```
    /// let mut keeper = skeinloft::Keeper::new();
    /// keeper.open(0x0200_0000, &[])?;
    /// assert_eq!(keeper.len(), 1);
    /// # Ok::<(), skeinloft::Refusal>(())
    /// ```
    #[must_use]
    pub fn len(&self) -> usize {
        // it is never refused
        ask(|out| calls::keeper_len(&self.0, out)).map_or(0, |[open, ..]| open as usize)
    }

    /// Tells whether none is open.
    ///
    /// ```
    /// assert!(skeinloft::Keeper::default().is_empty());
    /// ```
    #[must_use]
    pub fn is_empty(&self) -> bool {
        self.len() == 0
    }
}

impl Default for Keeper {
    fn default() -> Self {
        Self::new()
    }
}

/// How many sessions are open; no nonce.
impl fmt::Debug for Keeper {
    fn fmt(&self, f: &mut fmt::Formatter) -> fmt::Result {
        f.debug_struct("Keeper").field("open", &self.len()).finish_non_exhaustive()
    }
}
