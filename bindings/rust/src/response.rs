//! Responses.

use crate::calls;
use crate::cc::TpmCc;
use crate::rc::TpmRc;
use crate::refusal::{Refusal, WriteRefusal};
use crate::revision::Revision;
use crate::rules::{ResponseMode, Rules};
use crate::session::Sessions;
use crate::st::TpmSt;
use crate::view::{Areas, ask, ask_parts, ask_split, ask_tag, ask_writer, part};

/// A response frame, borrowed: bytes that [`cast`](Self::cast) let through.
///
/// What is behind its header depends on the command that it answers, so the calls that go further take that command's code.
///
/// ```
/// use skeinloft::{Rules, TpmCc, TpmRc, TpmResponse};
///
/// let refused = TpmResponse::cast(Rules::STANDARD, &[0x80, 0x01, 0, 0, 0, 10, 0, 0, 0x01, 0x01])?;
/// refused.validate(TpmCc::Unseal)?;
/// assert_eq!(refused.rc()?.to_string(), "TPM_RC_FAILURE");
/// # Ok::<(), skeinloft::Refusal>(())
/// ```
#[derive(Clone, Copy, Debug, PartialEq, Eq, Hash)]
pub struct TpmResponse<'a> {
    rules: Rules,
    bytes: &'a [u8],
}

impl<'a> TpmResponse<'a> {
    /// Checks the header.
    ///
    /// # Errors
    ///
    /// The first of: bytes that are not as many as the size field says, a tag that is no response's by these rules, a
    /// response code that is none, or does not go with the tag.
    ///
    /// ```
    /// use skeinloft::{Area, Refusal, Rules, TpmResponse};
    ///
    /// let refusal = TpmResponse::cast(Rules::STANDARD, &[0x80, 0x01, 0, 0, 0, 10, 0, 0, 0, 0xC4]).unwrap_err();
    /// assert_eq!(refusal, Refusal::InvalidRc { area: Area::Header, offset: 6, value: 0xC4 });
    /// ```
    pub fn cast(rules: Rules, bytes: &'a [u8]) -> Result<Self, Refusal> {
        ask(|out| calls::response_cast(rules.number(), bytes, out))?;
        Ok(Self { rules, bytes })
    }

    /// The same of a response at the start of the bytes; what is behind it comes too.
    ///
    /// # Errors
    ///
    /// As [`cast`](Self::cast), but for bytes behind the response.
    ///
    /// ```
    /// use skeinloft::{Rules, TpmResponse};
    ///
    /// let (response, behind) = TpmResponse::cast_prefix(Rules::STANDARD, &[0x80, 0x01, 0, 0, 0, 10, 0, 0, 0, 0, 0x80])?;
    /// assert_eq!((response.body(), behind), (&[][..], &[0x80][..]));
    /// # Ok::<(), skeinloft::Refusal>(())
    /// ```
    pub fn cast_prefix(rules: Rules, bytes: &'a [u8]) -> Result<(Self, &'a [u8]), Refusal> {
        let (bytes, tail) = ask_split(rules.number(), bytes, calls::response_cast_prefix)?;
        Ok((Self { rules, bytes }, tail))
    }

    /// The bytes of the whole frame.
    ///
    /// ```
    /// let bytes = [0x80, 0x01, 0, 0, 0, 10, 0, 0, 0, 0];
    /// assert_eq!(skeinloft::TpmResponse::cast(skeinloft::Rules::STANDARD, &bytes)?.as_bytes(), bytes);
    /// # Ok::<(), skeinloft::Refusal>(())
    /// ```
    #[must_use]
    pub const fn as_bytes(&self) -> &'a [u8] {
        self.bytes
    }

    /// The rules that it was cast by, which go on to judge it.
    ///
    /// ```
    /// use skeinloft::{Rules, TpmResponse};
    ///
    /// assert_eq!(TpmResponse::cast(Rules::RUST, &[0x80, 0x01, 0, 0, 0, 10, 0, 0, 0, 0])?.rules(), Rules::RUST);
    /// # Ok::<(), skeinloft::Refusal>(())
    /// ```
    #[must_use]
    pub const fn rules(&self) -> Rules {
        self.rules
    }

    /// The tag.
    ///
    /// # Errors
    ///
    /// None for a frame that was cast.
    ///
    /// ```
    /// use skeinloft::{Rules, TpmResponse, TpmSt};
    ///
    /// let response = TpmResponse::cast(Rules::STANDARD, &[0x80, 0x02, 0, 0, 0, 10, 0, 0, 0, 0])?;
    /// assert_eq!(response.tag()?, TpmSt::Sessions);
    /// # Ok::<(), skeinloft::Refusal>(())
    /// ```
    pub fn tag(&self) -> Result<TpmSt, Refusal> {
        ask_tag(self.bytes)
    }

    /// The response code.
    ///
    /// # Errors
    ///
    /// None for a frame that was cast.
    ///
    /// ```
    /// use skeinloft::{Rules, TpmRc, TpmResponse};
    ///
    /// assert_eq!(TpmResponse::cast(Rules::STANDARD, &[0x80, 0x01, 0, 0, 0, 10, 0, 0, 0, 0])?.rc()?, TpmRc::SUCCESS);
    /// # Ok::<(), skeinloft::Refusal>(())
    /// ```
    pub fn rc(&self) -> Result<TpmRc, Refusal> {
        let [rc, ..] = ask(|out| calls::response_rc(self.rules.number(), self.bytes, out))?;
        TpmRc::try_from(rc as u32)
    }

    /// All bytes behind the header.
    ///
    /// ```
    /// let response = skeinloft::TpmResponse::cast(skeinloft::Rules::STANDARD, &[0x80, 0x01, 0, 0, 0, 12, 0, 0, 0, 0, 7, 8])?;
    /// assert_eq!(response.body(), [7, 8]);
    /// # Ok::<(), skeinloft::Refusal>(())
    /// ```
    #[must_use]
    pub fn body(&self) -> &'a [u8] {
        // the cast saw ten bytes
        &self.bytes[10..]
    }

    /// Checks the response to a command whole.
    ///
    /// # Errors
    ///
    /// The first of: a command code that is not in the table; of an error, the sessions tag or bytes behind the header; of success,
    /// handles or parameters that are cut short, a fourth entry, an entry that is cut short, or by the standard rules a nonce
    /// or an HMAC of more than [`MAX_DIGEST_SIZE`](crate::MAX_DIGEST_SIZE) bytes, [`Refusal::TooManyBytes`] at the place of
    /// its size.
    ///
    /// ```
    /// use skeinloft::{Area, Refusal, Rules, TpmCc, TpmResponse};
    ///
    /// // the response to TPM2_Load has a handle
    /// let response = TpmResponse::cast(Rules::STANDARD, &[0x80, 0x01, 0, 0, 0, 10, 0, 0, 0, 0])?;
    /// let refusal = response.validate(TpmCc::Load).unwrap_err();
    /// assert_eq!(refusal, Refusal::UnexpectedEnd { area: Area::Handles, offset: 10, needed: 4, available: 0 });
    ///
    /// // a nonce of 65 bytes
    /// let mut bytes = [0; 84];
    /// bytes[..16].copy_from_slice(&[0x80, 0x02, 0, 0, 0, 84, 0, 0, 0, 0, 0, 0, 0, 0, 0, 65]);
    /// TpmResponse::cast(Rules::RUST, &bytes)?.validate(TpmCc::Clear)?;
    /// let refusal = TpmResponse::cast(Rules::STANDARD, &bytes)?.validate(TpmCc::Clear).unwrap_err();
    /// assert_eq!(refusal, Refusal::TooManyBytes { area: Area::Authorization, offset: 14, limit: 64, actual: 65 });
    /// # Ok::<(), Refusal>(())
    /// ```
    pub fn validate(&self, cc: TpmCc) -> Result<(), Refusal> {
        ask(|out| calls::response_validate(self.rules.number(), cc.0, self.bytes, out)).map(|_| ())
    }

    /// Checks the response to a command whole, and gives all its parts.
    ///
    /// # Errors
    ///
    /// As [`validate`](Self::validate).
    ///
    /// ```
    /// use skeinloft::{Rules, TpmCc, TpmResponse};
    ///
    /// let response = TpmResponse::cast(Rules::STANDARD, &[0x80, 0x01, 0, 0, 0, 14, 0, 0, 0, 0, 0, 2, 0xAA, 0xBB])?;
    /// assert_eq!(response.parts(TpmCc::GetRandom)?.parameters, [0, 2, 0xAA, 0xBB]);
    /// # Ok::<(), skeinloft::Refusal>(())
    /// ```
    pub fn parts(&self, cc: TpmCc) -> Result<ResponseParts<'a>, Refusal> {
        let frame = ask_parts(|out| calls::response_parts(self.rules.number(), cc.0, self.bytes, out))?;
        Ok(ResponseParts {
            mode: ResponseMode::again(self.rules, TpmSt(frame.tag)),
            revision: self.rules.revision,
            rc: TpmRc::try_from(frame.code)?,
            handles: part(self.bytes, frame.handles),
            sessions: Sessions { record: frame.sessions, lent: self.bytes },
            parameters: part(self.bytes, frame.parameters),
        })
    }

    /// Checks the response to a command whole, and tells where its areas are.
    ///
    /// # Errors
    ///
    /// As [`validate`](Self::validate).
    ///
    /// ```
    /// use skeinloft::{Rules, TpmCc, TpmResponse};
    ///
    /// let response = TpmResponse::cast(Rules::STANDARD, &[0x80, 0x01, 0, 0, 0, 14, 0, 0, 0, 0, 0x80, 0, 0, 0])?;
    /// let areas = response.areas(TpmCc::ContextLoad)?;
    /// assert_eq!((areas.handles, areas.parameters), (10..14, 14..14));
    /// # Ok::<(), skeinloft::Refusal>(())
    /// ```
    pub fn areas(&self, cc: TpmCc) -> Result<Areas, Refusal> {
        ask_parts(|out| calls::response_parts(self.rules.number(), cc.0, self.bytes, out)).map(Areas::from)
    }
}

impl AsRef<[u8]> for TpmResponse<'_> {
    fn as_ref(&self) -> &[u8] {
        self.bytes
    }
}

/// The parts of a response: those that were read, or those to be written.
///
/// ```
/// use skeinloft::{ResponseMode, ResponseParts, Revision, Rules, Sessions, TpmCc, TpmRc, TpmResponse};
///
/// let random = ResponseParts {
///     mode: ResponseMode::Standard,
///     revision: Revision::Crate,
///     rc: TpmRc::SUCCESS,
///     handles: &[],
///     sessions: Sessions::default(),
///     parameters: &[0, 1, 0x2A],
/// };
/// let mut room = [0; 64];
/// let len = random.marshal(TpmCc::GetRandom, &mut room)?;
/// assert_eq!(TpmResponse::cast(Rules::STANDARD, &room[..len])?.parts(TpmCc::GetRandom)?, random);
/// # Ok::<(), skeinloft::WriteRefusal>(())
/// ```
#[derive(Clone, Copy, Debug, PartialEq, Eq)]
pub struct ResponseParts<'a> {
    /// How they are written. Those that were read have the mode that writes them again, under the tag they were read under.
    pub mode: ResponseMode,
    /// By which table they are written. Those that were read have the table they were read by.
    pub revision: Revision,
    /// The response code.
    pub rc: TpmRc,
    /// The handles, four bytes each.
    pub handles: &'a [u8],
    /// The sessions. They choose the tag, but for [`ResponseMode::BadTag`].
    pub sessions: Sessions<'a>,
    /// The parameters.
    pub parameters: &'a [u8],
}

impl ResponseParts<'_> {
    /// Writes the response to a command to the start of the room, and tells how many bytes it takes. The room behind them
    /// stays as it was. Of a code that is not success nothing else is written.
    ///
    /// # Errors
    ///
    /// The first of: more than three sessions, a command code that is not in the table, a response code that does not read,
    /// sessions with a code that is not success, a code that does not go with the mode's tag, handles that are not the
    /// response's in number, in the standard mode a nonce or an HMAC of more than
    /// [`MAX_DIGEST_SIZE`](crate::MAX_DIGEST_SIZE) bytes, more bytes than a frame's size can say, which is
    /// [`WriteRefusal::IntegerTooLarge`], room that is too short. The room is then as it was.
    ///
    /// ```
    /// use skeinloft::{Area, Refusal, ResponseMode, Rules, TpmCc, TpmResponse};
    ///
    /// let bytes = [0x80, 0x01, 0, 0, 0, 10, 0, 0, 0x01, 0x01];
    /// let mut parts = TpmResponse::cast(Rules::STANDARD, &bytes)?.parts(TpmCc::Unseal)?;
    /// let mut room = [0; 10];
    /// assert_eq!(parts.marshal(TpmCc::Unseal, &mut room)?, 10);
    /// assert_eq!(room, bytes);
    ///
    /// parts.mode = ResponseMode::BadTag;
    /// let refusal = parts.marshal(TpmCc::Unseal, &mut room).unwrap_err();
    /// assert_eq!(refusal, Refusal::InvalidRc { area: Area::None, offset: 0, value: 0x101 }.into());
    /// # Ok::<(), skeinloft::WriteRefusal>(())
    /// ```
    ///
    /// ```
    /// use skeinloft::{Area, Refusal, ResponseMode, ResponseParts, Revision, Sessions, TpmCc, TpmRc, TpmsAuth};
    ///
    /// let mut scratch = [0; 65];
    /// let entry = TpmsAuth { hmac: &[8; 65], ..TpmsAuth::default() };
    /// let sessions = Sessions::new(&[entry], &mut scratch)?;
    /// let (revision, rc) = (Revision::Lib138, TpmRc::SUCCESS);
    /// let cleared = |mode| ResponseParts { mode, revision, rc, handles: &[], sessions, parameters: &[] };
    /// let mut room = [0; 84];
    /// assert_eq!(cleared(ResponseMode::Rust).marshal(TpmCc::Clear, &mut room)?, 84);
    /// let refusal = cleared(ResponseMode::Standard).marshal(TpmCc::Clear, &mut room).unwrap_err();
    /// assert_eq!(refusal, Refusal::TooManyBytes { area: Area::None, offset: 0, limit: 64, actual: 65 }.into());
    /// # Ok::<(), skeinloft::WriteRefusal>(())
    /// ```
    #[doc(alias = "tpm_marshal_response")]
    pub fn marshal(&self, cc: TpmCc, room: &mut [u8]) -> Result<usize, WriteRefusal> {
        let handed = self.sessions.handed(self.handles, self.parameters);
        let rules = self.mode.number_at(self.revision);
        ask_writer(|out| calls::response_write(rules, self.rc.value(), cc.0, handed, room, out))
    }
}
