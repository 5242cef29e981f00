//! Commands.

use crate::calls;
use crate::cc::TpmCc;
use crate::refusal::{Refusal, WriteRefusal};
use crate::rules::Rules;
use crate::session::Sessions;
use crate::st::TpmSt;
use crate::view::{Areas, ask, ask_parts, ask_split, ask_tag, ask_writer, part};

/// A command frame, borrowed: bytes that [`cast`](Self::cast) let through.
///
/// Every answer is one call of the proved library.
///
/// ```
/// use skeinloft::{Rules, TpmCc, TpmCommand};
///
/// let startup = TpmCommand::cast(Rules::STANDARD, &[0x80, 0x01, 0, 0, 0, 12, 0, 0, 0x01, 0x44, 0, 0])?;
/// startup.validate()?;
/// assert_eq!(startup.cc()?, TpmCc::Startup);
/// assert_eq!(startup.parameters()?, [0, 0]);
/// # Ok::<(), skeinloft::Refusal>(())
/// ```
#[derive(Clone, Copy, Debug, PartialEq, Eq, Hash)]
pub struct TpmCommand<'a> {
    rules: Rules,
    bytes: &'a [u8],
}

impl<'a> TpmCommand<'a> {
    /// Checks all of a command but the entries of its authorization area.
    ///
    /// # Errors
    ///
    /// The first of: bytes that are not as many as the size field says, a tag that is no command's, a command code
    /// that is not in the table, handles or an authorization area that are cut short.
    ///
    /// ```
    /// use skeinloft::{Area, Refusal, Rules, TpmCommand};
    ///
    /// let refusal = TpmCommand::cast(Rules::STANDARD, &[0x80, 0x01, 0, 0, 0, 11, 0, 0, 0x01, 0x44, 0, 0]).unwrap_err();
    /// assert_eq!(refusal, Refusal::TrailingData { area: Area::Header, offset: 11, actual: 1 });
    /// ```
    pub fn cast(rules: Rules, bytes: &'a [u8]) -> Result<Self, Refusal> {
        ask(|out| calls::command_cast(rules.number(), bytes, out))?;
        Ok(Self { rules, bytes })
    }

    /// The same of a command at the start of the bytes; what is behind it comes too.
    ///
    /// # Errors
    ///
    /// As [`cast`](Self::cast), but for bytes behind the command.
    ///
    /// ```
    /// use skeinloft::{Rules, TpmCommand};
    ///
    /// let bytes = [0x80, 0x01, 0, 0, 0, 10, 0, 0, 0x01, 0x7C, 0x80, 0x01];
    /// let (command, behind) = TpmCommand::cast_prefix(Rules::STANDARD, &bytes)?;
    /// assert_eq!(command.as_bytes().len(), 10);
    /// assert_eq!(behind, [0x80, 0x01]);
    /// # Ok::<(), skeinloft::Refusal>(())
    /// ```
    pub fn cast_prefix(rules: Rules, bytes: &'a [u8]) -> Result<(Self, &'a [u8]), Refusal> {
        let (bytes, tail) = ask_split(rules.number(), bytes, calls::command_cast_prefix)?;
        Ok((Self { rules, bytes }, tail))
    }

    /// The bytes of the whole frame.
    ///
    /// ```
    /// let bytes = [0x80, 0x01, 0, 0, 0, 10, 0, 0, 0x01, 0x7C];
    /// assert_eq!(skeinloft::TpmCommand::cast(skeinloft::Rules::STANDARD, &bytes)?.as_bytes(), bytes);
    /// # Ok::<(), skeinloft::Refusal>(())
    /// ```
    #[must_use]
    pub const fn as_bytes(&self) -> &'a [u8] {
        self.bytes
    }

    /// The rules that it was cast by, which go on to judge it.
    ///
    /// ```
    /// use skeinloft::{Rules, TpmCommand};
    ///
    /// assert_eq!(TpmCommand::cast(Rules::RUST, &[0x80, 0x01, 0, 0, 0, 10, 0, 0, 0x01, 0x7C])?.rules(), Rules::RUST);
    /// # Ok::<(), skeinloft::Refusal>(())
    /// ```
    #[must_use]
    pub const fn rules(&self) -> Rules {
        self.rules
    }

    /// The tag.
    ///
    /// # Errors
    ///
    /// None for a frame that was cast.
    ///
    /// ```
    /// use skeinloft::{Rules, TpmCommand, TpmSt};
    ///
    /// let command = TpmCommand::cast(Rules::STANDARD, &[0x80, 0x01, 0, 0, 0, 10, 0, 0, 0x01, 0x7C])?;
    /// assert_eq!(command.tag()?, TpmSt::NoSessions);
    /// # Ok::<(), skeinloft::Refusal>(())
    /// ```
    pub fn tag(&self) -> Result<TpmSt, Refusal> {
        ask_tag(self.bytes)
    }

    /// The command code.
    ///
    /// # Errors
    ///
    /// None for a frame that was cast.
    ///
    /// ```
    /// use skeinloft::{Rules, TpmCc, TpmCommand};
    ///
    /// let command = TpmCommand::cast(Rules::STANDARD, &[0x80, 0x01, 0, 0, 0, 10, 0, 0, 0x01, 0x7C])?;
    /// assert_eq!(command.cc()?, TpmCc::GetTestResult);
    /// # Ok::<(), skeinloft::Refusal>(())
    /// ```
    pub fn cc(&self) -> Result<TpmCc, Refusal> {
        let [cc, ..] = ask(|out| calls::command_cc(self.rules.number(), self.bytes, out))?;
        Ok(TpmCc(cc as u32))
    }

    /// The handles, four bytes each.
    ///
    /// # Errors
    ///
    /// None for a frame that was cast.
    ///
    /// ```
    /// use skeinloft::{Rules, TpmCommand};
    ///
    /// let command = TpmCommand::cast(Rules::STANDARD, &[0x80, 0x01, 0, 0, 0, 14, 0, 0, 0x01, 0x73, 0x81, 0, 0, 1])?;
    /// assert_eq!(command.handles()?, [0x81, 0, 0, 1]);
    /// # Ok::<(), skeinloft::Refusal>(())
    /// ```
    pub fn handles(&self) -> Result<&'a [u8], Refusal> {
        ask_split(self.rules.number(), self.bytes, calls::command_handles).map(|(area, _)| area)
    }

    /// The entries of the authorization area, without the size before them; empty under the plain tag.
    ///
    /// # Errors
    ///
    /// None for a frame that was cast.
    ///
    /// ```
    /// use skeinloft::{Rules, TpmCommand};
    ///
    /// let bytes = [
    ///     0x80, 0x02, 0, 0, 0, 25, 0, 0, 0x01, 0x7B, 0, 0, 0, 9, 0x40, 0, 0, 9, 0, 0, 0, 0, 0, 0, 8,
    /// ];
    /// assert_eq!(TpmCommand::cast(Rules::STANDARD, &bytes)?.auth_area()?, [0x40, 0, 0, 9, 0, 0, 0, 0, 0]);
    /// # Ok::<(), skeinloft::Refusal>(())
    /// ```
    pub fn auth_area(&self) -> Result<&'a [u8], Refusal> {
        ask_split(self.rules.number(), self.bytes, calls::command_auth_area).map(|(area, _)| area)
    }

    /// The parameters.
    ///
    /// # Errors
    ///
    /// None for a frame that was cast.
    ///
    /// ```
    /// use skeinloft::{Rules, TpmCommand};
    ///
    /// let command = TpmCommand::cast(Rules::STANDARD, &[0x80, 0x01, 0, 0, 0, 12, 0, 0, 0x01, 0x7B, 0, 32])?;
    /// assert_eq!(command.parameters()?, [0, 32]);
    /// # Ok::<(), skeinloft::Refusal>(())
    /// ```
    pub fn parameters(&self) -> Result<&'a [u8], Refusal> {
        ask_split(self.rules.number(), self.bytes, calls::command_parameters).map(|(area, _)| area)
    }

    /// Checks the command whole, with the entries of its authorization area.
    ///
    /// # Errors
    ///
    /// A fourth entry, an entry that is cut short, or by the standard rules a nonce or an HMAC of more than
    /// [`MAX_DIGEST_SIZE`](crate::MAX_DIGEST_SIZE) bytes, [`Refusal::TooManyBytes`] at the place of its size.
    ///
    /// ```
    /// use skeinloft::{Area, Refusal, Rules, TpmCommand};
    ///
    /// // the HMAC of the entry has no size
    /// let bytes = [0x80, 0x02, 0, 0, 0, 23, 0, 0, 0x01, 0x7B, 0, 0, 0, 7, 0x40, 0, 0, 9, 0, 0, 0, 0, 8];
    /// let refusal = TpmCommand::cast(Rules::STANDARD, &bytes)?.validate().unwrap_err();
    /// assert_eq!(refusal, Refusal::UnexpectedEnd { area: Area::Authorization, offset: 21, needed: 2, available: 0 });
    ///
    /// // a nonce of 65 bytes
    /// let mut bytes = [0; 90];
    /// bytes[..20].copy_from_slice(&[0x80, 0x02, 0, 0, 0, 90, 0, 0, 0x01, 0x7B, 0, 0, 0, 74, 0x40, 0, 0, 9, 0, 65]);
    /// TpmCommand::cast(Rules::RUST, &bytes)?.validate()?;
    /// let refusal = TpmCommand::cast(Rules::STANDARD, &bytes)?.validate().unwrap_err();
    /// assert_eq!(refusal, Refusal::TooManyBytes { area: Area::Authorization, offset: 18, limit: 64, actual: 65 });
    /// # Ok::<(), Refusal>(())
    /// ```
    pub fn validate(&self) -> Result<(), Refusal> {
        ask(|out| calls::command_validate(self.rules.number(), self.bytes, out)).map(|_| ())
    }

    /// Checks the command whole, and gives all its parts.
    ///
    /// # Errors
    ///
    /// As [`validate`](Self::validate).
    ///
    /// ```
    /// use skeinloft::{Rules, TpmCommand};
    ///
    /// let bytes = [
    ///     0x80, 0x02, 0, 0, 0, 25, 0, 0, 0x01, 0x7B, 0, 0, 0, 9, 0x40, 0, 0, 9, 0, 0, 0, 0, 0, 0, 8,
    /// ];
    /// let parts = TpmCommand::cast(Rules::STANDARD, &bytes)?.parts()?;
    /// assert_eq!(parts.sessions.iter().next().unwrap().session_handle, 0x4000_0009);
    /// assert_eq!(parts.parameters, [0, 8]);
    /// # Ok::<(), skeinloft::Refusal>(())
    /// ```
    pub fn parts(&self) -> Result<CommandParts<'a>, Refusal> {
        let frame = ask_parts(|out| calls::command_parts(self.rules.number(), self.bytes, out))?;
        Ok(CommandParts {
            tag: TpmSt(frame.tag),
            cc: TpmCc(frame.code),
            handles: part(self.bytes, frame.handles),
            sessions: Sessions { record: frame.sessions, lent: self.bytes },
            parameters: part(self.bytes, frame.parameters),
        })
    }

    /// Checks the command whole, and tells where its areas are.
    ///
    /// # Errors
    ///
    /// As [`validate`](Self::validate).
    ///
    /// ```
    /// use skeinloft::{Rules, TpmCommand};
    ///
    /// let command = TpmCommand::cast(Rules::STANDARD, &[0x80, 0x01, 0, 0, 0, 12, 0, 0, 0x01, 0x7B, 0, 32])?;
    /// assert_eq!(command.areas()?.parameters, 10..12);
    /// # Ok::<(), skeinloft::Refusal>(())
    /// ```
    pub fn areas(&self) -> Result<Areas, Refusal> {
        ask_parts(|out| calls::command_parts(self.rules.number(), self.bytes, out)).map(Areas::from)
    }
}

impl AsRef<[u8]> for TpmCommand<'_> {
    fn as_ref(&self) -> &[u8] {
        self.bytes
    }
}

/// The parts of a command: those that were read, or those to be written.
///
/// ```
/// use skeinloft::{CommandParts, Rules, Sessions, TpmCc, TpmCommand, TpmSt};
///
/// let startup = CommandParts {
///     tag: TpmSt::NoSessions,
///     cc: TpmCc::Startup,
///     handles: &[],
///     sessions: Sessions::default(),
///     parameters: &[0, 0],
/// };
/// let mut room = [0; 64];
/// let len = startup.marshal(Rules::STANDARD, &mut room)?;
/// assert_eq!(TpmCommand::cast(Rules::STANDARD, &room[..len])?.parts()?, startup);
/// # Ok::<(), skeinloft::WriteRefusal>(())
/// ```
#[derive(Clone, Copy, Debug, PartialEq, Eq)]
pub struct CommandParts<'a> {
    /// The tag: [`TpmSt::Sessions`] where there are sessions, else [`TpmSt::NoSessions`].
    pub tag: TpmSt,
    /// The command code.
    pub cc: TpmCc,
    /// The handles, four bytes each.
    pub handles: &'a [u8],
    /// The sessions.
    pub sessions: Sessions<'a>,
    /// The parameters.
    pub parameters: &'a [u8],
}

impl CommandParts<'_> {
    /// Writes the command to the start of the room, and tells how many bytes it takes. The room behind them stays as it was.
    ///
    /// # Errors
    ///
    /// The first of: a tag that is no command's or does not go with the sessions, more than three sessions, a command
    /// code that is not in the table, handles that are not the command's in number, by the standard rules a nonce or an HMAC
    /// of more than [`MAX_DIGEST_SIZE`](crate::MAX_DIGEST_SIZE) bytes, more bytes than a frame's size can say, which is
    /// [`WriteRefusal::IntegerTooLarge`], room that is too short. The room is then as it was.
    ///
    /// ```
    /// use skeinloft::{Area, Refusal, Rules, TpmCommand};
    ///
    /// let bytes = [0x80, 0x01, 0, 0, 0, 12, 0, 0, 0x01, 0x44, 0, 0];
    /// let parts = TpmCommand::cast(Rules::STANDARD, &bytes)?.parts()?;
    /// let mut room = [0; 12];
    /// assert_eq!(parts.marshal(Rules::STANDARD, &mut room)?, 12);
    /// assert_eq!(room, bytes);
    ///
    /// let refusal = parts.marshal(Rules::STANDARD, &mut room[1..]).unwrap_err();
    /// assert_eq!(refusal, Refusal::BufferOverflow { area: Area::None, offset: 0, needed: 12, available: 11 }.into());
    /// # Ok::<(), skeinloft::WriteRefusal>(())
    /// ```
    ///
    /// ```
    /// use skeinloft::{Area, CommandParts, Refusal, Rules, Sessions, TpmCc, TpmSt, TpmsAuth};
    ///
    /// let mut scratch = [0; 65];
    /// let entry = TpmsAuth { session_handle: 0x0200_0000, nonce: &[7; 65], ..TpmsAuth::default() };
    /// let random = CommandParts {
    ///     tag: TpmSt::Sessions,
    ///     cc: TpmCc::GetRandom,
    ///     handles: &[],
    ///     sessions: Sessions::new(&[entry], &mut scratch)?,
    ///     parameters: &[0, 8],
    /// };
    /// let mut room = [0; 90];
    /// assert_eq!(random.marshal(Rules::RUST, &mut room)?, 90);
    /// let refusal = random.marshal(Rules::STANDARD, &mut room).unwrap_err();
    /// assert_eq!(refusal, Refusal::TooManyBytes { area: Area::None, offset: 0, limit: 64, actual: 65 }.into());
    /// # Ok::<(), skeinloft::WriteRefusal>(())
    /// ```
    #[doc(alias = "tpm_marshal_command")]
    pub fn marshal(&self, rules: Rules, room: &mut [u8]) -> Result<usize, WriteRefusal> {
        let handed = self.sessions.handed(self.handles, self.parameters);
        ask_writer(|out| calls::command_write(rules.number(), self.tag.0, self.cc.0, handed, room, out))
    }
}
