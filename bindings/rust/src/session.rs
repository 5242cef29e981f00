//! Sessions: the entries of an authorization area.

use crate::area::Area;
use crate::calls::{self, Field, Handed, Session};
use crate::refusal::{Refusal, WriteRefusal};
use core::fmt;
use core::ops::BitOr;

/// The attributes of a session (Part 2, `TPMA_SESSION`). Every byte can be one.
///
/// ```
/// use skeinloft::TpmaSession;
///
/// let attributes = TpmaSession::CONTINUE_SESSION | TpmaSession::AUDIT;
/// assert_eq!(attributes.bits(), 0x81);
/// assert!(attributes.contains(TpmaSession::AUDIT));
/// assert_eq!(attributes.to_string(), "continueSession, audit");
/// ```
#[derive(Clone, Copy, Debug, Default, PartialEq, Eq, Hash)]
pub struct TpmaSession(u8);

impl TpmaSession {
    /// The session stays open behind the command.
    pub const CONTINUE_SESSION: Self = Self(0x01);
    /// The command is carried out only if the audit session is exclusive.
    pub const AUDIT_EXCLUSIVE: Self = Self(0x02);
    /// The audit digest starts anew.
    pub const AUDIT_RESET: Self = Self(0x04);
    /// The first parameter of the command is encrypted.
    pub const DECRYPT: Self = Self(0x20);
    /// The first parameter of the response is encrypted.
    pub const ENCRYPT: Self = Self(0x40);
    /// The session is used for audit.
    pub const AUDIT: Self = Self(0x80);

    /// Each attribute with its name in the Library, from the lowest bit on. The bits 3 and 4 are reserved.
    ///
    /// ```
    /// use skeinloft::TpmaSession;
    ///
    /// assert_eq!(TpmaSession::NAMED[0], (TpmaSession::CONTINUE_SESSION, "continueSession"));
    /// ```
    pub const NAMED: &'static [(Self, &'static str)] = &[
        (Self::CONTINUE_SESSION, "continueSession"),
        (Self::AUDIT_EXCLUSIVE, "auditExclusive"),
        (Self::AUDIT_RESET, "auditReset"),
        (Self(0x08), "reserved bit 3"),
        (Self(0x10), "reserved bit 4"),
        (Self::DECRYPT, "decrypt"),
        (Self::ENCRYPT, "encrypt"),
        (Self::AUDIT, "audit"),
    ];

    /// The attributes of a byte, reserved bits and all.
    ///
    /// ```
    /// assert_eq!(skeinloft::TpmaSession::from_bits_retain(0x08).bits(), 0x08);
    /// ```
    #[must_use]
    pub const fn from_bits_retain(bits: u8) -> Self {
        Self(bits)
    }

    /// The byte.
    ///
    /// ```
    /// assert_eq!(skeinloft::TpmaSession::DECRYPT.bits(), 0x20);
    /// ```
    #[must_use]
    pub const fn bits(self) -> u8 {
        self.0
    }

    /// Tells whether all of these are set.
    ///
    /// ```
    /// use skeinloft::TpmaSession;
    ///
    /// assert!(!TpmaSession::DECRYPT.contains(TpmaSession::DECRYPT | TpmaSession::ENCRYPT));
    /// ```
    #[must_use]
    pub const fn contains(self, other: Self) -> bool {
        self.0 & other.0 == other.0
    }
}

impl BitOr for TpmaSession {
    type Output = Self;

    fn bitor(self, other: Self) -> Self {
        Self(self.0 | other.0)
    }
}

/// The names of those that are set, or `none`.
impl fmt::Display for TpmaSession {
    fn fmt(&self, f: &mut fmt::Formatter) -> fmt::Result {
        let mut between = "";
        for &(_, name) in Self::NAMED.iter().filter(|&&(one, _)| self.contains(one)) {
            write!(f, "{between}{name}")?;
            between = ", ";
        }
        if between.is_empty() { f.write_str("none") } else { Ok(()) }
    }
}

/// A session's entry: `TpmsAuthCommand` and `TpmsAuthResponse` of tpm2-protocol in one, with nonce and HMAC borrowed.
///
/// ```
/// use skeinloft::{TpmaSession, TpmsAuth};
///
/// let password = TpmsAuth { session_handle: 0x4000_0009, hmac: b"secret", ..TpmsAuth::default() };
/// assert_eq!(password.session_attributes, TpmaSession::default());
/// ```
#[derive(Clone, Copy, Debug, Default, PartialEq, Eq, Hash)]
pub struct TpmsAuth<'a> {
    /// The handle. An entry of a response has none: 0 where it is read, ignored where it is written.
    pub session_handle: u32,
    /// The nonce: of at most [`MAX_DIGEST_SIZE`](crate::MAX_DIGEST_SIZE) bytes where it was read by the standard rules.
    pub nonce: &'a [u8],
    /// The attributes.
    pub session_attributes: TpmaSession,
    /// The HMAC, or a password, with the same limit.
    pub hmac: &'a [u8],
}

/// The sessions of a frame: up to three entries, and the bytes that their nonces and HMACs stand in.
///
/// Those of a frame that was read can be written again as they are; [`Sessions::new`] makes others.
///
/// ```
/// use skeinloft::{Sessions, TpmsAuth};
///
/// let password = TpmsAuth { session_handle: 0x4000_0009, hmac: b"secret", ..TpmsAuth::default() };
/// let mut room = [0; 64];
/// let sessions = Sessions::new(&[password], &mut room)?;
/// assert_eq!(sessions.len(), 1);
/// assert!(sessions.iter().eq([password]));
/// # Ok::<(), skeinloft::WriteRefusal>(())
/// ```
#[derive(Clone, Copy, Default)]
pub struct Sessions<'a> {
    pub(crate) record: calls::Sessions,
    pub(crate) lent: &'a [u8],
}

impl<'a> Sessions<'a> {
    /// Takes these entries, and copies their nonces and HMACs to the room. The writers refuse more than three, and by
    /// the standard rules a nonce or an HMAC of more than [`MAX_DIGEST_SIZE`](crate::MAX_DIGEST_SIZE) bytes.
    ///
    /// # Errors
    ///
    /// [`Refusal::BufferOverflow`] where the room is too short, and [`WriteRefusal::IntegerTooLarge`] for a nonce or an HMAC
    /// of more than 65,535 bytes.
    ///
    /// ```
    /// use skeinloft::{Area, Refusal, Sessions, TpmsAuth};
    ///
    /// let entry = TpmsAuth { nonce: &[7; 16], hmac: &[8; 32], ..TpmsAuth::default() };
    /// let refusal = Sessions::new(&[entry, entry], &mut [0; 64]).unwrap_err();
    /// assert_eq!(refusal, Refusal::BufferOverflow { area: Area::None, offset: 64, needed: 32, available: 0 }.into());
    /// ```
    pub fn new(entries: &[TpmsAuth], room: &'a mut [u8]) -> Result<Self, WriteRefusal> {
        let mut record = calls::Sessions { count: entries.len(), ..calls::Sessions::default() };
        let mut taken = 0;
        for (place, entry) in record.three.iter_mut().zip(entries) {
            let nonce = lay(entry.nonce, &mut taken, room)?;
            let hmac = lay(entry.hmac, &mut taken, room)?;
            let attributes = entry.session_attributes.bits();
            *place = Session { handle: entry.session_handle, nonce, attributes, hmac };
        }
        Ok(Self { record, lent: room })
    }

    /// As the writers take them, between handles and parameters.
    pub(crate) const fn handed<'b>(&'b self, handles: &'b [u8], parameters: &'b [u8]) -> Handed<'b> {
        Handed { handles, sessions: self.record, lent: self.lent, parameters }
    }

    /// How many there are.
    ///
    /// ```
    /// assert_eq!(skeinloft::Sessions::default().len(), 0);
    /// ```
    #[must_use]
    pub const fn len(&self) -> usize {
        self.record.count
    }

    /// Tells whether there is none.
    ///
    /// ```
    /// assert!(skeinloft::Sessions::default().is_empty());
    /// ```
    #[must_use]
    pub const fn is_empty(&self) -> bool {
        self.record.count == 0
    }

    /// The entries in their order, the first three of them.
    ///
    /// ```
    /// use skeinloft::{Rules, TpmCc, TpmResponse};
    ///
    /// let random = TpmResponse::cast(Rules::STANDARD, &[
    ///     0x80, 0x02, 0, 0, 0, 23, 0, 0, 0, 0, // tag, size, success
    ///     0, 0, 0, 4, 0, 2, 0xAA, 0xBB, // parameters, and their size before them
    ///     0, 0, 1, 0, 0, // one entry
    /// ])?;
    /// let entry = random.parts(TpmCc::GetRandom)?.sessions.iter().next().unwrap();
    /// assert_eq!((entry.nonce, entry.session_attributes.bits(), entry.hmac), (&[][..], 1, &[][..]));
    /// # Ok::<(), skeinloft::Refusal>(())
    /// ```
    pub fn iter(&self) -> impl Iterator<Item = TpmsAuth<'a>> + use<'a> {
        let Self { record, lent } = *self;
        let bytes = move |field: Field| &lent[field.at..][..usize::from(field.size)];
        record.three.into_iter().take(record.count).map(move |entry| TpmsAuth {
            session_handle: entry.handle,
            nonce: bytes(entry.nonce),
            session_attributes: TpmaSession(entry.attributes),
            hmac: bytes(entry.hmac),
        })
    }
}

/// Copies the bytes to the room behind those that are taken, and tells where they are.
fn lay(bytes: &[u8], taken: &mut usize, room: &mut [u8]) -> Result<Field, WriteRefusal> {
    let (at, needed) = (*taken, bytes.len());
    let size = u16::try_from(needed).map_err(|_| WriteRefusal::IntegerTooLarge { offset: at, value: needed as u64 })?;
    let free = &mut room[at..];
    let available = free.len();
    let place =
        free.get_mut(..needed).ok_or(Refusal::BufferOverflow { area: Area::None, offset: at, needed, available })?;
    place.copy_from_slice(bytes);
    *taken += needed;
    Ok(Field { at, size })
}

/// Equal where the entries are.
impl PartialEq for Sessions<'_> {
    fn eq(&self, other: &Self) -> bool {
        self.len() == other.len() && self.iter().eq(other.iter())
    }
}

impl Eq for Sessions<'_> {}

impl fmt::Debug for Sessions<'_> {
    fn fmt(&self, f: &mut fmt::Formatter) -> fmt::Result {
        f.debug_list().entries(self.iter()).finish()
    }
}
