//! Why a call was refused.

use crate::area::Area;
use crate::calls::{AREA, OFFSET, Out};
use core::fmt;

/// One list of all refusals but that of the writers alone: a number, the name, its fields if it has some, and its words. One
/// with fields has an area too.
macro_rules! refusals {
    ($($(#[$doc:meta])* $number:literal $name:ident $({ $($(#[$told:meta])* $field:ident: $type:ty,)* })? $words:literal)*) => {
        /// Why a call was refused: bad input has one refusal, by number, name, area and fields.
        ///
        /// The names and the fields are those of `TpmError` in tpm2-protocol, which has no area. The offset is always the
        /// first field, and counts from the first byte that the call was given. Those from 13 on are of
        /// [`Keeper`](crate::Keeper), which tpm2-protocol does not have; they have no fields, and are in no area.
        ///
        /// ```
        /// use skeinloft::{Area, Refusal, Rules, TpmCommand};
        ///
        /// let refusal = TpmCommand::cast(Rules::STANDARD, &[0x80, 0x01]).unwrap_err();
        /// let short = Refusal::UnexpectedEnd { area: Area::Header, offset: 0, needed: 10, available: 2 };
        /// assert_eq!(refusal, short);
        /// assert_eq!((refusal.number(), refusal.name()), (1, "UnexpectedEnd"));
        /// assert_eq!(refusal.to_string(), "in the header area, the bytes end too early at byte 0: needed 10, available 2");
        /// ```
        ///
        /// There is no `IntegerTooLarge`, 7: it is proved that no call but a writer of frames gives it, whatever the input. The
        /// writers answer with [`WriteRefusal`], which has it. A reader's handler for it does not compile:
        ///
        /// ```compile_fail,E0599
        /// use skeinloft::{Refusal, Rules, TpmCommand};
        ///
        /// if let Err(Refusal::IntegerTooLarge { value, .. }) = TpmCommand::cast(Rules::STANDARD, &[0x80, 0x01]) {
        ///     println!("{value} is too large");
        /// }
        /// ```
        #[derive(Clone, Copy, Debug, PartialEq, Eq, Hash)]
        #[non_exhaustive]
        pub enum Refusal {
            $($(#[$doc])* $name $({
                /// The area of the frame.
                area: Area,
                $($(#[$told])* $field: $type,)*
            })?,)*
            /// A number that this crate has no name for: the library is newer than the crate.
            Unlisted {
                /// The area, as in every refusal.
                area: Area,
                /// The place, as in every refusal.
                offset: usize,
                /// The refusal's number.
                number: u32,
            },
        }

        impl Refusal {
            /// The refusal of a number, with the area and the fields that the lent array holds.
            pub(crate) fn new(number: u32, out: &Out) -> Self {
                let area = Area::new(out);
                let mut fields = out[OFFSET..AREA].iter();
                let mut next = || fields.next().copied().unwrap_or_default();
                match number {
                    $($number => Self::$name { $(area, $($field: next() as $type,)*)? },)*
                    _ => Self::Unlisted { area, offset: next() as usize, number },
                }
            }

            /// The number.
            ///
            /// ```
            /// let refusal = skeinloft::TpmRc::try_from(0x0C4).unwrap_err();
            /// assert_eq!(refusal.number(), 5);
            /// ```
            #[must_use]
            pub const fn number(&self) -> u32 {
                match *self {
                    $(Self::$name { .. } => $number,)*
                    Self::Unlisted { number, .. } => number,
                }
            }

            /// The name.
            ///
            /// ```
            /// let refusal = skeinloft::TpmRc::try_from(0x0C4).unwrap_err();
            /// assert_eq!(refusal.name(), "InvalidRc");
            /// ```
            #[must_use]
            pub const fn name(&self) -> &'static str {
                match self {
                    $(Self::$name { .. } => stringify!($name),)*
                    Self::Unlisted { .. } => "Unlisted",
                }
            }

            /// The fields in their order, each with its name.
            ///
            /// ```
            /// let refusal = skeinloft::TpmRc::try_from(0x0C4).unwrap_err();
            /// assert!(refusal.fields().eq([("offset", 0), ("value", 0x0C4)]));
            /// ```
            pub fn fields(&self) -> impl Iterator<Item = (&'static str, u64)> + use<> {
                let none = ("", 0);
                let fields: [(&'static str, u64); 3] = match *self {
                    $(Self::$name { $($($field,)*)? .. } => {
                        let mut fields = [none; 3];
                        let told: &[(&'static str, u64)] = &[$($((stringify!($field), $field as u64),)*)?];
                        fields[..told.len()].copy_from_slice(told);
                        fields
                    })*
                    Self::Unlisted { offset, .. } => [("offset", offset as u64), none, none],
                };
                fields.into_iter().filter(|(name, _)| !name.is_empty())
            }

            /// The place that the refusal names: how many bytes stand before it. One without fields names none, and gives 0.
            ///
            /// ```
            /// let one_too_many = [0x80, 0x01, 0, 0, 0, 10, 0, 0, 1, 0x7C, 0xFF];
            /// assert_eq!(skeinloft::TpmCommand::cast(skeinloft::Rules::STANDARD, &one_too_many).unwrap_err().offset(), 10);
            /// ```
            #[must_use]
            pub const fn offset(&self) -> usize {
                match *self {
                    $(Self::$name { $($($field,)*)? .. } => first(&[$($($field as usize,)*)?]),)*
                    Self::Unlisted { offset, .. } => offset,
                }
            }

            /// The area of the frame that the refusal is about.
            ///
            /// ```
            /// use skeinloft::{Area, Rules, TpmCommand};
            ///
            /// // a TPM2_GetRandom with an authorization area of one byte
            /// let bytes = [0x80, 0x02, 0, 0, 0, 15, 0, 0, 0x01, 0x7B, 0, 0, 0, 1, 0];
            /// let refusal = TpmCommand::cast(Rules::STANDARD, &bytes)?.validate().unwrap_err();
            /// assert_eq!((refusal.area(), refusal.offset()), (Area::Authorization, 14));
            /// // there is no frame
            /// assert_eq!(skeinloft::TpmRc::try_from(0x0C4).unwrap_err().area(), Area::None);
            /// # Ok::<(), skeinloft::Refusal>(())
            /// ```
            #[must_use]
            pub const fn area(&self) -> Area {
                // of one without fields
                let area = Area::None;
                match *self {
                    $(Self::$name { $(area, $($field: _,)*)? } => area,)*
                    Self::Unlisted { area, .. } => area,
                }
            }
        }

        /// In words, with the area where there is one.
        impl fmt::Display for Refusal {
            fn fmt(&self, f: &mut fmt::Formatter) -> fmt::Result {
                if self.area() != Area::None {
                    write!(f, "in the {} area, ", self.area())?;
                }
                match *self {
                    $(Self::$name { $($($field,)*)? .. } => write!(f, $words),)*
                    Self::Unlisted { offset, number, .. } => write!(f, "refused at byte {offset} by the number {number}"),
                }
            }
        }
    };
}

/// The first of a refusal's fields, which is the offset.
const fn first(fields: &[usize]) -> usize {
    if let [offset, ..] = fields { *offset } else { 0 }
}

refusals! {
    /// Bytes end too early.
    1 UnexpectedEnd {
        /// The place of what is missing.
        offset: usize,
        /// How many bytes it needs.
        needed: usize,
        /// How many there are.
        available: usize,
    } "the bytes end too early at byte {offset}: needed {needed}, available {available}"

    /// Bytes behind the end.
    2 TrailingData {
        /// The place of the first of them.
        offset: usize,
        /// How many there are.
        actual: usize,
    } "bytes behind the end at byte {offset}: {actual} too many"

    /// A tag that is none, or does not go with the rest.
    3 InvalidTag {
        /// The place of the tag.
        offset: usize,
        /// The tag.
        value: u64,
    } "a tag that may not stand at byte {offset}: 0x{value:04X}"

    /// A command code that is not in the table.
    4 InvalidCc {
        /// The place of the code.
        offset: usize,
        /// The code.
        value: u64,
    } "a command code that is none at byte {offset}: 0x{value:08X}"

    /// A response code that is none, or does not go with the rest.
    5 InvalidRc {
        /// The place of the code.
        offset: usize,
        /// The code.
        value: u64,
    } "a response code that may not stand at byte {offset}: 0x{value:08X}"

    /// More items than there may be.
    6 TooManyItems {
        /// The place of the first that is too many.
        offset: usize,
        /// How many there may be.
        limit: usize,
        /// How many there are up to here.
        actual: usize,
    } "too many items at byte {offset}: {actual}, at most {limit}"

    /// More bytes than the capacity, or than a nonce or an HMAC may have.
    8 TooManyBytes {
        /// The place of the size.
        offset: usize,
        /// How many bytes there may be.
        limit: usize,
        /// How many there are to be.
        actual: usize,
    } "too many bytes at byte {offset}: {actual}, at most {limit}"

    /// Lent room is too short.
    9 BufferOverflow {
        /// Where the bytes were to go.
        offset: usize,
        /// How many bytes it needs.
        needed: usize,
        /// How many there are.
        available: usize,
    } "the room is too short at byte {offset}: needed {needed}, available {available}"

    /// A command names an open session twice.
    13 HandleRepeated "the command names an open session twice"

    /// An answer has another count of sessions than its command.
    14 CountsDiffer "the answer has another count of sessions than the command"

    /// The session is open already.
    15 AlreadyOpen "the session is open already"

    /// As many sessions are open as a keeper takes.
    16 AllOpen "as many sessions are open as there may be"

    /// The session is not open.
    17 NotOpen "the session is not open"
}

impl core::error::Error for Refusal {}

/// Why a frame is not written, or sessions are not taken for one: a number too large, which nothing else is refused for, or a
/// [`Refusal`] as other calls give it.
///
/// ```
/// use skeinloft::{Sessions, TpmsAuth, WriteRefusal};
///
/// let entry = TpmsAuth { nonce: &[7; 65_536], ..TpmsAuth::default() };
/// let refusal = Sessions::new(&[entry], &mut []).unwrap_err();
/// if let WriteRefusal::IntegerTooLarge { value, .. } = refusal {
///     println!("{value} is too large");
/// }
/// assert_eq!(refusal, WriteRefusal::IntegerTooLarge { offset: 0, value: 65_536 });
/// assert_eq!((refusal.number(), refusal.name()), (7, "IntegerTooLarge"));
/// assert_eq!(refusal.to_string(), "a number too large at byte 0: 65536");
/// ```
///
/// A function that reads and writes answers with this: `?` takes the refusals of both.
///
/// ```
/// use skeinloft::{Area, Refusal, Rules, TpmCommand, WriteRefusal};
///
/// fn write_again(frame: &[u8], room: &mut [u8]) -> Result<usize, WriteRefusal> {
///     let parts = TpmCommand::cast(Rules::STANDARD, frame)?.parts()?;
///     parts.marshal(Rules::STANDARD, room)
/// }
///
/// let refusal = write_again(&[0x80, 0x01], &mut []).unwrap_err();
/// let short = Refusal::UnexpectedEnd { area: Area::Header, offset: 0, needed: 10, available: 2 };
/// assert_eq!(refusal, short.into());
/// assert_eq!(refusal.to_string(), "in the header area, the bytes end too early at byte 0: needed 10, available 2");
/// ```
#[derive(Clone, Copy, Debug, PartialEq, Eq, Hash)]
#[non_exhaustive]
pub enum WriteRefusal {
    /// A number too large for its field: a frame has more bytes than 32 bits can say, or a nonce or an HMAC more than 16 can.
    IntegerTooLarge {
        /// The place of the field.
        offset: usize,
        /// The number.
        value: u64,
    },
    /// A refusal that other calls give as well.
    Common(Refusal),
}

impl WriteRefusal {
    const INTEGER_TOO_LARGE: u32 = 7;

    /// The refusal of a number, with the fields that the lent array holds.
    pub(crate) fn new(number: u32, out: &Out) -> Self {
        match number {
            Self::INTEGER_TOO_LARGE => Self::IntegerTooLarge { offset: out[OFFSET] as usize, value: out[OFFSET + 1] },
            _ => Self::Common(Refusal::new(number, out)),
        }
    }

    /// The number.
    ///
    /// ```
    /// assert_eq!(skeinloft::WriteRefusal::IntegerTooLarge { offset: 0, value: 1 << 32 }.number(), 7);
    /// ```
    #[must_use]
    pub const fn number(&self) -> u32 {
        match self {
            Self::IntegerTooLarge { .. } => Self::INTEGER_TOO_LARGE,
            Self::Common(refusal) => refusal.number(),
        }
    }

    /// The name, which is the inner one's for [`Common`](Self::Common).
    ///
    /// ```
    /// use skeinloft::{Area, Refusal, WriteRefusal};
    ///
    /// let refusal = WriteRefusal::Common(Refusal::InvalidCc { area: Area::None, offset: 0, value: 0x197 });
    /// assert_eq!(refusal.name(), "InvalidCc");
    /// ```
    #[must_use]
    pub const fn name(&self) -> &'static str {
        match self {
            Self::IntegerTooLarge { .. } => "IntegerTooLarge",
            Self::Common(refusal) => refusal.name(),
        }
    }

    /// The fields in their order, each with its name.
    ///
    /// ```
    /// let refusal = skeinloft::WriteRefusal::IntegerTooLarge { offset: 0, value: 1 << 32 };
    /// assert!(refusal.fields().eq([("offset", 0), ("value", 1 << 32)]));
    /// ```
    pub fn fields(&self) -> impl Iterator<Item = (&'static str, u64)> + use<> {
        let (own, others) = match *self {
            Self::IntegerTooLarge { offset, value } => (Some([("offset", offset as u64), ("value", value)]), None),
            Self::Common(refusal) => (None, Some(refusal.fields())),
        };
        own.into_iter().flatten().chain(others.into_iter().flatten())
    }

    /// The place that the refusal names, as [`Refusal::offset`].
    ///
    /// ```
    /// use skeinloft::{Sessions, TpmsAuth};
    ///
    /// let entry = TpmsAuth { nonce: &[7; 16], hmac: &[8; 65_536], ..TpmsAuth::default() };
    /// assert_eq!(Sessions::new(&[entry], &mut [0; 64]).unwrap_err().offset(), 16);
    /// ```
    #[must_use]
    pub const fn offset(&self) -> usize {
        match self {
            Self::IntegerTooLarge { offset, .. } => *offset,
            Self::Common(refusal) => refusal.offset(),
        }
    }

    /// The area, as [`Refusal::area`]: none where a writer refuses, since there is no frame yet.
    ///
    /// ```
    /// use skeinloft::{Area, Refusal, Rules, TpmCommand, WriteRefusal};
    ///
    /// let read = TpmCommand::cast(Rules::STANDARD, &[0x80, 0x01, 0, 0, 0, 10, 0, 0, 0x01, 0x7C])?;
    /// assert_eq!(read.parts()?.marshal(Rules::STANDARD, &mut []).unwrap_err().area(), Area::None);
    ///
    /// let of_a_frame = TpmCommand::cast(Rules::STANDARD, &[]).unwrap_err();
    /// assert_eq!(WriteRefusal::from(of_a_frame).area(), Area::Header);
    /// # Ok::<(), Refusal>(())
    /// ```
    #[must_use]
    pub const fn area(&self) -> Area {
        match self {
            Self::IntegerTooLarge { .. } => Area::None,
            Self::Common(refusal) => refusal.area(),
        }
    }
}

impl From<Refusal> for WriteRefusal {
    fn from(refusal: Refusal) -> Self {
        Self::Common(refusal)
    }
}

/// In words.
impl fmt::Display for WriteRefusal {
    fn fmt(&self, f: &mut fmt::Formatter) -> fmt::Result {
        match self {
            Self::IntegerTooLarge { offset, value } => write!(f, "a number too large at byte {offset}: {value}"),
            Self::Common(refusal) => refusal.fmt(f),
        }
    }
}

/// The refusal inside [`Common`](Self::Common) is not its source: its words are this one's, and would be said twice.
impl core::error::Error for WriteRefusal {}

#[cfg(test)]
mod tests {
    use super::{Refusal, WriteRefusal};
    use crate::area::Area;
    use core::error::Error;

    #[test]
    fn fields_come_from_their_places() {
        let out = [1, 2, 3, 4, 5, 6, 7, 3];
        let area = Area::Authorization;
        assert_eq!(Refusal::new(6, &out), Refusal::TooManyItems { area, offset: 5, limit: 6, actual: 7 });
        assert_eq!(Refusal::new(2, &out), Refusal::TrailingData { area, offset: 5, actual: 6 });
        assert_eq!(Refusal::new(100, &out), Refusal::Unlisted { area, offset: 5, number: 100 });
    }

    #[test]
    fn areas_come_from_their_numbers() {
        let areas = [Area::None, Area::Header, Area::Handles, Area::Authorization, Area::Parameters];
        for (area, number) in areas.into_iter().zip(0..) {
            let refusal = Refusal::new(1, &[0, 0, 0, 0, 0, 0, 0, number]);
            assert_eq!((refusal.area(), WriteRefusal::from(refusal).area()), (area, area));
        }
        // there is no sixth
        assert_eq!(Refusal::new(1, &[5; 8]).area(), Area::None);
    }

    #[test]
    fn it_goes_where_errors_go() {
        fn taken<T: Error + Send + Sync + 'static>(error: T) {
            assert!(error.source().is_none());
        }
        taken(Refusal::new(1, &[0; 8]));
        taken(WriteRefusal::new(1, &[0; 8]));
    }

    #[test]
    fn numbers_are_those_they_were_made_of() {
        for number in 1..=120 {
            let refusal = Refusal::new(number, &[0; 8]);
            assert_eq!(refusal.number(), number);
            assert_eq!(refusal.name() == "Unlisted", !matches!(number, 1..=6 | 8 | 9 | 13..=17));
        }
    }

    #[test]
    fn writers_have_one_more() {
        let out = [1, 2, 3, 4, 5, 6, 7, 1];
        for number in 1..=120 {
            let refusal = WriteRefusal::new(number, &out);
            assert_eq!(refusal.number(), number);
            if number == 7 {
                assert_eq!(refusal, WriteRefusal::IntegerTooLarge { offset: 5, value: 6 });
                assert_eq!((refusal.name(), refusal.offset(), refusal.area()), ("IntegerTooLarge", 5, Area::None));
                assert!(refusal.fields().eq([("offset", 5), ("value", 6)]));
                continue;
            }
            let other = Refusal::new(number, &out);
            assert_eq!(refusal, WriteRefusal::from(other));
            assert_eq!((refusal.name(), refusal.offset()), (other.name(), other.offset()));
            assert_eq!((refusal.area(), other.area() == Area::None), (other.area(), matches!(number, 13..=17)));
            assert!(refusal.fields().eq(other.fields()));
        }
    }

    #[test]
    fn those_of_the_keeper_have_no_fields() {
        for number in 13..=17 {
            let refusal = Refusal::new(number, &[2; 8]);
            assert_eq!((refusal.fields().count(), refusal.offset(), refusal.area()), (0, 0, Area::None));
        }
        assert_eq!(Refusal::new(17, &[2; 8]), Refusal::NotOpen);
    }
}
