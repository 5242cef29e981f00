//! Numbers that have names: one table a type.

/// Makes a type of a number, with a constant for each row of its table: the constant, the number and the Library's name
/// without its prefix. The rows rise. The constant named first is the one that the examples show.
macro_rules! names {
    ($(#[$doc:meta])* $type:ident($number:ident) $prefix:literal $shown:ident $($const:ident = $value:literal $name:literal,)*) => {
        $(#[$doc])*
        #[derive(Clone, Copy, Debug, PartialEq, Eq, PartialOrd, Ord, Hash)]
        pub struct $type(pub $number);

        #[allow(non_upper_case_globals)]
        impl $type {
            $(#[doc = concat!("`", $prefix, $name, "`")] pub const $const: Self = Self($value);)*

            /// All that have a name, with the name, in rising order.
            ///
            /// ```
            #[doc = concat!("use skeinloft::", stringify!($type), ";")]
            ///
            #[doc = concat!("assert!(", stringify!($type), "::NAMED.iter().any(|&(it, _)| it == ", stringify!($type), "::", stringify!($shown), "));")]
            /// ```
            pub const NAMED: &'static [(Self, &'static str)] = &[$((Self::$const, concat!($prefix, $name)),)*];

            /// The number.
            ///
            /// ```
            #[doc = concat!("use skeinloft::", stringify!($type), ";")]
            ///
            #[doc = concat!("assert_eq!(", stringify!($type), "(7).value(), 7);")]
            /// ```
            #[must_use]
            pub const fn value(self) -> $number {
                self.0
            }

            /// The name that the Library gives it, if it has one.
            ///
            /// ```
            #[doc = concat!("use skeinloft::", stringify!($type), ";")]
            ///
            #[doc = concat!("let name = ", stringify!($type), "::", stringify!($shown), ".name().unwrap();")]
            #[doc = concat!("assert!(name.starts_with(\"", $prefix, "\"));")]
            #[doc = concat!("assert_eq!(", stringify!($type), "(7).name(), None);")]
            /// ```
            #[must_use]
            pub fn name(self) -> Option<&'static str> {
                let found = Self::NAMED.binary_search_by_key(&self, |&(it, _)| it);
                found.ok().map(|place| Self::NAMED[place].1)
            }
        }

        /// The name, and where there is none the number in hexadecimal.
        impl core::fmt::Display for $type {
            fn fmt(&self, f: &mut core::fmt::Formatter) -> core::fmt::Result {
                match self.name() {
                    Some(name) => f.pad(name),
                    None => write!(f, "0x{:0width$X}", self.0, width = 2 * size_of::<$number>()),
                }
            }
        }

        impl From<$number> for $type {
            fn from(value: $number) -> Self {
                Self(value)
            }
        }

        impl From<$type> for $number {
            fn from(named: $type) -> Self {
                named.0
            }
        }

        #[cfg(test)]
        mod tests {
            #[test]
            fn rows_rise() {
                assert!(super::$type::NAMED.is_sorted_by(|one, next| one.0 < next.0));
            }
        }
    };
}

pub(crate) use names;
