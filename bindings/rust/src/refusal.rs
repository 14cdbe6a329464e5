//! Why a call is refused.

use std::{error, fmt};

macro_rules! numbered {
    ($(#[$doc:meta])* $name:ident { $($(#[$of:meta])* $variant:ident = $number:literal),* $(,)? }) => {
        $(#[$doc])*
        #[derive(Clone, Copy, Debug, PartialEq, Eq, Hash)]
        #[non_exhaustive]
        pub enum $name {
            $($(#[$of])* $variant,)*
            /// A number that this version of the crate doesn't know.
            Unknown(u32),
        }

        impl $name {
            fn of(number: u32) -> Self {
                match number {
                    $($number => Self::$variant,)*
                    number => Self::Unknown(number),
                }
            }

            /// The number, as in `witc.h`.
            pub fn number(self) -> u32 {
                match self {
                    $(Self::$variant => $number,)*
                    Self::Unknown(number) => number,
                }
            }
        }
    };
}

numbered! {
    /// Why bytes mean no package, or no single world. Take it as advice: it is not proved that the cause is the right one.
    Cause {
        /// The bytes end too early.
        Truncated = 1,
        /// A number is too large, or is written in too many bytes.
        BadNumber = 2,
        /// A name isn't UTF-8.
        BadUtf8 = 3,
        /// The bytes don't begin as a component does.
        BadPreamble = 4,
        /// A section has an id that packages don't use.
        UnknownSection = 5,
        /// A type or a declaration has an unknown form.
        UnknownForm = 6,
        /// An index refers to nothing.
        OutOfScope = 7,
        /// A name isn't allowed where it stands.
        BadName = 8,
        /// The component is no WIT package.
        NotWit = 9,
        /// One interface is described twice, in two different ways.
        Disagree = 10,
        /// A type is nested more than 100 levels deep.
        TooDeep = 11,
        /// A section has extra bytes after its contents.
        Trailing = 12,
        /// The component exports nothing.
        NoPackage = 13,
    }
}

numbered! {
    /// What two sections clash in.
    ClashKind {
        /// An interface.
        Interface = 1,
        /// A world.
        World = 2,
        /// An import of the merged world.
        Import = 3,
        /// An export of the merged world.
        Export = 4,
        /// The string encoding of a function.
        Encoding = 5,
    }
}

/// Which refusal it is.
#[derive(Clone, Copy, Debug, PartialEq, Eq, Hash)]
#[non_exhaustive]
pub enum Code {
    /// A count or a length doesn't fit in 32 bits.
    TooLarge,
    /// Two imports, or two exports, have the same canonical name.
    CanonicalClash,
    /// The bytes mean no package, or no single world.
    NoReading(Cause),
    /// A section of bindings has no string encoding.
    EncodingMissing,
    /// The section of the string encoding is empty.
    EncodingUnknownFormat,
    /// The section of the string encoding has another format, which is this byte.
    EncodingVersion(u8),
    /// No string encoding has the number of this byte.
    BadStringEncoding(u8),
    /// A section is in the format from before there were versions.
    Historical,
    /// The bytes don't begin as a core module does.
    NotAModule,
    /// No well-formed section begins at the offset.
    BadModule,
    /// Two sections disagree.
    Clash(ClashKind),
    /// The worlds to compare are of packages with different names.
    OtherPackage,
    /// A world has two versions of an interface.
    TwiceWithoutVersion,
    /// A world lacks an item.
    Missing,
    /// Two worlds differ in an item.
    Differs,
    /// The package has no world of this name.
    NoSuchWorld,
    /// The module has no section of this number that carries a world.
    NoSuchSection,
    /// The text is longer than the length that the caller has set.
    TextTooLong,
    /// The WIT text of this number is refused, at the offset; or all texts together are, without an offset.
    BadText(u32),
    /// The own WIT text of this number begins with another package than the first.
    TwoPackages(u32),
    /// The number of own WIT texts isn't 1 to the number of all texts.
    BadCount,
    /// A number that this version of the crate doesn't know.
    Unknown(u32),
}

impl Code {
    fn of(code: u32, detail: u32) -> Code {
        match code {
            2 => Code::TooLarge,
            3 => Code::CanonicalClash,
            4 => Code::NoReading(Cause::of(detail)),
            5 => Code::EncodingMissing,
            6 => Code::EncodingUnknownFormat,
            7 => Code::EncodingVersion(detail as u8),
            8 => Code::BadStringEncoding(detail as u8),
            9 => Code::Historical,
            10 => Code::NotAModule,
            11 => Code::BadModule,
            12 => Code::Clash(ClashKind::of(detail)),
            13 => Code::OtherPackage,
            14 => Code::TwiceWithoutVersion,
            15 => Code::Missing,
            16 => Code::Differs,
            17 => Code::NoSuchWorld,
            20 => Code::NoSuchSection,
            21 => Code::TextTooLong,
            23 => Code::BadText(detail),
            24 => Code::TwoPackages(detail),
            25 => Code::BadCount,
            n => Code::Unknown(n),
        }
    }
}

/// Why a call is refused. It is written as its message, which has no line feed at its end.
#[derive(Clone, Debug, PartialEq, Eq)]
pub struct Refusal {
    /// Which refusal it is.
    pub code: Code,
    /// Where in the bytes, or in the WIT text, at most their length.
    pub offset: Option<usize>,
    /// The name that the refusal is about.
    pub subject: Option<String>,
    number: u32,
    detail: u32,
    message: String,
}

impl Refusal {
    pub(crate) fn of(
        (number, detail): (u32, u32),
        offset: Option<usize>,
        message: &[u8],
        subject: usize,
    ) -> Refusal {
        let text = |bytes| String::from_utf8_lossy(bytes).into_owned();
        Refusal {
            code: Code::of(number, detail),
            offset,
            subject: (subject > 0).then(|| text(&message[message.len() - subject..])),
            number,
            detail,
            message: text(message),
        }
    }

    /// The message: what is wrong, and often what to do.
    pub fn message(&self) -> &str {
        &self.message
    }

    /// The number of the code, as in `witc.h`.
    pub fn number(&self) -> u32 {
        self.number
    }

    /// The detail, as in `witc.h`: the number of a cause, of a kind of clash or of a WIT text, a byte, or 0.
    pub fn detail(&self) -> u32 {
        self.detail
    }

    /// Whether this is the answer no of [`require_compatible`](crate::require_compatible): the worlds are read, and one can't replace the other.
    pub fn is_no(&self) -> bool {
        matches!(
            self.code,
            Code::OtherPackage | Code::TwiceWithoutVersion | Code::Missing | Code::Differs
        )
    }
}

impl fmt::Display for Refusal {
    fn fmt(&self, f: &mut fmt::Formatter<'_>) -> fmt::Result {
        f.write_str(&self.message)
    }
}

impl error::Error for Refusal {}

#[cfg(test)]
mod tests {
    use super::*;

    #[test]
    fn each_number_has_a_name() {
        for number in 1..=13 {
            assert_eq!(Cause::of(number).number(), number);
            assert_ne!(Cause::of(number), Cause::Unknown(number));
        }
        for number in 1..=5 {
            assert_eq!(ClashKind::of(number).number(), number);
            assert_ne!(ClashKind::of(number), ClashKind::Unknown(number));
        }
        assert_eq!(Cause::of(14), Cause::Unknown(14));
        assert_eq!(ClashKind::of(6).number(), 6);
        assert_eq!(Code::of(22, 0), Code::Unknown(22));
        assert_eq!(Code::of(23, 7), Code::BadText(7));
        assert_eq!(Code::of(24, 1), Code::TwoPackages(1));
        assert_eq!(Code::of(26, 0), Code::Unknown(26));
    }

    #[test]
    fn codes_13_to_16_are_the_answer_no() {
        for number in 0..30 {
            let refusal = Refusal::of((number, 0), None, b"", 0);
            assert_eq!(refusal.is_no(), (13..=16).contains(&number), "{number}");
            assert_eq!(refusal.number(), number);
        }
    }
}
