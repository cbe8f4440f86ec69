// SPDX-License-Identifier: MIT
//! The enumerations of `rrcache_shelf.h` that callers pass or get.

use std::fmt;

/// Declares an enumeration of the header, with its numbers and their conversion.
macro_rules! choices {
    ($(#[$doc:meta])* $visible:vis $name:ident {
        $($(#[$each:meta])* $choice:ident = $number:literal,)*
    }) => {
        $(#[$doc])*
        #[repr(u32)]
        $visible enum $name { $($(#[$each])* $choice = $number,)* }

        impl $name {
            /// Converts a number that the library returned.
            #[allow(dead_code)]
            pub(crate) fn told(number: u32) -> $name {
                match number {
                    $($number => $name::$choice,)*
                    other => panic!("the library returned {other} as {}", stringify!($name)),
                }
            }

            /// The names and numbers of the choices, for tests.
            #[cfg(test)]
            pub(crate) const ALL: &[(&str, u32)] = &[$((stringify!($choice), $number),)*];
        }
    };
}

choices! {
    /// The classes whose data the cache keeps (RFC 1035 section 3.2.4).
    #[derive(Clone, Copy, Debug, Default, PartialEq, Eq, Hash)]
    pub Class {
        /// The Internet.
        #[default]
        In = 1,
        /// Chaos.
        Ch = 3,
        /// Hesiod.
        Hs = 4,
    }
}

impl TryFrom<u16> for Class {
    type Error = crate::Error;

    /// Returns the class with this number, or [`BadType`](crate::Error::BadType) if data of this
    /// class are not kept.
    fn try_from(number: u16) -> Result<Class, crate::Error> {
        match number {
            1 => Ok(Class::In),
            3 => Ok(Class::Ch),
            4 => Ok(Class::Hs),
            _ => Err(crate::Error::BadType),
        }
    }
}

impl fmt::Display for Class {
    fn fmt(&self, f: &mut fmt::Formatter<'_>) -> fmt::Result {
        f.pad(match self {
            Class::In => "IN",
            Class::Ch => "CH",
            Class::Hs => "HS",
        })
    }
}

choices! {
    /// When stale data are acceptable (RFC 8767 section 5).
    #[derive(Clone, Copy, Debug, Default, PartialEq, Eq, Hash)]
    pub Mode {
        /// Never.
        #[default]
        NoStale = 1,
        /// Only if resolution of the question has failed recently.
        StaleIfFailed = 2,
        /// With or without a failure.
        StaleNow = 3,
    }
}

choices! {
    /// The rank of data (RFC 2181 section 5.4.1), from low to high.
    #[derive(Clone, Copy, Debug, PartialEq, Eq, PartialOrd, Ord, Hash)]
    pub Trust {
        /// Data of the additional section, or of the authority section of a non-authoritative
        /// response.
        Additional = 1,
        /// Data of the answer section that do not have the highest rank.
        NonAuthoritativeAnswer = 2,
        /// Data of the authority section of an authoritative response.
        Authority = 3,
        /// Data of the answer section of an authoritative response, if the owner is the name of the
        /// question.
        AuthoritativeAnswer = 4,
    }
}

choices! {
    /// The outcome of a call that stores data.
    #[derive(Clone, Copy, Debug, PartialEq, Eq, Hash)]
    pub Outcome {
        /// The data were stored.
        Kept = 1,
        /// The TTL was 0, and the key now holds nothing.
        Cleared = 2,
        /// The key holds data of higher rank, so nothing was stored.
        Outranked = 3,
    }
}

choices! {
    /// The sections of a response that have records (RFC 1035 section 4.1).
    #[derive(Clone, Copy, Debug, PartialEq, Eq, PartialOrd, Ord, Hash)]
    pub Section {
        /// The answer section.
        Answer = 1,
        /// The authority section.
        Authority = 2,
        /// The additional section.
        Additional = 3,
    }
}

choices! {
    /// The kind of an [`Rrset`](crate::Rrset) of an answer.
    #[derive(Clone, Copy, Debug, PartialEq, Eq, Hash)]
    pub RrsetKind {
        /// An unexpired RRset.
        Fresh = 1,
        /// An expired RRset (RFC 8767).
        Stale = 2,
        /// The SOA record of a negative answer: the name has no data of the type (RFC 2308 section
        /// 2.2).
        NoData = 3,
        /// The SOA record of a negative answer: the name does not exist (RFC 2308 section 2.1).
        NxDomain = 4,
    }
}

choices! {
    /// The kind of an answer, with the numbers of the library.
    #[derive(Clone, Copy)]
    pub(crate) Kind {
        Fresh = 1,
        Stale = 2,
        NoData = 3,
        NxDomain = 4,
        Miss = 5,
        Failed = 6,
    }
}

choices! {
    /// The kind of a response, with the numbers of the library.
    #[derive(Clone, Copy)]
    pub(crate) ResponseNumber {
        Answer = 1,
        UnequalTtls = 2,
        NoData = 3,
        NxDomain = 4,
        Referral = 5,
        Alias = 6,
        Failure = 7,
        Unusable = 8,
    }
}

/// The type of a record (RFC 1035 section 3.2.2).
///
/// ```
/// use rrcache::RecordType;
/// assert_eq!(RecordType::AAAA, RecordType(28));
/// assert_eq!(RecordType(28).to_string(), "AAAA");
/// assert_eq!(RecordType(65280).to_string(), "TYPE65280"); // RFC 3597 section 5
/// ```
#[derive(Clone, Copy, Debug, PartialEq, Eq, PartialOrd, Ord, Hash)]
pub struct RecordType(pub u16);

/// Declares the types for which this crate has a mnemonic.
macro_rules! types {
    ($($name:ident = $number:literal,)*) => {
        impl RecordType {
            $(#[doc = concat!("Type ", stringify!($number), ".")]
            pub const $name: RecordType = RecordType($number);)*

            /// Returns the mnemonic of the type, if this crate has one.
            fn mnemonic(self) -> Option<&'static str> {
                match self.0 {
                    $($number => Some(stringify!($name)),)*
                    _ => None,
                }
            }
        }
    };
}

types! {
    A = 1,
    NS = 2,
    CNAME = 5,
    SOA = 6,
    PTR = 12,
    MX = 15,
    TXT = 16,
    AAAA = 28,
    SRV = 33,
    NAPTR = 35,
    DNAME = 39,
    DS = 43,
    RRSIG = 46,
    NSEC = 47,
    DNSKEY = 48,
    NSEC3 = 50,
    NSEC3PARAM = 51,
    TLSA = 52,
    SVCB = 64,
    HTTPS = 65,
    ANY = 255,
    CAA = 257,
}

impl From<u16> for RecordType {
    fn from(number: u16) -> RecordType {
        RecordType(number)
    }
}

impl fmt::Display for RecordType {
    fn fmt(&self, f: &mut fmt::Formatter<'_>) -> fmt::Result {
        match self.mnemonic() {
            Some(mnemonic) => f.pad(mnemonic),
            None => f.pad(&format!("TYPE{}", self.0)),
        }
    }
}
