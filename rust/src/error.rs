// SPDX-License-Identifier: MIT
//! The errors of calls.

use std::fmt;
use std::io;

use crate::ffi;

/// Declares the errors, each with the number and the text that it has in `rrcache_shelf.h`.
macro_rules! refusals {
    ($($(#[$doc:meta])* $name:ident = $number:literal $text:literal,)*) => {
        /// The error of a call: a status of the library, with its text.
        ///
        /// An error leaves the cache and the outputs unmodified, unless the description of the call
        /// says otherwise.
        #[derive(Clone, Copy, Debug, PartialEq, Eq, Hash)]
        #[non_exhaustive]
        pub enum Error {
            $($(#[$doc])* $name,)*
            /// A status of a newer library, which this version of the crate does not know.
            Other(u32),
            /// The library has a major version other than this crate's, or an older minor version.
            /// The number is the version of the library, with 8 bits each for major, minor and
            /// patch.
            Library(u32),
        }

        impl Error {
            /// The errors of the library, for tests.
            #[cfg(test)]
            pub(crate) const ALL: &[Error] = &[$(Error::$name,)*];

            fn of(status: u32) -> Error {
                match status {
                    $($number => Error::$name,)*
                    other => Error::Other(other),
                }
            }

            /// Returns the number of the status in `rrcache_shelf.h`, or 0 for [`Error::Library`].
            pub fn status(self) -> u32 {
                match self {
                    $(Error::$name => $number,)*
                    Error::Other(status) => status,
                    Error::Library(_) => 0,
                }
            }

            /// Returns the text of the status.
            fn text(self) -> &'static str {
                match self {
                    $(Error::$name => $text,)*
                    Error::Other(_) => "no such status",
                    Error::Library(_) => "the library has another version than this crate needs",
                }
            }
        }
    };
}

refusals! {
    /// A handle holds no shelf. No call of this crate returns this error.
    NoShelf = 1 "the handle holds no shelf",
    /// A handle already holds a shelf. No call of this crate returns this error.
    HasShelf = 2 "the handle already holds a shelf",
    /// `malloc` failed.
    Memory = 3 "out of memory",
    /// The event numbers are used up: the next number would be 2^62.
    HistoryFull = 4 "the event numbers are used up",
    /// The timestamp is above 2^40.
    MomentTooLarge = 5 "the timestamp is too large",
    /// A number in the [`Config`](crate::Config) is out of range, or the limit of a sweep is 0.
    BadRules = 6 "a number in the rules is out of range",
    /// The system provides no random octets for a seed.
    BadSeed = 7 "the seed is all zeros",
    /// A number in the [`Limits`](crate::Limits) is out of range.
    BadLimits = 8 "a limit is out of range",
    /// The argument is not a name.
    BadName = 9 "the octets are not the wire form of a name",
    /// The response answers the query but cannot be read. This means that the server has failed,
    /// unless TC is set.
    BadMessage = 10 "the octets cannot be read as a response",
    /// An enumeration has no such number. No call of this crate returns this error.
    BadChoice = 11 "no purpose, mode, kind, rank, section or RCODE has this number",
    /// Data of this type are not supported in this class, or the type of a question is 0.
    BadType = 12 "this type or class is not supported",
    /// The rdata do not fill the layout of their type, or have more than 65,535 octets.
    BadData = 13 "the rdata are malformed for their type",
    /// The RRset to store has no data, or a TTL is above 2^31 - 1.
    WrongBody = 14 "the RRset has no data, or its TTL is too large",
    /// A reply has too many octets. No call of this crate returns this error.
    Wide = 15 "the reply has too many octets of rdata",
    /// The buffer of the [`Answer`](crate::Answer) is too small.
    Small = 16 "the buffer is too small",
    /// A pointer is null. No call of this crate returns this error.
    Null = 17 "a pointer is null",
    /// A handle holds no offers. No call of this crate returns this error.
    NoOffers = 18 "the handle holds no offers, or none with this number",
    /// A handle already holds offers. No call of this crate returns this error.
    HasOffers = 19 "the handle already holds offers",
    /// The octets do not answer the query: drop them and keep waiting.
    OtherQuery = 20 "the octets do not answer the query",
    /// A handle holds no chapters. No call of this crate returns this error.
    NoChapters = 21 "the handle holds no chapters",
    /// Histories are being recorded, so nothing can be dumped.
    HasChapters = 22 "the handle already holds chapters",
    /// There is no such line. No call of this crate returns this error.
    NoLine = 23 "there is no such line",
    /// A sink failed. Calls of this crate return the error of the writer instead of this error.
    Sink = 24 "the sink returned an error",
    /// Buffers overlap. No call of this crate returns this error.
    Overlap = 25 "an output overlaps another argument",
    /// A name has another seed. No call of this crate returns this error.
    OtherSeed = 26 "the name or the message has a seed other than the shelf's",
    /// The response is a header without a question. This means that the server has failed.
    NoQuestion = 27 "the response has no question",
    /// The data would use more memory than a shelf may use.
    TooLarge = 28 "the data would use more memory than a shelf may use",
}

impl fmt::Display for Error {
    fn fmt(&self, f: &mut fmt::Formatter<'_>) -> fmt::Result {
        f.write_str(self.text())
    }
}

impl std::error::Error for Error {}

impl From<Error> for io::Error {
    fn from(error: Error) -> io::Error {
        io::Error::other(error)
    }
}

/// Converts a status of the library into a result.
pub(crate) fn check(status: u32) -> Result<(), Error> {
    match status {
        ffi::RRCACHE_DONE => Ok(()),
        refusal => Err(Error::of(refusal)),
    }
}
