// SPDX-License-Identifier: MIT
//! The question to look up, or the data to forget.

use crate::ffi;
use crate::{Class, Mode, Name, RecordType};

/// A timestamp that means the current time of `CLOCK_BOOTTIME`.
///
/// Timestamps are in seconds, at most 2^40. A program must either pass `NOW` in all calls, or pass
/// timestamps from its own clock in all calls. That clock must never be set back.
pub const NOW: u64 = 0;

/// The question to look up, or the data to forget: a name, a class and a type.
///
/// ```
/// use rrcache::{Mode, Name, RecordType, Request};
/// let name: Name = "www.example.".parse()?;
/// let request = Request { mode: Mode::StaleIfFailed, ..Request::new(&name, RecordType::A) };
/// # Ok::<(), rrcache::Error>(())
/// ```
#[derive(Clone, Copy, Debug)]
pub struct Request<'a> {
    /// The name.
    pub name: &'a Name<'a>,
    /// The type.
    pub rtype: RecordType,
    /// The class.
    pub class: Class,
    /// The timestamp of the call, or [`NOW`].
    pub moment: u64,
    /// When stale data are acceptable.
    pub mode: Mode,
    /// Whether additional data are acceptable, such as glue, which must not answer a client's
    /// question (RFC 2181 section 5.4.1).
    pub takes_glue: bool,
}

impl<'a> Request<'a> {
    /// Makes a request of class IN with the timestamp [`NOW`], for which neither stale data nor
    /// glue are acceptable.
    pub fn new(name: &'a Name<'a>, rtype: RecordType) -> Request<'a> {
        Request {
            name,
            rtype,
            class: Class::In,
            moment: NOW,
            mode: Mode::NoStale,
            takes_glue: false,
        }
    }

    pub(crate) fn raw(&self) -> ffi::rrcache_request {
        ffi::rrcache_request {
            name: self.name.wire().as_ptr(),
            name_size: self.name.wire().len(),
            rtype: self.rtype.0,
            rclass: self.class as u16,
            moment: self.moment,
            mode: self.mode as u32,
            takes_glue: self.takes_glue,
        }
    }
}
