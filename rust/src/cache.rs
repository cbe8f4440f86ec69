// SPDX-License-Identifier: MIT
//! A cache that threads share.

use std::fmt;
use std::mem::MaybeUninit;
use std::ptr::{self, NonNull};

use crate::error::check;
use crate::ffi;
use crate::{
    Answer, AnswerKind, Config, Error, Failure, Negative, Outcome, Query, Report, Request,
    Response, Set, Stats,
};

/// An RRset cache that threads share. The cache does its own locking.
///
/// Any thread may make any call at any time through a shared reference.
///
/// ```
/// use rrcache::{AnswerKind, Cache, Config, Name, RecordType, Request, Set};
///
/// let cache = Cache::open(&Config::default())?;
/// let name: Name = "www.example.".parse()?;
/// cache.store_set(&Set::new(&name, RecordType::A, 60, &[&[192, 0, 2, 1]]))?;
///
/// let answer = cache.lookup(&Request::new(&name, RecordType::A))?;
/// assert_eq!(answer.kind(), AnswerKind::Fresh);
/// for rrset in answer.rrsets() {
///     assert_eq!(rrset.owner, name);
///     assert_eq!(rrset.data.collect::<Vec<_>>(), [[192, 0, 2, 1]]);
/// }
/// # Ok::<(), rrcache::Error>(())
/// ```
pub struct Cache {
    raw: NonNull<ffi::rrcache>,
}

// SAFETY: any thread may call the library, and close the cache.
unsafe impl Send for Cache {}
// SAFETY: any thread may make any call except `rrcache_close` at any time, because the library does
// its own locking.
unsafe impl Sync for Cache {}

/// Converts one number of the crate's version.
const fn number(text: &str) -> u32 {
    match u32::from_str_radix(text, 10) {
        Ok(number) => number,
        Err(_) => panic!("a version has numbers"),
    }
}

/// The version of the crate, which is also the version of the headers.
pub(crate) const MAJOR: u32 = number(env!("CARGO_PKG_VERSION_MAJOR"));
pub(crate) const MINOR: u32 = number(env!("CARGO_PKG_VERSION_MINOR"));

/// Returns whether a library of this version has all functions that `ffi` declares. In the number,
/// major, minor and patch have 8 bits each.
fn is_supported(version: u32) -> bool {
    version >> 16 == MAJOR && version >> 8 & 0xff >= MINOR
}

impl Cache {
    /// Opens a cache.
    ///
    /// Returns [`BadRules`](Error::BadRules) or [`BadLimits`](Error::BadLimits) if a number is out
    /// of range, [`BadSeed`](Error::BadSeed) if the system provides no random octets,
    /// [`Library`](Error::Library) if the version of the library is not supported, and
    /// [`Memory`](Error::Memory) if `malloc` fails.
    pub fn open(config: &Config) -> Result<Cache, Error> {
        // SAFETY: the call has no arguments.
        let version = unsafe { ffi::rrc_version() };
        if !is_supported(version) {
            return Err(Error::Library(version));
        }
        let mut raw = ptr::null_mut();
        // SAFETY: both pointers lead to what the call reads and writes.
        check(unsafe { ffi::rrcache_open(&mut raw, &config.raw()) })?;
        Ok(Cache { raw: NonNull::new(raw).expect("an open cache is there") })
    }

    /// Returns the cache as an argument for the library.
    pub(crate) fn raw(&self) -> *mut ffi::rrcache {
        self.raw.as_ptr()
    }

    /// Looks up the answer to a question, as [`lookup_into`](Cache::lookup_into) does, and returns
    /// a new [`Answer`].
    pub fn lookup(&self, request: &Request<'_>) -> Result<Answer, Error> {
        let mut answer = Answer::new();
        self.lookup_into(request, &mut answer)?;
        Ok(answer)
    }

    /// Looks up the answer to a question, and returns its kind. The answer has the CNAME RRsets of
    /// the CNAME chain that begins at the name, and the reply for the name at the end of the chain:
    /// an RRset of the type, a negative answer, or a miss. After a miss, the answer still has the
    /// CNAME RRsets. For a question of type CNAME or ANY (RFC 1034 section 4.3.2), NSEC or RRSIG
    /// (RFC 4035 section 2.5), no CNAME record is followed.
    ///
    /// With [`StaleIfFailed`](crate::Mode::StaleIfFailed), stale data are acceptable for every name
    /// of the chain if resolution of the question has failed recently, and this failure was stored
    /// after the CNAME record, if any, of the question's name (RFC 8767 section 5). Otherwise, they
    /// are acceptable only for names for which resolution of the type has failed recently. A
    /// look-up does not allocate memory unless a history is being recorded.
    ///
    /// Returns [`Small`](Error::Small) if the buffer of the answer is too small. The answer then
    /// has the RRsets that fit. After any other error the answer is empty.
    ///
    /// ```
    /// use rrcache::{Answer, AnswerKind, Cache, Config, Name, RecordType, Request};
    /// let cache = Cache::open(&Config::default())?;
    /// let mut answer = Answer::new(); // one for each thread, for all its look-ups
    /// for text in ["www.example.", "mail.example."] {
    ///     let name: Name = text.parse()?;
    ///     let kind = cache.lookup_into(&Request::new(&name, RecordType::A), &mut answer)?;
    ///     assert_eq!((kind, answer.end()), (AnswerKind::Miss, Some(name)));
    /// }
    /// # Ok::<(), rrcache::Error>(())
    /// ```
    pub fn lookup_into(
        &self,
        request: &Request<'_>,
        answer: &mut Answer,
    ) -> Result<AnswerKind, Error> {
        let (cache, request) = (self.raw(), request.raw());
        // SAFETY: the name is borrowed, and the answer owns its buffer.
        answer.fill(|answer| check(unsafe { ffi::rrcache_lookup(cache, &request, answer) }))?;
        Ok(answer.kind())
    }

    /// Looks up a delegation, as [`lookup_delegation_into`](Cache::lookup_delegation_into) does,
    /// and returns a new [`Answer`].
    pub fn lookup_delegation(&self, request: &Request<'_>) -> Result<Answer, Error> {
        let mut answer = Answer::new();
        self.lookup_delegation_into(request, &mut answer)?;
        Ok(answer)
    }

    /// Looks up the deepest unexpired NS RRset at or above a name, from which a resolver can start
    /// (RFC 1034 section 5.3.3, RFC 9156 section 2). The [`end`](Answer::end) of the answer is the
    /// owner of that RRset. If there is no such RRset, the answer is a miss. The type, the mode and
    /// `takes_glue` of the request are ignored.
    ///
    /// ```
    /// use rrcache::{AnswerKind, Cache, Config, Name, RecordType, Request, Set};
    /// let cache = Cache::open(&Config::default())?;
    /// let [zone, name]: [Name; 2] = ["example.".parse()?, "www.example.".parse()?];
    /// let server: Name = "ns.example.".parse()?;
    /// cache.store_set(&Set::new(&zone, RecordType::NS, 60, &[server.wire()]))?;
    /// let answer = cache.lookup_delegation(&Request::new(&name, RecordType::A))?;
    /// assert_eq!((answer.kind(), answer.end()), (AnswerKind::Fresh, Some(zone)));
    /// # Ok::<(), rrcache::Error>(())
    /// ```
    pub fn lookup_delegation_into(
        &self,
        request: &Request<'_>,
        answer: &mut Answer,
    ) -> Result<AnswerKind, Error> {
        let (cache, request) = (self.raw(), request.raw());
        let call = ffi::rrcache_lookup_delegation;
        // SAFETY: the name is borrowed, and the answer owns its buffer.
        answer.fill(|answer| check(unsafe { call(cache, &request, answer) }))?;
        Ok(answer.kind())
    }

    /// Stores the data of a response that are relevant to the query that was sent.
    ///
    /// Returns [`OtherQuery`](Error::OtherQuery) if the octets do not answer the query: the caller
    /// then drops them and keeps waiting. [`BadMessage`](Error::BadMessage) and
    /// [`NoQuestion`](Error::NoQuestion) mean that the server has failed, and nothing is stored. A
    /// response with an RCODE other than NOERROR and NXDOMAIN is stored as a failure of its
    /// question. So store such a response only when no other server is left to ask. From a response
    /// with TC set, nothing is stored: send the query again over TCP. If such a response ends
    /// inside a record, the error is `BadMessage`, which then does not mean that the server has
    /// failed. The caller must check the address and port that a response came from. After
    /// [`Memory`](Error::Memory) or [`HistoryFull`](Error::HistoryFull), a part of the data may
    /// have been stored.
    ///
    /// ```
    /// use rrcache::{Cache, Config, Name, Query, RecordType, Response, ResponseKind};
    /// let cache = Cache::open(&Config::default())?;
    /// let [name, zone]: [Name; 2] = ["www.example.".parse()?, "example.".parse()?];
    /// let query = Query::new(&name, RecordType::A, 0x1234);
    /// let octets = b"\x12\x34\x84\0\0\x01\0\x01\0\0\0\0\
    ///     \x03www\x07example\0\0\x01\0\x01\
    ///     \xc0\x0c\0\x01\0\x01\0\0\0\x3c\0\x04\xc0\0\x02\x01";
    /// let report = cache.store(&query, &Response::new(octets, &zone))?;
    /// assert_eq!((report.kind, report.kept), (ResponseKind::Answer, 1));
    /// # Ok::<(), rrcache::Error>(())
    /// ```
    pub fn store(&self, query: &Query<'_>, response: &Response<'_>) -> Result<Report, Error> {
        self.store_by(query, response, ptr::null_mut())
    }

    /// Stores a response, and fills `answer` unless this pointer is null.
    fn store_by(
        &self,
        query: &Query<'_>,
        response: &Response<'_>,
        answer: *mut ffi::rrcache_answer,
    ) -> Result<Report, Error> {
        let (cache, query, response) = (self.raw(), query.raw(), response.raw());
        let mut report = MaybeUninit::zeroed();
        let to = report.as_mut_ptr();
        // SAFETY: the octets of the query, the response and the answer are borrowed. There is room
        // for the report.
        check(unsafe { ffi::rrcache_store(cache, &query, &response, to, answer) })?;
        // SAFETY: a successful call has written the report, and zeros are a valid report too.
        Ok(Report::told(unsafe { report.assume_init_ref() }))
    }

    /// Stores a response as [`store`](Cache::store) does, and fills `answer` with the answer that
    /// the response itself gives. This answer includes data with TTL 0, data that were left out of
    /// the cache, and data of lower rank than the cached data. So a waiting client gets the data
    /// that the server sent and, for type ANY, all RRsets of the name. The answer is a miss if only
    /// the report has the result, as for a negative response without an SOA record. If the answer is
    /// not a miss, it answers the question, even if the kind of the report is
    /// [`Unusable`](crate::ResponseKind::Unusable) or [`Alias`](crate::ResponseKind::Alias), as for
    /// data of a type that is not kept, such as NAPTR.
    ///
    /// Returns [`Small`](Error::Small) if the buffer of the answer is too small, which may happen
    /// for type ANY, for a type that is not kept, such as RRSIG, and for an RRset of more than
    /// 16,384 octets of rdata. The answer then has the RRsets that fit. Returns
    /// [`BadData`](Error::BadData) if a record whose type is not kept cannot be read. Both errors
    /// are returned only after everything is stored.
    pub fn store_into(
        &self,
        query: &Query<'_>,
        response: &Response<'_>,
        answer: &mut Answer,
    ) -> Result<Report, Error> {
        answer.fill(|answer| self.store_by(query, response, answer))
    }

    /// Stores an RRset of the caller, and returns the outcome.
    ///
    /// Returns [`TooLarge`](Error::TooLarge) if the RRset might use more memory than a shelf may
    /// use for all its keys, [`BadType`](Error::BadType), [`BadData`](Error::BadData) or
    /// [`WrongBody`](Error::WrongBody).
    pub fn store_set(&self, set: &Set<'_>) -> Result<Outcome, Error> {
        let data = set.with_lengths()?;
        let (set, mut outcome) = (set.raw(&data), 0);
        // SAFETY: the octets of the set are borrowed, or are in `data`.
        check(unsafe { ffi::rrcache_store_set(self.raw(), &set, &mut outcome) })?;
        Ok(Outcome::told(outcome))
    }

    /// Stores a negative answer, and returns the outcome. The errors are those of
    /// [`store_set`](Cache::store_set).
    ///
    /// ```
    /// use rrcache::{AnswerKind, Cache, Config, Denial, Name, Negative, RecordType, Request};
    /// let cache = Cache::open(&Config::default())?;
    /// let [name, zone]: [Name; 2] = ["gone.example.".parse()?, "example.".parse()?];
    /// let soa = [0; 22]; // two roots and five numbers
    /// cache.store_negative(&Negative::new(&name, Denial::NxDomain, 60, &zone, &soa))?;
    /// let answer = cache.lookup(&Request::new(&name, RecordType::AAAA))?;
    /// assert_eq!(answer.kind(), AnswerKind::NxDomain);
    /// # Ok::<(), rrcache::Error>(())
    /// ```
    pub fn store_negative(&self, negative: &Negative<'_>) -> Result<Outcome, Error> {
        let (negative, mut outcome) = (negative.raw(), 0);
        // SAFETY: the octets of the negative answer are borrowed.
        check(unsafe { ffi::rrcache_store_negative(self.raw(), &negative, &mut outcome) })?;
        Ok(Outcome::told(outcome))
    }

    /// Stores a resolution failure of a name and a type (RFC 9520). If no error is returned, the
    /// failure is stored.
    pub fn store_failure(&self, failure: &Failure<'_>) -> Result<(), Error> {
        let (failure, mut outcome) = (failure.raw(), 0);
        // SAFETY: the name of the failure is borrowed.
        check(unsafe { ffi::rrcache_store_failure(self.raw(), &failure, &mut outcome) })
    }

    /// Removes the cached data of a name, a class and a type: the RRset or NODATA, the failure, and
    /// the NXDOMAIN of the name. With type ANY (255), the call removes the data of every type. The
    /// mode and `takes_glue` of the request are ignored. Data that were removed before an error
    /// stay removed.
    pub fn forget(&self, request: &Request<'_>) -> Result<(), Error> {
        // SAFETY: the name of the request is borrowed.
        check(unsafe { ffi::rrcache_forget(self.raw(), &request.raw()) })
    }

    /// Removes keys that are fully expired at `moment`, which may be [`NOW`](crate::NOW), until at
    /// least `most` keys are removed or no such key is left. Returns [`BadRules`](Error::BadRules)
    /// if `most` is 0. Keys that were removed before another error stay removed. The next sweep
    /// continues in the shelf in which this one ended. A caller need not sweep, because eviction
    /// makes room.
    pub fn sweep(&self, moment: u64, most: u64) -> Result<Swept, Error> {
        let mut swept = ffi::rrcache_swept { removed: 0, is_done: 0 };
        // SAFETY: the pointer leads to what the call writes.
        check(unsafe { ffi::rrcache_sweep_all(self.raw(), moment, most, &mut swept) })?;
        Ok(Swept { removed: swept.removed, is_done: swept.is_done != 0 })
    }

    /// Returns the counters of all shelves since the cache was opened.
    pub fn stats(&self) -> Stats {
        let mut stats = Stats::default();
        // SAFETY: the pointer leads to what the call writes.
        let status = unsafe { ffi::rrcache_stats(self.raw(), &mut stats) };
        debug_assert_eq!(status, ffi::RRCACHE_DONE, "it is refused for null pointers alone");
        stats
    }

    /// Returns the counters of the shelf with this number, counted from 0, or `None` if there is no
    /// such shelf.
    pub fn stats_of(&self, shelf: u64) -> Option<Stats> {
        let mut stats = Stats::default();
        // SAFETY: the pointer leads to what the call writes.
        let status = unsafe { ffi::rrcache_stats_of(self.raw(), shelf, &mut stats) };
        check(status).ok().map(|()| stats)
    }
}

impl Drop for Cache {
    fn drop(&mut self) {
        // SAFETY: there is no other reference to the cache, so no other call runs or follows.
        unsafe { ffi::rrcache_close(self.raw()) }
    }
}

impl fmt::Debug for Cache {
    fn fmt(&self, f: &mut fmt::Formatter<'_>) -> fmt::Result {
        f.debug_struct("Cache").field("stats", &self.stats()).finish_non_exhaustive()
    }
}

/// The result of a sweep.
#[derive(Clone, Copy, Debug, PartialEq, Eq)]
#[non_exhaustive]
pub struct Swept {
    /// The number of keys that were removed.
    pub removed: u64,
    /// Whether no fully expired key is left.
    pub is_done: bool,
}

#[cfg(test)]
mod tests {
    use super::*;

    #[test]
    fn libraries_of_this_major_and_a_later_minor_will_do() {
        let version = |major: u32, minor: u32, patch: u32| major << 16 | minor << 8 | patch;
        assert!(is_supported(version(MAJOR, MINOR, 0)) && is_supported(version(MAJOR, MINOR, 9)));
        assert!(is_supported(version(MAJOR, MINOR + 1, 0)));
        assert!(!is_supported(version(MAJOR + 1, MINOR, 0)));
        assert!(!is_supported(version(MAJOR - 1, MINOR + 1, 0)));
        assert!(MINOR == 0 || !is_supported(version(MAJOR, MINOR - 1, 9)));
    }

    #[test]
    fn threads_may_share_it() {
        fn is_shared<T: Send + Sync>() {}
        is_shared::<Cache>();
        is_shared::<Answer>();
        is_shared::<crate::Rrsets<'_>>();
    }
}
