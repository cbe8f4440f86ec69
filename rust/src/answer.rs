// SPDX-License-Identifier: MIT
//! An answer, its RRsets and their rdata.

use std::fmt;
use std::marker::PhantomData;
use std::mem::MaybeUninit;
use std::ptr;

use crate::choices::Kind;
use crate::ffi;
use crate::response::name_of;
use crate::{Class, Name, RecordType, RrsetKind, Section, Trust};

/// The answer to a question: its RRsets and their kind. The answer owns the buffer of the RRsets,
/// and each call that fills the answer reuses this buffer. So a look-up into an existing answer
/// does not allocate memory.
pub struct Answer {
    buffer: Box<[u8]>,
    /// The answer that the library wrote. Its pointer is null except during a call.
    raw: ffi::rrcache_answer,
}

// SAFETY: the pointer in `raw` is null except during a call with exclusive access, and the answer
// owns everything else.
unsafe impl Send for Answer {}
// SAFETY: shared references write nothing, and do not read the pointer in `raw`.
unsafe impl Sync for Answer {}

impl Answer {
    /// A buffer of this size has room for every answer of a look-up if each CNAME RRset has one
    /// record (RFC 2181 section 10.1) and the RRset at the end of the CNAME chain came in a
    /// response. But a server may send CNAME RRsets of many records: an answer with such an RRset
    /// may need up to 1 MiB. `rrcache.h` says when the answer of a response needs a larger buffer.
    pub const ROOM: usize = ffi::RRCACHE_ANSWER_OCTETS;

    /// Makes an empty answer, which is a miss, with room for [`Answer::ROOM`] octets.
    pub fn new() -> Answer {
        Answer::with_room(Answer::ROOM)
    }

    /// Makes an empty answer with room for `room` octets. An RRset uses the octets of its owner and
    /// its rdata, and about a hundred more.
    pub fn with_room(room: usize) -> Answer {
        // SAFETY: the struct has numbers, booleans and a pointer, all of which may be zero.
        let mut raw: ffi::rrcache_answer = unsafe { MaybeUninit::zeroed().assume_init() };
        raw.room = room;
        raw.kind = Kind::Miss as u32;
        Answer { buffer: vec![0; room].into_boxed_slice(), raw }
    }

    /// Requests DNAME RRsets in the answer: each CNAME record that was synthesized from a DNAME
    /// record is then preceded by the DNAME RRset, if that RRset is cached or is in the response
    /// (RFC 6672 section 3.1).
    pub fn with_dnames(mut self) -> Answer {
        self.raw.with_dnames = true;
        self
    }

    /// Passes the answer to a call of the library, and returns the result of the call.
    pub(crate) fn fill<T>(&mut self, call: impl FnOnce(*mut ffi::rrcache_answer) -> T) -> T {
        self.raw.buffer = self.buffer.as_mut_ptr();
        let told = call(&mut self.raw);
        self.raw.buffer = ptr::null_mut();
        told
    }

    /// Returns the kind of the reply for the name at the end of the CNAME chain.
    pub fn kind(&self) -> AnswerKind {
        match Kind::told(self.raw.kind) {
            _ if self.raw.is_endless => AnswerKind::Endless,
            Kind::Fresh => AnswerKind::Fresh,
            Kind::Stale => AnswerKind::Stale,
            Kind::NoData => AnswerKind::NoData,
            Kind::NxDomain => AnswerKind::NxDomain,
            Kind::Miss => AnswerKind::Miss,
            Kind::Failed => AnswerKind::Failed { retry_from: self.raw.retry_from },
        }
    }

    /// Returns the number of CNAME RRsets that lead to the [`end`](Answer::end). These RRsets come
    /// first.
    pub fn aliases(&self) -> usize {
        self.raw.aliases as usize
    }

    /// Returns whether at least one of the RRsets is stale.
    pub fn is_stale(&self) -> bool {
        self.raw.is_stale
    }

    /// Returns the name at the end of the CNAME chain, in lower case. After a miss, this is the
    /// name to query for. For a delegation, it is the zone. The result is `None` if no call has
    /// filled the answer, or if the last call failed. After [`Small`](crate::Error::Small), the
    /// result is unspecified.
    pub fn end(&self) -> Option<Name<'_>> {
        name_of(&self.raw.end)
    }

    /// Returns the RRsets one after another: first the CNAME RRsets, and then the RRset at the end
    /// of the chain. The RRsets borrow the answer, so no call can fill the answer while an RRset is
    /// in use:
    ///
    /// ```compile_fail,E0502
    /// # use rrcache::{Answer, Cache, Config, Name, RecordType, Request};
    /// # let cache = Cache::open(&Config::default())?;
    /// # let request = Request::new(&Name::ROOT, RecordType::NS);
    /// # let mut answer = Answer::new();
    /// let rrset = answer.rrsets().next();
    /// cache.lookup_into(&request, &mut answer)?;
    /// println!("{rrset:?}");
    /// # Ok::<(), rrcache::Error>(())
    /// ```
    pub fn rrsets(&self) -> Rrsets<'_> {
        let mut answer = self.raw;
        answer.buffer = self.buffer.as_ptr().cast_mut();
        // SAFETY: the struct has numbers and pointers, all of which may be zero.
        let at = unsafe { MaybeUninit::zeroed().assume_init() };
        Rrsets { answer, at, octets: PhantomData }
    }
}

impl Default for Answer {
    fn default() -> Answer {
        Answer::new()
    }
}

impl fmt::Debug for Answer {
    fn fmt(&self, f: &mut fmt::Formatter<'_>) -> fmt::Result {
        f.debug_struct("Answer")
            .field("kind", &self.kind())
            .field("end", &self.end())
            .field("rrsets", &self.rrsets().collect::<Vec<_>>())
            .finish()
    }
}

/// The kind of an [`Answer`], for the name at the end of the CNAME chain. The kind determines the
/// next step of a resolver:
///
/// ```
/// use rrcache::{Answer, AnswerKind};
///
/// fn next_step(answer: &Answer) -> String {
///     match (answer.kind(), answer.end()) {
///         (AnswerKind::Miss, Some(name)) => format!("ask upstream for {name}, and store that"),
///         (AnswerKind::Miss, None) => "no call filled the answer".into(),
///         (AnswerKind::Failed { retry_from }, _) => format!("SERVFAIL until {retry_from}"),
///         (AnswerKind::Endless, _) => "SERVFAIL".into(),
///         (_, _) => format!("answer with {:?}", answer.rrsets()),
///     }
/// }
/// # assert_eq!(next_step(&Answer::new()), "no call filled the answer");
/// ```
#[derive(Clone, Copy, Debug, PartialEq, Eq)]
pub enum AnswerKind {
    /// An unexpired RRset of the type.
    Fresh,
    /// An expired RRset of the type (RFC 8767).
    Stale,
    /// The name has no data of the type (RFC 2308 section 2.2).
    NoData,
    /// The name does not exist (RFC 2308 section 2.1).
    NxDomain,
    /// The cache has nothing that may answer: query for the name at the [`end`](Answer::end).
    Miss,
    /// The cache has nothing that may answer, and a query to a server does not help, because the
    /// CNAME chain is a loop or has more than 16 records.
    Endless,
    /// The cache has nothing that may answer, and resolution of the question has failed recently. A
    /// resolver answers SERVFAIL until it may try again (RFC 9520).
    Failed {
        /// The timestamp from which to try again.
        retry_from: u64,
    },
}

/// The RRsets of an [`Answer`], one after another.
#[derive(Clone)]
pub struct Rrsets<'a> {
    /// A copy of the library's answer, with the pointer to the buffer.
    answer: ffi::rrcache_answer,
    at: ffi::rrcache_rrset,
    octets: PhantomData<&'a [u8]>,
}

// SAFETY: the pointers lead to octets that are borrowed as shared, and are used only for reading.
unsafe impl Send for Rrsets<'_> {}
// SAFETY: as above.
unsafe impl Sync for Rrsets<'_> {}

impl<'a> Iterator for Rrsets<'a> {
    type Item = Rrset<'a>;

    fn next(&mut self) -> Option<Rrset<'a>> {
        // SAFETY: the library made the answer, its buffer is borrowed for 'a, and the call writes
        // only to `at`.
        let is_there = unsafe { ffi::rrcache_next(&self.answer, &mut self.at) };
        if !is_there {
            self.answer.size = 0; // the next call would begin again
            return None;
        }
        // SAFETY: the library made the RRset from that buffer.
        Some(unsafe { Rrset::told(&self.at) })
    }
}

impl std::iter::FusedIterator for Rrsets<'_> {}

impl fmt::Debug for Rrsets<'_> {
    fn fmt(&self, f: &mut fmt::Formatter<'_>) -> fmt::Result {
        f.debug_list().entries(self.clone()).finish()
    }
}

/// An RRset of an answer. In a negative answer, it is the SOA record for the authority section.
#[derive(Clone, Debug)]
#[non_exhaustive]
pub struct Rrset<'a> {
    /// The owner, in the spelling in which it was received.
    pub owner: Name<'a>,
    /// The type.
    pub rtype: RecordType,
    /// The class.
    pub class: Class,
    /// For how many seconds the RRset may be used: its remaining TTL, or 30 if the RRset is stale
    /// (RFC 8767 section 4).
    pub ttl: u32,
    /// The section of a response in which the RRset belongs.
    pub section: Section,
    /// Whether the RRset is fresh, stale or the SOA record of a negative answer.
    pub kind: RrsetKind,
    /// The rank.
    pub trust: Trust,
    /// The rdata of each record.
    pub data: Data<'a>,
    /// The entry that the RRset comes from.
    pub entry: Entry,
}

/// The entry that an RRset of an answer comes from. A resolver can use the entry to decide when to
/// prefetch the RRset:
///
/// ```
/// # use rrcache::Rrset;
/// fn is_due(rrset: &Rrset<'_>) -> bool {
///     rrset.ttl < rrset.entry.ttl / 10
/// }
/// ```
#[derive(Clone, Copy, Debug, PartialEq, Eq)]
#[non_exhaustive]
pub struct Entry {
    /// The TTL with which the entry was stored. For an RRset from a response, this is at most the
    /// cap.
    pub ttl: u32,
    /// The timestamp at which the entry was stored.
    pub moment: u64,
    /// The number of the event that stored the entry. No other entry of the shelf has this number.
    /// In the answer of a response, the number is 0.
    pub number: u64,
    /// The number of uses of keys of the shelf between the last use of this key and this look-up.
    /// At most that many keys have been used in that time. In the answer of a response, the age is
    /// 0.
    pub age: u64,
}

impl<'a> Rrset<'a> {
    /// # Safety The library made `raw` from a buffer that is borrowed for 'a.
    unsafe fn told(raw: &ffi::rrcache_rrset) -> Rrset<'a> {
        let set = &raw.set;
        // SAFETY: the caller guarantees that these octets exist.
        let owner = unsafe { std::slice::from_raw_parts(set.owner, set.owner_size) };
        // SAFETY: as above.
        let octets = unsafe { std::slice::from_raw_parts(set.data, set.data_size) };
        Rrset {
            owner: Name::trusted(owner),
            rtype: RecordType(set.rtype),
            class: Class::told(set.rclass.into()),
            ttl: set.ttl,
            section: Section::told(set.section),
            kind: RrsetKind::told(raw.kind),
            trust: Trust::told(raw.trust),
            data: Data { octets },
            entry: Entry {
                ttl: raw.entry.ttl,
                moment: raw.entry.moment,
                number: raw.entry.number,
                age: raw.entry.age,
            },
        }
    }
}

/// Returns a name in presentation format. In a zone file, more characters have a special meaning
/// than in the text of a name (RFC 1035 section 5.1).
fn presented(name: &Name) -> String {
    let mut text = String::new();
    for letter in name.to_string().chars() {
        if "\"$();@".contains(letter) {
            text.push('\\');
        }
        text.push(letter);
    }
    text
}

/// Writes the records in presentation format, one record on each line. The rdata of every type are
/// written in hexadecimal (RFC 3597 section 5): `www.example. 50 IN A \# 4 c0000201`.
impl fmt::Display for Rrset<'_> {
    fn fmt(&self, f: &mut fmt::Formatter<'_>) -> fmt::Result {
        let (owner, ttl, class, rtype) = (presented(&self.owner), self.ttl, self.class, self.rtype);
        for (number, datum) in self.data.clone().enumerate() {
            let begin = if number == 0 { "" } else { "\n" };
            write!(f, "{begin}{owner} {ttl} {class} {rtype} \\# {}", datum.len())?;
            for (number, octet) in datum.iter().enumerate() {
                write!(f, "{}{octet:02x}", if number == 0 { " " } else { "" })?;
            }
        }
        Ok(())
    }
}

/// The rdata of each record of an [`Rrset`], one after another, without compressed names.
#[derive(Clone, PartialEq, Eq)]
pub struct Data<'a> {
    octets: &'a [u8],
}

impl<'a> Iterator for Data<'a> {
    type Item = &'a [u8];

    fn next(&mut self) -> Option<&'a [u8]> {
        let (length, behind) = self.octets.split_first_chunk()?;
        let (datum, rest) = behind.split_at_checked(u16::from_be_bytes(*length).into())?;
        self.octets = rest;
        Some(datum)
    }
}

impl std::iter::FusedIterator for Data<'_> {}

impl fmt::Debug for Data<'_> {
    fn fmt(&self, f: &mut fmt::Formatter<'_>) -> fmt::Result {
        f.debug_list().entries(self.clone()).finish()
    }
}
