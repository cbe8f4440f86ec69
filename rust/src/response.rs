// SPDX-License-Identifier: MIT
//! A query, its response, and the result of storing the response.

use crate::choices::ResponseNumber;
use crate::ffi;
use crate::{Class, Limits, Name, RecordType, NOW};

/// The query that a response has to answer.
#[derive(Clone, Copy, Debug)]
pub struct Query<'a> {
    /// The name of the question.
    pub name: &'a Name<'a>,
    /// The type of the question.
    pub rtype: RecordType,
    /// The class of the question.
    pub class: Class,
    /// The identifier of the query.
    pub id: u16,
    /// Whether a response has to repeat the letters of the name in the same case. An attacker can
    /// less easily guess a response if the query has letters in random case.
    pub with_case: bool,
}

impl<'a> Query<'a> {
    /// Makes a query of class IN. A response to this query may have the letters of the name in any
    /// case.
    pub fn new(name: &'a Name<'a>, rtype: RecordType, id: u16) -> Query<'a> {
        Query { name, rtype, class: Class::In, id, with_case: false }
    }

    pub(crate) fn raw(&self) -> ffi::rrcache_query {
        ffi::rrcache_query {
            name: self.name.wire().as_ptr(),
            name_size: self.name.wire().len(),
            id: self.id,
            rtype: self.rtype.0,
            rclass: self.class as u16,
            with_case: self.with_case,
        }
    }
}

/// A response from a server.
#[derive(Clone, Copy, Debug)]
pub struct Response<'a> {
    /// The octets of the response, without the length that precedes them over TCP.
    pub octets: &'a [u8],
    /// The zone whose server sent the response. Data that are out of bailiwick, which means not at
    /// or below this zone, are not stored.
    pub zone: &'a Name<'a>,
    /// The timestamp at which the response arrived, or [`NOW`].
    pub moment: u64,
    /// How long the data of the response may be cached. A limit of 0 means the limit of the cache.
    pub limits: Limits,
    /// Whether an RRset with different TTLs is stored, with the lowest of them, even if AA is
    /// clear. If not, such an RRset is left out if AA is clear (RFC 2181 section 5.2).
    pub lowest_ttl: bool,
    /// Whether an authoritative NXDOMAIN clears the data of the denied name for the types A, AAAA
    /// and CNAME and for the type of the question.
    pub clears_denied: bool,
}

impl<'a> Response<'a> {
    /// Makes a response that arrived now, with the limits of the cache.
    pub fn new(octets: &'a [u8], zone: &'a Name<'a>) -> Response<'a> {
        Response {
            octets,
            zone,
            moment: NOW,
            limits: Limits::default(),
            lowest_ttl: false,
            clears_denied: false,
        }
    }

    pub(crate) fn raw(&self) -> ffi::rrcache_response {
        ffi::rrcache_response {
            octets: self.octets.as_ptr(),
            size: self.octets.len(),
            zone: self.zone.wire().as_ptr(),
            zone_size: self.zone.wire().len(),
            moment: self.moment,
            limits: self.limits,
            lowest_ttl: self.lowest_ttl,
            clears_denied: self.clears_denied,
        }
    }
}

/// The kind of a response for its question (RFC 1034 section 5.3.3). *The name* is the name of the
/// question, or the name to which at most 16 CNAME records of the response lead within the zone.
#[derive(Clone, Debug, PartialEq, Eq)]
pub enum ResponseKind {
    /// The response has data of the type.
    Answer,
    /// The response has data of the type, but these data are left out, because their TTLs differ,
    /// AA is clear, and [`lowest_ttl`](Response::lowest_ttl) is not set.
    UnequalTtls,
    /// The name has no data of the type (RFC 2308 section 2.2).
    NoData,
    /// The name does not exist (RFC 2308 section 2.1).
    NxDomain,
    /// AA is clear, and the response names the servers of this zone, which is below the zone of the
    /// servers that were asked and contains the name.
    Referral(Name<'static>),
    /// A CNAME chain leads to this name, which is out of bailiwick, or for which the response has
    /// no data: query for this name.
    Alias(Name<'static>),
    /// The RCODE is neither NOERROR nor NXDOMAIN.
    Failure,
    /// None of these: TC is set, the opcode is not QUERY, the question is out of bailiwick or has a
    /// class or type that is not kept, the CNAME chain does not end, or the response has no data,
    /// no denial and no referral.
    Unusable,
}

impl ResponseKind {
    fn told(number: u32, name: &ffi::rrcache_name) -> ResponseKind {
        let name = || name_of(name).expect("the library made the name").into_owned();
        match ResponseNumber::told(number) {
            ResponseNumber::Answer => ResponseKind::Answer,
            ResponseNumber::UnequalTtls => ResponseKind::UnequalTtls,
            ResponseNumber::NoData => ResponseKind::NoData,
            ResponseNumber::NxDomain => ResponseKind::NxDomain,
            ResponseNumber::Referral => ResponseKind::Referral(name()),
            ResponseNumber::Alias => ResponseKind::Alias(name()),
            ResponseNumber::Failure => ResponseKind::Failure,
            ResponseNumber::Unusable => ResponseKind::Unusable,
        }
    }
}

/// Returns the name that the library made, in lower case, if the library made one.
pub(crate) fn name_of(name: &ffi::rrcache_name) -> Option<Name<'_>> {
    match name.size {
        0 => None,
        size => Some(Name::trusted(&name.octets[..size.into()])),
    }
}

/// The result of storing a response.
#[derive(Clone, Debug, PartialEq, Eq)]
#[non_exhaustive]
pub struct Report {
    /// The kind of the response for its question.
    pub kind: ResponseKind,
    /// The RCODE in the header of the response, 0 to 15.
    pub rcode: u8,
    /// Whether AA is set.
    pub aa: bool,
    /// Whether TC is set. If so, nothing was stored: send the query again over TCP.
    pub tc: bool,
    /// The number of RRsets, negative answers and failures that were stored.
    pub kept: u64,
    /// The number of keys that were cleared by a TTL of 0.
    pub cleared: u64,
    /// The number of RRsets and negative answers that were not stored, because data of higher rank
    /// were cached.
    pub outranked: u64,
    /// The number of RRsets and negative answers that were left out, because each would use more
    /// memory than a shelf may use.
    pub too_large: u64,
}

impl Report {
    pub(crate) fn told(raw: &ffi::rrcache_report) -> Report {
        Report {
            kind: ResponseKind::told(raw.summary.kind, &raw.name),
            rcode: raw.summary.rcode,
            aa: raw.summary.aa,
            tc: raw.summary.tc,
            kept: raw.counts.kept,
            cleared: raw.counts.cleared,
            outranked: raw.counts.outranked,
            too_large: raw.too_large,
        }
    }
}
