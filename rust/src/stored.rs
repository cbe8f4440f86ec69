// SPDX-License-Identifier: MIT
//! RRsets, negative answers and failures that a caller stores.

use crate::choices::Kind;
use crate::ffi;
use crate::{Class, Error, Name, RecordType, Trust, NOW};

/// An RRset to store.
#[derive(Clone, Copy, Debug)]
pub struct Set<'a> {
    /// The owner.
    pub owner: &'a Name<'a>,
    /// The type.
    pub rtype: RecordType,
    /// The class.
    pub class: Class,
    /// The rank.
    pub trust: Trust,
    /// The TTL in seconds. With 0 and the highest rank, the cached data are cleared.
    pub ttl: u32,
    /// The rdata of each record, without compressed names and without duplicates.
    pub data: &'a [&'a [u8]],
    /// The timestamp of the data, or [`NOW`].
    pub moment: u64,
}

impl<'a> Set<'a> {
    /// Makes an RRset of class IN with the timestamp [`NOW`] and the rank of an authoritative
    /// answer.
    pub fn new(owner: &'a Name<'a>, rtype: RecordType, ttl: u32, data: &'a [&'a [u8]]) -> Set<'a> {
        let (class, trust) = (Class::In, Trust::AuthoritativeAnswer);
        Set { owner, rtype, class, trust, ttl, data, moment: NOW }
    }

    /// Returns the rdata one after another, with two octets of length before each.
    pub(crate) fn with_lengths(&self) -> Result<Vec<u8>, Error> {
        let size = self.data.iter().map(|it| 2 + it.len()).sum();
        let mut octets = Vec::with_capacity(size);
        for datum in self.data {
            let length = u16::try_from(datum.len()).map_err(|_| Error::BadData)?;
            octets.extend_from_slice(&length.to_be_bytes());
            octets.extend_from_slice(datum);
        }
        Ok(octets)
    }

    /// Returns the RRset as a struct of C, with these rdata.
    pub(crate) fn raw(&self, data: &[u8]) -> ffi::rrcache_set {
        ffi::rrcache_set {
            owner: self.owner.wire().as_ptr(),
            owner_size: self.owner.wire().len(),
            rtype: self.rtype.0,
            rclass: self.class as u16,
            trust: self.trust as u32,
            ttl: self.ttl,
            data: data.as_ptr(),
            data_size: data.len(),
            moment: self.moment,
            line: 0,
        }
    }
}

/// What a negative answer denies (RFC 2308 section 2).
#[derive(Clone, Copy, Debug, PartialEq, Eq, Hash)]
pub enum Denial {
    /// The name has no data of this type.
    NoData(RecordType),
    /// The name does not exist.
    NxDomain,
}

/// A negative answer to store, with its SOA record.
#[derive(Clone, Copy, Debug)]
pub struct Negative<'a> {
    /// The name.
    pub name: &'a Name<'a>,
    /// What the answer denies.
    pub denial: Denial,
    /// The class.
    pub class: Class,
    /// The rank.
    pub trust: Trust,
    /// The TTL in seconds. With 0 and the highest rank, the cached data are cleared.
    pub ttl: u32,
    /// The owner of the SOA record.
    pub soa_owner: &'a Name<'a>,
    /// The rdata of the SOA record, without compressed names.
    pub soa: &'a [u8],
    /// The timestamp of the answer, or [`NOW`].
    pub moment: u64,
}

impl<'a> Negative<'a> {
    /// Makes a negative answer of class IN with the timestamp [`NOW`] and the rank of the authority
    /// section of an authoritative response.
    pub fn new(
        name: &'a Name<'a>,
        denial: Denial,
        ttl: u32,
        soa_owner: &'a Name<'a>,
        soa: &'a [u8],
    ) -> Negative<'a> {
        let (class, trust) = (Class::In, Trust::Authority);
        Negative { name, denial, class, trust, ttl, soa_owner, soa, moment: NOW }
    }

    pub(crate) fn raw(&self) -> ffi::rrcache_negative {
        let (kind, rtype) = match self.denial {
            Denial::NoData(rtype) => (Kind::NoData, rtype.0),
            Denial::NxDomain => (Kind::NxDomain, 0),
        };
        ffi::rrcache_negative {
            name: self.name.wire().as_ptr(),
            name_size: self.name.wire().len(),
            rtype,
            rclass: self.class as u16,
            kind: kind as u32,
            trust: self.trust as u32,
            ttl: self.ttl,
            soa_owner: self.soa_owner.wire().as_ptr(),
            soa_owner_size: self.soa_owner.wire().len(),
            soa: self.soa.as_ptr(),
            soa_size: self.soa.len(),
            moment: self.moment,
            line: 0,
        }
    }
}

/// A resolution failure of a name and a type (RFC 9520).
#[derive(Clone, Copy, Debug)]
pub struct Failure<'a> {
    /// The name of the question.
    pub name: &'a Name<'a>,
    /// The type of the question.
    pub rtype: RecordType,
    /// The class of the question.
    pub class: Class,
    /// For how many seconds the failure is cached. With 0, a cached failure of the question ends.
    pub ttl: u32,
    /// The timestamp of the failure, or [`NOW`].
    pub moment: u64,
}

impl<'a> Failure<'a> {
    /// Makes a failure of class IN with the timestamp [`NOW`].
    pub fn new(name: &'a Name<'a>, rtype: RecordType, ttl: u32) -> Failure<'a> {
        Failure { name, rtype, class: Class::In, ttl, moment: NOW }
    }

    pub(crate) fn raw(&self) -> ffi::rrcache_failure {
        ffi::rrcache_failure {
            name: self.name.wire().as_ptr(),
            name_size: self.name.wire().len(),
            rtype: self.rtype.0,
            rclass: self.class as u16,
            ttl: self.ttl,
            moment: self.moment,
            line: 0,
        }
    }
}
