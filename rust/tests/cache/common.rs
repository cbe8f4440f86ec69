// SPDX-License-Identifier: MIT
//! Names, messages and calls that tests share.

use rrcache::{
    Answer, Cache, Config, Error, Mode, Name, Outcome, Query, RecordType, Report, Request,
    Response, Set,
};

/// The moment at which most is stored, and for how long data past their TTL may answer.
pub const FIRST: u64 = 1000;
pub const MAX_STALE: u64 = 3600;
/// The identifier of queries, and flags of a header (RFC 1035 section 4.1.1).
pub const ID: u16 = 0x1234;
pub const AA: u16 = 0x0400;
pub const TC: u16 = 0x0200;
pub const SERVFAIL: u16 = 2;
pub const NXDOMAIN: u16 = 3;

pub const ADDRESS: &[u8] = &[192, 0, 2, 1];
pub const OTHER_ADDRESS: &[u8] = &[192, 0, 2, 2];
/// The data of an SOA record: two roots, and five numbers, of which MINIMUM is 60.
pub const SOA_DATA: &[u8] = &[0, 0, 0, 0, 0, 1, 0, 0, 0, 2, 0, 0, 0, 3, 0, 0, 0, 4, 0, 0, 0, 60];

pub fn name(text: &str) -> Name<'static> {
    text.parse().unwrap()
}

pub fn small() -> Config {
    Config {
        shelves: 4,
        readers: 2,
        keys: 4 * 4096,
        max_stale: MAX_STALE,
        seed: [1; 16],
        ..Config::default()
    }
}

pub fn open() -> Cache {
    Cache::open(&small()).unwrap()
}

/// A response that is written record by record, with no name compressed.
pub struct Message(pub Vec<u8>);

impl Message {
    /// Begins a response with a question of class IN.
    pub fn new(flags: u16, question: &str, rtype: RecordType) -> Message {
        let mut octets = ID.to_be_bytes().to_vec();
        octets.extend((0x8000 | flags).to_be_bytes());
        octets.extend([0, 1, 0, 0, 0, 0, 0, 0]);
        octets.extend(name(question).wire());
        octets.extend(rtype.0.to_be_bytes());
        octets.extend([0, 1]);
        Message(octets)
    }

    /// Adds a record of class IN to a section, counted from 1, behind which none has a record yet.
    pub fn with(
        mut self,
        section: usize,
        owner: &str,
        rtype: RecordType,
        ttl: u32,
        data: &[u8],
    ) -> Message {
        self.0.extend(name(owner).wire());
        self.0.extend(rtype.0.to_be_bytes());
        self.0.extend([0, 1]);
        self.0.extend(ttl.to_be_bytes());
        self.0.extend((data.len() as u16).to_be_bytes());
        self.0.extend(data);
        self.0[5 + 2 * section] += 1;
        self
    }

    pub fn with_address(self, owner: &str, ttl: u32) -> Message {
        self.with(1, owner, RecordType::A, ttl, ADDRESS)
    }

    pub fn with_alias(self, owner: &str, target: &str, ttl: u32) -> Message {
        self.with(1, owner, RecordType::CNAME, ttl, name(target).wire())
    }

    pub fn with_soa(self, zone: &str, ttl: u32) -> Message {
        self.with(2, zone, RecordType::SOA, ttl, SOA_DATA)
    }

    /// Stores it as the response of a server of `example` to a query.
    pub fn store(&self, cache: &Cache, of: &str, rtype: RecordType) -> Result<Report, Error> {
        let (name, zone) = (name(of), name("example"));
        let response = Response { moment: FIRST, ..Response::new(&self.0, &zone) };
        cache.store(&Query::new(&name, rtype, ID), &response)
    }

    /// The same, with its answer.
    pub fn store_into(
        &self,
        cache: &Cache,
        of: &str,
        rtype: RecordType,
        answer: &mut Answer,
    ) -> Result<Report, Error> {
        let (name, zone) = (name(of), name("example"));
        let response = Response { moment: FIRST, ..Response::new(&self.0, &zone) };
        cache.store_into(&Query::new(&name, rtype, ID), &response, answer)
    }
}

pub fn look_in(cache: &Cache, of: &str, rtype: RecordType, moment: u64, mode: Mode) -> Answer {
    cache.lookup(&Request { moment, mode, ..Request::new(&name(of), rtype) }).unwrap()
}

pub fn look(cache: &Cache, of: &str, rtype: RecordType, moment: u64) -> Answer {
    look_in(cache, of, rtype, moment, Mode::NoStale)
}

/// Stores an RRset of one record.
pub fn keep(cache: &Cache, owner: &str, rtype: RecordType, ttl: u32, data: &[u8]) -> Outcome {
    let owner = name(owner);
    let set = [data];
    cache.store_set(&Set { moment: FIRST, ..Set::new(&owner, rtype, ttl, &set) }).unwrap()
}

pub fn keep_address(cache: &Cache, owner: &str, ttl: u32) -> Outcome {
    keep(cache, owner, RecordType::A, ttl, ADDRESS)
}

pub fn keep_alias(cache: &Cache, owner: &str, target: &str, ttl: u32) -> Outcome {
    keep(cache, owner, RecordType::CNAME, ttl, name(target).wire())
}

/// The RRsets of an answer, as one reads them.
pub fn all_shown(answer: &Answer) -> Vec<String> {
    answer.rrsets().map(|it| it.to_string()).collect()
}
