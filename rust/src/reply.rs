// SPDX-License-Identifier: MIT
//! Responses to clients, made from answers (RFC 1035 section 4).

use crate::{Answer, AnswerKind, Query, Rrset, Section};

const HEADER_OCTETS: usize = 12;
/// The maximum number of octets in a message (RFC 1035 section 4.2.2).
const MESSAGE_MOST: usize = 65_535;
/// Compression pointers reach offsets below this one (RFC 1035 section 4.1.4).
const POINTERS_END: usize = 0x4000;
/// The bits of QR, TC and RA in their octets of a header.
const QR: u8 = 0x80;
const TC: u8 = 0x02;
const RA: u8 = 0x80;

impl AnswerKind {
    /// Returns the RCODE of the response to a client: NOERROR, NXDOMAIN, or SERVFAIL if the answer
    /// is a miss.
    pub fn rcode(self) -> u8 {
        match self {
            AnswerKind::Fresh | AnswerKind::Stale | AnswerKind::NoData => 0,
            AnswerKind::NxDomain => 3,
            AnswerKind::Miss | AnswerKind::Endless | AnswerKind::Failed { .. } => 2,
        }
    }
}

impl Answer {
    /// Writes the response to a client's query to `message`, and replaces the previous contents of
    /// `message`. The response has the RRsets of the answer in their sections, or no records if the
    /// answer is a miss. QR and RA are set, and the identifier and the question are those of the
    /// query. If the response would have more than `most` octets, it has no records, and TC is set
    /// (RFC 2181 section 9). Over UDP without EDNS, `most` is 512. The question is never left out:
    /// if `most` is below 271, a response without records may have more than `most` octets.
    ///
    /// RD is clear. The caller must copy RD from the query (`message[2] |= query[2] & 1`), and add
    /// an OPT record if the query had one.
    ///
    /// ```
    /// use rrcache::{Cache, Config, Name, Query, RecordType, Request};
    /// let (cache, mut message) = (Cache::open(&Config::default())?, Vec::new());
    /// let answer = cache.lookup(&Request::new(&Name::ROOT, RecordType::NS))?;
    /// let query = Query::new(&Name::ROOT, RecordType::NS, 0x1234);
    /// answer.compose_response(&query, 512, &mut message);
    /// assert_eq!(message, b"\x12\x34\x80\x82\0\x01\0\0\0\0\0\0\0\0\x02\0\x01"); // SERVFAIL
    /// # Ok::<(), rrcache::Error>(())
    /// ```
    pub fn compose_response(&self, query: &Query<'_>, most: usize, message: &mut Vec<u8>) {
        let kind = self.kind();
        let most = most.min(MESSAGE_MOST);
        let mut counts = [0u16; 2];
        begin(message, query, kind.rcode());
        let end = message.len();
        if end > most {
            message[2] |= TC;
            return;
        }
        let told = self.rrsets().take_while(|_| kind.rcode() != 2);
        for rrset in told {
            let Some(records) = put_rrset(message, query, &rrset, most) else {
                message.truncate(end);
                message[2] |= TC;
                return;
            };
            counts[usize::from(rrset.section == Section::Authority)] += records;
        }
        message[6..8].copy_from_slice(&counts[0].to_be_bytes());
        message[8..10].copy_from_slice(&counts[1].to_be_bytes());
    }
}

/// Writes a header without records, and the question.
fn begin(message: &mut Vec<u8>, query: &Query<'_>, rcode: u8) {
    message.clear();
    message.extend_from_slice(&query.id.to_be_bytes());
    message.extend_from_slice(&[QR, RA | rcode, 0, 1, 0, 0, 0, 0, 0, 0]);
    message.extend_from_slice(query.name.wire());
    message.extend_from_slice(&query.rtype.0.to_be_bytes());
    message.extend_from_slice(&(query.class as u16).to_be_bytes());
}

/// Writes the records of an RRset, and returns their number, or `None` if the message then has more
/// than `most` octets. Owners are compressed: they point to the name of the question, or to the
/// owner of the first record of the RRset.
fn put_rrset(
    message: &mut Vec<u8>,
    query: &Query<'_>,
    rrset: &Rrset<'_>,
    most: usize,
) -> Option<u16> {
    let owner = rrset.owner.wire();
    let mut place = if owner == query.name.wire() { HEADER_OCTETS } else { POINTERS_END };
    let mut records = 0;
    for datum in rrset.data.clone() {
        if place < POINTERS_END {
            message.extend_from_slice(&(0xc000 | place as u16).to_be_bytes());
        } else {
            place = message.len();
            message.extend_from_slice(owner);
        }
        message.extend_from_slice(&rrset.rtype.0.to_be_bytes());
        message.extend_from_slice(&(rrset.class as u16).to_be_bytes());
        message.extend_from_slice(&rrset.ttl.to_be_bytes());
        message.extend_from_slice(&(datum.len() as u16).to_be_bytes());
        message.extend_from_slice(datum);
        if message.len() > most {
            return None;
        }
        records += 1;
    }
    Some(records)
}
