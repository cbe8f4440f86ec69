// SPDX-License-Identifier: MIT
//! Responses to clients (RFC 1035 section 4).

use crate::common::*;
use rrcache::{Answer, Class, Denial, Mode, Name, Negative, Query, RecordType, Set};

fn composed(answer: &Answer, of: &str, rtype: RecordType, most: usize) -> Vec<u8> {
    let mut message = b"what was there before".to_vec();
    answer.compose_response(&Query::new(&name(of), rtype, ID), most, &mut message);
    message
}

/// Behind the header of 12 octets stands the name, of 13, and type and class, so the first record
/// stands at 29.
const WWW: &[u8] = b"\x03www\x07example\x00";

#[test]
fn an_alias_and_its_address_are_written() {
    let cache = open();
    keep_alias(&cache, "www.example", "a.example", 60);
    let (owner, data) = (name("a.example"), [ADDRESS, OTHER_ADDRESS]);
    cache.store_set(&Set { moment: FIRST, ..Set::new(&owner, RecordType::A, 30, &data) }).unwrap();
    let answer = look(&cache, "www.example", RecordType::A, FIRST);
    let wanted = [
        b"\x12\x34\x80\x80\0\x01\0\x03\0\0\0\0",
        WWW,
        b"\0\x01\0\x01",
        b"\xc0\x0c\0\x05\0\x01\0\0\0\x3c\0\x0b\x01a\x07example\0",
        // 29 and 23 octets of that record are 52, which the second address points to.
        b"\x01a\x07example\0\0\x01\0\x01\0\0\0\x1e\0\x04\xc0\0\x02\x01",
        b"\xc0\x34\0\x01\0\x01\0\0\0\x1e\0\x04\xc0\0\x02\x02",
    ]
    .concat();
    assert_eq!(composed(&answer, "www.example", RecordType::A, 512), wanted);
    assert_eq!(composed(&answer, "www.example", RecordType::A, wanted.len()), wanted);
    // One octet less: no records, and TC.
    let mut cut = wanted[..29].to_vec();
    (cut[2], cut[7]) = (0x82, 0);
    assert_eq!(composed(&answer, "www.example", RecordType::A, wanted.len() - 1), cut);
}

/// An owner that has other letters than the question is written whole.
#[test]
fn letters_are_kept() {
    let cache = open();
    keep_address(&cache, "WWW.example", 60);
    let answer = look(&cache, "www.example", RecordType::A, FIRST);
    let message = composed(&answer, "www.example", RecordType::A, 512);
    assert!(message[29..].starts_with(b"\x03WWW\x07example\0\0\x01"));
}

#[test]
fn denials_have_their_soa_record_in_the_authority_section() {
    let cache = open();
    let (of, zone) = (name("www.example"), name("example"));
    for (denial, rcode) in [(Denial::NoData(RecordType::A), 0x80), (Denial::NxDomain, 0x83)] {
        let negative = Negative::new(&of, denial, 60, &zone, SOA_DATA);
        cache.store_negative(&Negative { moment: FIRST, ..negative }).unwrap();
        let answer = look(&cache, "www.example", RecordType::A, FIRST);
        let message = composed(&answer, "www.example", RecordType::A, 512);
        let header = [0x12, 0x34, 0x80, rcode, 0, 1, 0, 0, 0, 1, 0, 0];
        assert_eq!(message[..12], header);
        assert!(message.ends_with(&[&b"\0\0\0\x3c\0\x16"[..], SOA_DATA].concat()));
    }
}

/// If nothing is found at the end of aliases, they are no answer: SERVFAIL.
#[test]
fn misses_are_servfail() {
    let cache = open();
    keep_alias(&cache, "www.example", "a.example", 60);
    let answer = look(&cache, "www.example", RecordType::A, FIRST);
    let wanted = [b"\x12\x34\x80\x82\0\x01\0\0\0\0\0\0", WWW, b"\0\x01\0\x01"].concat();
    assert_eq!(composed(&answer, "www.example", RecordType::A, 512), wanted);
    keep_alias(&cache, "a.example", "www.example", 60);
    let answer = look(&cache, "www.example", RecordType::A, FIRST);
    assert_eq!(composed(&answer, "www.example", RecordType::A, 512), wanted);
}

/// A response without records has the whole question, and TC if there is no room for that.
#[test]
fn a_question_without_room_sets_tc() {
    let label = "a".repeat(63);
    let of = format!("{label}.{label}.{label}.{}", "a".repeat(61));
    let (cache, wire) = (open(), name(&of).wire().to_vec());
    let answer = look(&cache, &of, RecordType::A, FIRST);
    assert_eq!(wire.len(), 255);
    // 12, 255 and 4 octets are 271.
    for (most, flags) in [(512, 0x80), (271, 0x80), (270, 0x82), (100, 0x82), (0, 0x82)] {
        let header = [0x12, 0x34, flags, 0x82, 0, 1, 0, 0, 0, 0, 0, 0];
        let wanted = [&header[..], &wire, b"\0\x01\0\x01"].concat();
        assert_eq!(composed(&answer, &of, RecordType::A, most), wanted);
    }
}

/// What was written is read again, as the response of a server.
#[test]
fn another_cache_stores_what_was_written() {
    let (cache, other) = (open(), open());
    keep_alias(&cache, "www.example", "a.example", 60);
    keep_address(&cache, "a.example", 60);
    let answer = look(&cache, "www.example", RecordType::A, FIRST);
    let message = Message(composed(&answer, "www.example", RecordType::A, 512));
    let report = message.store(&other, "www.example", RecordType::A).unwrap();
    assert_eq!(report.kept, 2);
    let told = look(&other, "www.example", RecordType::A, FIRST);
    assert_eq!(all_shown(&told), all_shown(&answer));
}

/// A message has at most 65,535 octets, whatever room there is.
#[test]
fn a_message_is_never_too_long() {
    let cache = open();
    let (owner, text) = (name("www.example"), [&[250][..], &[b'x'; 250]].concat());
    let numbered: Vec<_> =
        (0..300u16).map(|number| [&text[..], &[2], &number.to_be_bytes()].concat()).collect();
    let data: Vec<_> = numbered.iter().map(Vec::as_slice).collect();
    cache
        .store_set(&Set { moment: FIRST, ..Set::new(&owner, RecordType::TXT, 60, &data) })
        .unwrap();
    let mut answer = Answer::with_room(1 << 20);
    let request =
        rrcache::Request { moment: FIRST, ..rrcache::Request::new(&owner, RecordType::TXT) };
    cache.lookup_into(&request, &mut answer).unwrap();
    let message = composed(&answer, "www.example", RecordType::TXT, usize::MAX);
    assert_eq!((message.len(), message[2]), (29, 0x82));
    let stale = look_in(&cache, "www.example", RecordType::A, FIRST, Mode::StaleNow);
    let query = Query { class: Class::Ch, ..Query::new(&Name::ROOT, RecordType::A, 1) };
    let mut message = Vec::new();
    stale.compose_response(&query, 512, &mut message);
    assert_eq!(message[12..], [0, 0, 1, 0, 3]);
}
