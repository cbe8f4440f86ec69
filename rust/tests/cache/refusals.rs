// SPDX-License-Identifier: MIT
//! Refusals that a caller can bring about, and what they leave.

use crate::common::*;
use rrcache::{
    Answer, AnswerKind, Cache, Class, Config, Denial, Error, Failure, Limits, Mode, Negative,
    Query, RecordType, Request, Set,
};

/// The last moment, and one behind it.
const LAST: u64 = 1 << 40;
const LATE: u64 = LAST + 1;

#[test]
fn configs_out_of_range_open_nothing() {
    let limits = Limits::default();
    let bad_rules = [
        Config { octets: 65_535, ..small() },
        Config { octets: (1 << 46) + 1, ..small() },
        Config { shelves: 65, keys: 0, ..small() },
        Config { readers: 65, ..small() },
        Config { keys: 4 * 65_536 + 1, ..small() },
        Config { max_stale: 604_801, ..small() },
    ];
    let bad_limits = [
        Config { limits: Limits { cap: 604_801, ..limits }, ..small() },
        Config { limits: Limits { negative_cap: 604_801, ..limits }, ..small() },
        Config { limits: Limits { recheck: 301, ..limits }, ..small() },
    ];
    for config in bad_rules {
        assert_eq!(Cache::open(&config).err(), Some(Error::BadRules), "{config:?}");
    }
    for config in bad_limits {
        assert_eq!(Cache::open(&config).err(), Some(Error::BadLimits), "{config:?}");
    }
    assert!(Cache::open(&Config { octets: 65_536, max_stale: 604_800, ..small() }).is_ok());
}

#[test]
fn no_log_has_the_seed() {
    let text = format!("{:?}", Config { seed: [77; 16], ..small() });
    assert!(text.contains("max_stale: 3600") && !text.contains("77"), "{text}");
}

#[test]
fn look_ups_are_refused_and_leave_their_answer_empty() {
    let cache = open();
    let of = name("www.example");
    keep_address(&cache, "www.example", 60);
    let request = Request { moment: FIRST, ..Request::new(&of, RecordType::A) };
    let bad_type = Request { rtype: RecordType(0), ..request };
    for (request, refusal) in
        [(Request { moment: LATE, ..request }, Error::MomentTooLarge), (bad_type, Error::BadType)]
    {
        let mut answer =
            cache.lookup(&Request { moment: FIRST, ..Request::new(&of, RecordType::A) }).unwrap();
        assert_eq!(cache.lookup_into(&request, &mut answer), Err(refusal));
        assert_eq!((answer.kind(), answer.rrsets().count()), (AnswerKind::Miss, 0));
        assert_eq!(cache.lookup(&request).err(), Some(refusal));
    }
    let late = Request { moment: LATE, ..request };
    assert_eq!(cache.lookup_delegation(&late).err(), Some(Error::MomentTooLarge));
    assert!(cache.lookup(&Request { moment: LAST, ..request }).is_ok());
}

/// The answer has the RRsets that found room, here one of two.
#[test]
fn an_answer_with_too_little_room_is_refused() {
    let cache = open();
    let of = name("www.example");
    keep_alias(&cache, "www.example", "a.example", 60);
    keep_address(&cache, "a.example", 60);
    let request = Request { moment: FIRST, ..Request::new(&of, RecordType::A) };
    for (room, count) in [(0, 0), (200, 1)] {
        let mut answer = Answer::with_room(room);
        assert_eq!(cache.lookup_into(&request, &mut answer), Err(Error::Small));
        assert_eq!((answer.kind(), answer.rrsets().count()), (AnswerKind::Miss, count));
    }
    let (mut answer, nothing) = (Answer::with_room(0), name("nothing.example"));
    cache.lookup_into(&Request { name: &nothing, ..request }, &mut answer).unwrap();
    assert_eq!(answer.end(), Some(nothing));
}

/// All is stored if only its answer finds no room.
#[test]
fn a_response_s_answer_with_too_little_room_is_refused() {
    let cache = open();
    let mut answer = Answer::with_room(10);
    let message = Message::new(AA, "www.example", RecordType::A).with_address("www.example", 60);
    let stored = message.store_into(&cache, "www.example", RecordType::A, &mut answer);
    assert_eq!(stored, Err(Error::Small));
    assert_eq!(look(&cache, "www.example", RecordType::A, FIRST).kind(), AnswerKind::Fresh);
}

/// All is stored too if a record of a type that is not kept cannot be told.
#[test]
fn a_record_whose_data_cannot_be_told_is_refused() {
    let cache = open();
    let data = [0, 0, 0, 0, 0, 0, 0, 0x40]; // two numbers, three empty strings and no name
    let message = Message::new(AA, "www.example", RecordType::ANY)
        .with_address("www.example", 60)
        .with(1, "www.example", RecordType::NAPTR, 60, &data);
    let stored = message.store_into(&cache, "www.example", RecordType::ANY, &mut Answer::new());
    assert_eq!(stored, Err(Error::BadData));
    assert_eq!(look(&cache, "www.example", RecordType::A, FIRST).kind(), AnswerKind::Fresh);
}

/// 2,000 records of which each has a long name, that two octets point to.
#[test]
fn a_response_s_answer_may_need_more_than_the_usual_room() {
    let cache = open();
    let label = "a".repeat(60);
    let of = format!("{label}.{label}.{label}.{label}.example");
    let mut message = Message::new(AA, &of, RecordType::MX);
    for number in 0..2000u16 {
        message.0.extend(b"\xc0\x0c\0\x0f\0\x01\0\0\0\x3c\0\x04");
        message.0.extend(number.to_be_bytes());
        message.0.extend(b"\xc0\x0c");
    }
    message.0[6..8].copy_from_slice(&2000u16.to_be_bytes());
    let mut answer = Answer::new();
    assert_eq!(message.store_into(&cache, &of, RecordType::MX, &mut answer), Err(Error::Small));
    let mut answer = Answer::with_room(1 << 20);
    message.store_into(&cache, &of, RecordType::MX, &mut answer).unwrap();
    assert_eq!(answer.rrsets().next().unwrap().data.count(), 2000);
}

/// RFC 5452 section 9.1: what does not answer the query is dropped.
#[test]
fn responses_to_other_queries_are_refused() {
    let cache = open();
    let message = Message::new(AA, "www.example", RecordType::A).with_address("www.example", 60);
    let mut other_id = Message(message.0.clone());
    other_id.0[1] ^= 1;
    let mut query = Message(message.0.clone());
    query.0[2] &= 0x7f;
    for (message, of, rtype) in [
        (&message, "other.example", RecordType::A),
        (&message, "www.example", RecordType::AAAA),
        (&other_id, "www.example", RecordType::A),
        (&query, "www.example", RecordType::A),
        (&Message(vec![]), "www.example", RecordType::A),
    ] {
        assert_eq!(message.store(&cache, of, rtype).err(), Some(Error::OtherQuery));
    }
    assert_eq!(cache.stats().keys, 0);
}

#[test]
fn responses_that_cannot_be_read_are_refused() {
    let cache = open();
    let message = Message::new(AA, "www.example", RecordType::A).with_address("www.example", 60);
    let cut = Message(message.0[..message.0.len() - 1].to_vec());
    let refused = cut.store(&cache, "www.example", RecordType::A);
    assert_eq!(refused.err(), Some(Error::BadMessage));
    // FORMERR, and a header alone.
    let header = Message(vec![0x12, 0x34, 0x80, 1, 0, 0, 0, 0, 0, 0, 0, 0]);
    let refused = header.store(&cache, "www.example", RecordType::A);
    assert_eq!(refused.err(), Some(Error::NoQuestion));
    assert_eq!(cache.stats().keys, 0);
}

/// A response in which one bit is changed, or whose end is missing, is stored or refused. Its
/// answer can be read and written.
#[test]
fn hostile_responses_do_no_harm() {
    let cache = open();
    let message = Message::new(AA, "www.example", RecordType::ANY)
        .with_alias("www.example", "a.example", 60)
        .with_address("a.example", 60)
        .with_soa("example", 60);
    let octets = &message.0;
    let flipped = (0..octets.len() * 8).map(|bit| {
        let mut octets = octets.clone();
        octets[bit / 8] ^= 1 << (bit % 8);
        octets
    });
    let cut = (0..octets.len()).map(|size| octets[..size].to_vec());
    let (mut answer, mut reply, of) = (Answer::new(), Vec::new(), name("www.example"));
    for octets in flipped.chain(cut) {
        for rtype in [RecordType::A, RecordType::ANY, RecordType::CNAME] {
            let stored =
                Message(octets.clone()).store_into(&cache, "www.example", rtype, &mut answer);
            answer.compose_response(&Query::new(&of, rtype, ID), 512, &mut reply);
            let is_read = matches!(stored, Ok(_) | Err(Error::OtherQuery | Error::BadMessage));
            assert!(is_read && reply.len() <= 512, "{stored:?}");
        }
    }
}

#[test]
fn sets_are_refused() {
    let cache = open();
    let owner = name("www.example");
    let set = Set { moment: FIRST, ..Set::new(&owner, RecordType::A, 60, &[ADDRESS]) };
    let long = vec![0; 65_536];
    for (set, refusal) in [
        (Set { data: &[], ..set }, Error::WrongBody),
        (Set { ttl: 1 << 31, ..set }, Error::WrongBody),
        (Set { rtype: RecordType::MX, data: &[b"\0"], ..set }, Error::BadData),
        (Set { rtype: RecordType::TXT, data: &[&long], ..set }, Error::BadData),
        (Set { rtype: RecordType(41), ..set }, Error::BadType),
        (Set { class: Class::Ch, ..set }, Error::BadType),
        (Set { moment: LATE, ..set }, Error::MomentTooLarge),
    ] {
        assert_eq!(cache.store_set(&set), Err(refusal), "{}", set.rtype);
    }
    assert_eq!(cache.stats().keys, 0);
}

/// A shelf may have 65,536 octets. Each datum of 250 takes 64 more, so 250 of them do not fit, and
/// 200 do.
#[test]
fn what_is_too_large_for_a_shelf_is_refused() {
    let cache = Cache::open(&Config { octets: 65_536, shelves: 1, ..small() }).unwrap();
    let text = |number: u8| [&[249, number][..], &[b'x'; 248]].concat();
    let texts: Vec<_> = (0..250).map(text).collect();
    let data: Vec<_> = texts.iter().map(Vec::as_slice).collect();
    let owner = name("www.example");
    let set = Set { moment: FIRST, ..Set::new(&owner, RecordType::TXT, 60, &data) };
    assert_eq!(cache.store_set(&set), Err(Error::TooLarge));
    assert!(cache.store_set(&Set { data: &data[..200], ..set }).is_ok());
}

#[test]
fn negative_answers_and_failures_are_refused() {
    let cache = open();
    let (of, zone) = (name("gone.example"), name("example"));
    let negative =
        Negative { moment: FIRST, ..Negative::new(&of, Denial::NxDomain, 60, &zone, SOA_DATA) };
    for (negative, refusal) in [
        (Negative { soa: &SOA_DATA[1..], ..negative }, Error::BadData),
        (Negative { ttl: 1 << 31, ..negative }, Error::WrongBody),
        (Negative { denial: Denial::NoData(RecordType(0)), ..negative }, Error::BadType),
        (Negative { moment: LATE, ..negative }, Error::MomentTooLarge),
    ] {
        assert_eq!(cache.store_negative(&negative), Err(refusal));
    }
    let failure = Failure { moment: FIRST, ..Failure::new(&of, RecordType::A, 60) };
    let late = Failure { moment: LATE, ..failure };
    assert_eq!(cache.store_failure(&late), Err(Error::MomentTooLarge));
    let untyped = Failure { rtype: RecordType(0), ..failure };
    assert_eq!(cache.store_failure(&untyped), Err(Error::BadType));
    assert_eq!(cache.stats().keys, 0);
}

#[test]
fn other_calls_are_refused() {
    let cache = open();
    let of = name("www.example");
    keep_address(&cache, "www.example", 60);
    let untyped = Request { moment: FIRST, ..Request::new(&of, RecordType(0)) };
    assert_eq!(cache.forget(&untyped), Err(Error::BadType));
    assert_eq!(cache.sweep(FIRST, 0), Err(Error::BadRules));
    assert_eq!(cache.sweep(LATE, 1), Err(Error::MomentTooLarge));
    assert_eq!(cache.stats_of(4), None);
    assert_eq!(cache.stats().keys, 1);
}

#[test]
fn errors_have_their_texts_and_go_into_others() {
    let error: Box<dyn std::error::Error> = Box::new(Error::BadName);
    assert_eq!(error.to_string(), "the octets are not the wire form of a name");
    let error = std::io::Error::from(Error::TooLarge);
    assert_eq!(error.get_ref().unwrap().downcast_ref(), Some(&Error::TooLarge));
    assert_eq!((Error::Small.status(), Error::Other(99).status()), (16, 99));
    assert_eq!(Class::try_from(255), Err(Error::BadType));
    assert_eq!(Class::try_from(3), Ok(Class::Ch));
    assert_eq!(Mode::default(), Mode::NoStale);
}
