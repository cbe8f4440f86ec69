// SPDX-License-Identifier: MIT
//! What is stored, forgotten, swept and counted, and the reports of responses.

use crate::common::*;
use rrcache::{
    Answer, AnswerKind, Cache, Config, Failure, Limits, Outcome, Query, RecordType, Request,
    Response, ResponseKind, Set, Stats, Trust,
};

#[test]
fn an_answer_is_stored() {
    let cache = open();
    let message = Message::new(AA, "www.example", RecordType::A).with_address("www.example", 60);
    let report = message.store(&cache, "www.example", RecordType::A).unwrap();
    assert_eq!((report.kind, report.rcode), (ResponseKind::Answer, 0));
    assert!(report.aa && !report.tc);
    assert_eq!((report.kept, report.cleared, report.outranked, report.too_large), (1, 0, 0, 0));
    let answer = look(&cache, "www.example", RecordType::A, FIRST + 10);
    assert_eq!(all_shown(&answer), ["www.example. 50 IN A \\# 4 c0000201"]);
    assert_eq!(answer.rrsets().next().unwrap().trust, Trust::AuthoritativeAnswer);
}

/// RFC 2308 section 5: the lower one of the SOA record's TTL and its MINIMUM, which is 60.
#[test]
fn denials_are_stored() {
    let cache = open();
    for (flags, of, kind, answer_kind) in [
        (NXDOMAIN, "gone.example", ResponseKind::NxDomain, AnswerKind::NxDomain),
        (0, "here.example", ResponseKind::NoData, AnswerKind::NoData),
    ] {
        let message = Message::new(AA | flags, of, RecordType::A).with_soa("example", 3600);
        let mut said = Answer::new();
        let report = message.store_into(&cache, of, RecordType::A, &mut said).unwrap();
        assert_eq!((report.kind, report.rcode, said.kind()), (kind, flags as u8, answer_kind));
        assert_eq!(said.rrsets().next().unwrap().trust, Trust::AuthoritativeAnswer);
        let answer = look(&cache, of, RecordType::A, FIRST);
        assert_eq!((answer.kind(), answer.rrsets().next().unwrap().ttl), (answer_kind, 60));
    }
}

#[test]
fn a_referral_names_its_zone() {
    let cache = open();
    let message = Message::new(0, "www.sub.example", RecordType::A)
        .with(2, "Sub.example", RecordType::NS, 60, name("ns.sub.example").wire())
        .with(3, "ns.sub.example", RecordType::A, 60, ADDRESS);
    let report = message.store(&cache, "www.sub.example", RecordType::A).unwrap();
    assert_eq!(report.kind, ResponseKind::Referral(name("sub.example")));
    let of = name("www.sub.example");
    let request = Request { moment: FIRST, ..Request::new(&of, RecordType::A) };
    let answer = cache.lookup_delegation(&request).unwrap();
    assert_eq!(answer.end(), Some(name("sub.example")));
}

#[test]
fn an_alias_names_what_to_ask_for() {
    let cache = open();
    let message =
        Message::new(AA, "www.example", RecordType::A).with_alias("www.example", "host.other.", 60);
    let report = message.store(&cache, "www.example", RecordType::A).unwrap();
    assert_eq!(report.kind, ResponseKind::Alias(name("host.other.")));
}

/// RFC 9520: SERVFAIL is a failure of its question, here for the 30 seconds of the cache's limits.
#[test]
fn a_failure_is_stored() {
    let cache = open();
    let message = Message::new(SERVFAIL, "www.example", RecordType::A);
    let report = message.store(&cache, "www.example", RecordType::A).unwrap();
    assert_eq!((report.kind, report.rcode), (ResponseKind::Failure, 2));
    let failed = AnswerKind::Failed { retry_from: FIRST + 30 };
    assert_eq!(look(&cache, "www.example", RecordType::A, FIRST + 29).kind(), failed);
    assert_eq!(look(&cache, "www.example", RecordType::A, FIRST + 30).kind(), AnswerKind::Miss);
}

/// RFC 2181 section 9.
#[test]
fn nothing_is_stored_of_what_was_truncated() {
    let cache = open();
    let message = Message::new(TC, "www.example", RecordType::A).with_address("www.example", 60);
    let report = message.store(&cache, "www.example", RecordType::A).unwrap();
    assert!(report.kind == ResponseKind::Unusable && report.tc && report.kept == 0);
    assert_eq!(cache.stats().keys, 0);
}

/// A TTL of 0 is for the client that waits, and stored nowhere (RFC 1035 section 3.2.1).
#[test]
fn a_response_is_told_by_itself() {
    let cache = open();
    let mut answer = Answer::new();
    let message = Message::new(AA, "www.example", RecordType::A)
        .with_alias("www.example", "a.example", 0)
        .with_address("a.example", 0);
    let report = message.store_into(&cache, "www.example", RecordType::A, &mut answer).unwrap();
    assert_eq!((report.kind, report.kept), (ResponseKind::Answer, 0));
    assert_eq!((answer.kind(), answer.aliases()), (AnswerKind::Fresh, 1));
    assert_eq!(all_shown(&answer)[1], "a.example. 0 IN A \\# 4 c0000201");
    let entry = answer.rrsets().nth(1).unwrap().entry;
    assert_eq!((entry.ttl, entry.moment, entry.number, entry.age), (0, FIRST, 0, 0));
    assert_eq!(look(&cache, "www.example", RecordType::A, FIRST).kind(), AnswerKind::Miss);
}

/// A query of type ANY is answered by all RRsets of the name (RFC 1035 section 3.2.3).
#[test]
fn all_rrsets_answer_any() {
    let cache = open();
    let mut answer = Answer::new();
    let message = Message::new(AA, "www.example", RecordType::ANY)
        .with_address("www.example", 60)
        .with(1, "www.example", RecordType::TXT, 50, b"\x01x");
    message.store_into(&cache, "www.example", RecordType::ANY, &mut answer).unwrap();
    assert_eq!(
        all_shown(&answer),
        ["www.example. 60 IN A \\# 4 c0000201", "www.example. 50 IN TXT \\# 2 0178"]
    );
    assert_eq!(look(&cache, "www.example", RecordType::TXT, FIRST).kind(), AnswerKind::Fresh);
}

#[test]
fn limits_are_the_response_s_or_the_cache_s() {
    let cache =
        Cache::open(&Config { limits: Limits { cap: 100, ..Limits::default() }, ..small() })
            .unwrap();
    let (of, zone) = (name("www.example"), name("example"));
    let query = Query::new(&of, RecordType::A, ID);
    let message = Message::new(AA, "www.example", RecordType::A).with_address("www.example", 3600);
    for (cap, ttl) in [(0, 100), (50, 50)] {
        let limits = Limits { cap, ..Limits::default() };
        let response = Response { moment: FIRST, limits, ..Response::new(&message.0, &zone) };
        cache.store(&query, &response).unwrap();
        let answer = look(&cache, "www.example", RecordType::A, FIRST);
        assert_eq!(answer.rrsets().next().unwrap().ttl, ttl);
    }
}

/// RFC 2181 section 5.2: TTLs that differ. The lowest is taken if the caller chose that.
#[test]
fn ttls_that_differ_are_left_out_or_the_lowest() {
    let message = Message::new(0, "www.example", RecordType::A)
        .with_address("www.example", 60)
        .with(1, "www.example", RecordType::A, 50, OTHER_ADDRESS);
    let (of, zone) = (name("www.example"), name("example"));
    for (lowest_ttl, kind, kept) in
        [(false, ResponseKind::UnequalTtls, 0), (true, ResponseKind::Answer, 1)]
    {
        let cache = open();
        let response = Response { moment: FIRST, lowest_ttl, ..Response::new(&message.0, &zone) };
        let report = cache.store(&Query::new(&of, RecordType::A, ID), &response).unwrap();
        assert_eq!((report.kind, report.kept), (kind, kept));
        let answer = look(&cache, "www.example", RecordType::A, FIRST);
        assert_eq!(answer.rrsets().map(|it| it.ttl).collect::<Vec<_>>(), vec![50; kept as usize]);
    }
}

#[test]
fn an_nxdomain_clears_what_it_denies_if_that_is_chosen() {
    let message = Message::new(AA | NXDOMAIN, "www.example", RecordType::A).with_soa("example", 60);
    let (of, zone) = (name("www.example"), name("example"));
    for (clears_denied, cleared) in [(false, AnswerKind::Fresh), (true, AnswerKind::Miss)] {
        let cache = open();
        keep_address(&cache, "www.example", 600);
        let response =
            Response { moment: FIRST, clears_denied, ..Response::new(&message.0, &zone) };
        cache.store(&Query::new(&of, RecordType::A, ID), &response).unwrap();
        assert_eq!(look(&cache, "www.example", RecordType::A, FIRST).kind(), AnswerKind::NxDomain);
        cache.sweep(FIRST + 60, u64::MAX).unwrap();
        assert_eq!(look(&cache, "www.example", RecordType::A, FIRST + 60).kind(), cleared);
    }
}

#[test]
fn outcomes_are_told() {
    let cache = open();
    assert_eq!(keep_address(&cache, "www.example", 60), Outcome::Kept);
    let owner = name("www.example");
    let set = Set { moment: FIRST, ..Set::new(&owner, RecordType::A, 60, &[OTHER_ADDRESS]) };
    let less = Set { trust: Trust::Additional, ..set };
    assert_eq!(cache.store_set(&less).unwrap(), Outcome::Outranked);
    assert_eq!(cache.store_set(&Set { ttl: 0, ..set }).unwrap(), Outcome::Cleared);
    assert_eq!(look(&cache, "www.example", RecordType::A, FIRST).kind(), AnswerKind::Miss);
}

#[test]
fn what_is_forgotten_is_gone() {
    let cache = open();
    let owner = name("www.example");
    keep_address(&cache, "www.example", 60);
    keep(&cache, "www.example", RecordType::TXT, 60, b"\x01x");
    cache
        .store_failure(&Failure { moment: FIRST, ..Failure::new(&owner, RecordType::A, 60) })
        .unwrap();
    let request = Request { moment: FIRST, ..Request::new(&owner, RecordType::A) };
    cache.forget(&request).unwrap();
    assert_eq!(cache.lookup(&request).unwrap().kind(), AnswerKind::Miss);
    assert_eq!(look(&cache, "www.example", RecordType::TXT, FIRST).kind(), AnswerKind::Fresh);
}

#[test]
fn a_failure_ends_by_a_ttl_of_0() {
    let cache = open();
    let of = name("www.example");
    let failure = Failure { moment: FIRST, ..Failure::new(&of, RecordType::A, 60) };
    cache.store_failure(&failure).unwrap();
    let kind = || look(&cache, "www.example", RecordType::A, FIRST).kind();
    assert_eq!(kind(), AnswerKind::Failed { retry_from: FIRST + 60 });
    cache.store_failure(&Failure { ttl: 0, ..failure }).unwrap();
    assert_eq!(kind(), AnswerKind::Miss);
}

/// A key can answer no more once its TTL and `max_stale` are over.
#[test]
fn sweeps_remove_what_can_answer_no_more() {
    let cache = open();
    for number in 0..10 {
        keep_address(&cache, &format!("a{number}.example"), 60);
    }
    keep_address(&cache, "later.example", 61);
    let over = FIRST + 60 + MAX_STALE;
    let swept = cache.sweep(over - 1, u64::MAX).unwrap();
    assert!(swept.removed == 0 && swept.is_done);
    let mut removed = 0;
    loop {
        let swept = cache.sweep(over, 1).unwrap();
        removed += swept.removed;
        if swept.is_done {
            break;
        }
    }
    assert_eq!((removed, cache.stats().keys, cache.stats().expired), (10, 1, 10));
}

#[test]
fn what_the_cache_did_is_counted() {
    let cache = open();
    keep_address(&cache, "www.example", 60);
    for moment in [FIRST, FIRST + 1, FIRST + 60] {
        look(&cache, "www.example", RecordType::A, moment);
    }
    let stats = cache.stats();
    let octets = stats.octets;
    assert_eq!(stats, Stats { hits: 2, misses: 1, kept: 1, keys: 1, octets, ..Stats::default() });
    // A key of 160, its name of 13 octets in 48 + 32, and data of 4 octets in 48 + 32.
    assert_eq!(octets, 320);
    assert_eq!(
        stats.to_string(),
        "hits 2 stale 0 negative 0 misses 1 failed 0 kept 1 outranked 0 evicted 0 expired 0 keys 1 \
         octets 320"
    );
    let shelves: Vec<_> = (0..).map_while(|shelf| cache.stats_of(shelf)).collect();
    assert_eq!((shelves.len(), shelves.iter().map(|it| it.hits).sum::<u64>()), (4, 2));
    assert!(format!("{cache:?}").starts_with("Cache { stats: Stats { hits: 2,"));
}

/// The least cache of one shelf has 65,536 octets, and a key of these takes 320.
#[test]
fn what_was_used_least_recently_makes_room() {
    let cache = Cache::open(&Config { octets: 65_536, shelves: 1, ..small() }).unwrap();
    for number in 0..65_536 / 320 + 10 {
        keep_address(&cache, &format!("a{number:03}.example"), 60);
    }
    let stats = cache.stats();
    assert!(stats.octets <= 65_536 && stats.evicted == 10, "{stats}");
    assert_eq!(look(&cache, "a000.example", RecordType::A, FIRST).kind(), AnswerKind::Miss);
    assert_eq!(look(&cache, "a010.example", RecordType::A, FIRST).kind(), AnswerKind::Fresh);
}
