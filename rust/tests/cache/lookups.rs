// SPDX-License-Identifier: MIT
//! What look-ups answer.

use crate::common::*;
use rrcache::{
    Answer, AnswerKind, Cache, Class, Config, Denial, Failure, Mode, Name, Negative, RecordType,
    Request, RrsetKind, Section, Set, Trust,
};

#[test]
fn an_empty_cache_misses() {
    let answer = look(&open(), "www.Example.", RecordType::A, FIRST);
    assert_eq!((answer.kind(), answer.aliases()), (AnswerKind::Miss, 0));
    assert_eq!(answer.end().unwrap().to_string(), "www.example.");
    assert_eq!(answer.rrsets().count(), 0);
    assert!(!answer.is_stale());
}

/// It has the letters in which it came, and is found in any.
#[test]
fn an_rrset_answers_until_its_ttl_is_over() {
    let cache = open();
    let owner = name("www.Example.");
    let data = [ADDRESS, OTHER_ADDRESS];
    cache.store_set(&Set { moment: FIRST, ..Set::new(&owner, RecordType::A, 60, &data) }).unwrap();
    let answer = look(&cache, "WWW.example", RecordType::A, FIRST + 59);
    assert_eq!(answer.kind(), AnswerKind::Fresh);
    let rrset = answer.rrsets().next().unwrap();
    assert_eq!(rrset.owner.wire(), owner.wire());
    assert_eq!((rrset.rtype, rrset.class, rrset.ttl), (RecordType::A, Class::In, 1));
    assert_eq!((rrset.section, rrset.kind), (Section::Answer, RrsetKind::Fresh));
    assert_eq!(rrset.trust, Trust::AuthoritativeAnswer);
    assert_eq!(rrset.data.collect::<Vec<_>>(), data);
    assert_eq!(look(&cache, "www.example", RecordType::A, FIRST + 60).kind(), AnswerKind::Miss);
    assert_eq!(look(&cache, "www.example", RecordType::AAAA, FIRST).kind(), AnswerKind::Miss);
}

/// In a zone file these characters have a meaning, as the dot and the backslash have in a name (RFC
/// 1035 section 5.1).
#[test]
fn an_owner_is_shown_as_a_zone_file_has_it() {
    let cache = open();
    let owner = Name::from_wire(b"\x09(a);\"$@.\\\x01b\0").unwrap();
    let set = Set { moment: FIRST, ..Set::new(&owner, RecordType::A, 60, &[ADDRESS]) };
    cache.store_set(&set).unwrap();
    let request = Request { moment: FIRST, ..Request::new(&owner, RecordType::A) };
    let shown = all_shown(&cache.lookup(&request).unwrap());
    assert_eq!(shown, [r#"\(a\)\;\"\$\@\.\\.b. 60 IN A \# 4 c0000201"#]);
}

/// Its entry has the TTL and the moment of the store, and how many were used later, before the
/// look-up itself brings it to the front.
#[test]
fn an_rrset_tells_what_it_comes_from() {
    let cache = Cache::open(&Config { shelves: 1, exact_recency: true, ..small() }).unwrap();
    keep_address(&cache, "www.example", 60);
    let entry = || {
        let answer = look(&cache, "www.example", RecordType::A, FIRST + 50);
        let rrset = answer.rrsets().next().unwrap();
        assert_eq!((rrset.ttl, rrset.entry.ttl, rrset.entry.moment), (10, 60, FIRST));
        rrset.entry
    };
    assert_eq!(entry().age, 0);
    keep_address(&cache, "other.example", 60);
    assert_eq!([entry().age, entry().age], [1, 0]);
    let other = look(&cache, "other.example", RecordType::A, FIRST);
    assert_ne!(other.rrsets().next().unwrap().entry.number, entry().number);
}

#[test]
fn rrsets_end_once_and_again() {
    let cache = open();
    keep_address(&cache, "www.example", 60);
    let answer = look(&cache, "www.example", RecordType::A, FIRST);
    let mut rrsets = answer.rrsets();
    assert!(rrsets.next().is_some() && rrsets.next().is_none() && rrsets.next().is_none());
    assert_eq!(answer.rrsets().count(), 1);
}

#[test]
fn classes_are_apart() {
    let cache = open();
    let owner = name("version.bind");
    let set = Set::new(&owner, RecordType::TXT, 60, &[b"\x01x"]);
    cache.store_set(&Set { class: Class::Ch, moment: FIRST, ..set }).unwrap();
    let request = Request { moment: FIRST, ..Request::new(&owner, RecordType::TXT) };
    assert_eq!(cache.lookup(&request).unwrap().kind(), AnswerKind::Miss);
    let answer = cache.lookup(&Request { class: Class::Ch, ..request }).unwrap();
    assert_eq!(answer.rrsets().next().unwrap().class, Class::Ch);
}

/// RFC 8767: data past their TTL answer with a TTL of 30, for as long as `max_stale` says.
#[test]
fn stale_data_answer_in_their_modes() {
    let cache = open();
    keep_address(&cache, "www.example", 60);
    let kind = |moment, mode| look_in(&cache, "www.example", RecordType::A, moment, mode).kind();
    let (over, last) = (FIRST + 60, FIRST + 60 + MAX_STALE - 1);
    assert_eq!(kind(over, Mode::NoStale), AnswerKind::Miss);
    assert_eq!(kind(over, Mode::StaleIfFailed), AnswerKind::Miss);
    assert_eq!(kind(last + 1, Mode::StaleNow), AnswerKind::Miss);
    let answer = look_in(&cache, "www.example", RecordType::A, last, Mode::StaleNow);
    assert!(answer.kind() == AnswerKind::Stale && answer.is_stale());
    assert_eq!(all_shown(&answer), ["www.example. 30 IN A \\# 4 c0000201"]);
    assert_eq!(answer.rrsets().next().unwrap().kind, RrsetKind::Stale);
    let owner = name("www.example");
    let failure = Failure { moment: over, ..Failure::new(&owner, RecordType::A, 5) };
    cache.store_failure(&failure).unwrap();
    assert_eq!(kind(over, Mode::NoStale), AnswerKind::Failed { retry_from: over + 5 });
    assert_eq!(kind(over, Mode::StaleIfFailed), AnswerKind::Stale);
    assert_eq!(kind(over + 5, Mode::StaleIfFailed), AnswerKind::Miss);
}

#[test]
fn denials_are_told_with_their_soa_record() {
    let cache = open();
    let (gone, here, zone) = (name("gone.example"), name("here.example"), name("example"));
    let nxdomain = Negative::new(&gone, Denial::NxDomain, 60, &zone, SOA_DATA);
    let nodata = Negative::new(&here, Denial::NoData(RecordType::A), 60, &zone, SOA_DATA);
    for negative in [nxdomain, nodata] {
        cache.store_negative(&Negative { moment: FIRST, ..negative }).unwrap();
    }
    for (of, rtype, kind, rrset_kind) in [
        ("gone.example", RecordType::MX, AnswerKind::NxDomain, RrsetKind::NxDomain),
        ("here.example", RecordType::A, AnswerKind::NoData, RrsetKind::NoData),
    ] {
        let answer = look(&cache, of, rtype, FIRST + 10);
        let rrset = answer.rrsets().next().unwrap();
        assert_eq!(
            (answer.kind(), rrset.kind, rrset.section),
            (kind, rrset_kind, Section::Authority)
        );
        assert_eq!(
            (rrset.owner.clone(), rrset.rtype, rrset.ttl),
            (name("example"), RecordType::SOA, 50)
        );
        assert_eq!(rrset.data.collect::<Vec<_>>(), [SOA_DATA]);
    }
    assert_eq!(look(&cache, "here.example", RecordType::MX, FIRST).kind(), AnswerKind::Miss);
}

#[test]
fn aliases_are_followed() {
    let cache = open();
    keep_alias(&cache, "www.example", "a.example", 100);
    keep_alias(&cache, "a.example", "b.example", 50);
    let answer = look(&cache, "www.example", RecordType::A, FIRST);
    assert_eq!((answer.kind(), answer.aliases()), (AnswerKind::Miss, 2));
    assert_eq!(answer.end(), Some(name("b.example")));
    keep_address(&cache, "b.example", 20);
    let answer = look(&cache, "www.example", RecordType::A, FIRST + 1);
    assert_eq!((answer.kind(), answer.aliases()), (AnswerKind::Fresh, 2));
    assert_eq!(
        all_shown(&answer),
        [
            "www.example. 99 IN CNAME \\# 11 0161076578616d706c6500",
            "a.example. 49 IN CNAME \\# 11 0162076578616d706c6500",
            "b.example. 19 IN A \\# 4 c0000201",
        ]
    );
    let answer = look(&cache, "www.example", RecordType::CNAME, FIRST);
    assert_eq!((answer.kind(), answer.aliases()), (AnswerKind::Fresh, 0));
}

#[test]
fn a_dname_record_stands_before_its_alias() {
    let cache = open();
    keep(&cache, "old.example", RecordType(39), 100, name("new.example").wire());
    keep_alias(&cache, "a.old.example", "a.new.example", 100);
    keep_address(&cache, "a.new.example", 100);
    let owner = name("a.old.example");
    let request = Request { moment: FIRST, ..Request::new(&owner, RecordType::A) };
    for (mut answer, wanted) in
        [(Answer::new(), vec![5, 1]), (Answer::new().with_dnames(), vec![39, 5, 1])]
    {
        assert_eq!(cache.lookup_into(&request, &mut answer), Ok(AnswerKind::Fresh));
        let types: Vec<_> = answer.rrsets().map(|it| it.rtype.0).collect();
        assert_eq!(types, wanted);
    }
}

/// 16 aliases are followed, and no more.
#[test]
fn aliases_that_do_not_end_are_told() {
    let cache = open();
    keep_alias(&cache, "a.example", "b.example", 60);
    keep_alias(&cache, "b.example", "A.example", 60);
    assert_eq!(look(&cache, "a.example", RecordType::A, FIRST).kind(), AnswerKind::Endless);
    for number in 0..17 {
        keep_alias(&cache, &format!("c{number}.example"), &format!("c{}.example", number + 1), 60);
    }
    keep_address(&cache, "c17.example", 60);
    assert_eq!(look(&cache, "c0.example", RecordType::A, FIRST).kind(), AnswerKind::Endless);
    let answer = look(&cache, "c1.example", RecordType::A, FIRST);
    assert_eq!((answer.kind(), answer.aliases()), (AnswerKind::Fresh, 16));
}

/// RFC 2181 section 5.4.1: additional data answer no question.
#[test]
fn glue_is_for_who_takes_it() {
    let cache = open();
    let owner = name("ns.example");
    let set = Set::new(&owner, RecordType::A, 60, &[ADDRESS]);
    cache.store_set(&Set { trust: Trust::Additional, moment: FIRST, ..set }).unwrap();
    let request = Request { moment: FIRST, ..Request::new(&owner, RecordType::A) };
    assert_eq!(cache.lookup(&request).unwrap().kind(), AnswerKind::Miss);
    let answer = cache.lookup(&Request { takes_glue: true, ..request }).unwrap();
    assert_eq!(answer.rrsets().next().unwrap().trust, Trust::Additional);
}

#[test]
fn the_deepest_delegation_is_told() {
    let cache = open();
    let server = name("ns.example");
    keep(&cache, "example", RecordType::NS, 100, server.wire());
    keep(&cache, "sub.example", RecordType::NS, 60, server.wire());
    let of = name("www.Sub.example");
    let end = |of: &Name<'_>, moment| {
        let request = Request { moment, ..Request::new(of, RecordType::A) };
        let answer = cache.lookup_delegation(&request).unwrap();
        (answer.kind(), answer.end().map(Name::into_owned))
    };
    assert_eq!(end(&of, FIRST + 59), (AnswerKind::Fresh, Some(name("sub.example"))));
    assert_eq!(end(&of, FIRST + 60), (AnswerKind::Fresh, Some(name("example"))));
    assert_eq!(end(&of, FIRST + 100), (AnswerKind::Miss, Some(Name::ROOT)));
    assert_eq!(end(&name("other."), FIRST), (AnswerKind::Miss, Some(Name::ROOT)));
}

/// The cache takes the time of its own clock if none is handed in, and TTLs go down with it.
#[test]
fn now_is_the_time_of_the_clock() {
    let cache = Cache::open(&Config::default()).unwrap();
    let owner = name("www.example");
    cache.store_set(&Set::new(&owner, RecordType::A, 1000, &[ADDRESS])).unwrap();
    let answer = cache.lookup(&Request::new(&owner, RecordType::A)).unwrap();
    assert!((990..=1000).contains(&answer.rrsets().next().unwrap().ttl));
}

#[test]
fn an_answer_is_used_again() {
    let cache = open();
    keep_address(&cache, "www.example", 60);
    let mut answer = Answer::default();
    assert_eq!((answer.kind(), answer.end().is_none()), (AnswerKind::Miss, true));
    let (www, other) = (name("www.example"), name("other.example"));
    for (of, kind, count) in [(&www, AnswerKind::Fresh, 1), (&other, AnswerKind::Miss, 0)] {
        let request = Request { moment: FIRST, ..Request::new(of, RecordType::A) };
        cache.lookup_into(&request, &mut answer).unwrap();
        assert_eq!((answer.kind(), answer.rrsets().count()), (kind, count));
    }
    let text = format!("{:?}", look(&cache, "www.example", RecordType::A, FIRST));
    assert!(text.contains("Fresh") && text.contains("Name(www.example.)"), "{text}");
}
