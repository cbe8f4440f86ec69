// SPDX-License-Identifier: MIT
//! Threads that make calls of one cache at once, each reply checked.

use crate::common::*;
use rrcache::{
    Answer, AnswerKind, Cache, Config, Denial, Failure, Mode, Name, Negative, RecordType, Request,
    Set,
};
use std::io;
use std::thread;

const THREADS: u64 = 8;
const ROUNDS: u64 = 2000;
const NAMES: u64 = 16;

/// The addresses of a name in one of its versions: both octets say which, so that a reply of two
/// versions at once is seen.
fn addresses(number: u64, version: u64) -> [[u8; 4]; 2] {
    [[10, number as u8, version as u8, 1], [10, number as u8, version as u8, 2]]
}

/// Stores a name in one of its versions, at a moment that goes on with it.
fn store(cache: &Cache, names: &[Name<'_>], round: u64, thread: u64) {
    let number = (round * 7 + thread) % NAMES;
    let addresses = addresses(number, round % 256);
    let data = [&addresses[0][..], &addresses[1]];
    let owner = &names[number as usize];
    let set = Set { moment: FIRST + round, ..Set::new(owner, RecordType::A, 60, &data) };
    cache.store_set(&set).unwrap();
}

/// Looks up a name: the answer is whole and of one version, or a miss.
fn check(cache: &Cache, names: &[Name<'_>], number: u64, moment: u64, answer: &mut Answer) {
    let name = &names[number as usize];
    let request = Request { moment, mode: Mode::StaleNow, ..Request::new(name, RecordType::A) };
    cache.lookup_into(&request, answer).unwrap();
    assert_eq!(answer.end().as_ref(), Some(name));
    match answer.kind() {
        AnswerKind::Fresh | AnswerKind::Stale => {
            let rrset = answer.rrsets().next().unwrap();
            let data: Vec<_> = rrset.data.collect();
            assert_eq!(&rrset.owner, name);
            assert_eq!(data, addresses(number, data[0][2].into()));
            assert!(rrset.ttl <= 60);
        }
        kind => assert_eq!(kind, AnswerKind::Miss),
    }
}

/// What else a thread may call meanwhile, on names of its own.
fn call_others(cache: &Cache, thread: u64, round: u64) {
    let (own, zone) = (name(&format!("t{thread}.example")), name("example"));
    let moment = FIRST + round;
    let request = Request { moment, ..Request::new(&own, RecordType::A) };
    let failure = Failure { moment, ..Failure::new(&own, RecordType::A, 30) };
    cache.store_failure(&failure).unwrap();
    let failed = AnswerKind::Failed { retry_from: moment + 30 };
    assert_eq!(cache.lookup(&request).unwrap().kind(), failed);
    let denial = Negative::new(&own, Denial::NxDomain, 60, &zone, SOA_DATA);
    cache.store_negative(&Negative { moment, ..denial }).unwrap();
    assert_eq!(cache.lookup(&request).unwrap().kind(), AnswerKind::NxDomain);
    cache.forget(&request).unwrap();
    assert_eq!(cache.lookup(&request).unwrap().kind(), AnswerKind::Miss);
    match round % 64 {
        0 => cache.dump(io::sink()).unwrap_or(()), // it is refused while a record goes on
        16 => cache.record().unwrap(),
        32 => cache.stop_recording(io::sink()).unwrap(),
        // Not at this thread's moment, which may be later than those of others.
        48 => assert!(cache.sweep(FIRST, 10).is_ok()),
        _ => assert!(cache.stats().keys <= NAMES + 3 * THREADS),
    }
}

/// Shelves are few, so that threads meet.
#[test]
fn threads_are_told_what_was_stored() {
    let cache = Cache::open(&Config { shelves: 2, readers: 3, ..small() }).unwrap();
    let names: Vec<_> = (0..NAMES).map(|it| name(&format!("a{it}.example"))).collect();
    thread::scope(|scope| {
        for thread in 0..THREADS {
            let (cache, names) = (&cache, &names);
            scope.spawn(move || {
                let mut answer = Answer::new();
                for round in 0..ROUNDS {
                    store(cache, names, round, thread);
                    for number in 0..NAMES {
                        check(cache, names, number, FIRST + round, &mut answer);
                    }
                    call_others(cache, thread, round);
                }
            });
        }
    });
    let stats = cache.stats();
    let asked = THREADS * ROUNDS * (NAMES + 3);
    let told = stats.hits + stats.stale + stats.negative + stats.misses + stats.failed;
    assert_eq!(told, asked, "{stats}");
    assert_eq!(stats.kept + stats.outranked, THREADS * ROUNDS * 3, "{stats}");
}

/// The last thread that has the cache closes it.
#[test]
fn a_cache_is_closed_by_its_last_owner() {
    let cache = std::sync::Arc::new(open());
    let threads: Vec<_> = (0..4)
        .map(|number| {
            let cache = cache.clone();
            thread::spawn(move || keep_address(&cache, &format!("a{number}.example"), 60))
        })
        .collect();
    drop(cache);
    assert!(threads.into_iter().all(|it| it.join().is_ok()));
}
