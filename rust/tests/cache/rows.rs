// SPDX-License-Identifier: MIT
//! The worked traces of `tests/rows/trust` that have puts and asks alone, made call by call.
//! `docs/FORMATS.md` has the format of traces and reports.

use crate::common::*;
use rrcache::{Answer, Cache, Mode, Outcome, RecordType, Request, RrsetKind, Set, Trust};
use std::fmt::Write;
use std::fs;
use std::path::Path;

const ROWS: &str = concat!(env!("CARGO_MANIFEST_DIR"), "/../tests/rows/trust");

fn octets_of(hex: &str) -> Vec<u8> {
    (0..hex.len()).step_by(2).map(|at| u8::from_str_radix(&hex[at..at + 2], 16).unwrap()).collect()
}

/// `put MOMENT OWNER TYPE RANK TTL DATA,..`
fn put(cache: &Cache, words: &[&str]) -> String {
    let [moment, owner, rtype, rank, ttl, data] = words else { panic!("{words:?}") };
    let trust = match *rank {
        "1" => Trust::Additional,
        "2" => Trust::NonAuthoritativeAnswer,
        "3" => Trust::Authority,
        _ => Trust::AuthoritativeAnswer,
    };
    let data: Vec<_> = data.split(',').map(octets_of).collect();
    let data: Vec<_> = data.iter().map(Vec::as_slice).collect();
    let (owner, rtype) = (name(owner), RecordType(rtype.parse().unwrap()));
    let set = Set::new(&owner, rtype, ttl.parse().unwrap(), &data);
    match cache.store_set(&Set { trust, moment: moment.parse().unwrap(), ..set }).unwrap() {
        Outcome::Kept => "put kept",
        Outcome::Cleared => "put cleared",
        Outcome::Outranked => "put less",
    }
    .into()
}

/// `ask MOMENT NAME TYPE any|answer none|failed|now`
fn ask(cache: &Cache, words: &[&str]) -> String {
    let [moment, of, rtype, purpose, mode] = words else { panic!("{words:?}") };
    let of = name(of);
    let answer = cache.lookup(&Request {
        moment: moment.parse().unwrap(),
        takes_glue: *purpose == "any",
        mode: match *mode {
            "none" => Mode::NoStale,
            "failed" => Mode::StaleIfFailed,
            _ => Mode::StaleNow,
        },
        ..Request::new(&of, RecordType(rtype.parse().unwrap()))
    });
    format!("ask {}", told(&answer.unwrap()))
}

/// An answer as a report has it.
fn told(answer: &Answer) -> String {
    let Some(rrset) = answer.rrsets().next() else { return "miss".into() };
    let kind = match rrset.kind {
        RrsetKind::Fresh => "fresh",
        RrsetKind::Stale => "stale",
        RrsetKind::NoData => "nodata",
        RrsetKind::NxDomain => "nxdomain",
    };
    let hex = |datum: &[u8]| datum.iter().map(|it| format!("{it:02x}")).collect::<String>();
    let data: Vec<_> = rrset.data.map(hex).collect();
    format!("{kind} {} {} {}", rrset.ttl, rrset.owner, data.join(","))
}

/// The report of a trace, or `None` if it has other lines than puts and asks.
fn report(trace: &str) -> Option<String> {
    let cache = open();
    let mut report = String::new();
    for (number, line) in trace.lines().enumerate() {
        let words: Vec<_> = line.split(' ').collect();
        let text = match words[0] {
            "put" => put(&cache, &words[1..]),
            "ask" => ask(&cache, &words[1..]),
            _ => return None,
        };
        writeln!(report, "{number} {text}").unwrap();
    }
    Some(report)
}

#[test]
fn rows_have_their_reports() {
    let mut count = 0;
    for row in fs::read_dir(ROWS).unwrap() {
        let read =
            |file: &str| fs::read_to_string(Path::new(&row.as_ref().unwrap().path()).join(file));
        if let Some(report) = report(&read("trace").unwrap()) {
            assert_eq!(report, read("report").unwrap(), "{row:?}");
            count += 1;
        }
    }
    assert!(count >= 4, "{count} rows have puts and asks alone");
}
