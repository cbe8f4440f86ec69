// SPDX-License-Identifier: MIT
//! Records and dumps, and writers that fail.

use crate::common::*;
use rrcache::{Cache, Config, Error, RecordType};
use std::io::{self, Write};
use std::panic::{catch_unwind, AssertUnwindSafe};

fn refusal(result: io::Result<()>) -> Error {
    *result.unwrap_err().get_ref().unwrap().downcast_ref().unwrap()
}

/// A cache whose shelves record an offer, a hit and a miss of each of some names.
fn recorded() -> Cache {
    let cache = open();
    cache.record().unwrap();
    for number in 0..20 {
        let of = format!("a{number}.example");
        keep_address(&cache, &of, 60);
        look(&cache, &of, RecordType::A, FIRST + 1);
        look(&cache, &of, RecordType::MX, FIRST + 2);
    }
    cache
}

/// A chapter begins with a line of its own, and each shelf's archive with one.
#[test]
fn records_are_written_shelf_by_shelf() {
    let cache = recorded();
    let mut archives = vec![Vec::new(); 4];
    let mut last = 0;
    cache
        .stop_recording_by(|shelf, octets| {
            assert!(last <= shelf);
            last = shelf;
            archives[shelf as usize].write_all(octets)
        })
        .unwrap();
    let mut counts = [0; 3];
    for archive in archives {
        let text = String::from_utf8(archive).unwrap();
        assert!(text.starts_with("chapter ") && text.ends_with('\n'), "{text}");
        for (count, word) in counts.iter_mut().zip(["offer ", "ask ", "miss\n"]) {
            let is_counted = |line: &&str| line.starts_with(word) || line.ends_with(word);
            *count += text.split_inclusive('\n').filter(is_counted).count();
        }
    }
    assert_eq!(counts, [20, 40, 20]);
}

#[test]
fn one_writer_has_all_shelves_behind_one_another() {
    let mut pieces = Vec::new();
    let cache = recorded();
    cache.dump(&mut pieces).expect_err("nothing is dumped while histories are recorded");
    assert!(pieces.is_empty());
    cache.stop_recording(&mut pieces).unwrap();
    let text = String::from_utf8(pieces).unwrap();
    assert_eq!(text.lines().filter(|line| line.starts_with("chapter ")).count(), 4);
    let mut nothing = Vec::new();
    cache.stop_recording(&mut nothing).unwrap();
    assert!(nothing.is_empty(), "nothing is recorded any more");
}

#[test]
fn what_is_held_is_dumped() {
    let cache = open();
    keep_address(&cache, "www.example", 60);
    let mut held = [const { Vec::new() }; 4];
    cache.dump_by(|shelf, octets| held[shelf as usize].write_all(octets)).unwrap();
    let text = String::from_utf8(held.concat()).unwrap();
    let named: Vec<_> = text.lines().filter(|line| line.contains(" www.example. ")).collect();
    assert!(named.len() == 1 && named[0].contains("c0000201"), "{text}");
    cache.record().unwrap();
    assert_eq!(refusal(cache.dump(io::sink())), Error::HasChapters);
}

/// A writer that takes so many octets, and then fails as it is told to.
struct Failing<F>(usize, F);

impl<F: FnMut() -> io::Error> Write for Failing<F> {
    fn write(&mut self, octets: &[u8]) -> io::Result<usize> {
        match self.0.min(octets.len()) {
            0 => Err((self.1)()),
            size => {
                self.0 -= size;
                Ok(size)
            }
        }
    }

    fn flush(&mut self) -> io::Result<()> {
        Ok(())
    }
}

/// What the writer said comes back, nothing is recorded any more, and the cache goes on.
#[test]
fn errors_of_writers_come_back() {
    for octets in [0, 1, 100, 1000] {
        let cache = recorded();
        let full = || io::Error::new(io::ErrorKind::StorageFull, "full");
        let error = cache.stop_recording(Failing(octets, full)).unwrap_err();
        assert_eq!((error.kind(), error.to_string()), (io::ErrorKind::StorageFull, "full".into()));
        let error = cache.dump(Failing(octets, full)).unwrap_err();
        assert_eq!(error.kind(), io::ErrorKind::StorageFull);
        assert_eq!(cache.stats().keys, 20);
        cache.dump(io::sink()).unwrap();
    }
}

/// A writer that takes all octets, and fails as its buffer is written out.
struct Unflushed(Vec<u8>);

impl Write for Unflushed {
    fn write(&mut self, octets: &[u8]) -> io::Result<usize> {
        self.0.write(octets)
    }

    fn flush(&mut self) -> io::Result<()> {
        Err(io::Error::new(io::ErrorKind::StorageFull, "full"))
    }
}

/// A `BufWriter` drops such an error when it is dropped, so the calls flush the writer themselves.
#[test]
fn errors_of_a_flush_come_back() {
    let cache = recorded();
    let mut writer = Unflushed(Vec::new());
    let error = cache.stop_recording(&mut writer).unwrap_err();
    assert_eq!((error.kind(), error.to_string()), (io::ErrorKind::StorageFull, "full".into()));
    assert!(writer.0.ends_with(b"\n"), "all was written before");
    let error = cache.dump(Unflushed(Vec::new())).unwrap_err();
    assert_eq!(error.kind(), io::ErrorKind::StorageFull);
}

/// A panic of the writer goes on in the caller, and the cache goes on too: no lock is held.
#[test]
fn panics_of_writers_do_not_unwind_into_c() {
    let cache = recorded();
    for call in [Cache::stop_recording, Cache::dump] {
        let writer = Failing(100, || panic!("the writer's own"));
        let panic = catch_unwind(AssertUnwindSafe(|| call(&cache, writer))).unwrap_err();
        assert_eq!(panic.downcast_ref(), Some(&"the writer's own"));
    }
    cache.record().unwrap();
    keep_address(&cache, "www.example", 60);
    cache.stop_recording(io::sink()).unwrap();
    cache.dump(io::sink()).unwrap();
}

#[test]
fn a_record_of_nothing_has_a_chapter_for_each_shelf() {
    let cache = Cache::open(&Config { shelves: 3, ..Config::default() }).unwrap();
    cache.record().unwrap();
    cache.record().unwrap();
    let mut shelves = Vec::new();
    cache
        .stop_recording_by(|shelf, octets| {
            shelves.push((shelf, octets.starts_with(b"chapter ")));
            Ok(())
        })
        .unwrap();
    assert_eq!(shelves, [(0, true), (1, true), (2, true)]);
}
