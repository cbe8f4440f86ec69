// SPDX-License-Identifier: MIT
//! Records the histories of the shelves of a cache, and writes these histories and the contents of
//! the shelves.

use std::any::Any;
use std::ffi::{c_int, c_void};
use std::io::{self, Write};
use std::panic::{catch_unwind, resume_unwind, AssertUnwindSafe};

use crate::error::check;
use crate::{ffi, Cache, Error};

/// A function that receives the octets of each shelf, and the reason why it failed, if it did.
struct Sink<F> {
    write: F,
    fault: Option<Fault>,
}

/// The reason why a sink ended early.
enum Fault {
    Error(io::Error),
    Panic(Box<dyn Any + Send>),
}

/// The callback that the library calls for each piece of text. A panic does not unwind into C: the
/// callback stores the panic, which resumes after the call of the library has returned.
///
/// # Safety `state` points to a `Sink<F>` with no other reference, and `octets` points to `size`
/// octets.
unsafe extern "C" fn take<F>(
    state: *mut c_void,
    shelf: u64,
    octets: *const c_void,
    size: usize,
) -> c_int
where
    F: FnMut(u64, &[u8]) -> io::Result<()>,
{
    // SAFETY: the caller guarantees that the sink exists.
    let sink = unsafe { &mut *state.cast::<Sink<F>>() };
    // SAFETY: the caller guarantees that the octets exist.
    let octets = unsafe { std::slice::from_raw_parts(octets.cast::<u8>(), size) };
    sink.fault = match catch_unwind(AssertUnwindSafe(|| (sink.write)(shelf, octets))) {
        Ok(Ok(())) => None,
        Ok(Err(error)) => Some(Fault::Error(error)),
        Err(panic) => Some(Fault::Panic(panic)),
    };
    c_int::from(sink.fault.is_some())
}

/// A call that writes to a sink.
type Call = unsafe extern "C" fn(*mut ffi::rrcache, ffi::rrcache_shelf_sink, *mut c_void) -> u32;

impl Cache {
    /// Makes a call that writes to a sink.
    fn write_by<F>(&self, call: Call, write: F) -> io::Result<()>
    where
        F: FnMut(u64, &[u8]) -> io::Result<()>,
    {
        let mut sink = Sink { write, fault: None };
        let state: *mut Sink<F> = &mut sink;
        // SAFETY: the call passes `state` only to `take::<F>`, in this thread, and does not keep
        // it.
        let status = unsafe { call(self.raw(), take::<F>, state.cast()) };
        match sink.fault {
            Some(Fault::Panic(panic)) => resume_unwind(panic),
            Some(Fault::Error(error)) => Err(error),
            None => Ok(check(status)?),
        }
    }

    /// Starts to record the histories of all shelves. While histories are being recorded, each
    /// look-up is an event, and waits for other look-ups in its shelf. Events use at least 96
    /// octets each and stay in memory until recording stops.
    /// [`Config::octets`](crate::Config::octets) does not limit this memory. After an error,
    /// nothing is recorded.
    pub fn record(&self) -> Result<(), Error> {
        // SAFETY: the cache is open.
        check(unsafe { ffi::rrcache_record_all(self.raw()) })
    }

    /// Stops recording, writes the archive (the text of the history) of each shelf, one shelf after
    /// another, and flushes the writer. If nothing is being recorded, nothing is written.
    ///
    /// Returns the error of the writer unchanged, and an error of the library as an [`Error`] in an
    /// [`io::Error`]. After any error, the histories that were not written are dropped. The writer
    /// must not make calls on this cache: calls of `record`, `stop_recording` and `dump` would
    /// never return.
    ///
    /// ```
    /// use rrcache::{Cache, Config, Name, RecordType, Request};
    /// let cache = Cache::open(&Config { shelves: 1, ..Config::default() })?;
    /// cache.record()?;
    /// cache.lookup(&Request::new(&Name::ROOT, RecordType::NS))?;
    /// let mut archive = Vec::new(); // for `rrcache --audit-history`
    /// cache.stop_recording(&mut archive)?;
    /// assert!(archive.ends_with(b"miss\n"));
    /// # Ok::<(), Box<dyn std::error::Error>>(())
    /// ```
    pub fn stop_recording(&self, mut writer: impl Write) -> io::Result<()> {
        self.stop_recording_by(|_, octets| writer.write_all(octets))?;
        writer.flush()
    }

    /// Stops recording as [`stop_recording`](Cache::stop_recording) does, but calls `write` with
    /// each piece of an archive and the number of its shelf, counted from 0.
    pub fn stop_recording_by(
        &self,
        write: impl FnMut(u64, &[u8]) -> io::Result<()>,
    ) -> io::Result<()> {
        self.write_by(ffi::rrcache_stop_recording_all, write)
    }

    /// Writes the contents of each shelf, one shelf after another, in the form in which a chapter
    /// of an archive begins (`docs/FORMATS.md`), and flushes the writer. The text of a shelf shows
    /// its contents at one point in time.
    ///
    /// Returns the error of the writer unchanged, and an error of the library as an [`Error`] in an
    /// [`io::Error`]: [`HasChapters`](Error::HasChapters) while histories are being recorded. The
    /// writer must not make calls on this cache.
    ///
    /// ```
    /// use rrcache::{Cache, Config, Name, RecordType, Set};
    /// let cache = Cache::open(&Config::default())?;
    /// let name: Name = "www.example.".parse()?;
    /// cache.store_set(&Set::new(&name, RecordType::A, 60, &[&[192, 0, 2, 1]]))?;
    /// let mut held = Vec::new();
    /// cache.dump(&mut held)?;
    /// assert!(String::from_utf8(held)?.contains(" www.example. "));
    /// # Ok::<(), Box<dyn std::error::Error>>(())
    /// ```
    pub fn dump(&self, mut writer: impl Write) -> io::Result<()> {
        self.dump_by(|_, octets| writer.write_all(octets))?;
        writer.flush()
    }

    /// Writes the contents as [`dump`](Cache::dump) does, but calls `write` with each piece of the
    /// text and the number of its shelf, counted from 0.
    pub fn dump_by(&self, write: impl FnMut(u64, &[u8]) -> io::Result<()>) -> io::Result<()> {
        self.write_by(ffi::rrcache_dump, write)
    }
}
