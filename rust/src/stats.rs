// SPDX-License-Identifier: MIT
//! The counters of a cache.

use std::ffi::CStr;
use std::fmt;

use crate::ffi;

/// Counters of a cache or of one shelf. Each name of a CNAME chain counts as one look-up. A look-up
/// of a delegation counts as one look-up for each name that it tries.
///
/// The text of the counters is one line for a log, `hits 12 stale 0 ..`.
#[repr(C)]
#[derive(Clone, Copy, Debug, Default, PartialEq, Eq)]
pub struct Stats {
    /// Look-ups answered by an unexpired RRset.
    pub hits: u64,
    /// Look-ups answered by a stale RRset.
    pub stale: u64,
    /// Look-ups answered by NODATA or NXDOMAIN.
    pub negative: u64,
    /// Look-ups without an answer and without a recent failure.
    pub misses: u64,
    /// Look-ups without an answer, after a recent failure.
    pub failed: u64,
    /// RRsets, negative answers and failures that were stored.
    pub kept: u64,
    /// RRsets and negative answers that were not stored, because data of higher rank were cached.
    pub outranked: u64,
    /// Keys that were evicted to meet the limit of octets or of keys.
    pub evicted: u64,
    /// Keys that sweeps removed.
    pub expired: u64,
    /// Keys that are cached now.
    pub keys: u64,
    /// Octets of memory that these keys use.
    pub octets: u64,
}

impl fmt::Display for Stats {
    fn fmt(&self, f: &mut fmt::Formatter<'_>) -> fmt::Result {
        let mut text = [0u8; ffi::RRCACHE_STATS_OCTETS];
        // SAFETY: both pointers are valid, and the buffer has the size that is passed.
        let status = unsafe { ffi::rrcache_stats_text(self, text.as_mut_ptr().cast(), text.len()) };
        let line = CStr::from_bytes_until_nul(&text).map_err(|_| fmt::Error)?;
        match status {
            ffi::RRCACHE_DONE => f.pad(line.to_str().map_err(|_| fmt::Error)?),
            _ => Err(fmt::Error),
        }
    }
}
