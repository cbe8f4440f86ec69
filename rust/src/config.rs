// SPDX-License-Identifier: MIT
//! The configuration of a cache.

use std::fmt;

use crate::ffi;

/// The configuration of a [`Cache`](crate::Cache). In the default configuration, all fields are
/// zero, and no stale data are served.
///
/// ```
/// use rrcache::Config;
/// // 1 GiB, and stale data for up to a day (RFC 8767).
/// let config = Config { octets: 1 << 30, max_stale: 86_400, ..Config::default() };
/// ```
#[derive(Clone, Default, PartialEq, Eq)]
pub struct Config {
    /// The maximum number of octets of memory that the keys use, divided equally among the shelves:
    /// 65,536 to 2^46, or 0 for 64 MiB.
    pub octets: u64,
    /// The maximum number of keys, divided equally among the shelves: at most 65,536 for each
    /// shelf, or 0 for this maximum.
    pub keys: u64,
    /// The number of shelves: 1 to 64, or 0 for 64.
    pub shelves: u64,
    /// The maximum number of threads that can look up names in a shelf at once: 1 to 64, or 0 for
    /// the number of processors, but at most 16.
    pub readers: u64,
    /// For how many seconds past its TTL an RRset may be served: 0 to 604,800 (RFC 8767 section 4).
    pub max_stale: u64,
    /// The limits on how long data of responses may be cached.
    pub limits: Limits,
    /// Secret random octets, or zeros for random octets from the system. A hash under this seed
    /// divides the names among the shelves.
    pub seed: [u8; 16],
    /// Whether every look-up moves its entry to the front of the LRU order.
    pub exact_recency: bool,
}

/// Leaves out the seed, which is secret and must not appear in logs.
impl fmt::Debug for Config {
    fn fmt(&self, f: &mut fmt::Formatter<'_>) -> fmt::Result {
        f.debug_struct("Config")
            .field("octets", &self.octets)
            .field("keys", &self.keys)
            .field("shelves", &self.shelves)
            .field("readers", &self.readers)
            .field("max_stale", &self.max_stale)
            .field("limits", &self.limits)
            .field("exact_recency", &self.exact_recency)
            .finish_non_exhaustive()
    }
}

impl Config {
    pub(crate) fn raw(&self) -> ffi::rrcache_config {
        ffi::rrcache_config {
            octets: self.octets,
            keys: self.keys,
            shelves: self.shelves,
            readers: self.readers,
            max_stale: self.max_stale,
            limits: self.limits,
            seed: self.seed,
            exact_recency: self.exact_recency,
        }
    }
}

/// The limits on how long data of a response may be cached, in seconds. In a
/// [`Response`](crate::Response), a limit of 0 means the limit of the cache. In a [`Config`], a
/// limit of 0 means the default, which is given below.
#[repr(C)]
#[derive(Clone, Copy, Debug, Default, PartialEq, Eq)]
pub struct Limits {
    /// The maximum TTL: 1 to 604,800 (RFC 8767 section 4). The default is 604,800.
    pub cap: u32,
    /// The maximum TTL of a negative answer: 1 to 604,800 (RFC 2308 section 5). The default is
    /// 10,800.
    pub negative_cap: u32,
    /// The TTL of a failure: 1 to 300 (RFC 8767 section 5, RFC 9520 section 3.2). The default is
    /// 30.
    pub recheck: u32,
}
