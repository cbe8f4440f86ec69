// SPDX-License-Identifier: MIT
//! The parts of `rrcache.h` and `rrcache_shelf.h` that this crate uses, with their names in C. The
//! tests in `layout` compare each struct, number and text with the headers.

#![allow(non_camel_case_types)]

use std::ffi::{c_char, c_int, c_void};
use std::marker::PhantomData;

use crate::config::Limits;
use crate::stats::Stats;

#[cfg(test)]
mod layout;

pub const RRCACHE_DONE: u32 = 0;
pub const RRCACHE_ANSWER_OCTETS: usize = 65536;
pub const RRCACHE_STATS_OCTETS: usize = 384;

/// A cache. Its fields are not declared in the headers.
#[repr(C)]
pub struct rrcache {
    _opaque: [u8; 0],
    _is_neither_send_nor_sync: PhantomData<*mut u8>,
}

#[repr(C)]
pub struct rrcache_config {
    pub octets: u64,
    pub keys: u64,
    pub shelves: u64,
    pub readers: u64,
    pub max_stale: u64,
    pub limits: Limits,
    pub seed: [u8; 16],
    pub exact_recency: bool,
}

#[repr(C)]
#[derive(Clone, Copy)]
pub struct rrcache_name {
    pub hash: u64,
    pub part: u64,
    pub seed: [u8; 16],
    pub size: u8,
    pub octets: [u8; 255],
}

#[repr(C)]
pub struct rrcache_request {
    pub name: *const u8,
    pub name_size: usize,
    pub rtype: u16,
    pub rclass: u16,
    pub moment: u64,
    pub mode: u32,
    pub takes_glue: bool,
}

#[repr(C)]
#[derive(Clone, Copy)]
pub struct rrcache_answer {
    pub buffer: *mut u8,
    pub room: usize,
    pub size: usize,
    pub kind: u32,
    pub aliases: u32,
    pub is_stale: bool,
    pub is_endless: bool,
    pub with_dnames: bool,
    pub retry_from: u64,
    pub end: rrcache_name,
}

#[repr(C)]
#[derive(Clone, Copy)]
pub struct rrcache_parsed_set {
    pub owner: *const u8,
    pub owner_size: usize,
    pub rtype: u16,
    pub rclass: u16,
    pub ttl: u32,
    pub section: u32,
    pub data: *const u8,
    pub data_size: usize,
}

#[repr(C)]
#[derive(Clone, Copy)]
pub struct rrcache_entry {
    pub kind: u32,
    pub trust: u32,
    pub ttl: u32,
    pub moment: u64,
    pub number: u64,
    pub age: u64,
}

#[repr(C)]
#[derive(Clone, Copy)]
pub struct rrcache_rrset {
    pub set: rrcache_parsed_set,
    pub kind: u32,
    pub trust: u32,
    pub entry: rrcache_entry,
    pub next: usize,
}

#[repr(C)]
pub struct rrcache_query {
    pub name: *const u8,
    pub name_size: usize,
    pub id: u16,
    pub rtype: u16,
    pub rclass: u16,
    pub with_case: bool,
}

#[repr(C)]
pub struct rrcache_response {
    pub octets: *const u8,
    pub size: usize,
    pub zone: *const u8,
    pub zone_size: usize,
    pub moment: u64,
    pub limits: Limits,
    pub lowest_ttl: bool,
    pub clears_denied: bool,
}

#[repr(C)]
pub struct rrcache_summary {
    pub kind: u32,
    pub rcode: u8,
    pub aa: bool,
    pub tc: bool,
}

#[repr(C)]
pub struct rrcache_counts {
    pub kept: u64,
    pub cleared: u64,
    pub outranked: u64,
}

#[repr(C)]
pub struct rrcache_report {
    pub summary: rrcache_summary,
    pub counts: rrcache_counts,
    pub too_large: u64,
    pub name: rrcache_name,
}

#[repr(C)]
pub struct rrcache_set {
    pub owner: *const u8,
    pub owner_size: usize,
    pub rtype: u16,
    pub rclass: u16,
    pub trust: u32,
    pub ttl: u32,
    pub data: *const u8,
    pub data_size: usize,
    pub moment: u64,
    pub line: u64,
}

#[repr(C)]
pub struct rrcache_negative {
    pub name: *const u8,
    pub name_size: usize,
    pub rtype: u16,
    pub rclass: u16,
    pub kind: u32,
    pub trust: u32,
    pub ttl: u32,
    pub soa_owner: *const u8,
    pub soa_owner_size: usize,
    pub soa: *const u8,
    pub soa_size: usize,
    pub moment: u64,
    pub line: u64,
}

#[repr(C)]
pub struct rrcache_failure {
    pub name: *const u8,
    pub name_size: usize,
    pub rtype: u16,
    pub rclass: u16,
    pub ttl: u32,
    pub moment: u64,
    pub line: u64,
}

#[repr(C)]
pub struct rrcache_swept {
    pub removed: u64,
    pub is_done: u32,
}

pub type rrcache_shelf_sink = unsafe extern "C" fn(
    state: *mut c_void,
    shelf: u64,
    octets: *const c_void,
    size: usize,
) -> c_int;

extern "C" {
    pub fn rrcache_open(cache: *mut *mut rrcache, config: *const rrcache_config) -> u32;
    pub fn rrcache_close(cache: *mut rrcache);
    pub fn rrcache_lookup(
        cache: *mut rrcache,
        request: *const rrcache_request,
        answer: *mut rrcache_answer,
    ) -> u32;
    pub fn rrcache_lookup_delegation(
        cache: *mut rrcache,
        request: *const rrcache_request,
        answer: *mut rrcache_answer,
    ) -> u32;
    pub fn rrcache_next(answer: *const rrcache_answer, rrset: *mut rrcache_rrset) -> bool;
    pub fn rrcache_store(
        cache: *mut rrcache,
        query: *const rrcache_query,
        response: *const rrcache_response,
        report: *mut rrcache_report,
        answer: *mut rrcache_answer,
    ) -> u32;
    pub fn rrcache_store_set(
        cache: *mut rrcache,
        set: *const rrcache_set,
        outcome: *mut u32,
    ) -> u32;
    pub fn rrcache_store_negative(
        cache: *mut rrcache,
        negative: *const rrcache_negative,
        outcome: *mut u32,
    ) -> u32;
    pub fn rrcache_store_failure(
        cache: *mut rrcache,
        failure: *const rrcache_failure,
        outcome: *mut u32,
    ) -> u32;
    pub fn rrcache_forget(cache: *mut rrcache, request: *const rrcache_request) -> u32;
    pub fn rrcache_sweep_all(
        cache: *mut rrcache,
        moment: u64,
        most: u64,
        swept: *mut rrcache_swept,
    ) -> u32;
    pub fn rrcache_stats(cache: *mut rrcache, stats: *mut Stats) -> u32;
    pub fn rrcache_stats_of(cache: *mut rrcache, shelf: u64, stats: *mut Stats) -> u32;
    pub fn rrcache_stats_text(stats: *const Stats, text: *mut c_char, size: usize) -> u32;
    pub fn rrcache_record_all(cache: *mut rrcache) -> u32;
    pub fn rrcache_stop_recording_all(
        cache: *mut rrcache,
        sink: rrcache_shelf_sink,
        state: *mut c_void,
    ) -> u32;
    pub fn rrcache_dump(cache: *mut rrcache, sink: rrcache_shelf_sink, state: *mut c_void) -> u32;
    pub fn rrc_version() -> u32;
}
