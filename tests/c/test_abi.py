# SPDX-License-Identifier: MIT
"""The layouts of the structs of include/, on x86-64. The library reads or writes each of them, so a
struct that was released keeps its size and its fields in all versions with the same soname. Only a
new major version may change a line here. The structs of the packages for Python and Rust are
compared with the headers (tests/python/test_header.py, rust/src/ffi/layout.rs)."""
import platform
import re
import subprocess

import pytest

from tests.c.builds import TOP

INCLUDE = TOP / "include"
# The size of each struct, and the offset and the size of each of its fields, in octets, as version
# 2.1.0 was released. Those that version 2.0.0 has are the same there.
LAYOUTS = """
rrcache_shelf 32: at 0 8, is_live 8 1, seed 16 16
rrcache_offers 16: at 0 8, is_live 8 1
rrcache_chapters 16: at 0 8, is_live 8 1
rrcache_name 288: hash 0 8, part 8 8, seed 16 16, size 32 1, octets 33 255
rrcache_parts 24: count 0 8, seed 8 16
rrcache_rules 40: capacity 0 8, chapter 8 8, max_stale 16 8, seed 24 16
rrcache_question 32: moment 0 8, line 8 8, rtype 16 2, rclass 18 2, purpose 20 4, mode 24 4
rrcache_entry 40: kind 0 4, trust 4 4, ttl 8 4, moment 16 8, number 24 8, age 32 8
rrcache_told 80: kind 0 4, rtype 4 4, left 8 4, retry_from 16 8, owner_size 24 8,
    data_size 32 8, entry 40 40
rrcache_summary 8: kind 0 4, rcode 4 1, aa 5 1, tc 6 1
rrcache_stored 120: set 0 40, nxdomain 40 40, failure 80 40
rrcache_counts 24: kept 0 8, cleared 8 8, outranked 16 8
rrcache_limits 12: cap 0 4, negative_cap 4 4, recheck 8 4
rrcache_sweep_at 24: moment 0 8, line 8 8, most 16 8
rrcache_swept 16: removed 0 8, is_done 8 4
rrcache_trim_to 32: moment 0 8, line 8 8, limit 16 8, most 24 8
rrcache_trimmed 16: removed 0 8, octets 8 8
rrcache_usage 32: keys 0 8, events 8 8, chapters 16 8, octets 24 8
rrcache_share 16: part 0 8, line 8 8
rrcache_offer_pick 16: index 0 8, line 8 8
rrcache_place 24: chapter 0 8, line 8 8, from 16 8
rrcache_line 16: size 0 8, written 8 8
rrcache_query 24: name 0 8, name_size 8 8, id 16 2, rtype 18 2, rclass 20 2, with_case 22 1
rrcache_response 56: octets 0 8, size 8 8, zone 16 8, zone_size 24 8, moment 32 8, limits 40 12,
    lowest_ttl 52 1, clears_denied 53 1
rrcache_parsed_set 48: owner 0 8, owner_size 8 8, rtype 16 2, rclass 18 2, ttl 20 4,
    section 24 4, data 32 8, data_size 40 8
rrcache_set 64: owner 0 8, owner_size 8 8, rtype 16 2, rclass 18 2, trust 20 4, ttl 24 4,
    data 32 8, data_size 40 8, moment 48 8, line 56 8
rrcache_negative 80: name 0 8, name_size 8 8, rtype 16 2, rclass 18 2, kind 20 4, trust 24 4,
    ttl 28 4, soa_owner 32 8, soa_owner_size 40 8, soa 48 8, soa_size 56 8, moment 64 8,
    line 72 8
rrcache_failure 40: name 0 8, name_size 8 8, rtype 16 2, rclass 18 2, ttl 20 4, moment 24 8,
    line 32 8
rrc_response 72: moment 0 8, line 8 8, parts 16 24, part 40 8, limits 48 12, id 60 2,
    rtype 62 2, rclass 64 2, with_case 66 1, lowest_ttl 67 1, clears_denied 68 1
rrc_set 32: moment 0 8, line 8 8, ttl 16 4, trust 20 4, rtype 24 2, rclass 26 2
rrc_negative 32: moment 0 8, line 8 8, ttl 16 4, trust 20 4, denial 24 4, rtype 28 2,
    rclass 30 2
rrc_failure 24: moment 0 8, line 8 8, ttl 16 4, rtype 20 2, rclass 22 2
rrcache_config 72: octets 0 8, keys 8 8, shelves 16 8, readers 24 8, max_stale 32 8,
    limits 40 12, seed 52 16, exact_recency 68 1
rrcache_request 40: name 0 8, name_size 8 8, rtype 16 2, rclass 18 2, moment 24 8, mode 32 4,
    takes_glue 36 1
rrcache_answer 336: buffer 0 8, room 8 8, size 16 8, kind 24 4, aliases 28 4, is_stale 32 1,
    is_endless 33 1, with_dnames 34 1, retry_from 40 8, end 48 288
rrcache_rrset 104: set 0 48, kind 48 4, trust 52 4, entry 56 40, next 96 8
rrcache_report 328: summary 0 8, counts 8 24, too_large 32 8, name 40 288
rrcache_stats 88: hits 0 8, stale 8 8, negative 16 8, misses 24 8, failed 32 8, kept 40 8,
    outranked 48 8, evicted 56 8, expired 64 8, keys 72 8, octets 80 8
"""
# Only inline functions read or write these, so each program has them as in its own header.
INLINE = {"rrcache_parsed_response", "rrcache_draft"}


def layouts():
    """The table: the size of each struct and its fields, by its name."""
    for line in LAYOUTS.strip().replace("\n   ", "").split("\n"):
        struct, fields = line.split(": ")
        name, size = struct.split()
        yield name, (int(size), [it.split() for it in fields.split(", ")])


TABLE = dict(layouts())


def structs_of_headers():
    """The names of the fields of each struct that the library reads or writes, by its name."""
    headers = "".join(it.read_text() for it in INCLUDE.glob("*.h"))
    code = re.sub(r"/\*.*?\*/", " ", headers, flags=re.S)
    found = re.findall(r"^struct (\w+) \{(.*?)^\};", code, re.S | re.M)
    return {name: re.findall(r"(\w+)(?:\[\d+\])?;", fields) for name, fields in found
            if name not in INLINE}


def test_each_struct_and_each_field_has_a_layout():
    assert structs_of_headers() == {name: [field for field, _, _ in fields]
                                    for name, (_, fields) in TABLE.items()}


def checks():
    """What has to hold of the structs by the table, as expressions in C."""
    for name, (size, fields) in TABLE.items():
        yield f"sizeof(struct {name}) == {size}"
        for field, offset, octets in fields:
            yield f"offsetof(struct {name}, {field}) == {offset}"
            yield f"sizeof(((struct {name} *)0)->{field}) == {octets}"


@pytest.mark.skipif(platform.machine() != "x86_64", reason="the table has layouts on x86-64")
def test_layouts():
    lines = ['#include "rrcache.h"', *(f'_Static_assert({it}, "{it}");' for it in checks())]
    ran = subprocess.run(["cc", "-std=c11", "-fsyntax-only", f"-I{INCLUDE}", "-xc", "-"],
                         input="\n".join(lines), text=True, capture_output=True)
    assert (ran.returncode, ran.stderr) == (0, "")
