# SPDX-License-Identifier: MIT
"""What the package says of the C library, compared with include/rrcache_shelf.h and
include/rrcache.h: its enumerations, structs, calls, numbers and words."""
import re
import shutil
import subprocess
from ctypes import (POINTER, Array, Structure, c_bool, c_char_p, c_size_t, c_uint8, c_uint16,
                    c_uint32, c_uint64, c_void_p, sizeof)
from itertools import count

import pytest

import rrcache
from rrcache import answers, library, refusals, shared, structs
from tests.forwarder.harness import BUILD
from tools.captures import memory

INCLUDE = BUILD.parent / "include"
HEADER = re.sub(r"/\*.*?\*/", " ", "".join(
    (INCLUDE / it).read_text() for it in ("rrcache_shelf.h", "rrcache.h")), flags=re.S)
# The classes of the package that are enumerations of the header.
ENUMS = {"status": rrcache.Status, "kind": rrcache.Kind, "class": rrcache.Class,
         "purpose": rrcache.Purpose, "mode": rrcache.Mode, "trust": rrcache.Trust,
         "outcome": rrcache.Outcome, "response_kind": rrcache.ResponseKind,
         "message_fault": rrcache.MessageFault}
# Those that are read by the header's inline functions alone, of which the package has none.
INLINE = {"rrcache_parsed_response", "rrcache_draft"}
TOLD_IN_C = {rrcache.Status.NULL, rrcache.Status.SINK, rrcache.Status.OVERLAP}
TYPES = {"void *": c_void_p, "bool": c_bool, "uint8_t": c_uint8, "uint16_t": c_uint16,
         "uint32_t": c_uint32, "uint64_t": c_uint64, "size_t": c_size_t, "uint8_t *": c_char_p,
         "uint32_t *": POINTER(c_uint32), "uint64_t *": POINTER(c_uint64), "char *": c_char_p,
         "struct rrcache *": c_void_p, "struct rrcache **": POINTER(c_void_p), "void": None,
         "rrcache_shelf_sink": library.SINK}


def c_name(name):
    """The name in C of a struct of the package."""
    if name.endswith("Terms"):
        return f"rrc_{name.removesuffix('Terms').lower()}"
    return "rrcache" + re.sub(r"[A-Z]", lambda it: f"_{it[0].lower()}", name)


STRUCTS = {c_name(name): it for name, it in vars(structs).items()
           if isinstance(it, type) and issubclass(it, Structure) and it is not Structure}


def type_of(text):
    """The type of a field or an argument, as ctypes has it."""
    text = text.replace("const ", "").strip()
    if text.startswith("enum "):
        return c_uint32
    if text in TYPES:
        return TYPES[text]
    name, pointer = re.fullmatch(r"struct (\w+)( \*)?", text).groups()
    return POINTER(STRUCTS[name]) if pointer else STRUCTS[name]


def enums():
    """The enumerations of the header: their numbers by name."""
    found = re.findall(r"enum rrcache_(\w+) \{(.*?)\};", HEADER, re.S)
    numbers = r"RRCACHE_(?:RESPONSE_)?(\w+) = (\d+)"
    return {name: {word: int(number) for word, number in re.findall(numbers, text)}
            for name, text in found}


def fields_of(text):
    """The fields of a struct in C. The package keeps addresses of octets as numbers there."""
    field = r"((?:struct |enum )?\w+(?: \*|\s))\s*(\w+)(?:\[(\d+)\])?;"
    for kind, name, size in re.findall(field, text):
        one = c_void_p if kind == "uint8_t *" else type_of(kind)
        yield name, one * int(size) if size else one


def structs_of_header():
    """The structs that calls of the library take: their fields by name."""
    found = re.findall(r"^struct (rrc(?:ache)?_\w+) \{(.*?)^\};", HEADER, re.S | re.M)
    return {name: [*fields_of(text)] for name, text in found if name not in INLINE}


def calls_of_header(declared):
    """What each call of the library returns, and the types of what it takes."""
    found = re.findall(rf"^{declared}\(([^)]*)\);", HEADER, re.M)
    return {name: (type_of(result), [type_of(re.sub(r"\w+$", "", " ".join(it.split())))
                                     for it in text.split(",") if it != "void"])
            for result, name, text in found}


def test_enumerations():
    found = enums()
    del found["section"]  # `compose_response` has an argument for each
    assert set(found) == set(ENUMS)
    for name, numbers in found.items():
        assert numbers == {word: int(it) for word, it in ENUMS[name].__members__.items()}, name


def test_fields_of_structs():
    found = structs_of_header()
    assert set(found) == set(STRUCTS)
    for name, fields in found.items():
        assert fields == STRUCTS[name]._fields_, name


@pytest.mark.skipif(shutil.which("cc") is None, reason="there is no compiler of C here")
def test_layouts_of_structs():
    """The size of each struct, and the place and the size of each of its fields, by a compiler."""
    lines = ['#include "rrcache.h"']
    for name, it in STRUCTS.items():
        lines.append(f"_Static_assert(sizeof(struct {name}) == {sizeof(it)}, \"{name}\");")
        for field, _ in it._fields_:
            place = getattr(it, field)
            for found, wanted in ((f"offsetof(struct {name}, {field})", place.offset),
                                  (f"sizeof(((struct {name} *)0)->{field})", place.size)):
                lines.append(f'_Static_assert({found} == {wanted}, "{name}.{field}");')
    ran = subprocess.run(["cc", "-std=c11", "-fsyntax-only", f"-I{INCLUDE}", "-xc", "-"],
                         input="\n".join(lines), text=True, capture_output=True)
    assert (ran.returncode, ran.stderr) == (0, "")


def leaves(it):
    """The numbers and truth values of a struct of ctypes, one after another; a seed as octets."""
    for name, _ in it._fields_:
        value = getattr(it, name)
        if isinstance(value, Structure):
            yield from leaves(value)
        else:
            yield bytes(value) if isinstance(value, Array) else value


@pytest.mark.parametrize("name", sorted(set(STRUCTS) - {
    f"rrcache_{it}" for it in ("shelf", "offers", "chapters")}))
def test_numbers_are_filled_and_read_in_their_places(name):
    made, numbers = STRUCTS[name](), count(1)
    given = [bytes([next(numbers)] * len(it)) if isinstance(it, bytes)
             else next(numbers) > 0 if isinstance(it, bool) else next(numbers)
             for it in leaves(made)]
    assert structs.fill(made, *given) is made
    assert [*leaves(made)] == given == [*structs.numbers_in(made)]


@pytest.mark.parametrize("declared, calls", [
    (r"(uint32_t) (rrc_\w+)", library.CALLS),
    (r"RRCACHE_API ([\w ]+?)\s+(rrcache_\w+)", library.SHARED_CALLS)], ids=["shelves", "caches"])
def test_calls(declared, calls):
    assert calls_of_header(declared) == {
        name: (library.RESULTS.get(name, c_uint32), types) for name, types in calls.items()}


def test_numbers():
    version = [int(re.search(rf"RRCACHE_VERSION_{it} (\d+)", HEADER)[1])
               for it in ("MAJOR", "MINOR")]
    assert version == [library.MAJOR, library.MINOR]
    assert library.SONAME == f"librrcache.so.{library.MAJOR}"
    limits = re.search(r"define RRCACHE_LIMITS[\s\\]+\{[\s\\]+([\d, ]+)", HEADER)[1]
    assert tuple(map(int, limits.split(","))) == rrcache.Limits()


@pytest.mark.parametrize("name, number", [("ANSWER", answers.ANSWER_OCTETS),
                                          ("STATS", shared.STATS_OCTETS)])
def test_rooms(name, number):
    assert int(re.search(rf"RRCACHE_{name}_OCTETS = (\d+)", HEADER)[1]) == number


@pytest.mark.parametrize("name", ["ENTRY", "VALUE", "INLINE", "BLOCK", "SHARED"])
def test_octets(name):
    """The package and what bin/what-if counts by have the header's numbers."""
    told = int(re.search(rf"RRCACHE_{name}_OCTETS = (\d+)", HEADER)[1])
    assert [getattr(it, f"{name}_OCTETS") for it in (rrcache, memory)] == [told, told]


def test_refusals_say_what_statuses_do():
    """Each status that the library may return has an exception, with the header's words."""
    words = dict(re.findall(r'case RRCACHE_(\w+):\s+return "(.*?)";', HEADER))
    assert set(words) == set(rrcache.Status.__members__)
    told = set(rrcache.Status) - {rrcache.Status.DONE, rrcache.Status.SMALL} - TOLD_IN_C
    assert set(refusals.BY_STATUS) == told
    for status, refused in refusals.BY_STATUS.items():
        assert str(refused()) == words[status.name]
