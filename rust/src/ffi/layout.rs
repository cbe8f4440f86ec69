// SPDX-License-Identifier: MIT
//! Compares what `ffi` declares with the headers. A program in C, which `cc` compiles, prints the
//! sizes and offsets of the structs of the headers, and the numbers and texts of the enumerations.
//! Another program has a pointer to each function, of the type that is declared here.

use std::any::type_name_of_val;
use std::fmt::Write;
use std::mem::{align_of, offset_of, size_of};
use std::path::{Path, PathBuf};
use std::process::Command;

use super::*;
use crate::cache::{MAJOR, MINOR};
use crate::choices::{Kind, ResponseNumber};
use crate::{Class, Error, Mode, Outcome, RrsetKind, Section, Trust};

const INCLUDE: &str = concat!("-I", env!("CARGO_MANIFEST_DIR"), "/../include");

/// Compiles a source with these additional arguments, and returns the file that the compiler makes
/// in the folder.
fn compiled(folder: &Path, source: &str, words: &[&str]) -> PathBuf {
    let (file, made) = (folder.join("source.c"), folder.join("made"));
    std::fs::create_dir_all(folder).unwrap();
    std::fs::write(&file, source).unwrap();
    let told = Command::new("cc")
        .args(["-std=c11", "-Wall", "-Wextra", "-Werror", INCLUDE])
        .args(words)
        .arg(&file)
        .arg("-o")
        .arg(&made)
        .output()
        .unwrap();
    assert!(told.status.success(), "{source}{}", String::from_utf8_lossy(&told.stderr));
    made
}

/// Returns the folder of a test.
fn folder_of(name: &str) -> PathBuf {
    std::env::temp_dir().join(format!("rrcache-{name}-{}", std::process::id()))
}

/// Compiles and runs a program in C that prints each of these expressions in this format, and
/// returns the lines that the program prints.
fn printed(name: &str, format: &str, expressions: &[String]) -> Vec<String> {
    let mut source = "#include <rrcache.h>\n#include <stdio.h>\nint main(void) {\n".to_string();
    for expression in expressions {
        writeln!(source, "printf(\"{format}\\n\", {expression});").unwrap();
    }
    source.push_str("return 0;\n}\n");
    let folder = folder_of(name);
    let told = Command::new(compiled(&folder, &source, &[])).output().unwrap();
    std::fs::remove_dir_all(&folder).unwrap();
    String::from_utf8(told.stdout).unwrap().lines().map(String::from).collect()
}

/// Checks that the compiler accepts a source.
fn accept(name: &str, source: &str) {
    let folder = folder_of(name);
    compiled(&folder, &format!("#include <rrcache.h>\n{source}"), &["-c"]);
    std::fs::remove_dir_all(&folder).unwrap();
}

/// Compares numbers with the values of expressions in C.
fn compare(name: &str, numbers: &[(String, usize)]) {
    let expressions: Vec<_> =
        numbers.iter().map(|(it, _)| format!("(unsigned long long)({it})")).collect();
    let told = printed(name, "%llu", &expressions);
    assert_eq!(told.len(), numbers.len());
    for ((expression, number), told) in numbers.iter().zip(told) {
        assert_eq!(number.to_string(), told, "{expression}");
    }
}

fn size_of_field<T, F>(_: fn(&T) -> &F) -> usize {
    size_of::<F>()
}

/// The sizes and offsets of structs, each as an expression in C and as a number in Rust.
macro_rules! layouts {
    ($($rust:ident $c:ident { $($field:ident)* })*) => {
        [$(
            (format!("sizeof(struct {})", stringify!($c)), size_of::<$rust>()),
            (format!("_Alignof(struct {})", stringify!($c)), align_of::<$rust>()),
            $(
                (format!("offsetof(struct {}, {})", stringify!($c), stringify!($field)),
                 offset_of!($rust, $field)),
                (format!("sizeof(((struct {} *)0)->{})", stringify!($c), stringify!($field)),
                 size_of_field(|it: &$rust| &it.$field)),
            )*
        )*]
    };
}

#[test]
fn structs_are_laid_out_as_in_c() {
    compare(
        "structs",
        &layouts! {
            Limits rrcache_limits { cap negative_cap recheck }
            Stats rrcache_stats {
                hits stale negative misses failed kept outranked evicted expired keys octets
            }
            rrcache_config rrcache_config {
                octets keys shelves readers max_stale limits seed exact_recency
            }
            rrcache_name rrcache_name { hash part seed size octets }
            rrcache_request rrcache_request { name name_size rtype rclass moment mode takes_glue }
            rrcache_answer rrcache_answer {
                buffer room size kind aliases is_stale is_endless with_dnames retry_from end
            }
            rrcache_parsed_set rrcache_parsed_set {
                owner owner_size rtype rclass ttl section data data_size
            }
            rrcache_entry rrcache_entry { kind trust ttl moment number age }
            rrcache_rrset rrcache_rrset { set kind trust entry next }
            rrcache_query rrcache_query { name name_size id rtype rclass with_case }
            rrcache_response rrcache_response {
                octets size zone zone_size moment limits lowest_ttl clears_denied
            }
            rrcache_summary rrcache_summary { kind rcode aa tc }
            rrcache_counts rrcache_counts { kept cleared outranked }
            rrcache_report rrcache_report { summary counts too_large name }
            rrcache_set rrcache_set {
                owner owner_size rtype rclass trust ttl data data_size moment line
            }
            rrcache_negative rrcache_negative {
                name name_size rtype rclass kind trust ttl soa_owner soa_owner_size soa soa_size
                moment line
            }
            rrcache_failure rrcache_failure { name name_size rtype rclass ttl moment line }
            rrcache_swept rrcache_swept { removed is_done }
        },
    );
}

/// Returns a pattern with the name that a choice has in C in place of `{}`. For example, `NoStale`
/// is `NO_STALE` in C.
fn in_c(choice: &str, pattern: &str) -> String {
    let mut name = String::new();
    for letter in choice.chars() {
        if letter.is_uppercase() && !name.is_empty() {
            name.push('_');
        }
        name.push(letter.to_ascii_uppercase());
    }
    let name = name.replace("NX_DOMAIN", "NXDOMAIN").replace("NO_DATA", "NODATA");
    pattern.replace("{}", &name)
}

/// The enumerations, with the names and numbers that their choices must have in C.
fn enumerations() -> Vec<(&'static str, Vec<(String, usize)>)> {
    let named = |all: &[(&str, u32)], pattern| {
        all.iter().map(|&(name, number)| (in_c(name, pattern), number as usize)).collect()
    };
    let refusals = Error::ALL.iter().map(|it| (format!("{it:?}"), it.status() as usize));
    let statuses = [("Done".into(), RRCACHE_DONE as usize)].into_iter().chain(refusals);
    vec![
        ("class", named(Class::ALL, "RRCACHE_{}")),
        ("mode", named(Mode::ALL, "RRCACHE_{}")),
        ("trust", named(Trust::ALL, "RRCACHE_{}")),
        ("outcome", named(Outcome::ALL, "RRCACHE_{}")),
        ("section", named(Section::ALL, "RRCACHE_{}_SECTION")),
        ("kind", named(Kind::ALL, "RRCACHE_{}")),
        ("response_kind", named(ResponseNumber::ALL, "RRCACHE_RESPONSE_{}")),
        ("status", statuses.map(|(it, number)| (in_c(&it, "RRCACHE_{}"), number)).collect()),
    ]
}

#[test]
fn numbers_are_those_of_c() {
    let mut all = vec![
        ("RRCACHE_ANSWER_OCTETS".into(), RRCACHE_ANSWER_OCTETS),
        ("RRCACHE_STATS_OCTETS".into(), RRCACHE_STATS_OCTETS),
        ("RRCACHE_VERSION_MAJOR".into(), MAJOR as usize),
        ("RRCACHE_VERSION_MINOR".into(), MINOR as usize),
    ];
    all.extend(enumerations().into_iter().flat_map(|(_, numbers)| numbers));
    compare("numbers", &all);
    let kinds = |all: &'static [(&str, u32)]| all.iter().take(4);
    assert!(kinds(RrsetKind::ALL).eq(kinds(Kind::ALL)));
}

/// The compiler rejects a `switch` over an enumeration if a case is missing.
#[test]
fn no_number_of_c_is_missing() {
    let mut source = String::new();
    for (name, numbers) in enumerations() {
        let cases: String = numbers.iter().map(|(it, _)| format!("case {it}: ")).collect();
        let head = format!("void check_{name}(enum rrcache_{name} it)");
        writeln!(source, "{head};\n{head} {{ switch (it) {{ {cases}break; }} }}").unwrap();
    }
    accept("switches", &source);
}

#[test]
fn texts_are_those_of_c() {
    let expressions: Vec<_> =
        Error::ALL.iter().map(|it| format!("rrcache_status_text({})", it.status())).collect();
    let wanted: Vec<_> = Error::ALL.iter().map(Error::to_string).collect();
    assert_eq!(printed("texts", "%s", &expressions), wanted);
}

/// Returns the type in C for the name of a type in Rust.
fn type_in_c(rust: &str) -> String {
    let rust = rust.trim();
    if let Some(pointed) = rust.strip_prefix("*mut ") {
        return type_in_c(pointed) + " *";
    }
    if let Some(pointed) = rust.strip_prefix("*const ") {
        return format!("const {} *", type_in_c(pointed));
    }
    match rust.rsplit("::").next().unwrap() {
        "bool" => "bool".into(),
        "c_void" | "()" => "void".into(),
        "i8" | "u8" => "char".into(),
        "i32" => "int".into(),
        "u32" => "uint32_t".into(),
        "u64" => "uint64_t".into(),
        "usize" => "size_t".into(),
        "Stats" => "struct rrcache_stats".into(),
        name => format!("struct {name}"),
    }
}

/// Returns the definition in C of a pointer to a function, from the name of the function and its
/// type in Rust.
fn pointer_in_c(name: &str, rust: &str) -> String {
    let sink =
        "unsafe extern \"C\" fn(*mut core::ffi::c_void, u64, *const core::ffi::c_void, usize) \
                -> i32";
    let text = rust.replacen("unsafe extern \"C\" fn(", "", 1).replace(sink, "SINK");
    let (taken, returned) = text.rsplit_once(')').unwrap();
    let returned = returned.trim().strip_prefix("->").unwrap_or("()");
    let taken: Vec<_> = taken.split(',').filter(|it| !it.is_empty()).map(type_in_c).collect();
    let taken = if taken.is_empty() { "void".into() } else { taken.join(", ") };
    let taken = taken.replace("struct SINK", "rrcache_shelf_sink");
    format!("{} (*const check_{name})({taken}) = {name};\n", type_in_c(returned))
}

/// The functions, each as a pointer in C.
macro_rules! pointers {
    ($($name:ident($($taken:tt)*) $(-> $returned:tt)?,)*) => {
        [$(pointer_in_c(
            stringify!($name),
            type_name_of_val(&($name as unsafe extern "C" fn($($taken)*) $(-> $returned)?)),
        ),)*]
    };
}

#[test]
fn functions_have_their_types_in_c() {
    let pointers = pointers! {
        rrcache_open(_, _) -> _,
        rrcache_close(_),
        rrcache_lookup(_, _, _) -> _,
        rrcache_lookup_delegation(_, _, _) -> _,
        rrcache_next(_, _) -> _,
        rrcache_store(_, _, _, _, _) -> _,
        rrcache_store_set(_, _, _) -> _,
        rrcache_store_negative(_, _, _) -> _,
        rrcache_store_failure(_, _, _) -> _,
        rrcache_forget(_, _) -> _,
        rrcache_sweep_all(_, _, _, _) -> _,
        rrcache_stats(_, _) -> _,
        rrcache_stats_of(_, _, _) -> _,
        rrcache_stats_text(_, _, _) -> _,
        rrcache_record_all(_) -> _,
        rrcache_stop_recording_all(_, _, _) -> _,
        rrcache_dump(_, _, _) -> _,
        rrc_version() -> _,
    };
    accept("functions", &pointers.concat());
}
