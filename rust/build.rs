// SPDX-License-Identifier: MIT
//! Finds the C library, and makes cargo link with it. The library is in the folder that
//! `RRCACHE_LIB_DIR` names, otherwise in the one that pkg-config names, otherwise in `build/` of
//! the checkout that contains this crate.

use std::env;
use std::path::{Path, PathBuf};
use std::process::Command;

/// The versions that are supported, in the form of pkg-config: the major version of the crate, with
/// the same or a later minor version.
fn wanted() -> [String; 2] {
    let [major, minor] = ["MAJOR", "MINOR"].map(|part| {
        let number = env::var(format!("CARGO_PKG_VERSION_{part}"));
        number.expect("cargo tells the version").parse::<u32>().expect("it has numbers")
    });
    [format!("rrcache >= {major}.{minor}"), format!("rrcache < {}", major + 1)]
}

fn main() {
    let is_static = env::var_os("CARGO_FEATURE_STATIC").is_some();
    let file = if is_static { "librrcache.a" } else { "librrcache.so" };
    for name in ["RRCACHE_LIB_DIR", "PKG_CONFIG", "PKG_CONFIG_PATH", "PKG_CONFIG_LIBDIR"] {
        println!("cargo::rerun-if-env-changed={name}");
    }
    println!("cargo::rerun-if-changed=build.rs");
    match found(file) {
        Ok(folder) => link(&folder, file, is_static),
        Err(fault) => println!("cargo::error={fault}"),
    }
}

/// Returns the folder of the library, or a line that says why there is none.
fn found(file: &str) -> Result<PathBuf, String> {
    if let Some(named) = env::var_os("RRCACHE_LIB_DIR").map(PathBuf::from) {
        let fault = format!("RRCACHE_LIB_DIR is {}, which has no {file}", named.display());
        return with_file(named, file).ok_or(fault);
    }
    let here = env::var_os("CARGO_MANIFEST_DIR").map(PathBuf::from).unwrap_or_default();
    let installed = installed().and_then(|folder| with_file(folder, file));
    installed.or_else(|| with_file(here.join("../build"), file)).ok_or_else(|| {
        format!(
            "there is no {file}: RRCACHE_LIB_DIR is not set, pkg-config finds no {}, and there is \
             no build/{file} in a checkout that contains this crate (bin/build-c builds it)",
            wanted().join(", ")
        )
    })
}

/// Returns the absolute path of a folder, if it has the file.
fn with_file(folder: PathBuf, file: &str) -> Option<PathBuf> {
    folder.canonicalize().ok().filter(|it| it.join(file).exists())
}

/// Returns the folder of the installed library, if pkg-config finds a supported version.
fn installed() -> Option<PathBuf> {
    let command = env::var_os("PKG_CONFIG").unwrap_or_else(|| "pkg-config".into());
    let exists = Command::new(&command).arg("--exists").args(wanted()).status().ok()?;
    if !exists.success() {
        return None;
    }
    let told = Command::new(&command).args(["--variable=libdir", "rrcache"]).output().ok()?;
    // pkgconf escapes the spaces in the folder of the .pc file
    let folder = String::from_utf8(told.stdout).ok()?.trim_end().replace("\\ ", " ");
    Some(PathBuf::from(folder))
}

/// Makes cargo link with the library in a folder. The build scripts of crates that depend on this
/// one can read the folder from `DEP_RRCACHE_LIB_DIR`. The tests and examples get an rpath, so they
/// find a shared library in this folder.
fn link(folder: &Path, file: &str, is_static: bool) {
    let shown = folder.display();
    println!("cargo::rerun-if-changed={}", folder.join(file).display());
    println!("cargo::rustc-link-search=native={shown}");
    println!("cargo::metadata=LIB_DIR={shown}");
    if is_static {
        println!("cargo::rustc-link-lib=static=rrcache");
        println!("cargo::rustc-link-lib=pthread");
    } else {
        println!("cargo::rustc-link-lib=dylib=rrcache");
        println!("cargo::rustc-link-arg=-Wl,-rpath,{shown}");
    }
}
