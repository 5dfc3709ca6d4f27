//! Takes the constants of the C header over into Rust, and links the static library that is tested.
//!
//! The library is `libtesolvagna.a` in the folder that TESOLVAGNA_LIB names (a relative one counts from this package's
//! folder), else in `../target/staticlib`. The tests learn the archive's path from TESOLVAGNA_ARCHIVE, so it is chosen
//! here only. Without the feature `library` nothing is linked.

use std::env;
use std::fmt::Write;
use std::fs;
use std::path::{Path, PathBuf};
use std::process::exit;

fn main() {
    println!("cargo::rerun-if-changed=build.rs");
    println!("cargo::rerun-if-env-changed=TESOLVAGNA_LIB");
    let package = PathBuf::from(env::var_os("CARGO_MANIFEST_DIR").expect("cargo sets CARGO_MANIFEST_DIR"));
    take_constants(&package.join("../include/tesolvagna.h"));
    if env::var_os("CARGO_FEATURE_LIBRARY").is_some() {
        link(&package);
    }
}

/// The header's enumerators without their prefix, as constants: refusal numbers, actions, option bits and kinds of calls as
/// bytes, kinds of contents as `u32`, all places and lengths as `usize`.
fn take_constants(header: &Path) {
    println!("cargo::rerun-if-changed={}", header.display());
    let text = fs::read_to_string(header).expect("the C header can be read");
    let mut constants = String::new();
    let mut kind = None;
    for line in text.lines().map(str::trim) {
        if let Some(name) = line.strip_prefix("enum tesolvagna_").and_then(|rest| rest.strip_suffix(" {")) {
            kind = Some(match name {
                "number" | "action" | "option" | "call" => "u8",
                "content_kind" => "u32",
                _ => "usize",
            });
        } else if line == "};" {
            kind = None;
        } else if let (Some(kind), Some(rest)) = (kind, line.strip_prefix("TESOLVAGNA_")) {
            let (name, value) = rest.trim_end_matches(',').split_once(" = ").expect("an enumerator has a number");
            writeln!(constants, "pub const {name}: {kind} = {value};").expect("a string takes all text");
        }
    }
    let out = PathBuf::from(env::var_os("OUT_DIR").expect("cargo sets OUT_DIR"));
    fs::write(out.join("header.rs"), constants).expect("the output folder can be written");
}

fn link(package: &Path) {
    let folder = package.join(env::var_os("TESOLVAGNA_LIB").unwrap_or("../target/staticlib".into()));
    let archive = folder.join("libtesolvagna.a");
    println!("cargo::rerun-if-changed={}", archive.display());

    let Ok(archive) = archive.canonicalize() else {
        println!("cargo::error=no static library at {}", archive.display());
        exit(1);
    };
    let folder = archive.parent().expect("a file stands in a folder");
    println!("cargo::rustc-link-search=native={}", folder.display());
    println!("cargo::rustc-link-lib=static=tesolvagna");
    println!("cargo::rustc-env=TESOLVAGNA_ARCHIVE={}", archive.display());
}
