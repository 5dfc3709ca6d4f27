//! The constants of the C header, under their names without the prefix: the build script takes them over, so that a number
//! or a place has one source for C and for Rust. The header's comments say what each means.

include!(concat!(env!("OUT_DIR"), "/header.rs"));
