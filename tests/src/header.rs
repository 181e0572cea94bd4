//! The calls of include/airtable.h as Rust declarations, which build.rs makes from the header's
//! text. A program that calls them links the static library.

include!(concat!(env!("OUT_DIR"), "/header.rs"));
