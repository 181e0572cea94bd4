//! Makes the Rust declarations of include/airtable.h (for src/header.rs), and links libcapi.a
//! (its directory is in CAPI_LIB_DIR) to the program `compare` alone, and only when the feature `capi`
//! is asked for; `cargo test` works without the library.
//!
//! The archive is named as a linker argument and not as `rustc-link-lib=static=capi`: that would
//! pack it into this package's own library and link every program with it.

#[allow(dead_code)]
#[path = "src/prototypes.rs"]
mod prototypes;

/// The header, seen from this folder.
const HEADER: &str = "../include/airtable.h";

/// Writes the declarations and hands the archive to the linker.
fn main() {
    println!("cargo:rerun-if-changed=build.rs");
    println!("cargo:rerun-if-changed=src/prototypes.rs");
    println!("cargo:rerun-if-changed={HEADER}");
    let header = std::fs::read_to_string(HEADER).unwrap();
    let declarations = prototypes::rust_declarations(&prototypes::prototypes(&header));
    std::fs::write(std::path::Path::new(&std::env::var("OUT_DIR").unwrap()).join("header.rs"), declarations).unwrap();
    link();
}

/// Reads CAPI_LIB_DIR and hands the archive to the linker.
fn link() {
    println!("cargo:rerun-if-env-changed=CAPI_LIB_DIR");
    if std::env::var_os("CARGO_FEATURE_CAPI").is_none() {
        return;
    }
    let Ok(dir) = std::env::var("CAPI_LIB_DIR") else {
        println!("cargo:warning=CAPI_LIB_DIR is not set: compare can be checked but not linked");
        return;
    };
    let archive = std::path::Path::new(&dir).join("libcapi.a");
    println!("cargo:rerun-if-changed={}", archive.display());
    println!("cargo:rustc-link-arg-bin=compare={}", archive.display());
}
