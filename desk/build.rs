//! Makes the Rust declarations of include/airtable.h and links libcapi.a, whose directory is in CAPI_LIB_DIR, to every program and
//! test of this package. A report names the header's version, the library and the toolchain, so these are handed on.

#[allow(dead_code)]
#[path = "../tests/src/prototypes.rs"]
mod prototypes;

/// The header, seen from this folder.
const HEADER: &str = "../include/airtable.h";

/// What `rt version` says, or that nobody knows.
fn toolchain() -> String {
    let said = std::process::Command::new("rt").arg("version").output();
    let text = said.ok().filter(|said| said.status.success()).and_then(|said| String::from_utf8(said.stdout).ok());
    text.and_then(|text| text.lines().next().map(str::to_string)).unwrap_or("not known".into())
}

/// The version of the sources, by the script that builds the program, or that nobody knows.
fn sources() -> String {
    std::env::var("DESK_SOURCES").ok().filter(|text| !text.is_empty()).unwrap_or("not known".into())
}

fn main() {
    for file in ["build.rs", "../tests/src/prototypes.rs", HEADER] {
        println!("cargo:rerun-if-changed={file}");
    }
    println!("cargo:rerun-if-env-changed=CAPI_LIB_DIR");
    let header = std::fs::read_to_string(HEADER).unwrap();
    let declarations = prototypes::rust_declarations(&prototypes::prototypes(&header));
    let out = std::env::var("OUT_DIR").unwrap();
    std::fs::write(format!("{out}/header.rs"), declarations).unwrap();
    let version = prototypes::constants(&header).into_iter().find(|(name, _)| name == "AIRTABLE_VERSION").unwrap().1;
    println!("cargo:rustc-env=INTERFACE={version}");
    let folder = std::env::var("CAPI_LIB_DIR").expect("CAPI_LIB_DIR names no folder with libcapi.a");
    let archive = format!("{folder}/libcapi.a");
    println!("cargo:rerun-if-changed={archive}");
    println!("cargo:rustc-link-arg={archive}");
    println!("cargo:rustc-env=CAPI_LIB={archive}");
    println!("cargo:rustc-env=TOOLCHAIN={}", toolchain());
    println!("cargo:rerun-if-env-changed=DESK_SOURCES");
    println!("cargo:rustc-env=SOURCES={}", sources());
}
