//! Links libcapi.a, whose directory is in CAPI_LIB_DIR, to the program `bench`.

/// Reads CAPI_LIB_DIR and hands the archive to the linker.
fn main() {
    println!("cargo:rerun-if-env-changed=CAPI_LIB_DIR");
    println!("cargo:rerun-if-changed=build.rs");
    let Ok(dir) = std::env::var("CAPI_LIB_DIR") else {
        println!("cargo:warning=CAPI_LIB_DIR is not set: bench can be checked but not linked");
        return;
    };
    let archive = std::path::Path::new(&dir).join("libcapi.a");
    println!("cargo:rerun-if-changed={}", archive.display());
    println!("cargo:rustc-link-arg-bins={}", archive.display());
}
