//! Links the port's static library out of the folder that ARCHTHIMBLE_LIB names, by default the one where `rust/staticlib` puts it.
use std::path::PathBuf;

fn main() {
    println!("cargo:rerun-if-env-changed=ARCHTHIMBLE_LIB");
    let here = std::env::var("CARGO_MANIFEST_DIR").expect("cargo sets it");
    let folder = std::env::var("ARCHTHIMBLE_LIB").map(PathBuf::from).unwrap_or(PathBuf::from(here).join("../../target/staticlib"));
    let folder = folder.canonicalize().expect("the folder that has libcapi.a; name another by ARCHTHIMBLE_LIB");
    println!("cargo:rerun-if-changed={}", folder.join("libcapi.a").display());
    println!("cargo:rustc-link-search=native={}", folder.display());
    println!("cargo:rustc-link-lib=static=capi");
}
