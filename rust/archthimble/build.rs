//! Links the proved library `libcapi.a`: out of the folder that ARCHTHIMBLE_LIB names, otherwise as the toolchain proves and builds it now.
use std::env;
use std::path::{Path, PathBuf};
use std::process::{exit, Command};

fn main() {
    println!("cargo:rerun-if-changed=build.rs");
    println!("cargo:rerun-if-env-changed=ARCHTHIMBLE_LIB");
    let folder = match env::var_os("ARCHTHIMBLE_LIB") {
        Some(folder) => given(PathBuf::from(folder)),
        None => proved(),
    };
    println!("cargo:rustc-link-search=native={}", folder.display());
    println!("cargo:rustc-link-lib=static=capi");
}

/// The folder that was named; cargo looks again whenever the library in it changes.
fn given(folder: PathBuf) -> PathBuf {
    let folder = folder.canonicalize().unwrap_or(folder);
    let library = folder.join("libcapi.a");
    if !library.is_file() {
        give_up(&format!("ARCHTHIMBLE_LIB names {}, but there is no libcapi.a in it", folder.display()));
    }
    println!("cargo:rerun-if-changed={}", library.display());
    folder
}

/// The folder into which `rust/staticlib` writes. Only the sources are watched: what the toolchain writes, into `crates/NAME/out` too, is
/// newer than this build's start, and cargo would take that for a change at every build.
fn proved() -> PathBuf {
    let root = Path::new(&env::var_os("CARGO_MANIFEST_DIR").expect("cargo sets it")).join("../..");
    println!("cargo:rerun-if-changed={}", root.join("crates.txt").display());
    for source in sources(&root.join("crates")) {
        println!("cargo:rerun-if-changed={}", source.display());
    }
    let script = root.join("rust/staticlib");
    match Command::new(&script).status() {
        Ok(status) if status.success() => (),
        Ok(status) => give_up(&format!("{} ended with {status}", script.display())),
        Err(error) => give_up(&format!("{} could not be started: {error}", script.display())),
    }
    let folder = root.join("target/staticlib");
    if !folder.join("libcapi.a").is_file() {
        give_up(&format!("{} left no libcapi.a in {}", script.display(), folder.display()));
    }
    folder
}

/// What the proved crates are made of.
fn sources(crates: &Path) -> Vec<PathBuf> {
    let folders = crates.read_dir().into_iter().flatten().flatten().map(|entry| entry.path());
    folders.flat_map(|folder| ["src", "specs", "proofs"].map(|part| folder.join(part))).filter(|path| path.is_dir()).collect()
}

fn give_up(why: &str) -> ! {
    eprintln!("archthimble: {why}.");
    eprintln!("Either set ARCHTHIMBLE_LIB to the folder that has libcapi.a, or put the toolchain's command 'rt' on the PATH");
    eprintln!("and build inside the project, where this crate lies in rust/archthimble.");
    exit(1)
}
