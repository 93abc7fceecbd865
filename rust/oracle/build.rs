//! Names the published files, wherever they stand, as modules of this crate. `seek_contiguous` is cut out of its file word for word,
//! since that file also names modules that aren't published here.
use std::path::{Path, PathBuf};
use std::{env, fs};

fn main() {
    println!("cargo:rerun-if-env-changed=ARCHTHIMBLE_NTFS_SRC");
    let here = env::var("CARGO_MANIFEST_DIR").expect("cargo sets it");
    let folder = env::var("ARCHTHIMBLE_NTFS_SRC").map(PathBuf::from).unwrap_or(Path::new(&here).join("../../../shared/docs/src"));
    let folder = folder.canonicalize().expect("the folder of the published crate; name another by ARCHTHIMBLE_NTFS_SRC");
    let source = folder.join("src");
    println!("cargo:rerun-if-changed={}", source.display());
    let module = |name: &str, path: &str| {
        let path = source.join(path);
        format!("#[allow(warnings)]\n#[path = {:?}]\npub(crate) mod {name};\n", path.display().to_string())
    };
    let mut code = String::new();
    for name in ["boot_sector", "error", "record", "traits", "types"] {
        code += &module(name, &format!("{name}.rs"));
    }
    let text = fs::read_to_string(source.join("attribute_value/mod.rs")).expect("attribute_value/mod.rs");
    let start = text.find("pub(crate) fn seek_contiguous(").expect("seek_contiguous");
    let seek = &text[start..];
    code += "pub(crate) mod attribute_value {\n";
    code += "use binrw::io::{self, SeekFrom};\nuse crate::error::{NtfsError, Result};\n";
    code += &module("non_resident", "attribute_value/non_resident.rs");
    code += &format!("{seek}\n}}\n");
    let out = Path::new(&env::var("OUT_DIR").expect("cargo sets it")).join("published.rs");
    fs::write(out, code).expect("the generated file");
}
