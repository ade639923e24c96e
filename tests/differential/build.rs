//! Links the archive that `bin/staticlib` makes. Where there is none, or where WITHOUT_LIBRARY is set, the reference
//! stands in the library's place.

use std::env;
use std::path::PathBuf;

fn main() {
    let folder = PathBuf::from(env::var("CARGO_MANIFEST_DIR").unwrap_or_default()).join("../../target/staticlib");
    let archive = folder.join("libcapi.a");
    println!("cargo:rustc-check-cfg=cfg(without_library)");
    println!("cargo:rerun-if-env-changed=WITHOUT_LIBRARY");
    println!("cargo:rerun-if-changed={}", archive.display());
    if env::var_os("WITHOUT_LIBRARY").is_some() || !archive.is_file() {
        println!("cargo:rustc-cfg=without_library");
    } else {
        println!("cargo:rustc-link-search=native={}", folder.display());
    }
}
