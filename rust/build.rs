//! Links the proved archive libhost.a.

use std::path::{Path, PathBuf};

const VARIABLE: &str = "YUTHSAOK_ARCHIVE_DIR";

fn main() {
    println!("cargo::rerun-if-changed=build.rs");
    println!("cargo::rerun-if-env-changed={VARIABLE}");
    let folder = match std::env::var_os(VARIABLE).filter(|folder| !folder.is_empty()) {
        Some(folder) => PathBuf::from(folder),
        None => Path::new(&std::env::var_os("CARGO_MANIFEST_DIR").expect("cargo sets it")).join("../target/staticlib"),
    };
    // Cargo runs this in the crate's folder, and the linker somewhere else.
    let folder = std::path::absolute(folder).expect("a folder's name");
    let archive = folder.join("libhost.a");
    println!("cargo::rerun-if-changed={}", archive.display());
    if !archive.is_file() {
        let how = format!("make it by `tools/archive host` in the repository's root, or set {VARIABLE} to the folder that has it");
        println!("cargo::error=there is no {}: {how}", archive.display());
        return;
    }
    println!("cargo::rustc-link-search=native={}", folder.display());
    println!("cargo::rustc-link-lib=static=host");
}
