//! Finds the archive of the proved library and has it linked.

use std::env;
use std::path::{Path, PathBuf};

/// The variable that names the archive's folder.
const FOLDER_VARIABLE: &str = "KAFSILLUN_LIB_DIR";

/// The archive's folder where the variable is not set, from this crate's folder.
const DEFAULT_FOLDER: &str = "../../target/staticlib";

/// The library's name; its archive is `lib` and this and `.a`.
const LIBRARY: &str = "kafsillun_c";

fn main() {
    let manifest = env::var_os("CARGO_MANIFEST_DIR").expect("cargo sets it");
    let folder = match env::var_os(FOLDER_VARIABLE) {
        Some(folder) => PathBuf::from(folder),
        None => Path::new(&manifest).join(DEFAULT_FOLDER),
    };
    let archive = folder.join(format!("lib{LIBRARY}.a"));
    println!("cargo::rerun-if-env-changed={FOLDER_VARIABLE}");
    println!("cargo::rerun-if-changed={}", archive.display());
    if !archive.is_file() {
        println!(
            "cargo::error=the proved library is missing: no file {}",
            archive.display()
        );
        println!("cargo::error=run `./package` at the repository's top, which proves it and writes it to target/staticlib,");
        println!("cargo::error=or set {FOLDER_VARIABLE} to the folder that has it");
        return;
    }
    let folder = folder.canonicalize().expect("it has the archive");
    println!("cargo::rustc-link-search=native={}", folder.display());
    println!("cargo::rustc-link-lib=static={LIBRARY}");
}
