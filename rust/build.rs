//! Finds libhekatosuy.a, the archive of the proved store, and links it.
//!
//! Its folder is the one that HEKATOSUY_LIB_DIR names, by its whole path or as seen from this
//! crate; without it `../target/staticlib`, where the repository's `./archive` writes it. Where it is not
//! there `cargo check` and `cargo doc` pass, with a warning that says why no program can be linked.

use std::env;
use std::path::PathBuf;

const DEFAULT_FOLDER: &str = "../target/staticlib";

fn main() {
    println!("cargo:rerun-if-env-changed=HEKATOSUY_LIB_DIR");
    let machine = env::var("CARGO_CFG_TARGET_ARCH").unwrap_or_default();
    if machine != "x86_64" {
        println!("cargo:warning=libhekatosuy.a is x86-64 code and cannot be linked into a program for {machine}: build for x86_64-unknown-linux-gnu");
    }
    let named = env::var_os("HEKATOSUY_LIB_DIR").filter(|name| !name.is_empty());
    let crate_folder = PathBuf::from(env::var_os("CARGO_MANIFEST_DIR").expect("cargo names the crate's folder"));
    let folder = crate_folder.join(named.map_or(DEFAULT_FOLDER.into(), PathBuf::from));
    let archive = folder.join("libhekatosuy.a");
    if !archive.is_file() {
        println!(
            "cargo:warning={} is not there: write it with `./archive` in the repository's folder, or name its folder in HEKATOSUY_LIB_DIR",
            archive.display()
        );
    }
    println!("cargo:rerun-if-changed={}", archive.display());
    println!("cargo:rustc-link-search=native={}", folder.display());
    println!("cargo:rustc-link-lib=static=hekatosuy");
}
