//! Links `libbanlothek.a`, from the folder that BANLOTHEK_LIB names, else from the repository's
//! `target/staticlib`. The archive is for x86-64 Linux: for any other target nothing is linked, so
//! that the crate can still be checked and documented there.

use std::env;
use std::path::{Path, PathBuf};
use std::process::exit;

fn main() {
    println!("cargo:rerun-if-changed=build.rs");
    println!("cargo:rerun-if-env-changed=BANLOTHEK_LIB");
    if is_for_the_archive() {
        link(&folder());
    }
}

/// Whether the target is one that the archive is for.
fn is_for_the_archive() -> bool {
    let is = |what: &str, value: &str| env::var(what).as_deref() == Ok(value);
    is("CARGO_CFG_TARGET_ARCH", "x86_64")
        && is("CARGO_CFG_TARGET_OS", "linux")
        && is("CARGO_CFG_TARGET_POINTER_WIDTH", "64")
}

/// The archive's folder. One that isn't absolute is taken from the manifest's.
fn folder() -> PathBuf {
    let manifest = PathBuf::from(env::var_os("CARGO_MANIFEST_DIR").unwrap_or_default());
    match env::var_os("BANLOTHEK_LIB") {
        Some(named) if !named.is_empty() => manifest.join(named),
        _ => manifest.join("../../target/staticlib"),
    }
}

fn link(folder: &Path) {
    let archive = folder.join("libbanlothek.a");
    if !archive.is_file() {
        eprintln!("error: there is no {}", archive.display());
        eprintln!("the repository's bin/library writes it to target/staticlib;");
        eprintln!("if it is in another folder, set BANLOTHEK_LIB to that one");
        exit(1);
    }
    println!("cargo:rerun-if-changed={}", archive.display());
    println!("cargo:rustc-link-search=native={}", folder.display());
    println!("cargo:rustc-link-lib=static=banlothek");
}
