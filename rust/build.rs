//! Finds the proved library and has cargo link it.

use std::env;
use std::path::{Path, PathBuf};
use std::process::exit;

/// Where `library`, at the top of the repository, leaves the archive, as seen from this crate.
const BUILT: &str = "../target/staticlib";

const ARCHIVE: &str = "libtandrekily.a";

fn folder() -> PathBuf {
    PathBuf::from(env::var_os("TANDREKILY_LIB").unwrap_or_else(|| BUILT.into()))
}

/// A relative folder would mean another place to the linker than it does here.
fn absolute(folder: &Path) -> PathBuf {
    folder.join(ARCHIVE).canonicalize().unwrap_or_else(|error| {
        eprintln!("{} in {}: {error}", ARCHIVE, folder.display());
        eprintln!(
            "Run `../library` first, or name the archive's folder in TANDREKILY_LIB."
        );
        exit(1)
    })
}

/// Elsewhere the crate can be checked and its documentation made, so this is no error.
fn warn_of_other_machines() {
    let machine = env::var("CARGO_CFG_TARGET_ARCH").unwrap_or_default();
    if machine != "x86_64" {
        println!("cargo:warning={ARCHIVE} is for x86-64: a program for {machine} can't be linked");
    }
}

fn main() {
    println!("cargo:rerun-if-env-changed=TANDREKILY_LIB");
    let archive = absolute(&folder());
    println!("cargo:rerun-if-changed={}", archive.display());
    warn_of_other_machines();
    let folder = archive.parent().expect("a file stands in a folder");
    println!("cargo:rustc-link-search=native={}", folder.display());
    println!("cargo:rustc-link-lib=static=tandrekily");
}
