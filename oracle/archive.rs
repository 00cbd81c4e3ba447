//! Links the archive, for the build of every program that makes its calls. The tests make none, so they are built where there is none.

use std::env;
use std::path::{Path, PathBuf};

pub fn link() {
    println!("cargo::rerun-if-env-changed=HULLASHLAR_ARCHIVE_DIR");
    println!("cargo::rerun-if-changed=build.rs");
    println!("cargo::rerun-if-changed=../archive.rs");
    let folder = archive_folder();
    let archive = folder.join("libhullashlar.a");
    println!("cargo::rerun-if-changed={}", archive.display());
    if !archive.is_file() {
        println!(
            "cargo::warning=the archive is missing: {}; all but the tests wants it: make it with \
             `make archive`, or set HULLASHLAR_ARCHIVE_DIR to its folder",
            archive.display()
        );
        return;
    }
    println!("cargo::rustc-link-search=native={}", folder.display());
    println!("cargo::rustc-link-lib=static=hullashlar");
}

/// The folder of HULLASHLAR_ARCHIVE_DIR, or where the repository builds the archive.
fn archive_folder() -> PathBuf {
    let manifest = env::var("CARGO_MANIFEST_DIR").expect("cargo sets CARGO_MANIFEST_DIR");
    let built = Path::new(&manifest).join("../../target/staticlib");
    env::var_os("HULLASHLAR_ARCHIVE_DIR").map_or(built, PathBuf::from)
}
