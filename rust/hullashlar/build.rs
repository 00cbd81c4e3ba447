//! Links the archive, libhullashlar.a: that of the folder HULLASHLAR_ARCHIVE_DIR, by default of the one where `make archive` puts it.

use std::env;
use std::path::{Path, PathBuf};

fn main() {
    println!("cargo::rerun-if-env-changed=HULLASHLAR_ARCHIVE_DIR");
    println!("cargo::rerun-if-changed=build.rs");
    let folder = archive_folder();
    let archive = folder.join("libhullashlar.a");
    println!("cargo::rerun-if-changed={}", archive.display());
    if !archive.is_file() {
        println!(
            "cargo::warning=the archive is missing: {}; make it with `make archive`, or set HULLASHLAR_ARCHIVE_DIR to its folder",
            archive.display()
        );
        return;
    }
    println!("cargo::rustc-link-search=native={}", folder.display());
    println!("cargo::rustc-link-lib=static=hullashlar");
}

fn archive_folder() -> PathBuf {
    let manifest = env::var("CARGO_MANIFEST_DIR").expect("cargo sets CARGO_MANIFEST_DIR");
    let made = Path::new(&manifest).join("../../target/staticlib");
    env::var_os("HULLASHLAR_ARCHIVE_DIR").map_or(made, PathBuf::from)
}
