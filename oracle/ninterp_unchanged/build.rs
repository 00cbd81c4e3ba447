//! Copies the given files of ninterp, byte for byte, to where they are compiled.

use std::path::{Path, PathBuf};
use std::{env, fs, process};

/// The files, as they are named below the given folder.
const FILES: [&str; 3] = [
    "src/strategy/cubic/mod.rs",
    "src/strategy/cubic/utils.rs",
    "src/strategy/utils.rs",
];

fn main() {
    println!("cargo::rerun-if-env-changed=NINTERP_SRC");
    println!("cargo::rerun-if-changed=build.rs");
    let given = given_folder();
    let compiled = PathBuf::from(variable("OUT_DIR"));
    for file in FILES {
        copy(&given.join(file), &compiled.join(file));
    }
    let modules = module_lines(&compiled.join("src/strategy"));
    fs::write(compiled.join("modules.rs"), modules).expect("the output folder can be written");
    println!("cargo::rustc-env=NINTERP_GIVEN={}", given.display());
}

fn variable(name: &str) -> String {
    env::var(name).unwrap_or_else(|_| panic!("cargo sets {name}"))
}

/// The folder of NINTERP_SRC, or the one beside the repository.
fn given_folder() -> PathBuf {
    let beside = Path::new(&variable("CARGO_MANIFEST_DIR")).join("../../../shared/docs/src");
    let named = env::var_os("NINTERP_SRC").map_or(beside, PathBuf::from);
    named.canonicalize().unwrap_or_else(|error| {
        println!(
            "cargo::error=the folder of ninterp is missing: {} ({error}); \
             set NINTERP_SRC to the folder that has src/strategy/cubic/mod.rs",
            named.display()
        );
        process::exit(1)
    })
}

fn copy(given: &Path, compiled: &Path) {
    println!("cargo::rerun-if-changed={}", given.display());
    let folder = compiled.parent().expect("a file stands in a folder");
    fs::create_dir_all(folder).expect("the output folder can be written");
    let bytes = fs::read(given).unwrap_or_else(|error| {
        println!("cargo::error=cannot read {} ({error})", given.display());
        process::exit(1)
    });
    fs::write(compiled, bytes).expect("the output folder can be written");
}

/// The module lines of ninterp's `strategy`, with the places of the copies. Its
/// `utils` is `grid` here: included lines may not hide the `utils` of `cubic`.
fn module_lines(strategy: &Path) -> String {
    let module = |name: &str, file: &str| {
        let path = strategy.join(file);
        format!("#[path = {path:?}]\n#[allow(dead_code, unused_imports)]\npub(crate) mod {name};\n")
    };
    module("cubic", "cubic/mod.rs") + &module("grid", "utils.rs")
}
