//! Links the archive, and the limit where the folder of its C is at hand: that of LIMIT_SRC, by default the one beside the
//! repository, which is for x86-64 alone. Where there is none, the benchmark is built without the limit's lines.

#[path = "../archive.rs"]
mod archive;

use std::env;
use std::path::{Path, PathBuf};
use std::process::Command;

fn main() {
    archive::link();
    println!("cargo::rerun-if-env-changed=LIMIT_SRC");
    println!("cargo::rustc-check-cfg=cfg(limit)");
    let sources = LIMIT.map(|file| limit_folder().join(file));
    for source in &sources {
        println!("cargo::rerun-if-changed={}", source.display());
    }
    let machine = env::var("CARGO_CFG_TARGET_ARCH").expect("cargo sets CARGO_CFG_TARGET_ARCH");
    let is_for_it = machine == "x86_64" || env::var_os("LIMIT_SRC").is_some();
    if sources.iter().all(|source| source.is_file()) && is_for_it {
        link_limit(&sources, &machine);
        println!("cargo::rustc-cfg=limit");
    }
}

/// The files of the limit whose calls are measured: builds, changes and queries; verifications; the calls of sheets; those that are
/// asked at a point, direct queries among them; and queries of many points.
const LIMIT: [&str; 8] = [
    "limit.c",
    "limit_tensor.c",
    "limit_sheet.c",
    "limit_query.c",
    "limit_many.c",
    "limit_curve.c",
    "limit_step.c",
    "limit_device.c",
];

fn limit_folder() -> PathBuf {
    let manifest = env::var("CARGO_MANIFEST_DIR").expect("cargo sets CARGO_MANIFEST_DIR");
    let beside = Path::new(&manifest).join("../../../shared/limit");
    env::var_os("LIMIT_SRC").map_or(beside, PathBuf::from)
}

/// The flags are those that the limit's own page asks for; the least of the machine's kind is what the archive is for too.
fn link_limit(sources: &[PathBuf], machine: &str) {
    let folder = PathBuf::from(env::var_os("OUT_DIR").expect("cargo sets OUT_DIR"));
    let least = match machine {
        "x86_64" => "-march=x86-64",
        _ => "-march=armv8-a",
    };
    let mut archive = Command::new("ar");
    archive.arg("crs").arg(folder.join("liblimit.a"));
    for (number, source) in sources.iter().enumerate() {
        let object = folder.join(format!("limit_{number}.o"));
        run(Command::new("gcc")
            .args(["-std=c11", "-O3", least, "-ffp-contract=off", "-c"])
            .arg(source)
            .arg("-o")
            .arg(&object));
        archive.arg(object);
    }
    run(&mut archive);
    println!("cargo::rustc-link-search=native={}", folder.display());
    println!("cargo::rustc-link-lib=static=limit");
}

fn run(command: &mut Command) {
    let ended = command.status().expect("gcc and ar are installed");
    assert!(ended.success(), "the limit can be compiled");
}
