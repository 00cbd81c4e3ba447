//! Writes what each program of a folder of crates must print into its `stdout`.

use printed::printed;
use std::path::Path;
use std::{env, fs, io};

fn main() -> io::Result<()> {
    let folder = env::args().nth(1).expect("printed FOLDER_OF_CRATES");
    for entry in fs::read_dir(folder)? {
        let crate_folder = entry?.path();
        if crate_folder.join("stdout").exists() {
            write(&crate_folder)?;
        }
    }
    Ok(())
}

fn write(crate_folder: &Path) -> io::Result<()> {
    let name = crate_folder.file_name().and_then(|name| name.to_str());
    let name = name.expect("a crate has a name");
    let input = fs::read(crate_folder.join("stdin")).unwrap_or_default();
    let text = printed(name, &input).unwrap_or_else(|| panic!("no program {name} is known"));
    fs::write(crate_folder.join("stdout"), text)
}
