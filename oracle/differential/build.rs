//! Links the archive.

#[path = "../archive.rs"]
mod archive;

fn main() {
    archive::link();
}
